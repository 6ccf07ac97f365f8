/* Takes the place of `open`, `read` and `write` in the program that it is loaded into, counts the calls, and makes one of them fail.
 *
 * The variables of the environment are numbers. A file's number is its place among the files that were opened, from 1; 0 is standard input.
 *
 *   OPENED       the number of the file that can't be opened, with the error ERROR; with LATER=1 no later one can either
 *   READ         the number of the file of which a read fails, once, after ROOM bytes, with the error ERROR
 *   LENGTH       in place of that, the file READ has this number of bytes, which are all 0
 *   WRITTEN      1 or 2: the output of which each write fails after ROOM bytes, with the error ERROR, or takes nothing if that is 0; with
 *                ONCE=1 only one write fails
 *   GIVEN        the largest number of bytes that a read gives
 *   TAKEN        the largest number of bytes that a write takes
 *   INTERRUPTED  a sum of 1 for reads, 2 for writes to standard output, 4 for standard error: a signal interrupts these once before each
 *   SECONDS      a program that runs longer is ended by SIGALRM; it is 20 if it isn't given
 *   COUNTED      the name of a file in which the counts stand at any time, as a `long` each: the files opened, the writes to standard
 *                output and to standard error, a 0, and then, for standard input and each file, the reads and the bytes given */
#include <errno.h>
#include <fcntl.h>
#include <limits.h>
#include <stdarg.h>
#include <stdlib.h>
#include <string.h>
#include <sys/mman.h>
#include <sys/syscall.h>
#include <unistd.h>

enum { FILES = 14, COUNTS = 32, DESCRIPTORS = 64 };

static long unseen[COUNTS];
static long *seen = unseen, *reads = unseen + 4;
/* The number of the file of each descriptor, and -1 for all others. */
static int number_of[DESCRIPTORS];
static long written[3];
static int is_next[3];
static int has_begun, has_failed;
static long no_open, is_later, no_read, length, no_write, room, once, error, given, taken, interrupted;

static long value(const char *name, long otherwise) {
    const char *digits = getenv(name);
    return digits == NULL ? otherwise : atol(digits);
}

__attribute__((constructor)) static void begin(void) {
    const char *name = getenv("COUNTED");
    if (name != NULL) {
        int file = open(name, O_RDWR);
        void *counts = mmap(NULL, sizeof unseen, PROT_READ | PROT_WRITE, MAP_SHARED, file, 0);
        if (counts == MAP_FAILED) abort();
        close(file);
        seen = counts;
        reads = seen + 4;
    }
    no_open = value("OPENED", 0);
    is_later = value("LATER", 0);
    no_read = value("READ", -1);
    length = value("LENGTH", -1);
    no_write = value("WRITTEN", 0);
    room = value("ROOM", LONG_MAX);
    once = value("ONCE", 0);
    error = value("ERROR", 0);
    given = value("GIVEN", LONG_MAX);
    taken = value("TAKEN", LONG_MAX);
    interrupted = value("INTERRUPTED", 0);
    for (int descriptor = 1; descriptor < DESCRIPTORS; descriptor++) number_of[descriptor] = -1;
    has_begun = 1;
    alarm(value("SECONDS", 20));
}

static long fails(long with) {
    errno = with;
    return -1;
}

static long least(long one, long other) { return one < other ? one : other; }

/* Whether a signal interrupts this call: each other one of its kind, and first of all the first. */
static int is_interrupted(int kind) {
    if (!(interrupted >> kind & 1)) return 0;
    is_next[kind] = !is_next[kind];
    return is_next[kind];
}

int open(const char *path, int flags, ...) {
    va_list more;
    va_start(more, flags);
    int mode = flags & O_CREAT ? va_arg(more, int) : 0;
    va_end(more);
    long number = has_begun ? ++seen[0] : 0;
    if (number > 0 && (number == no_open || (is_later && no_open > 0 && number > no_open))) return fails(error);
    int file = syscall(SYS_openat, AT_FDCWD, path, flags, mode);
    if (number > 0 && file >= 0 && file < DESCRIPTORS) number_of[file] = number;
    return file;
}

ssize_t read(int file, void *bytes, size_t size) {
    long number = file >= 0 && file < DESCRIPTORS ? number_of[file] : -1;
    if (number < 0 || number >= FILES) return syscall(SYS_read, file, bytes, size);
    long *count = &reads[2 * number], most = least(size, given);
    *count += 1;
    if (is_interrupted(0)) return fails(EINTR);
    if (number == no_read && length >= 0) {
        most = least(most, length - count[1]);
        memset(bytes, 0, most);
        count[1] += most;
        return most;
    }
    if (number == no_read && !has_failed) {
        most = least(most, room - count[1]);
        if (most == 0) {
            has_failed = 1;
            return fails(error);
        }
    }
    long came = syscall(SYS_read, file, bytes, most);
    if (came > 0) count[1] += came;
    return came;
}

ssize_t write(int file, const void *bytes, size_t size) {
    if (file != 1 && file != 2) return syscall(SYS_write, file, bytes, size);
    long most = least(size, taken);
    seen[file] += 1;
    if (is_interrupted(file)) return fails(EINTR);
    if (file == no_write && !(once && has_failed)) {
        most = least(most, room - written[file]);
        if (most == 0 && size > 0) {
            has_failed = 1;
            return error == 0 ? 0 : fails(error);
        }
    }
    long went = syscall(SYS_write, file, bytes, most);
    if (went > 0) written[file] += went;
    return went;
}
