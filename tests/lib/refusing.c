/* Refuses one allocation of the program that it is loaded into, and counts the allocations that the program asks for.
 *
 * REFUSED is the number of the allocation that is refused, counted from 1. Without it none is refused. COUNTED names a file. It begins
 * with the number of allocations at any time, as a `long`: the program may end by `_exit`. A program that still runs after 20 seconds is
 * ended by SIGALRM. */
#include <errno.h>
#include <fcntl.h>
#include <stdatomic.h>
#include <stdlib.h>
#include <sys/mman.h>
#include <unistd.h>

void *__libc_malloc(size_t size);
void *__libc_calloc(size_t count, size_t size);
void *__libc_realloc(void *block, size_t size);
void *__libc_memalign(size_t alignment, size_t size);

static atomic_long unseen;
static atomic_long *asked = &unseen;
static long refused;

__attribute__((constructor)) static void begin(void) {
    const char *digits = getenv("REFUSED"), *name = getenv("COUNTED");
    for (; digits != NULL && *digits != 0; digits++) refused = refused * 10 + (*digits - '0');
    if (name != NULL) {
        int file = open(name, O_RDWR);
        void *seen = mmap(NULL, sizeof *asked, PROT_READ | PROT_WRITE, MAP_SHARED, file, 0);
        if (seen == MAP_FAILED) abort();
        asked = seen;
    }
    alarm(20);
}

/* Counts an allocation, and says whether it is the one that is refused. */
static int is_refused(void) {
    if (atomic_fetch_add(asked, 1) + 1 != refused) return 0;
    errno = ENOMEM;
    return 1;
}

void *malloc(size_t size) { return is_refused() ? NULL : __libc_malloc(size); }

void *calloc(size_t count, size_t size) { return is_refused() ? NULL : __libc_calloc(count, size); }

void *realloc(void *block, size_t size) { return is_refused() ? NULL : __libc_realloc(block, size); }

void *memalign(size_t alignment, size_t size) { return is_refused() ? NULL : __libc_memalign(alignment, size); }

void *aligned_alloc(size_t alignment, size_t size) { return is_refused() ? NULL : __libc_memalign(alignment, size); }

int posix_memalign(void **block, size_t alignment, size_t size) {
    *block = is_refused() ? NULL : __libc_memalign(alignment, size);
    return *block == NULL ? ENOMEM : 0;
}
