/* The C library of the program in a page: what the compiled program asks of an operating system, by the six calls of src/host.js.

   It has one thread. Files are opened to be read only, and have numbers from 3; 1 and 2 are standard output and standard error.
   A call of the program is one instance of the module, so nothing is given back at its end. */

typedef unsigned long size;

#define HOST(name) __attribute__((import_module("host"), import_name(#name)))

HOST(argument) extern long host_argument(size index, char *to, size room);
HOST(open) extern int host_open(const char *name, size length);
HOST(read) extern long host_read(int file, char *to, size room);
HOST(write) extern long host_write(int file, const char *from, size length);
HOST(close) extern int host_close(int file);
HOST(exit) extern _Noreturn void host_exit(int status);

/* The compiled program begins here. */
int main(void);

int run(void) { return main(); }

/* ---- Errors: Linux's numbers, which the program knows. */

enum { NO_SUCH_FILE = 2, TRY_AGAIN = 11, NO_MEMORY = 12, NOT_HERE = 38 };

static int last_error;

int rattle_errno(void) { return last_error; }
void rattle_set_errno(int error) { last_error = error; }

static int fail(int error) {
  last_error = error;
  return -1;
}

/* ---- The heap: blocks whose sizes are powers of two, each with a header. A free block lies in the list of its power. */

struct block {
  size power;
  struct block *next; /* while it is free; the block's bytes begin behind the header */
};

enum { SMALLEST = 5, POWERS = 48, PAGE = 16 };

extern char __heap_base; /* by the linker: behind the stack and the program's constants */

static struct block *free_blocks[POWERS];
static size heap_end; /* the first byte that no block has */

static size memory_end(void) { return __builtin_wasm_memory_size(0) << PAGE; }

/* A new block of this power behind the others, if the page's memory may grow so far. */
static struct block *new_block(size power) {
  if (heap_end == 0) heap_end = ((size)&__heap_base + 15) & ~15ul;
  size bytes = 1ul << power;
  if (memory_end() - heap_end < bytes) {
    size lacking = bytes - (memory_end() - heap_end);
    size pages = (lacking + (1ul << PAGE) - 1) >> PAGE;
    if (__builtin_wasm_memory_grow(0, pages) == -1ul) return 0;
  }
  struct block *made = (struct block *)heap_end;
  heap_end += bytes;
  made->power = power;
  return made;
}

void *malloc(size bytes) {
  size power = SMALLEST;
  while (power < POWERS && (1ul << power) - sizeof(struct block) < bytes) power++;
  struct block *found = power < POWERS ? free_blocks[power] : 0;
  if (found) {
    free_blocks[power] = found->next;
  } else if (power == POWERS || !(found = new_block(power))) {
    last_error = NO_MEMORY;
    return 0;
  }
  return found + 1;
}

void free(void *bytes) {
  if (!bytes) return;
  struct block *given = (struct block *)bytes - 1;
  given->next = free_blocks[given->power];
  free_blocks[given->power] = given;
}

static void *grow(void *old, size bytes) {
  size room = (1ul << ((struct block *)old - 1)->power) - sizeof(struct block);
  if (bytes <= room) return old;
  void *grown = malloc(bytes);
  if (grown) {
    __builtin_memcpy(grown, old, room);
    free(old);
  }
  return grown;
}

/* How the program is told of a block: whether there is one, and a place that isn't null. */
struct given {
  size is_there;
  void *place;
};

static struct given given(void *place) {
  static char nothing;
  return (struct given){place != 0, place ? place : &nothing};
}

struct given rattle_alloc(size bytes, size align) { return given(malloc(bytes ? bytes : align)); }
void rattle_dealloc(void *place) { free(place); }

struct given rattle_realloc(void *place, size old, size bytes, size align) {
  return given(grow(place, bytes ? bytes : align));
}

/* ---- Memory: the engine's own instructions copy and fill. */

void *memcpy(void *to, const void *from, size bytes) { return __builtin_memcpy(to, from, bytes); }
void *memmove(void *to, const void *from, size bytes) { return __builtin_memmove(to, from, bytes); }
void *memset(void *to, int byte, size bytes) { return __builtin_memset(to, byte, bytes); }

int memcmp(const void *one, const void *other, size bytes) {
  const unsigned char *a = one, *b = other;
  for (size at = 0; at < bytes; at++)
    if (a[at] != b[at]) return a[at] < b[at] ? -1 : 1;
  return 0;
}

int bcmp(const void *one, const void *other, size bytes) { return memcmp(one, other, bytes); }

static size length_of(const char *text) {
  size length = 0;
  while (text[length]) length++;
  return length;
}

/* ---- The command line, the environment, which is empty, and files. */

enum { ABSENT = -1 };

long rattle_arg(size index, char *to, size room) { return host_argument(index, to, room); }
long rattle_env(const char *name, char *to, size room) { return ABSENT; }
long rattle_env_at(size index, char *to, size room) { return ABSENT; }

int open(const char *name, int flags, ...) {
  int file = host_open(name, length_of(name));
  return file < 0 ? fail(NO_SUCH_FILE) : file;
}

long read(int file, void *to, size room) { return host_read(file, to, room); }
/* The page has no standard input, so no place in it either. */
long lseek(int file, long offset, int from) { return fail(NOT_HERE); }
/* Nor a clock: there searches end by the number of calls alone. */
int clock_gettime(int clock, void *time) { return fail(NOT_HERE); }
long write(int file, const void *from, size length) { return host_write(file, from, length); }
int close(int file) { return host_close(file); }

_Noreturn void _exit(int status) { host_exit(status); }
_Noreturn void abort(void) { __builtin_trap(); }

/* ---- Threads: none is ever made, and the program works each share in turn. */

int pthread_create(void *thread, const void *how, void *(*work)(void *), void *with) { return TRY_AGAIN; }
int pthread_attr_init(void *how) { return 0; }
int pthread_attr_setguardsize(void *how, size bytes) { return 0; }
int pthread_attr_setstacksize(void *how, size bytes) { return 0; }
int pthread_attr_destroy(void *how) { return 0; }
size pthread_self(void) { return 1; }
int pthread_detach(size thread) { return NOT_HERE; }
int pthread_join(size thread, void **result) { return NOT_HERE; }
int sched_yield(void) { return 0; }
int sched_getaffinity(int thread, size bytes, void *processors) { return fail(NOT_HERE); }
long sysconf(int name) { return 1; } /* it asks for processors alone */

/* ---- Waiting, by Linux's call `futex`: with one thread there is nobody to wake, or to be woken by. */

enum { FUTEX = 202, WAKE = 129, TIMED_OUT = 110 };

long syscall(long number, void *place, long what, long value, void *until, ...) {
  if (number != FUTEX) return fail(NOT_HERE);
  if (what == WAKE) return 0;
  if (*(volatile int *)place != (int)value) return fail(TRY_AGAIN);
  if (until) return fail(TIMED_OUT);
  abort();
}

/* ---- The processor: the program asks whether it has what it was compiled for, and the module has been compiled for another. */

void *__x86_get_cpuid_feature_leaf(unsigned leaf) {
  static unsigned all[8] = {-1u, -1u, -1u, -1u, -1u, -1u, -1u, -1u};
  return all;
}

long __write(int file, const void *from, size length) { return host_write(file, from, length); }

/* ---- Signals: there is none. */

size __sysv_signal(int number, size what) { return 0; }
