/* A library for tools/fail_each, loaded before the C library: it counts the calls of a program by kind and lets one of them fail.
 *
 * The environment's FAIL_CALLS names a file, which is shared as `struct told`: which call of which kind fails, and what was seen.
 * Calls are counted from the first constructor on, in all threads; those of the C library's own (a thread's block, say) are too,
 * where they come through these names. */
#define _GNU_SOURCE
#include <dlfcn.h>
#include <errno.h>
#include <fcntl.h>
#include <pthread.h>
#include <stdarg.h>
#include <stdlib.h>
#include <string.h>
#include <sys/mman.h>
#include <unistd.h>

enum { MEMORY, THREAD, OPEN, READ, WRITE, EMPTY_WRITE, SHORT_READ, SHORT_WRITE, KINDS };
enum { FILES = 1024, NAME = 80 };

/* Its layout is that of TOLD in tools/fail_each. */
static struct told {
    long at, kind;              /* in: the number, from 1, and the kind of the call that fails; the number 0 lets none fail */
    long calls[KINDS];          /* out: how many calls of each kind there were */
    long opened, closed, failed; /* out: files that were opened and closed, and whether the call came */
    char name[NAME];            /* out: the file of the call that failed; the console is `-` */
} *told;
static char names[FILES][NAME]; /* the name of each open file */
static char early[4096];        /* what is given before the C library's own calls are found */
static size_t early_used;

static void *(*real_malloc)(size_t), *(*real_calloc)(size_t, size_t), *(*real_realloc)(void *, size_t);
static void (*real_free)(void *);
static int (*real_open)(const char *, int, ...), (*real_close)(int);
static ssize_t (*real_read)(int, void *, size_t), (*real_write)(int, const void *, size_t);
static int (*real_thread)(pthread_t *, const pthread_attr_t *, void *(*)(void *), void *);

__attribute__((constructor)) static void begin(void) {
    real_malloc = dlsym(RTLD_NEXT, "malloc");
    real_calloc = dlsym(RTLD_NEXT, "calloc");
    real_realloc = dlsym(RTLD_NEXT, "realloc");
    real_free = dlsym(RTLD_NEXT, "free");
    real_open = dlsym(RTLD_NEXT, "open");
    real_close = dlsym(RTLD_NEXT, "close");
    real_read = dlsym(RTLD_NEXT, "read");
    real_write = dlsym(RTLD_NEXT, "write");
    real_thread = dlsym(RTLD_NEXT, "pthread_create");
    const char *file = getenv("FAIL_CALLS");
    int fd = file ? real_open(file, O_RDWR) : -1;
    if (fd < 0) _exit(125);
    void *shared = mmap(0, sizeof *told, PROT_READ | PROT_WRITE, MAP_SHARED, fd, 0);
    real_close(fd);
    if (shared == MAP_FAILED) _exit(125);
    told = shared;
}

/* Counts a call of the kind, and says whether it is to fail. */
static int fails(int kind, const char *name) {
    if (!told) return 0;
    long n = __atomic_add_fetch(&told->calls[kind], 1, __ATOMIC_SEQ_CST);
    if (told->kind != kind || told->at != n) return 0;
    strncpy(told->name, name, NAME - 1);
    told->failed = 1;
    return 1;
}

static const char *name_of(int fd) {
    return fd >= 0 && fd <= 2 ? "-" : fd > 2 && fd < FILES ? names[fd] : "?";
}

static void *early_memory(size_t n) {
    size_t at = (early_used + 15) & ~(size_t)15;
    if (at + n > sizeof early) return 0;
    early_used = at + n;
    return early + at;
}

void *malloc(size_t n) {
    if (!real_malloc) return early_memory(n);
    if (fails(MEMORY, "")) { errno = ENOMEM; return 0; }
    return real_malloc(n);
}

void *calloc(size_t n, size_t size) {
    if (!real_calloc) return early_memory(n * size);
    if (fails(MEMORY, "")) { errno = ENOMEM; return 0; }
    return real_calloc(n, size);
}

void *realloc(void *p, size_t n) {
    if (!real_realloc) return p ? 0 : early_memory(n);
    if (fails(MEMORY, "")) { errno = ENOMEM; return 0; }
    return real_realloc(p, n);
}

void free(void *p) {
    if ((char *)p >= early && (char *)p < early + sizeof early) return;
    if (real_free) real_free(p);
}

int pthread_create(pthread_t *thread, const pthread_attr_t *how, void *(*run)(void *), void *with) {
    if (fails(THREAD, "")) return EAGAIN;
    return real_thread(thread, how, run, with);
}

int open(const char *name, int flags, ...) {
    va_list more;
    va_start(more, flags);
    int mode = va_arg(more, int);
    va_end(more);
    if (fails(OPEN, name)) { errno = EACCES; return -1; }
    int fd = real_open(name, flags, mode);
    if (told && fd >= 0) {
        __atomic_add_fetch(&told->opened, 1, __ATOMIC_SEQ_CST);
        if (fd < FILES) strncpy(names[fd], name, NAME - 1);
    }
    return fd;
}

int close(int fd) {
    if (told && fd > 2) __atomic_add_fetch(&told->closed, 1, __ATOMIC_SEQ_CST);
    return real_close(fd);
}

ssize_t read(int fd, void *to, size_t n) {
    if (fails(READ, name_of(fd))) { errno = EIO; return -1; }
    if (n > 1 && fails(SHORT_READ, name_of(fd))) n = 1;
    return real_read(fd, to, n);
}

ssize_t write(int fd, const void *from, size_t n) {
    if (fails(WRITE, name_of(fd))) { errno = EIO; return -1; }
    if (n > 0 && fails(EMPTY_WRITE, name_of(fd))) return 0;
    if (n > 1 && fails(SHORT_WRITE, name_of(fd))) n = 1;
    return real_write(fd, from, n);
}
