/* The system below a program in a page: words, files, memory, and no threads. It is linked in the place of the C library.

   The host, host.js, keeps the files. A name is that of a file in the one folder that there is. A call of the host that fails
   returns a negative error number of Linux, as the system calls of Linux do. */
typedef unsigned long size_t;
typedef long ssize_t;
typedef unsigned long u64;
typedef unsigned __int128 u128;
typedef __int128 i128;

#define IMPORT(name) __attribute__((import_module("host"), import_name(#name)))

IMPORT(word) long host_word(size_t index, void *into, size_t room);
IMPORT(open) int host_open(const char *name, int flags);
IMPORT(close) int host_close(int handle);
IMPORT(read) long host_read(int handle, void *into, size_t length);
IMPORT(write) long host_write(int handle, const void *from, size_t length);
IMPORT(truncate) int host_truncate(int handle, long length);
IMPORT(number) long host_number(int handle);
IMPORT(size) long host_size(int handle);
IMPORT(exit) void host_exit(int code);

/* ---- Memory ----

   A block has 16 * 2^k bytes behind a head of 16 bytes, which holds k. Freed blocks of each k are a list, linked through their
   first bytes. Memory is never given back to the page: each run has an instance of its own. */

#define HEAD 16
#define PAGE 65536ul
#define LEAST_GROWTH 64ul /* in pages */
#define LARGEST (1ul << 40)

extern char __heap_base;
static size_t top, end;
static void *free_blocks[64];

static int grow(size_t pages) { return __builtin_wasm_memory_grow(0, pages) != (size_t)-1; }

/* Returns fresh memory, or null where the page gives no more. */
static void *take_fresh(size_t length) {
    if (!top) {
        top = ((size_t)&__heap_base + 15) & ~15ul;
        end = __builtin_wasm_memory_size(0) * PAGE;
    }
    if (length > end - top) {
        size_t needed = (length - (end - top) + PAGE - 1) / PAGE;
        size_t pages = needed < LEAST_GROWTH ? LEAST_GROWTH : needed;
        if (!grow(pages)) {
            pages = needed;
            if (!grow(pages)) return 0;
        }
        end += pages * PAGE;
    }
    void *found = (void *)top;
    top += length;
    return found;
}

static size_t room_of(const void *block) { return 16ul << *(const size_t *)((const char *)block - HEAD); }

void *malloc(size_t length) {
    if (length > LARGEST) return 0;
    size_t k = 0;
    while ((16ul << k) < length) k++;
    void *kept = free_blocks[k];
    if (kept) {
        free_blocks[k] = *(void **)kept;
        return kept;
    }
    char *fresh = take_fresh(HEAD + (16ul << k));
    if (!fresh) return 0;
    *(size_t *)fresh = k;
    return fresh + HEAD;
}

void free(void *block) {
    if (!block) return;
    size_t k = *(size_t *)((char *)block - HEAD);
    *(void **)block = free_blocks[k];
    free_blocks[k] = block;
}

void *memcpy(void *to, const void *from, size_t length) {
    for (size_t i = 0; i < length; i++) ((char *)to)[i] = ((const char *)from)[i];
    return to;
}

void *realloc(void *block, size_t length) {
    if (!block) return malloc(length);
    size_t had = room_of(block);
    if (length <= had) return block;
    void *larger = malloc(length);
    if (!larger) return 0;
    memcpy(larger, block, had);
    free(block);
    return larger;
}

/* What the kit's library wants of memory: whether it was given, and a pointer that is never null. */
struct allocation {
    long is_given;
    void *block;
};
static char nowhere[16] __attribute__((aligned(16)));

static struct allocation allocation_of(void *block) {
    struct allocation given = {block != 0, block ? block : nowhere};
    return given;
}

struct allocation rattle_alloc(size_t length, size_t align) { return allocation_of(malloc(length ? length : align)); }
struct allocation rattle_realloc(void *block, size_t kept, size_t length, size_t align) {
    (void)kept;
    return allocation_of(realloc(block, length ? length : align));
}
void rattle_dealloc(void *block) { free(block); }

/* ---- Words and files ---- */

static int error;

int rattle_errno(void) { return error; }
void rattle_set_errno(int number) { error = number; }
long rattle_arg(size_t index, void *into, size_t room) { return host_word(index, into, room); }

/* A page has no environment, and a program here no clock: progress is never asked for. Nor is anything a terminal. */
#define NO_DEVICE 19
#define NO_TERMINAL 25
int isatty(int handle) {
    error = NO_TERMINAL;
    return 0;
}
long rattle_env(const char *name, void *into, size_t room) { return -1; }
int clock_gettime(int clock, void *into) {
    error = NO_DEVICE;
    return -1;
}

static long answer(long result) {
    if (result >= 0) return result;
    error = (int)-result;
    return -1;
}

int open(const char *name, int flags, ...) { return (int)answer(host_open(name, flags)); }
int close(int handle) { return (int)answer(host_close(handle)); }
ssize_t read(int handle, void *into, size_t length) { return answer(host_read(handle, into, length)); }
ssize_t write(int handle, const void *from, size_t length) { return answer(host_write(handle, from, length)); }
int ftruncate(int handle, long length) { return (int)answer(host_truncate(handle, length)); }

/* Files in memory have no mode, no disk and no other program that locks them. */
int fchmod(int handle, int mode) { return 0; }
int fsync(int handle) { return 0; }
int fdatasync(int handle) { return 0; }
int flock(int handle, int how) { return 0; }

/* Linux's `struct statx` has 256 bytes. Each file is a plain one of device 0, with one name and a number of its own. */
#define STATX_BASIC 0x7ff
#define PLAIN_FILE 0100644

int statx(int handle, const char *path, int flags, int mask, void *found) {
    char *fields = found;
    for (int i = 0; i < 256; i++) fields[i] = 0;
    *(unsigned *)(fields + 0) = STATX_BASIC;
    *(unsigned *)(fields + 16) = 1;
    *(unsigned short *)(fields + 28) = PLAIN_FILE;
    *(unsigned long *)(fields + 32) = (unsigned long)host_number(handle);
    *(unsigned long *)(fields + 40) = (unsigned long)host_size(handle);
    return 0;
}

void _exit(int code) {
    host_exit(code);
    __builtin_trap();
}
void abort(void) { __builtin_trap(); }

/* ---- Threads ----

   None can be made, and the engine then works with the thread that calls it. So no lock is ever held by another, and no signal
   comes. */
#define TRY_AGAIN 11
#define NO_SUCH_THREAD 3

int pthread_create(void *thread, void *attributes, void *start, void *argument) { return TRY_AGAIN; }
int pthread_attr_init(void *attributes) { return 0; }
int pthread_attr_setguardsize(void *attributes, size_t size) { return 0; }
int pthread_attr_setstacksize(void *attributes, size_t size) { return 0; }
int pthread_attr_destroy(void *attributes) { return 0; }
unsigned long pthread_self(void) { return 1; }
int pthread_detach(unsigned long thread) { return 0; }
int pthread_join(unsigned long thread, void *result) { return NO_SUCH_THREAD; }
int sched_yield(void) { return 0; }
long syscall(long number, void *a, long b, long c, void *d, ...) { return 0; }
long __sysv_signal(int signal, long handler) { return 0; }

/* ---- Numbers of 128 bits ----

   What the compiler calls for them. They are written by halves of 64 bits, since an operator on whole ones would call the
   function that it stands in. */

static u128 pair(u64 low, u64 high) {
    u128 whole;
    ((u64 *)&whole)[0] = low;
    ((u64 *)&whole)[1] = high;
    return whole;
}
static u64 low_of(u128 x) { return ((u64 *)&x)[0]; }
static u64 high_of(u128 x) { return ((u64 *)&x)[1]; }

/* The product of two numbers of 64 bits, by halves of 32 bits. */
static u128 product(u64 a, u64 b) {
    u64 mask = 0xffffffff, a0 = a & mask, a1 = a >> 32, b0 = b & mask, b1 = b >> 32;
    u64 low = a0 * b0;
    u64 middle = a1 * b0 + (low >> 32);
    u64 other = a0 * b1 + (middle & mask);
    return pair((other << 32) | (low & mask), a1 * b1 + (middle >> 32) + (other >> 32));
}

u128 __multi3(u128 a, u128 b) {
    u128 low = product(low_of(a), low_of(b));
    return pair(low_of(low), high_of(low) + high_of(a) * low_of(b) + low_of(a) * high_of(b));
}

u128 __ashlti3(u128 a, int n) {
    if (n == 0) return a;
    if (n >= 64) return pair(0, low_of(a) << (n - 64));
    return pair(low_of(a) << n, (high_of(a) << n) | (low_of(a) >> (64 - n)));
}

u128 __lshrti3(u128 a, int n) {
    if (n == 0) return a;
    if (n >= 64) return pair(high_of(a) >> (n - 64), 0);
    return pair((low_of(a) >> n) | (high_of(a) << (64 - n)), high_of(a) >> n);
}

u128 __ashrti3(u128 a, int n) {
    long high = (long)high_of(a);
    if (n == 0) return a;
    if (n >= 64) return pair((u64)(high >> (n - 64)), (u64)(high >> 63));
    return pair((low_of(a) >> n) | ((u64)high << (64 - n)), (u64)(high >> n));
}

static int is_below(u64 a_high, u64 a_low, u64 b_high, u64 b_low) {
    return a_high < b_high || (a_high == b_high && a_low < b_low);
}

/* Long division, a bit at a time. */
static u128 divide(u128 a, u128 b, u128 *remainder) {
    u64 quotient[2] = {0, 0}, high = 0, low = 0;
    for (int i = 127; i >= 0; i--) {
        u64 half = i >= 64 ? high_of(a) : low_of(a);
        high = (high << 1) | (low >> 63);
        low = (low << 1) | ((half >> (i & 63)) & 1);
        if (!is_below(high, low, high_of(b), low_of(b))) {
            high = high - high_of(b) - (low < low_of(b));
            low = low - low_of(b);
            quotient[i >= 64] |= 1ul << (i & 63);
        }
    }
    *remainder = pair(low, high);
    return pair(quotient[0], quotient[1]);
}

static int is_negative(i128 x) { return (int)(high_of((u128)x) >> 63); }
static u128 negated(u128 a) {
    u64 low = ~low_of(a) + 1;
    return pair(low, ~high_of(a) + (low == 0));
}
static u128 without_sign(i128 x) { return is_negative(x) ? negated((u128)x) : (u128)x; }

u128 __udivti3(u128 a, u128 b) {
    u128 remainder;
    return divide(a, b, &remainder);
}
u128 __umodti3(u128 a, u128 b) {
    u128 remainder;
    divide(a, b, &remainder);
    return remainder;
}
i128 __divti3(i128 a, i128 b) {
    u128 remainder, quotient = divide(without_sign(a), without_sign(b), &remainder);
    return (i128)(is_negative(a) != is_negative(b) ? negated(quotient) : quotient);
}
i128 __modti3(i128 a, i128 b) {
    u128 remainder;
    divide(without_sign(a), without_sign(b), &remainder);
    return (i128)(is_negative(a) ? negated(remainder) : remainder);
}
