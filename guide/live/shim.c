/* What the proved program calls of the system, for a page: memory of its own, and files, words and output of the page's. */
typedef unsigned long size;
typedef unsigned long long u64;
typedef unsigned __int128 u128;
typedef union { u128 all; struct { u64 low, high; } half; } pair;

extern unsigned char __heap_base;
static size top;
static void *spare[64];
static int error;

/* A block has 16 bytes in front of it, with the power of two that it takes. */
static void *take(size bytes) {
    int power = 5;
    while (power < 40 && ((size)1 << power) < bytes + 16) power++;
    if (power == 40) return 0;
    size *found = spare[power];
    if (found) {
        spare[power] = (void *)found[1];
    } else {
        if (!top) top = ((size)&__heap_base + 15) & ~(size)15;
        size end = top + ((size)1 << power), have = __builtin_wasm_memory_size(0) << 16;
        if (end > have && __builtin_wasm_memory_grow(0, ((end - have) >> 16) + 64) == (size)-1) return 0;
        found = (size *)top;
        top = end;
    }
    found[0] = power;
    return found + 2;
}

typedef struct { size ok; void *block; } tried;
static char nothing;

tried rattle_alloc(size bytes, size align) {
    void *block = take(bytes);
    return (tried){block != 0, block ? block : &nothing};
}

void rattle_dealloc(void *block) {
    size *head = (size *)block - 2;
    size power = head[0];
    head[1] = (size)spare[power];
    spare[power] = head;
}

tried rattle_realloc(void *block, size kept, size bytes, size align) {
    size power = ((size *)block - 2)[0];
    if (bytes + 16 <= (size)1 << power) return (tried){1, block};
    void *new = take(bytes);
    if (!new) return (tried){0, &nothing};
    __builtin_memcpy(new, block, kept);
    rattle_dealloc(block);
    return (tried){1, new};
}

int rattle_errno(void) { return error; }
void rattle_set_errno(int it) { error = it; }
u64 __sysv_signal(int number, u64 handler) { return 0; }
long rattle_env(const char *name, char *to, size room) { return -1; }
long rattle_env_at(size index, char *to, size room) { return -1; }

__attribute__((import_module("page"), import_name("open"))) int page_open(const char *path, int flags);
int open(const char *path, int flags, ...) {
    int file = page_open(path, flags);
    if (file < 0) error = 2;
    return file;
}

/* The page's files are no ordinary ones, so each is written in place, and none of the other calls is made. */
int statx(int file, const char *path, int flags, unsigned wanted, unsigned char *found) {
    __builtin_memset(found, 0, 256);
    *(unsigned short *)(found + 28) = 0020666;
    return 0;
}

static int refused(void) { error = 1; return -1; }
int ftruncate(int file, long size) { return refused(); }
int fchmod(int file, unsigned mode) { return refused(); }
int fsync(int file) { return refused(); }
int fdatasync(int file) { return refused(); }
int flock(int file, int how) { return refused(); }
int rename(const char *from, const char *to) { return refused(); }
int unlink(const char *path) { return refused(); }

/* At its start a program asks whether the processor has what it was compiled for. This machine has other instructions, and needs none of that. */
static const unsigned has[8] = {~0u, ~0u, ~0u, ~0u, ~0u, ~0u, ~0u, ~0u};
const unsigned *__x86_get_cpuid_feature_leaf(unsigned leaf) { return has; }
long __write(int file, const void *text, size bytes) { return (long)bytes; }

static pair product(u64 a, u64 b) {
    u64 al = (unsigned)a, ah = a >> 32, bl = (unsigned)b, bh = b >> 32;
    u64 low = al * bl, middle = ah * bl + (low >> 32), other = al * bh + (unsigned)middle;
    pair made;
    made.half.low = (other << 32) | (unsigned)low;
    made.half.high = ah * bh + (middle >> 32) + (other >> 32);
    return made;
}

u128 __multi3(u128 x, u128 y) {
    pair a = {x}, b = {y}, made = product(a.half.low, b.half.low);
    made.half.high += a.half.low * b.half.high + a.half.high * b.half.low;
    return made.all;
}

/* The quotient, bit by bit, and what is left in `rest`. */
static pair divide(pair a, pair b, pair *rest) {
    pair made = {0};
    if (!a.half.high && !b.half.high) {
        made.half.low = a.half.low / b.half.low;
        rest->half.low = a.half.low % b.half.low;
        return made;
    }
    for (int bit = 127; bit >= 0; bit--) {
        rest->half.high = rest->half.high << 1 | rest->half.low >> 63;
        rest->half.low = rest->half.low << 1 | ((bit > 63 ? a.half.high >> (bit - 64) : a.half.low >> bit) & 1);
        if (rest->half.high > b.half.high || (rest->half.high == b.half.high && rest->half.low >= b.half.low)) {
            u64 borrow = rest->half.low < b.half.low;
            rest->half.low -= b.half.low;
            rest->half.high -= b.half.high + borrow;
            if (bit > 63) made.half.high |= (u64)1 << (bit - 64); else made.half.low |= (u64)1 << bit;
        }
    }
    return made;
}

u128 __udivti3(u128 x, u128 y) {
    pair a = {x}, b = {y}, rest = {0};
    return divide(a, b, &rest).all;
}

u128 __umodti3(u128 x, u128 y) {
    pair a = {x}, b = {y}, rest = {0};
    divide(a, b, &rest);
    return rest.all;
}
