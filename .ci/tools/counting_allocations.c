/* Counts what a program asks of the C library's heap: loaded before it, it adds a line to the file that the variable COUNTS names where the
 * program ends: its status, how many calls took memory, how many of them were refused, the bytes that they asked for together, the most in
 * one call, and the most that was held at a time. */
#define _GNU_SOURCE
#include <dlfcn.h>
#include <fcntl.h>
#include <malloc.h>
#include <stdio.h>
#include <stdlib.h>
#include <unistd.h>

static size_t calls, refused, asked, largest, held, most_held;

static void *took(void *block, size_t size)
{
    calls++;
    asked += size;
    if (size > largest)
        largest = size;
    if (block == NULL) {
        refused++;
        return NULL;
    }
    held += malloc_usable_size(block);
    if (held > most_held)
        most_held = held;
    return block;
}

void *malloc(size_t size)
{
    static void *(*next)(size_t);
    if (next == NULL)
        next = (void *(*)(size_t))dlsym(RTLD_NEXT, "malloc");
    return took(next(size), size);
}

void *realloc(void *old, size_t size)
{
    static void *(*next)(void *, size_t);
    if (next == NULL)
        next = (void *(*)(void *, size_t))dlsym(RTLD_NEXT, "realloc");
    size_t before = old == NULL ? 0 : malloc_usable_size(old);
    void *block = next(old, size);
    if (block != NULL)
        held -= before;
    return took(block, size);
}

int posix_memalign(void **made, size_t alignment, size_t size)
{
    static int (*next)(void **, size_t, size_t);
    if (next == NULL)
        next = (int (*)(void **, size_t, size_t))dlsym(RTLD_NEXT, "posix_memalign");
    int failed = next(made, alignment, size);
    took(failed ? NULL : *made, size);
    return failed;
}

void *aligned_alloc(size_t alignment, size_t size)
{
    static void *(*next)(size_t, size_t);
    if (next == NULL)
        next = (void *(*)(size_t, size_t))dlsym(RTLD_NEXT, "aligned_alloc");
    return took(next(alignment, size), size);
}

void free(void *block)
{
    static void (*next)(void *);
    if (next == NULL)
        next = (void (*)(void *))dlsym(RTLD_NEXT, "free");
    if (block != NULL)
        held -= malloc_usable_size(block);
    next(block);
}

static void tell(int status, void *nothing)
{
    const char *counts = getenv("COUNTS");
    char line[160];
    int length = snprintf(line, sizeof line, "%d %zu %zu %zu %zu %zu\n", status, calls, refused, asked, largest, most_held);
    int file = counts == NULL ? -1 : open(counts, O_WRONLY | O_CREAT | O_APPEND, 0666);
    (void)nothing;
    if (file < 0 || write(file, line, length) != length)
        abort();
    close(file);
}

__attribute__((constructor)) static void begin(void)
{
    on_exit(tell, NULL);
}
