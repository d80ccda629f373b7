/* Makes one allocation of a program fail: loaded before the C library, it counts the calls that take memory, and lets the call fail
 * whose number is in the variable FAILING. Where that call came, the file that the variable CAME names is there afterwards. */
#define _GNU_SOURCE
#include <dlfcn.h>
#include <errno.h>
#include <fcntl.h>
#include <stddef.h>
#include <stdlib.h>
#include <unistd.h>

static long calls;

static int fails(void)
{
    const char *failing = getenv("FAILING"), *came = getenv("CAME");
    calls++;
    if (failing == NULL || calls != atol(failing))
        return 0;
    if (came != NULL)
        close(open(came, O_WRONLY | O_CREAT, 0666));
    return 1;
}

void *malloc(size_t size)
{
    static void *(*next)(size_t);
    if (next == NULL)
        next = (void *(*)(size_t))dlsym(RTLD_NEXT, "malloc");
    if (fails()) {
        errno = ENOMEM;
        return NULL;
    }
    return next(size);
}

void *realloc(void *old, size_t size)
{
    static void *(*next)(void *, size_t);
    if (next == NULL)
        next = (void *(*)(void *, size_t))dlsym(RTLD_NEXT, "realloc");
    if (fails()) {
        errno = ENOMEM;
        return NULL;
    }
    return next(old, size);
}

int posix_memalign(void **made, size_t alignment, size_t size)
{
    static int (*next)(void **, size_t, size_t);
    if (next == NULL)
        next = (int (*)(void **, size_t, size_t))dlsym(RTLD_NEXT, "posix_memalign");
    return fails() ? ENOMEM : next(made, alignment, size);
}

void *aligned_alloc(size_t alignment, size_t size)
{
    static void *(*next)(size_t, size_t);
    if (next == NULL)
        next = (void *(*)(size_t, size_t))dlsym(RTLD_NEXT, "aligned_alloc");
    if (fails()) {
        errno = ENOMEM;
        return NULL;
    }
    return next(alignment, size);
}
