/* Makes calls of devices fail: loaded before the C library, it counts the files that a program reads or makes and the lines that it writes to
 * standard output, both from 0. FAILING_FILE=2:5 lets all reads and writes of the file number 2 fail, FAILING_LINE=2:5 the write of the line
 * number 2. A write that fails writes the first bytes all the same, at most as many as stand after the colon. A file that is there and opened to be
 * written, and not made, has the number of the next one. A read that fails gives the first bytes of the file too, at most as many, and a failing write
 * returns 0 in place of an error where STALLING is set. With SLOW each read and write of a file or of standard output is interrupted once, and then
 * moves one byte. FAILING_CALL=rename:16 lets each such call fail with that error, so also fchmod and fsync;
 * FAILING_CALL=rename:kill ends the program there by a signal, so also fchmod, fsync and the write of a file, of which half is written. */
#define _GNU_SOURCE
#include <dlfcn.h>
#include <errno.h>
#include <fcntl.h>
#include <signal.h>
#include <stdarg.h>
#include <stdio.h>
#include <stdlib.h>
#include <string.h>
#include <sys/stat.h>
#include <unistd.h>

#define MOST 64

static long files, lines;
static int failing[MOST];
static size_t kept_of_file;
static size_t given[MOST];

/* Whether the call of this number is to fail, and how many bytes it writes all the same. */
static int fails(const char *variable, long number, size_t *kept)
{
    const char *text = getenv(variable);
    char *rest;
    if (text == NULL || strtol(text, &rest, 10) != number || *rest != ':')
        return 0;
    *kept = strtoul(rest + 1, NULL, 10);
    return 1;
}

static int is_failing(int file)
{
    return file >= 0 && file < MOST && failing[file];
}

int open(const char *name, int flags, ...)
{
    static int (*next)(const char *, int, ...);
    va_list more;
    int made;
    if (next == NULL)
        next = (int (*)(const char *, int, ...))dlsym(RTLD_NEXT, "open");
    va_start(more, flags);
    made = next(name, flags, va_arg(more, int));
    va_end(more);
    if (made >= 0 && made < MOST) {
        failing[made] = fails("FAILING_FILE", files, &kept_of_file);
        given[made] = 0;
    }
    if ((flags & O_ACCMODE) == O_RDONLY || (flags & O_CREAT))
        files++;
    return made;
}

/* What is said of the calls of this name: the text behind the colon, or none. */
static const char *said_of(const char *name)
{
    const char *text = getenv("FAILING_CALL");
    size_t length = strlen(name);
    return text != NULL && strncmp(text, name, length) == 0 && text[length] == ':' ? text + length + 1 : NULL;
}

static int ends_at(const char *name)
{
    const char *said = said_of(name);
    return said != NULL && strcmp(said, "kill") == 0;
}

/* The error with which a call of this name is to fail, or 0; or the program is ended. */
static int error_of(const char *name)
{
    const char *said = said_of(name);
    if (ends_at(name))
        raise(SIGKILL);
    return said != NULL ? atoi(said) : 0;
}

/* Whether a call is interrupted: every other one, where calls are to be slow. Of one that isn't, the length is one byte. */
static int is_interrupted(int file, size_t *length)
{
    static int before[MOST];
    if (getenv("SLOW") == NULL || file < STDOUT_FILENO || file == STDERR_FILENO || file >= MOST || *length == 0)
        return 0;
    errno = EINTR;
    *length = 1;
    return before[file] = !before[file];
}

ssize_t read(int file, void *bytes, size_t length)
{
    static ssize_t (*next)(int, void *, size_t);
    if (next == NULL)
        next = (ssize_t (*)(int, void *, size_t))dlsym(RTLD_NEXT, "read");
    if (is_interrupted(file, &length))
        return -1;
    if (is_failing(file)) {
        size_t rest = kept_of_file - given[file];
        ssize_t got = rest == 0 ? 0 : next(file, bytes, rest < length ? rest : length);
        if (got > 0) {
            given[file] += (size_t)got;
            return got;
        }
        errno = EIO;
        return -1;
    }
    return next(file, bytes, length);
}

ssize_t write(int file, const void *bytes, size_t length)
{
    static ssize_t (*next)(int, const void *, size_t);
    size_t kept = kept_of_file;
    if (next == NULL)
        next = (ssize_t (*)(int, const void *, size_t))dlsym(RTLD_NEXT, "write");
    if (is_interrupted(file, &length))
        return -1;
    if (is_failing(file) || (file == STDOUT_FILENO && fails("FAILING_LINE", lines++, &kept))) {
        next(file, bytes, kept < length ? kept : length);
        errno = EIO;
        return getenv("STALLING") != NULL ? 0 : -1;
    }
    if (file > STDERR_FILENO && ends_at("write")) {
        next(file, bytes, length / 2);
        raise(SIGKILL);
    }
    return next(file, bytes, length);
}

ssize_t __write(int file, const void *bytes, size_t length)
{
    return write(file, bytes, length);
}

int close(int file)
{
    static int (*next)(int);
    if (next == NULL)
        next = (int (*)(int))dlsym(RTLD_NEXT, "close");
    if (is_failing(file))
        failing[file] = 0;
    return next(file);
}

int rename(const char *from, const char *to)
{
    static int (*next)(const char *, const char *);
    if (next == NULL)
        next = (int (*)(const char *, const char *))dlsym(RTLD_NEXT, "rename");
    errno = error_of("rename");
    return errno ? -1 : next(from, to);
}

int fchmod(int file, mode_t mode)
{
    static int (*next)(int, mode_t);
    if (next == NULL)
        next = (int (*)(int, mode_t))dlsym(RTLD_NEXT, "fchmod");
    errno = error_of("fchmod");
    return errno ? -1 : next(file, mode);
}

int fsync(int file)
{
    static int (*next)(int);
    if (next == NULL)
        next = (int (*)(int))dlsym(RTLD_NEXT, "fsync");
    errno = error_of("fsync");
    return errno ? -1 : next(file);
}
