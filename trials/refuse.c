/* Makes one call of a program fail, for refusals.py, which loads it in front of the C library.

   REFUSE has a kind and a number. `alloc N`: call N of malloc or realloc has no memory. `io N`: call N of read, pread,
   write or open fails with EIO. `file N`: call N of rename, fsync, unlink, close, statx, readlink, fchmod, fchown or
   fcntl does, though close closes. `short N`: call N of read, pread or write that would move several bytes moves one.
   At the end the number of calls of that kind is put on descriptor 9. */
#define _GNU_SOURCE
#include <dlfcn.h>
#include <errno.h>
#include <fcntl.h>
#include <stdarg.h>
#include <stdio.h>
#include <stdlib.h>
#include <string.h>
#include <sys/stat.h>
#include <unistd.h>

static char kind;
static long at, calls;

extern void *__libc_malloc(size_t);
extern void *__libc_realloc(void *, size_t);

__attribute__((constructor)) static void begin(void)
{
    const char *text = getenv("REFUSE");
    if (text) {
        const char *number = strchr(text, ' ');
        at = number ? atol(number) : 0;
        calls = 0;
        kind = text[0];
    }
}

/* Whether this call of the kind is the one. */
static int refused(char which)
{
    return kind == which && ++calls == at;
}

static ssize_t (*next_write(void))(int, const void *, size_t)
{
    return (ssize_t (*)(int, const void *, size_t))dlsym(RTLD_NEXT, "write");
}

__attribute__((destructor)) static void end(void)
{
    char text[32];
    long seen = calls;
    kind = 0;
    int length = snprintf(text, sizeof text, "%ld\n", seen);
    if (next_write()(9, text, length) < 0)
        return;
}

void *malloc(size_t size)
{
    if (refused('a')) {
        errno = ENOMEM;
        return NULL;
    }
    return __libc_malloc(size);
}

void *realloc(void *block, size_t size)
{
    if (refused('a')) {
        errno = ENOMEM;
        return NULL;
    }
    return __libc_realloc(block, size);
}

ssize_t read(int fd, void *bytes, size_t size)
{
    ssize_t (*next)(int, void *, size_t) = (ssize_t (*)(int, void *, size_t))dlsym(RTLD_NEXT, "read");
    if (refused('i')) {
        errno = EIO;
        return -1;
    }
    return next(fd, bytes, size > 1 && refused('s') ? 1 : size);
}

ssize_t write(int fd, const void *bytes, size_t size)
{
    if (refused('i')) {
        errno = EIO;
        return -1;
    }
    return next_write()(fd, bytes, size > 1 && refused('s') ? 1 : size);
}

int open(const char *path, int flags, ...)
{
    int (*next)(const char *, int, ...) = (int (*)(const char *, int, ...))dlsym(RTLD_NEXT, "open");
    va_list rest;
    va_start(rest, flags);
    int mode = va_arg(rest, int);
    va_end(rest);
    if (refused('i')) {
        errno = EIO;
        return -1;
    }
    return next(path, flags, mode);
}

ssize_t pread(int fd, void *bytes, size_t size, off_t offset)
{
    ssize_t (*next)(int, void *, size_t, off_t) =
        (ssize_t (*)(int, void *, size_t, off_t))dlsym(RTLD_NEXT, "pread");
    if (refused('i')) {
        errno = EIO;
        return -1;
    }
    return next(fd, bytes, size > 1 && refused('s') ? 1 : size, offset);
}

/* Whether this call on a file is refused, and why it is then said to have failed. */
static int file_refused(void)
{
    if (!refused('f'))
        return 0;
    errno = EIO;
    return 1;
}

int rename(const char *from, const char *to)
{
    int (*next)(const char *, const char *) = (int (*)(const char *, const char *))dlsym(RTLD_NEXT, "rename");
    return file_refused() ? -1 : next(from, to);
}

int fsync(int fd)
{
    int (*next)(int) = (int (*)(int))dlsym(RTLD_NEXT, "fsync");
    return file_refused() ? -1 : next(fd);
}

int unlink(const char *path)
{
    int (*next)(const char *) = (int (*)(const char *))dlsym(RTLD_NEXT, "unlink");
    return file_refused() ? -1 : next(path);
}

int close(int fd)
{
    int (*next)(int) = (int (*)(int))dlsym(RTLD_NEXT, "close");
    int closed = next(fd);
    return file_refused() ? -1 : closed;
}

int statx(int folder, const char *path, int flags, unsigned mask, struct statx *found)
{
    int (*next)(int, const char *, int, unsigned, struct statx *) =
        (int (*)(int, const char *, int, unsigned, struct statx *))dlsym(RTLD_NEXT, "statx");
    return file_refused() ? -1 : next(folder, path, flags, mask, found);
}

ssize_t readlink(const char *path, char *bytes, size_t size)
{
    ssize_t (*next)(const char *, char *, size_t) =
        (ssize_t (*)(const char *, char *, size_t))dlsym(RTLD_NEXT, "readlink");
    return file_refused() ? -1 : next(path, bytes, size);
}

int fchmod(int fd, mode_t mode)
{
    int (*next)(int, mode_t) = (int (*)(int, mode_t))dlsym(RTLD_NEXT, "fchmod");
    return file_refused() ? -1 : next(fd, mode);
}

int fchown(int fd, uid_t user, gid_t group)
{
    int (*next)(int, uid_t, gid_t) = (int (*)(int, uid_t, gid_t))dlsym(RTLD_NEXT, "fchown");
    return file_refused() ? -1 : next(fd, user, group);
}

int fcntl(int fd, int what, ...)
{
    int (*next)(int, int, ...) = (int (*)(int, int, ...))dlsym(RTLD_NEXT, "fcntl");
    va_list rest;
    va_start(rest, what);
    long given = va_arg(rest, long);
    va_end(rest);
    return file_refused() ? -1 : next(fd, what, given);
}

ssize_t __write(int fd, const void *bytes, size_t size)
{
    return write(fd, bytes, size);
}
