/* A library under a program: at one of the calls that change files it ends the program, or the call fails.
 *
 * It is preloaded, and stands before the C library's open, write, rename and unlink. They are counted from 1 on, an open
 * where it may write, a write where it isn't to a standard stream. Two variables of the environment speak to it:
 *
 *   KILL_AT   N   Just before the call of this number the process ends by SIGKILL.
 *   FAIL_AT   N   The call of this number does nothing, and fails as on a broken disk (EIO).
 */
#define _GNU_SOURCE
#include <dlfcn.h>
#include <errno.h>
#include <fcntl.h>
#include <signal.h>
#include <stdarg.h>
#include <stdatomic.h>
#include <stdlib.h>
#include <unistd.h>

static atomic_ulong counted;
static unsigned long kill_at, fail_at;

__attribute__((constructor)) static void begin(void)
{
    const char *text = getenv("KILL_AT");
    kill_at = text ? strtoul(text, NULL, 10) : 0;
    text = getenv("FAIL_AT");
    fail_at = text ? strtoul(text, NULL, 10) : 0;
}

/* Whether this call fails. */
static int fails(void)
{
    unsigned long number = atomic_fetch_add(&counted, 1) + 1;
    if (number == kill_at)
        kill(getpid(), SIGKILL);
    if (number != fail_at)
        return 0;
    errno = EIO;
    return 1;
}

int open(const char *path, int flags, ...)
{
    static int (*next)(const char *, int, ...);
    mode_t mode = 0;
    if (flags & O_CREAT) {
        va_list rest;
        va_start(rest, flags);
        mode = va_arg(rest, mode_t);
        va_end(rest);
    }
    if (!next)
        next = (int (*)(const char *, int, ...))dlsym(RTLD_NEXT, "open");
    return (flags & O_ACCMODE) != O_RDONLY && fails() ? -1 : next(path, flags, mode);
}

ssize_t write(int file, const void *bytes, size_t count)
{
    static ssize_t (*next)(int, const void *, size_t);
    if (!next)
        next = (ssize_t (*)(int, const void *, size_t))dlsym(RTLD_NEXT, "write");
    return file > 2 && fails() ? -1 : next(file, bytes, count);
}

int rename(const char *from, const char *to)
{
    static int (*next)(const char *, const char *);
    if (!next)
        next = (int (*)(const char *, const char *))dlsym(RTLD_NEXT, "rename");
    return fails() ? -1 : next(from, to);
}

int unlink(const char *path)
{
    static int (*next)(const char *);
    if (!next)
        next = (int (*)(const char *))dlsym(RTLD_NEXT, "unlink");
    return fails() ? -1 : next(path);
}
