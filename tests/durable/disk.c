/* A library under a program: at one of the calls that change a log it fails, or does a part of its work.
 *
 * It is preloaded, and stands before the C library's write, fsync, fdatasync and ftruncate. Calls are counted from 1 on, of
 * files that aren't standard streams. Variables of the environment speak to it:
 *
 *   FAIL_AT   N   The call of this number does nothing, and fails: a write for want of room (ENOSPC), the others by EIO.
 *   CUT_AT    N   The call of this number, if it is a write, writes half of its bytes and says so; the next write fails.
 *   FAIL_ALL  N   All calls from this number on fail.
 */
#define _GNU_SOURCE
#include <dlfcn.h>
#include <errno.h>
#include <fcntl.h>
#include <stdatomic.h>
#include <stdlib.h>
#include <sys/types.h>
#include <unistd.h>

static atomic_ulong counted;
static unsigned long fail_at, cut_at, fail_all;

static unsigned long number_of(const char *name)
{
    const char *text = getenv(name);
    return text ? strtoul(text, NULL, 10) : 0;
}

__attribute__((constructor)) static void begin(void)
{
    fail_at = number_of("FAIL_AT");
    cut_at = number_of("CUT_AT");
    fail_all = number_of("FAIL_ALL");
}

/* Whether this call fails, by its number. */
static int fails(unsigned long number)
{
    return number == fail_at || (cut_at && number == cut_at + 1) || (fail_all && number >= fail_all);
}

ssize_t write(int file, const void *bytes, size_t count)
{
    static ssize_t (*next)(int, const void *, size_t);
    if (!next)
        next = (ssize_t (*)(int, const void *, size_t))dlsym(RTLD_NEXT, "write");
    if (file <= 2)
        return next(file, bytes, count);
    unsigned long number = atomic_fetch_add(&counted, 1) + 1;
    if (fails(number)) {
        errno = ENOSPC;
        return -1;
    }
    return next(file, bytes, number == cut_at && count > 1 ? count / 2 : count);
}

static int synced(const char *name, int file)
{
    int (*next)(int) = (int (*)(int))dlsym(RTLD_NEXT, name);
    if (fails(atomic_fetch_add(&counted, 1) + 1)) {
        errno = EIO;
        return -1;
    }
    return next(file);
}

int fsync(int file) { return synced("fsync", file); }

int fdatasync(int file) { return synced("fdatasync", file); }

int ftruncate(int file, off_t length)
{
    int (*next)(int, off_t) = (int (*)(int, off_t))dlsym(RTLD_NEXT, "ftruncate");
    if (fails(atomic_fetch_add(&counted, 1) + 1)) {
        errno = EIO;
        return -1;
    }
    return next(file, length);
}

int ftruncate64(int file, off_t length) { return ftruncate(file, length); }
