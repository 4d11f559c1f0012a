/* A library under a program: it refuses allocations of a part of a run, each in a process of its own.
 *
 * It is preloaded, and stands before the C library's malloc, calloc, realloc, aligned_alloc and posix_memalign. The part is
 * told by how many lines were written to the standard output before it (FORKS_FROM) and before its end (FORKS_TO). In it
 * the process forks at an allocation: in the child this one is refused and no other, and what the child writes to its
 * standard output goes into a file of the folder FORKS_ROOM, whose name is the allocation's number, from 1. The child ends
 * once it has written FORKS_LINES lines, or, where its number is one of FORKS_LONG apart, FORKS_LONG_LINES. The parent
 * refuses nothing.
 *
 * The process forks at the first FORKS_FIRST allocations, at those behind the number FORKS_LAST, and at every FORKS_APART-th
 * between; at none where FORKS_LAST is 0. Where STACKS_TABLE and STACKS_FILE are there (stacks.h), it forks too at the first
 * allocation of each call stack, and both are told of each: that it was met, and that it was refused. At most FORKS_AT_ONCE
 * children run at once. At its end the parent writes into the file `count` of FORKS_ROOM how many allocations there were, how
 * many children ended by a signal, how many with another status than 0, and how many there were. The program has to run on one
 * thread.
 */
#define _GNU_SOURCE
#include <errno.h>
#include <sys/wait.h>

#include "stacks.h"

extern void *__libc_malloc(size_t size);
extern void *__libc_calloc(size_t count, size_t size);
extern void *__libc_realloc(void *block, size_t size);
extern void *__libc_memalign(size_t alignment, size_t size);

static unsigned long from, to, lines, last_line, long_apart, long_lines, at_once, first, last, apart;
static unsigned long number, running, killed, refused, forked;
static const char *room;
static int is_child;

static _Noreturn void leave(int status)
{
    syscall(SYS_exit_group, status);
    __builtin_unreachable();
}

/* Waits for one child. */
static void reap(void)
{
    int status;
    if (wait(&status) > 0) {
        running--;
        killed += WIFSIGNALED(status);
        refused += WIFEXITED(status) && WEXITSTATUS(status) != 0;
    }
}

/* In the child: what it writes goes into its own file from now on. */
static void become_child(void)
{
    char name[4096];
    is_child = 1;
    snprintf(name, sizeof name, "%s/%lu", room, number);
    int file = open(name, O_WRONLY | O_CREAT | O_TRUNC, 0644);
    if (file < 0 || dup2(file, 1) < 0)
        leave(98);
    close(file);
    lines = 0;
    if (long_apart && number % long_apart == 0)
        last_line = long_lines;
    alarm(120); /* one that hangs is ended by SIGALRM */
}

/* Whether the process forks at the allocation of this number; what is told of its stack. */
static int is_chosen(struct caller by)
{
    int is_of_number = number <= first || number > last || (apart && number % apart == 0);
    struct stack stack;
    if (!last || !stacks_table)
        return last && is_of_number;
    stacks_walk(&stack, by);
    int is_new = stacks_tell(&stack, 0, number);
    if (is_new || is_of_number)
        stacks_tell(&stack, 1, number);
    return is_new || is_of_number;
}

/* Whether this allocation is refused. */
static int refuse(struct caller by)
{
    if (is_child || !room || lines < from || lines >= to)
        return 0;
    number++;
    if (!is_chosen(by))
        return 0;
    while (running >= at_once)
        reap();
    pid_t child = fork();
    if (child < 0)
        leave(97);
    if (child > 0) {
        running++;
        forked++;
        return 0;
    }
    become_child();
    errno = ENOMEM;
    return 1;
}

void *malloc(size_t size)
{
    return refuse(CALLER) ? NULL : __libc_malloc(size);
}

void *calloc(size_t count, size_t size)
{
    return refuse(CALLER) ? NULL : __libc_calloc(count, size);
}

void *realloc(void *block, size_t size)
{
    return refuse(CALLER) ? NULL : __libc_realloc(block, size);
}

void *aligned_alloc(size_t alignment, size_t size)
{
    return refuse(CALLER) ? NULL : __libc_memalign(alignment, size);
}

int posix_memalign(void **block, size_t alignment, size_t size)
{
    void *made = refuse(CALLER) ? NULL : __libc_memalign(alignment, size);
    if (!made)
        return ENOMEM;
    *block = made;
    return 0;
}

ssize_t write(int file, const void *bytes, size_t count)
{
    ssize_t written = syscall(SYS_write, file, bytes, count);
    if (file != 1 || written <= 0)
        return written;
    for (const char *at = bytes; at < (const char *)bytes + written; at++)
        lines += *at == '\n';
    if (is_child && last_line && lines >= last_line)
        leave(0);
    return written;
}

static unsigned long number_of(const char *name)
{
    const char *text = getenv(name);
    return text ? strtoul(text, NULL, 10) : 0;
}

__attribute__((constructor)) static void begin(void)
{
    from = number_of("FORKS_FROM");
    to = number_of("FORKS_TO");
    last_line = number_of("FORKS_LINES");
    long_apart = number_of("FORKS_LONG");
    long_lines = number_of("FORKS_LONG_LINES");
    first = number_of("FORKS_FIRST");
    last = number_of("FORKS_LAST");
    apart = number_of("FORKS_APART");
    at_once = number_of("FORKS_AT_ONCE");
    if (at_once == 0)
        at_once = 1;
    room = getenv("FORKS_ROOM");
    stacks_begin(getenv("STACKS_TABLE"), getenv("STACKS_FILE"), 1);
}

/* The runtime ends the process by this, so nothing can be done behind `main`. */
void _exit(int status)
{
    if (is_child || !room)
        leave(status);
    while (running > 0)
        reap();
    char name[4096], text[64];
    snprintf(name, sizeof name, "%s/count", room);
    int file = open(name, O_WRONLY | O_CREAT | O_TRUNC, 0644);
    int length = snprintf(text, sizeof text, "%lu %lu %lu %lu\n", number, killed, refused, forked);
    if (file < 0 || syscall(SYS_write, file, text, (size_t)length) != length)
        leave(99);
    leave(status);
}
