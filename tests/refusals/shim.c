/* A library under a program: it counts allocations, and refuses some.
 *
 * It is preloaded, and stands before the C library's malloc, calloc, realloc, aligned_alloc and posix_memalign (of
 * which the runtime calls the first and the third). With LINKED defined it is linked in place of the runtime's own calls
 * for memory, for programs that bring a C library's allocator of their own. A program speaks to it by looking up these
 * names in the environment, which takes no memory:
 *
 *   REFUSE_N_M     From now on, of the allocations that count, that of number N (from 1) is refused, and the next ones,
 *                  M in all. Each play has so many seconds from here as REFUSALS_SECONDS says (by default 20).
 *   REFUSALS_ON    Allocations count from here,
 *   REFUSALS_OFF   to here. The answer is how many were refused in between.
 *
 * With REFUSE_STACK, a number, also the first allocation is refused whose call stack has that hash; stacks.h says how stacks
 * are read and told.
 *
 * A program that asks nothing is told by two variables of its environment, REFUSE_AT (N) and REFUSE_COUNT (M): then all
 * allocations count from the first one on, those before `main` too. Where REFUSE_REPORT is a file, it is written at the
 * end: how many counted, and how many were refused.
 */
#define _GNU_SOURCE
#include <errno.h>
#include <fcntl.h>
#include <stdatomic.h>
#include <stddef.h>
#include <stdio.h>
#include <stdlib.h>
#include <string.h>
#include <sys/syscall.h>
#include <unistd.h>

extern char **environ;

static atomic_int counting;
static atomic_ulong counted, refused, first, most, refused_before;

/* Whether the allocation of this number is one of those that are refused. */
static int is_of_number(unsigned long number)
{
    unsigned long least = atomic_load(&first);
    return least != 0 && number >= least && number - least < atomic_load(&most);
}

#ifdef LINKED

/* No stacks are read. */
#define CALLER 0
#define is_refused(number, caller) is_of_number(number)
typedef int caller;

#else

#include "stacks.h"

typedef struct caller caller;
static uint64_t refused_stack;
static atomic_int is_stack_refused;

/* Whether the allocation of this number is one of those that are refused, and what is told of its stack. */
static int is_refused(unsigned long number, caller by)
{
    int is_chosen = is_of_number(number);
    struct stack stack;
    if (!stacks_table || (!is_chosen && !stacks_met && !refused_stack))
        return is_chosen;
    stacks_walk(&stack, by);
    if (stack.hash == refused_stack && !atomic_exchange(&is_stack_refused, 1))
        is_chosen = 1;
    if (is_chosen || stacks_met)
        stacks_tell(&stack, is_chosen, number);
    return is_chosen;
}

#endif

/* Whether this allocation is refused, which is asked for from there. */
static int refuse(caller by)
{
    (void)by;
    if (!atomic_load(&counting) || !is_refused(atomic_fetch_add(&counted, 1) + 1, by))
        return 0;
    atomic_fetch_add(&refused, 1);
    errno = ENOMEM;
    return 1;
}

#ifdef LINKED

/* The runtime's own calls for memory and for the environment, in place of those of the kit's libraries. */
struct tried {
    unsigned long ok;
    void *block;
};

struct tried rattle_alloc(size_t size, size_t alignment)
{
    void *block = refuse(CALLER) ? NULL : malloc(size ? size : alignment);
    return (struct tried){block != NULL, block};
}

struct tried rattle_realloc(void *block, size_t kept, size_t size, size_t alignment)
{
    (void)kept;
    void *moved = refuse(CALLER) ? NULL : realloc(block, size ? size : alignment);
    return (struct tried){moved != NULL, moved};
}

void rattle_dealloc(void *block)
{
    free(block);
}

static char *answer(const char *name);

ptrdiff_t rattle_env(const char *name, char *buffer, size_t room)
{
    const char *text = answer(name);
    if (!text)
        return -1;
    size_t length = strlen(text);
    if (length > room)
        return -2;
    memcpy(buffer, text, length);
    return (ptrdiff_t)length;
}

ptrdiff_t rattle_env_at(size_t number, char *buffer, size_t room)
{
    (void)number, (void)buffer, (void)room;
    return -1;
}

#else

extern void *__libc_malloc(size_t size);
extern void *__libc_calloc(size_t count, size_t size);
extern void *__libc_realloc(void *block, size_t size);
extern void *__libc_memalign(size_t alignment, size_t size);

void *malloc(size_t size)
{
    return refuse(CALLER) ? NULL : __libc_malloc(size);
}

void *calloc(size_t count, size_t size)
{
    return refuse(CALLER) ? NULL : __libc_calloc(count, size);
}

void *realloc(void *block, size_t size)
{
    return refuse(CALLER) ? NULL : __libc_realloc(block, size);
}

void *aligned_alloc(size_t alignment, size_t size)
{
    return refuse(CALLER) ? NULL : __libc_memalign(alignment, size);
}

int posix_memalign(void **block, size_t alignment, size_t size)
{
    void *made = refuse(CALLER) ? NULL : __libc_memalign(alignment, size);
    if (!made)
        return ENOMEM;
    *block = made;
    return 0;
}

static char *answer(const char *name);

char *getenv(const char *name)
{
    return answer(name);
}

#endif

/* The value of a name in the environment, as the C library's own getenv finds it. */
static char *found(const char *name)
{
    size_t length = strlen(name);
    for (char **at = environ; at && *at; at++)
        if (!strncmp(*at, name, length) && (*at)[length] == '=')
            return *at + length + 1;
    return NULL;
}

static unsigned long number_of(const char *name, unsigned long otherwise)
{
    const char *text = found(name);
    return text ? strtoul(text, NULL, 10) : otherwise;
}

/* A number as text, in a place of its own. */
static char *text_of(unsigned long number)
{
    static char text[24];
    char *at = text + sizeof text - 1;
    *at = 0;
    do
        *--at = (char)('0' + number % 10);
    while (number /= 10);
    return at;
}

/* What the look-up of a name in the environment is answered. */
static char *answer(const char *name)
{
    if (!strcmp(name, "REFUSALS_ON")) {
        atomic_store(&refused_before, atomic_load(&refused));
        atomic_store(&counting, 1);
        return text_of(0);
    }
    if (!strcmp(name, "REFUSALS_OFF")) {
        atomic_store(&counting, 0);
        return text_of(atomic_load(&refused) - atomic_load(&refused_before));
    }
    if (!strncmp(name, "REFUSE_", 7) && name[7] >= '0' && name[7] <= '9') {
        char *rest;
        atomic_store(&counting, 0);
        atomic_store(&counted, 0);
        atomic_store(&refused, 0);
        atomic_store(&refused_before, 0);
        atomic_store(&first, strtoul(name + 7, &rest, 10));
        atomic_store(&most, *rest == '_' ? strtoul(rest + 1, NULL, 10) : 1);
        alarm((unsigned)number_of("REFUSALS_SECONDS", 20)); /* a play that hangs is ended by SIGALRM */
        return text_of(0);
    }
    return found(name);
}

__attribute__((constructor)) static void begin(void)
{
#ifndef LINKED
    const char *stack = found("REFUSE_STACK");
    stacks_begin(found("STACKS_TABLE"), found("STACKS_FILE"), found("STACKS_MET") != NULL);
    refused_stack = stack ? strtoull(stack, NULL, 10) : 0;
#endif
    if (!found("REFUSE_AT"))
        return;
    atomic_store(&first, number_of("REFUSE_AT", 0));
    atomic_store(&most, number_of("REFUSE_COUNT", 1));
    atomic_store(&counting, 1);
}

#ifndef LINKED

/* Writes how many allocations counted and were refused. */
static int report(void)
{
    const char *file = found("REFUSE_REPORT");
    char text[64];
    if (!file)
        return 1;
    atomic_store(&counting, 0);
    int to = open(file, O_WRONLY | O_CREAT | O_TRUNC, 0644);
    int length = snprintf(text, sizeof text, "%lu %lu\n", atomic_load(&counted), atomic_load(&refused));
    return to >= 0 && write(to, text, (size_t)length) == length;
}

/* The runtime ends the process by this, so nothing can be done behind `main`. */
void _exit(int status)
{
    if (!report())
        status = 99;
    syscall(SYS_exit_group, status);
    __builtin_unreachable();
}

#endif
