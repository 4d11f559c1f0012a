/* Call stacks of a program that has no frame pointers, by a table of its calls.
 *
 * STACKS_TABLE names a file of pairs of 32-bit numbers: the address behind a call, from where the program lies in memory,
 * and how far above the stack pointer the return address of the function that calls is then; in the order of the addresses
 * (places.py writes it). STACKS_FILE names a file to which a line is added for each stack of a refused allocation, and with
 * STACKS_MET for each one at which an allocation counted: "refused" or "met", its hash, the allocation's number, and the
 * addresses from the innermost on. A stack is written once by a process. One that comes to the allocator through the C
 * library begins with 0 and goes on at the first address above that is in the table.
 */
#include <fcntl.h>
#include <link.h>
#include <stdint.h>
#include <stdio.h>
#include <stdlib.h>
#include <string.h>
#include <sys/mman.h>
#include <sys/stat.h>
#include <sys/syscall.h>
#include <unistd.h>

#define MOST_FRAMES 128
#define SLOTS 16384
/* So many words above the stack pointer are searched where the C library's own frames lie between. */
#define SEARCHED 512

struct behind_call {
    uint32_t address, distance;
};

struct stack {
    uint64_t hash;
    unsigned depth;
    uint32_t frames[MOST_FRAMES];
};

/* From where a function is called: its return address, and where the stack pointer is behind the return. */
struct caller {
    uintptr_t address;
    const uintptr_t *pointer;
};

/* Of the function that has it. */
#define CALLER (struct caller){(uintptr_t)__builtin_return_address(0), (const uintptr_t *)__builtin_frame_address(0) + 2}

static const struct behind_call *stacks_table;
static size_t stacks_length;
static uintptr_t stacks_base;
static int stacks_file = -1, stacks_met;
static _Atomic uint64_t stacks_known[2][SLOTS];

static int stacks_program(struct dl_phdr_info *info, size_t size, void *base)
{
    (void)size;
    *(uintptr_t *)base = info->dlpi_addr;
    return 1; /* the first one is the program */
}

/* Opens table and file, if there are names for them. */
static void stacks_begin(const char *table, const char *file, int is_met_told)
{
    struct stat about;
    int from = table ? open(table, O_RDONLY | O_CLOEXEC) : -1;
    if (from < 0 || !file || fstat(from, &about) < 0)
        return;
    void *mapped = mmap(NULL, (size_t)about.st_size, PROT_READ, MAP_PRIVATE, from, 0);
    close(from);
    if (mapped == MAP_FAILED)
        return;
    dl_iterate_phdr(stacks_program, &stacks_base);
    stacks_file = open(file, O_WRONLY | O_APPEND | O_CREAT | O_CLOEXEC, 0644);
    stacks_met = is_met_told;
    stacks_length = (size_t)about.st_size / sizeof *stacks_table;
    stacks_table = mapped;
}

/* The entry of an address behind a call; NULL where it isn't the program's. */
static const struct behind_call *stacks_found(uintptr_t address)
{
    size_t low = 0, high = stacks_length;
    while (low < high) {
        size_t middle = (low + high) / 2;
        uintptr_t at = stacks_base + stacks_table[middle].address;
        if (at == address)
            return &stacks_table[middle];
        if (at < address)
            low = middle + 1;
        else
            high = middle;
    }
    return NULL;
}

/* The stack from there on. */
static void stacks_walk(struct stack *stack, struct caller at)
{
    stack->hash = 14695981039346656037u;
    stack->depth = 0;
    const struct behind_call *call = stacks_found(at.address);
    if (!call) {
        stack->frames[stack->depth++] = 0;
        for (unsigned n = 0; n < SEARCHED && !call; n++)
            call = stacks_found(*at.pointer++);
    }
    for (; call && stack->depth < MOST_FRAMES; call = stacks_found(at.address)) {
        stack->frames[stack->depth++] = call->address;
        stack->hash = (stack->hash ^ call->address) * 1099511628211u;
        at.pointer = (const uintptr_t *)((const char *)at.pointer + call->distance);
        at.address = *at.pointer++;
    }
}

/* Whether a stack is told for the first time; kind: 1 for refused ones. */
static int stacks_is_new(const struct stack *stack, int kind)
{
    for (unsigned n = 0; n < SLOTS; n++) {
        _Atomic uint64_t *slot = &stacks_known[kind][(stack->hash + n) % SLOTS];
        uint64_t none = 0;
        if (__atomic_compare_exchange_n((uint64_t *)slot, &none, stack->hash, 0, __ATOMIC_SEQ_CST, __ATOMIC_SEQ_CST))
            return 1;
        if (none == stack->hash)
            return 0;
    }
    return 0;
}

/* Adds a line for a stack, where it isn't there yet: whether it wasn't. */
static int stacks_tell(const struct stack *stack, int is_refused, unsigned long number)
{
    char line[64 + 10 * MOST_FRAMES];
    if (stacks_file < 0 || !stacks_is_new(stack, is_refused))
        return 0;
    int length = sprintf(line, "%s %llu %lu", is_refused ? "refused" : "met", (unsigned long long)stack->hash, number);
    for (unsigned n = 0; n < stack->depth; n++)
        length += sprintf(line + length, " %x", stack->frames[n]);
    line[length++] = '\n';
    if (syscall(SYS_write, stacks_file, line, (size_t)length) != length)
        abort();
    return 1;
}
