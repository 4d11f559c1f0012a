/* Allocations that are refused and counted: malloc, calloc, realloc and free go by the wrappers below (the linker's --wrap).
 */
#include <stdatomic.h>
#include <stdio.h>
#include <stdlib.h>

static _Atomic long left = -1; /* so many allocations until one is refused; below 0: none is */
static _Atomic long live;      /* so many pieces of memory are in use */

void *__real_malloc(size_t size);
void *__real_calloc(size_t count, size_t size);
void *__real_realloc(void *old, size_t size);
void __real_free(void *old);

static int is_refused(void) { return left >= 0 && left-- == 0; }

static void *counted(void *made) {
    live += made != NULL;
    return made;
}

void *__wrap_malloc(size_t size) { return is_refused() ? NULL : counted(__real_malloc(size)); }

void *__wrap_calloc(size_t count, size_t size) { return is_refused() ? NULL : counted(__real_calloc(count, size)); }

void *__wrap_realloc(void *old, size_t size) {
    if (is_refused())
        return NULL;
    return old ? __real_realloc(old, size) : counted(__real_realloc(old, size));
}

void __wrap_free(void *old) {
    live -= old != NULL;
    __real_free(old);
}

#define EXPECT(holds)                                                          \
    do {                                                                       \
        if (!(holds)) {                                                        \
            fprintf(stderr, "%s:%d: %s\n", __FILE__, __LINE__, #holds);        \
            exit(1);                                                           \
        }                                                                      \
    } while (0)
