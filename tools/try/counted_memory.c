/*
 * Counts the memory of a program that is linked with it, and refuses one allocation.
 *
 *     cc .. tools/try/counted_memory.c -Wl,--wrap=malloc,--wrap=calloc,--wrap=realloc,--wrap=free
 *     REFUSE_AT=N REFUSE_REPORT=FILE PROGRAM ...
 *
 * Counted is what the program and the static libraries in it ask for, by whichever thread, and not what the C library takes for itself. The Nth
 * allocation gets no memory; with N 0 or not set none is refused. When the program ends by itself FILE gets one line, `allocations M refused R left L`:
 * how many were asked for, how many of them, 0 or 1, were refused, and how many blocks weren't given back.
 */
#include <stdatomic.h>
#include <stdio.h>
#include <stdlib.h>

extern void *__real_malloc(size_t size);
extern void *__real_calloc(size_t count, size_t size);
extern void *__real_realloc(void *block, size_t size);
extern void __real_free(void *block);

static atomic_ulong asked_for;
static atomic_ulong refused;
static atomic_long left;
static unsigned long refuse_at;

/* Whether the allocation that is asked for now is the one to refuse. */
static int is_refused(void)
{
    if (atomic_fetch_add(&asked_for, 1) + 1 != refuse_at)
        return 0;
    atomic_fetch_add(&refused, 1);
    return 1;
}

/* A block that is new where it is there. */
static void *new_block(void *block)
{
    if (block != NULL)
        atomic_fetch_add(&left, 1);
    return block;
}

void *__wrap_malloc(size_t size)
{
    return is_refused() ? NULL : new_block(__real_malloc(size));
}

void *__wrap_calloc(size_t count, size_t size)
{
    return is_refused() ? NULL : new_block(__real_calloc(count, size));
}

void *__wrap_realloc(void *block, size_t size)
{
    if (is_refused())
        return NULL;
    return block == NULL ? new_block(__real_realloc(NULL, size)) : __real_realloc(block, size);
}

void __wrap_free(void *block)
{
    if (block != NULL)
        atomic_fetch_sub(&left, 1);
    __real_free(block);
}

__attribute__((constructor)) static void at_start(void)
{
    const char *place = getenv("REFUSE_AT");
    refuse_at = place == NULL ? 0 : strtoul(place, NULL, 10);
}

__attribute__((destructor)) static void at_exit(void)
{
    const char *name = getenv("REFUSE_REPORT");
    FILE *file = name == NULL ? NULL : fopen(name, "w");
    if (file == NULL)
        return;
    fprintf(file, "allocations %lu refused %lu left %ld\n", atomic_load(&asked_for), atomic_load(&refused), atomic_load(&left));
    fclose(file);
}
