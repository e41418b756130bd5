/*
 * Refuses one allocation of a program, so that what it does without memory can be seen with no new compilation.
 *
 *     cc -O2 -shared -fPIC -o refuse_allocation.so tools/try/refuse_allocation.c
 *     REFUSE_AT=N REFUSE_REPORT=FILE LD_PRELOAD=./refuse_allocation.so PROGRAM ...
 *
 * The Nth allocation that is asked for from `main` on, by whichever thread, gets no memory; with N 0 or not set none is refused.
 * With REFUSE_FIRST_THREAD=1 only those count that the first thread asks for once it has started another one: in a race of `sfbuild`
 * these are the build's, but for its workers', and the checks' behind it.
 * Counted are malloc, calloc, their aligned forms, and each realloc that asks for more than its block has room for.
 * When the program ends by itself FILE gets one line, `allocations M refused R`: how many were asked for, and how many of them, 0 or 1,
 * were refused. A program that is killed by a signal writes none.
 */
#define _GNU_SOURCE
#include <dlfcn.h>
#include <errno.h>
#include <fcntl.h>
#include <malloc.h>
#include <pthread.h>
#include <stdatomic.h>
#include <stdio.h>
#include <stdlib.h>
#include <string.h>
#include <unistd.h>

/* What the C library allocates by, under the names that a preloaded library doesn't replace. */
extern void *__libc_malloc(size_t size);
extern void *__libc_calloc(size_t count, size_t size);
extern void *__libc_realloc(void *block, size_t size);
extern void *__libc_memalign(size_t alignment, size_t size);

static atomic_ulong asked_for;
static atomic_ulong refused;
static atomic_int is_counting;
static atomic_int is_reported;
static unsigned long refuse_at;
/* Whether only the first thread's allocations count, once it isn't alone any more. */
static int counts_first_only;
static atomic_int has_threads;
static __thread int is_first __attribute__((tls_model("initial-exec")));

typedef int main_function(int count, char **words, char **environment);
static main_function *program_main;

/* Whether the allocation that is asked for now is the one to refuse. */
static int is_refused(void)
{
    if (!atomic_load_explicit(&is_counting, memory_order_relaxed) || (counts_first_only && !(is_first && atomic_load(&has_threads)))) {
        return 0;
    }
    if (atomic_fetch_add(&asked_for, 1) + 1 != refuse_at) {
        return 0;
    }
    atomic_fetch_add(&refused, 1);
    errno = ENOMEM;
    return 1;
}

void *malloc(size_t size)
{
    return is_refused() ? NULL : __libc_malloc(size);
}

void *calloc(size_t count, size_t size)
{
    return is_refused() ? NULL : __libc_calloc(count, size);
}

void *realloc(void *block, size_t size)
{
    int grows = block == NULL || size > malloc_usable_size(block);
    return grows && is_refused() ? NULL : __libc_realloc(block, size);
}

void *memalign(size_t alignment, size_t size)
{
    return is_refused() ? NULL : __libc_memalign(alignment, size);
}

void *aligned_alloc(size_t alignment, size_t size)
{
    return memalign(alignment, size);
}

int posix_memalign(void **block, size_t alignment, size_t size)
{
    void *got = memalign(alignment, size);
    if (got == NULL) {
        return ENOMEM;
    }
    *block = got;
    return 0;
}

int pthread_create(pthread_t *thread, const pthread_attr_t *how, void *(*start)(void *), void *with)
{
    int (*create)(pthread_t *, const pthread_attr_t *, void *(*)(void *), void *) = dlsym(RTLD_NEXT, "pthread_create");
    int told = create(thread, how, start, with);
    atomic_store(&has_threads, 1);
    return told;
}

/* Writes the line of the report, once, and without an allocation. */
static void report(void)
{
    const char *file = getenv("REFUSE_REPORT");
    if (!atomic_exchange(&is_counting, 0) || file == NULL || atomic_exchange(&is_reported, 1)) {
        return;
    }
    char line[80];
    int length = snprintf(line, sizeof line, "allocations %lu refused %lu\n", atomic_load(&asked_for), atomic_load(&refused));
    int written = open(file, O_WRONLY | O_CREAT | O_TRUNC, 0666);
    if (written < 0 || write(written, line, (size_t)length) != length) {
        static const char sorry[] = "refuse_allocation: the report cannot be written\n";
        (void)!write(2, sorry, sizeof sorry - 1);
    }
    close(written);
}

__attribute__((destructor)) static void at_exit(void)
{
    report();
}

/* A program may end without its destructors. */
void _exit(int status)
{
    report();
    void (*leave)(int) = (void (*)(int))dlsym(RTLD_NEXT, "_exit");
    leave(status);
    __builtin_unreachable();
}

static int counted_main(int count, char **words, char **environment)
{
    const char *place = getenv("REFUSE_AT");
    refuse_at = place == NULL ? 0 : strtoul(place, NULL, 10);
    counts_first_only = getenv("REFUSE_FIRST_THREAD") != NULL;
    is_first = 1;
    atomic_store(&is_counting, 1);
    return program_main(count, words, environment);
}

/* The start of a C program: what is asked for before `main` isn't the program's own. */
int __libc_start_main(main_function *main, int count, char **words, void (*begin)(void), void (*end)(void), void (*linked)(void), void *stack)
{
    int (*start)(main_function *, int, char **, void (*)(void), void (*)(void), void (*)(void), void *) = dlsym(RTLD_NEXT, "__libc_start_main");
    program_main = main;
    return start(counted_main, count, words, begin, end, linked, stack);
}
