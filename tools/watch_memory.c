/* Watches the memory that a program takes, and refuses it memory or threads, for try_memory.py and bench/memory. It is
 * loaded into the program by LD_PRELOAD:
 *
 *     REFUSED=allocation|thread  FIRST=N  LAST=N  TOLD=FD
 *
 * The calls of malloc and realloc, or those of pthread_create, are counted from 1, and FIRST to LAST are refused as the
 * system refuses them. When the program ends, a line of seven numbers is written to TOLD: how many allocations
 * and threads were asked for, how many of them were refused, how many allocations were asked for between the start of
 * the first thread and the last join, and how many of these were handed to a start, the most bytes that were allocated
 * at a time, and the most KiB that were resident. An allocation is a start's own where the block that its thread took
 * last is the start's argument. For Linux with glibc, and programs that take memory by malloc and realloc alone. */
#define _GNU_SOURCE
#include <dlfcn.h>
#include <errno.h>
#include <malloc.h>
#include <pthread.h>
#include <stdatomic.h>
#include <stdio.h>
#include <stdlib.h>
#include <string.h>
#include <unistd.h>

void *__libc_malloc(size_t);
void *__libc_realloc(void *, size_t);
void __libc_free(void *);

static atomic_long allocations, threads, refused, bytes, most_bytes;
/* since the first start, and when a join was over */
static atomic_long meanwhile, handed, until_join, handed_until_join;
static long first = 1, last;
static int of_threads, told = -1;
static _Thread_local void *newest;
static int (*start)(pthread_t *, const pthread_attr_t *, void *(*)(void *), void *);
static int (*join)(pthread_t, void **);

__attribute__((constructor)) static void begin(void)
{
    const char *what = getenv("REFUSED"), *from = getenv("FIRST"), *to = getenv("LAST"), *fd = getenv("TOLD");
    start = dlsym(RTLD_NEXT, "pthread_create");
    join = dlsym(RTLD_NEXT, "pthread_join");
    of_threads = what && !strcmp(what, "thread");
    if (from) first = atol(from);
    if (to) last = atol(to);
    if (fd) told = atoi(fd);
    atomic_store(&allocations, 0);
}

static int is_refused(atomic_long *count, int is_asked)
{
    long n = atomic_fetch_add(count, 1) + 1;
    if (!is_asked || n < first || n > last) return 0;
    atomic_fetch_add(&refused, 1);
    return 1;
}

static int is_refused_allocation(void)
{
    if (atomic_load(&threads)) atomic_fetch_add(&meanwhile, 1);
    return is_refused(&allocations, !of_threads);
}

static void *count(void *block, size_t before)
{
    newest = atomic_load(&threads) ? block : NULL;
    long more = (long)malloc_usable_size(block) - (long)before, now = atomic_fetch_add(&bytes, more) + more;
    long most = atomic_load(&most_bytes);
    while (now > most && !atomic_compare_exchange_weak(&most_bytes, &most, now)) {}
    return block;
}

void *malloc(size_t size)
{
    if (is_refused_allocation()) return errno = ENOMEM, NULL;
    return count(__libc_malloc(size), 0);
}

void *realloc(void *old, size_t size)
{
    if (is_refused_allocation()) return errno = ENOMEM, NULL;
    size_t before = malloc_usable_size(old);
    return count(__libc_realloc(old, size), before);
}

void free(void *block)
{
    atomic_fetch_sub(&bytes, (long)malloc_usable_size(block));
    __libc_free(block);
}

int pthread_create(pthread_t *id, const pthread_attr_t *attributes, void *(*body)(void *), void *argument)
{
    if (argument && argument == newest) atomic_fetch_add(&handed, 1);
    if (is_refused(&threads, of_threads)) return EAGAIN;
    return start(id, attributes, body, argument);
}

int pthread_join(pthread_t id, void **value)
{
    int answer = join(id, value);
    atomic_store(&until_join, atomic_load(&meanwhile));
    atomic_store(&handed_until_join, atomic_load(&handed));
    return answer;
}

static long resident(void)
{
    char line[200];
    long most = 0;
    FILE *status = fopen("/proc/self/status", "r");
    while (status && fgets(line, sizeof line, status))
        if (sscanf(line, "VmHWM: %ld", &most) == 1) break;
    return most;
}

/* An end by _exit runs no destructor, and an end by exit calls no _exit that could be another's. */
__attribute__((destructor)) static void tell(void)
{
    char line[160];
    long asked = atomic_load(&allocations), most = atomic_load(&most_bytes), refusals = atomic_load(&refused);
    last = 0; /* from here on nothing is refused */
    int n = snprintf(line, sizeof line, "%ld %ld %ld %ld %ld %ld %ld\n", asked, atomic_load(&threads), refusals,
                     atomic_load(&until_join), atomic_load(&handed_until_join), most, resident());
    if (told >= 0 && write(told, line, (size_t)n) != n) abort();
}

void _exit(int status)
{
    static void (*end)(int);
    tell();
    end = dlsym(RTLD_NEXT, "_exit");
    end(status);
    __builtin_unreachable();
}
