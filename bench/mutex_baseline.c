/*
 * What the mutexes of lockrun's threads are compared with: pthread mutexes that lend priority (PTHREAD_PRIO_INHERIT),
 * one atomic ticket that all threads share, and per thread a log of 16-byte entries. Each round does what the lines of
 * a script of crates/lock_bench do, with an entry for each: the entry of a gain is stamped after it, that of a release
 * before it. bench/baseline compiles and runs it; it is no part of the gate.
 *
 * An operation is a lock, an edit or an unlock, with its entry. Printed are lines `name value`, of all cases or of the
 * one that is named: the nanoseconds of an operation, best of 9 runs, and behind NAME_median their median. That is the
 * time from the first thread's begin to the last one's end, divided by the operations of all threads together. The best
 * of them is a run in which the threads met least; NAME_handovers says of how many of 100 sections of the median run
 * the one before, of the same mutex, was another thread's. Where this is near 0 the threads hardly met.
 *
 * A nested take is checked by a table of edges between classes, which is looked up and written under a mutex of its
 * own. `tickets` are entries alone, without a mutex or an edit: no program whose entries have one order of all threads
 * can take less for an operation.
 */
#define _GNU_SOURCE
#include <pthread.h>
#include <sched.h>
#include <stdatomic.h>
#include <stdint.h>
#include <stdio.h>
#include <stdlib.h>
#include <string.h>
#include <time.h>

/* MOST_OPERATIONS is for all threads of a run together; a long section takes WORK nanoseconds. */
enum { RUNS = 9, MOST_THREADS = 32, MOST_LOCKS = 8, CLASSES = 64, MOST_OPERATIONS = 19900, KEYS = 16, WORK = 1000 };
enum event { LOCKED, ADDED, UNLOCKED };

/* What a thread does in a round, with its first lock and its second one, as in crates/lock_bench/src/scripts.rt. */
enum round { BARE, EDIT, LONG, APART, NESTED, TICKETS };
static const int operations_of[] = {[BARE] = 2, [EDIT] = 3, [LONG] = 3, [APART] = 5, [NESTED] = 5, [TICKETS] = 3};

struct test {
    const char *name;
    int threads;
    int mutexes;
    enum round round;
};
static const struct test tests[] = {
    {"lock_unlock", 1, 1, BARE},
    {"one_mutex_1_thread", 1, 1, EDIT},
    {"one_mutex_2_threads", 2, 1, EDIT},
    {"one_mutex_4_threads", 4, 1, EDIT},
    {"one_mutex_32_threads", 32, 1, EDIT},
    {"two_mutexes_4_threads", 4, 2, EDIT},
    {"own_mutexes_2_threads", 2, 2, EDIT},
    {"own_mutexes_4_threads", 4, 4, EDIT},
    {"long_sections_1_thread", 1, 1, LONG},
    {"long_sections_2_threads", 2, 1, LONG},
    {"long_sections_4_threads", 4, 1, LONG},
    {"long_sections_32_threads", 32, 1, LONG},
    {"long_sections_of_two_mutexes_4_threads", 4, 2, LONG},
    {"takes_apart_1_thread", 1, 1, APART},
    {"takes_apart_4_threads", 4, 4, APART},
    {"nested_takes_1_thread", 1, 1, NESTED},
    {"nested_takes_4_threads", 4, 4, NESTED},
    {"tickets_1_thread", 1, 1, TICKETS},
    {"tickets_2_threads", 2, 2, TICKETS},
    {"tickets_4_threads", 4, 4, TICKETS},
};

struct entry {
    uint32_t ticket;
    uint8_t thread;
    uint8_t event;
    uint8_t lock;
    uint8_t key;
    uint64_t value;
};
_Static_assert(sizeof(struct entry) == 16, "an entry has 16 bytes");

/* Each on cache lines of its own. */
struct lock {
    _Alignas(128) pthread_mutex_t mutex;
    _Alignas(128) uint64_t table[KEYS];
};
struct worker {
    _Alignas(128) struct entry *log;
    size_t entries;
    size_t rounds;
    enum round round;
    uint8_t thread;
    uint8_t first;
    uint8_t second;
    uint64_t began;
    uint64_t ended;
};

static struct lock locks[MOST_LOCKS];
/* Which class was taken while which was held. A lock's class is its own number. */
static struct {
    _Alignas(128) pthread_mutex_t mutex;
    _Alignas(128) uint64_t edges[CLASSES];
} graph;
static _Alignas(128) _Atomic uint32_t next_ticket;
/* How many threads are there: they wait for each other, so as to begin together. */
static _Alignas(128) _Atomic int there;
static struct entry *logs[MOST_THREADS];

static void fail(const char *what)
{
    fprintf(stderr, "mutex_baseline: %s\n", what);
    exit(1);
}

static void must(int status, const char *what)
{
    if (status != 0) {
        fprintf(stderr, "mutex_baseline: %s: %s\n", what, strerror(status));
        exit(1);
    }
}

static uint64_t now(void)
{
    struct timespec time;
    clock_gettime(CLOCK_MONOTONIC, &time);
    return (uint64_t)time.tv_sec * 1000000000 + (uint64_t)time.tv_nsec;
}

static void put(struct worker *w, enum event event, uint8_t lock, uint64_t key, uint64_t value)
{
    struct entry *e = &w->log[w->entries++];
    e->ticket = atomic_fetch_add(&next_ticket, 1);
    e->thread = w->thread;
    e->event = (uint8_t)event;
    e->lock = lock;
    e->key = (uint8_t)key;
    e->value = value;
}

static void lock(struct worker *w, uint8_t l)
{
    if (pthread_mutex_lock(&locks[l].mutex) != 0)
        fail("a lock was refused");
    put(w, LOCKED, l, 0, 0);
}

static void lock_behind(struct worker *w, uint8_t held, uint8_t l)
{
    if (pthread_mutex_lock(&graph.mutex) != 0)
        fail("a lock was refused");
    if (graph.edges[l] >> held & 1)
        fail("an order is reversed");
    if (!(graph.edges[held] >> l & 1))
        graph.edges[held] |= (uint64_t)1 << l;
    if (pthread_mutex_unlock(&graph.mutex) != 0)
        fail("an unlock was refused");
    lock(w, l);
}

static void add(struct worker *w, uint8_t l, uint64_t i)
{
    uint64_t key = i % KEYS;
    locks[l].table[key] += i;
    put(w, ADDED, l, key, i);
}

static void unlock(struct worker *w, uint8_t l)
{
    put(w, UNLOCKED, l, 0, 0);
    if (pthread_mutex_unlock(&locks[l].mutex) != 0)
        fail("an unlock was refused");
}

static void work_inside(void)
{
    uint64_t from = now();
    while (now() - from < WORK)
        ;
}

static void make_rounds(struct worker *w)
{
    uint8_t a = w->first, b = w->second;
    for (size_t i = 0; i < w->rounds; i++) {
        switch (w->round) {
        case BARE:
            lock(w, a);
            unlock(w, a);
            break;
        case EDIT:
            lock(w, a);
            add(w, a, i);
            unlock(w, a);
            break;
        case LONG:
            lock(w, a);
            add(w, a, i);
            work_inside();
            unlock(w, a);
            break;
        case APART:
            lock(w, a);
            unlock(w, a);
            lock(w, b);
            add(w, b, i);
            unlock(w, b);
            break;
        case NESTED:
            lock(w, a);
            lock_behind(w, a, b);
            add(w, b, i);
            unlock(w, b);
            unlock(w, a);
            break;
        case TICKETS:
            for (int n = 0; n < 3; n++)
                put(w, UNLOCKED, a, 0, 0);
            break;
        }
    }
}

static int workers_in_all;

static void *work(void *given)
{
    struct worker *w = given;
    atomic_fetch_add(&there, 1);
    while (atomic_load(&there) < workers_in_all)
        sched_yield();
    w->began = now();
    make_rounds(w);
    w->ended = now();
    return NULL;
}

/* Each ticket was given once, and each table has the sum of what the logs say. Answers of how many of 100 sections the
 * one before, of the same mutex, was another thread's. */
static double check(const struct worker *workers, int threads)
{
    uint64_t sums[MOST_LOCKS][KEYS] = {{0}};
    size_t entries = 0;
    for (int t = 0; t < threads; t++)
        entries += workers[t].entries;
    if (entries != atomic_load(&next_ticket))
        fail("a ticket is wanting");
    const struct entry **history = calloc(entries, sizeof *history);
    if (history == NULL)
        fail("out of memory");
    for (int t = 0; t < threads; t++) {
        for (size_t i = 0; i < workers[t].entries; i++) {
            const struct entry *e = &workers[t].log[i];
            if (e->ticket >= entries || history[e->ticket] != NULL)
                fail("a ticket was given twice");
            history[e->ticket] = e;
            if (e->event == ADDED)
                sums[e->lock][e->key] += e->value;
        }
    }
    size_t sections = 0, handovers = 0;
    int holders[MOST_LOCKS];
    for (int l = 0; l < MOST_LOCKS; l++)
        holders[l] = -1;
    for (size_t i = 0; i < entries; i++) {
        if (history[i]->event == LOCKED) {
            int *holder = &holders[history[i]->lock];
            sections++;
            handovers += *holder >= 0 && *holder != history[i]->thread;
            *holder = history[i]->thread;
        }
    }
    free(history);
    for (int l = 0; l < MOST_LOCKS; l++)
        for (int k = 0; k < KEYS; k++)
            if (sums[l][k] != locks[l].table[k])
                fail("a table isn't the replay of the logs");
    return sections == 0 ? 0 : 100.0 * (double)handovers / (double)sections;
}

struct figures {
    double nanoseconds;
    double handovers;
};

static struct figures run(const struct test *test)
{
    static struct worker workers[MOST_THREADS];
    pthread_t ids[MOST_THREADS];

    atomic_store(&next_ticket, 0);
    atomic_store(&there, 0);
    workers_in_all = test->threads;
    for (int l = 0; l < MOST_LOCKS; l++)
        memset(locks[l].table, 0, sizeof locks[l].table);
    memset(graph.edges, 0, sizeof graph.edges);
    for (int t = 0; t < test->threads; t++)
        workers[t] = (struct worker){
            .log = logs[t],
            .rounds = (size_t)(MOST_OPERATIONS / test->threads / operations_of[test->round]),
            .round = test->round,
            .thread = (uint8_t)t,
            .first = (uint8_t)(t % test->mutexes),
            .second = (uint8_t)(t % test->mutexes + test->mutexes),
        };
    /* this thread is the first worker, as it is in a running floor */
    for (int t = 1; t < test->threads; t++)
        must(pthread_create(&ids[t], NULL, work, &workers[t]), "thread");
    work(&workers[0]);
    for (int t = 1; t < test->threads; t++)
        must(pthread_join(ids[t], NULL), "join");
    uint64_t began = workers[0].began, ended = workers[0].ended;
    size_t operations = 0;
    for (int t = 0; t < test->threads; t++) {
        began = workers[t].began < began ? workers[t].began : began;
        ended = workers[t].ended > ended ? workers[t].ended : ended;
        operations += workers[t].entries;
    }
    double handovers = check(workers, test->threads);
    return (struct figures){(double)(ended - began) / (double)operations, handovers};
}

static int by_time(const void *a, const void *b)
{
    double x = ((const struct figures *)a)->nanoseconds, y = ((const struct figures *)b)->nanoseconds;
    return (x > y) - (x < y);
}

static void measure(const struct test *test)
{
    struct figures runs[RUNS];
    for (int i = 0; i < RUNS; i++)
        runs[i] = run(test);
    qsort(runs, RUNS, sizeof runs[0], by_time);
    printf("%s %.1f\n", test->name, runs[0].nanoseconds);
    printf("%s_median %.1f\n", test->name, runs[RUNS / 2].nanoseconds);
    printf("%s_handovers %.1f\n", test->name, runs[RUNS / 2].handovers);
    fflush(stdout);
}

int main(int argc, char **argv)
{
    pthread_mutexattr_t lends;
    must(pthread_mutexattr_init(&lends), "attributes");
    must(pthread_mutexattr_setprotocol(&lends, PTHREAD_PRIO_INHERIT), "a mutex that lends priority");
    must(pthread_mutex_init(&graph.mutex, &lends), "mutex");
    for (int l = 0; l < MOST_LOCKS; l++)
        must(pthread_mutex_init(&locks[l].mutex, &lends), "mutex");
    for (int t = 0; t < MOST_THREADS; t++) {
        size_t bytes = MOST_OPERATIONS * sizeof(struct entry);
        logs[t] = malloc(bytes);
        if (logs[t] == NULL)
            fail("out of memory");
        /* so that no page is new in a run, as none is in the logs of a floor (Log::touch) */
        memset(logs[t], 1, bytes);
    }
    for (size_t i = 0; i < sizeof tests / sizeof tests[0]; i++)
        if (argc < 2 || strcmp(argv[1], tests[i].name) == 0)
            measure(&tests[i]);
    return 0;
}
