/*
 * What the conditions and the sx locks of lockrun's threads are compared with: pthread condition variables with a mutex
 * that lends priority (PTHREAD_PRIO_INHERIT), and a lock that may be shared and is made of these, with the ticket and
 * the logs of mutex_baseline.c. Each round does what the lines of a script of crates/lock_bench do, with an entry for
 * each, and two for a wait. The logs of a run are new, and each of their pages was touched before it, as those of a
 * floor are. bench/baseline compiles and runs it; it is no part of the gate.
 *
 * Printed are the lines of mutex_baseline.c, of all cases or of the one that is named. Of the lock that is shared the
 * nanoseconds are those of an operation, which is a take, a look at a value or a release, with its entry. Where threads
 * wait on a condition they are those of a round. In a ping-pong each of two threads wakes the other and waits; a round
 * is a round trip. In a broadcast one thread wakes all others, once all of them sleep, and each of them has the mutex
 * again before it sleeps anew.
 */
#define _GNU_SOURCE
#include <errno.h>
#include <pthread.h>
#include <sched.h>
#include <stdatomic.h>
#include <stdint.h>
#include <stdio.h>
#include <stdlib.h>
#include <string.h>
#include <sys/mman.h>
#include <time.h>

/* MOST_OPERATIONS is for all threads of a run together. */
enum { RUNS = 9, MOST_THREADS = 32, MOST_OPERATIONS = 19900, KEYS = 16 };
enum event { LOCKED, SHARED, GOT, SLEEPS, WOKE, WAKES, UNLOCKED };

/* What a thread does in a round, as in crates/lock_bench/src/scripts.rt. */
enum round { SHARE, PING_PONG, BROADCAST };
static const int operations_of[] = {[SHARE] = 3, [PING_PONG] = 2, [BROADCAST] = 3};

struct test {
    const char *name;
    int threads;
    enum round round;
};
static const struct test tests[] = {
    {"sx_readers_1_thread", 1, SHARE},
    {"sx_readers_4_threads", 4, SHARE},
    {"ping_pong_2_threads", 2, PING_PONG},
    {"broadcast_31_sleepers", 32, BROADCAST},
};

struct entry {
    uint32_t ticket;
    uint8_t thread;
    uint8_t event;
    uint8_t lock;
    uint8_t key;
    uint64_t value;
};
_Static_assert(sizeof(struct entry) == 16, "an entry has 16 bytes");

/* Each on cache lines of its own. */
struct worker {
    _Alignas(128) struct entry *log;
    size_t entries;
    size_t rounds;
    enum round round;
    uint8_t thread;
    int is_last;
    uint64_t began;
    uint64_t ended;
};

static _Alignas(128) pthread_mutex_t mutex;
static _Alignas(128) pthread_cond_t woken;
/* Under the mutex: whose turn it is in a ping-pong, how many broadcasts were made, and how many share the lock. */
static _Alignas(128) uint64_t turn;
static uint64_t broadcasts;
static uint64_t sharers;
static _Alignas(128) uint64_t table[KEYS];
static _Alignas(128) _Atomic uint32_t next_ticket;
/* How many threads are there: they wait for each other, so as to begin together; and how often a sleeper came. */
static _Alignas(128) _Atomic int there;
static _Alignas(128) _Atomic size_t came;

static void fail(const char *what)
{
    fprintf(stderr, "cond_baseline: %s\n", what);
    exit(1);
}

static void must(int status, const char *what)
{
    if (status != 0) {
        fprintf(stderr, "cond_baseline: %s: %s\n", what, strerror(status));
        exit(1);
    }
}

static uint64_t now(void)
{
    struct timespec time;
    clock_gettime(CLOCK_MONOTONIC, &time);
    return (uint64_t)time.tv_sec * 1000000000 + (uint64_t)time.tv_nsec;
}

static void put(struct worker *w, enum event event, uint64_t key, uint64_t value)
{
    struct entry *e = &w->log[w->entries++];
    e->ticket = atomic_fetch_add(&next_ticket, 1);
    e->thread = w->thread;
    e->event = (uint8_t)event;
    e->lock = 0;
    e->key = (uint8_t)key;
    e->value = value;
}

static void lock(struct worker *w)
{
    must(pthread_mutex_lock(&mutex), "a lock");
    put(w, LOCKED, 0, 0);
}

static void unlock(struct worker *w)
{
    put(w, UNLOCKED, 0, 0);
    must(pthread_mutex_unlock(&mutex), "an unlock");
}

/* A lock that may be shared. Nobody takes it exclusively here, so that nobody waits for it. */
static void share(struct worker *w)
{
    must(pthread_mutex_lock(&mutex), "a lock");
    sharers++;
    must(pthread_mutex_unlock(&mutex), "an unlock");
    put(w, SHARED, 0, 0);
}

static void end_sharing(struct worker *w)
{
    put(w, UNLOCKED, 0, 0);
    must(pthread_mutex_lock(&mutex), "a lock");
    if (--sharers == 0)
        must(pthread_cond_signal(&woken), "a signal");
    must(pthread_mutex_unlock(&mutex), "an unlock");
}

static void get(struct worker *w, uint64_t i)
{
    uint64_t key = i % KEYS;
    put(w, GOT, key, table[key]);
}

/* Until it is this thread's turn; or until one broadcast more was made. */
static void wait_for_turn(struct worker *w)
{
    put(w, SLEEPS, 0, 0);
    while (turn != w->thread)
        must(pthread_cond_wait(&woken, &mutex), "a wait");
    put(w, WOKE, 0, 0);
}

static void wait_for_broadcast(struct worker *w)
{
    uint64_t before = broadcasts;
    put(w, SLEEPS, 0, 0);
    while (broadcasts == before)
        must(pthread_cond_wait(&woken, &mutex), "a wait");
    put(w, WOKE, 0, 0);
}

static void give_turn(struct worker *w)
{
    turn = (uint64_t)!w->thread;
    put(w, WAKES, 0, 0);
    must(pthread_cond_signal(&woken), "a signal");
}

static void broadcast(struct worker *w)
{
    broadcasts++;
    put(w, WAKES, 0, 0);
    must(pthread_cond_broadcast(&woken), "a broadcast");
}

static int workers_in_all;

static void make_rounds(struct worker *w)
{
    switch (w->round) {
    case SHARE:
        for (size_t i = 0; i < w->rounds; i++) {
            share(w);
            get(w, i);
            end_sharing(w);
        }
        return;
    case PING_PONG:
        lock(w);
        for (size_t i = 0; i < w->rounds; i++) {
            if (w->is_last) {
                give_turn(w);
                wait_for_turn(w);
            } else {
                wait_for_turn(w);
                give_turn(w);
            }
        }
        unlock(w);
        return;
    case BROADCAST:
        if (!w->is_last) {
            lock(w);
            for (size_t i = 0; i < w->rounds; i++) {
                atomic_fetch_add(&came, 1);
                wait_for_broadcast(w);
            }
            unlock(w);
            return;
        }
        for (size_t i = 0; i < w->rounds; i++) {
            while (atomic_load(&came) < (i + 1) * (size_t)(workers_in_all - 1))
                sched_yield();
            lock(w);
            broadcast(w);
            unlock(w);
        }
        return;
    }
}

static void *work(void *given)
{
    struct worker *w = given;
    atomic_fetch_add(&there, 1);
    while (atomic_load(&there) < workers_in_all)
        sched_yield();
    w->began = now();
    make_rounds(w);
    w->ended = now();
    return NULL;
}

/* Each ticket was given once; who wakes or ends a sleep has the mutex, and each sleep was ended. Answers of how many of
 * 100 sections the one before was another thread's. */
static double check(const struct worker *workers, int threads)
{
    size_t entries = 0, sections = 0, handovers = 0, asleep = 0;
    int holder = -1;
    for (int t = 0; t < threads; t++)
        entries += workers[t].entries;
    if (entries != atomic_load(&next_ticket))
        fail("a ticket is wanting");
    const struct entry **history = calloc(entries, sizeof *history);
    if (history == NULL)
        fail("out of memory");
    for (int t = 0; t < threads; t++) {
        for (size_t i = 0; i < workers[t].entries; i++) {
            const struct entry *e = &workers[t].log[i];
            if (e->ticket >= entries || history[e->ticket] != NULL)
                fail("a ticket was given twice");
            history[e->ticket] = e;
        }
    }
    for (size_t i = 0; i < entries; i++) {
        const struct entry *e = history[i];
        switch ((enum event)e->event) {
        case WOKE:
            if (asleep-- == 0)
                fail("a sleep was ended twice");
            /* fall through */
        case LOCKED:
        case SHARED:
            sections++;
            handovers += holder >= 0 && holder != e->thread;
            holder = e->thread;
            break;
        case SLEEPS:
            asleep++;
            break;
        case WAKES:
            if (holder != e->thread)
                fail("who wakes has no mutex");
            break;
        case GOT:
            if (e->value != table[e->key])
                fail("a look found what no edit left");
            break;
        case UNLOCKED:
            break;
        }
    }
    free(history);
    if (asleep != 0)
        fail("a sleep wasn't ended");
    return sections == 0 ? 0 : 100.0 * (double)handovers / (double)sections;
}

/* A log of so many entries, of which no page is new in the run, as none is in the logs of a floor (Log::touch). */
static struct entry *new_log(size_t entries)
{
    size_t bytes = entries * sizeof(struct entry);
    void *log = mmap(NULL, bytes, PROT_READ | PROT_WRITE, MAP_PRIVATE | MAP_ANONYMOUS, -1, 0);
    if (log == MAP_FAILED)
        fail("out of memory");
    memset(log, 1, bytes);
    return log;
}

struct figures {
    double nanoseconds;
    double handovers;
};

static struct figures run(const struct test *test)
{
    static struct worker workers[MOST_THREADS];
    pthread_t ids[MOST_THREADS];

    atomic_store(&next_ticket, 0);
    atomic_store(&there, 0);
    atomic_store(&came, 0);
    workers_in_all = test->threads;
    turn = 1;
    broadcasts = 0;
    sharers = 0;
    size_t rounds = (size_t)(MOST_OPERATIONS / test->threads / operations_of[test->round]);
    /* two for each operation, and one to lock and one to unlock */
    size_t room = 2 * rounds * (size_t)operations_of[test->round] + 2;
    for (int t = 0; t < test->threads; t++)
        workers[t] = (struct worker){
            .log = new_log(room),
            .rounds = rounds,
            .round = test->round,
            .thread = (uint8_t)t,
            .is_last = t + 1 == test->threads,
        };
    /* this thread is the first worker, as it is in a running floor */
    for (int t = 1; t < test->threads; t++)
        must(pthread_create(&ids[t], NULL, work, &workers[t]), "thread");
    work(&workers[0]);
    for (int t = 1; t < test->threads; t++)
        must(pthread_join(ids[t], NULL), "join");
    uint64_t began = workers[0].began, ended = workers[0].ended;
    for (int t = 0; t < test->threads; t++) {
        began = workers[t].began < began ? workers[t].began : began;
        ended = workers[t].ended > ended ? workers[t].ended : ended;
    }
    double handovers = check(workers, test->threads);
    for (int t = 0; t < test->threads; t++)
        must(munmap(workers[t].log, room * sizeof(struct entry)) == 0 ? 0 : errno, "a log");
    size_t operations = rounds * (test->round == SHARE ? 3 * (size_t)test->threads : 1);
    return (struct figures){(double)(ended - began) / (double)operations, handovers};
}

static int by_time(const void *a, const void *b)
{
    double x = ((const struct figures *)a)->nanoseconds, y = ((const struct figures *)b)->nanoseconds;
    return (x > y) - (x < y);
}

static void measure(const struct test *test)
{
    struct figures runs[RUNS];
    for (int i = 0; i < RUNS; i++)
        runs[i] = run(test);
    qsort(runs, RUNS, sizeof runs[0], by_time);
    printf("%s %.1f\n", test->name, runs[0].nanoseconds);
    printf("%s_median %.1f\n", test->name, runs[RUNS / 2].nanoseconds);
    printf("%s_handovers %.1f\n", test->name, runs[RUNS / 2].handovers);
    fflush(stdout);
}

int main(int argc, char **argv)
{
    pthread_mutexattr_t lends;
    must(pthread_mutexattr_init(&lends), "attributes");
    must(pthread_mutexattr_setprotocol(&lends, PTHREAD_PRIO_INHERIT), "a mutex that lends priority");
    must(pthread_mutex_init(&mutex, &lends), "mutex");
    must(pthread_cond_init(&woken, NULL), "a condition variable");
    for (size_t i = 0; i < sizeof tests / sizeof tests[0]; i++)
        if (argc < 2 || strcmp(argv[1], tests[i].name) == 0)
            measure(&tests[i]);
    return 0;
}
