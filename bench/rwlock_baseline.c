/*
 * What the reader-writer locks of lockrun's threads are compared with: pthread's, of the sort that prefers writers
 * where the library has it, with the ticket and the logs of mutex_baseline.c. Each round does what the lines of a
 * script of crates/lock_bench do, with an entry for each: the entry of a gain is stamped after it, that of a release
 * before it. The logs of a run are new, and each of their pages was touched before it, as those of a floor are.
 * bench/baseline compiles and runs it; it is no part of the gate.
 *
 * An operation is a take, a look at a value, an edit or a release, with its entry. Printed are the lines of
 * mutex_baseline.c, of all cases or of the one that is named. Of the takes of a writer while all others read, from
 * before each to behind its entry, printed are the median (NAME_median) and the longest (NAME_worst) of 1,000, in
 * nanoseconds: those that came to their end before any reader came to his, in as many runs as it takes.
 */
#define _GNU_SOURCE
#include <errno.h>
#include <pthread.h>
#include <sched.h>
#include <stdatomic.h>
#include <stdint.h>
#include <stdio.h>
#include <stdlib.h>
#include <string.h>
#include <sys/mman.h>
#include <time.h>

/* MOST_OPERATIONS is for all threads of a run together. */
enum { RUNS = 9, MOST_THREADS = 8, MOST_OPERATIONS = 19900, KEYS = 16, TAKES = 1000, MOST_RUNS = 10000 };
enum event { READS, WRITES, GOT, ADDED, UNLOCKED };

/* What a thread does in a round, as in crates/lock_bench/src/scripts.rt. */
enum round { READ, WRITE, GET, MIXED, WAITS };
static const int operations_of[] = {[READ] = 2, [WRITE] = 2, [GET] = 3, [MIXED] = 3, [WAITS] = 3};

struct test {
    const char *name;
    int threads;
    enum round round;
};
static const struct test tests[] = {
    {"read_unlock", 1, READ},
    {"write_unlock", 1, WRITE},
    {"readers_1_thread", 1, GET},
    {"readers_2_threads", 2, GET},
    {"readers_4_threads", 4, GET},
    {"readers_4_threads_and_a_writer", 5, MIXED},
    {"write_under_4_readers", 5, WAITS},
};

struct entry {
    uint32_t ticket;
    uint8_t thread;
    uint8_t event;
    uint8_t lock;
    uint8_t key;
    uint64_t value;
};
_Static_assert(sizeof(struct entry) == 16, "an entry has 16 bytes");

/* Each on cache lines of its own. */
struct worker {
    _Alignas(128) struct entry *log;
    size_t entries;
    size_t rounds;
    enum round round;
    uint8_t thread;
    int writes;
    uint64_t began;
    uint64_t ended;
    /* of a writer's takes: how long each was, and when it had ended */
    uint64_t *waits;
    uint64_t *gained;
};

static _Alignas(128) pthread_rwlock_t shared;
static _Alignas(128) uint64_t table[KEYS];
static _Alignas(128) _Atomic uint32_t next_ticket;
/* How many threads are there: they wait for each other, so as to begin together. */
static _Alignas(128) _Atomic int there;

static void fail(const char *what)
{
    fprintf(stderr, "rwlock_baseline: %s\n", what);
    exit(1);
}

static void must(int status, const char *what)
{
    if (status != 0) {
        fprintf(stderr, "rwlock_baseline: %s: %s\n", what, strerror(status));
        exit(1);
    }
}

static uint64_t now(void)
{
    struct timespec time;
    clock_gettime(CLOCK_MONOTONIC, &time);
    return (uint64_t)time.tv_sec * 1000000000 + (uint64_t)time.tv_nsec;
}

static void put(struct worker *w, enum event event, uint64_t key, uint64_t value)
{
    struct entry *e = &w->log[w->entries++];
    e->ticket = atomic_fetch_add(&next_ticket, 1);
    e->thread = w->thread;
    e->event = (uint8_t)event;
    e->lock = 0;
    e->key = (uint8_t)key;
    e->value = value;
}

static void read_lock(struct worker *w)
{
    if (pthread_rwlock_rdlock(&shared) != 0)
        fail("a lock was refused");
    put(w, READS, 0, 0);
}

static void write_lock(struct worker *w)
{
    if (pthread_rwlock_wrlock(&shared) != 0)
        fail("a lock was refused");
    put(w, WRITES, 0, 0);
}

static void get(struct worker *w, uint64_t i)
{
    uint64_t key = i % KEYS;
    put(w, GOT, key, table[key]);
}

static void add(struct worker *w, uint64_t i)
{
    uint64_t key = i % KEYS;
    table[key] += i;
    put(w, ADDED, key, i);
}

static void unlock(struct worker *w)
{
    put(w, UNLOCKED, 0, 0);
    if (pthread_rwlock_unlock(&shared) != 0)
        fail("an unlock was refused");
}

static void make_round(struct worker *w, size_t i)
{
    uint64_t asked;
    switch (w->round) {
    case READ:
        read_lock(w);
        unlock(w);
        return;
    case WRITE:
        write_lock(w);
        unlock(w);
        return;
    case GET:
    case MIXED:
    case WAITS:
        if (!w->writes) {
            read_lock(w);
            get(w, i);
            unlock(w);
            return;
        }
        asked = w->waits == NULL ? 0 : now();
        write_lock(w);
        if (w->waits != NULL) {
            w->gained[i] = now();
            w->waits[i] = w->gained[i] - asked;
        }
        add(w, i);
        unlock(w);
        return;
    }
}

static int workers_in_all;

static void *work(void *given)
{
    struct worker *w = given;
    atomic_fetch_add(&there, 1);
    while (atomic_load(&there) < workers_in_all)
        sched_yield();
    w->began = now();
    for (size_t i = 0; i < w->rounds; i++)
        make_round(w, i);
    w->ended = now();
    return NULL;
}

/* Each ticket was given once, and in the order of tickets each look found what the edits before it left, as the table
 * has it in the end. Answers of how many of 100 sections the one before was another thread's. */
static double check(const struct worker *workers, int threads)
{
    uint64_t sums[KEYS] = {0};
    size_t entries = 0, sections = 0, handovers = 0;
    int holder = -1;
    for (int t = 0; t < threads; t++)
        entries += workers[t].entries;
    if (entries != atomic_load(&next_ticket))
        fail("a ticket is wanting");
    const struct entry **history = calloc(entries, sizeof *history);
    if (history == NULL)
        fail("out of memory");
    for (int t = 0; t < threads; t++) {
        for (size_t i = 0; i < workers[t].entries; i++) {
            const struct entry *e = &workers[t].log[i];
            if (e->ticket >= entries || history[e->ticket] != NULL)
                fail("a ticket was given twice");
            history[e->ticket] = e;
        }
    }
    for (size_t i = 0; i < entries; i++) {
        const struct entry *e = history[i];
        switch ((enum event)e->event) {
        case READS:
        case WRITES:
            sections++;
            handovers += holder >= 0 && holder != e->thread;
            holder = e->thread;
            break;
        case GOT:
            if (e->value != sums[e->key])
                fail("a look found what no edit left");
            break;
        case ADDED:
            sums[e->key] += e->value;
            break;
        case UNLOCKED:
            break;
        }
    }
    free(history);
    if (memcmp(sums, table, sizeof table) != 0)
        fail("the table isn't the replay of the logs");
    return sections == 0 ? 0 : 100.0 * (double)handovers / (double)sections;
}

/* A log of so many entries, of which no page is new in the run, as none is in the logs of a floor (Log::touch). */
static struct entry *new_log(size_t entries)
{
    size_t bytes = entries * sizeof(struct entry);
    void *log = mmap(NULL, bytes, PROT_READ | PROT_WRITE, MAP_PRIVATE | MAP_ANONYMOUS, -1, 0);
    if (log == MAP_FAILED)
        fail("out of memory");
    memset(log, 1, bytes);
    return log;
}

struct figures {
    double nanoseconds;
    double handovers;
};

static size_t rounds_of(const struct test *test)
{
    return (size_t)(MOST_OPERATIONS / test->threads / operations_of[test->round]);
}

/* With room for the times of the writer's takes, where these are wanted, it leaves the workers with what they knew. */
static struct figures run(const struct test *test, struct worker *workers, uint64_t *waits, uint64_t *gained)
{
    pthread_t ids[MOST_THREADS];

    atomic_store(&next_ticket, 0);
    atomic_store(&there, 0);
    workers_in_all = test->threads;
    memset(table, 0, sizeof table);
    size_t rounds = rounds_of(test);
    size_t room = rounds * (size_t)operations_of[test->round];
    for (int t = 0; t < test->threads; t++) {
        int writes = t + 1 == test->threads && test->round != GET;
        workers[t] = (struct worker){
            .log = new_log(room),
            .rounds = rounds,
            .round = test->round,
            .thread = (uint8_t)t,
            .writes = writes,
            .waits = writes ? waits : NULL,
            .gained = writes ? gained : NULL,
        };
    }
    /* this thread is the first worker, as it is in a running floor */
    for (int t = 1; t < test->threads; t++)
        must(pthread_create(&ids[t], NULL, work, &workers[t]), "thread");
    work(&workers[0]);
    for (int t = 1; t < test->threads; t++)
        must(pthread_join(ids[t], NULL), "join");
    uint64_t began = workers[0].began, ended = workers[0].ended;
    size_t operations = 0;
    for (int t = 0; t < test->threads; t++) {
        began = workers[t].began < began ? workers[t].began : began;
        ended = workers[t].ended > ended ? workers[t].ended : ended;
        operations += workers[t].entries;
    }
    double handovers = check(workers, test->threads);
    for (int t = 0; t < test->threads; t++)
        must(munmap(workers[t].log, room * sizeof(struct entry)) == 0 ? 0 : errno, "a log");
    return (struct figures){(double)(ended - began) / (double)operations, handovers};
}

static int by_time(const void *a, const void *b)
{
    double x = ((const struct figures *)a)->nanoseconds, y = ((const struct figures *)b)->nanoseconds;
    return (x > y) - (x < y);
}

static int by_number(const void *a, const void *b)
{
    uint64_t x = *(const uint64_t *)a, y = *(const uint64_t *)b;
    return (x > y) - (x < y);
}

static struct worker workers[MOST_THREADS];

static void measure(const struct test *test)
{
    struct figures runs[RUNS];
    for (int i = 0; i < RUNS; i++)
        runs[i] = run(test, workers, NULL, NULL);
    qsort(runs, RUNS, sizeof runs[0], by_time);
    printf("%s %.1f\n", test->name, runs[0].nanoseconds);
    printf("%s_median %.1f\n", test->name, runs[RUNS / 2].nanoseconds);
    printf("%s_handovers %.1f\n", test->name, runs[RUNS / 2].handovers);
}

static void measure_waits(const struct test *test)
{
    static uint64_t waits[MOST_OPERATIONS], gained[MOST_OPERATIONS], takes[TAKES];
    size_t count = 0, rounds = rounds_of(test);
    for (int n = 0; n < MOST_RUNS && count < TAKES; n++) {
        run(test, workers, waits, gained);
        uint64_t busy = UINT64_MAX;
        for (int t = 0; t + 1 < test->threads; t++)
            busy = workers[t].ended < busy ? workers[t].ended : busy;
        for (size_t i = 0; i < rounds && count < TAKES; i++)
            if (gained[i] <= busy)
                takes[count++] = waits[i];
    }
    if (count == 0)
        fail("no run told a time");
    qsort(takes, count, sizeof takes[0], by_number);
    printf("%s_median %.1f\n", test->name, (double)takes[count / 2]);
    printf("%s_worst %.1f\n", test->name, (double)takes[count - 1]);
}

int main(int argc, char **argv)
{
    pthread_rwlockattr_t prefers;
    must(pthread_rwlockattr_init(&prefers), "attributes");
#ifdef __GLIBC__
    must(pthread_rwlockattr_setkind_np(&prefers, PTHREAD_RWLOCK_PREFER_WRITER_NONRECURSIVE_NP), "a lock for writers");
#endif
    must(pthread_rwlock_init(&shared, &prefers), "lock");
    for (size_t i = 0; i < sizeof tests / sizeof tests[0]; i++) {
        if (argc >= 2 && strcmp(argv[1], tests[i].name) != 0)
            continue;
        if (tests[i].round == WAITS)
            measure_waits(&tests[i]);
        else
            measure(&tests[i]);
        fflush(stdout);
    }
    return 0;
}
