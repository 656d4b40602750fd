/*
 * What the locks' calls through the library for C cost: mutexes of a floor, by include/lockrun.h and c/lockrun_wait.c,
 * beside pthread mutexes that lend priority, with the ticket and the logs of mutex_baseline.c. bench/c_costs compiles
 * and runs it, with lock_bench, which makes the same rounds by the library's own threads; it is no part of the gate.
 *
 * An operation is a lock, an edit or an unlock, with its entry; an edit through C is of a cell that was found before.
 * Printed are lines `name value`, of all cases or of the one that is named, with c_ or pthread_ before the name: the
 * nanoseconds of an operation, best of 9 runs, and behind NAME_median their median; and NAME_handovers, of how many of
 * 100 sections of the median run the one before, of the same mutex, was another thread's. The two take turns, run by
 * run. A run is timed as in mutex_baseline.c, from the first thread's begin to the last one's end. The floor is opened
 * before, which touches the pages of its logs, and ended, closed and printed behind it: its text has to tell each
 * operation once, and tables with their sums.
 */
#define _GNU_SOURCE
#include <lockrun.h>
#include <pthread.h>
#include <sched.h>
#include <stdatomic.h>
#include <stdint.h>
#include <stdio.h>
#include <stdlib.h>
#include <string.h>
#include <time.h>

/* MOST_OPERATIONS is for all threads of a run together; WORK is nanoseconds. */
enum { RUNS = 9, MOST_THREADS = 4, MOST_LOCKS = 4, MOST_OPERATIONS = 19900, KEYS = 16, WORK = 1000, BASE = 100 };
enum event { LOCKED, ADDED, UNLOCKED };

/* What a thread does in a round: it locks and unlocks its mutex, and edits its table in between, and works in that
 * section, or between two of them. */
enum round { BARE, EDIT, LONG, APART };
static const int operations_of[] = {[BARE] = 2, [EDIT] = 3, [LONG] = 3, [APART] = 3};

/* Whose mutexes: the library's, or pthread's. */
enum by { THROUGH_C, PTHREAD, BOTH };
static const char *const said[] = {[THROUGH_C] = "c", [PTHREAD] = "pthread"};

struct test {
    const char *name;
    int threads;
    int mutexes;
    enum round round;
};
static const struct test tests[] = {
    {"lock_unlock", 1, 1, BARE},
    {"one_mutex_1_thread", 1, 1, EDIT},
    {"own_mutexes_4_threads", 4, 4, EDIT},
    {"long_sections_2_threads", 2, 1, LONG},
    {"long_sections_4_threads", 4, 1, LONG},
    {"sections_apart_2_threads", 2, 1, APART},
    {"sections_apart_4_threads", 4, 1, APART},
};

struct entry {
    uint32_t ticket;
    uint8_t thread;
    uint8_t event;
    uint8_t lock;
    uint8_t key;
    uint64_t value;
};
_Static_assert(sizeof(struct entry) == 16, "an entry has 16 bytes");

/* Each on cache lines of its own. */
struct lock {
    _Alignas(128) pthread_mutex_t mutex;
    _Alignas(128) uint64_t table[KEYS];
};
struct worker {
    _Alignas(128) lockrun_thread_t handle;
    lockrun_cell_t cells[KEYS];
    struct entry *log;
    size_t entries;
    size_t rounds;
    enum round round;
    enum by by;
    uint8_t thread;
    uint8_t lock;
    uint64_t began;
    uint64_t ended;
};

static struct lock locks[MOST_LOCKS];
static _Alignas(128) _Atomic uint32_t next_ticket;
/* How many threads are there: they wait for each other, so as to begin together. */
static _Alignas(128) _Atomic int there;
static struct entry *logs[MOST_THREADS];
static struct worker workers[MOST_THREADS];
static int workers_in_all;

static void fail(const char *what)
{
    fprintf(stderr, "c_costs: %s\n", what);
    exit(1);
}

static void must(int status, const char *what)
{
    if (status != 0) {
        fprintf(stderr, "c_costs: %s: %s\n", what, strerror(status));
        exit(1);
    }
}

static void done(uint32_t answer)
{
    if (answer != LOCKRUN_DONE)
        fail(lockrun_says(answer));
}

static uint64_t now(void)
{
    struct timespec time;
    clock_gettime(CLOCK_MONOTONIC, &time);
    return (uint64_t)time.tv_sec * 1000000000 + (uint64_t)time.tv_nsec;
}

static void put(struct worker *w, enum event event, uint64_t key, uint64_t value)
{
    struct entry *e = &w->log[w->entries++];
    e->ticket = atomic_fetch_add(&next_ticket, 1);
    e->thread = w->thread;
    e->event = (uint8_t)event;
    e->lock = w->lock;
    e->key = (uint8_t)key;
    e->value = value;
}

static void lock(struct worker *w)
{
    if (w->by == THROUGH_C) {
        done(lockrun_take(&w->handle, w->lock, LOCKRUN_EXCLUSIVE));
        return;
    }
    if (pthread_mutex_lock(&locks[w->lock].mutex) != 0)
        fail("a lock was refused");
    put(w, LOCKED, 0, 0);
}

static void add(struct worker *w, uint64_t i)
{
    uint64_t key = i % KEYS;
    if (w->by == THROUGH_C) {
        done(lockrun_add(&w->handle, &w->cells[key], i));
        return;
    }
    locks[w->lock].table[key] += i;
    put(w, ADDED, key, i);
}

static void unlock(struct worker *w)
{
    if (w->by == THROUGH_C) {
        done(lockrun_release(&w->handle, w->lock, LOCKRUN_EXCLUSIVE));
        return;
    }
    put(w, UNLOCKED, 0, 0);
    if (pthread_mutex_unlock(&locks[w->lock].mutex) != 0)
        fail("an unlock was refused");
}

static void spend_a_while(void)
{
    uint64_t from = now();
    while (now() - from < WORK)
        ;
}

static void make_rounds(struct worker *w)
{
    for (size_t i = 0; i < w->rounds; i++) {
        lock(w);
        if (w->round != BARE)
            add(w, i);
        if (w->round == LONG)
            spend_a_while();
        unlock(w);
        if (w->round == APART)
            spend_a_while();
    }
}

static void *work(void *given)
{
    struct worker *w = given;
    atomic_fetch_add(&there, 1);
    while (atomic_load(&there) < workers_in_all)
        sched_yield();
    w->began = now();
    make_rounds(w);
    w->ended = now();
    if (w->by == THROUGH_C)
        done(lockrun_end(&w->handle));
    return NULL;
}

/* What was done in the order of tickets, whoever tells it. */
struct history {
    size_t entries;
    size_t sections;
    size_t handovers;
    int holders[MOST_LOCKS];
    uint64_t tables[MOST_LOCKS][KEYS];
};

static void take_in(struct history *h, enum event event, int thread, int lock)
{
    int *holder = &h->holders[lock];
    h->entries++;
    if (event == LOCKED) {
        h->sections++;
        h->handovers += *holder >= 0 && *holder != thread;
        *holder = thread;
    }
}

/* By the logs: each ticket was given once. */
static void read_logs(struct history *h, size_t operations)
{
    const struct entry **sorted = calloc(operations, sizeof *sorted);
    if (sorted == NULL)
        fail("out of memory");
    for (int t = 0; t < workers_in_all; t++)
        for (size_t i = 0; i < workers[t].entries; i++) {
            const struct entry *e = &workers[t].log[i];
            if (e->ticket >= operations || sorted[e->ticket] != NULL)
                fail("a ticket was given twice");
            sorted[e->ticket] = e;
        }
    for (size_t i = 0; i < operations; i++) {
        if (sorted[i] == NULL)
            fail("a ticket is wanting");
        take_in(h, sorted[i]->event, sorted[i]->thread, sorted[i]->lock);
    }
    for (int l = 0; l < MOST_LOCKS; l++)
        memcpy(h->tables[l], locks[l].table, sizeof h->tables[l]);
    free(sorted);
}

static void read_line(struct history *h, const char *line)
{
    unsigned long ticket, key, value;
    unsigned t, l;
    char word[17];
    if (sscanf(line, "%lu t%u %16s m%u", &ticket, &t, word, &l) == 4 && l < MOST_LOCKS) {
        enum event event = strcmp(word, "lock") == 0 ? LOCKED : strcmp(word, "unlock") == 0 ? UNLOCKED : ADDED;
        if (ticket != h->entries || (event == ADDED && strcmp(word, "add") != 0))
            fail(line);
        take_in(h, event, (int)t, (int)l);
    } else if (sscanf(line, "table m%u %lu %lu", &l, &key, &value) == 3 && l < MOST_LOCKS && key < KEYS)
        h->tables[l][key] = value;
    else if (strncmp(line, "thread ", 7) != 0 && strcmp(line, "ok") != 0)
        fail(line);
}

/* By the text of a floor that is closed. */
static void read_text(struct history *h, lockrun_floor_t *floor)
{
    size_t length = 0;
    char none, *text, *line, *rest;
    if (lockrun_print(floor, &none, 0, &length) != LOCKRUN_NO_SPACE || (text = malloc(length + 1)) == NULL)
        fail("there is no text");
    done(lockrun_print(floor, text, length, &length));
    text[length] = 0;
    for (line = strtok_r(text, "\n", &rest); line != NULL; line = strtok_r(NULL, "\n", &rest))
        read_line(h, line);
    free(text);
}

static void open_floor(lockrun_floor_t *floor, lockrun_parking_t *parking, const struct test *test, size_t rounds)
{
    lockrun_thread_row_t thread_rows[MOST_THREADS];
    lockrun_lock_row_t lock_rows[MOST_LOCKS];
    lockrun_key_row_t key_rows[MOST_LOCKS * KEYS];
    static const lockrun_channel_row_t no_channel[1];
    memset(thread_rows, 0, sizeof thread_rows);
    memset(lock_rows, 0, sizeof lock_rows);
    memset(key_rows, 0, sizeof key_rows);
    for (int t = 0; t < test->threads; t++) {
        snprintf(thread_rows[t].name, LOCKRUN_NAME_BYTES, "t%d", t);
        thread_rows[t].entries = (uint32_t)(rounds * (size_t)operations_of[test->round]);
        thread_rows[t].base = BASE;
    }
    for (int l = 0; l < test->mutexes; l++) {
        snprintf(lock_rows[l].name, LOCKRUN_NAME_BYTES, "m%d", l);
        snprintf(lock_rows[l].class_name, LOCKRUN_NAME_BYTES, "c%d", l);
        lock_rows[l].kind = LOCKRUN_MUTEX;
        for (int k = 0; k < KEYS; k++)
            key_rows[l * KEYS + k] = (lockrun_key_row_t){.key = (uint64_t)k, .lock = (uint32_t)l};
    }
    done(lockrun_open(floor, thread_rows, (size_t)test->threads, lock_rows, (size_t)test->mutexes, no_channel, 0,
                      key_rows, (size_t)test->mutexes * KEYS));
    for (int t = 0; t < test->threads; t++) {
        workers[t].handle.how = &parking->waiting;
        done(lockrun_next_thread(floor, &workers[t].handle));
        for (int k = 0; k < KEYS; k++)
            done(lockrun_find_cell(&workers[t].handle, workers[t].lock, (uint64_t)k, &workers[t].cells[k]));
    }
}

static void close_floor(lockrun_floor_t *floor, struct history *h)
{
    for (int t = 0; t < workers_in_all; t++)
        done(lockrun_gather(floor, &workers[t].handle));
    done(lockrun_close(floor));
    read_text(h, floor);
    lockrun_free(floor);
}

/* Each operation was told once, and each table has the sum of all edits. */
static void check(const struct history *h, const struct test *test, size_t rounds)
{
    uint64_t sums[MOST_LOCKS][KEYS] = {{0}};
    for (int t = 0; t < test->threads; t++)
        for (size_t i = 0; i < rounds && test->round != BARE; i++)
            sums[workers[t].lock][i % KEYS] += i;
    if (h->entries != rounds * (size_t)(test->threads * operations_of[test->round]))
        fail("an operation is wanting");
    if (h->sections != rounds * (size_t)test->threads)
        fail("a section is wanting");
    if (memcmp(h->tables, sums, sizeof sums) != 0)
        fail("a table isn't the sum of the edits");
}

struct figures {
    double nanoseconds;
    double handovers;
};

static struct figures run(const struct test *test, enum by by)
{
    pthread_t ids[MOST_THREADS];
    lockrun_floor_t floor = LOCKRUN_FLOOR_INIT;
    lockrun_parking_t parking;
    struct history h = {.holders = {-1, -1, -1, -1}};
    size_t rounds = (size_t)(MOST_OPERATIONS / test->threads / operations_of[test->round]);

    atomic_store(&next_ticket, 0);
    atomic_store(&there, 0);
    workers_in_all = test->threads;
    for (int l = 0; l < MOST_LOCKS; l++)
        memset(locks[l].table, 0, sizeof locks[l].table);
    for (int t = 0; t < test->threads; t++)
        workers[t] = (struct worker){
            .handle = LOCKRUN_THREAD_INIT,
            .log = logs[t],
            .rounds = rounds,
            .round = test->round,
            .by = by,
            .thread = (uint8_t)t,
            .lock = (uint8_t)(t % test->mutexes),
        };
    lockrun_park(&parking);
    if (by == THROUGH_C)
        open_floor(&floor, &parking, test, rounds);
    /* this thread is the first worker, as it is in a running floor */
    for (int t = 1; t < test->threads; t++)
        must(pthread_create(&ids[t], NULL, work, &workers[t]), "thread");
    work(&workers[0]);
    for (int t = 1; t < test->threads; t++)
        must(pthread_join(ids[t], NULL), "join");
    uint64_t began = workers[0].began, ended = workers[0].ended;
    for (int t = 0; t < test->threads; t++) {
        began = workers[t].began < began ? workers[t].began : began;
        ended = workers[t].ended > ended ? workers[t].ended : ended;
    }
    if (by == THROUGH_C)
        close_floor(&floor, &h);
    else
        read_logs(&h, rounds * (size_t)(test->threads * operations_of[test->round]));
    lockrun_unpark(&parking);
    check(&h, test, rounds);
    return (struct figures){(double)(ended - began) / (double)h.entries,
                            100.0 * (double)h.handovers / (double)h.sections};
}

static int by_time(const void *a, const void *b)
{
    double x = ((const struct figures *)a)->nanoseconds, y = ((const struct figures *)b)->nanoseconds;
    return (x > y) - (x < y);
}

static void measure(const struct test *test)
{
    struct figures runs[BOTH][RUNS];
    for (int i = 0; i < RUNS; i++)
        for (enum by by = THROUGH_C; by < BOTH; by++)
            runs[by][i] = run(test, by);
    for (enum by by = THROUGH_C; by < BOTH; by++) {
        qsort(runs[by], RUNS, sizeof runs[by][0], by_time);
        printf("%s_%s %.1f\n", said[by], test->name, runs[by][0].nanoseconds);
        printf("%s_%s_median %.1f\n", said[by], test->name, runs[by][RUNS / 2].nanoseconds);
        printf("%s_%s_handovers %.1f\n", said[by], test->name, runs[by][RUNS / 2].handovers);
    }
    fflush(stdout);
}

int main(int argc, char **argv)
{
    pthread_mutexattr_t lends;
    must(pthread_mutexattr_init(&lends), "attributes");
    must(pthread_mutexattr_setprotocol(&lends, PTHREAD_PRIO_INHERIT), "a mutex that lends priority");
    for (int l = 0; l < MOST_LOCKS; l++)
        must(pthread_mutex_init(&locks[l].mutex, &lends), "mutex");
    for (int t = 0; t < MOST_THREADS; t++) {
        size_t bytes = MOST_OPERATIONS * sizeof(struct entry);
        logs[t] = malloc(bytes);
        if (logs[t] == NULL)
            fail("out of memory");
        /* so that no page is new in a run, as none is in the logs of a floor */
        memset(logs[t], 1, bytes);
    }
    for (size_t i = 0; i < sizeof tests / sizeof tests[0]; i++)
        if (argc < 2 || strcmp(argv[1], tests[i].name) == 0)
            measure(&tests[i]);
    return 0;
}
