/* Each wrong call is answered with its cause and changes nothing: the history behind them is as written here. */
#include "../examples/floor_files.h"
#include <string.h>

static int wrong;

static void expect(int line, const char *call, uint32_t got, uint32_t want)
{
    if (got != want) {
        fprintf(stderr, "line %d: %s: %s (%u), not: %s (%u)\n", line, call, lockrun_says(got), (unsigned)got,
                lockrun_says(want), (unsigned)want);
        wrong = 1;
    }
}
#define EXPECT(call, want) expect(__LINE__, #call, (call), (want))

enum { M = 0, RW = 1, SX = 2, OTHER_SX = 3, LOCKS = 12, THREADS = 5 };

static lockrun_told_t told;

static uint32_t ask(lockrun_thread_t *thread, uint32_t what, uint32_t which)
{
    static const lockrun_cell_t no_cell = LOCKRUN_CELL_INIT;
    return lockrun_ask(thread, what, which, 0, &no_cell, &told);
}

/* Goes on with a call until that answers something else than to go on. */
static uint32_t go_on(lockrun_thread_t *thread)
{
    uint32_t answer, parts = 0;
    do
        answer = ask(thread, LOCKRUN_GO_ON, 0);
    while (answer == LOCKRUN_AGAIN && ++parts < 1000);
    return answer;
}

static const lockrun_thread_row_t threads[THREADS] = {{"t", 9, 100}, {"u", 3, 50}, {"v", 40, 7}, {"x", 2, 60}, {"y", 8, 80}};
static const lockrun_lock_row_t locks[LOCKS] = {
    {"m", "ms", LOCKRUN_MUTEX}, {"r", "rs", LOCKRUN_RW}, {"s", "first", LOCKRUN_SX}, {"s2", "second", LOCKRUN_SX},
    {"s3", "third", LOCKRUN_SX}, {"s4", "k4", LOCKRUN_SX}, {"s5", "k5", LOCKRUN_SX}, {"s6", "k6", LOCKRUN_SX},
    {"s7", "k7", LOCKRUN_SX}, {"s8", "k8", LOCKRUN_SX}, {"s9", "k9", LOCKRUN_SX}, {"s10", "k10", LOCKRUN_SX}};
static const lockrun_channel_row_t channels[] = {{"c", M, 0}};
static const lockrun_key_row_t keys[] = {{1, 0}, {2, 0}};

static const char history[] =
    "0 t lock m\n1 u busy m 4\n2 t unlock m\n3 u lock m\n4 u unlock m\n"
    "5 v tryxlock s\n6 v tryxlock s2\n7 v tryxlock s3\n8 v tryxlock s4\n9 v tryxlock s5\n10 v tryxlock s6\n"
    "11 v tryxlock s7\n12 v tryxlock s8\n13 v xunlock s\n14 v xunlock s2\n15 v xunlock s3\n16 v xunlock s4\n"
    "17 v xunlock s5\n18 v xunlock s6\n19 v xunlock s7\n20 v xunlock s8\n21 v slock s\n22 v xlock s2\n23 v sunlock s\n"
    "24 v reversed s second\n25 v xunlock s2\n26 v broadcast c -\n27 x lock m\n28 x unlock m\n29 v trylock m\n"
    "30 v unlock m\n31 v wlock r\n32 v lock m\n33 v unlock m\n34 v wunlock r\n35 v lock m\n36 v wait c\n"
    "37 t lock m\n38 t signal c v\n39 t unlock m\n40 v woke c\n41 v unlock m\n42 y lock m\n43 y set m 1 5\n"
    "44 y add m 1 7\n45 y get m 1 12\n46 y get m 2 -\n47 y unlock m\n48 y prio 90\n49 y show 90 90\n50 t lock m\n"
    "51 t wait c\n52 t halted c\n53 t unlock m\n"
    "thread t base 100 eff 100\nthread u base 50 eff 50\nthread v base 7 eff 7\nthread x base 60 eff 60\n"
    "thread y base 90 eff 90\ntable m 1 12\nstuck\n";

static void wrong_floors(void)
{
    static lockrun_thread_row_t many_threads[33];
    static lockrun_lock_row_t many_locks[65];
    static lockrun_channel_row_t many_channels[65];
    static lockrun_key_row_t many_keys[65536];
    lockrun_floor_t floor = LOCKRUN_FLOOR_INIT;
    lockrun_thread_row_t t = {"t", 4, 100}, much[2] = {{"a", 4294967295u, 1}, {"b", 1, 1}};
    lockrun_lock_row_t l = {"l", "k", LOCKRUN_MUTEX};
    lockrun_channel_row_t c = {"c", 0, 0};
    lockrun_key_row_t unsorted[2] = {{5, 0}, {5, 0}};
    size_t i;
    for (i = 0; i < 33; i++)
        sprintf(many_threads[i].name, "t%u", (unsigned)i);
    for (i = 0; i < 65; i++) {
        sprintf(many_locks[i].name, "l%u", (unsigned)i);
        sprintf(many_locks[i].class_name, "k%u", (unsigned)(i % 64));
        sprintf(many_channels[i].name, "c%u", (unsigned)i);
    }
    for (i = 0; i < 65536; i++)
        many_keys[i].key = i;
    strcpy(t.name, "T");
    EXPECT(lockrun_open(&floor, &t, 1, &l, 1, &c, 1, keys, 2), LOCKRUN_NO_NAME);
    strcpy(t.name, "");
    EXPECT(lockrun_open(&floor, &t, 1, &l, 1, &c, 1, keys, 2), LOCKRUN_NO_NAME);
    strcpy(t.name, "c");
    EXPECT(lockrun_open(&floor, &t, 1, &l, 1, &c, 1, keys, 2), LOCKRUN_NAME_TWICE);
    strcpy(t.name, "t");
    l.kind = 3;
    EXPECT(lockrun_open(&floor, &t, 1, &l, 1, &c, 1, keys, 2), LOCKRUN_NO_KIND);
    l.kind = LOCKRUN_MUTEX;
    c.lock = 1;
    EXPECT(lockrun_open(&floor, &t, 1, &l, 1, &c, 1, keys, 2), LOCKRUN_NO_SUCH_LOCK);
    c.lock = 4294967295u;
    EXPECT(lockrun_open(&floor, &t, 1, &l, 1, &c, 1, keys, 2), LOCKRUN_NO_SUCH_LOCK);
    c.lock = 0;
    EXPECT(lockrun_open(&floor, many_threads, 33, &l, 1, &c, 1, keys, 2), LOCKRUN_MANY_THREADS);
    EXPECT(lockrun_open(&floor, &t, 1, many_locks, 65, &c, 1, keys, 2), LOCKRUN_MANY_LOCKS);
    sprintf(many_locks[64].class_name, "k64");
    EXPECT(lockrun_open(&floor, &t, 1, many_locks, 65, &c, 1, keys, 2), LOCKRUN_MANY_CLASSES);
    EXPECT(lockrun_open(&floor, &t, 1, &l, 1, many_channels, 65, keys, 2), LOCKRUN_MANY_CHANNELS);
    EXPECT(lockrun_open(&floor, &t, 1, &l, 1, &c, 1, many_keys, 65536), LOCKRUN_MANY_KEYS);
    EXPECT(lockrun_open(&floor, &t, 1, &l, 1, &c, 1, unsorted, 2), LOCKRUN_UNSORTED_KEYS);
    EXPECT(lockrun_open(&floor, much, 2, &l, 1, &c, 1, keys, 2), LOCKRUN_MUCH_ROOM);
    EXPECT(lockrun_close(&floor), LOCKRUN_NOT_OPEN);
}

int main(void)
{
    lockrun_floor_t floor = LOCKRUN_FLOOR_INIT, other = LOCKRUN_FLOOR_INIT;
    lockrun_thread_t t = LOCKRUN_THREAD_INIT, u = t, v = t, w = t, x = t, y = t;
    static char text[4000];
    size_t written = 0;
    lockrun_cell_t one, two, none;
    uint64_t value = 0;
    uint32_t number = 0, l, base = 0, effective = 0;

    /* Nothing is open. */
    EXPECT(lockrun_take(&t, M, LOCKRUN_EXCLUSIVE), LOCKRUN_NOT_OPEN);
    EXPECT(lockrun_is_queued(&t), LOCKRUN_NOT_OPEN);
    EXPECT(lockrun_number(&t, &number), LOCKRUN_NOT_OPEN);
    EXPECT(lockrun_spare(&t, &number), LOCKRUN_NOT_OPEN);
    EXPECT(lockrun_find_cell(&t, M, 1, &one), LOCKRUN_NOT_OPEN);
    EXPECT(lockrun_next_thread(&floor, &t), LOCKRUN_NOT_OPEN);
    EXPECT(lockrun_gather(&floor, &t), LOCKRUN_NOT_OPEN);
    EXPECT(lockrun_close(&floor), LOCKRUN_NOT_OPEN);
    EXPECT(lockrun_print(&floor, text, sizeof text, &written), LOCKRUN_NOT_CLOSED);
    lockrun_free(&floor);
    lockrun_free_thread(&t);
    wrong_floors();

    /* It is opened, and its threads are handed out. */
    EXPECT(lockrun_open(&floor, threads, THREADS, locks, LOCKS, channels, 1, keys, 2), LOCKRUN_DONE);
    EXPECT(lockrun_open(&floor, threads, THREADS, locks, LOCKS, channels, 1, keys, 2), LOCKRUN_IS_OPEN);
    EXPECT(lockrun_next_thread(&floor, &t), LOCKRUN_DONE);
    EXPECT(lockrun_next_thread(&floor, &t), LOCKRUN_IS_OPEN);
    EXPECT(lockrun_close(&floor), LOCKRUN_NOT_GATHERED);
    EXPECT(lockrun_next_thread(&floor, &u), LOCKRUN_DONE);
    EXPECT(lockrun_next_thread(&floor, &v), LOCKRUN_DONE);
    EXPECT(lockrun_next_thread(&floor, &x), LOCKRUN_DONE);
    EXPECT(lockrun_next_thread(&floor, &y), LOCKRUN_DONE);
    EXPECT(lockrun_next_thread(&floor, &w), LOCKRUN_NO_THREAD);
    EXPECT(lockrun_gather(&floor, &w), LOCKRUN_NOT_OPEN);
    EXPECT(lockrun_number(&v, &number), LOCKRUN_DONE);
    EXPECT(number, 2);

    /* A handle of the other sort. */
    EXPECT(lockrun_close((lockrun_floor_t *)&t), LOCKRUN_NOT_OPEN);
    EXPECT(lockrun_open(&other, threads, THREADS, locks, LOCKS, channels, 1, keys, 2), LOCKRUN_DONE);
    EXPECT(lockrun_gather(&floor, (lockrun_thread_t *)&other), LOCKRUN_NOT_OPEN);
    lockrun_free(&other);
    EXPECT(lockrun_take((lockrun_thread_t *)&floor, M, LOCKRUN_EXCLUSIVE), LOCKRUN_NOT_OPEN);

    /* Nothing was begun, and nothing is held. */
    EXPECT(ask(&t, LOCKRUN_GO_ON, 0), LOCKRUN_AT_REST);
    EXPECT(ask(&t, 16, 0), LOCKRUN_NO_REQUEST);
    EXPECT(ask(&t, 4294967295u, 0), LOCKRUN_NO_REQUEST);
    EXPECT(lockrun_release(&t, M, LOCKRUN_EXCLUSIVE), LOCKRUN_NOT_HELD);
    EXPECT(lockrun_take(&t, LOCKS, LOCKRUN_EXCLUSIVE), LOCKRUN_NO_LOCK);
    EXPECT(lockrun_take(&t, 256, LOCKRUN_EXCLUSIVE), LOCKRUN_NO_LOCK);
    EXPECT(lockrun_try(&t, 4294967295u, LOCKRUN_SHARED), LOCKRUN_NO_LOCK);
    EXPECT(lockrun_take(&t, M, LOCKRUN_SHARED), LOCKRUN_NO_MODE);
    EXPECT(lockrun_wake_one(&t, 1), LOCKRUN_NO_CHANNEL);
    EXPECT(lockrun_wake_all(&t, 256), LOCKRUN_NO_CHANNEL);
    EXPECT(lockrun_wait(&t, 1), LOCKRUN_NO_CHANNEL);
    EXPECT(lockrun_wait(&t, 0), LOCKRUN_NOT_LAST);

    /* The mutex is held by thread t. */
    EXPECT(lockrun_take(&t, M, LOCKRUN_EXCLUSIVE), LOCKRUN_DONE);
    EXPECT(lockrun_take(&t, M, LOCKRUN_EXCLUSIVE), LOCKRUN_HELD);
    EXPECT(lockrun_try(&t, M, LOCKRUN_EXCLUSIVE), LOCKRUN_HELD);
    EXPECT(lockrun_take(&t, SX, LOCKRUN_EXCLUSIVE), LOCKRUN_HOLDS_UNSLEEPABLE);
    EXPECT(lockrun_end(&t), LOCKRUN_HOLDS_SOME);
    EXPECT(lockrun_gather(&floor, &t), LOCKRUN_NOT_ENDED);
    EXPECT(ask(&u, LOCKRUN_TRY, M), LOCKRUN_BUSY);
    EXPECT((uint32_t)told.word, 4);
    /* a fault tells nothing, and leaves what was told */
    EXPECT(ask(&u, LOCKRUN_RELEASE, M), LOCKRUN_NOT_HELD);
    EXPECT((uint32_t)told.word, 4);
    EXPECT(lockrun_release(&u, M, LOCKRUN_EXCLUSIVE), LOCKRUN_NOT_HELD);

    /* Thread u waits for it, and is woken. */
    EXPECT(ask(&u, LOCKRUN_TAKE, M), LOCKRUN_AGAIN);
    EXPECT(ask(&u, LOCKRUN_TAKE, RW), LOCKRUN_IN_CALL);
    EXPECT(go_on(&u), LOCKRUN_SLEEP);
    EXPECT(lockrun_is_queued(&u), LOCKRUN_SLEEP);
    EXPECT(ask(&u, LOCKRUN_END, 0), LOCKRUN_IN_CALL);
    EXPECT(ask(&t, LOCKRUN_RELEASE, M), LOCKRUN_AGAIN);
    EXPECT(ask(&t, LOCKRUN_TAKE, M), LOCKRUN_IN_CALL);
    EXPECT(go_on(&t), LOCKRUN_WAKE);
    EXPECT(told.thread, 1);
    EXPECT(lockrun_is_queued(&u), LOCKRUN_DONE);
    EXPECT(go_on(&t), LOCKRUN_DONE);
    EXPECT(lockrun_release(&t, M, LOCKRUN_EXCLUSIVE), LOCKRUN_NOT_HELD);
    EXPECT(go_on(&u), LOCKRUN_DONE);
    EXPECT(lockrun_release(&u, M, LOCKRUN_EXCLUSIVE), LOCKRUN_DONE);
    EXPECT(lockrun_take(&u, M, LOCKRUN_EXCLUSIVE), LOCKRUN_SHORT);

    /* Eight locks are as many as a thread may hold. */
    for (l = SX; l < SX + LOCKRUN_MOST_HELD; l++)
        EXPECT(lockrun_try(&v, l, LOCKRUN_EXCLUSIVE), LOCKRUN_DONE);
    EXPECT(lockrun_try(&v, l, LOCKRUN_EXCLUSIVE), LOCKRUN_HOLDS_MOST);
    EXPECT(lockrun_release(&v, SX, LOCKRUN_SHARED), LOCKRUN_NOT_HELD);
    for (l = SX; l < SX + LOCKRUN_MOST_HELD; l++)
        EXPECT(lockrun_release(&v, l, LOCKRUN_EXCLUSIVE), LOCKRUN_DONE);

    /* Classes 2 and 3 are taken in this order, and so not the other way round. */
    EXPECT(lockrun_take(&v, SX, LOCKRUN_SHARED), LOCKRUN_DONE);
    EXPECT(lockrun_take(&v, OTHER_SX, LOCKRUN_EXCLUSIVE), LOCKRUN_DONE);
    EXPECT(lockrun_release(&v, SX, LOCKRUN_SHARED), LOCKRUN_DONE);
    EXPECT(lockrun_call(&v, LOCKRUN_TAKE, SX, 0, NULL, &told), LOCKRUN_REVERSED);
    EXPECT(told.held_class, 3);
    EXPECT(told.wanted_class, 2);
    EXPECT(lockrun_release(&v, OTHER_SX, LOCKRUN_EXCLUSIVE), LOCKRUN_DONE);
    EXPECT(lockrun_wake_all(&v, 0), LOCKRUN_DONE);

    /* Of two entries thread x makes one by its take, and the other one is kept for the release: nothing else gets it. */
    EXPECT(lockrun_spare(&x, &number), LOCKRUN_DONE);
    EXPECT(number, 2);
    EXPECT(lockrun_take(&x, M, LOCKRUN_EXCLUSIVE), LOCKRUN_DONE);
    EXPECT(lockrun_find_cell(&x, M, 1, &one), LOCKRUN_DONE);
    EXPECT(lockrun_set(&x, &one, 5), LOCKRUN_SPENT);
    EXPECT(lockrun_get(&x, &one, &value), LOCKRUN_SPENT);
    EXPECT(lockrun_set_priority(&x, 50), LOCKRUN_SPENT);
    EXPECT(lockrun_priorities(&x, &base, &effective), LOCKRUN_SPENT);
    EXPECT(lockrun_wake_one(&x, 0), LOCKRUN_SPENT);
    EXPECT(lockrun_take(&x, RW, LOCKRUN_SHARED), LOCKRUN_SHORT);
    EXPECT(lockrun_try(&x, RW, LOCKRUN_SHARED), LOCKRUN_SHORT);
    EXPECT(lockrun_wait(&x, 0), LOCKRUN_SHORT);
    EXPECT(lockrun_spare(&x, &number), LOCKRUN_DONE);
    EXPECT(number, 1);
    EXPECT(lockrun_release(&x, M, LOCKRUN_EXCLUSIVE), LOCKRUN_DONE);
    EXPECT(lockrun_spare(&x, &number), LOCKRUN_DONE);
    EXPECT(number, 0);

    /* A wait needs its lock gained last, by no try, and no other that can't sleep. */
    EXPECT(lockrun_try(&v, M, LOCKRUN_EXCLUSIVE), LOCKRUN_DONE);
    EXPECT(lockrun_wait(&v, 0), LOCKRUN_NOT_LAST);
    EXPECT(lockrun_release(&v, M, LOCKRUN_EXCLUSIVE), LOCKRUN_DONE);
    EXPECT(lockrun_take(&v, RW, LOCKRUN_EXCLUSIVE), LOCKRUN_DONE);
    EXPECT(lockrun_take(&v, M, LOCKRUN_EXCLUSIVE), LOCKRUN_DONE);
    EXPECT(lockrun_wait(&v, 0), LOCKRUN_HOLDS_OTHERS);
    EXPECT(lockrun_release(&v, M, LOCKRUN_EXCLUSIVE), LOCKRUN_DONE);
    EXPECT(lockrun_release(&v, RW, LOCKRUN_EXCLUSIVE), LOCKRUN_DONE);

    /* Thread v waits, is woken, and waits for the mutex that it takes back. */
    EXPECT(lockrun_take(&v, M, LOCKRUN_EXCLUSIVE), LOCKRUN_DONE);
    EXPECT(ask(&v, LOCKRUN_WAIT, 0), LOCKRUN_AGAIN);
    EXPECT(ask(&v, LOCKRUN_RELEASE, M), LOCKRUN_IN_CALL);
    EXPECT(go_on(&v), LOCKRUN_SLEEP);
    EXPECT(lockrun_is_queued(&v), LOCKRUN_SLEEP);
    EXPECT(lockrun_take(&t, M, LOCKRUN_EXCLUSIVE), LOCKRUN_DONE);
    EXPECT(ask(&t, LOCKRUN_WAKE_ONE, 0), LOCKRUN_AGAIN);
    EXPECT(go_on(&t), LOCKRUN_WAKE);
    EXPECT(told.thread, 2);
    EXPECT(go_on(&t), LOCKRUN_DONE);
    EXPECT(go_on(&v), LOCKRUN_SLEEP);
    EXPECT(ask(&t, LOCKRUN_RELEASE, M), LOCKRUN_AGAIN);
    EXPECT(go_on(&t), LOCKRUN_WAKE);
    EXPECT(told.thread, 2);
    EXPECT(go_on(&t), LOCKRUN_DONE);
    EXPECT(go_on(&v), LOCKRUN_DONE);
    EXPECT(lockrun_release(&v, M, LOCKRUN_EXCLUSIVE), LOCKRUN_DONE);

    /* A cell is edited under its lock alone, and read under it. */
    EXPECT(lockrun_find_cell(&y, M, 3, &none), LOCKRUN_NO_KEY);
    EXPECT(lockrun_find_cell(&y, RW, 1, &none), LOCKRUN_NO_KEY);
    EXPECT(lockrun_find_cell(&y, 256, 1, &none), LOCKRUN_NO_KEY);
    EXPECT(lockrun_find_cell(&y, M, 1, &one), LOCKRUN_DONE);
    EXPECT(lockrun_find_cell(&y, M, 2, &two), LOCKRUN_DONE);
    EXPECT(lockrun_set(&y, &one, 5), LOCKRUN_NOT_HELD);
    EXPECT(lockrun_get(&y, &one, &value), LOCKRUN_UNHELD);
    EXPECT(lockrun_take(&y, M, LOCKRUN_EXCLUSIVE), LOCKRUN_DONE);
    none = one;
    none.key = 2;
    EXPECT(lockrun_set(&y, &none, 5), LOCKRUN_NO_CELL);
    none.key = 3;
    EXPECT(lockrun_get(&y, &none, &value), LOCKRUN_NO_CELL);
    none = two;
    none.lock = RW;
    EXPECT(lockrun_add(&y, &none, 5), LOCKRUN_NO_CELL);
    none.slot = (size_t)-1;
    none.lock = M;
    EXPECT(lockrun_add(&y, &none, 5), LOCKRUN_NO_CELL);
    EXPECT(lockrun_set(&y, &one, 5), LOCKRUN_DONE);
    EXPECT(lockrun_add(&y, &one, 7), LOCKRUN_DONE);
    EXPECT(lockrun_get(&y, &one, &value), LOCKRUN_FOUND);
    EXPECT((uint32_t)value, 12);
    EXPECT(lockrun_get(&y, &two, &value), LOCKRUN_ABSENT);
    EXPECT(lockrun_release(&y, M, LOCKRUN_EXCLUSIVE), LOCKRUN_DONE);
    EXPECT(lockrun_call(&y, LOCKRUN_PRIORITY, 0, 256, NULL, NULL), LOCKRUN_NO_REQUEST);
    EXPECT(lockrun_set_priority(&y, 90), LOCKRUN_DONE);
    /* with room for one entry nothing is taken, since that couldn't be released */
    EXPECT(lockrun_take(&y, M, LOCKRUN_EXCLUSIVE), LOCKRUN_SHORT);
    EXPECT(lockrun_try(&y, SX, LOCKRUN_SHARED), LOCKRUN_SHORT);
    EXPECT(lockrun_priorities(&y, &base, &effective), LOCKRUN_SHOWN);
    EXPECT(base, 90);
    EXPECT(effective, 90);
    EXPECT(lockrun_set_priority(&y, 80), LOCKRUN_SPENT);

    /* Behind the ends of all others nobody is left who could wake t: its sleep is ended, and it holds the mutex. */
    EXPECT(lockrun_end(&u), LOCKRUN_DONE);
    EXPECT(lockrun_end(&v), LOCKRUN_DONE);
    EXPECT(lockrun_end(&x), LOCKRUN_DONE);
    EXPECT(lockrun_end(&y), LOCKRUN_DONE);
    EXPECT(lockrun_set_priority(&y, 80), LOCKRUN_ENDED);
    EXPECT(lockrun_take(&t, M, LOCKRUN_EXCLUSIVE), LOCKRUN_DONE);
    EXPECT(lockrun_wait(&t, 0), LOCKRUN_HALTED);
    EXPECT(lockrun_release(&t, M, LOCKRUN_EXCLUSIVE), LOCKRUN_DONE);

    /* A thread that has ended makes no call, and is gathered once. */
    EXPECT(lockrun_end(&t), LOCKRUN_DONE);
    EXPECT(lockrun_end(&t), LOCKRUN_ENDED);
    EXPECT(ask(&t, LOCKRUN_GO_ON, 0), LOCKRUN_ENDED);
    EXPECT(lockrun_take(&t, M, LOCKRUN_EXCLUSIVE), LOCKRUN_ENDED);
    EXPECT(lockrun_gather(&floor, &t), LOCKRUN_DONE);
    EXPECT(lockrun_gather(&floor, &t), LOCKRUN_NOT_OPEN);
    EXPECT(lockrun_close(&floor), LOCKRUN_NOT_GATHERED);
    EXPECT(lockrun_gather(&floor, &u), LOCKRUN_DONE);
    EXPECT(lockrun_gather(&floor, &v), LOCKRUN_DONE);
    EXPECT(lockrun_gather(&floor, &x), LOCKRUN_DONE);
    EXPECT(lockrun_gather(&floor, &y), LOCKRUN_DONE);
    EXPECT(lockrun_print(&floor, text, sizeof text, &written), LOCKRUN_NOT_CLOSED);
    EXPECT(lockrun_close(&floor), LOCKRUN_DONE);
    EXPECT(lockrun_close(&floor), LOCKRUN_NOT_OPEN);
    EXPECT(lockrun_open(&floor, threads, THREADS, locks, LOCKS, channels, 1, keys, 2), LOCKRUN_IS_OPEN);

    /* A room that is too small loses nothing. */
    EXPECT(lockrun_print(&floor, text, sizeof history - 2, &written), LOCKRUN_NO_SPACE);
    EXPECT((uint32_t)written, sizeof history - 1);
    EXPECT(lockrun_print(&floor, text, sizeof text, &written), LOCKRUN_DONE);
    if (written != sizeof history - 1 || memcmp(text, history, written) != 0) {
        fprintf(stderr, "the text isn't as written:\n%.*s", (int)written, text);
        wrong = 1;
    }
    lockrun_free(&floor);
    lockrun_free(&floor);
    EXPECT(lockrun_print(&floor, text, sizeof text, &written), LOCKRUN_NOT_CLOSED);
    puts(wrong ? "WRONG" : "as expected");
    return wrong;
}
