/* A scheduler of the caller's own: one thread of the system runs four threads of the floor, one part of a call at a
 * time, by chance; who is to sleep gets no turn until a WAKE names it. The floor goes to the file that the first word
 * names, its text to standard output; the second word is the seed. */
#include "../examples/floor_files.h"

enum { THREADS = 4, ROUNDS = 300 };
enum { M = 0, R = 1 };

static const lockrun_lock_row_t locks[] = {{"m", "k", LOCKRUN_MUTEX}, {"r", "k2", LOCKRUN_RW}};
static const lockrun_thread_row_t threads[THREADS] = {
    {"t0", 4 * ROUNDS, 100}, {"t1", 4 * ROUNDS, 50}, {"t2", 4 * ROUNDS, 150}, {"t3", 4 * ROUNDS, 100}};
static const lockrun_key_row_t keys[] = {{0, 0}};
static const lockrun_channel_row_t channels[] = {{"c", 0, 0}};

struct task { lockrun_thread_t thread; int round, step, in_call, asleep, ended; };
static struct task tasks[THREADS];
static long parts, sleeps, holder = -1;

/* What a thread asks next: it takes both locks, and releases both. */
static const uint32_t requests[] = {LOCKRUN_TAKE, LOCKRUN_TAKE_SHARED, LOCKRUN_RELEASE_SHARED, LOCKRUN_RELEASE};
static const uint32_t which[] = {M, R, R, M};

static uint32_t next_of(const struct task *task)
{
    if (task->in_call)
        return LOCKRUN_GO_ON;
    return task->round == ROUNDS ? LOCKRUN_END : requests[task->step];
}

static void done(struct task *task, long number)
{
    task->in_call = 0;
    if (task->round == ROUNDS)
        task->ended = 1;
    else if (task->step == 0 && holder != -1)
        must(LOCKRUN_HELD, "two hold the mutex");
    else if (task->step == 0)
        holder = number;
    if (task->round < ROUNDS && ++task->step == 4) {
        task->step = 0;
        task->round++;
    }
}

static void turn(struct task *task, long number)
{
    static const lockrun_cell_t none = LOCKRUN_CELL_INIT;
    uint32_t what = next_of(task);
    lockrun_told_t told = LOCKRUN_TOLD_INIT;
    parts++;
    /* the release may let another one in before it is told that it is done */
    if (what == LOCKRUN_RELEASE)
        holder = -1;
    switch (lockrun_ask(&task->thread, what, which[task->step], 0, &none, &told)) {
    case LOCKRUN_DONE:
        done(task, number);
        break;
    case LOCKRUN_AGAIN:
        task->in_call = 1;
        break;
    case LOCKRUN_SLEEP:
        task->in_call = 1;
        task->asleep = lockrun_is_queued(&task->thread) == LOCKRUN_SLEEP; /* it may have been woken before this */
        sleeps++;
        break;
    case LOCKRUN_WAKE:
        task->in_call = 1;
        tasks[told.thread].asleep = 0;
        break;
    default:
        must(LOCKRUN_AT_REST, "an answer that none expects");
    }
}

int main(int argc, char **argv)
{
    lockrun_floor_t floor = LOCKRUN_FLOOR_INIT;
    unsigned seed = argc > 2 ? (unsigned)atoi(argv[2]) : 1;
    int t, live = THREADS;
    if (argc > 1)
        write_floor(argv[1], threads, THREADS, locks, 2, channels, 1);
    must(lockrun_open(&floor, threads, THREADS, locks, 2, channels, 1, keys, 0), "open");
    for (t = 0; t < THREADS; t++)
        must(lockrun_next_thread(&floor, &tasks[t].thread), "next_thread");
    while (live) {
        struct task *task;
        seed = seed * 1103515245u + 12345u;
        t = (int)(seed >> 16) % THREADS;
        task = &tasks[t];
        if (task->ended || task->asleep)
            continue;
        turn(task, t);
        live -= task->ended;
    }
    for (t = 0; t < THREADS; t++)
        must(lockrun_gather(&floor, &tasks[t].thread), "gather");
    must(lockrun_close(&floor), "close");
    write_text(stdout, &floor);
    lockrun_free(&floor);
    fprintf(stderr, "%ld parts, %ld sleeps\n", parts, sleeps);
    return sleeps > 0 ? 0 : 1;
}
