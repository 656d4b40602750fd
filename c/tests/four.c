/* Four threads take a mutex, a reader-writer lock and an sx lock, and count under each what a race would lose. The floor
 * goes to the file that the first word names, its text to standard output. */
#define _XOPEN_SOURCE 600
#include "../examples/floor_files.h"
#include <pthread.h>
#include <sched.h>

enum { THREADS = 4, ROUNDS = 500, MUTEX = 0, RW = 1, SX = 2 };

static const lockrun_lock_row_t locks[] = {
    {"m", "counter", LOCKRUN_MUTEX}, {"r", "figures", LOCKRUN_RW}, {"s", "pages", LOCKRUN_SX}};
static const lockrun_channel_row_t channels[] = {{"empty", MUTEX, 0}, {"full", SX, 1}};
static const lockrun_key_row_t keys[] = {{0, 0}};
static lockrun_thread_row_t threads[THREADS] = {
    {"t0", 9 * ROUNDS + 9, 100}, {"t1", 9 * ROUNDS + 9, 50}, {"t2", 9 * ROUNDS + 9, 150}, {"t3", 9 * ROUNDS + 9, 100}};
static pthread_barrier_t together;
static long counted[3], seen;

static void take(lockrun_thread_t *thread, uint32_t lock, enum lockrun_mode mode)
{
    must(lockrun_take(thread, lock, mode), "take");
}

static void release(lockrun_thread_t *thread, uint32_t lock, enum lockrun_mode mode)
{
    must(lockrun_release(thread, lock, mode), "release");
}

static void *work(void *given)
{
    lockrun_thread_t *thread = given;
    uint32_t answer;
    long sum = 0;
    int i;
    pthread_barrier_wait(&together);
    for (i = 0; i < ROUNDS; i++) {
        take(thread, MUTEX, LOCKRUN_EXCLUSIVE);
        counted[MUTEX]++;
        if (i % 7 == 0)
            sched_yield();
        release(thread, MUTEX, LOCKRUN_EXCLUSIVE);
        take(thread, RW, i % 4 == 0 ? LOCKRUN_EXCLUSIVE : LOCKRUN_SHARED);
        if (i % 4 == 0)
            counted[RW]++;
        else
            sum += counted[RW];
        release(thread, RW, i % 4 == 0 ? LOCKRUN_EXCLUSIVE : LOCKRUN_SHARED);
        take(thread, SX, i % 3 == 0 ? LOCKRUN_EXCLUSIVE : LOCKRUN_SHARED);
        if (i % 3 == 0)
            counted[SX]++;
        else
            sum += counted[SX];
        if (i % 50 == 0)
            must(lockrun_wake_all(thread, 1), "wake_all");
        release(thread, SX, i % 3 == 0 ? LOCKRUN_EXCLUSIVE : LOCKRUN_SHARED);
        answer = lockrun_try(thread, MUTEX, LOCKRUN_EXCLUSIVE);
        if (answer == LOCKRUN_DONE) {
            seen += sum;
            release(thread, MUTEX, LOCKRUN_EXCLUSIVE);
        } else if (answer != LOCKRUN_BUSY)
            must(answer, "try");
    }
    must(lockrun_end(thread), "end");
    return NULL;
}

int main(int argc, char **argv)
{
    lockrun_floor_t floor = LOCKRUN_FLOOR_INIT;
    lockrun_thread_t handles[THREADS];
    lockrun_parking_t parking;
    pthread_t ids[THREADS];
    int t;
    if (argc > 1)
        write_floor(argv[1], threads, THREADS, locks, 3, channels, 2);
    lockrun_park(&parking);
    must(lockrun_open(&floor, threads, THREADS, locks, 3, channels, 2, keys, 0), "open");
    for (t = 0; t < THREADS; t++) {
        lockrun_thread_t nothing = LOCKRUN_THREAD_INIT;
        handles[t] = nothing;
        handles[t].how = &parking.waiting;
        must(lockrun_next_thread(&floor, &handles[t]), "next_thread");
    }
    pthread_barrier_init(&together, NULL, THREADS);
    for (t = 0; t < THREADS; t++)
        if (pthread_create(&ids[t], NULL, work, &handles[t]) != 0)
            return 1;
    for (t = 0; t < THREADS; t++)
        pthread_join(ids[t], NULL);
    for (t = 0; t < THREADS; t++)
        must(lockrun_gather(&floor, &handles[t]), "gather");
    must(lockrun_close(&floor), "close");
    write_text(stdout, &floor);
    lockrun_free(&floor);
    lockrun_unpark(&parking);
    if (counted[MUTEX] != THREADS * ROUNDS || counted[RW] != THREADS * ((ROUNDS + 3) / 4)
        || counted[SX] != THREADS * ((ROUNDS + 2) / 3)) {
        fprintf(stderr, "counted %ld, %ld, %ld\n", counted[MUTEX], counted[RW], counted[SX]);
        return 1;
    }
    return 0;
}
