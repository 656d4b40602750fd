/* A race that thread sanitizers are to report: two threads count the same thing, each under a mutex of its own. */
#define _XOPEN_SOURCE 600
#include "../examples/floor_files.h"
#include <pthread.h>

enum { ROUNDS = 100 };

static const lockrun_lock_row_t locks[] = {{"m0", "k0", LOCKRUN_MUTEX}, {"m1", "k1", LOCKRUN_MUTEX}};
static const lockrun_channel_row_t no_channel[1];
static const lockrun_key_row_t no_key[1];
static const lockrun_thread_row_t rows[] = {{"t0", 2 * ROUNDS, 100}, {"t1", 2 * ROUNDS, 100}};
static lockrun_thread_t threads[2];
static pthread_barrier_t together;
static long counted;

static void *count(void *given)
{
    lockrun_thread_t *thread = given;
    uint32_t mine = thread == &threads[1];
    int i;
    pthread_barrier_wait(&together);
    for (i = 0; i < ROUNDS; i++) {
        must(lockrun_take(thread, mine, LOCKRUN_EXCLUSIVE), "take");
        counted++;
        must(lockrun_release(thread, mine, LOCKRUN_EXCLUSIVE), "release");
    }
    must(lockrun_end(thread), "end");
    return NULL;
}

int main(void)
{
    lockrun_floor_t floor = LOCKRUN_FLOOR_INIT;
    lockrun_parking_t parking;
    pthread_t ids[2];
    int t;
    lockrun_park(&parking);
    must(lockrun_open(&floor, rows, 2, locks, 2, no_channel, 0, no_key, 0), "open");
    pthread_barrier_init(&together, NULL, 2);
    for (t = 0; t < 2; t++) {
        threads[t].how = &parking.waiting;
        must(lockrun_next_thread(&floor, &threads[t]), "next_thread");
    }
    for (t = 0; t < 2; t++)
        if (pthread_create(&ids[t], NULL, count, &threads[t]) != 0)
            return 1;
    for (t = 0; t < 2; t++)
        pthread_join(ids[t], NULL);
    for (t = 0; t < 2; t++)
        must(lockrun_gather(&floor, &threads[t]), "gather");
    must(lockrun_close(&floor), "close");
    lockrun_free(&floor);
    lockrun_unpark(&parking);
    return 0;
}
