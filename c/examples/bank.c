/* Two accounts, each in the table of a mutex; four tellers move money from the first to the second, and take the
 * mutexes in this order always, so that no take is refused. A clerk opens the accounts, and reads them in the end. The
 * floor goes to the file that the first word names, and its text to the file that the second one names. */
#include "floor_files.h"
#include <pthread.h>

enum { TELLERS = 4, CLERK = TELLERS, THREADS, MOVES = 200, FIRST = 0, SECOND = 1, BALANCE = 1 };

static const lockrun_thread_row_t rows[THREADS] = {{"ann", 6 * MOVES, 100}, {"bob", 6 * MOVES, 100},
                                                   {"cid", 6 * MOVES, 100}, {"dan", 6 * MOVES, 50}, {"clerk", 9, 200}};
static const lockrun_lock_row_t locks[] = {
    {"first", "account", LOCKRUN_MUTEX}, {"second", "other_account", LOCKRUN_MUTEX}};
static const lockrun_channel_row_t no_channel[1];
static const lockrun_key_row_t keys[] = {{BALANCE, FIRST}, {BALANCE, SECOND}};
static lockrun_cell_t balance[2]; /* found once, for all threads */

static void take(lockrun_thread_t *thread, uint32_t lock)
{
    must(lockrun_take(thread, lock, LOCKRUN_EXCLUSIVE), "take");
}

static void release(lockrun_thread_t *thread, uint32_t lock)
{
    must(lockrun_release(thread, lock, LOCKRUN_EXCLUSIVE), "release");
}

static void *teller(void *given)
{
    lockrun_thread_t *thread = given;
    uint64_t i;
    for (i = 0; i < MOVES; i++) {
        take(thread, FIRST);
        take(thread, SECOND);
        must(lockrun_add(thread, &balance[FIRST], 0 - i % 7), "add"); /* modulo 2^64 */
        must(lockrun_add(thread, &balance[SECOND], i % 7), "add");
        release(thread, SECOND);
        release(thread, FIRST);
    }
    must(lockrun_end(thread), "end");
    return NULL;
}

static long read_balance(lockrun_thread_t *thread, uint32_t lock)
{
    uint64_t value = 0;
    take(thread, lock);
    if (lockrun_get(thread, &balance[lock], &value) != LOCKRUN_FOUND)
        exit(1);
    release(thread, lock);
    return (long)value;
}

int main(int argc, char **argv)
{
    lockrun_floor_t floor = LOCKRUN_FLOOR_INIT;
    lockrun_thread_t threads[THREADS];
    lockrun_parking_t parking;
    pthread_t ids[TELLERS];
    long first, second;
    int t;

    lockrun_park(&parking);
    must(lockrun_open(&floor, rows, THREADS, locks, 2, no_channel, 0, keys, 2), "open");
    for (t = 0; t < THREADS; t++) {
        lockrun_thread_t nothing = LOCKRUN_THREAD_INIT;
        threads[t] = nothing;
        threads[t].how = &parking.waiting;
        must(lockrun_next_thread(&floor, &threads[t]), "next_thread");
    }
    must(lockrun_find_cell(&threads[CLERK], FIRST, BALANCE, &balance[FIRST]), "find_cell");
    must(lockrun_find_cell(&threads[CLERK], SECOND, BALANCE, &balance[SECOND]), "find_cell");
    take(&threads[CLERK], FIRST);
    must(lockrun_set(&threads[CLERK], &balance[FIRST], 10000), "set");
    release(&threads[CLERK], FIRST);
    for (t = 0; t < TELLERS; t++)
        if (pthread_create(&ids[t], NULL, teller, &threads[t]) != 0)
            return 1;
    for (t = 0; t < TELLERS; t++)
        pthread_join(ids[t], NULL);
    first = read_balance(&threads[CLERK], FIRST);
    second = read_balance(&threads[CLERK], SECOND);
    must(lockrun_end(&threads[CLERK]), "end");
    for (t = 0; t < THREADS; t++)
        must(lockrun_gather(&floor, &threads[t]), "gather");
    must(lockrun_close(&floor), "close");
    if (argc > 2) {
        write_floor(argv[1], rows, THREADS, locks, 2, no_channel, 0);
        write_text_to(argv[2], &floor);
    }
    printf("%ld and %ld: %ld\n", first, second, first + second);
    lockrun_free(&floor);
    lockrun_unpark(&parking);
    return 0;
}
