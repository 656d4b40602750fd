/* A producer and a consumer with a buffer of four places between them, behind a mutex. Who finds the buffer full, or
 * empty, waits on a condition variable until the other one signals it. Prints what the consumer got. The floor goes to
 * the file that the first word names, and its text to the file that the second one names. */
#include "floor_files.h"
#include <pthread.h>

enum { ITEMS = 1000, PLACES = 4 };
enum { BUFFER = 0, NOT_FULL = 0, NOT_EMPTY = 1, PRODUCER = 0, CONSUMER = 1 };

static const lockrun_lock_row_t locks[] = {{"buffer", "buffers", LOCKRUN_MUTEX}};
static const lockrun_channel_row_t channels[] = {{"not_full", BUFFER, 0}, {"not_empty", BUFFER, 0}};
static const lockrun_key_row_t no_key[1];
/* An item costs three entries, and each wait two: the other one signals once an item, and so wakes at most once. */
static const lockrun_thread_row_t rows[] = {{"producer", 5 * ITEMS, 100}, {"consumer", 5 * ITEMS, 100}};

static long places[PLACES], count, first, got, sum;

static void *produce(void *given)
{
    lockrun_thread_t *thread = given;
    long item;
    for (item = 1; item <= ITEMS; item++) {
        must(lockrun_take(thread, BUFFER, LOCKRUN_EXCLUSIVE), "take");
        while (count == PLACES)
            must(lockrun_wait(thread, NOT_FULL), "wait");
        places[(first + count++) % PLACES] = item;
        must(lockrun_wake_one(thread, NOT_EMPTY), "wake");
        must(lockrun_release(thread, BUFFER, LOCKRUN_EXCLUSIVE), "release");
    }
    must(lockrun_end(thread), "end");
    return NULL;
}

static void *consume(void *given)
{
    lockrun_thread_t *thread = given;
    while (got < ITEMS) {
        must(lockrun_take(thread, BUFFER, LOCKRUN_EXCLUSIVE), "take");
        while (count == 0)
            must(lockrun_wait(thread, NOT_EMPTY), "wait");
        sum += places[first];
        first = (first + 1) % PLACES;
        count--;
        got++;
        must(lockrun_wake_one(thread, NOT_FULL), "wake");
        must(lockrun_release(thread, BUFFER, LOCKRUN_EXCLUSIVE), "release");
    }
    must(lockrun_end(thread), "end");
    return NULL;
}

int main(int argc, char **argv)
{
    lockrun_floor_t floor = LOCKRUN_FLOOR_INIT;
    lockrun_thread_t threads[] = {LOCKRUN_THREAD_INIT, LOCKRUN_THREAD_INIT};
    lockrun_parking_t parking;
    pthread_t ids[2];
    int t;

    lockrun_park(&parking);
    must(lockrun_open(&floor, rows, 2, locks, 1, channels, 2, no_key, 0), "open");
    for (t = 0; t < 2; t++) {
        threads[t].how = &parking.waiting;
        must(lockrun_next_thread(&floor, &threads[t]), "next_thread");
    }
    if (pthread_create(&ids[PRODUCER], NULL, produce, &threads[PRODUCER]) != 0
        || pthread_create(&ids[CONSUMER], NULL, consume, &threads[CONSUMER]) != 0)
        return 1;
    for (t = 0; t < 2; t++)
        pthread_join(ids[t], NULL);
    for (t = 0; t < 2; t++)
        must(lockrun_gather(&floor, &threads[t]), "gather");
    must(lockrun_close(&floor), "close");
    if (argc > 2) {
        write_floor(argv[1], rows, 2, locks, 1, channels, 2);
        write_text_to(argv[2], &floor);
    }
    printf("%ld items, %ld in all\n", got, sum);
    lockrun_free(&floor);
    lockrun_unpark(&parking);
    return 0;
}
