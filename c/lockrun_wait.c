/* The calls that wait: loops over lockrun_ask, which doesn't; and the sentences of answers. No proof covers it. */
#define _GNU_SOURCE
#include "lockrun.h"
#include <sched.h>
#ifdef LOCKRUN_FUTEX
#include <linux/futex.h>
#include <sys/syscall.h>
#include <unistd.h>
#endif

static void pause_by_default(void *arg, unsigned times)
{
    unsigned i, most = 1u << (times < 6 ? times : 6);
    (void)arg;
    for (i = 0; i < most; i++)
#if defined(__x86_64__) || defined(__i386__)
        __builtin_ia32_pause();
#elif defined(__aarch64__)
        __asm__ __volatile__("yield");
#else
        ;
#endif
    if (times > 10)
        sched_yield();
}

/* The waker's mark is made before its WAKE, and so before `wakes` is raised: who then finds the number that it had
 * before it looked at its wait word sleeps only while it is to sleep. */
#ifdef LOCKRUN_FUTEX
static void sleep_by_futex(void *arg, lockrun_thread_t *thread, uint32_t number)
{
    uint32_t *wakes = &((lockrun_parking_t *)arg)->wakes[number];
    uint32_t seen = __atomic_load_n(wakes, __ATOMIC_SEQ_CST);
    if (lockrun_is_queued(thread) == LOCKRUN_SLEEP)
        syscall(SYS_futex, wakes, FUTEX_WAIT_PRIVATE, seen, NULL, NULL, 0);
}

static void wake_by_futex(void *arg, uint32_t number)
{
    uint32_t *wakes = &((lockrun_parking_t *)arg)->wakes[number];
    __atomic_add_fetch(wakes, 1, __ATOMIC_SEQ_CST);
    syscall(SYS_futex, wakes, FUTEX_WAKE_PRIVATE, 1, NULL, NULL, 0);
}
#else
static void sleep_by_condition(void *arg, lockrun_thread_t *thread, uint32_t number)
{
    lockrun_parking_t *parking = arg;
    uint32_t seen;
    pthread_mutex_lock(&parking->lock);
    seen = parking->wakes[number];
    while (lockrun_is_queued(thread) == LOCKRUN_SLEEP && parking->wakes[number] == seen)
        pthread_cond_wait(&parking->woken, &parking->lock);
    pthread_mutex_unlock(&parking->lock);
}

static void wake_by_condition(void *arg, uint32_t number)
{
    lockrun_parking_t *parking = arg;
    pthread_mutex_lock(&parking->lock);
    parking->wakes[number]++;
    pthread_cond_broadcast(&parking->woken);
    pthread_mutex_unlock(&parking->lock);
}
#endif

void lockrun_park(lockrun_parking_t *parking)
{
    unsigned i;
    for (i = 0; i < LOCKRUN_MOST_THREADS; i++)
        parking->wakes[i] = 0;
    parking->waiting.pause = pause_by_default;
    parking->waiting.arg = parking;
    parking->waiting.order = parking->order;
#ifdef LOCKRUN_FUTEX
    parking->waiting.sleep = sleep_by_futex;
    parking->waiting.wake = wake_by_futex;
#else
    parking->waiting.sleep = sleep_by_condition;
    parking->waiting.wake = wake_by_condition;
    pthread_mutex_init(&parking->lock, NULL);
    pthread_cond_init(&parking->woken, NULL);
#endif
}

void lockrun_unpark(lockrun_parking_t *parking)
{
#ifdef LOCKRUN_FUTEX
    (void)parking;
#else
    pthread_cond_destroy(&parking->woken);
    pthread_mutex_destroy(&parking->lock);
#endif
}

static void rest(lockrun_thread_t *thread, unsigned times)
{
    if (thread->how && thread->how->pause)
        thread->how->pause(thread->how->arg, times);
    else
        pause_by_default(NULL, times);
}

static void fall_asleep(lockrun_thread_t *thread, unsigned times)
{
    uint32_t number = 0;
    if (thread->how && thread->how->sleep && lockrun_number(thread, &number) == LOCKRUN_DONE)
        thread->how->sleep(thread->how->arg, thread, number);
    else
        rest(thread, times);
}

uint32_t lockrun_go_on(lockrun_thread_t *thread, uint32_t what, uint32_t which, uint64_t number,
                       const lockrun_cell_t *cell, lockrun_told_t *told, uint32_t answer)
{
    unsigned times = 0;
    for (;; answer = lockrun_ask(thread, what, which, number, cell, told)) {
        if (answer != LOCKRUN_OUT)
            what = LOCKRUN_GO_ON;
        switch (answer) {
        case LOCKRUN_AGAIN:
        case LOCKRUN_OUT:
            rest(thread, times++);
            break;
        case LOCKRUN_SLEEP:
            fall_asleep(thread, times++);
            break;
        case LOCKRUN_WAKE:
            if (thread->how && thread->how->wake)
                thread->how->wake(thread->how->arg, told->thread);
            break;
        default:
            return answer;
        }
    }
}

/* The inline ones, for whoever asks for them by name. */
extern inline uint32_t lockrun_call(lockrun_thread_t *thread, uint32_t what, uint32_t which, uint64_t number,
                                    const lockrun_cell_t *cell, lockrun_told_t *told);
extern inline char *lockrun_order_of(const lockrun_thread_t *thread, uint32_t lock);
extern inline uint32_t lockrun_take(lockrun_thread_t *thread, uint32_t lock, enum lockrun_mode mode);
extern inline uint32_t lockrun_try(lockrun_thread_t *thread, uint32_t lock, enum lockrun_mode mode);
extern inline uint32_t lockrun_release(lockrun_thread_t *thread, uint32_t lock, enum lockrun_mode mode);

/* Race checkers are told of all locks, as nothing here says which one is the channel's. */
uint32_t lockrun_wait(lockrun_thread_t *thread, uint32_t channel)
{
    uint32_t answer, lock;
    for (lock = 0; lockrun_order_of(thread, lock) && lock < LOCKRUN_MOST_LOCKS; lock++)
        LOCKRUN_LETS_GO(lockrun_order_of(thread, lock));
    answer = lockrun_call(thread, LOCKRUN_WAIT, channel, 0, NULL, NULL);
    for (lock = 0; lockrun_order_of(thread, lock) && lock < LOCKRUN_MOST_LOCKS; lock++)
        LOCKRUN_GAINED(lockrun_order_of(thread, lock));
    return answer;
}

uint32_t lockrun_wake_one(lockrun_thread_t *thread, uint32_t channel)
{
    return lockrun_call(thread, LOCKRUN_WAKE_ONE, channel, 0, NULL, NULL);
}

uint32_t lockrun_wake_all(lockrun_thread_t *thread, uint32_t channel)
{
    return lockrun_call(thread, LOCKRUN_WAKE_ALL, channel, 0, NULL, NULL);
}

uint32_t lockrun_end(lockrun_thread_t *thread)
{
    return lockrun_call(thread, LOCKRUN_END, 0, 0, NULL, NULL);
}

uint32_t lockrun_set(lockrun_thread_t *thread, const lockrun_cell_t *cell, uint64_t value)
{
    return lockrun_call(thread, LOCKRUN_SET, 0, value, cell, NULL);
}

uint32_t lockrun_add(lockrun_thread_t *thread, const lockrun_cell_t *cell, uint64_t amount)
{
    return lockrun_call(thread, LOCKRUN_ADD, 0, amount, cell, NULL);
}

uint32_t lockrun_get(lockrun_thread_t *thread, const lockrun_cell_t *cell, uint64_t *value)
{
    lockrun_told_t told;
    uint32_t answer = lockrun_call(thread, LOCKRUN_GET, 0, 0, cell, &told);
    if (answer == LOCKRUN_FOUND)
        *value = told.value;
    return answer;
}

uint32_t lockrun_set_priority(lockrun_thread_t *thread, uint8_t base)
{
    return lockrun_call(thread, LOCKRUN_PRIORITY, 0, base, NULL, NULL);
}

uint32_t lockrun_priorities(lockrun_thread_t *thread, uint32_t *base, uint32_t *effective)
{
    lockrun_told_t told;
    uint32_t answer = lockrun_call(thread, LOCKRUN_SHOW, 0, 0, NULL, &told);
    if (answer == LOCKRUN_SHOWN) {
        *base = told.base;
        *effective = told.effective;
    }
    return answer;
}

const char *lockrun_says(uint32_t answer)
{
    switch (answer) {
    case LOCKRUN_DONE: return "done";
    case LOCKRUN_AGAIN: return "go on with the call";
    case LOCKRUN_SLEEP: return "sleep, and then go on with the call";
    case LOCKRUN_WAKE: return "end a thread's sleep, and then go on with the call";
    case LOCKRUN_BUSY: return "the lock is busy";
    case LOCKRUN_REVERSED: return "the order of classes refuses the take";
    case LOCKRUN_HALTED: return "the sleep was ended, as no thread was left that could end it";
    case LOCKRUN_FOUND: return "the key has a value";
    case LOCKRUN_ABSENT: return "the key has no value";
    case LOCKRUN_SHOWN: return "the priorities are shown";
    case LOCKRUN_OUT: return "another thread was just using what the call needs: ask the same again";
    case LOCKRUN_NO_MEMORY: return "there was no memory";
    case LOCKRUN_NOT_OPEN: return "the handle has no open floor, or no thread";
    case LOCKRUN_IS_OPEN: return "the handle has something already";
    case LOCKRUN_NO_REQUEST: return "no request has that number, or no base priority is that";
    case LOCKRUN_NO_THREAD: return "all threads of the floor were handed out";
    case LOCKRUN_NOT_ENDED: return "the thread hasn't ended";
    case LOCKRUN_NOT_GATHERED: return "a thread of the floor wasn't gathered";
    case LOCKRUN_NO_SPACE: return "the text is longer than the room for it";
    case LOCKRUN_NOT_CLOSED: return "the handle has no closed floor";
    case LOCKRUN_NO_KEY: return "the floor was opened without that key of that lock";
    case LOCKRUN_NO_RANGE: return "there may not be so many chains, or turns";
    case LOCKRUN_TOO_BIG: return "the source has more bytes than a script";
    case LOCKRUN_NO_SCRIPT: return "the source is no script";
    case LOCKRUN_NO_WORLD: return "the handle has no world";
    case LOCKRUN_NO_SUCH: return "the world has none of that number";
    case LOCKRUN_ENDED: return "the thread has ended";
    case LOCKRUN_IN_CALL: return "the thread is in the middle of a call";
    case LOCKRUN_AT_REST: return "the thread is in the middle of no call";
    case LOCKRUN_NO_LOCK: return "the floor has no such lock";
    case LOCKRUN_NO_MODE: return "a mutex is never shared";
    case LOCKRUN_NO_CHANNEL: return "the floor has no such condition variable or channel";
    case LOCKRUN_HELD: return "the thread holds the lock already";
    case LOCKRUN_HOLDS_UNSLEEPABLE: return "an sx lock may not be taken under a mutex or a reader-writer lock";
    case LOCKRUN_NOT_LAST: return "the channel's lock isn't held, wasn't gained last, or was gained by a try";
    case LOCKRUN_HOLDS_OTHERS: return "the thread holds a mutex or a reader-writer lock beside the channel's lock";
    case LOCKRUN_NOT_HELD: return "the thread doesn't hold the lock in that mode";
    case LOCKRUN_HOLDS_MOST: return "the thread holds as many locks as it may";
    case LOCKRUN_HOLDS_SOME: return "the thread holds a lock";
    case LOCKRUN_SPENT: return "beside what is kept for releases the thread's log has no room for an entry";
    case LOCKRUN_SHORT: return "beside what is kept for releases the thread's log has no room for two entries";
    case LOCKRUN_NO_CELL: return "the floor has no such cell";
    case LOCKRUN_UNHELD: return "the thread holds the lock in neither mode";
    case LOCKRUN_NO_NAME: return "a name isn't 1 to 16 bytes of a to z, 0 to 9 and _, the first a letter";
    case LOCKRUN_NAME_TWICE: return "two of the locks, channels and threads have one name";
    case LOCKRUN_NO_KIND: return "no kind of lock has that number";
    case LOCKRUN_NO_SUCH_LOCK: return "no lock has the number that a condition variable or channel says";
    case LOCKRUN_MANY_CLASSES: return "there are too many classes";
    case LOCKRUN_MANY_THREADS: return "there are too many threads";
    case LOCKRUN_MANY_LOCKS: return "there are too many locks";
    case LOCKRUN_MANY_CHANNELS: return "there are too many condition variables and channels";
    case LOCKRUN_MANY_KEYS: return "there are too many keys";
    case LOCKRUN_UNSORTED_KEYS: return "a key doesn't come behind the one before it, by lock and then by key";
    case LOCKRUN_MUCH_ROOM: return "there is room for 2^32 entries in all, or more";
    case LOCKRUN_STILL_SHARED: return "a share of the floor is held";
    case LOCKRUN_HOLDS_MORE: return "the thread holds more locks than it may";
    case LOCKRUN_HIGH_CLASS: return "the number of a lock's class is too high";
    case LOCKRUN_NOT_ONE_CHAIN: return "the floor has another number of chains than one";
    default: return "no call answers that";
    }
}
