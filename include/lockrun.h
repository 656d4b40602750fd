/*
 * lockrun.h: FreeBSD's blocking locks for threads of your own, with a history of what happened that is proved legal.
 *
 * A floor is opened for so many threads, locks, and condition variables and channels. Each thread gets a handle, and
 * its calls are made with that handle alone. What a call did stands in its thread's log, as an entry with a ticket.
 * When all threads have ended and were gathered, the floor is closed, and its text is the history of all of them.
 *
 * The calls of part 1 never wait, never sleep and call nothing of yours, and only open, next_thread and print take
 * memory. They, and those of scripts after them, which need no floor, are the exports of the proved crate lockrun_c: a
 * contract says what each does, and that a refused call changes nothing. Of lockrun_ask it also says which answer
 * comes. Of the others it says only in part which fault comes, and of lockrun_is_queued not whether it answers SLEEP or
 * DONE. No contract says that the numbers and structs below are those of the crate. lockrun_says is plain C.
 *
 * The calls of part 2 wait: they are loops over lockrun_ask in plain C (c/lockrun_wait.c, and the inline functions
 * here), which no proof covers. They may be replaced by your own, over your own scheduler. lockrun(3) says how all the
 * calls go together, how a text is judged, and how race checkers are told.
 *
 * Threads. A handle is used by one thread at a time. Different handles may be used at once, those of one floor too.
 * Handing a handle to another thread needs what handing any plain memory needs: a lock, the start or the join of a
 * thread, or a sequentially consistent atomic in between. No call may be made in a signal handler or in the child of
 * a fork.
 *
 * Wrong calls. Each call tests what it needs. Where something stands against it, it answers so by a number from
 * LOCKRUN_FIRST_FAULT on, and nothing is changed. What no call can tell, and is undefined, is: a pointer that isn't
 * to a handle or to so much memory, a null pointer, a handle that was copied or written by hand, one handle in two
 * threads at once or twice in one call, and lockrun_gather of a thread that is another floor's.
 */
#ifndef LOCKRUN_H
#define LOCKRUN_H

#include <stddef.h>
#include <stdint.h>

#ifdef __cplusplus
extern "C" {
#endif

/* What a call answers. */
enum lockrun_answer {
    /* The call was made. */
    LOCKRUN_DONE = 0,     /* it is done */
    LOCKRUN_AGAIN = 1,    /* go on with it, maybe after a pause */
    LOCKRUN_SLEEP = 2,    /* sleep while lockrun_is_queued says SLEEP, or for a while, and then go on with it */
    LOCKRUN_WAKE = 3,     /* end the sleep of the thread told.thread, if it sleeps, and then go on with this call */
    LOCKRUN_BUSY = 4,     /* it is done: the try found the lock busy, and told.word is the lock's word as it was then */
    LOCKRUN_REVERSED = 5, /* it is done: the order of classes refused the take. The thread holds a lock of the class
                             told.held_class, and the lock that it wanted is of told.wanted_class */
    LOCKRUN_HALTED = 6,   /* it is done: the sleep was ended since no thread was left that could end it. Of a wait the
                             lock is held again; of a take, of an sx lock alone, it isn't held */
    LOCKRUN_FOUND = 7,    /* it is done: the key has the value told.value */
    LOCKRUN_ABSENT = 8,   /* it is done: the key has none */
    LOCKRUN_SHOWN = 9,    /* it is done: the thread's priorities are told.base and told.effective */
    LOCKRUN_OUT = 10,     /* nothing was done: another thread was just using the value, or this thread's record. Ask the
                             same again, maybe after a pause */

    LOCKRUN_FIRST_FAULT = 16,
    LOCKRUN_NO_MEMORY = 16,    /* there was no memory */
    LOCKRUN_NOT_OPEN = 17,     /* the handle has no open floor, or no thread */
    LOCKRUN_IS_OPEN = 18,      /* the handle that is to be opened has something */
    LOCKRUN_NO_REQUEST = 19,   /* no request has that number, or no base priority is that */
    LOCKRUN_NO_THREAD = 20,    /* all threads of the floor were handed out */
    LOCKRUN_NOT_ENDED = 21,    /* the thread hasn't ended */
    LOCKRUN_NOT_GATHERED = 22, /* a thread of the floor wasn't gathered */
    LOCKRUN_NO_SPACE = 23,     /* the text is longer than the room for it; *written is how long */
    LOCKRUN_NOT_CLOSED = 24,   /* the handle has no closed floor */
    LOCKRUN_NO_KEY = 25,       /* the floor was opened without that key of that lock */
    LOCKRUN_NO_RANGE = 26,     /* there are to be no chains or more than LOCKRUN_MOST_CHAINS, or no turns or more than
                                  LOCKRUN_MOST_TURNS */
    LOCKRUN_TOO_BIG = 27,      /* the source has more than LOCKRUN_SCRIPT_BYTES bytes */
    LOCKRUN_NO_SCRIPT = 28,    /* the source is no script */
    LOCKRUN_NO_WORLD = 29,     /* the handle has no world */
    LOCKRUN_NO_SUCH = 30,      /* the world has no thread, lock or channel of that number, or no sort has that one */

    /* What stands against a thread's call: the first of these that is so, in the order that lockrun_request names. */
    LOCKRUN_ENDED = 32,             /* the thread has ended */
    LOCKRUN_IN_CALL = 33,           /* it is in the middle of a call: go on with that one */
    LOCKRUN_AT_REST = 34,           /* it is in the middle of no call */
    LOCKRUN_NO_LOCK = 35,           /* the floor has no such lock */
    LOCKRUN_NO_MODE = 36,           /* the lock is a mutex, which is never shared */
    LOCKRUN_NO_CHANNEL = 37,        /* the floor has no such condition variable or channel */
    LOCKRUN_HELD = 38,              /* the thread holds the lock already */
    LOCKRUN_HOLDS_UNSLEEPABLE = 39, /* the lock is an sx lock, and the thread holds a mutex or a reader-writer lock */
    LOCKRUN_NOT_LAST = 40,          /* the channel's lock isn't held, isn't the one that the thread gained last, or was
                                       gained by a try */
    LOCKRUN_HOLDS_OTHERS = 41,      /* beside the channel's lock it holds a mutex or a reader-writer lock */
    LOCKRUN_NOT_HELD = 42,          /* it doesn't hold the lock in that mode */
    LOCKRUN_HOLDS_MOST = 43,        /* it holds LOCKRUN_MOST_HELD locks */
    LOCKRUN_HOLDS_SOME = 45,        /* it holds a lock */
    LOCKRUN_SPENT = 46,             /* its log has no room for an entry beside those that are kept for releases */
    LOCKRUN_SHORT = 47,             /* it has none for two entries beside these */
    LOCKRUN_NO_CELL = 48,           /* the floor has no such cell */
    LOCKRUN_UNHELD = 49,            /* it holds the lock in neither mode */

    /* Why a floor isn't opened. Of the last six the first that is so is answered, once no row is wrong. Rows
       are judged one by one: classes' names and number first, then the rows of locks, of channels and of threads. */
    LOCKRUN_NO_NAME = 64,       /* a name isn't 1 to 16 bytes of a-z, 0-9 and '_', the first a letter */
    LOCKRUN_NAME_TWICE = 65,    /* two of the locks, channels and threads have one name */
    LOCKRUN_NO_KIND = 66,       /* a lock's kind is no number of lockrun_kind */
    LOCKRUN_NO_SUCH_LOCK = 67,  /* no lock has the number that a condition variable's or channel's row says */
    LOCKRUN_MANY_CLASSES = 68,  /* more than LOCKRUN_MOST_CLASSES classes */
    LOCKRUN_MANY_THREADS = 69,  /* more than LOCKRUN_MOST_THREADS threads */
    LOCKRUN_MANY_LOCKS = 70,    /* more than LOCKRUN_MOST_LOCKS locks */
    LOCKRUN_MANY_CHANNELS = 71, /* more than LOCKRUN_MOST_CHANNELS condition variables and channels */
    LOCKRUN_MANY_KEYS = 73,     /* 65,536 keys or more */
    LOCKRUN_UNSORTED_KEYS = 74, /* a key doesn't come behind the one before it, by lock and then by key */
    LOCKRUN_MUCH_ROOM = 75,     /* room for 2^32 entries in all, or more */

    /* No calls bring these about. */
    LOCKRUN_STILL_SHARED = 31, /* all threads were gathered, and yet a share of the floor is held */
    LOCKRUN_HOLDS_MORE = 44,   /* the thread holds more than LOCKRUN_MOST_HELD locks */
    LOCKRUN_HIGH_CLASS = 72,   /* the number of a lock's class is too high */
    LOCKRUN_NOT_ONE_CHAIN = 76 /* the floor has another number of chains than one */
};

/* A sentence for an answer, in static memory. It never waits, though it stands in c/lockrun_wait.c, and so in an
 * object of the archive that asks for the system's calls: a program without a C library leaves it out. */
const char *lockrun_says(uint32_t answer);

enum { LOCKRUN_MOST_THREADS = 32, LOCKRUN_MOST_LOCKS = 64, LOCKRUN_MOST_CHANNELS = 64, LOCKRUN_MOST_CLASSES = 64 };
enum { LOCKRUN_MOST_HELD = 8, LOCKRUN_NAME_BYTES = 16 };
enum { LOCKRUN_MOST_CHAINS = 64, LOCKRUN_MOST_TURNS = 1000000, LOCKRUN_SCRIPT_BYTES = 1048576 };

/* Handles. Zero bytes are one that has nothing. Of a thread's, `how` is yours to set: how the calls of part 2 wait,
 * or null; no call of part 1 reads or changes it. The rest is neither read, written nor copied by you; so no call
 * takes a const handle. */
struct lockrun_waiting;
typedef struct lockrun_floor { void *at; const void *unused; uint32_t open; } lockrun_floor_t;
typedef struct lockrun_thread { void *at; const struct lockrun_waiting *how; uint32_t open; } lockrun_thread_t;
typedef struct lockrun_world { void *at; const void *unused; uint32_t open; } lockrun_world_t;
#define LOCKRUN_FLOOR_INIT { 0, 0, 0 }
#define LOCKRUN_THREAD_INIT { 0, 0, 0 }
#define LOCKRUN_WORLD_INIT { 0, 0, 0 }

/* What a floor is opened for. A name has its bytes, and a 0 behind them where they are fewer than 16. Locks,
 * channels and threads share one set of names, and are numbered from 0, each sort for itself, as their rows stand.
 * Classes have names of their own, and are numbered by their first rows. There may be no row of a sort, of threads
 * too. */
enum lockrun_kind { LOCKRUN_MUTEX = 0, LOCKRUN_RW = 1, LOCKRUN_SX = 2 };
typedef struct lockrun_thread_row {
    char name[LOCKRUN_NAME_BYTES];
    uint32_t entries; /* for how many entries its log has room: "Entries" below says how many calls need */
    uint8_t base;     /* its base priority: 0 is the most important, 255 the least */
} lockrun_thread_row_t;
typedef struct lockrun_lock_row {
    char name[LOCKRUN_NAME_BYTES];
    char class_name[LOCKRUN_NAME_BYTES]; /* who holds a lock of a class may take no other one of that class */
    uint32_t kind;
} lockrun_lock_row_t;
typedef struct lockrun_channel_row {
    char name[LOCKRUN_NAME_BYTES];
    uint32_t lock;       /* the lock with which threads wait on it */
    uint32_t is_channel; /* 0: a condition variable (condvar(9)), else a channel (sleep(9)) */
} lockrun_channel_row_t;
typedef struct lockrun_key_row {
    uint64_t key;
    uint32_t lock; /* the lock whose table has the key */
} lockrun_key_row_t;

/* ---- 1: never wait ---- */

/* Opens a floor. Its handle has nothing before. No pointer may be null, even to no row. All its threads count as
 * awake from now on, those that weren't handed out too. DONE; IS_OPEN, NO_MEMORY, and from NO_NAME on. */
uint32_t lockrun_open(lockrun_floor_t *floor, const lockrun_thread_row_t *threads, size_t n_threads,
                      const lockrun_lock_row_t *locks, size_t n_locks, const lockrun_channel_row_t *channels,
                      size_t n_channels, const lockrun_key_row_t *keys, size_t n_keys);

/* Gives the next thread of an open floor, the first one first, to a handle that has nothing. Its `how` stays.
 * DONE; NOT_OPEN, IS_OPEN, NO_MEMORY, NO_THREAD. */
uint32_t lockrun_next_thread(lockrun_floor_t *floor, lockrun_thread_t *thread);

/* Entries. A thread's log has room for so many as its row says, and no call makes room. A take, a try, a release, a
 * wake, a set, an add, a get, a PRIORITY and a SHOW make one each, also where they are answered BUSY, REVERSED,
 * HALTED or ABSENT; a wait makes two; END, an OUT and a fault make none. For a release of each lock that the thread
 * holds room is kept: so a release never wants it, and a thread can come to its END however full its log is. Beside
 * what is kept a take or a try needs room for two, its own entry and a release of what it gains, and so does a wait,
 * for its two (SHORT); each other call that makes one needs room for that (SPENT). Whoever counts one for each call,
 * the releases among them, and two for each wait has enough; but a last take or try needs two also where it gains
 * nothing. lockrun_spare tells for how many entries there is room.
 *
 * Halting. A thread is awake from its floor's opening to its END, but while it sleeps in a take or wait. Where
 * nobody is awake, all who sleep on an sx lock, a condition variable or a channel are woken, and their calls
 * answered HALTED. Who was halted goes on to its end: where it waits once more, it may be halted once more at once.
 * A thread that is never handed out, never ends or is let go of counts as awake for ever, and so those who sleep
 * aren't halted.
 *
 * The order of classes. A take by a thread that holds locks is refused (REVERSED) where one of them is of the wanted
 * lock's class, or where the orders that are known, one after the other, put the wanted class before that of one of
 * them. Else it is known from then on, to the floor's end, that their classes go before the wanted one, whether or
 * not the take gets its lock. A try is never refused so, and makes no order known; the lock that it gained counts
 * for later takes. */

/* What can be asked of a thread, and what may stand against it beside NOT_OPEN, in the order in which it is tested;
 * and how it ends where nothing does. In between come AGAIN, SLEEP and WAKE, or OUT of what is made at once (SET to
 * SHOW). */
enum lockrun_request {
    LOCKRUN_GO_ON = 0,          /* to go on with the call that it is in the middle of. ENDED AT_REST */
    LOCKRUN_END = 1,            /* to end. ENDED IN_CALL HOLDS_SOME. Ends by DONE */
    LOCKRUN_TAKE = 2,           /* to take a lock exclusively. ENDED IN_CALL NO_LOCK NO_MODE HELD HOLDS_UNSLEEPABLE
                                   HOLDS_MOST SHORT. Ends by DONE, REVERSED, or, of an sx lock, HALTED */
    LOCKRUN_TAKE_SHARED = 3,    /* to take it shared. The same */
    LOCKRUN_TRY = 4,            /* to take it exclusively, if its word admits that at once: nobody holds it. The same
                                   stands against it. Ends by DONE or BUSY */
    LOCKRUN_TRY_SHARED = 5,     /* to take it shared, if its word admits that at once: it isn't held exclusively, and of
                                   a reader-writer lock no writer is shown to wait, unless it is free. The same */
    LOCKRUN_RELEASE = 6,        /* to release a lock that is held exclusively. ENDED IN_CALL NO_LOCK NO_MODE NOT_HELD.
                                   Ends by DONE */
    LOCKRUN_RELEASE_SHARED = 7, /* to release one that is held shared. The same */
    LOCKRUN_WAKE_ONE = 8,       /* to wake a channel's most important sleeper, if there is one. Its lock needn't be
                                   held, but a wake without it may come between another thread's look at what it waits
                                   for and its wait. ENDED IN_CALL NO_CHANNEL SPENT. Ends by DONE */
    LOCKRUN_WAKE_ALL = 9,       /* to wake all its sleepers. The same */
    LOCKRUN_WAIT = 10,          /* to wait on a channel: it gives the channel's lock up, sleeps until it is woken, and
                                   takes the lock back in the same mode. ENDED IN_CALL NO_CHANNEL NOT_LAST
                                   HOLDS_OTHERS HOLDS_MORE SHORT. Ends by DONE or HALTED */
    LOCKRUN_SET = 11,           /* to set a cell of a lock's table to a number. ENDED IN_CALL NO_CELL NOT_HELD SPENT.
                                   Ends by DONE */
    LOCKRUN_ADD = 12,           /* to add a number to it modulo 2^64; an absent key counts as 0. The same */
    LOCKRUN_GET = 13,           /* to read it. ENDED IN_CALL NO_CELL UNHELD SPENT. Ends by FOUND or ABSENT */
    LOCKRUN_PRIORITY = 14,      /* to set the thread's base priority to a number, up to 255. ENDED IN_CALL SPENT. Ends
                                   by DONE */
    LOCKRUN_SHOW = 15           /* to show its base and its effective priority. The same. Ends by SHOWN */
};

/* A cell of a lock's table, for edits and reads of one search. lockrun_find_cell makes it; it may be copied. One that
 * is LOCKRUN_CELL_INIT stands where a request is about none. */
typedef struct lockrun_cell {
    uint64_t key;
    size_t slot;
    uint32_t lock;
} lockrun_cell_t;
#define LOCKRUN_CELL_INIT { 0, 0, 0 }

/* What an answer tells beside its number: of the five below what stands there, and 0 in the rest. */
typedef struct lockrun_told {
    uint64_t word;         /* of BUSY: the lock's word. Bit 0: who waits to hold it exclusively is shown; bit 1: who
                              waits to share it; bit 2: it is held exclusively. word >> 3: the number of the thread that
                              holds it so, and else how many share it */
    uint64_t value;        /* of FOUND: the value */
    uint32_t thread;       /* of WAKE: the number of the thread to be woken */
    uint32_t held_class;   /* of REVERSED: the class of the lock that is held, */
    uint32_t wanted_class; /* and that of the lock that was wanted, in the order of their first rows */
    uint32_t base;         /* of SHOWN: the base priority, */
    uint32_t effective;    /* and the effective one */
} lockrun_told_t;
#define LOCKRUN_TOLD_INIT { 0, 0, 0, 0, 0, 0, 0 }

/* Asks a thread: begins a call, or goes on with it. Every call is begun, and then gone on with until it is done;
 * each answer says what is to be done in between. `what` is a request, `which` the number of the lock or channel,
 * `number` the number and *cell the cell that it is about; of those that it has none of it looks at nothing. *told may
 * be anything before: it is written by BUSY, REVERSED, WAKE, FOUND and SHOWN, and stays as it was of any other answer.
 * AGAIN may come up to 100 times in a row while a take or a try looks at the lock's word, and without end while
 * another thread is in the middle of a call that has what this one needs. So whoever is answered AGAIN or WAKE is to
 * be gone on with soon, however important others are. Who runs all threads on one of the system's, and goes from one
 * to another only behind a SLEEP or a call that is done, is never answered OUT, and needs no pauses.
 * DONE AGAIN SLEEP WAKE BUSY REVERSED HALTED FOUND ABSENT SHOWN OUT; NOT_OPEN, NO_REQUEST, and from ENDED to UNHELD. */
uint32_t lockrun_ask(lockrun_thread_t *thread, uint32_t what, uint32_t which, uint64_t number,
                     const lockrun_cell_t *cell, lockrun_told_t *told);

/* Whether a thread whose call answered SLEEP is still to sleep, by its wait word at that moment: SLEEP says yes,
 * DONE no. Once a WAKE that names it was answered it says DONE, until the thread is to sleep anew. DONE SLEEP;
 * NOT_OPEN. */
uint32_t lockrun_is_queued(lockrun_thread_t *thread);

/* Finds the cell at a key of a lock's table, on a thread's floor. DONE; NOT_OPEN, NO_KEY. */
uint32_t lockrun_find_cell(lockrun_thread_t *thread, uint32_t lock, uint64_t key, lockrun_cell_t *cell);

/* The number of a thread. DONE; NOT_OPEN. */
uint32_t lockrun_number(lockrun_thread_t *thread, uint32_t *number);

/* For how many entries a thread's log still has room, with those that are kept. DONE; NOT_OPEN. */
uint32_t lockrun_spare(lockrun_thread_t *thread, uint32_t *entries);

/* Takes in a thread of this floor that has ended: its handle has nothing then. DONE; NOT_OPEN, NOT_ENDED. */
uint32_t lockrun_gather(lockrun_floor_t *floor, lockrun_thread_t *thread);

/* Closes a floor, once all its threads were gathered. DONE; NOT_OPEN, NOT_GATHERED, STILL_SHARED. */
uint32_t lockrun_close(lockrun_floor_t *floor);

/* Writes the text of a closed floor, of *written bytes, with no 0 behind it: what `lockrun run` prints of a script.
 * It may be written again. Where the room is too small, as 0 always is, nothing is written but *written; `out` isn't
 * null then either. DONE; NOT_CLOSED, NO_MEMORY, NO_SPACE. */
uint32_t lockrun_print(lockrun_floor_t *floor, char *out, size_t room, size_t *written);

/* Lets go of what a handle has, which has nothing then; of nothing it does nothing. A floor of which a thread was
 * let go of can't be closed. */
void lockrun_free(lockrun_floor_t *floor);
void lockrun_free_thread(lockrun_thread_t *thread);

/* ---- Scripts. Nothing here waits either, nothing but step, world_open and world_print takes memory, and no thread is
 * started: a scheduled run gives the threads of a script their turns, one at a time. ---- */

/* Writes the text that `lockrun step` prints of a script in memory, of *written bytes, with no 0 behind it, and tells
 * in *status the status with which that ends: 0 all threads ended, 1 the source is no script (the text is the line of
 * its first fault), 5 stuck, 6 a lock order was refused, 7 the turns were used up. There are `chains` chains of each
 * sort, of which only the slots of queues tell (lockrun takes 16 where nothing is said), and `turns` turns at most.
 * DONE; NO_MEMORY, NO_RANGE, TOO_BIG, NO_SPACE. */
uint32_t lockrun_step(const char *script, size_t length, uint32_t chains, uint32_t turns, char *out, size_t room,
                      size_t *written, uint32_t *status);

/* The first faulty line of a source that is no script, and the fault's code, as `lockrun` prints them. */
typedef struct lockrun_fault {
    uint32_t line;
    uint32_t code;
} lockrun_fault_t;

/* Opens the world of a script before its first turn. Its handle has nothing before. Of NO_SCRIPT, *fault is told.
 * DONE; IS_OPEN, NO_MEMORY, NO_RANGE, TOO_BIG, NO_SCRIPT. */
uint32_t lockrun_world_open(lockrun_world_t *world, const char *script, size_t length, uint32_t chains,
                            lockrun_fault_t *fault);

/* How many threads, locks, and condition variables and channels it has. Each sort is numbered from 0, in the order in
 * which the script declares them. DONE; NO_WORLD. */
typedef struct lockrun_counts {
    size_t threads;
    size_t locks;
    size_t channels;
} lockrun_counts_t;
uint32_t lockrun_world_count(lockrun_world_t *world, lockrun_counts_t *counts);

/* The name of one of them, with a 0 behind it where it has fewer than 16 bytes. DONE; NO_WORLD, NO_SUCH. */
enum lockrun_sort { LOCKRUN_OF_THREADS = 0, LOCKRUN_OF_LOCKS = 1, LOCKRUN_OF_CHANNELS = 2 };
typedef struct lockrun_name {
    char bytes[LOCKRUN_NAME_BYTES];
} lockrun_name_t;
uint32_t lockrun_world_name(lockrun_world_t *world, uint32_t sort, uint32_t number, lockrun_name_t *name);

/* Gives a thread its turn, whoever's it would be by the script's schedule: the first action that fits. What became of
 * it is told in *turn. DONE; NO_WORLD, NO_SUCH. */
enum lockrun_turn {
    LOCKRUN_TURN_IDLE = 0,      /* the thread is blocked (LOCKRUN_IDLE), and nothing is changed */
    LOCKRUN_TURN_ENDED = 1,     /* it has ended, and nothing is changed */
    LOCKRUN_TURN_GAIN = 2,      /* it gained a lock */
    LOCKRUN_TURN_CLAIM = 3,     /* it gained one that shows waiters, and owns their turnstile */
    LOCKRUN_TURN_DROP = 4,      /* it released a lock without waiters, or that another thread shares */
    LOCKRUN_TURN_ENTER = 5,     /* it blocked on a lock: it stands in its queue now */
    LOCKRUN_TURN_OPEN = 6,      /* it released a lock, and took waiters off its queue, to be woken one by one */
    LOCKRUN_TURN_MARK = 7,      /* it woke the first of those */
    LOCKRUN_TURN_RESUME = 8,    /* it runs again after it was woken */
    LOCKRUN_TURN_LEND = 9,      /* it lent the best waiting priority to the owner of a lock */
    LOCKRUN_TURN_SHIFT = 10,    /* it sorted that owner anew among the waiters of the queue on which that one stands */
    LOCKRUN_TURN_WALK_END = 11, /* it had nothing more to lend */
    LOCKRUN_TURN_ADD = 12,      /* it went to sleep on a condition variable or channel */
    LOCKRUN_TURN_WAKE = 13,     /* it took sleepers off one, to be woken one by one */
    LOCKRUN_TURN_NOTE = 14      /* it made an entry, and changed no lock and no queue */
};
uint32_t lockrun_world_turn(lockrun_world_t *world, uint32_t thread, uint32_t *turn);

/* What a thread is between two turns. DONE; NO_WORLD, NO_SUCH. */
enum lockrun_state {
    LOCKRUN_RUNNING = 0, /* it runs */
    LOCKRUN_QUEUED = 1,  /* it is blocked, and has something left to do: a walk, a wake, or a lock to release */
    LOCKRUN_IDLE = 2,    /* it is blocked, on a queue or taken off one, and its turns are idle until it is woken */
    LOCKRUN_WOKEN = 3,   /* it was woken, and runs again with its next turn */
    LOCKRUN_AT_END = 4   /* it has ended */
};
enum lockrun_queue { LOCKRUN_NO_QUEUE = 0, LOCKRUN_LOCK_QUEUE = 1, LOCKRUN_CHANNEL_QUEUE = 2 };
typedef struct lockrun_seen {
    uint32_t state;     /* a number of enum lockrun_state */
    uint32_t queue;     /* the sort of the queue on which it stands, or off which it was taken to be woken; */
    uint32_t which;     /* and the number of the lock or channel whose queue that is */
    uint32_t base;      /* its base priority, */
    uint32_t effective; /* and the better of that and of all that is lent to it */
} lockrun_seen_t;
uint32_t lockrun_world_thread(lockrun_world_t *world, uint32_t thread, lockrun_seen_t *seen);

/* Writes the text of the world's run as it stands, of *written bytes, with no 0 after it: what `lockrun step` prints of
 * these turns. Its last word is `ok` or `reversed` if all threads have ended, else `stuck` if the turn of each that has
 * not would be idle, and else `toolong`. It may be written between any two turns. DONE; NO_WORLD, NO_MEMORY,
 * NO_SPACE. */
uint32_t lockrun_world_print(lockrun_world_t *world, char *out, size_t room, size_t *written);

/* Lets go of what its handle has, which has nothing then. */
void lockrun_world_free(lockrun_world_t *world);

/* ---- 2: wait. c/lockrun_wait.c, in C; left out where LOCKRUN_NEVER_WAITS is defined ---- */

#ifndef LOCKRUN_NEVER_WAITS
#if defined(__linux__) && !defined(LOCKRUN_NO_FUTEX)
#define LOCKRUN_FUTEX 1
#else
#include <pthread.h>
#endif

/* How the calls below wait. Each gets `arg` as it stands here, and may be null: then the calls pause as a parking
 * does, pause where they would sleep, and wake nobody.
 *
 * pause: between two parts of a call. `times` is how often this call has paused or slept before. It returns without
 * waiting for another thread of the floor.
 * sleep: behind a SLEEP, by the thread that is to sleep; `number` is its own. It may return at any time, and is
 * called again while the thread is to sleep. It has to call lockrun_is_queued, and sleep only while that says SLEEP,
 * under what wake uses (one mutex, or a count that wake raises, read before): a wake that comes before the sleep is
 * lost else.
 * wake: once for each WAKE, by the thread that got it; `number` is that of the thread to be woken, which may not
 * sleep yet, or not any more. It returns without waiting for another thread of the floor.
 *
 * `order` has a byte for each lock, whose address race checkers are told: a thread sanitizer where your program and
 * lockrun_wait.c are compiled with it, which the archive's isn't, and helgrind where both are compiled with
 * LOCKRUN_HELGRIND, which takes the suppressions of helgrind.supp. It may be null: then they are told of no order. */
typedef struct lockrun_waiting {
    void (*pause)(void *arg, unsigned times);
    void (*sleep)(void *arg, lockrun_thread_t *thread, uint32_t number);
    void (*wake)(void *arg, uint32_t number);
    void *arg;
    char *order;
} lockrun_waiting_t;

/* The waiting of threads of the system, for one floor: a pause spins a little and then yields; a sleep is a futex on
 * Linux, and elsewhere (or where LOCKRUN_NO_FUTEX is defined) a condition variable. A thread whose `how` is null
 * never sleeps: it pauses so and looks. */
typedef struct lockrun_parking {
    lockrun_waiting_t waiting;
    uint32_t wakes[LOCKRUN_MOST_THREADS];
    char order[LOCKRUN_MOST_LOCKS];
#ifndef LOCKRUN_FUTEX
    pthread_mutex_t lock;
    pthread_cond_t woken;
#endif
} lockrun_parking_t;
/* The two forms are of two sizes, so each has names of its own: where this and lockrun_wait.c were compiled one with
 * and one without LOCKRUN_NO_FUTEX, the program isn't linked. */
#ifdef LOCKRUN_FUTEX
#define lockrun_park lockrun_park_by_futex
#define lockrun_unpark lockrun_unpark_by_futex
#else
#define lockrun_park lockrun_park_by_condition
#define lockrun_unpark lockrun_unpark_by_condition
#endif
void lockrun_park(lockrun_parking_t *parking);   /* makes it ready, and then parking->waiting may be a thread's how */
void lockrun_unpark(lockrun_parking_t *parking); /* behind its last use */

/* Does what lockrun_ask answered to these, and goes on with the call until it is done, or asks the same again where it
 * answered OUT. */
uint32_t lockrun_go_on(lockrun_thread_t *thread, uint32_t what, uint32_t which, uint64_t number,
                       const lockrun_cell_t *cell, lockrun_told_t *told, uint32_t answer);

/* Makes a call whole: begins it, or goes on with one that lockrun_ask has begun (GO_ON), and does what the answers
 * say until it is done. told may be null; else it is what lockrun_ask told last; cell may be null where the request is
 * about none. This and the next four are inline, so that a lock that is free costs one call of the library;
 * lockrun_wait.c has them by name too.
 * DONE BUSY REVERSED HALTED FOUND ABSENT SHOWN; and the faults of lockrun_ask. */
inline uint32_t lockrun_call(lockrun_thread_t *thread, uint32_t what, uint32_t which, uint64_t number,
                             const lockrun_cell_t *cell, lockrun_told_t *told)
{
    static const lockrun_cell_t none = LOCKRUN_CELL_INIT;
    lockrun_told_t mine;
    uint32_t answer;
    if (!cell)
        cell = &none;
    if (!told)
        told = &mine;
    answer = lockrun_ask(thread, what, which, number, cell, told);
    return answer == LOCKRUN_DONE ? answer : lockrun_go_on(thread, what, which, number, cell, told, answer);
}

/* Race checkers see no step of the library; so they are told of the order that a lock makes, by the address of its
 * byte: a thread sanitizer where this is compiled with it. */
#ifdef __has_feature
#if __has_feature(thread_sanitizer)
#define LOCKRUN_TSAN 1
#endif
#endif
#ifdef __SANITIZE_THREAD__
#define LOCKRUN_TSAN 1
#endif
#if defined(LOCKRUN_HELGRIND)
#include <valgrind/helgrind.h>
#define LOCKRUN_GAINED(at) ANNOTATE_HAPPENS_AFTER(at)
#define LOCKRUN_LETS_GO(at) ANNOTATE_HAPPENS_BEFORE(at)
#elif defined(LOCKRUN_TSAN)
void __tsan_acquire(void *);
void __tsan_release(void *);
#define LOCKRUN_GAINED(at) __tsan_acquire(at)
#define LOCKRUN_LETS_GO(at) __tsan_release(at)
#else
#define LOCKRUN_GAINED(at) ((void)(at))
#define LOCKRUN_LETS_GO(at) ((void)(at))
#endif

/* The byte of a lock, or null. */
inline char *lockrun_order_of(const lockrun_thread_t *thread, uint32_t lock)
{
    return thread->how && thread->how->order ? &thread->how->order[lock % LOCKRUN_MOST_LOCKS] : 0;
}

/* Each of these is lockrun_call of one request, and answers the faults of that too. A mode that is no LOCKRUN_SHARED
 * is taken as LOCKRUN_EXCLUSIVE. */
enum lockrun_mode { LOCKRUN_EXCLUSIVE = 0, LOCKRUN_SHARED = 1 };

/* DONE REVERSED HALTED */
inline uint32_t lockrun_take(lockrun_thread_t *thread, uint32_t lock, enum lockrun_mode mode)
{
    uint32_t answer = lockrun_call(thread, mode == LOCKRUN_SHARED ? LOCKRUN_TAKE_SHARED : LOCKRUN_TAKE, lock, 0, 0, 0);
    if (answer == LOCKRUN_DONE && lockrun_order_of(thread, lock))
        LOCKRUN_GAINED(lockrun_order_of(thread, lock));
    return answer;
}

/* DONE BUSY */
inline uint32_t lockrun_try(lockrun_thread_t *thread, uint32_t lock, enum lockrun_mode mode)
{
    uint32_t answer = lockrun_call(thread, mode == LOCKRUN_SHARED ? LOCKRUN_TRY_SHARED : LOCKRUN_TRY, lock, 0, 0, 0);
    if (answer == LOCKRUN_DONE && lockrun_order_of(thread, lock))
        LOCKRUN_GAINED(lockrun_order_of(thread, lock));
    return answer;
}

/* DONE */
inline uint32_t lockrun_release(lockrun_thread_t *thread, uint32_t lock, enum lockrun_mode mode)
{
    if (lockrun_order_of(thread, lock))
        LOCKRUN_LETS_GO(lockrun_order_of(thread, lock));
    return lockrun_call(thread, mode == LOCKRUN_SHARED ? LOCKRUN_RELEASE_SHARED : LOCKRUN_RELEASE, lock, 0, 0, 0);
}

uint32_t lockrun_wait(lockrun_thread_t *thread, uint32_t channel);                         /* DONE HALTED */
uint32_t lockrun_wake_one(lockrun_thread_t *thread, uint32_t channel);                     /* DONE */
uint32_t lockrun_wake_all(lockrun_thread_t *thread, uint32_t channel);                     /* DONE */
uint32_t lockrun_end(lockrun_thread_t *thread);                                            /* DONE */

uint32_t lockrun_set(lockrun_thread_t *thread, const lockrun_cell_t *cell, uint64_t value);      /* DONE */
uint32_t lockrun_add(lockrun_thread_t *thread, const lockrun_cell_t *cell, uint64_t amount);     /* DONE */
/* FOUND ABSENT. *value is written where it is FOUND alone; so are *base and *effective where they are SHOWN. */
uint32_t lockrun_get(lockrun_thread_t *thread, const lockrun_cell_t *cell, uint64_t *value);
uint32_t lockrun_set_priority(lockrun_thread_t *thread, uint8_t base);                           /* DONE */
uint32_t lockrun_priorities(lockrun_thread_t *thread, uint32_t *base, uint32_t *effective);      /* SHOWN */
#endif

#ifdef __cplusplus
}
#endif
#endif
