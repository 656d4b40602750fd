/* Scripts in memory: each wrong call is answered with its cause and changes nothing, the text behind all of them is as
 * written here, and a script's first fault is told as lockrun tells it. */
#include <lockrun.h>
#include <stdio.h>
#include <stdlib.h>
#include <string.h>

static int wrong;

static void expect(int line, const char *call, uint32_t got, uint32_t want)
{
    if (got != want) {
        fprintf(stderr, "line %d: %s: %s (%u), not: %s (%u)\n", line, call, lockrun_says(got), (unsigned)got,
                lockrun_says(want), (unsigned)want);
        wrong = 1;
    }
}
#define EXPECT(call, want) expect(__LINE__, #call, (call), (want))

static void expect_text(int line, const char *got, size_t length, const char *want)
{
    if (length != strlen(want) || memcmp(got, want, length) != 0) {
        fprintf(stderr, "line %d: the text isn't as written:\n%.*s", line, (int)length, got);
        wrong = 1;
    }
}
#define EXPECT_TEXT(got, length, want) expect_text(__LINE__, (got), (length), (want))

/* examples/blocking.script, with a condition variable more, and its text after 2 turns and in the end. */
static const char script[] =
    "lockrun 1\nmutex m k\ncond c m\nthread p 100\nlock m\nunlock m\nend\n"
    "thread q 50\nlock m\nadd m 1 3\nunlock m\nend\nschedule p q p p q\ndone\n";
static const char cut[] = "0 p lock m\nqueue m slot 0 head q free - excl q@50 shared -\n"
    "thread p base 100 eff 100\nthread q base 50 eff 50\ntoolong\n";
static const char whole[] = "0 p lock m\n1 p unlock m\n2 q lock m\n3 q add m 1 3\n4 q unlock m\n"
    "thread p base 100 eff 100\nthread q base 50 eff 50\ntable m 1 3\nok\n";

/* A thread that waits with nobody to wake it, and two that take two mutexes in both orders. */
static const char waits[] = "lockrun 1\nmutex m k\ncond c m\nthread t 7\nlock m\nwait c\nunlock m\nend\ndone\n";
static const char reversed[] =
    "lockrun 1\nmutex a ka\nmutex b kb\nthread t 7\nlock a\nlock b\nunlock b\nunlock a\nend\n"
    "thread u 7\nlock b\nlock a\nunlock a\nunlock b\nend\nschedule t t t t u\ndone\n";
static const char faulty[] = "lockrun 1\nmutex m k\nthread t 7\nunlock m\nend\ndone\n";

#define BYTES(text) (text), sizeof(text) - 1

static void wrong_steps(void)
{
    static char big[LOCKRUN_SCRIPT_BYTES + 1];
    char text[400] = "as it was";
    size_t written = 0;
    uint32_t status = 99;
    EXPECT(lockrun_step(BYTES(script), 0, 9, text, sizeof text, &written, &status), LOCKRUN_NO_RANGE);
    EXPECT(lockrun_step(BYTES(script), 65, 9, text, sizeof text, &written, &status), LOCKRUN_NO_RANGE);
    EXPECT(lockrun_step(BYTES(script), 1, 0, text, sizeof text, &written, &status), LOCKRUN_NO_RANGE);
    EXPECT(lockrun_step(BYTES(script), 1, 1000001, text, sizeof text, &written, &status), LOCKRUN_NO_RANGE);
    EXPECT(lockrun_step(big, sizeof big, 0, 9, text, sizeof text, &written, &status), LOCKRUN_NO_RANGE);
    EXPECT(lockrun_step(big, sizeof big, 1, 9, text, sizeof text, &written, &status), LOCKRUN_TOO_BIG);
    EXPECT(status, 99);
    EXPECT_TEXT(text, strlen(text), "as it was");
    EXPECT(lockrun_step(BYTES(script), 1, 100, text, sizeof whole - 2, &written, &status), LOCKRUN_NO_SPACE);
    EXPECT((uint32_t)written, sizeof whole - 1);
    EXPECT_TEXT(text, strlen(text), "as it was");
}

static void steps(void)
{
    char text[400];
    size_t written = 0;
    uint32_t status = 99;
    EXPECT(lockrun_step(BYTES(script), 16, 1000000, text, sizeof text, &written, &status), LOCKRUN_DONE);
    EXPECT(status, 0);
    EXPECT_TEXT(text, written, whole);
    EXPECT(lockrun_step(BYTES(script), 16, 2, text, sizeof text, &written, &status), LOCKRUN_DONE);
    EXPECT(status, 7);
    EXPECT_TEXT(text, written, cut);
    EXPECT(lockrun_step(BYTES(faulty), 16, 2, text, sizeof text, &written, &status), LOCKRUN_DONE);
    EXPECT(status, 1);
    EXPECT_TEXT(text, written, "line 4 code 11\n");
    EXPECT(lockrun_step("", 0, 16, 2, text, sizeof text, &written, &status), LOCKRUN_DONE);
    EXPECT(status, 1);
    EXPECT_TEXT(text, written, "line 1 code 1\n");
    EXPECT(lockrun_step(BYTES(waits), 16, 100, text, sizeof text, &written, &status), LOCKRUN_DONE);
    EXPECT(status, 5);
    EXPECT(lockrun_step(BYTES(reversed), 16, 100, text, sizeof text, &written, &status), LOCKRUN_DONE);
    EXPECT(status, 6);
}

/* What each call answers of a handle that has no world. */
static void no_world(lockrun_world_t *world)
{
    lockrun_counts_t counts = {9, 9, 9};
    lockrun_name_t name = {"as it was"};
    lockrun_seen_t seen = {9, 9, 9, 9, 9};
    char text[400] = "as it was";
    size_t written = 0;
    uint32_t turn = 99;
    EXPECT(lockrun_world_count(world, &counts), LOCKRUN_NO_WORLD);
    EXPECT(lockrun_world_name(world, LOCKRUN_OF_THREADS, 0, &name), LOCKRUN_NO_WORLD);
    EXPECT(lockrun_world_turn(world, 0, &turn), LOCKRUN_NO_WORLD);
    EXPECT(lockrun_world_thread(world, 0, &seen), LOCKRUN_NO_WORLD);
    EXPECT(lockrun_world_print(world, text, sizeof text, &written), LOCKRUN_NO_WORLD);
    EXPECT((uint32_t)(counts.threads + counts.locks + counts.channels), 27);
    EXPECT(seen.state + seen.queue + seen.which + seen.base + seen.effective, 45);
    EXPECT(turn, 99);
    EXPECT_TEXT(name.bytes, strlen(name.bytes), "as it was");
    EXPECT_TEXT(text, strlen(text), "as it was");
}

static void expect_seen(int line, lockrun_world_t *world, uint32_t thread, lockrun_seen_t want)
{
    lockrun_seen_t seen = {9, 9, 9, 9, 9};
    expect(line, "world_thread", lockrun_world_thread(world, thread, &seen), LOCKRUN_DONE);
    if (memcmp(&seen, &want, sizeof seen) != 0) {
        fprintf(stderr, "line %d: thread %u is %u, on %u %u, %u/%u\n", line, (unsigned)thread, (unsigned)seen.state,
                (unsigned)seen.queue, (unsigned)seen.which, (unsigned)seen.base, (unsigned)seen.effective);
        wrong = 1;
    }
}

static void expect_turn(int line, lockrun_world_t *world, uint32_t thread, uint32_t want)
{
    uint32_t turn = 99;
    expect(line, "world_turn", lockrun_world_turn(world, thread, &turn), LOCKRUN_DONE);
    expect(line, "what became of the turn", turn, want);
}
#define TURN(thread, want) expect_turn(__LINE__, &world, (thread), (want))

static void expect_print(int line, lockrun_world_t *world, const char *want)
{
    char text[400];
    size_t written = 0;
    expect(line, "world_print", lockrun_world_print(world, text, sizeof text, &written), LOCKRUN_DONE);
    expect_text(line, text, written, want);
}
#define PRINTS(want) expect_print(__LINE__, &world, (want))

static void wrong_worlds(void)
{
    static char big[LOCKRUN_SCRIPT_BYTES + 1];
    lockrun_world_t world = LOCKRUN_WORLD_INIT;
    lockrun_fault_t fault = {9, 9};
    EXPECT(lockrun_world_open(&world, BYTES(script), 0, &fault), LOCKRUN_NO_RANGE);
    EXPECT(lockrun_world_open(&world, BYTES(script), 65, &fault), LOCKRUN_NO_RANGE);
    EXPECT(lockrun_world_open(&world, big, sizeof big, 0, &fault), LOCKRUN_NO_RANGE);
    EXPECT(lockrun_world_open(&world, big, sizeof big, 1, &fault), LOCKRUN_TOO_BIG);
    EXPECT(fault.line + fault.code, 18);
    EXPECT(lockrun_world_open(&world, BYTES(faulty), 16, &fault), LOCKRUN_NO_SCRIPT);
    EXPECT(fault.line, 4);
    EXPECT(fault.code, 11);
    no_world(&world);
}

int main(void)
{
    lockrun_world_t world = LOCKRUN_WORLD_INIT;
    lockrun_counts_t counts = {9, 9, 9};
    lockrun_name_t name = {"as it was"};
    lockrun_fault_t fault = {9, 9};
    lockrun_seen_t untold = {9, 9, 9, 9, 9};
    lockrun_seen_t runs = {LOCKRUN_RUNNING, LOCKRUN_NO_QUEUE, 0, 100, 100};
    lockrun_seen_t lent = {LOCKRUN_RUNNING, LOCKRUN_NO_QUEUE, 0, 100, 50};
    lockrun_seen_t queued = {LOCKRUN_QUEUED, LOCKRUN_LOCK_QUEUE, 0, 50, 50};
    lockrun_seen_t idle = {LOCKRUN_IDLE, LOCKRUN_LOCK_QUEUE, 0, 50, 50};
    lockrun_seen_t woken = {LOCKRUN_WOKEN, LOCKRUN_NO_QUEUE, 0, 50, 50};
    lockrun_seen_t ended = {LOCKRUN_AT_END, LOCKRUN_NO_QUEUE, 0, 100, 100};
    char text[400] = "as it was";
    size_t written = 0;
    uint32_t turn = 99;

    no_world(&world);
    lockrun_world_free(&world);
    wrong_steps();
    steps();
    wrong_worlds();

    EXPECT(lockrun_world_open(&world, BYTES(script), 16, &fault), LOCKRUN_DONE);
    EXPECT(lockrun_world_open(&world, BYTES(script), 16, &fault), LOCKRUN_IS_OPEN);
    EXPECT(lockrun_world_open(&world, BYTES(faulty), 0, &fault), LOCKRUN_IS_OPEN);
    EXPECT(fault.line + fault.code, 18);

    /* What it has, and what it hasn't. */
    EXPECT(lockrun_world_count(&world, &counts), LOCKRUN_DONE);
    EXPECT((uint32_t)counts.threads, 2);
    EXPECT((uint32_t)counts.locks, 1);
    EXPECT((uint32_t)counts.channels, 1);
    EXPECT(lockrun_world_name(&world, LOCKRUN_OF_THREADS, 2, &name), LOCKRUN_NO_SUCH);
    EXPECT(lockrun_world_name(&world, LOCKRUN_OF_LOCKS, 1, &name), LOCKRUN_NO_SUCH);
    EXPECT(lockrun_world_name(&world, LOCKRUN_OF_CHANNELS, 1, &name), LOCKRUN_NO_SUCH);
    EXPECT(lockrun_world_name(&world, 3, 0, &name), LOCKRUN_NO_SUCH);
    EXPECT(lockrun_world_name(&world, 4294967295u, 4294967295u, &name), LOCKRUN_NO_SUCH);
    EXPECT_TEXT(name.bytes, strlen(name.bytes), "as it was");
    EXPECT(lockrun_world_name(&world, LOCKRUN_OF_THREADS, 1, &name), LOCKRUN_DONE);
    EXPECT_TEXT(name.bytes, strlen(name.bytes), "q");
    EXPECT(lockrun_world_name(&world, LOCKRUN_OF_LOCKS, 0, &name), LOCKRUN_DONE);
    EXPECT_TEXT(name.bytes, strlen(name.bytes), "m");
    EXPECT(lockrun_world_name(&world, LOCKRUN_OF_CHANNELS, 0, &name), LOCKRUN_DONE);
    EXPECT_TEXT(name.bytes, strlen(name.bytes), "c");

    /* The turns of the script's schedule, and those of nobody in between. */
    TURN(0, LOCKRUN_TURN_GAIN);
    EXPECT(lockrun_world_turn(&world, 2, &turn), LOCKRUN_NO_SUCH);
    EXPECT(lockrun_world_turn(&world, 256, &turn), LOCKRUN_NO_SUCH);
    EXPECT(lockrun_world_turn(&world, 4294967295u, &turn), LOCKRUN_NO_SUCH);
    EXPECT(turn, 99);
    EXPECT(lockrun_world_thread(&world, 2, &untold), LOCKRUN_NO_SUCH);
    EXPECT(lockrun_world_thread(&world, 256, &untold), LOCKRUN_NO_SUCH);
    EXPECT(untold.state + untold.queue + untold.which + untold.base + untold.effective, 45);
    TURN(1, LOCKRUN_TURN_ENTER);
    expect_seen(__LINE__, &world, 0, runs);
    expect_seen(__LINE__, &world, 1, queued);
    PRINTS(cut);
    EXPECT(lockrun_world_print(&world, text, sizeof cut - 2, &written), LOCKRUN_NO_SPACE);
    EXPECT((uint32_t)written, sizeof cut - 1);
    EXPECT_TEXT(text, strlen(text), "as it was");
    TURN(1, LOCKRUN_TURN_LEND);
    expect_seen(__LINE__, &world, 0, lent);
    expect_seen(__LINE__, &world, 1, idle);
    TURN(1, LOCKRUN_TURN_IDLE);
    expect_seen(__LINE__, &world, 1, idle);
    TURN(0, LOCKRUN_TURN_OPEN);
    TURN(0, LOCKRUN_TURN_MARK);
    expect_seen(__LINE__, &world, 0, ended);
    expect_seen(__LINE__, &world, 1, woken);
    TURN(0, LOCKRUN_TURN_ENDED);
    TURN(1, LOCKRUN_TURN_RESUME);
    TURN(1, LOCKRUN_TURN_GAIN);
    TURN(1, LOCKRUN_TURN_NOTE);
    TURN(1, LOCKRUN_TURN_DROP);
    TURN(1, LOCKRUN_TURN_ENDED);
    PRINTS(whole);

    /* A handle of the other sort. */
    EXPECT(lockrun_close((lockrun_floor_t *)&world), LOCKRUN_NOT_OPEN);
    EXPECT(lockrun_is_queued((lockrun_thread_t *)&world), LOCKRUN_NOT_OPEN);
    EXPECT(lockrun_print((lockrun_floor_t *)&world, text, sizeof text, &written), LOCKRUN_NOT_CLOSED);
    PRINTS(whole);
    lockrun_world_free(&world);
    lockrun_world_free(&world);
    no_world(&world);

    /* Where nobody can go on the text says so: the thread waits, and its lock was given up. */
    EXPECT(lockrun_world_open(&world, BYTES(waits), 16, &fault), LOCKRUN_DONE);
    TURN(0, LOCKRUN_TURN_GAIN);
    TURN(0, LOCKRUN_TURN_ADD);
    TURN(0, LOCKRUN_TURN_DROP);
    TURN(0, LOCKRUN_TURN_IDLE);
    PRINTS("0 t lock m\n1 t wait c\nqueue c slot 0 head t free - excl t@7 shared -\nthread t base 7 eff 7\nstuck\n");
    lockrun_world_free(&world);
    puts(wrong ? "WRONG" : "as expected");
    return wrong;
}
