/* The scheduled run of a script, in whatever order one likes: a thread of little importance holds a mutex, one of great
 * importance waits for it and lends it its priority. Behind each turn it is told what became of it, and what both
 * threads are. In the end the text is written, which is the one of the whole run too. The script goes to the file that
 * the first word names, and the text to the file that the second one names. */
#include <lockrun.h>
#include <stdio.h>
#include <stdlib.h>
#include <string.h>

static const char script[] =
    "lockrun 1\n"
    "mutex bus buses\n"
    "thread low 200\nlock bus\nunlock bus\nend\n"
    "thread high 10\nlock bus\nunlock bus\nend\n"
    "done\n";

enum { LOW = 0, HIGH = 1, CHAINS = 16 };
static const uint32_t order[] = {LOW, HIGH, HIGH, HIGH, LOW, LOW, HIGH, HIGH, HIGH, HIGH};

static const char *const turns[] = {"idle", "ended", "gain", "claim", "drop", "enter", "open", "mark",
                                    "resume", "lend", "shift", "walk end", "add", "wake", "note"};
static const char *const states[] = {"runs", "is queued", "is idle", "is woken", "has ended"};

static void must(uint32_t answer, const char *what)
{
    if (answer != LOCKRUN_DONE) {
        fprintf(stderr, "%s: %s\n", what, lockrun_says(answer));
        exit(1);
    }
}

static void write_thread(lockrun_world_t *world, uint32_t thread)
{
    lockrun_name_t name, lock;
    lockrun_seen_t seen;
    must(lockrun_world_name(world, LOCKRUN_OF_THREADS, thread, &name), "name");
    must(lockrun_world_thread(world, thread, &seen), "thread");
    printf("; %.16s %s", name.bytes, states[seen.state]);
    if (seen.queue == LOCKRUN_LOCK_QUEUE) {
        must(lockrun_world_name(world, LOCKRUN_OF_LOCKS, seen.which, &lock), "name");
        printf(" on %.16s", lock.bytes);
    }
    printf(" %u/%u", (unsigned)seen.base, (unsigned)seen.effective);
}

static void write_to(const char *path, const char *text, size_t length)
{
    FILE *file = fopen(path, "w");
    if (!file) {
        perror(path);
        exit(1);
    }
    fwrite(text, 1, length, file);
    fclose(file);
}

int main(int argc, char **argv)
{
    lockrun_world_t world = LOCKRUN_WORLD_INIT;
    lockrun_fault_t fault = {0, 0};
    char text[400], whole[400];
    size_t i, written = 0, all = 0;
    uint32_t turn = 0, status = 0;

    must(lockrun_world_open(&world, script, sizeof script - 1, CHAINS, &fault), "open");
    for (i = 0; i < sizeof order / sizeof *order; i++) {
        must(lockrun_world_turn(&world, order[i], &turn), "turn");
        printf("thread %u: %s", (unsigned)order[i], turns[turn]);
        write_thread(&world, LOW);
        write_thread(&world, HIGH);
        putchar('\n');
    }
    must(lockrun_world_print(&world, text, sizeof text, &written), "print");
    fwrite(text, 1, written, stdout);
    lockrun_world_free(&world);
    if (argc > 2) {
        write_to(argv[1], script, sizeof script - 1);
        write_to(argv[2], text, written);
    }

    must(lockrun_step(script, sizeof script - 1, CHAINS, LOCKRUN_MOST_TURNS, whole, sizeof whole, &all, &status), "step");
    printf("status %u, the %s text\n", (unsigned)status,
           all == written && memcmp(text, whole, all) == 0 ? "same" : "other");
    return 0;
}
