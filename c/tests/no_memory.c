/* Each allocation is refused in turn: it is answered, nothing is changed, and nothing is kept when all is let go of. The
 * allocator stands in the place of the archive's. */
#include "../examples/floor_files.h"

struct tried { size_t ok; void *at; };

static long left = -1, out;

static int is_refused(void)
{
    if (left == 0)
        return 1;
    if (left > 0)
        left--;
    return 0;
}

struct tried rattle_alloc(size_t size, size_t align)
{
    struct tried tried = {0, NULL};
    (void)align;
    if (!is_refused() && (tried.at = malloc(size)) != NULL) {
        tried.ok = 1;
        out++;
    }
    return tried;
}

struct tried rattle_realloc(void *at, size_t kept, size_t size, size_t align)
{
    struct tried tried = {0, NULL};
    (void)kept;
    (void)align;
    if (!is_refused() && (tried.at = realloc(at, size)) != NULL)
        tried.ok = 1;
    return tried;
}

void rattle_dealloc(void *at)
{
    free(at);
    out--;
}

static const lockrun_thread_row_t threads[2] = {{"t", 3, 100}, {"u", 3, 50}};
static const lockrun_lock_row_t locks[2] = {{"m", "k", LOCKRUN_MUTEX}, {"s", "k2", LOCKRUN_SX}};
static const lockrun_channel_row_t channels[1] = {{"c", 0, 0}};
static const lockrun_key_row_t keys[2] = {{1, 0}, {2, 0}};
static const char script[] =
    "lockrun 1\nmutex m k\nthread p 100\nlock m\nunlock m\nend\nthread q 50\nlock m\nadd m 1 3\nunlock m\nend\ndone\n";

/* Makes the call until it is answered otherwise than that there was no memory; gives how often it was so. */
#define REFUSED(call, refused)                                                                                         \
    do {                                                                                                               \
        long i_, was_ = out;                                                                                           \
        uint32_t answer_;                                                                                              \
        for (i_ = 0;; i_++) {                                                                                          \
            left = i_;                                                                                                 \
            answer_ = (call);                                                                                          \
            left = -1;                                                                                                 \
            if (answer_ != LOCKRUN_NO_MEMORY)                                                                          \
                break;                                                                                                 \
            if (out != was_) {                                                                                         \
                fprintf(stderr, "%s: %ld blocks more behind refusal %ld\n", #call, out - was_, i_);                    \
                return 1;                                                                                              \
            }                                                                                                          \
            (refused)++;                                                                                               \
        }                                                                                                              \
        must(answer_, #call);                                                                                          \
    } while (0)

int main(void)
{
    lockrun_floor_t floor = LOCKRUN_FLOOR_INIT;
    lockrun_thread_t handles[2] = {LOCKRUN_THREAD_INIT, LOCKRUN_THREAD_INIT};
    static char text[1000];
    size_t written = 0;
    lockrun_world_t world = LOCKRUN_WORLD_INIT;
    lockrun_fault_t fault = {0, 0};
    lockrun_seen_t seen;
    uint32_t status = 0;
    int opened = 0, handed = 0, printed = 0, stepped = 0, worlds = 0, texts = 0, t;
    REFUSED(lockrun_open(&floor, threads, 2, locks, 2, channels, 1, keys, 2), opened);
    for (t = 0; t < 2; t++)
        REFUSED(lockrun_next_thread(&floor, &handles[t]), handed);
    left = 0; /* none of these takes memory */
    for (t = 0; t < 2; t++) {
        must(lockrun_take(&handles[t], 0, LOCKRUN_EXCLUSIVE), "take");
        must(lockrun_release(&handles[t], 0, LOCKRUN_EXCLUSIVE), "release");
        must(lockrun_wake_one(&handles[t], 0), "wake_one");
        must(lockrun_end(&handles[t]), "end");
        must(lockrun_gather(&floor, &handles[t]), "gather");
    }
    must(lockrun_close(&floor), "close");
    left = -1;
    REFUSED(lockrun_print(&floor, text, sizeof text, &written), printed);
    lockrun_free(&floor);
    REFUSED(lockrun_step(script, sizeof script - 1, 1, 100, text, sizeof text, &written, &status), stepped);
    REFUSED(lockrun_world_open(&world, script, sizeof script - 1, 1, &fault), worlds);
    left = 0; /* no turn takes memory */
    for (t = 0; t < 40; t++)
        must(lockrun_world_turn(&world, (uint32_t)t % 2, &status), "world_turn");
    must(lockrun_world_thread(&world, 0, &seen), "world_thread");
    left = -1;
    REFUSED(lockrun_world_print(&world, text, sizeof text, &written), texts);
    lockrun_world_free(&world);
    if (out != 0) {
        fprintf(stderr, "%ld blocks are kept\n", out);
        return 1;
    }
    printf("refused and answered: %d of open, %d of next_thread, %d of print, %d of step, %d of world_open, "
           "%d of world_print\n", opened, handed, printed, stepped, worlds, texts);
    return opened > 0 && handed == 2 && printed > 0 && stepped > 0 && worlds > 0 && texts > 0 ? 0 : 1;
}
