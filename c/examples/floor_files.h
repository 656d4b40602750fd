/* What the programs here share: they stop at the first answer that isn't done, and write a floor and its text into
 * files, for tools/check_history.py --floor. */
#ifndef FLOOR_FILES_H
#define FLOOR_FILES_H

#include <lockrun.h>
#include <stdio.h>
#include <stdlib.h>

static inline void must(uint32_t answer, const char *what)
{
    if (answer != LOCKRUN_DONE) {
        fprintf(stderr, "%s: %s (%u)\n", what, lockrun_says(answer), (unsigned)answer);
        exit(1);
    }
}

static inline FILE *opened(const char *path)
{
    FILE *file = fopen(path, "w");
    if (!file) {
        perror(path);
        exit(1);
    }
    return file;
}

/* The floor as a script that says no operation. */
static inline void write_floor(const char *path, const lockrun_thread_row_t *threads, size_t n_threads,
                               const lockrun_lock_row_t *locks, size_t n_locks, const lockrun_channel_row_t *channels,
                               size_t n_channels)
{
    static const char *const kinds[] = {"mutex", "rw", "sx"};
    FILE *file = opened(path);
    size_t i;
    fputs("lockrun 1\n", file);
    for (i = 0; i < n_locks; i++)
        fprintf(file, "%s %.16s %.16s\n", kinds[locks[i].kind], locks[i].name, locks[i].class_name);
    for (i = 0; i < n_channels; i++)
        fprintf(file, "%s %.16s %.16s\n", channels[i].is_channel ? "chan" : "cond", channels[i].name,
                locks[channels[i].lock].name);
    for (i = 0; i < n_threads; i++)
        fprintf(file, "thread %.16s %u\nend\n", threads[i].name, (unsigned)threads[i].base);
    fputs("done\n", file);
    fclose(file);
}

/* The text of a closed floor. Its length is told where there is no room for it. */
static inline void write_text(FILE *file, lockrun_floor_t *floor)
{
    size_t length = 0;
    char none, *text;
    if (lockrun_print(floor, &none, 0, &length) != LOCKRUN_NO_SPACE || !(text = malloc(length)))
        exit(1);
    must(lockrun_print(floor, text, length, &length), "print");
    fwrite(text, 1, length, file);
    free(text);
}

static inline void write_text_to(const char *path, lockrun_floor_t *floor)
{
    FILE *file = opened(path);
    write_text(file, floor);
    fclose(file);
}

#endif
