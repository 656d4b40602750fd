/* Runs a program, and stops single threads of it at random for a while, as a system does that takes the processor from
 * them, also where a thread has out what others wait for:
 *
 *     stop_at_random SEED PROGRAM [ARGUMENT ..]
 *
 * Input, output and status are the program's. Where STOPS names a file, a line with the number of threads that were
 * seen and the number of stops is added to it. For Linux. */
#define _GNU_SOURCE
#include <errno.h>
#include <signal.h>
#include <stdint.h>
#include <stdio.h>
#include <stdlib.h>
#include <sys/ptrace.h>
#include <sys/wait.h>
#include <time.h>
#include <unistd.h>

enum { MOST = 256, MOST_HELD = 8 };
enum { RUNS, ASKED, HELD }; /* ASKED: an interrupt was sent, and its stop is to come */

static struct { pid_t id; int state; uint64_t until; } threads[MOST];
static int count, held, seen;
static uint64_t chance;

static uint64_t draw(void) /* xorshift */
{
    chance ^= chance << 13, chance ^= chance >> 7, chance ^= chance << 17;
    return chance;
}

static uint64_t now(void)
{
    struct timespec t;
    clock_gettime(CLOCK_MONOTONIC, &t);
    return (uint64_t)t.tv_sec * 1000000000u + (uint64_t)t.tv_nsec;
}

static int find(pid_t id)
{
    for (int i = 0; i < count; i++)
        if (threads[i].id == id) return i;
    if (count == MOST) abort();
    threads[count].id = id, threads[count].state = RUNS;
    seen++;
    return count++;
}

static void forget(int i)
{
    if (threads[i].state == HELD) held--;
    threads[i] = threads[--count];
}

int main(int n, char **words)
{
    if (n < 3) return fputs("stop_at_random SEED PROGRAM [ARGUMENT ..]\n", stderr), 64;
    chance = strtoull(words[1], 0, 10) * 0x9e3779b97f4a7c15u + 1;
    int go[2];
    char byte = 0;
    if (pipe(go)) return perror("pipe"), 71;
    pid_t leader = fork();
    if (leader < 0) return perror("fork"), 71;
    if (leader == 0) {
        close(go[1]);
        if (read(go[0], &byte, 1) != 1) _exit(71);
        close(go[0]);
        execvp(words[2], words + 2);
        perror(words[2]);
        _exit(127);
    }
    if (ptrace(PTRACE_SEIZE, leader, 0, PTRACE_O_TRACECLONE | PTRACE_O_EXITKILL)) return perror("ptrace"), 71;
    close(go[0]);
    if (write(go[1], &byte, 1) != 1) return 71;
    close(go[1]);
    find(leader);
    long stops = 0;
    for (;;) {
        int status;
        pid_t id;
        while ((id = waitpid(-1, &status, __WALL | WNOHANG)) > 0) {
            int i = find(id);
            if (WIFEXITED(status) || WIFSIGNALED(status)) {
                forget(i);
                if (id != leader) continue;
                char *file = getenv("STOPS");
                FILE *to = file ? fopen(file, "a") : 0;
                if (to) fprintf(to, "threads %d stops %ld\n", seen, stops), fclose(to);
                return WIFEXITED(status) ? WEXITSTATUS(status) : 128 + WTERMSIG(status);
            }
            int event = status >> 16, signal = WSTOPSIG(status);
            if (event == PTRACE_EVENT_STOP && signal == SIGTRAP && threads[i].state == ASKED) {
                threads[i].state = HELD, held++, stops++;
                threads[i].until = now() + draw() % (1u << (10 + draw() % 12)); /* up to 1 us .. 2 ms */
            } else {
                ptrace(PTRACE_CONT, id, 0, event ? 0 : signal);
            }
        }
        if (id < 0 && errno == ECHILD) return 71;
        uint64_t t = now();
        for (int i = 0; i < count; i++)
            if (threads[i].state == HELD && threads[i].until <= t) {
                ptrace(PTRACE_CONT, threads[i].id, 0, 0);
                threads[i].state = RUNS, held--;
            }
        if (count > 1 && held < MOST_HELD && draw() % 4 == 0) {
            int i = (int)(draw() % (uint64_t)count);
            if (threads[i].state == RUNS && ptrace(PTRACE_INTERRUPT, threads[i].id, 0, 0) == 0)
                threads[i].state = ASKED;
        }
    }
}
