/* Lets the threads of a program begin one after another, for try_sleep.py. It is loaded into the program by LD_PRELOAD:
 * the first thread that pthread_create starts begins EACH milliseconds late, the second twice as many, and so on. Until
 * then it sleeps. For Linux with glibc. */
#define _GNU_SOURCE
#include <dlfcn.h>
#include <errno.h>
#include <pthread.h>
#include <stdatomic.h>
#include <stdlib.h>
#include <time.h>

#define MOST 64

static struct late {
    void *(*body)(void *);
    void *argument;
    long milliseconds;
} lates[MOST];

static atomic_int starts;

static void *begin(void *given)
{
    struct late *late = given;
    struct timespec left = {late->milliseconds / 1000, late->milliseconds % 1000 * 1000000};
    while (nanosleep(&left, &left) && errno == EINTR) {}
    return late->body(late->argument);
}

int pthread_create(pthread_t *id, const pthread_attr_t *attributes, void *(*body)(void *), void *argument)
{
    int (*start)(pthread_t *, const pthread_attr_t *, void *(*)(void *), void *) = dlsym(RTLD_NEXT, "pthread_create");
    const char *each = getenv("EACH");
    int number = atomic_fetch_add(&starts, 1);
    if (!each || number >= MOST) return EAGAIN;
    lates[number] = (struct late){body, argument, (number + 1) * atol(each)};
    return start(id, attributes, begin, &lates[number]);
}
