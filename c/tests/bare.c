/* Without a C library: memory from an array, and the text by one system call. */
#define LOCKRUN_NEVER_WAITS
#include "lockrun.h"

struct tried { size_t ok; void *at; };
static unsigned char room[1 << 22];
static size_t used;

void *memcpy(void *to, const void *from, size_t n)
{
    unsigned char *a = to;
    const unsigned char *b = from;
    while (n--)
        *a++ = *b++;
    return to;
}
void *memmove(void *to, const void *from, size_t n)
{
    unsigned char *a = to;
    const unsigned char *b = from;
    if (a < b)
        return memcpy(to, from, n);
    while (n--)
        a[n] = b[n];
    return to;
}
void *memset(void *to, int byte, size_t n)
{
    unsigned char *a = to;
    while (n--)
        *a++ = (unsigned char)byte;
    return to;
}
int memcmp(const void *one, const void *other, size_t n)
{
    const unsigned char *a = one, *b = other;
    for (; n--; a++, b++)
        if (*a != *b)
            return *a < *b ? -1 : 1;
    return 0;
}
struct tried rattle_alloc(size_t size, size_t align)
{
    struct tried tried = {0, 0};
    (void)align;
    size = (size + 15) & ~(size_t)15;
    if (size <= sizeof room - used) {
        tried.ok = 1;
        tried.at = room + used;
        used += size;
    }
    return tried;
}
struct tried rattle_realloc(void *at, size_t kept, size_t size, size_t align)
{
    struct tried tried = rattle_alloc(size, align);
    if (tried.ok)
        memcpy(tried.at, at, kept);
    return tried;
}
void rattle_dealloc(void *at) { (void)at; }

static long system_call(long n, long a, const void *b, long c)
{
    long r;
    __asm__ volatile("syscall" : "=a"(r) : "a"(n), "D"(a), "S"(b), "d"(c) : "rcx", "r11", "memory");
    return r;
}

static uint32_t whole(lockrun_thread_t *thread, uint32_t what, uint32_t which)
{
    static const lockrun_cell_t none = LOCKRUN_CELL_INIT;
    lockrun_told_t told = LOCKRUN_TOLD_INIT;
    uint32_t answer = lockrun_ask(thread, what, which, 0, &none, &told);
    while (answer == LOCKRUN_AGAIN)
        answer = lockrun_ask(thread, LOCKRUN_GO_ON, 0, 0, &none, &told);
    return answer;
}

void start(void)
{
    static const lockrun_thread_row_t thread = {"t", 4, 7};
    static const lockrun_lock_row_t lock = {"m", "k", LOCKRUN_MUTEX};
    static const lockrun_channel_row_t channel = {"c", 0, 0};
    static const lockrun_key_row_t key = {1, 0};
    static char text[1000];
    lockrun_floor_t floor = LOCKRUN_FLOOR_INIT;
    lockrun_thread_t t = LOCKRUN_THREAD_INIT;
    size_t written = 0;
    uint32_t wrong = lockrun_open(&floor, &thread, 1, &lock, 1, &channel, 1, &key, 1);
    wrong |= lockrun_next_thread(&floor, &t);
    wrong |= whole(&t, LOCKRUN_TAKE, 0) | whole(&t, LOCKRUN_WAKE_ALL, 0) | whole(&t, LOCKRUN_RELEASE, 0);
    wrong |= whole(&t, LOCKRUN_END, 0) | lockrun_gather(&floor, &t) | lockrun_close(&floor);
    wrong |= lockrun_print(&floor, text, sizeof text, &written);
    system_call(1, 1, text, (long)written);
    system_call(60, wrong != 0, 0, 0);
}
__asm__(".globl _start\n_start: xor %ebp,%ebp\nand $-16,%rsp\ncall start\n");
