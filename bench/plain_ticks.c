// `plain_ticks ticks < SCRIPT`: what `lockrun ticks` writes for a script without a fault, without a proof, written for
// speed: arrays and bit masks, and one write at the end. It is what `bench/race --command ticks` holds the proved
// program to. A source that is no script is answered with status 1 and no text: it judges no line by a code.
//
// What a script of ticks and its run are stands in docs/SCRIPT.md. Built by bench/race: -O3 -march=x86-64-v2.

#include <stdint.h>
#include <stdlib.h>
#include <string.h>
#include <unistd.h>

enum { SLEEPERS = 64, KEYS = 64, EVENTS = 20000, BYTES = 1048576, LINE = 200, NAME = 16 };

static char source[BYTES + 1];
// A line is under 60 bytes, and a wakeup's under 1,200; a sleep that times out has begun in a line of its own.
static char text[EVENTS * 160 + 64 * 1200 + 65536];
static char *at = text;

static void stop(int status) { _exit(status); }

// 1. The text

static void put_bytes(const char *s, size_t n) { memcpy(at, s, n); at += n; }
#define PUT(literal) put_bytes(literal, sizeof(literal) - 1)

static void put_number(uint64_t n) {
  char digits[20];
  int i = 20;
  do { digits[--i] = (char)('0' + n % 10); n /= 10; } while (n);
  put_bytes(digits + i, (size_t)(20 - i));
}

static void write_text(void) {
  for (char *from = text; from < at;) {
    ssize_t n = write(1, from, (size_t)(at - from));
    if (n <= 0) stop(3);
    from += n;
  }
  stop(0);
}

static void room(void) {
  if ((size_t)(at - text) > sizeof text - 2048) stop(4);
}

// 2. Words

typedef struct { const char *s; unsigned n; } Word;

static char names[SLEEPERS][NAME];
static unsigned lengths[SLEEPERS];
static int sleepers;

static int is_name_byte(char b) { return (b >= 'a' && b <= 'z') || (b >= '0' && b <= '9') || b == '_'; }

static void put_name(int t) { put_bytes(names[t], lengths[t]); }

static int find_name(Word w) {
  for (int t = 0; t < sleepers; t++) if (lengths[t] == w.n && !memcmp(names[t], w.s, w.n)) return t;
  return -1;
}

static int sleeper_of(Word w) {
  int t = find_name(w);
  if (t < 0) stop(1);
  return t;
}

static uint64_t number_of(Word w, uint64_t least, uint64_t most) {
  uint64_t n = 0;
  if (!w.n || w.n > 9 || (w.n > 1 && w.s[0] == '0')) stop(1);
  for (unsigned i = 0; i < w.n; i++) {
    if (w.s[i] < '0' || w.s[i] > '9') stop(1);
    n = 10 * n + (uint64_t)(w.s[i] - '0');
  }
  if (n < least || n > most) stop(1);
  return n;
}

static int is(Word w, const char *s) { return strlen(s) == w.n && !memcmp(w.s, s, w.n); }

// 3. The run

static uint64_t now, soonest = UINT64_MAX, arrivals;
static uint64_t due[SLEEPERS], arrived[SLEEPERS];
static uint64_t asleep, timed, may_end, posted, on_key[KEYS];
static uint8_t prio[SLEEPERS], key_of[SLEEPERS];

static void get_up(int t) {
  uint64_t bit = 1ull << t;
  asleep &= ~bit;
  timed &= ~bit;
  on_key[key_of[t]] &= ~bit;
}

static void lie_down(int t, unsigned key, uint64_t ticks, int sig) {
  uint64_t bit = 1ull << t;
  put_name(t);
  if (asleep & bit) { PUT(" asleep\n"); return; }
  if (sig && (posted & bit)) { posted &= ~bit; PUT(" interrupted\n"); return; }
  asleep |= bit;
  key_of[t] = (uint8_t)key;
  on_key[key] |= bit;
  arrived[t] = arrivals++;
  if (ticks) {
    timed |= bit;
    due[t] = now + ticks;
    if (due[t] < soonest) soonest = due[t];
  }
  may_end = sig ? may_end | bit : may_end & ~bit;
  PUT(" sleeps ");
  put_number(key);
  PUT("\n");
}

static void wake_one(unsigned key) {
  int best = -1;
  for (uint64_t left = on_key[key]; left; left &= left - 1) {
    int t = __builtin_ctzll(left);
    if (best < 0 || prio[t] < prio[best] || (prio[t] == prio[best] && arrived[t] < arrived[best])) best = t;
  }
  PUT("wakeone ");
  put_number(key);
  PUT(" ");
  if (best < 0) PUT("-"); else { get_up(best); put_name(best); }
  PUT("\n");
}

static void wake_all(unsigned key) {
  PUT("wakeup ");
  put_number(key);
  if (!on_key[key]) PUT(" -");
  for (uint64_t left = on_key[key]; left; left &= left - 1) {
    int t = __builtin_ctzll(left);
    PUT(" ");
    put_name(t);
    get_up(t);
  }
  PUT("\n");
}

static void post(int t) {
  uint64_t bit = 1ull << t;
  if (asleep & may_end & bit) {
    get_up(t);
    put_name(t);
    PUT(" interrupted\n");
  } else {
    posted |= bit;
    PUT("signal ");
    put_name(t);
    PUT("\n");
  }
}

static void pass(uint64_t ticks, uint64_t event) {
  int gone[SLEEPERS], n = 0;
  now += ticks;
  PUT("tick ");
  put_number(now);
  PUT("\n");
  if (soonest > now) return;
  soonest = UINT64_MAX;
  for (uint64_t left = timed; left; left &= left - 1) {
    int t = __builtin_ctzll(left), i = n;
    if (due[t] > now) { if (due[t] < soonest) soonest = due[t]; continue; }
    for (n++; i && (due[gone[i - 1]] > due[t] || (due[gone[i - 1]] == due[t] && arrived[gone[i - 1]] > arrived[t])); i--)
      gone[i] = gone[i - 1];
    gone[i] = t;
  }
  for (int i = 0; i < n; i++) {
    room();
    get_up(gone[i]);
    put_number(event);
    PUT(" ");
    put_name(gone[i]);
    PUT(" timedout ");
    put_number(due[gone[i]]);
    PUT("\n");
  }
}

// 4. Lines

static void declare(Word name, Word base) {
  if (sleepers == SLEEPERS || name.n - 1u >= NAME || name.s[0] < 'a' || name.s[0] > 'z' || find_name(name) >= 0) stop(1);
  for (unsigned i = 0; i < name.n; i++) if (!is_name_byte(name.s[i])) stop(1);
  prio[sleepers] = (uint8_t)number_of(base, 0, 255);
  memcpy(names[sleepers], name.s, name.n);
  lengths[sleepers++] = name.n;
}

int main(void) {
  size_t size = 0;
  for (ssize_t n; (n = read(0, source + size, sizeof source - size)) > 0;) size += (size_t)n;
  if (size > BYTES) stop(8);
  uint64_t event = 0;
  int header = 0, done = 0;
  for (char *s = source, *end = source + size; s < end;) {
    char *stop_at = memchr(s, '\n', (size_t)(end - s));
    if (!stop_at) stop_at = end;
    size_t length = (size_t)(stop_at - s);
    for (size_t i = 0; i < length; i++) if (s[i] < 32 || s[i] > 126) stop(1);
    Word w[4] = { { 0, 0 } };
    int n = 0;
    char *from = s;
    s = stop_at + 1;
    if (!header) {
      if (length != 7 || memcmp(from, "ticks 1", 7)) stop(1);
      header = 1;
      continue;
    }
    if (length > LINE) stop(1);
    if (!length || *from == '#') continue;
    for (char *p = from;; p++) {
      if (p < stop_at && *p != ' ') continue;
      if (n == 4 || p == from) stop(1);
      w[n++] = (Word){ from, (unsigned)(p - from) };
      from = p + 1;
      if (p == stop_at) break;
    }
    if (done) stop(1);
    if (n == 3 && is(w[0], "sleeper")) { if (event) stop(1); declare(w[1], w[2]); continue; }
    if (n == 1 && is(w[0], "done")) { done = 1; continue; }
    if (event == EVENTS) stop(1);
    room();
    put_number(event);
    PUT(" ");
    int sig = is(w[0], "sleepsig");
    if ((n == 3 || n == 4) && (sig || is(w[0], "sleep")))
      lie_down(sleeper_of(w[1]), (unsigned)number_of(w[2], 0, 63), n == 4 ? number_of(w[3], 1, 1000000) : 0, sig);
    else if (n == 2 && is(w[0], "wakeone")) wake_one((unsigned)number_of(w[1], 0, 63));
    else if (n == 2 && is(w[0], "wakeup")) wake_all((unsigned)number_of(w[1], 0, 63));
    else if (n == 2 && is(w[0], "signal")) post(sleeper_of(w[1]));
    else if (n == 2 && is(w[0], "tick")) pass(number_of(w[1], 1, 1000), event);
    else stop(1);
    event++;
  }
  if (!done) stop(1);
  for (int t = 0; t < sleepers; t++) if (asleep >> t & 1) {
    PUT("sleeping ");
    put_name(t);
    PUT(" ");
    put_number(key_of[t]);
    PUT("\n");
  }
  PUT("ok\n");
  write_text();
}
