// `plain_lockrun check|step|profile [--chains N] [--turns N] < SCRIPT`: what `lockrun` writes and answers under those commands,
// without a proof, written for speed: arrays and bit masks, the text made while the run goes on, and one write at the
// end. It is what `bench/race` holds the proved program to. Standard error gets nothing.
//
// What a script and a run are stands in docs/SCRIPT.md, section 4 of docs/DESIGN.md and crates/lock_state/specs/Run.antt.
// Built by bench/race: -O3 -march=x86-64-v2, no threads.

#include <stddef.h>
#include <stdint.h>
#include <stdlib.h>
#include <string.h>
#include <unistd.h>

enum { THREADS = 32, LOCKS = 64, CHANS = 64, CLASSES = 64, HELD = 8, TRIES = 8, OPERATIONS = 20000 };
enum { SCHEDULE = 100000, LINE = 200, NAME = 16, BYTES = 1048576, TURNS = 1000000, QUEUES = LOCKS + CHANS };

enum { DONE = 0, BAD_SCRIPT = 1, READ_FAULT = 2, WRITE_FAULT = 3, NO_MEMORY = 4, STUCK = 5, REVERSED = 6, TOO_LONG = 7,
       TOO_BIG = 8, USAGE = 64 };

typedef unsigned char byte;

// 1. The text

static byte *text, *at, *text_end;

static void stop(int status) { _exit(status); }

// Room for a line, whatever it says.
static inline void room(void) {
  if (__builtin_expect(text_end - at < 1024, 0)) {
    size_t used = (size_t)(at - text), size = 2 * (size_t)(text_end - text) + 65536;
    text = realloc(text, size);
    if (!text) stop(NO_MEMORY);
    at = text + used;
    text_end = text + size;
  }
}

// Up to 24 bytes, copied whole.
typedef struct { char s[24]; uint32_t n; } Piece;

static inline void put(const Piece *p) { memcpy(at, p->s, 24); at += p->n; }

#define PUT(literal) (memcpy(at, literal, sizeof(literal) - 1), at += sizeof(literal) - 1)

static char pairs[200];

static void make_pairs(void) {
  for (int i = 0; i < 100; i++) { pairs[2 * i] = (char)('0' + i / 10); pairs[2 * i + 1] = (char)('0' + i % 10); }
}

static inline void put_number(uint64_t n) {
  char digits[20];
  int i = 20;
  while (n >= 100) { i -= 2; memcpy(digits + i, pairs + 2 * (n % 100), 2); n /= 100; }
  if (n >= 10) { i -= 2; memcpy(digits + i, pairs + 2 * n, 2); } else digits[--i] = (char)('0' + n);
  memcpy(at, digits + i, (size_t)(20 - i));
  at += 20 - i;
}

static void write_text(int status) {
  for (byte *from = text; from < at;) {
    ssize_t n = write(1, from, (size_t)(at - from));
    if (n <= 0) stop(WRITE_FAULT);
    from += n;
  }
  stop(status);
}

// 2. Names

enum { OF_LOCK, OF_CHAN, OF_THREAD };

// A name's bytes as two words, with 0 behind them.
typedef struct { uint64_t low, high; } Name;

typedef struct { Name name; byte sort, number; } Declared;

static Declared names[LOCKS + CHANS + THREADS];
static int name_count;
static byte slots[512];

static Name classes[CLASSES];
static int class_count;

static byte is_name_byte[256];
static uint64_t low_bytes[9];

static void make_bytes(void) {
  for (int b = 'a'; b <= 'z'; b++) is_name_byte[b] = 1;
  for (int b = '0'; b <= '9'; b++) is_name_byte[b] = 1;
  is_name_byte['_'] = 1;
  for (int i = 0; i <= 8; i++) low_bytes[i] = i == 8 ? ~0ull : (1ull << (8 * i)) - 1;
}

typedef struct { const byte *s; unsigned n; } Word;

// There are 16 bytes more behind the source's last one.
static inline int name_of(Word w, Name *name) {
  if (w.n - 1u >= NAME || (byte)(w.s[0] - 'a') > 25) return 0;
  for (unsigned i = 1; i < w.n; i++) if (!is_name_byte[w.s[i]]) return 0;
  uint64_t a, b;
  memcpy(&a, w.s, 8);
  memcpy(&b, w.s + 8, 8);
  name->low = a & low_bytes[w.n < 8 ? w.n : 8];
  name->high = w.n > 8 ? b & low_bytes[w.n - 8] : 0;
  return 1;
}

static inline unsigned slot_of(Name n) {
  return (unsigned)(((n.low ^ n.high * 0x9e3779b97f4a7c15ull) * 0xd6e8feb86659fd93ull) >> 55);
}

static inline const Declared *declared(Name n) {
  for (unsigned i = slot_of(n); slots[i]; i = (i + 1) & 511) {
    const Declared *d = &names[slots[i] - 1];
    if (d->name.low == n.low && d->name.high == n.high) return d;
  }
  return 0;
}

static void declare(Name n, int sort, int number) {
  unsigned i = slot_of(n);
  while (slots[i]) i = (i + 1) & 511;
  names[name_count].name = n;
  names[name_count].sort = (byte)sort;
  names[name_count++].number = (byte)number;
  slots[i] = (byte)name_count;
}

static int class_of(Name n) {
  int i = 0;
  while (i < class_count && (classes[i].low != n.low || classes[i].high != n.high)) i++;
  return i;
}

static Piece piece_of(Name n) {
  Piece p = {{' '}, 0};
  memcpy(p.s + 1, &n, 16);
  p.n = 1 + (uint32_t)strlen(p.s + 1);
  return p;
}

// 3. The plan

enum { MTX, RW, SX };
enum { EXCL, SHARED };

typedef struct { byte kind, class; Piece name; } Lock;
typedef struct { byte cond, lock; Piece name; } Chan;

enum { TAKE, TRY, RELEASE, SET, ADD, GET, PRIO, SHOW, SLEEP, WAKE_ONE, WAKE_ALL };

// An endtry is none of them: it takes no turn. A cell is a lock and a key.
typedef struct { byte kind, of, mode; uint32_t cell_or_past; uint64_t value; } Op;

typedef struct { Piece name; byte base; uint32_t from, to; } Thread;

static Lock locks[LOCKS];
static Chan chans[CHANS];
static Thread threads[THREADS];
static Op ops[OPERATIONS];
static byte schedule[SCHEDULE];
static int lock_count, chan_count, thread_count, op_count, operations, scheduled;

// Cells, found by lock and key while the script is read.
typedef struct { uint64_t key, value; byte lock, is_there; } Cell;

static Cell cells[OPERATIONS];
static uint32_t cell_count;
static uint16_t cell_slots[32768];

static uint32_t cell_of(unsigned lock, uint64_t key) {
  uint64_t h = (key ^ (uint64_t)lock << 56) * 0x9e3779b97f4a7c15ull;
  unsigned i = (unsigned)((h ^ h >> 29) * 0xd6e8feb86659fd93ull >> 49);
  for (; cell_slots[i]; i = (i + 1) & 32767) {
    uint32_t c = cell_slots[i] - 1u;
    if (cells[c].key == key && cells[c].lock == lock) return c;
  }
  cells[cell_count].key = key;
  cells[cell_count].lock = (byte)lock;
  cell_slots[i] = (uint16_t)++cell_count;
  return cell_count - 1;
}

// 4. Reading. A line's fault is its code, and 0 is none.

typedef struct { byte l, mode, by_try; } Gained;
typedef struct { int op; byte count; Gained before[HELD]; } Block;

static int in_thread, is_done;
static Gained held[HELD];
static int held_count, block_count;
static Block blocks[TRIES];

static inline int number_of(Word w, uint64_t *number) {
  if (w.n - 1u >= 20 || (w.s[0] == '0' && w.n > 1)) return 0;
  uint64_t n = 0;
  unsigned i = 0, sure = w.n < 19 ? w.n : 19;
  for (; i < sure; i++) {
    unsigned d = w.s[i] - (unsigned)'0';
    if (d > 9) return 0;
    n = 10 * n + d;
  }
  if (i < w.n) {
    unsigned d = w.s[i] - (unsigned)'0';
    if (d > 9 || __builtin_mul_overflow(n, 10, &n) || __builtin_add_overflow(n, d, &n)) return 0;
  }
  *number = n;
  return 1;
}

static inline int prio_of(Word w, uint64_t *prio) { return number_of(w, prio) && *prio <= 255; }

enum { NOTHING = 255 };

// The number behind a name of that sort, or a fault.
static inline int named(Word w, int sort, unsigned *number) {
  Name n;
  if (!name_of(w, &n)) return 3;
  const Declared *d = declared(n);
  if (!d || d->sort != sort) return 5;
  *number = d->number;
  return 0;
}

static inline int place_held(unsigned l) {
  for (int i = 0; i < held_count; i++) if (held[i].l == l) return i;
  return -1;
}

static inline int are_sx_beside(unsigned l) {
  for (int i = 0; i < held_count; i++) if (held[i].l != l && locks[held[i].l].kind != SX) return 0;
  return 1;
}

static inline int add_op(int kind, unsigned of, int mode, uint32_t cell, uint64_t value) {
  ops[op_count++] = (Op){(byte)kind, (byte)of, (byte)mode, cell, value};
  operations++;
  return 0;
}

static int gain(int kind, int mode, int by_try, Word lock) {
  unsigned l;
  int fault = named(lock, OF_LOCK, &l);
  if (fault) return fault;
  if (operations >= OPERATIONS || held_count >= HELD || (by_try && block_count >= TRIES)) return 7;
  if (locks[l].kind != kind) return 8;
  if (place_held(l) >= 0) return 9;
  if (kind == SX && !are_sx_beside(NOTHING)) return 12;
  if (by_try) {
    Block *b = &blocks[block_count++];
    b->op = op_count;
    b->count = (byte)held_count;
    memcpy(b->before, held, sizeof held);
  }
  held[held_count++] = (Gained){(byte)l, (byte)mode, (byte)by_try};
  return add_op(by_try ? TRY : TAKE, l, mode, 0, 0);
}

static int release(int kind, int mode, Word lock) {
  unsigned l;
  int fault = named(lock, OF_LOCK, &l);
  if (fault) return fault;
  if (operations >= OPERATIONS) return 7;
  if (locks[l].kind != kind) return 8;
  int place = place_held(l);
  if (place >= 0 && held[place].mode != mode) return 10;
  if (place < 0) return 11;
  held_count--;
  for (int i = place; i < held_count; i++) held[i] = held[i + 1];
  return add_op(RELEASE, l, mode, 0, 0);
}

static int edit(int kind, const Word *words) {
  unsigned l;
  uint64_t key, value;
  int fault = named(words[1], OF_LOCK, &l);
  if (fault) return fault;
  if (!number_of(words[2], &key) || !number_of(words[3], &value)) return 6;
  if (operations >= OPERATIONS) return 7;
  int place = place_held(l);
  if (place < 0) return 11;
  if (held[place].mode != EXCL) return 20;
  return add_op(kind, l, 0, cell_of(l, key), value);
}

static int get(const Word *words) {
  unsigned l;
  uint64_t key;
  int fault = named(words[1], OF_LOCK, &l);
  if (fault) return fault;
  if (!number_of(words[2], &key)) return 6;
  if (operations >= OPERATIONS) return 7;
  if (place_held(l) < 0) return 11;
  return add_op(GET, l, 0, cell_of(l, key), 0);
}

static int prio(Word w) {
  uint64_t p;
  if (!prio_of(w, &p)) return 6;
  if (operations >= OPERATIONS) return 7;
  return add_op(PRIO, 0, 0, 0, p);
}

static int show(void) { return operations >= OPERATIONS ? 7 : add_op(SHOW, 0, 0, 0, 0); }

static int on_chan(int kind, int cond, Word chan) {
  unsigned c;
  int fault = named(chan, OF_CHAN, &c), mode = EXCL;
  if (fault) return fault;
  if (operations >= OPERATIONS) return 7;
  if (chans[c].cond != cond) return 8;
  if (kind == SLEEP) {
    unsigned l = chans[c].lock;
    int place = place_held(l);
    if (place < 0) return 11;
    if (!are_sx_beside(l)) return 12;
    if (place != held_count - 1 || held[place].by_try) return 13;
    mode = held[place].mode;
  }
  return add_op(kind, c, mode, 0, 0);
}

static int end_try(void) {
  if (!in_thread || !block_count) return 15;
  if (operations >= OPERATIONS) return 7;
  Block *b = &blocks[block_count - 1];
  if (held_count != b->count || memcmp(held, b->before, (size_t)held_count * sizeof *held)) return 14;
  ops[b->op].cell_or_past = (uint32_t)op_count;
  block_count--;
  operations++;
  return 0;
}

static int lock(int kind, Word name, Word class) {
  if (in_thread || thread_count) return 16;
  Name n, c;
  if (!name_of(name, &n) || !name_of(class, &c)) return 3;
  if (declared(n)) return 4;
  int k = class_of(c);
  if (lock_count >= LOCKS || k >= CLASSES) return 7;
  if (k == class_count) classes[class_count++] = c;
  declare(n, OF_LOCK, lock_count);
  locks[lock_count++] = (Lock){(byte)kind, (byte)k, piece_of(n)};
  return 0;
}

static int chan(int cond, Word name, Word lock) {
  if (in_thread || thread_count) return 16;
  Name n, m;
  if (!name_of(name, &n) || !name_of(lock, &m)) return 3;
  if (declared(n)) return 4;
  const Declared *d = declared(m);
  if (!d || d->sort != OF_LOCK) return 5;
  if (chan_count >= CHANS) return 7;
  declare(n, OF_CHAN, chan_count);
  chans[chan_count++] = (Chan){(byte)cond, d->number, piece_of(n)};
  return 0;
}

static int thread(Word name, Word base) {
  if (in_thread) return 17;
  Name n;
  uint64_t p;
  if (!name_of(name, &n)) return 3;
  if (declared(n)) return 4;
  if (!prio_of(base, &p)) return 6;
  if (thread_count >= THREADS) return 7;
  declare(n, OF_THREAD, thread_count);
  threads[thread_count].name = piece_of(n);
  threads[thread_count].base = (byte)p;
  threads[thread_count].from = (uint32_t)op_count;
  in_thread = 1;
  held_count = block_count = 0;
  return 0;
}

static int end(void) {
  if (!in_thread) return 15;
  if (block_count) return 17;
  if (held_count) return 14;
  threads[thread_count++].to = (uint32_t)op_count;
  in_thread = 0;
  return 0;
}

// The names up to the line's end. Behind a fault nothing is read, so what was noted before it doesn't matter.
static int schedule_line(const byte *s, const byte *line_end) {
  if (in_thread) return 17;
  int fault = 0;
  for (;;) {
    const byte *from = s;
    while (s < line_end && *s != ' ') s++;
    unsigned t = 0;
    int why = named((Word){from, (unsigned)(s - from)}, OF_THREAD, &t);
    if (!why && scheduled >= SCHEDULE) why = 7;
    if (why && (!fault || why < fault)) fault = why;
    if (!fault) schedule[scheduled++] = (byte)t;
    else if (scheduled < SCHEDULE) scheduled++;
    if (s == line_end) return fault;
    s++;
  }
}

static inline int is(Word w, const char *s, unsigned n) { return w.n == n && !memcmp(w.s, s, n); }

#define IS(literal) is(words[0], literal, sizeof(literal) - 1)
#define NEED(n) if (count != (n)) return 2
#define IN_THREAD if (!in_thread) return 15

// What a line says: up to four of its words, how many there are, and whether one is empty.
static int statement(const Word *words, unsigned count, const byte *line_end) {
  switch (words[0].s[0]) {
    case 'a': if (IS("add")) { NEED(4); IN_THREAD; return edit(ADD, words); } return 2;
    case 'b': if (IS("broadcast")) { NEED(2); IN_THREAD; return on_chan(WAKE_ALL, 1, words[1]); } return 2;
    case 'c':
      if (IS("cond")) { NEED(3); return chan(1, words[1], words[2]); }
      if (IS("chan")) { NEED(3); return chan(0, words[1], words[2]); }
      return 2;
    case 'd':
      if (IS("done")) { NEED(1); if (in_thread) return 17; is_done = 1; return 0; }
      return 2;
    case 'e':
      if (IS("end")) { NEED(1); return end(); }
      if (IS("endtry")) { NEED(1); return end_try(); }
      return 2;
    case 'g': if (IS("get")) { NEED(3); IN_THREAD; return get(words); } return 2;
    case 'l': if (IS("lock")) { NEED(2); IN_THREAD; return gain(MTX, EXCL, 0, words[1]); } return 2;
    case 'm':
      if (IS("mutex")) { NEED(3); return lock(MTX, words[1], words[2]); }
      if (IS("msleep")) { NEED(2); IN_THREAD; return on_chan(SLEEP, 0, words[1]); }
      return 2;
    case 'p': if (IS("prio")) { NEED(2); IN_THREAD; return prio(words[1]); } return 2;
    case 'r':
      if (IS("rlock")) { NEED(2); IN_THREAD; return gain(RW, SHARED, 0, words[1]); }
      if (IS("runlock")) { NEED(2); IN_THREAD; return release(RW, SHARED, words[1]); }
      if (IS("rw")) { NEED(3); return lock(RW, words[1], words[2]); }
      return 2;
    case 's':
      if (IS("set")) { NEED(4); IN_THREAD; return edit(SET, words); }
      if (IS("schedule")) { if (count < 2) return 2; return schedule_line(words[1].s, line_end); }
      if (IS("slock")) { NEED(2); IN_THREAD; return gain(SX, SHARED, 0, words[1]); }
      if (IS("sunlock")) { NEED(2); IN_THREAD; return release(SX, SHARED, words[1]); }
      if (IS("show")) { NEED(1); IN_THREAD; return show(); }
      if (IS("signal")) { NEED(2); IN_THREAD; return on_chan(WAKE_ONE, 1, words[1]); }
      if (IS("sx")) { NEED(3); return lock(SX, words[1], words[2]); }
      return 2;
    case 't':
      if (IS("thread")) { NEED(3); return thread(words[1], words[2]); }
      if (IS("trylock")) { NEED(2); IN_THREAD; return gain(MTX, EXCL, 1, words[1]); }
      if (IS("tryrlock")) { NEED(2); IN_THREAD; return gain(RW, SHARED, 1, words[1]); }
      if (IS("trywlock")) { NEED(2); IN_THREAD; return gain(RW, EXCL, 1, words[1]); }
      if (IS("tryslock")) { NEED(2); IN_THREAD; return gain(SX, SHARED, 1, words[1]); }
      if (IS("tryxlock")) { NEED(2); IN_THREAD; return gain(SX, EXCL, 1, words[1]); }
      return 2;
    case 'u': if (IS("unlock")) { NEED(2); IN_THREAD; return release(MTX, EXCL, words[1]); } return 2;
    case 'w':
      if (IS("wlock")) { NEED(2); IN_THREAD; return gain(RW, EXCL, 0, words[1]); }
      if (IS("wunlock")) { NEED(2); IN_THREAD; return release(RW, EXCL, words[1]); }
      if (IS("wait")) { NEED(2); IN_THREAD; return on_chan(SLEEP, 1, words[1]); }
      if (IS("wakeup")) { NEED(2); IN_THREAD; return on_chan(WAKE_ALL, 0, words[1]); }
      if (IS("wakeup_one")) { NEED(2); IN_THREAD; return on_chan(WAKE_ONE, 0, words[1]); }
      return 2;
    case 'x':
      if (IS("xlock")) { NEED(2); IN_THREAD; return gain(SX, EXCL, 0, words[1]); }
      if (IS("xunlock")) { NEED(2); IN_THREAD; return release(SX, EXCL, words[1]); }
      return 2;
    default: return 2;
  }
}

static void bad_line(uint64_t number, int code) {
  room();
  PUT("line ");
  put_number(number);
  PUT(" code ");
  put_number((uint64_t)code);
  PUT("\n");
  write_text(BAD_SCRIPT);
}

// Reads the source, which has a line end behind its last byte.
static void read_script(const byte *s, const byte *end_of_source) {
  if (end_of_source - s < 9 || memcmp(s, "lockrun 1", 9) || s[9] != '\n') bad_line(1, 1);
  s += 10;
  uint64_t number = 2;
  for (; s < end_of_source; number++) {
    // One walk cuts the line into words and judges its bytes.
    const byte *line = s, *from = s;
    Word words[4];
    unsigned count = 0;
    int has_empty = 0;
    for (;; s++) {
      unsigned b = *s;
      if (b > ' ' && b <= '~') continue;
      if (b == ' ') {
        if (count < 4) words[count] = (Word){from, (unsigned)(s - from)};
        count++;
        has_empty |= s == from;
        from = s + 1;
        continue;
      }
      break;
    }
    if (*s != '\n') {
      while (*s != '\n') s++;
      bad_line(number, s - line > LINE ? 18 : 19);
    }
    if (s - line > LINE) bad_line(number, 18);
    if (s == line || *line == '#') { s++; continue; }
    if (count < 4) words[count] = (Word){from, (unsigned)(s - from)};
    count++;
    has_empty |= s == from;
    int fault = is_done || has_empty ? 2 : statement(words, count, s);
    if (fault) bad_line(number, fault);
    s++;
  }
  if (!is_done) bad_line(number, 17);
}

// 5. The run

enum { RUNNING, QUEUED, WOKEN };
enum { NO_WALK, AT_LOCK, AT_THREAD };
enum { NONE = 255, NO_LOAN = 256 };

typedef struct { byte thread, kept; } Waiter;

// The first of the free list is its last item here.
typedef struct { byte head, owner, free_count, counts[2]; byte free[THREADS]; Waiter lists[2][THREADS]; } Queue;

typedef struct { byte thread, object, is_turnstile; } Mark;

static Queue queues[QUEUES];
static uint32_t words[LOCKS];

static uint32_t next_op[THREADS];
static byte base[THREADS], effective[THREADS], wait_word[THREADS], walk[THREADS], walk_to[THREADS];
static byte turnstile[THREADS], sleep_queue[THREADS], blocked_on[THREADS], is_wanted[THREADS], is_cut[THREADS];
static byte owed[THREADS], sleeps_on[THREADS], mark_first[THREADS], mark_count[THREADS];
static uint16_t loans[THREADS][LOCKS];
static uint64_t loan_locks[THREADS], reaches[CLASSES];
static Mark marks[THREADS][THREADS];
static Gained gained[THREADS][HELD + 1];
static byte gained_count[THREADS];
static uint32_t alive, active;
static uint64_t ticket;
static int has_reversal;

static void make_run(void) {
  for (int q = 0; q < QUEUES; q++) queues[q].head = queues[q].owner = NONE;
  for (int t = 0; t < thread_count; t++) {
    base[t] = effective[t] = threads[t].base;
    turnstile[t] = sleep_queue[t] = (byte)t;
    blocked_on[t] = owed[t] = sleeps_on[t] = NONE;
    next_op[t] = threads[t].from;
    if (threads[t].from < threads[t].to) alive |= 1u << t;
  }
  active = alive;
}

static inline void compute_effective(int t) {
  unsigned e = base[t];
  for (uint64_t ls = loan_locks[t]; ls; ls &= ls - 1) {
    unsigned p = loans[t][__builtin_ctzll(ls)];
    if (p < e) e = p;
  }
  effective[t] = (byte)e;
}

static inline void lend(int o, unsigned l) {
  const Queue *q = &queues[l];
  unsigned p = NO_LOAN;
  // a turnstile's lists ascend
  for (int side = 0; side < 2; side++) if (q->counts[side] && q->lists[side][0].kept < p) p = q->lists[side][0].kept;
  if (p == NO_LOAN) loan_locks[o] &= ~(1ull << l);
  else { loans[o][l] = (uint16_t)p; loan_locks[o] |= 1ull << l; }
  compute_effective(o);
}

static inline void insert(Queue *q, int side, int t, unsigned kept) {
  Waiter *w = q->lists[side];
  int i = q->counts[side]++;
  for (; i > 0 && w[i - 1].kept > kept; i--) w[i] = w[i - 1];
  w[i] = (Waiter){(byte)t, (byte)kept};
}

static inline int place_on(const Queue *q, int side, int t) {
  for (int i = 0; i < q->counts[side]; i++) if (q->lists[side][i].thread == t) return i;
  return -1;
}

static inline void remove_at(Queue *q, int side, int place) {
  q->counts[side]--;
  for (int i = place; i < q->counts[side]; i++) q->lists[side][i] = q->lists[side][i + 1];
}

static inline void lend_object(Queue *q, byte object) {
  if (q->head == NONE) q->head = object; else q->free[q->free_count++] = object;
}

static inline void mark(int t, Queue *q, int thread, int is_turnstile) {
  byte object = q->free_count ? q->free[--q->free_count] : q->head;
  if (object == q->head) q->head = NONE;
  marks[t][mark_count[t]++] = (Mark){(byte)thread, object, (byte)is_turnstile};
}

// The entry's front: its ticket and the thread.
static inline void begin_entry(int t) {
  room();
  put_number(ticket++);
  put(&threads[t].name);
}

static const Piece take_words[3][2] = {
  {{" lock", 5}, {" lock", 5}}, {{" wlock", 6}, {" rlock", 6}}, {{" xlock", 6}, {" slock", 6}}};
static const Piece release_words[3][2] = {
  {{" unlock", 7}, {" unlock", 7}}, {{" wunlock", 8}, {" runlock", 8}}, {{" xunlock", 8}, {" sunlock", 8}}};
static const Piece try_words[3][2] = {
  {{" trylock", 8}, {" trylock", 8}}, {{" trywlock", 9}, {" tryrlock", 9}}, {{" tryxlock", 9}, {" tryslock", 9}}};
static const Piece sleep_words[2] = {{" msleep", 7}, {" wait", 5}};
static const Piece wake_words[2][2] = {{{" wakeup_one", 11}, {" signal", 7}}, {{" wakeup", 7}, {" broadcast", 10}}};
static const Piece woke_word = {" woke", 5}, set_word = {" set", 4}, add_word = {" add", 4}, get_word = {" get", 4};
static const Piece busy_word = {" busy", 5}, reversed_word = {" reversed", 9};

static inline void entry(int t, const Piece *word, const Piece *of) {
  begin_entry(t);
  put(word);
  put(of);
}

static inline void end_entry(void) { *at++ = '\n'; }

// What a profile counts of a lock, and which locks a thread has from its last entries on: under `profile` alone. The
// entry that begins or ends a hold is made right before.
typedef struct { uint32_t holds, longest, together, busy, waits, open; uint64_t total, since[THREADS]; } Count;

static Count counts[LOCKS];
static uint32_t pair_counts[CLASSES][CLASSES];
static byte open_locks[THREADS][HELD + 1], open_count[THREADS];
static int profiles;

static void begin_hold(int t, unsigned l) {
  Count *c = &counts[l];
  for (int i = 0; i < open_count[t]; i++) pair_counts[locks[open_locks[t][i]].class][locks[l].class]++;
  open_locks[t][open_count[t]++] = (byte)l;
  c->since[t] = ticket - 1;
  c->holds++;
  if (++c->open > c->together) c->together = c->open;
}

static void add_length(int t, unsigned l, uint64_t end) {
  Count *c = &counts[l];
  uint64_t length = end - c->since[t];
  c->total += length;
  if (length > c->longest) c->longest = (uint32_t)length;
}

static void end_hold(int t, unsigned l) {
  int place = 0;
  while (open_locks[t][place] != l) place++;
  open_count[t]--;
  for (int i = place; i < open_count[t]; i++) open_locks[t][i] = open_locks[t][i + 1];
  counts[l].open--;
  add_length(t, l, ticket - 1);
}

static inline int admits(int kind, uint32_t w, int mode) {
  if (mode == EXCL) return w < 4;
  return !(w & 4) && (kind == SX || w < 4 || !(w & 1));
}

static inline void gains(int t, unsigned l, int mode, int by_try) {
  uint32_t w = words[l];
  words[l] = mode == EXCL ? (w & 3) | 4 | (uint32_t)t << 3 : w + 8;
  gained[t][gained_count[t]++] = (Gained){(byte)l, (byte)mode, (byte)by_try};
  is_wanted[t] = 0;
  if (mode == EXCL && (w & 3) && locks[l].kind != SX) {
    queues[l].owner = (byte)t;
    lend(t, l);
  }
}

static inline void block(int t, unsigned l, int mode) {
  Queue *q = &queues[l];
  uint32_t w = words[l];
  words[l] = w | (mode == EXCL ? 1 : 2);
  wait_word[t] = QUEUED;
  blocked_on[t] = (byte)l;
  is_wanted[t] = 1;
  if (locks[l].kind == SX) {
    q->lists[mode][q->counts[mode]++] = (Waiter){(byte)t, base[t]};
    lend_object(q, sleep_queue[t]);
    sleep_queue[t] = NONE;
  } else {
    if (q->head == NONE) q->owner = w & 4 ? (byte)(w >> 3) : NONE;
    insert(q, mode, t, effective[t]);
    lend_object(q, turnstile[t]);
    turnstile[t] = NONE;
    if (w & 4) { walk[t] = AT_LOCK; walk_to[t] = (byte)l; }
  }
}

static inline void give_back(int t, unsigned l) {
  int place = 0;
  while (gained[t][place].l != l) place++;
  gained_count[t]--;
  for (int i = place; i < gained_count[t]; i++) gained[t][i] = gained[t][i + 1];
  uint32_t w = words[l], left = w & 4 ? 0 : (w >> 3) - 1;
  if (left || !(w & 3)) { words[l] = (w & 3) | left << 3; return; }
  int kind = locks[l].kind, side;
  if (kind == MTX) side = EXCL;
  else if (kind == RW || !(w & 4)) side = w & 1 ? EXCL : SHARED;
  else side = w & 2 ? SHARED : EXCL;
  words[l] = (w & 3) & ~(side == EXCL ? 1u : 2u);
  Queue *q = &queues[l];
  for (int i = 0; i < q->counts[side]; i++) mark(t, q, q->lists[side][i].thread, kind != SX);
  q->counts[side] = 0;
  if (kind != SX) {
    q->owner = NONE;
    if (loan_locks[t] >> l & 1) { loan_locks[t] &= ~(1ull << l); compute_effective(t); }
  }
}

// The first held class, in order of acquisition, under which a lock's may not be taken; else it is learnt.
static inline int forbids(int t, int class) {
  uint64_t bad = reaches[class] | 1ull << class, all = 0;
  for (int i = 0; i < gained_count[t]; i++) all |= 1ull << locks[gained[t][i].l].class;
  if (all & bad) {
    for (int i = 0;; i++) if (bad >> locks[gained[t][i].l].class & 1) return locks[gained[t][i].l].class;
  }
  for (; all; all &= all - 1) {
    int from = __builtin_ctzll(all);
    if (reaches[from] >> class & 1) continue;
    uint64_t more = reaches[class] | 1ull << class;
    for (int k = 0; k < class_count; k++) if (k == from || reaches[k] >> from & 1) reaches[k] |= more;
  }
  return NONE;
}

static Piece class_names[CLASSES];

static void take(int t, const Op *op) {
  unsigned l = op->of;
  if (!is_wanted[t]) {
    int k = forbids(t, locks[l].class);
    if (k != NONE) {
      entry(t, &reversed_word, &locks[l].name);
      put(&class_names[k]);
      end_entry();
      is_cut[t] = 1;
      has_reversal = 1;
      return;
    }
  }
  if (!admits(locks[l].kind, words[l], op->mode)) { block(t, l, op->mode); return; }
  gains(t, l, op->mode, 0);
  entry(t, &take_words[locks[l].kind][op->mode], &locks[l].name);
  end_entry();
  if (profiles) begin_hold(t, l);
  next_op[t]++;
}

static void try(int t, const Op *op) {
  unsigned l = op->of;
  if (admits(locks[l].kind, words[l], op->mode)) {
    gains(t, l, op->mode, 1);
    entry(t, &try_words[locks[l].kind][op->mode], &locks[l].name);
    if (profiles) begin_hold(t, l);
    next_op[t]++;
  } else {
    entry(t, &busy_word, &locks[l].name);
    *at++ = ' ';
    put_number(words[l]);
    counts[l].busy++;
    next_op[t] = op->cell_or_past;
  }
  end_entry();
}

static void unlock(int t, unsigned l, int mode) {
  entry(t, &release_words[locks[l].kind][mode], &locks[l].name);
  end_entry();
  if (profiles) end_hold(t, l);
  give_back(t, l);
}

static void table(int t, const Op *op) {
  Cell *c = &cells[op->cell_or_past];
  const Piece *name = &locks[op->of].name;
  if (op->kind == SET) { entry(t, &set_word, name); c->value = op->value; c->is_there = 1; }
  else if (op->kind == ADD) { entry(t, &add_word, name); c->value += op->value; c->is_there = 1; }
  else entry(t, &get_word, name);
  *at++ = ' ';
  put_number(c->key);
  *at++ = ' ';
  if (op->kind != GET) put_number(op->value);
  else if (c->is_there) put_number(c->value);
  else *at++ = '-';
  end_entry();
  next_op[t]++;
}

static void go_to_sleep(int t, const Op *op) {
  unsigned c = op->of;
  Queue *q = &queues[LOCKS + c];
  entry(t, &sleep_words[chans[c].cond], &chans[c].name);
  end_entry();
  if (profiles) end_hold(t, chans[c].lock);
  counts[chans[c].lock].waits++;
  wait_word[t] = QUEUED;
  blocked_on[t] = (byte)(LOCKS + c);
  sleeps_on[t] = (byte)c;
  owed[t] = chans[c].lock;
  q->lists[EXCL][q->counts[EXCL]++] = (Waiter){(byte)t, base[t]};
  lend_object(q, sleep_queue[t]);
  sleep_queue[t] = NONE;
}

static void sleep_op(int t, const Op *op) {
  unsigned c = op->of, l = chans[c].lock;
  if (sleeps_on[t] == NONE) { go_to_sleep(t, op); return; }
  if (!admits(locks[l].kind, words[l], op->mode)) { block(t, l, op->mode); return; }
  gains(t, l, op->mode, 0);
  entry(t, &woke_word, &chans[c].name);
  end_entry();
  if (profiles) begin_hold(t, l);
  sleeps_on[t] = NONE;
  next_op[t]++;
}

static void wake(int t, const Op *op) {
  unsigned c = op->of;
  Queue *q = &queues[LOCKS + c];
  uint32_t woken = 0;
  int n = q->counts[EXCL];
  if (op->kind == WAKE_ALL) {
    for (int i = 0; i < n; i++) {
      woken |= 1u << q->lists[EXCL][i].thread;
      mark(t, q, q->lists[EXCL][i].thread, 0);
    }
    q->counts[EXCL] = 0;
  } else if (n) {
    int best = 0;
    for (int i = 1; i < n; i++) if (q->lists[EXCL][i].kept < q->lists[EXCL][best].kept) best = i;
    woken = 1u << q->lists[EXCL][best].thread;
    mark(t, q, q->lists[EXCL][best].thread, 0);
    remove_at(q, EXCL, best);
  }
  entry(t, &wake_words[op->kind == WAKE_ALL][chans[c].cond], &chans[c].name);
  if (!woken) PUT(" -");
  for (; woken; woken &= woken - 1) put(&threads[__builtin_ctz(woken)].name);
  end_entry();
  next_op[t]++;
}

static void operate(int t) {
  const Op *op = &ops[next_op[t]];
  switch (op->kind) {
    case TAKE: take(t, op); return;
    case TRY: try(t, op); return;
    case RELEASE: unlock(t, op->of, op->mode); next_op[t]++; return;
    case SET: case ADD: case GET: table(t, op); return;
    case PRIO:
      base[t] = (byte)op->value;
      compute_effective(t);
      begin_entry(t);
      PUT(" prio ");
      put_number(op->value);
      end_entry();
      next_op[t]++;
      return;
    case SHOW:
      begin_entry(t);
      PUT(" show ");
      put_number(base[t]);
      *at++ = ' ';
      put_number(effective[t]);
      end_entry();
      next_op[t]++;
      return;
    case SLEEP: sleep_op(t, op); return;
    default: wake(t, op); return;
  }
}

static void walk_at_lock(int t, unsigned l) {
  uint32_t w = words[l];
  walk[t] = NO_WALK;
  if (!(w & 4) || queues[l].head == NONE) return;
  int o = (int)(w >> 3);
  byte before = effective[o];
  lend(o, l);
  if (effective[o] != before && blocked_on[o] < LOCKS && locks[blocked_on[o]].kind != SX) {
    walk[t] = AT_THREAD;
    walk_to[t] = (byte)o;
  }
}

static void walk_at_thread(int t, int o) {
  unsigned l = blocked_on[o];
  walk[t] = NO_WALK;
  if (l >= LOCKS || locks[l].kind == SX) return;
  Queue *q = &queues[l];
  int side = EXCL, place = place_on(q, EXCL, o);
  if (place < 0) place = place_on(q, side = SHARED, o);
  if (place < 0) return;
  remove_at(q, side, place);
  insert(q, side, o, effective[o]);
  if (q->owner != NONE) { walk[t] = AT_LOCK; walk_to[t] = (byte)l; }
}

// A turn of a thread that hasn't ended and isn't idle.
static void turn(int t) {
  if (walk[t] == AT_LOCK) walk_at_lock(t, walk_to[t]);
  else if (walk[t] == AT_THREAD) walk_at_thread(t, walk_to[t]);
  else if (mark_first[t] < mark_count[t]) {
    Mark m = marks[t][mark_first[t]++];
    if (mark_first[t] == mark_count[t]) mark_first[t] = mark_count[t] = 0;
    if (m.is_turnstile) turnstile[m.thread] = m.object; else sleep_queue[m.thread] = m.object;
    blocked_on[m.thread] = NONE;
    wait_word[m.thread] = WOKEN;
    active |= 1u << m.thread;
  } else if (owed[t] != NONE) { give_back(t, owed[t]); owed[t] = NONE; }
  else if (wait_word[t] == WOKEN) wait_word[t] = RUNNING;
  else if (is_cut[t]) {
    Gained g = gained[t][gained_count[t] - 1];
    unlock(t, g.l, g.mode);
  } else operate(t);
  if (walk[t] == NO_WALK && !mark_count[t] && owed[t] == NONE) {
    if (wait_word[t] == QUEUED) active &= ~(1u << t);
    else if ((next_op[t] >= threads[t].to || is_cut[t]) && !gained_count[t]) alive &= ~(1u << t);
  }
}

// How the run ends. Idle turns are counted without being made.
static int run(uint32_t turns) {
  for (int i = 0; i < scheduled && turns && alive; i++, turns--) {
    uint32_t bit = 1u << schedule[i];
    if (bit & alive & active) turn(schedule[i]);
  }
  while (alive && turns) {
    int is_idle = 1;
    for (uint32_t rest = alive; rest;) {
      uint32_t may = rest & active;
      if (!may) {
        uint32_t idle = (uint32_t)__builtin_popcount(rest);
        if (idle > turns) return TOO_LONG;
        turns -= idle;
        break;
      }
      int t = __builtin_ctz(may);
      uint32_t before = (uint32_t)__builtin_popcount(rest & ((1u << t) - 1));
      if (before >= turns) return TOO_LONG;
      turns -= before + 1;
      rest &= ~((2u << t) - 1);
      is_idle = 0;
      turn(t);
      if (!turns) break;
    }
    if (is_idle) return STUCK;
  }
  return alive ? TOO_LONG : has_reversal ? REVERSED : DONE;
}

// 6. What is printed behind the entries

static void put_waiters(const Queue *q, int side) {
  if (!q->counts[side]) { PUT(" -"); return; }
  for (int i = 0; i < q->counts[side]; i++) {
    put(&threads[q->lists[side][i].thread].name);
    if (i) at[-(ptrdiff_t)threads[q->lists[side][i].thread].name.n] = ',';
    *at++ = '@';
    put_number(q->lists[side][i].kept);
  }
}

static void put_queue(const Queue *q, const Piece *name, int number, int chains) {
  if (q->head == NONE) return;
  room();
  PUT("queue");
  put(name);
  PUT(" slot ");
  put_number((uint64_t)(number % chains));
  PUT(" head");
  put(&threads[q->head].name);
  PUT(" free");
  if (!q->free_count) PUT(" -");
  for (int i = q->free_count - 1; i >= 0; i--) {
    put(&threads[q->free[i]].name);
    if (i < q->free_count - 1) at[-(ptrdiff_t)threads[q->free[i]].name.n] = ',';
  }
  room();
  PUT(" excl");
  put_waiters(q, EXCL);
  room();
  PUT(" shared");
  put_waiters(q, SHARED);
  end_entry();
}

static uint16_t order[2][OPERATIONS];

// The cells that are there by lock and key: bytes of the keys first, the lowest first, and then the locks.
static uint32_t sort_cells(const uint16_t **sorted) {
  uint32_t n = 0;
  uint64_t all = ~0ull, any = 0;
  for (uint32_t c = 0; c < cell_count; c++) if (cells[c].is_there) {
    order[0][n++] = (uint16_t)c;
    all &= cells[c].key;
    any |= cells[c].key;
  }
  int from = 0;
  for (int b = 0; b < 9; b++) {
    if (b < 8 && (all >> (8 * b) & 255) == (any >> (8 * b) & 255)) continue;
    uint32_t starts[257] = {0};
#define DIGIT(c) (b < 8 ? cells[c].key >> (8 * b) & 255 : cells[c].lock)
    for (uint32_t i = 0; i < n; i++) starts[DIGIT(order[from][i]) + 1]++;
    for (int d = 0; d < 256; d++) starts[d + 1] += starts[d];
    for (uint32_t i = 0; i < n; i++) order[!from][starts[DIGIT(order[from][i])]++] = order[from][i];
    from = !from;
  }
  *sorted = order[from];
  return n;
}

static void put_rest(int chains) {
  for (int l = 0; l < lock_count; l++) put_queue(&queues[l], &locks[l].name, l, chains);
  for (int c = 0; c < chan_count; c++) put_queue(&queues[LOCKS + c], &chans[c].name, c, chains);
  for (int t = 0; t < thread_count; t++) {
    room();
    PUT("thread");
    put(&threads[t].name);
    PUT(" base ");
    put_number(base[t]);
    PUT(" eff ");
    put_number(effective[t]);
    end_entry();
  }
  const uint16_t *sorted;
  uint32_t n = sort_cells(&sorted);
  for (uint32_t i = 0; i < n; i++) {
    const Cell *c = &cells[sorted[i]];
    room();
    PUT("table");
    put(&locks[c->lock].name);
    *at++ = ' ';
    put_number(c->key);
    *at++ = ' ';
    put_number(c->value);
    end_entry();
  }
}

// In place of the entries.
static void put_profile(void) {
  for (int t = 0; t < thread_count; t++)
    for (int i = 0; i < open_count[t]; i++) add_length(t, open_locks[t][i], ticket);
  at = text;
  for (int l = 0; l < lock_count; l++) {
    const Count *c = &counts[l];
    room();
    PUT("lock");
    put(&locks[l].name);
    PUT(" class");
    put(&class_names[locks[l].class]);
    PUT(" holds ");
    put_number(c->holds);
    PUT(" total ");
    put_number(c->total);
    PUT(" longest ");
    put_number(c->longest);
    PUT(" together ");
    put_number(c->together);
    PUT(" busy ");
    put_number(c->busy);
    PUT(" waits ");
    put_number(c->waits);
    PUT(" halted 0\n");
  }
  for (int a = 0; a < class_count; a++) for (int b = 0; b < class_count; b++) if (pair_counts[a][b]) {
    room();
    PUT("order");
    put(&class_names[a]);
    put(&class_names[b]);
    *at++ = ' ';
    put_number(pair_counts[a][b]);
    end_entry();
  }
}

static void put_ending(int ending) {
  room();
  switch (ending) {
    case DONE: PUT("ok\n"); break;
    case STUCK: PUT("stuck\n"); break;
    case REVERSED: PUT("reversed\n"); break;
    default: PUT("toolong\n"); break;
  }
}

static void put_counts(void) {
  room();
  PUT("ok threads ");
  put_number((uint64_t)thread_count);
  PUT(" locks ");
  put_number((uint64_t)lock_count);
  PUT(" channels ");
  put_number((uint64_t)chan_count);
  PUT(" classes ");
  put_number((uint64_t)class_count);
  PUT(" operations ");
  put_number((uint64_t)operations);
  PUT("\n");
}

// 7. The command line, the source and the sink

// A number from 1 to `most`; zeros may stand in front.
static uint32_t count_of(const char *s, uint32_t most) {
  uint64_t n = 0;
  if (*s == '+') s++;
  if (!*s) stop(USAGE);
  for (; *s; s++) {
    if (*s < '0' || *s > '9') stop(USAGE);
    n = 10 * n + (uint64_t)(*s - '0');
    if (n > most) stop(USAGE);
  }
  if (n < 1) stop(USAGE);
  return (uint32_t)n;
}

static byte source[BYTES + 64];

int main(int argc, char **argv) {
  uint32_t chains = 0, turns = 0;
  const char *command = 0;
  for (int i = 1; i < argc; i++) {
    const char *a = argv[i];
    uint32_t *to = !strncmp(a, "--chains", 8) ? &chains : !strncmp(a, "--turns", 7) ? &turns : 0;
    if (to) {
      const char *behind = a + (to == &chains ? 8 : 7);
      if (*to || (*behind && *behind != '=') || (!*behind && i + 1 >= argc)) stop(USAGE);
      *to = count_of(*behind ? behind + 1 : argv[++i], to == &chains ? 64 : TURNS);
    } else if (!command && (!strcmp(a, "check") || !strcmp(a, "step") || !strcmp(a, "profile"))) command = a;
    else stop(USAGE);
  }
  if (!command) stop(USAGE);
  if (!chains) chains = 16;
  if (!turns) turns = TURNS;

  size_t n = 0;
  for (;;) {
    ssize_t got = read(0, source + n, BYTES + 1 - n);
    if (got < 0) stop(READ_FAULT);
    if (!got) break;
    n += (size_t)got;
    if (n > BYTES) stop(TOO_BIG);
  }
  source[n] = '\n';
  make_pairs();
  make_bytes();
  read_script(source, source + n);
  if (*command == 'c') { put_counts(); write_text(DONE); }
  profiles = *command == 'p';
  make_run();
  for (int k = 0; k < class_count; k++) class_names[k] = piece_of(classes[k]);
  int ending = run(turns);
  if (profiles) put_profile(); else put_rest((int)chains);
  put_ending(ending);
  write_text(ending);
}
