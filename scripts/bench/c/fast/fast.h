/* The reader, the tables and the printer of fast.c.

   Nodes are numbered as in plain.h, but lie as {up, down} and {top, color}, 8 bytes each, so that an index needs no
   shift, with a fixed table nx beside them: the next use of the option, cyclically. The input is read by blocks, with 8
   bytes free before each; names are hashed by their last 8 bytes and their length. */
#include "../common.h"

typedef struct {
  int up, down;
} link_t;
typedef struct {
  int top, color;
} use_t;
typedef struct {
  int prev, next;
#if KIND == 3
  int bound, slack;
#endif
} item;

static int *nx; /* 0 unused, 1..N heads, N+1 first spacer, .. */
static link_t *lk;
static use_t *us;
#define UP(x) lk[x].up
#define DOWN(x) lk[x].down
#define TOP(x) us[x].top
#define COLOR(x) us[x].color
static item *cl;      /* 0 and N+1 are the heads of the two rings */
static int N, N1, K;  /* items, primary items, options */
static int last_node; /* the last spacer */
static char **nm;     /* " name", one for each item */

typedef struct {
  uint64_t key;
  int item, len;
} slot;
static slot *hash;
static uint32_t hmask;
static char *pool;
static size_t pool_left;
static int *nlen; /* with the space before */
static char *keep(const char *s, int len) {
  if (pool_left < (size_t) len + 32) {
    pool_left = 1 << 20;
    pool = need(malloc(pool_left));
  }
  char *p = pool;
  pool += len + 2;
  pool_left -= len + 2;
  p[0] = ' ';
  memcpy(p + 1, s, len);
  p[len + 1] = 0;
  return p;
}

static inline uint64_t key_of(const char *s, int len) { /* the last 8 bytes; the buffer has 8 bytes before it */
  uint64_t v;
  memcpy(&v, s + len - 8, 8);
  return len >= 8 ? v : v >> (64 - 8 * len);
}

static inline uint32_t hash_of(uint64_t k, int len) {
  return (uint32_t) ((k + len) * 0x9E3779B97F4A7C15ull >> 32);
}

static inline slot *find(const char *s, int len) {
  uint64_t k = key_of(s, len);
  uint32_t h = hash_of(k, len) & hmask;
  while (hash[h].item && (hash[h].key != k || hash[h].len != len || (len > 8 && memcmp(nm[hash[h].item] + 1, s, len))))
    h = (h + 1) & hmask;
  return hash + h;
}

static void rehash(void) {
  slot *old = hash;
  uint32_t n = old ? hmask + 1 : 0;
  hmask = n ? 2 * n - 1 : 255;
  hash = need(calloc(hmask + 1, sizeof(slot)));
  for (uint32_t i = 0; i < n; i++)
    if (old[i].item) {
      uint32_t h = hash_of(old[i].key, old[i].len) & hmask;
      while (hash[h].item) h = (h + 1) & hmask;
      hash[h] = old[i];
    }
  free(old);
}

static const unsigned char wtab[256] = {[9] = 1, [11] = 1, [12] = 1, [13] = 1, [' '] = 1};
static inline int white(unsigned char c) {
  return wtab[c];
}

static uint64_t *ignored;
static size_t n_ignored;
static int cap_items, cap_nodes;

static void grow_nodes(int upto) {
  if (upto < cap_nodes) return;
  while (upto >= cap_nodes) cap_nodes = cap_nodes ? 2 * cap_nodes : 4096;
  lk = need(realloc(lk, cap_nodes * sizeof *lk));
  us = need(realloc(us, cap_nodes * sizeof *us));
}

static void item_line(char *p, char *end, uint64_t line) {
  int bar = 0;
  rehash();
  while (1) {
    while (p < end && white(*p)) p++;
    if (p == end) break;
    if (*p == '|') {
      if (bar) fault(line, "second bar");
      bar = 1;
      N1 = N;
      p++;
      continue;
    }
    char *s = p;
    while (p < end && !white(*p)) p++;
#if KIND == 3
    int low = 1, high = 1;
    char *b = memchr(s, '|', p - s);
    if (b) {
      char *q;
      high = low = strtol(s, &q, 10);
      if (*q == ':') high = strtol(q + 1, &q, 10);
      if (q != b) fault(line, "bad bound");
      if (high < 1 || low > high) fault(line, "bound order");
      s = b + 1;
    }
#endif
    slot *h = find(s, p - s);
    if (h->item) fault(line, "name repeated");
    N++;
    if (N + 2 >= cap_items) {
      cap_items = cap_items ? 2 * cap_items : 1024;
      cl = need(realloc(cl, cap_items * sizeof *cl));
      nm = need(realloc(nm, cap_items * sizeof *nm));
      nlen = need(realloc(nlen, cap_items * sizeof *nlen));
    }
    nm[N] = keep(s, p - s);
    nlen[N] = p - s + 1;
    h->item = N;
    h->len = p - s;
    h->key = key_of(s, p - s);
    if ((uint32_t) N * 2 > hmask) rehash();
#if KIND == 3
    cl[N].bound = high;
    cl[N].slack = high - low;
#endif
  }
  if (!bar) N1 = N;
  grow_nodes(N + 1);
  for (int i = 0; i <= N + 1; i++) {
    TOP(i) = COLOR(i) = 0;
    UP(i) = DOWN(i) = i <= N ? i : 0;
    cl[i].prev = i - 1;
    cl[i].next = i + 1;
  }
  cl[0].prev = N1;
  cl[N1].next = 0;
  cl[N + 1].prev = N;
  cl[N1 + 1].prev = N + 1;
  cl[N].next = N1 == N ? 0 : N + 1;
  cl[N + 1].next = N1 + 1; /* N1 = N: points to itself */
  if (N1 == N) cl[N + 1].prev = N + 1;
  last_node = N + 1;
}

static void option_line(char *p, char *end, uint64_t line) {
  int first = last_node, prim = 0, x = first;
  while (1) {
    while (p < end && white(*p)) p++;
    if (p == end) break;
    char *s = p;
    int color = 0;
    while (p < end && !white(*p) && (KIND == 1 || *p != ':')) p++;
    slot *h = find(s, p - s);
    int i = h->item;
    if (!i) fault(line, "unknown item");
    if (UP(i) > first) fault(line, "item repeated in option");
#if KIND > 1
    if (p < end && *p == ':') {
      if (i <= N1) fault(line, "colour on a primary item");
      uint64_t c = 0;
      int n = 0;
      for (p++; p < end && !white(*p); p++)
        if (n++ < 8) c = c << 8 | (unsigned char) *p;
      if (n < 1 || n > 8) fault(line, "bad colour");
      color = color_number(c);
    }
#endif
    grow_nodes(++x + 1);
    TOP(x) = i;
    COLOR(x) = color;
    UP(x) = UP(i);
    DOWN(x) = i;
    DOWN(UP(i)) = x;
    UP(i) = x;
    TOP(i)++;
    prim |= i <= N1;
  }
  if (!prim) { /* take it back */
    for (; x > first; x--) {
      int i = TOP(x);
      UP(i) = UP(x);
      DOWN(UP(x)) = i;
      TOP(i)--;
    }
    ignored = need(realloc(ignored, (n_ignored + 1) * sizeof *ignored));
    ignored[n_ignored++] = line;
    return;
  }
  K++;
  DOWN(first) = x;
  last_node = x + 1;
  TOP(last_node) = -K;
  UP(last_node) = first + 1;
  DOWN(last_node) = 0;
  COLOR(last_node) = 0;
}

static void read_problem(void) {
  size_t room = 1 << 16, have = 0, at = 0;
  uint64_t line = 0;
  int eof = 0;
  char *mem = need(malloc(room + 16)), *buf = mem + 8;
  while (1) {
    char *nl = memchr(buf + at, '\n', have - at);
    if (!nl && !eof) {
      memmove(buf, buf + at, have - at);
      have -= at;
      at = 0;
      if (have == room) {
        room *= 2;
        mem = need(realloc(mem, room + 16));
        buf = mem + 8;
      }
      ssize_t n = read(0, buf + have, room - have);
      if (n < 0) die(3, "Read failed.\n");
      if (!n) eof = 1;
      have += n;
      continue;
    }
    if (!nl && at == have) break;
    line++;
    char *p = buf + at, *end = nl ? nl : buf + have;
    at = nl ? nl + 1 - buf : have;
    while (p < end && white(*p)) p++;
    if (p == end || *p == '|') continue;
    if (!N)
      item_line(p, end, line);
    else
      option_line(p, end, line);
  }
  free(mem);
  if (!N) fault(line + 1, "no items");
  nx = need(malloc((last_node + 1) * sizeof *nx));
  for (int x = N + 2; x < last_node; x++) nx[x] = TOP(x) > 0 && TOP(x + 1) <= 0 ? UP(x + 1) : x + 1;
  for (size_t i = 0; i < n_ignored; i++)
    fprintf(stderr, "Option ignored (no primary items): line %llu\n", (unsigned long long) ignored[i]);
}

static char obuf[1 << 16];
static size_t on;
static void oflush(void) {
  for (size_t i = 0; i < on;) {
    ssize_t w = write(1, obuf + i, on - i);
    if (w <= 0) die(3, "Write failed.\n");
    i += w;
  }
  on = 0;
}

static inline void onum(uint64_t v) {
  char t[20];
  int n = 0;
  if (v < 10) {
    obuf[on++] = '0' + v;
    return;
  }
  do t[n++] = '0' + v % 10;
  while (v /= 10);
  while (n) obuf[on++] = t[--n];
}

static inline void oname(int j) {
  if (nlen[j] <= 16)
    memcpy(obuf + on, nm[j], 16);
  else
    memcpy(obuf + on, nm[j], nlen[j]);
  on += nlen[j];
}

static void print_header(uint64_t c) {
  if (on > sizeof obuf - 256) oflush();
  onum(c);
  obuf[on++] = ':';
  obuf[on++] = '\n';
}

static void print_choice(int x, int i, int k, int n) {
  if (on > sizeof obuf - 256) oflush();
  if (!x) {
    memcpy(obuf + on, " null", 5);
    on += 5;
    oname(i);
  } else {
    int q = x;
    do {
      int j = TOP(q);
      if (on > sizeof obuf - 256) oflush();
      oname(j);
#if KIND > 1
      if (COLOR(q)) {
        uint64_t c = cname[COLOR(q) > 0 ? COLOR(q) : COLOR(j)];
        obuf[on++] = ':';
        if (c < 256)
          obuf[on++] = c;
        else
          for (int s = 56; s >= 0; s -= 8)
            if (c >> s & 255) obuf[on++] = c >> s & 255;
      }
#endif
      q = nx[q];
    } while (q != x);
  }
  obuf[on++] = ' ';
  obuf[on++] = '(';
  onum(k);
  memcpy(obuf + on, " of ", 4);
  on += 4;
  onum(n);
  obuf[on++] = ')';
  obuf[on++] = '\n';
}

static int finished(int limited) {
  oflush();
  return altogether(limited);
}
