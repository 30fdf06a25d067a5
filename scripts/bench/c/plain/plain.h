/* The reader, the tables and the printer of the plain programs.

   Nodes and items lie as in Knuth's programs: node 0 isn't used, 1 to N are the items' own, N + 1 is the first spacer,
   and TOP of an item's own node is its LEN; items 0 and N + 1 are the heads of the two rings. Unlike there, names are
   looked up in a hash table. A line's choice is printed from the node of the branch item's use, 0 for none. */
#include "../common.h"

typedef struct {
  int top, up, down, color;
} node; /* top is LEN in a head */
typedef struct {
  int prev, next;
#if KIND == 3
  int bound, slack;
#endif
} item;

static node *nd;      /* 0 unused, 1..N heads, N+1 first spacer, .. */
static item *cl;      /* 0 and N+1 are the heads of the two rings */
static int N, N1, K;  /* items, primary items, options */
static int last_node; /* the last spacer */
static char **nm;     /* " name", one for each item */

typedef struct {
  int item, len;
  const char *s;
} slot;
static slot *hash;
static uint32_t hmask;
static char *pool;
static size_t pool_left;
static char *keep(const char *s, int len) { /* " name\0" */
  if (pool_left < (size_t) len + 2) {
    pool_left = 1 << 20;
    pool = need(malloc(pool_left));
  }
  char *p = pool;
  pool += len + 2;
  pool_left -= len + 2;
  p[0] = ' ';
  memcpy(p + 1, s, len);
  p[len + 1] = 0;
  return p;
}

static inline uint32_t hash_of(const char *s, int len) { /* FNV-1a */
  uint32_t h = 2166136261u;
  for (int i = 0; i < len; i++) h = (h ^ (unsigned char) s[i]) * 16777619u;
  return h ^ h >> 15;
}

static inline slot *find(const char *s, int len) {
  uint32_t h = hash_of(s, len) & hmask;
  while (hash[h].item && (hash[h].len != len || memcmp(hash[h].s, s, len))) h = (h + 1) & hmask;
  return hash + h;
}

static void rehash(void) {
  slot *old = hash;
  uint32_t n = old ? hmask + 1 : 0;
  hmask = n ? 2 * n - 1 : 255;
  hash = need(calloc(hmask + 1, sizeof(slot)));
  for (uint32_t i = 0; i < n; i++)
    if (old[i].item) *find(old[i].s, old[i].len) = old[i];
  free(old);
}

static inline int white(unsigned char c) {
  return c == ' ' || (c >= 9 && c <= 13 && c != 10);
}

static uint64_t *ignored;
static size_t n_ignored;
static int cap_items, cap_nodes;

static void grow_nodes(int upto) {
  if (upto < cap_nodes) return;
  while (upto >= cap_nodes) cap_nodes = cap_nodes ? 2 * cap_nodes : 4096;
  nd = need(realloc(nd, cap_nodes * sizeof *nd));
}

static void item_line(char *p, char *end, uint64_t line) {
  int bar = 0;
  rehash();
  while (1) {
    while (p < end && white(*p)) p++;
    if (p == end) break;
    if (*p == '|') {
      if (bar) fault(line, "second bar");
      bar = 1;
      N1 = N;
      p++;
      continue;
    }
    char *s = p;
    while (p < end && !white(*p)) p++;
#if KIND == 3
    int low = 1, high = 1;
    char *b = memchr(s, '|', p - s);
    if (b) {
      char *q;
      high = low = strtol(s, &q, 10);
      if (*q == ':') high = strtol(q + 1, &q, 10);
      if (q != b) fault(line, "bad bound");
      if (high < 1 || low > high) fault(line, "bound order");
      s = b + 1;
    }
#endif
    slot *h = find(s, p - s);
    if (h->item) fault(line, "name repeated");
    N++;
    if (N + 2 >= cap_items) {
      cap_items = cap_items ? 2 * cap_items : 1024;
      cl = need(realloc(cl, cap_items * sizeof *cl));
      nm = need(realloc(nm, cap_items * sizeof *nm));
    }
    nm[N] = keep(s, p - s);
    h->item = N;
    h->len = p - s;
    h->s = nm[N] + 1;
    if ((uint32_t) N * 2 > hmask) rehash();
#if KIND == 3
    cl[N].bound = high;
    cl[N].slack = high - low;
#endif
  }
  if (!bar) N1 = N;
  grow_nodes(N + 1);
  for (int i = 0; i <= N + 1; i++) {
    nd[i].top = nd[i].color = 0;
    nd[i].up = nd[i].down = i <= N ? i : 0;
    cl[i].prev = i - 1;
    cl[i].next = i + 1;
  }
  cl[0].prev = N1;
  cl[N1].next = 0;
  cl[N + 1].prev = N;
  cl[N1 + 1].prev = N + 1;
  cl[N].next = N1 == N ? 0 : N + 1;
  cl[N + 1].next = N1 + 1; /* N1 = N: points to itself */
  if (N1 == N) cl[N + 1].prev = N + 1;
  last_node = N + 1;
}

static void option_line(char *p, char *end, uint64_t line) {
  int first = last_node, prim = 0, x = first;
  while (1) {
    while (p < end && white(*p)) p++;
    if (p == end) break;
    char *s = p;
    int color = 0;
    while (p < end && !white(*p) && (KIND == 1 || *p != ':')) p++;
    slot *h = find(s, p - s);
    int i = h->item;
    if (!i) fault(line, "unknown item");
    if (nd[i].up > first) fault(line, "item repeated in option");
#if KIND > 1
    if (p < end && *p == ':') {
      if (i <= N1) fault(line, "colour on a primary item");
      uint64_t c = 0;
      int n = 0;
      for (p++; p < end && !white(*p); p++)
        if (n++ < 8) c = c << 8 | (unsigned char) *p;
      if (n < 1 || n > 8) fault(line, "bad colour");
      color = color_number(c);
    }
#endif
    grow_nodes(++x + 1);
    nd[x].top = i;
    nd[x].color = color;
    nd[x].up = nd[i].up;
    nd[x].down = i;
    nd[nd[i].up].down = x;
    nd[i].up = x;
    nd[i].top++;
    prim |= i <= N1;
  }
  if (!prim) { /* take it back */
    for (; x > first; x--) {
      int i = nd[x].top;
      nd[i].up = nd[x].up;
      nd[nd[x].up].down = i;
      nd[i].top--;
    }
    ignored = need(realloc(ignored, (n_ignored + 1) * sizeof *ignored));
    ignored[n_ignored++] = line;
    return;
  }
  K++;
  nd[first].down = x;
  last_node = x + 1;
  nd[last_node].top = -K;
  nd[last_node].up = first + 1;
  nd[last_node].down = 0;
  nd[last_node].color = 0;
}

static void read_problem(void) {
  char *buf = NULL;
  size_t room = 0;
  ssize_t len;
  uint64_t line = 0;
  setvbuf(stdin, NULL, _IOFBF, 1 << 16);
  while ((len = getline(&buf, &room, stdin)) >= 0) {
    line++;
    if (len && buf[len - 1] == '\n') len--;
    char *p = buf, *end = buf + len;
    while (p < end && white(*p)) p++;
    if (p == end || *p == '|') continue;
    if (!N)
      item_line(p, end, line);
    else
      option_line(p, end, line);
  }
  free(buf);
  if (!N) fault(line + 1, "no items");
  for (size_t i = 0; i < n_ignored; i++)
    fprintf(stderr, "Option ignored (no primary items): line %llu\n", (unsigned long long) ignored[i]);
}

static void print_choice(int x, int i, int k, int n) {
  if (!x)
    fputs_unlocked(" null", stdout), fputs_unlocked(nm[i], stdout);
  else {
    int q = x;
    do {
      int j = nd[q].top;
      fputs_unlocked(nm[j], stdout);
#if KIND > 1
      if (nd[q].color) {
        uint64_t c = cname[nd[q].color > 0 ? nd[q].color : nd[j].color];
        putc_unlocked(':', stdout);
        for (int s = 56; s >= 0; s -= 8)
          if (c >> s & 255) putc_unlocked(c >> s & 255, stdout);
      }
#endif
      if (nd[++q].top <= 0) q = nd[q].up;
    } while (q != x);
  }
  printf(" (%d of %d)\n", k, n);
}

static int finished(int limited) {
  if (fflush(stdout)) die(3, "Write failed.\n");
  return altogether(limited);
}
