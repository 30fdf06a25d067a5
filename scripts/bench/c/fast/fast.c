/* dlx1, dlx2 and dlx3 by KIND: the order of search and the moves of the plain programs, over the layout of fast.h.

   EACH goes over the other uses of a node's option: up to the spacer behind it, and then from the first one up to it. */
#include "fast.h"

#if KIND == 1
#define KEPT(c) 1
#else
#define KEPT(c) ((c) >= 0)
#endif
#define OUT(q)                  \
  if (KEPT(COLOR(q))) {         \
    int u = UP(q), d = DOWN(q); \
    DOWN(u) = d;                \
    UP(d) = u;                  \
    TOP(TOP(q))--;              \
  }
#define BACK(q)                 \
  if (KEPT(COLOR(q))) {         \
    int u = UP(q), d = DOWN(q); \
    DOWN(u) = q;                \
    UP(d) = q;                  \
    TOP(TOP(q))++;              \
  }
#define EACH(p, DO)                      \
  {                                      \
    int q = p + 1;                       \
    for (; TOP(q) > 0; q++) DO(q)        \
    for (q = UP(q); q < p; q++) DO(q)    \
  }

static inline void hide(int p) {
  EACH(p, OUT)
}

static inline void unhide(int p) {
  EACH(p, BACK)
}

static inline void cover(int i) {
  for (int p = DOWN(i); p != i; p = DOWN(p)) hide(p);
  int l = cl[i].prev, r = cl[i].next;
  cl[l].next = r;
  cl[r].prev = l;
}

static inline void uncover(int i) {
  int l = cl[i].prev, r = cl[i].next;
  cl[l].next = i;
  cl[r].prev = i;
  for (int p = UP(i); p != i; p = UP(p)) unhide(p);
}

static inline void purify(int x) {
  int i = TOP(x), c = COLOR(x);
  COLOR(i) = c;
  for (int p = DOWN(i); p != i; p = DOWN(p))
    if (COLOR(p) != c)
      hide(p);
    else if (p != x)
      COLOR(p) = -1;
}

static inline void unpurify(int x) {
  int i = TOP(x), c = COLOR(x);
  for (int p = UP(i); p != i; p = UP(p))
    if (COLOR(p) < 0)
      COLOR(p) = c;
    else if (p != x)
      unhide(p);
  COLOR(i) = 0;
}

typedef struct {
  int i, x, ft, k, n;
} level_t;
#if KIND == 3
static void tweak(int i) {
  int x = DOWN(i), d = DOWN(x);
  if (cl[i].bound) hide(x);
  DOWN(i) = d;
  UP(d) = i;
  TOP(i)--;
}

static void untweak(int i, int ft) {
  int z = DOWN(i), above = i, k = 0, open = cl[i].bound;
  DOWN(i) = ft;
  for (int p = ft; p != z; above = p, p = DOWN(p), k++) {
    UP(p) = above;
    if (open) unhide(p);
  }
  UP(z) = above;
  TOP(i) += k;
}
#endif
static inline int choose(int *n) {
  int best = 0, t = INT32_MAX;
  for (int i = cl[0].next; t && i; i = cl[i].next) {
#if KIND == 3
    int low = cl[i].bound - cl[i].slack, b = TOP(i) + 1 - (low < 0 ? 0 : low);
    if (b < 0) b = 0;
#else
    int b = TOP(i);
#endif
    if (b < t) best = i, t = b;
  }
  *n = t;
  return best;
}

int main(int argc, char **argv) {
  read_words(argc, argv);
  read_problem();
#if KIND == 3
  level_t *st = need(malloc(((size_t) K + N1 + 2) * sizeof *st)), *l = st;
#else
  level_t *st = need(malloc(((size_t) N1 + 2) * sizeof *st)), *l = st;
#endif
forward:
  l->i = choose(&l->n);
  l->k = 0;
  {
    int i = l->i;
#if KIND == 3
    if (--cl[i].bound == 0) cover(i);
#else
    cover(i);
#endif
    l->ft = DOWN(i);
  }
next: {
  int i = l->i, x;
  if (l->k == l->n) goto backup;
  l->k++;
#if KIND == 3
  if (cl[i].bound | cl[i].slack) {
    x = DOWN(i);
    if (x == i) {
      l->x = 0;
      if (cl[i].bound) cover(i);
      goto test;
    }
    tweak(i);
  } else
#endif
    x = l->k == 1 ? l->ft : DOWN(l->x);
  l->x = x;
  (void) i;
  for (int q = nx[x]; q != x; q = nx[q]) {
    int j = TOP(q);
#if KIND == 1
    cover(j);
#else
    int c = COLOR(q);
#if KIND == 3
    if (j <= N1) {
      if (--cl[j].bound == 0) cover(j);
      continue;
    }
#endif
    if (!c)
      cover(j);
    else if (c > 0)
      purify(q);
#endif
  }
}
#if KIND == 3
test:
#endif
  if (!cl[0].next) {
    count++;
    if (spacing && count % spacing == 0) {
      print_header(count);
      for (level_t *a = st; a <= l; a++) print_choice(a->x, a->i, a->k, a->n);
    }
    if (count == limit_t) return finished(1);
    goto recover;
  }
  l++;
  goto forward;
backup: {
  int i = l->i;
#if KIND == 3
  if (cl[i].bound | cl[i].slack) untweak(i, l->ft);
  if (cl[i].bound++ == 0) uncover(i);
#else
  uncover(i);
#endif
  if (l == st) return finished(0);
  l--;
}
recover: {
  int x = l->x;
#if KIND == 3
  if (!x) {
    if (cl[l->i].bound) uncover(l->i);
    goto next;
  }
#endif
  for (int q = x - 1; q != x;) {
    int j = TOP(q);
    if (j <= 0) {
      q = DOWN(q);
      continue;
    }
#if KIND == 1
    uncover(j);
#else
    int c = COLOR(q);
#if KIND == 3
    if (j <= N1) {
      if (cl[j].bound++ == 0) uncover(j);
      q--;
      continue;
    }
#endif
    if (!c)
      uncover(j);
    else if (c > 0)
      unpurify(q);
#endif
    q--;
  }
  goto next;
}
}
