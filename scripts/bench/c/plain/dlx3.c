/* Algorithm M, with bounds on primary items, in the manner of Knuth's dlx3. A level has the option's node x, 0 for the
   branch of none, the first node ft of the item's list at its start, and k of n branches. */
#define KIND 3
#include "plain.h"
#include "colour.h"

typedef struct {
  int i, x, ft, k, n;
} level_t;

static inline int branches(int i) { /* monus(len + 1, low) */
  int low = cl[i].bound - cl[i].slack;
  if (low < 0) low = 0;
  int b = nd[i].top + 1 - low;
  return b < 0 ? 0 : b;
}

static int choose(int *n) {
  int best = 0, t = INT32_MAX;
  for (int i = cl[0].next; t && i; i = cl[i].next) {
    int b = branches(i);
    if (b < t) best = i, t = b;
  }
  *n = t;
  return best;
}

static void tweak(int i) { /* i's first option leaves */
  int x = nd[i].down, d = nd[x].down;
  if (cl[i].bound) hide(x);
  nd[i].down = d;
  nd[d].up = i;
  nd[i].top--;
}

static void untweak(int i, int ft) { /* downwards, from the first tweaked node */
  int z = nd[i].down, above = i, k = 0, open = cl[i].bound;
  nd[i].down = ft;
  for (int p = ft; p != z; above = p, p = nd[p].down, k++) {
    nd[p].up = above;
    if (open) unhide(p);
  }
  nd[z].up = above;
  nd[i].top += k;
}

int main(int argc, char **argv) {
  read_words(argc, argv);
  setvbuf(stdout, NULL, _IOFBF, 1 << 16);
  read_problem();
  level_t *st = need(malloc(((size_t) K + N1 + 2) * sizeof *st)), *l = st;
forward:
  l->i = choose(&l->n);
  l->k = 0;
  {
    int i = l->i;
    if (--cl[i].bound == 0) cover(i);
    l->ft = nd[i].down;
  }
next: {
  int i = l->i, x;
  if (l->k == l->n) goto backup;
  l->k++;
  if (cl[i].bound | cl[i].slack) { /* with tweaks */
    x = nd[i].down;
    if (x == i) { /* the branch of none */
      l->x = 0;
      if (cl[i].bound) cover(i);
      goto test;
    }
    tweak(i);
  } else
    x = l->k == 1 ? l->ft : nd[l->x].down;
  l->x = x;
  for (int q = x + 1; q != x;) {
    int j = nd[q].top, c = nd[q].color;
    if (j <= 0)
      q = nd[q].up;
    else {
      if (j <= N1) {
        if (--cl[j].bound == 0) cover(j);
      } else if (!c)
        cover(j);
      else if (c > 0)
        purify(q);
      q++;
    }
  }
}
test:
  if (!cl[0].next) {
    count++;
    if (spacing && count % spacing == 0) {
      printf("%llu:\n", (unsigned long long) count);
      for (level_t *a = st; a <= l; a++) print_choice(a->x, a->i, a->k, a->n);
    }
    if (count == limit_t) return finished(1);
    goto recover;
  }
  l++;
  goto forward;
backup: {
  int i = l->i;
  if (cl[i].bound | cl[i].slack) untweak(i, l->ft);
  if (cl[i].bound++ == 0) uncover(i);
  if (l == st) return finished(0);
  l--;
}
recover: {
  int i = l->i, x = l->x;
  if (!x) {
    if (cl[i].bound) uncover(i);
  } else
    for (int q = x - 1; q != x;) {
      int j = nd[q].top, c = nd[q].color;
      if (j <= 0)
        q = nd[q].down;
      else {
        if (j <= N1) {
          if (cl[j].bound++ == 0) uncover(j);
        } else if (!c)
          uncover(j);
        else if (c > 0)
          unpurify(q);
        q--;
      }
    }
  goto next;
}
}
