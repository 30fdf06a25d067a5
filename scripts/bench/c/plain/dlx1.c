/* Algorithm X with dancing links, in the manner of Knuth's dlx1. */
#define KIND 1
#include "plain.h"

static inline void hide(int p) {
  for (int q = p + 1; q != p;) {
    int x = nd[q].top, u = nd[q].up, d = nd[q].down;
    if (x <= 0)
      q = u;
    else {
      nd[u].down = d;
      nd[d].up = u;
      nd[x].top--;
      q++;
    }
  }
}

static inline void unhide(int p) {
  for (int q = p - 1; q != p;) {
    int x = nd[q].top, u = nd[q].up, d = nd[q].down;
    if (x <= 0)
      q = d;
    else {
      nd[u].down = q;
      nd[d].up = q;
      nd[x].top++;
      q--;
    }
  }
}

static void cover(int i) {
  for (int p = nd[i].down; p != i; p = nd[p].down) hide(p);
  int l = cl[i].prev, r = cl[i].next;
  cl[l].next = r;
  cl[r].prev = l;
}

static void uncover(int i) {
  int l = cl[i].prev, r = cl[i].next;
  cl[l].next = i;
  cl[r].prev = i;
  for (int p = nd[i].up; p != i; p = nd[p].up) unhide(p);
}

static int choose(int *branches) {
  int best = 0, t = INT32_MAX;
  for (int i = cl[0].next; t && i; i = cl[i].next)
    if (nd[i].top < t) best = i, t = nd[i].top;
  *branches = t;
  return best;
}

int main(int argc, char **argv) {
  read_words(argc, argv);
  setvbuf(stdout, NULL, _IOFBF, 1 << 16);
  read_problem();
  int *choice = need(malloc((N1 + 1) * sizeof(int)));
  int *kk = need(malloc((N1 + 1) * sizeof(int))), *nn = need(malloc((N1 + 1) * sizeof(int)));
  int level = 0, i, x;
forward:
  i = choose(&nn[level]);
  cover(i);
  x = choice[level] = nd[i].down;
  kk[level] = 1;
advance:
  if (x == i) goto backup;
  for (int q = x + 1; q != x;) {
    int j = nd[q].top;
    if (j <= 0)
      q = nd[q].up;
    else
      cover(j), q++;
  }
  if (!cl[0].next) {
    count++;
    if (spacing && count % spacing == 0) {
      printf("%llu:\n", (unsigned long long) count);
      for (int l = 0; l <= level; l++) print_choice(choice[l], 0, kk[l], nn[l]);
    }
    if (count == limit_t) return finished(1);
    goto recover;
  }
  level++;
  goto forward;
backup:
  uncover(i);
  if (!level) return finished(0);
  level--;
  x = choice[level];
  i = nd[x].top;
recover:
  for (int q = x - 1; q != x;) {
    int j = nd[q].top;
    if (j <= 0)
      q = nd[q].down;
    else
      uncover(j), q--;
  }
  x = choice[level] = nd[x].down;
  kk[level]++;
  goto advance;
}
