/* Algorithm C, with colours on secondary items, in the manner of Knuth's dlx2. */
#define KIND 2
#include "plain.h"
#include "colour.h"

static int choose(int *branches) {
  int best = 0, t = INT32_MAX;
  for (int i = cl[0].next; t && i; i = cl[i].next)
    if (nd[i].top < t) best = i, t = nd[i].top;
  *branches = t;
  return best;
}

int main(int argc, char **argv) {
  read_words(argc, argv);
  setvbuf(stdout, NULL, _IOFBF, 1 << 16);
  read_problem();
  int *choice = need(malloc((N1 + 1) * sizeof(int)));
  int *kk = need(malloc((N1 + 1) * sizeof(int))), *nn = need(malloc((N1 + 1) * sizeof(int)));
  int level = 0, i, x;
forward:
  i = choose(&nn[level]);
  cover(i);
  x = choice[level] = nd[i].down;
  kk[level] = 1;
advance:
  if (x == i) goto backup;
  for (int q = x + 1; q != x;) {
    int j = nd[q].top, c = nd[q].color;
    if (j <= 0)
      q = nd[q].up;
    else {
      if (!c)
        cover(j);
      else if (c > 0)
        purify(q);
      q++;
    }
  }
  if (!cl[0].next) {
    count++;
    if (spacing && count % spacing == 0) {
      printf("%llu:\n", (unsigned long long) count);
      for (int l = 0; l <= level; l++) print_choice(choice[l], 0, kk[l], nn[l]);
    }
    if (count == limit_t) return finished(1);
    goto recover;
  }
  level++;
  goto forward;
backup:
  uncover(i);
  if (!level) return finished(0);
  level--;
  x = choice[level];
  i = nd[x].top;
recover:
  for (int q = x - 1; q != x;) {
    int j = nd[q].top, c = nd[q].color;
    if (j <= 0)
      q = nd[q].down;
    else {
      if (!c)
        uncover(j);
      else if (c > 0)
        unpurify(q);
      q--;
    }
  }
  x = choice[level] = nd[x].down;
  kk[level]++;
  goto advance;
}
