/* The moves of Algorithm C, for dlx2.c and dlx3.c. As in Knuth's purify, the chosen use itself keeps its colour, so that
   the way back knows which use made the move. */
static inline void hide(int p) {
  for (int q = p + 1; q != p;) {
    int x = nd[q].top, u = nd[q].up, d = nd[q].down;
    if (x <= 0)
      q = u;
    else {
      if (nd[q].color >= 0) {
        nd[u].down = d;
        nd[d].up = u;
        nd[x].top--;
      }
      q++;
    }
  }
}

static inline void unhide(int p) {
  for (int q = p - 1; q != p;) {
    int x = nd[q].top, u = nd[q].up, d = nd[q].down;
    if (x <= 0)
      q = d;
    else {
      if (nd[q].color >= 0) {
        nd[u].down = q;
        nd[d].up = q;
        nd[x].top++;
      }
      q--;
    }
  }
}

static void cover(int i) {
  for (int p = nd[i].down; p != i; p = nd[p].down) hide(p);
  int l = cl[i].prev, r = cl[i].next;
  cl[l].next = r;
  cl[r].prev = l;
}

static void uncover(int i) {
  int l = cl[i].prev, r = cl[i].next;
  cl[l].next = i;
  cl[r].prev = i;
  for (int p = nd[i].up; p != i; p = nd[p].up) unhide(p);
}

static void purify(int x) {
  int i = nd[x].top, c = nd[x].color;
  nd[i].color = c;
  for (int p = nd[i].down; p != i; p = nd[p].down)
    if (nd[p].color != c)
      hide(p);
    else if (p != x)
      nd[p].color = -1;
}

static void unpurify(int x) {
  int i = nd[x].top, c = nd[x].color;
  for (int p = nd[i].up; p != i; p = nd[p].up)
    if (nd[p].color < 0)
      nd[p].color = c;
    else if (p != x)
      unhide(p);
  nd[i].color = 0;
}
