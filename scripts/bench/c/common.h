/* What both marks have in common: faults, words, the numbers of colours, and the last line.

   A file that includes this defines KIND as 1, 2 or 3. Only a right input is promised a right answer; the common faults
   get a message and status 2. */
#define _GNU_SOURCE
#include <stdint.h>
#include <stdio.h>
#include <stdlib.h>
#include <string.h>
#include <unistd.h>

static uint64_t spacing, limit_t = UINT64_MAX, count;

static void die(int status, const char *text) {
  fputs(text, stderr);
  exit(status);
}

static void fault(uint64_t line, const char *text) {
  fprintf(stderr, "Line %llu: %s.\n", (unsigned long long) line, text);
  exit(2);
}

static void *need(void *p) {
  if (!p) die(4, "Out of memory.\n");
  return p;
}

static void read_words(int argc, char **argv) {
  for (int i = 1; i < argc; i++) {
    char *p = argv[i];
    uint64_t v = 0;
    if (p[0] != 'm' && p[0] != 't') {
      fprintf(stderr, "Word %d: unknown.\n", i);
      exit(1);
    }
    int bad = !p[1];
    for (char *q = p + 1; *q && !bad; q++) {
      unsigned d = (unsigned char) *q - '0';
      if (d > 9 || v > (UINT64_MAX - d) / 10)
        bad = 1;
      else
        v = v * 10 + d;
    }
    if (bad) {
      fprintf(stderr, "Word %d: bad number.\n", i);
      exit(1);
    }
    if (p[0] == 'm')
      spacing = v;
    else if (!v) {
      fprintf(stderr, "Word %d: limit must be at least 1.\n", i);
      exit(1);
    } else
      limit_t = v;
  }
}

static uint64_t *cname; /* colour number -> its bytes, zero padded */
static int ncolors;

static int color_number(uint64_t bytes) {
  static int *tab, cap;
  static int room;
  if (ncolors * 2 >= cap) {
    cap = cap ? 2 * cap : 1024;
    free(tab);
    tab = need(calloc(cap, sizeof(int)));
    for (int c = 1; c <= ncolors; c++) {
      uint32_t h = (uint32_t) (cname[c] * 0x9E3779B97F4A7C15ull >> 32) & (cap - 1);
      while (tab[h]) h = (h + 1) & (cap - 1);
      tab[h] = c;
    }
  }
  uint32_t h = (uint32_t) (bytes * 0x9E3779B97F4A7C15ull >> 32) & (cap - 1);
  while (tab[h] && cname[tab[h]] != bytes) h = (h + 1) & (cap - 1);
  if (!tab[h]) {
    if (++ncolors >= room) {
      room = room ? 2 * room : 256;
      cname = need(realloc(cname, room * sizeof *cname));
    }
    cname[ncolors] = bytes;
    tab[h] = ncolors;
  }
  return tab[h];
}

static int altogether(int limited) {
  fprintf(stderr, "Altogether %llu solution%s%s.\n", (unsigned long long) count, count == 1 ? "" : "s",
          limited ? " (limit)" : "");
  return 0;
}
