/* Times the library's six searches, and its first hit, beside the same in plain C, and its bound mode beside its brute.
 *   bench [PASSES]                     compare and time every workload
 *   bench means [PASSES]               the same, but print the mean and the worst of each engine alone
 *   bench grow [PASSES]                how cost grows with n and with m
 *   bench walk [PASSES]                R at the front of the pattern or nowhere, where its walk is longest; and short texts
 *   bench first [PASSES]               the first hit beside brute and C where there is none, and beside C where it is at start 0
 *   bench bound [PASSES]               the bound list beside brute, and one start of the bound mode at m = 64 at its worst
 *   bench once SIDE ENGINE WORKLOAD    one search and nothing else, for counting instructions; SIDE is lib or c
 * Every answer is compared first; a difference ends the program with 1.
 */
#define _GNU_SOURCE
#include "../c/breakwarp.h"
#include "engines.h"
#include <sched.h>
#include <stdio.h>
#include <stdlib.h>
#include <string.h>
#include <time.h>
#include <unistd.h>

#define N 65536
#define MARK 0xdeadbeefu
typedef int64_t search_fn(uint32_t, const uint32_t *, size_t, const uint32_t *, size_t, uint32_t *, size_t, uint64_t *, size_t);
typedef int64_t first_fn(uint32_t, const uint32_t *, size_t, const uint32_t *, size_t, uint64_t *, size_t);
typedef int64_t bound_fn(uint32_t, const uint32_t *, size_t, const uint32_t *, size_t, uint32_t *, size_t);
static const char *const NAME[6] = {"brute", "kmp", "bm", "sunday", "shiftand", "hybrid"};
static search_fn *const LIB[6] = {breakwarp_brute, breakwarp_kmp, breakwarp_bm, breakwarp_sunday, breakwarp_shiftand, breakwarp_hybrid};
static search_fn *const C[6] = {c_brute, c_kmp, c_bm, c_sunday, c_shiftand, c_hybrid};

/* ---- workloads ---- */
struct work { const char *name; uint32_t k, p[64], *t; size_t m; };
#define WORKS 9
static struct work works[WORKS];
static uint64_t seed;
static uint64_t next(void) {
  uint64_t z = seed += 0x9E3779B97F4A7C15u;
  z = (z ^ (z >> 30)) * 0xBF58476D1CE4E5B9u;
  z = (z ^ (z >> 27)) * 0x94D049BB133111EBu;
  return z ^ (z >> 31);
}
static uint32_t below(uint32_t m) { return (uint32_t)(((next() >> 32) * m) >> 32); }
static int unsure(uint32_t c) { return (c & (c - 1)) != 0; }

static const char *const NAMES[] = {"johann", "anna", "maria", "thomas", "margaret", "elizabeth", "william", "mary", "john", "robert", "agnes",
  "henry", "richard", "alice", "joan", "edward", "catherine", "martha", "samuel", "sarah", "hannah", "nathaniel", "ellen", "walter", "isabel",
  "george", "dorothy", "francis", "susanna", "ralph", "jane", "peter", "bridget", "matthew", "rebecca", "daniel", "smith", "taylor", "wright",
  "walker", "turner", "cooper", "carter", "fletcher", "mason", "webb", "hill", "green", "wood", "clarke", "harrison", "jackson", "thompson",
  "baptised", "buried", "married", "son", "daughter", "of", "wife", "widow", "and", "the", "day", "parish", "labourer", "husbandman", "yeoman",
  "spinster", "weaver", "infant", "base", "born", "january", "february", "march", "april", "may", "june", "july", "august"};
static const char *const CONFUSED[] = {"ao", "nu", "ec", "ij", "mn", "uv", "vw", "rn", "tl", "ft", "hk", "gy", "qg", "sf", "bh", "pq", "dl", "oe",
  "zx", "rv", "it", "cr", "au", "lb", "kr", "wm", "ea", "yj", "xk", "sz", "aeo", "nmu", "iju", "rnv", "tlf", "eco", "hkb", "sfz", "gyq", "uvw"};
#define COUNT(a) (sizeof(a) / sizeof *(a))
static uint32_t set(const char *s) {
  uint32_t v = 0;
  for (; *s; s++) v |= 1u << (*s - 'a');
  return v;
}
static uint32_t *room(void) { /* 16 bytes past a line of the cache, where malloc would put it */
  uint32_t *b = aligned_alloc(4096, N * 4 + 4096);
  if (!b) abort();
  return b + 4;
}
static uint32_t *names(uint64_t s, size_t doubts) { /* names run together, so many unsure letters on each page of 2,000 */
  uint32_t *t = room();
  seed = s;
  for (size_t n = 0; n < N;)
    for (const char *q = NAMES[below(COUNT(NAMES))]; *q && n < N; q++) t[n++] = 1u << (*q - 'a');
  for (size_t page = 0; page < N; page += 2000) {
    size_t len = N - page < 2000 ? N - page : 2000, u = (doubts * len + 1000) / 2000;
    while (u) {
      size_t i = page + below((uint32_t)len);
      if (unsure(t[i])) continue;
      uint32_t v;
      do v = set(CONFUSED[below(COUNT(CONFUSED))]); while (!(v & t[i]));
      t[i] = v;
      u--;
    }
  }
  return t;
}
static uint32_t *letters(uint64_t s, uint32_t k) {
  uint32_t *t = room();
  seed = s;
  for (size_t i = 0; i < N; i++) t[i] = 1u << below(k);
  return t;
}
static uint32_t *same(uint32_t c) {
  uint32_t *t = room();
  for (size_t i = 0; i < N; i++) t[i] = c;
  return t;
}
static void widen(uint32_t *s, size_t n, size_t u, uint32_t k) { /* make u letters unsure */
  while (u) {
    size_t i = below((uint32_t)n);
    uint32_t o = 1u << below(k);
    if (unsure(s[i]) || o == s[i]) continue;
    s[i] |= o;
    u--;
  }
}
static void cut(struct work *w, size_t m) { /* the pattern is a stretch of the text with every doubt resolved */
  size_t i = below((uint32_t)(N - m));
  for (size_t j = 0; j < m; j++) w->p[j] = w->t[i + j] & (0u - w->t[i + j]);
  w->m = m;
}
static void spell(struct work *w, const char *const *s) {
  for (w->m = 0; s[w->m]; w->m++) w->p[w->m] = set(s[w->m]);
}
static void make(void) {
  uint32_t *t = names(101, 12);
  works[0] = (struct work){.name = "names, p = thomas", .k = 26, .t = t};
  spell(&works[0], (const char *const[]){"t", "h", "o", "m", "a", "s", 0});
  works[1] = (struct work){.name = "names, p = th[ao]m[ae]s", .k = 26, .t = t};
  spell(&works[1], (const char *const[]){"t", "h", "ao", "m", "ae", "s", 0});
  works[2] = (struct work){.name = "many doubts, p = margaret", .k = 26, .t = names(103, 240)};
  spell(&works[2], (const char *const[]){"m", "a", "r", "g", "a", "r", "e", "t", 0});
  works[3] = (struct work){.name = "four letters, m = 20", .k = 4, .t = letters(104, 4)};
  cut(&works[3], 20);
  widen(works[3].p, 20, 2, 4);
  works[4] = (struct work){.name = "two letters, m = 40", .k = 2, .t = letters(105, 2)};
  widen(works[4].t, N, N * 6 / 100, 2);
  cut(&works[4], 40);
  widen(works[4].p, 40, 4, 2);
  works[5] = (struct work){.name = "text all a, p = a^63 b", .k = 26, .t = same(1), .m = 64};
  for (size_t j = 0; j < 64; j++) works[5].p[j] = j < 63 ? 1 : 2;
  works[6] = (struct work){.name = "text all [ac], p = ab", .k = 3, .t = same(5), .p = {1, 2}, .m = 2};
  works[7] = (struct work){.name = "names, m = 64 cut from them", .k = 26, .t = t};
  seed = 108;
  cut(&works[7], 64);
  works[8] = (struct work){.name = "every start a hit, m = 64", .k = 2, .t = same(3), .m = 64};
  for (size_t j = 0; j < 64; j++) works[8].p[j] = 1;
}

/* ---- compare ---- */
static uint32_t hits[N + 8], other[N + 8];
static uint64_t counts[3], counted[3], found[5], other_found[5];
static volatile int64_t sink;

/* The stream cut into texts of n letters: total, list, what lies past the list, and counts. Adds up the counts of one side. */
static void compare(const struct work *w, size_t n, int e, uint64_t sum[3]) {
  sum[0] = sum[1] = sum[2] = 0;
  for (size_t at = 0; at + n <= N; at += n) {
    for (size_t i = 0; i < COUNT(hits); i++) hits[i] = other[i] = MARK;
    for (size_t i = 0; i < 3; i++) counts[i] = counted[i] = ~(uint64_t)0;
    int64_t a = LIB[e](w->k, w->p, w->m, w->t + at, n, hits, n, counts, 3);
    int64_t b = C[e](w->k, w->p, w->m, w->t + at, n, other, n, counted, 3);
    if (a != b || a < 0 || memcmp(hits, other, sizeof hits) || memcmp(counts, counted, sizeof counts)) {
      printf("%s differs on %s, n = %zu, text at %zu: total %lld, C %lld\n", NAME[e], w->name, n, at, (long long)a, (long long)b);
      exit(1);
    }
    for (size_t i = 0; i < 3; i++) sum[i] += counts[i];
  }
}

/* The first hit in the same texts: answer, both numbers and what lies past them beside C; start and scan tests beside the library's brute,
 * which on the text up to the end of the hit tests the same starts. Adds up the scan tests. */
static void compare_first(const struct work *w, size_t n, uint64_t *sum) {
  *sum = 0;
  for (size_t at = 0; at + n <= N; at += n) {
    const uint32_t *t = w->t + at;
    for (size_t i = 0; i < COUNT(found); i++) found[i] = other_found[i] = MARK;
    int64_t a = breakwarp_first(w->k, w->p, w->m, t, n, found, COUNT(found));
    int64_t b = c_first(w->k, w->p, w->m, t, n, other_found, COUNT(found));
    int64_t total = breakwarp_brute(w->k, w->p, w->m, t, n, hits, n, counts, 3);
    int agree = a == b && a == (total > 0) && !memcmp(found, other_found, sizeof found) && (a == 0 || found[1] == hits[0]);
    if (agree && a) breakwarp_brute(w->k, w->p, w->m, t, found[1] + w->m, hits, n, counts, 3);
    if (!agree || found[0] != counts[0]) {
      printf("first differs on %s, n = %zu, text at %zu: answer %lld, C %lld, brute's total %lld\n", w->name, n, at, (long long)a,
             (long long)b, (long long)total);
      exit(1);
    }
    *sum += found[0];
  }
}

/* ---- time ---- */
static double now(void) {
  struct timespec s;
  clock_gettime(CLOCK_MONOTONIC, &s);
  return (double)s.tv_sec * 1e9 + (double)s.tv_nsec;
}
struct cell { search_fn *f; first_fn *g; const struct work *w; size_t n; size_t loops; double best; bound_fn *b; }; /* f, g or b is called */
static void all(const struct cell *c) {
  if (c->g) {
    for (size_t at = 0; at + c->n <= N; at += c->n) sink = c->g(c->w->k, c->w->p, c->w->m, c->w->t + at, c->n, found, 2);
    return;
  }
  if (c->b) {
    for (size_t at = 0; at + c->n <= N; at += c->n) sink = c->b(c->w->k, c->w->p, c->w->m, c->w->t + at, c->n, hits, c->n);
    return;
  }
  for (size_t at = 0; at + c->n <= N; at += c->n)
    sink = c->f(c->w->k, c->w->p, c->w->m, c->w->t + at, c->n, hits, c->n, counts, 3);
}
static struct cell ready(struct cell c) { /* as many loops as take a tenth of a millisecond */
  all(&c);
  double a = now();
  all(&c);
  double d = now() - a;
  if (d < 1e5) c.loops = (size_t)(1e5 / (d > 1 ? d : 1)) + 1;
  return c;
}
static struct cell cell(search_fn *f, const struct work *w, size_t n) { return ready((struct cell){f, 0, w, n, 1, 1e99, 0}); }
static struct cell first_cell(first_fn *g, const struct work *w, size_t n) { return ready((struct cell){0, g, w, n, 1, 1e99, 0}); }
static struct cell bound_cell(const struct work *w, size_t n) { return ready((struct cell){0, 0, w, n, 1, 1e99, breakwarp_bound}); }
/* The sides take turns within a pass and the passes lie far apart, so that a busy stretch of the machine hits all alike. */
static void measure(struct cell *c, size_t cells, size_t passes) {
  for (size_t pass = 0; pass < passes; pass++)
    for (size_t x = 0; x < cells; x++) {
      size_t y = pass & 1 ? cells - 1 - x : x;
      double a = now();
      for (size_t q = 0; q < c[y].loops; q++) all(&c[y]);
      double d = (now() - a) / (double)c[y].loops / N;
      if (d < c[y].best) c[y].best = d;
    }
}

static const size_t LENGTHS[2] = {N, 4096};
static int table(size_t passes, int whole) {
  static struct cell c[2 * WORKS * 13];
  static uint64_t sum[2 * WORKS * 6][3];
  size_t x = 0;
  for (int l = 0; l < 2; l++)
    for (int w = 0; w < WORKS; w++) {
      for (int e = 0; e < 6; e++) {
        compare(&works[w], LENGTHS[l], e, sum[(l * WORKS + w) * 6 + e]);
        c[x++] = cell(LIB[e], &works[w], LENGTHS[l]);
        c[x++] = cell(C[e], &works[w], LENGTHS[l]);
      }
      c[x++] = cell(plain_brute, &works[w], LENGTHS[l]);
    }
  if (whole) printf("compared: total, list, rest of the list and counts agree on all %d searches\n\n", 2 * WORKS * 6);
  measure(c, x, passes);
  if (whole) printf("| engine | workload | n | library ns a letter | C ns a letter | ratio | work a letter |\n|---|---|---|---|---|---|---|\n");
  double mean[6] = {0}, worst[6] = {0};
  const char *where[6];
  size_t at[6];
  for (int e = 0; e < 6; e++)
    for (int w = 0; w < WORKS; w++)
      for (int l = 0; l < 2; l++) {
        size_t y = (size_t)(l * WORKS + w) * 13 + 2 * (size_t)e;
        const uint64_t *s = sum[(l * WORKS + w) * 6 + e];
        double ratio = c[y].best / c[y + 1].best;
        mean[e] += ratio / (2 * WORKS);
        if (ratio > worst[e]) worst[e] = ratio, where[e] = works[w].name, at[e] = LENGTHS[l];
        if (whole)
          printf("| %s | %s | %zu | %.3f | %.3f | %.2f | %.3f |\n", NAME[e], works[w].name, LENGTHS[l], c[y].best, c[y + 1].best, ratio,
                 (double)(s[0] + s[1] + s[2]) / N);
      }
  printf("\n| engine | mean ratio | worst ratio | where |\n|---|---|---|---|\n");
  for (int e = 0; e < 6; e++) printf("| %s | %.2f | %.2f | %s, n = %zu |\n", NAME[e], mean[e], worst[e], where[e], at[e]);
  if (!whole) return 0;
  printf("\n| workload | n | library brute ns a letter | plain brute ns a letter | ratio |\n|---|---|---|---|---|\n");
  for (int w = 0; w < WORKS; w++)
    for (int l = 0; l < 2; l++) {
      size_t y = (size_t)(l * WORKS + w) * 13;
      printf("| %s | %zu | %.3f | %.3f | %.2f |\n", works[w].name, LENGTHS[l], c[y].best, c[y + 12].best, c[y].best / c[y + 12].best);
    }
  return 0;
}

/* n on the names at m = 8; m on the names; m where brute does the most work: text all a, pattern all a but its last letter, b. */
#define SIZES 21
static int grow(size_t passes) {
  static struct work g[SIZES];
  static struct cell c[SIZES * 12];
  static uint64_t sum[SIZES * 6][3];
  size_t x = 0;
  for (int v = 0; v < SIZES; v++) {
    struct work *w = &g[v];
    size_t n = v < 7 ? (size_t)1024 << v : N;
    *w = works[v < 14 ? 0 : 5];
    if (v < 14) {
      seed = 109;
      cut(w, 64);
    }
    w->m = v < 7 ? 8 : (size_t)1 << (v % 7);
    if (v >= 14) w->p[w->m - 1] = 2;
    for (int e = 0; e < 6; e++) {
      compare(w, n, e, sum[v * 6 + e]);
      c[x++] = cell(LIB[e], w, n);
      c[x++] = cell(C[e], w, n);
    }
  }
  measure(c, x, passes);
  printf("| engine | text | n | m | library ns a letter | C ns a letter | ratio | scan | shift | steps | work a letter |\n"
         "|---|---|---|---|---|---|---|---|---|---|---|\n");
  for (int e = 0; e < 6; e++)
    for (int v = 0; v < SIZES; v++) {
      const struct cell *y = &c[v * 12 + 2 * e];
      const uint64_t *s = sum[v * 6 + e];
      printf("| %s | %s | %zu | %zu | %.3f | %.3f | %.2f | %llu | %llu | %llu | %.3f |\n", NAME[e], v < 14 ? "names" : "all a", y->n, g[v].m,
             y[0].best, y[1].best, y[0].best / y[1].best, (unsigned long long)s[0], (unsigned long long)s[1], (unsigned long long)s[2],
             (double)(s[0] + s[1] + s[2]) / N);
    }
  return 0;
}

/* R of every text letter is 0, or there is none: b, a .., c in a text all b, and all d. And the names cut into short texts, where what is made of the
 * pattern beforehand weighs. The three engines that ask for R. */
static int walk(size_t passes) {
  static const struct { const char *name; size_t m, n; } kinds[] = {{"R is 0", 8, N}, {"R is 0", 64, N}, {"no R", 8, N}, {"no R", 64, N},
    {"names", 4, 16}, {"names", 8, 64}, {"names", 8, 256}, {"names", 64, 256}};
  static const int asks[3] = {2, 3, 5};
  static struct work g[COUNT(kinds)];
  static struct cell c[COUNT(kinds) * 6];
  static uint64_t sum[COUNT(kinds) * 3][3];
  size_t x = 0;
  uint32_t *const texts[2] = {same(2), same(8)};
  for (size_t v = 0; v < COUNT(kinds); v++) {
    struct work *w = &g[v];
    *w = works[0];
    seed = 109;
    cut(w, 64);
    if (v < 4) *w = (struct work){.k = 4, .t = texts[v / 2]};
    w->name = kinds[v].name;
    w->m = kinds[v].m;
    for (size_t j = 0; v < 4 && j < w->m; j++) w->p[j] = j == 0 ? 2 : j + 1 < w->m ? 1 : 4;
    for (int a = 0; a < 3; a++) {
      compare(w, kinds[v].n, asks[a], sum[v * 3 + (size_t)a]);
      c[x++] = cell(LIB[asks[a]], w, kinds[v].n);
      c[x++] = cell(C[asks[a]], w, kinds[v].n);
    }
  }
  measure(c, x, passes);
  printf("| engine | text | n | m | library ns a letter | C ns a letter | ratio | work a letter | texts |\n|---|---|---|---|---|---|---|---|---|\n");
  for (size_t a = 0; a < 3; a++)
    for (size_t v = 0; v < COUNT(kinds); v++) {
      const struct cell *y = &c[v * 6 + 2 * a];
      const uint64_t *s = sum[v * 3 + a];
      printf("| %s | %s | %zu | %zu | %.3f | %.3f | %.2f | %.3f | %zu |\n", NAME[asks[a]], g[v].name, y->n, g[v].m, y[0].best, y[1].best,
             y[0].best / y[1].best, (double)(s[0] + s[1] + s[2]) / N, N / y->n);
    }
  return 0;
}

/* No hit: the pattern ends with a base letter that the text has not, so that brute lists nothing and first makes all its tests. Start 0: the
 * pattern is what the text begins with, every doubt resolved, so that the check of the text is nearly all that is done. */
static int first(size_t passes) {
  static struct work none[WORKS], head[WORKS];
  static struct cell c[WORKS * 8];
  static uint64_t sum[2 * WORKS];
  uint64_t tests;
  size_t x = 0;
  for (int w = 0; w < WORKS; w++) {
    none[w] = head[w] = works[w];
    none[w].p[none[w].m - 1] = 1u << works[w].k;
    none[w].k++;
    for (size_t j = 0; j < head[w].m; j++) head[w].p[j] = head[w].t[j] & (0u - head[w].t[j]);
  }
  for (int l = 0; l < 2; l++)
    for (int w = 0; w < WORKS; w++) {
      compare_first(&works[w], LENGTHS[l], &tests);
      compare_first(&head[w], LENGTHS[l], &tests);
      compare_first(&none[w], LENGTHS[l], &sum[l * WORKS + w]);
      c[x++] = first_cell(breakwarp_first, &none[w], LENGTHS[l]);
      c[x++] = cell(breakwarp_brute, &none[w], LENGTHS[l]);
      c[x++] = first_cell(c_first, &none[w], LENGTHS[l]);
    }
  for (int w = 0; w < WORKS; w++) {
    c[x++] = first_cell(breakwarp_first, &head[w], N);
    c[x++] = first_cell(c_first, &head[w], N);
  }
  printf("compared: answer, numbers and the rest of the list agree with C, start and scan tests with brute, on all %d first hits\n\n", 6 * WORKS);
  measure(c, x, passes);
  printf("| workload, no hit | n | first ns a letter | brute ns a letter | ratio to brute | C ns a letter | ratio to C | tests a letter |\n"
         "|---|---|---|---|---|---|---|---|\n");
  for (int w = 0; w < WORKS; w++)
    for (int l = 0; l < 2; l++) {
      const struct cell *y = &c[(l * WORKS + w) * 3];
      printf("| %s | %zu | %.3f | %.3f | %.2f | %.3f | %.2f | %.3f |\n", works[w].name, LENGTHS[l], y[0].best, y[1].best,
             y[0].best / y[1].best, y[2].best, y[0].best / y[2].best, (double)sum[l * WORKS + w] / N);
    }
  printf("\n| workload, hit at start 0 | n | m | first ns a letter | C ns a letter | ratio to C |\n|---|---|---|---|---|---|\n");
  for (int w = 0; w < WORKS; w++) {
    const struct cell *y = &c[WORKS * 6 + 2 * w];
    printf("| %s | %d | %zu | %.3f | %.3f | %.2f |\n", works[w].name, N, head[w].m, y[0].best, y[1].best, y[0].best / y[1].best);
  }
  return 0;
}

/* ---- the bound mode ---- */

/* Whether the pattern is bound to what begins at t, and its choice: what two paired sets share is left to every set that is equal to one of
 * them, again and again until nothing changes. */
static int bound_here(const uint32_t *p, const uint32_t *t, size_t m, uint32_t *choice) {
  uint32_t set[128], left[128];
  for (size_t j = 0; j < m; j++) set[j] = left[j] = p[j], set[m + j] = left[m + j] = t[j];
  for (int again = 1; again;) {
    again = 0;
    for (size_t j = 0; j < m; j++) {
      uint32_t both = left[j] & left[m + j], a = set[j], b = set[m + j];
      if (!both) return 0;
      if (left[j] == both && left[m + j] == both) continue;
      again = 1;
      for (size_t x = 0; x < 2 * m; x++)
        if (set[x] == a || set[x] == b) left[x] = both;
    }
  }
  for (size_t j = 0; j < m; j++)
    for (choice[j] = 0; !(left[j] >> choice[j] & 1); choice[j]++) continue;
  return 1;
}

/* The stream cut into texts of n letters: total, list and what lies past it, beside those of brute's hits that the plain check leaves; at up to
 * 64 of its starts the choice. Adds up hits and bound starts. */
static void compare_bound(const struct work *w, size_t n, uint64_t sum[2]) {
  uint32_t due[64], choice[64];
  sum[0] = sum[1] = 0;
  for (size_t at = 0; at + n <= N; at += n) {
    const uint32_t *t = w->t + at;
    for (size_t i = 0; i < COUNT(hits); i++) hits[i] = other[i] = MARK;
    int64_t all = breakwarp_brute(w->k, w->p, w->m, t, n, other, n, counts, 3), listed = 0, agree = all >= 0;
    for (int64_t i = 0; i < all; i++) {
      uint32_t start = other[i];
      other[i] = MARK;
      if (!bound_here(w->p, t + start, w->m, due)) continue;
      other[listed++] = start;
      if (listed > 64) continue;
      agree &= breakwarp_bound_choice(w->k, w->p, w->m, t, n, start, choice, w->m) == 1 && !memcmp(choice, due, w->m * sizeof *due);
    }
    int64_t a = breakwarp_bound(w->k, w->p, w->m, t, n, hits, n);
    if (!agree || a != listed || memcmp(hits, other, sizeof hits)) {
      printf("bound differs on %s, n = %zu, text at %zu: total %lld, plain %lld\n", w->name, n, at, (long long)a, (long long)listed);
      exit(1);
    }
    sum[0] += (uint64_t)all;
    sum[1] += (uint64_t)listed;
  }
}

/* One start at m = 64, which is all of its text; the row of the table that it belongs to; microseconds of both calls, alone and in turn. */
struct start { uint32_t k, p[64], t[64]; int row; double one[2], turn[2]; };
#define STARTS 256
#define TURNS 401
static struct start starts[STARTS];
static size_t made;

/* The link of a chain of 64 that stands at each position. */
#define ORDERS 7
static const char *const ORDER[ORDERS] = {"a chain from left to right", "a chain from right to left", "a chain from the middle outwards",
  "a chain from both ends inwards", "a chain, even links first, odd ones back", "a chain, joining twos, fours, eights", "a chain in any order"};
static void arrange(int order, size_t link[64]) {
  size_t at = 0;
  for (size_t x = 0; x < 64; x++) {
    size_t half = x / 2, by[ORDERS] = {x, 63 - x, x % 2 ? 32 + half : 31 - half, x % 2 ? 63 - half : half, x < 32 ? 2 * x : 127 - 2 * x, x, x};
    link[x] = by[order];
  }
  for (size_t step = 2; order == 5 && step <= 128; step *= 2)
    for (size_t j = step / 2 - 1; j < 64; j += step) link[at++] = j;
  for (size_t x = 63; order == 6 && x; x--) {
    size_t y = below((uint32_t)x + 1), held = link[x];
    link[x] = link[y];
    link[y] = held;
  }
}

/* Chains of so many links, each with sets of its own, 64 links in all. The sets of a chain share base letters 30 and 31 and have others besides,
 * few or many. `ends` is 0 without a single letter, 1 and 2 with one at the first or the last end, 3 with two that do not agree. `over` is which
 * of a pair is the pattern's: the first, the second, or both in turn. */
static void chained(int row, int order, size_t links, int ends, int over, uint32_t wide) {
  struct start *s = &starts[made++];
  uint32_t a[64], b[64];
  size_t link[64];
  for (uint32_t x = 0; x < 64; x++) {
    size_t in = x % links;
    a[x] = in ? b[x - 1] : ends & 1 ? 1u << 31 : 3u << 30 | ((uint32_t)next() & wide) | 2 * x;
    b[x] = 3u << 30 | ((uint32_t)next() & wide) | (2 * x + 1);
    if ((in == links - 1 || x == 63) && ends & 2) b[x] = 1u << (ends == 3 ? 30 : 31);
  }
  arrange(order, link);
  *s = (struct start){.k = 32, .row = row};
  for (size_t x = 0; x < 64; x++) {
    size_t l = link[x];
    int second = over == 2 ? (int)(l % 2) : over;
    s->p[x] = second ? b[l] : a[l];
    s->t[x] = second ? a[l] : b[l];
  }
}

/* Starts without chains, in four variants of each. */
#define OTHERS 6
static const char *const OTHER[OTHERS] = {"everything single", "all sets equal", "128 sets, none tied", "one set over 64 others",
  "two sets over 31 others each, tied last", "twelve wide sets in pairs by chance"};
static void unchained(int row, int kind, int variant) {
  struct start *s = &starts[made++];
  uint32_t few[12];
  for (size_t j = 0; j < 12; j++) few[j] = 1u << 31 | (uint32_t)next();
  *s = (struct start){.k = 32, .row = row};
  for (uint32_t j = 0; j < 64; j++) {
    uint32_t a = 3u << 30 | 2 * j, b = 3u << 30 | (2 * j + 1);
    if (kind == 0) a = b = 1u << (variant % 2 ? j % 26 : 0);
    if (kind == 1) a = b = variant % 2 ? ~0u : 3;
    if (kind == 3) b = 3u << 30 | 1;
    if (kind == 4) b = 3u << 30 | (j % 2 ? 1 : 3);
    if (kind == 4 && j == 62) a = 1u << (variant % 2 ? 31 : 30);
    if (kind == 4 && j == 63) a = 3u << 30 | 3;
    if (kind == 5) a = few[below(12)], b = few[below(12)];
    s->p[j] = variant / 2 ? b : a;
    s->t[j] = variant / 2 ? a : b;
  }
}

/* What each row of the table is of: chains of 64 links by their order, chains of two and of three, and those without chains. */
#define ROWS (ORDERS + 2 + OTHERS)
static const char *row_name(int row) {
  return row < ORDERS ? ORDER[row] : row == ORDERS ? "chains of two links" : row == ORDERS + 1 ? "chains of three links" : OTHER[row - ORDERS - 2];
}
static void make_starts(void) {
  seed = 110;
  for (int v = 0; v < 24; v++)
    for (int order = 0; order < ORDERS; order++) chained(order, order, 64, v % 4, v / 4 % 3, v / 12 ? 0x3fffff00u : 0);
  for (int v = 0; v < 24; v++)
    for (int row = ORDERS; row < ORDERS + 2; row++) chained(row, v / 12 ? 6 : 0, (size_t)(row - ORDERS + 2), v % 4, v / 4 % 3, 0x3fffff00u);
  for (int v = 0; v < 4; v++)
    for (int kind = 0; kind < OTHERS; kind++) unchained(ORDERS + 2 + kind, kind, v);
}

static int64_t call(const struct start *s, size_t which) {
  return which ? breakwarp_bound_choice(s->k, s->p, 64, s->t, 64, 0, other, 64) : breakwarp_bound(s->k, s->p, 64, s->t, 64, hits, 1);
}
static int rising(const void *a, const void *b) {
  double x = *(const double *)a, y = *(const double *)b;
  return (x > y) - (x < y);
}
/* Alone: sixteen calls in a row, the least mean of all passes. In turn: one call of every start after the other, so that no branch is foretold from
 * the call before; the median. */
static void time_starts(size_t passes) {
  static double turn[2 * STARTS][TURNS];
  for (size_t x = 0; x < 2 * made; x++) starts[x / 2].one[x % 2] = 1e99;
  for (size_t pass = 0; pass < passes; pass++)
    for (size_t x = 0; x < 2 * made; x++) {
      double a = now();
      for (int q = 0; q < 16; q++) sink = call(&starts[x / 2], x % 2);
      double d = (now() - a) / 16e3, *best = &starts[x / 2].one[x % 2];
      if (d < *best) *best = d;
    }
  for (size_t q = 0; q < TURNS; q++)
    for (size_t y = 0; y < 2 * made; y++) {
      size_t x = y * 37 % (2 * made); /* not beside those that are alike; 37 has no factor in common with their number */
      double a = now();
      sink = call(&starts[x / 2], x % 2);
      turn[x][q] = (now() - a) / 1e3;
    }
  for (size_t x = 0; x < 2 * made; x++) {
    qsort(turn[x], TURNS, sizeof *turn[x], rising);
    starts[x / 2].turn[x % 2] = turn[x][TURNS / 2];
  }
}

static void compare_start(const struct start *s) {
  uint32_t due[64];
  int listed = bound_here(s->p, s->t, 64, due);
  for (size_t j = 0; j < 64; j++) other[j] = MARK;
  int agree = call(s, 0) == listed && call(s, 1) == listed && (listed ? !memcmp(other, due, sizeof due) : other[0] == MARK);
  if (agree) return;
  printf("bound differs on one start, %s: plain %d\n", row_name(s->row), listed);
  exit(1);
}

/* The worst of all starts of a row, call by call. */
static void worst_starts(size_t passes) {
  double most = 0;
  int where = 0;
  make_starts();
  for (size_t x = 0; x < made; x++) compare_start(&starts[x]);
  printf("\ncompared: answer and choice agree with a plain check on all %zu starts of one pattern of 64 letters\n\n", made);
  time_starts(passes);
  printf("| one start, m = 64, the worst of | starts | listed | bound us | choice us | bound us in turn | choice us in turn | most us | of 20 |\n"
         "|---|---|---|---|---|---|---|---|---|\n");
  for (int row = 0; row < ROWS; row++) {
    double at[4] = {0}, top = 0;
    size_t of = 0, listed = 0;
    for (size_t x = 0; x < made; x++) {
      const struct start *s = &starts[x];
      if (s->row != row) continue;
      of++;
      listed += call(s, 0) == 1;
      for (size_t y = 0; y < 4; y++) {
        double d = y < 2 ? s->one[y] : s->turn[y - 2];
        if (d > at[y]) at[y] = d;
        if (d > top) top = d;
      }
    }
    if (top > most) most = top, where = row;
    printf("| %s | %zu | %zu | %.2f | %.2f | %.2f | %.2f | %.2f | %.2f |\n", row_name(row), of, listed, at[0], at[1], at[2], at[3], top, top / 20);
  }
  printf("\nthe worst start of all: %.2f us, %s\n", most, row_name(where));
}

/* The list beside brute, which finds the same hits and asks nothing more of them. */
static int bound(size_t passes) {
  static struct cell c[2 * WORKS * 2];
  static uint64_t sum[2 * WORKS][2];
  size_t x = 0;
  for (int l = 0; l < 2; l++)
    for (int w = 0; w < WORKS; w++) {
      compare_bound(&works[w], LENGTHS[l], sum[l * WORKS + w]);
      c[x++] = bound_cell(&works[w], LENGTHS[l]);
      c[x++] = cell(breakwarp_brute, &works[w], LENGTHS[l]);
    }
  printf("compared: total, list, rest of the list and choices agree with a plain check of brute's hits on all %d bound lists\n\n", 2 * WORKS);
  measure(c, x, passes);
  printf("| workload, bound | n | m | hits | bound starts | bound ns a letter | brute ns a letter | ratio to brute | ns more a hit |\n"
         "|---|---|---|---|---|---|---|---|---|\n");
  double worst = 0;
  for (int w = 0; w < WORKS; w++)
    for (int l = 0; l < 2; l++) {
      const struct cell *y = &c[(l * WORKS + w) * 2];
      const uint64_t *s = sum[l * WORKS + w];
      double ratio = y[0].best / y[1].best;
      char more[16] = "-"; /* of few hits it would be noise */
      if (s[0] > 1000) snprintf(more, sizeof more, "%.1f", (y[0].best - y[1].best) * N / (double)s[0]);
      if (!strncmp(works[w].name, "names", 5) && ratio > worst) worst = ratio;
      printf("| %s | %zu | %zu | %llu | %llu | %.3f | %.3f | %.2f | %s |\n", works[w].name, LENGTHS[l], works[w].m, (unsigned long long)s[0],
             (unsigned long long)s[1], y[0].best, y[1].best, ratio, more);
    }
  printf("\nbound to brute on the names: worst %.2f\n", worst);
  worst_starts(passes / 3 + 1);
  return 0;
}

int main(int argc, char **argv) {
  cpu_set_t one;
  CPU_ZERO(&one);
  CPU_SET((size_t)sysconf(_SC_NPROCESSORS_ONLN) - 1, &one);
  sched_setaffinity(0, sizeof one, &one); /* one core throughout; if refused, the times are only less steady */
  make();
  if (argc > 4 && !strcmp(argv[1], "once")) {
    int e = atoi(argv[3]), w = atoi(argv[4]);
    if (e < 0 || e > 5 || w < 0 || w >= WORKS) return 2;
    struct work *q = &works[w];
    int64_t r = (argv[2][0] == 'l' ? LIB : C)[e](q->k, q->p, q->m, q->t, N, hits, N, counts, 3);
    printf("%s %s on %s: total %lld, tests and steps %llu\n", argv[2], NAME[e], q->name, (long long)r,
           (unsigned long long)(counts[0] + counts[1] + counts[2]));
    return 0;
  }
  if (argc > 1 && !strcmp(argv[1], "grow")) return grow(argc > 2 ? (size_t)atol(argv[2]) : 100);
  if (argc > 1 && !strcmp(argv[1], "walk")) return walk(argc > 2 ? (size_t)atol(argv[2]) : 100);
  if (argc > 1 && !strcmp(argv[1], "first")) return first(argc > 2 ? (size_t)atol(argv[2]) : 150);
  if (argc > 1 && !strcmp(argv[1], "bound")) return bound(argc > 2 ? (size_t)atol(argv[2]) : 150);
  if (argc > 1 && !strcmp(argv[1], "means")) return table(argc > 2 ? (size_t)atol(argv[2]) : 60, 0);
  return table(argc > 1 ? (size_t)atol(argv[1]) : 150, 1);
}
