/* The six engines and the first hit in plain C, straight from the rules, with every check and count: what the library is timed beside.
 * No `restrict`: the library's code assumes nothing about overlap either, so both sides leave the compiler the same freedom.
 */
#include "engines.h"

#define MEET(a, b) (((a) & (b)) != 0)
#define UNSURE(c) (((c) & ((c) - 1)) != 0)
#define HIT(i) do { if (total < cap) hits[total] = (uint32_t)(i); total++; } while (0)

/* Refusals 1 to 5, then 8. The text, which may hold entry marks, is checked in one OR pass without an early end. */
static inline int64_t check(uint32_t k, const uint32_t *p, size_t m, const uint32_t *t, size_t n, size_t nwork) {
  if (k == 0 || k > 32) return -1;
  if (m == 0 || m > 64) return -2;
  if (n > 65536) return -3;
  uint32_t out = k == 32 ? 0 : ~0u << k;
  for (size_t j = 0; j < m; j++)
    if (p[j] == 0 || (p[j] & out)) return -4;
  uint32_t any = 0;
  for (size_t j = 0; j < n; j++) any |= t[j];
  if (any & out) return -5;
  return nwork < 3 ? -8 : 0;
}
#define START                                                \
  int64_t refused = check(k, p, m, t, n, nwork);             \
  if (refused) return refused;                               \
  uint64_t scan = 0, shift = 0, word = 0;                    \
  size_t total = 0;                                          \
  if (m > n) { work[0] = work[1] = work[2] = 0; return 0; }
#define END                                                  \
  work[0] = scan; work[1] = shift; work[2] = word;           \
  return (int64_t)total;

/* R: the last pattern index whose letter meets c, -1 if none, by a walk from the right end. */
static inline int64_t R(const uint32_t *p, size_t m, uint32_t c) {
  size_t h = m;
  while (h > 0 && !MEET(p[h - 1], c)) h--;
  return (int64_t)h - 1;
}

/* The pattern positions that hold each base letter, as bits of a word. */
static inline void mask_table(uint64_t B[32], const uint32_t *p, size_t m) {
  for (int b = 0; b < 32; b++) B[b] = 0;
  for (size_t j = 0; j < m; j++)
    for (uint32_t c = p[j]; c; c &= c - 1) B[__builtin_ctz(c)] |= (uint64_t)1 << j;
}
static inline uint64_t mask(const uint64_t B[32], uint32_t c) {
  uint64_t r = 0;
  for (; c; c &= c - 1) r |= B[__builtin_ctz(c)];
  return r;
}

ENGINE(c_brute) {
  START
  for (size_t i = 0; i <= n - m; i++) {
    size_t j = 0;
    while (j < m) {
      scan++;
      if (!MEET(p[j], t[i + j])) break;
      j++;
    }
    if (j == m) HIT(i);
  }
  END
}

ENGINE(c_kmp) {
  START
  /* Borders exist only for the longest prefix of the pattern that is all single. */
  uint32_t bord[65];
  size_t sp = 0;
  while (sp < m && !UNSURE(p[sp])) sp++;
  bord[0] = 0;
  if (sp) bord[1] = 0;
  for (size_t h = 2; h <= sp; h++) {
    size_t b = bord[h - 1];
    while (b > 0 && p[b] != p[h - 1]) b = bord[b];
    bord[h] = (uint32_t)(p[b] == p[h - 1] ? b + 1 : 0);
  }
  size_t i = 0, r = 0, lu = 0; /* lu: 1 + the last unsure text position that was met, 0 if none */
  while (i <= n - m) {
    size_t h = r;
    while (h < m) {
      uint32_t c = t[i + h];
      scan++;
      if (!MEET(p[h], c)) break;
      if (UNSURE(c)) lu = i + h + 1;
      h++;
    }
    if (h == m) HIT(i);
    if (h == 0) { i++; r = 0; continue; }
    size_t s;
    if (h <= sp && lu <= i) {
      s = h - bord[h];
    } else {
      for (s = 1; s < h && i + s <= n - m; s++) {
        size_t j = 0;
        while (j < h - s) {
          shift++;
          if (!MEET(p[j], t[i + s + j])) break;
          j++;
        }
        if (j == h - s) break;
      }
    }
    i += s;
    r = h - s;
  }
  END
}

ENGINE(c_bm) {
  START
  int psingle = 1;
  for (size_t j = 0; j < m; j++) psingle &= !UNSURE(p[j]);
  /* gs[g]: the least s for which the pattern moved by s agrees with its last g letters, from the Z array of the pattern reversed. */
  uint32_t gs[65];
  if (psingle) {
    uint32_t z[65];
    size_t l = 0, rr = 0, g = 0;
    for (size_t s = 1; s < m; s++) {
      size_t q = s < rr ? (z[s - l] < rr - s ? z[s - l] : rr - s) : 0;
      while (s + q < m && p[m - 1 - q] == p[m - 1 - s - q]) q++;
      z[s] = (uint32_t)q;
      if (s + q > rr) { l = s; rr = s + q; }
      size_t upto = q == m - s ? m : q;
      while (g <= upto) gs[g++] = (uint32_t)s;
    }
    while (g <= m) gs[g++] = (uint32_t)m;
  }
  size_t i = 0;
  while (i <= n - m) {
    size_t g = 0;
    int tsingle = 1;
    int64_t s2 = 1;
    while (g < m) {
      uint32_t c = t[i + m - 1 - g];
      scan++;
      if (!MEET(p[m - 1 - g], c)) break;
      tsingle &= !UNSURE(c);
      g++;
    }
    if (g == m) HIT(i);
    else {
      size_t j = m - 1 - g;
      int64_t d = (int64_t)j - R(p, m, t[i + j]);
      if (d > 1) s2 = d;
    }
    size_t s;
    if (psingle && tsingle) {
      s = gs[g];
    } else {
      for (s = 1; s < m && i + s <= n - m; s++) {
        size_t q = m - g > s ? m - g : s; /* covered: q to m - 1, left to right */
        while (q < m) {
          shift++;
          if (!MEET(p[q - s], t[i + q])) break;
          q++;
        }
        if (q == m) break;
      }
    }
    i += s > (size_t)s2 ? s : (size_t)s2;
  }
  END
}

ENGINE(c_sunday) {
  START
  size_t i = 0;
  while (i <= n - m) {
    size_t j = 0;
    while (j < m) {
      scan++;
      if (!MEET(p[j], t[i + j])) break;
      j++;
    }
    if (j == m) HIT(i);
    if (i + m == n) break;
    i += (size_t)((int64_t)m - R(p, m, t[i + m]));
  }
  END
}

ENGINE(c_shiftand) {
  START
  uint64_t B[32], top = (uint64_t)1 << (m - 1), D = 0;
  mask_table(B, p, m);
  for (size_t e = 0; e < n; e++) {
    word++;
    D = ((D << 1) | 1) & mask(B, t[e]);
    if (D & top) HIT(e + 1 - m);
  }
  END
}

ENGINE(c_hybrid) {
  START
  uint64_t B[32], top = (uint64_t)1 << (m - 1);
  mask_table(B, p, m);
  size_t a = 0;
  while (a <= n - m) {
    scan++;
    if (!MEET(p[m - 1], t[a + m - 1])) {
      if (a + m == n) break;
      a += (size_t)((int64_t)m - R(p, m, t[a + m]));
      continue;
    }
    uint64_t D = 0;
    do {
      word++;
      D = ((D << 1) | 1) & mask(B, t[a]);
      a++;
      if (D & top) HIT(a - m);
    } while (D && a < n);
  }
  END
}

/* Brute as anyone would write it: no counts, no checks. */
ENGINE(plain_brute) {
  (void)k; (void)work; (void)nwork;
  size_t total = 0;
  for (size_t i = 0; i + m <= n; i++) {
    size_t j = 0;
    while (j < m && (p[j] & t[i + j])) j++;
    if (j == m) HIT(i);
  }
  return (int64_t)total;
}

/* The first hit: brute's loop, left at it. It stands last, so that the engines lie where they lay without it. */
int64_t c_first(uint32_t k, const uint32_t *p, size_t m, const uint32_t *t, size_t n, uint64_t *found, size_t nfound) {
  int64_t refused = check(k, p, m, t, n, 3);
  if (refused) return refused;
  if (nfound < 2) return -8;
  uint64_t scan = 0;
  if (m > n) { found[0] = 0; return 0; }
  for (size_t i = 0; i <= n - m; i++) {
    size_t j = 0;
    while (j < m) {
      scan++;
      if (!MEET(p[j], t[i + j])) break;
      j++;
    }
    if (j == m) { found[0] = scan; found[1] = i; return 1; }
  }
  found[0] = scan;
  return 0;
}
