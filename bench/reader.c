/* Times the reader of a sheet: one of 8,192 bytes whose text is single letters, brackets, stars, or entries with marks between them; and the report of the
 * worked sheet, whose text is so short that what each of the six does once a search weighs.
 *   reader [PASSES]    ns a byte, and ns a report, the least of so many passes
 * Built with BESIDE it times those of another archive in turn with the first, and prints the ratio too.
 */
#define _GNU_SOURCE
#include "../c/breakwarp.h"
#include <stdio.h>
#include <stdlib.h>
#include <string.h>
#include <time.h>

typedef int64_t read_fn(const uint8_t *, size_t, uint8_t *, size_t, uint32_t *, size_t, uint32_t *, size_t, uint64_t *, size_t);
typedef int64_t report_fn(const uint8_t *, size_t, uint8_t *, size_t);
#ifdef BESIDE
read_fn before_read_sheet;
report_fn before_report;
static read_fn *const READ[] = {breakwarp_read_sheet, before_read_sheet};
static report_fn *const REPORT[] = {breakwarp_report, before_report};
#else
static read_fn *const READ[] = {breakwarp_read_sheet};
static report_fn *const REPORT[] = {breakwarp_report};
#endif
#define READERS (sizeof READ / sizeof *READ)

static double now(void) {
  struct timespec t;
  clock_gettime(CLOCK_MONOTONIC, &t);
  return (double)t.tv_sec * 1e9 + (double)t.tv_nsec;
}

/* `unit`, which is `letters` letters, as often as the sheet has room for it */
static size_t fill(uint8_t *sheet, const char *unit, size_t letters) {
  const char *head = "26\nabcdefghijklmnopqrstuvwxyz\n4\nanna\n";
  size_t len = strlen(unit), times = (BREAKWARP_MAX_SHEET - strlen(head) - 6) / len;
  int at = sprintf((char *)sheet, "%s%zu\n", head, times * letters);
  for (size_t i = 0; i < times; i++, at += (int)len) memcpy(sheet + at, unit, len);
  sheet[at] = '\n';
  return (size_t)at + 1;
}

/* The least time of each reader, in ns; what the last one answered. */
static int64_t least(const uint8_t *sheet, size_t len, int passes, double *best) {
  static uint8_t alphabet[BREAKWARP_MAX_K];
  static uint32_t pattern[BREAKWARP_MAX_M], text[BREAKWARP_MAX_SHEET_TEXT];
  uint64_t sizes[3];
  int64_t r = 0;
  for (int i = 0; i < passes; i++)
    for (size_t v = 0; v < READERS; v++) {
      double from = now();
      r = READ[v](sheet, len, alphabet, BREAKWARP_MAX_K, pattern, BREAKWARP_MAX_M, text, BREAKWARP_MAX_SHEET_TEXT, sizes, 3);
      double took = now() - from;
      if (i == 0 || took < best[v]) best[v] = took;
    }
  return r;
}

/* The least time of a report by each archive, in ns, of a hundred in a row; 0 if one was refused. */
static int reports(int passes, double *best) {
  static const char worked[] = "3\naen\n4\nanna\n12\nannann[ae]nann[an]\n";
  static uint8_t out[BREAKWARP_MAX_REPORT];
  for (int i = 0; i < passes; i++)
    for (size_t v = 0; v < READERS; v++) {
      double from = now();
      for (int x = 0; x < 100; x++)
        if (REPORT[v]((const uint8_t *)worked, sizeof worked - 1, out, sizeof out) < 0) return 0;
      double took = (now() - from) / 100;
      if (i == 0 || took < best[v]) best[v] = took;
    }
  return 1;
}

int main(int argc, char **argv) {
  static const struct { const char *name, *unit; size_t letters; } kinds[] = {
    {"single", "henrybaptised", 13}, {"brackets", "[ae]n[nu]a", 4}, {"stars", "ann*", 4}, {"marks", "ann[ae]|", 5}};
  static uint8_t sheet[BREAKWARP_MAX_SHEET + 8];
  int passes = argc > 1 ? atoi(argv[1]) : 2000;
  for (size_t x = 0; x < sizeof kinds / sizeof *kinds; x++) {
    double best[READERS];
    size_t len = fill(sheet, kinds[x].unit, kinds[x].letters);
    if (least(sheet, len, passes, best) < 0) {
      printf("reader %-9s refused by the last one\n", kinds[x].name);
      continue;
    }
    printf("reader %-9s %.3f ns a byte", kinds[x].name, best[0] / (double)len);
    if (READERS > 1) printf(", %.3f of the one before", best[0] / best[READERS - 1]);
    puts("");
  }
  double best[READERS];
  if (!reports(passes, best)) return 1;
  printf("report of the worked sheet %.0f ns", best[0]);
  if (READERS > 1) printf(", %.3f of the one before", best[0] / best[READERS - 1]);
  puts("");
  return 0;
}
