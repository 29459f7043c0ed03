/* How much stack each call uses: it runs on a thread whose stack was filled with a pattern beforehand, and what the pattern no longer covers
 * was used. Build and run:
 *   cc -std=c11 -O2 -o stack c/stack.c target/staticlib/libbreakwarp.a -lpthread && ./stack
 */
#define _GNU_SOURCE
#include "breakwarp.h"
#include <pthread.h>
#include <stdio.h>
#include <stdlib.h>
#include <string.h>

#define SIZE (1u << 20)
static const char sheet[] = "3\naen\n4\nanna\n12\nannann[ae]nann[an]\n";
static uint32_t pattern[64], links[66], text[65536], hits[65536], other[65536];
static uint64_t work[3];
static uint8_t bytes[BREAKWARP_MAX_REPORT], alphabet[32] = "ab";

static void *nothing(void *a) { return a; }
#define SEARCH(e) static void *e(void *a) { breakwarp_##e(2, pattern, 64, text, 65536, hits, 65536, work, 3); return a; }
SEARCH(brute) SEARCH(kmp) SEARCH(bm) SEARCH(sunday) SEARCH(shiftand) SEARCH(hybrid)
/* A hit at the first start, and none at all. */
static void *first(void *a) { breakwarp_first(2, pattern, 64, text, 65536, work, 2); breakwarp_first(3, other, 64, text, 65536, work, 2); return a; }
/* Every start listed, then one start of 65 sets in a chain, listed and not. */
static void *bound(void *a) { breakwarp_bound(2, pattern, 64, text, 65536, hits, 65536); breakwarp_bound(32, links, 64, links + 1, 64, hits, 1); return a; }
static void *bound_choice(void *a) { breakwarp_bound_choice(32, links, 64, links + 1, 64, 0, hits, 64); breakwarp_bound_choice(32, links, 64, links + 2, 64, 0, hits, 64); return a; }
/* The last start of the largest text, and one that shares nothing. */
static void *reasons(void *a) { breakwarp_reasons(2, pattern, 64, text, 65536, 65472, hits, 64); breakwarp_reasons(32, links, 64, links + 1, 64, 0, hits, 64); return a; }
static void *to_products(void *a) { breakwarp_to_products(2, text, 65536, other, 65536); return a; }
static void *from_products(void *a) { breakwarp_from_products(2, other, 65536, hits, 65536); return a; }
static void *products_meet(void *a) { breakwarp_products_meet(9, 223092870, 223092870); return a; }
static void *read_sheet(void *a) { breakwarp_read_sheet((const uint8_t *)sheet, sizeof sheet - 1, alphabet, 32, hits, 64, other, 65536, work, 3); return a; }
static void *write_sheet(void *a) { breakwarp_write_sheet(2, (const uint8_t *)"ab", 2, pattern, 64, text, 4096, bytes, 8192); return a; }
static void *report(void *a) { breakwarp_report((const uint8_t *)sheet, sizeof sheet - 1, bytes, sizeof bytes); return a; }

static size_t used(void *(*f)(void *)) {
  uint8_t *stack = aligned_alloc(4096, SIZE);
  pthread_attr_t attr;
  pthread_t thread;
  memset(stack, 0xA5, SIZE);
  pthread_attr_init(&attr);
  pthread_attr_setstack(&attr, stack, SIZE);
  if (pthread_create(&thread, &attr, f, NULL)) exit(2);
  pthread_join(thread, NULL);
  size_t i = 0;
  while (i < SIZE && stack[i] == 0xA5) i++;
  free(stack);
  return SIZE - i;
}

int main(void) {
  static const struct { const char *name; void *(*f)(void *); } calls[] = {
    {"brute", brute}, {"kmp", kmp}, {"bm", bm}, {"sunday", sunday}, {"shiftand", shiftand}, {"hybrid", hybrid},
    {"first", first}, {"bound", bound}, {"bound_choice", bound_choice}, {"reasons", reasons}, {"to_products", to_products}, {"from_products", from_products}, {"products_meet", products_meet},
    {"read_sheet", read_sheet}, {"write_sheet", write_sheet}, {"report", report}};
  for (size_t i = 0; i < 64; i++) pattern[i] = i % 2 ? 1 : 3;
  for (size_t i = 0; i < 65536; i++) text[i] = i % 3 ? 1 : 3;
  for (size_t i = 0; i < 65536; i++) other[i] = 6;
  for (uint32_t i = 0; i < 66; i++) links[i] = i < 65 ? UINT32_C(1) << 31 | i : 2;
  size_t base = used(nothing);
  for (size_t i = 0; i < sizeof calls / sizeof *calls; i++) printf("%s %zu\n", calls[i].name, used(calls[i].f) - base);
  return 0;
}
