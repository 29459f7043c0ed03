/* Breakwarp: every place where an indeterminate pattern meets an indeterminate text.
 *
 * Link with libbreakwarp.a. Usable from C and C++. No call keeps state between calls, none uses
 * the heap or touches errno, and any number of threads may call at once on memory of their own.
 *
 * LETTERS. An alphabet has k base letters, numbered 0 to k - 1. A letter is a set of base letters,
 * held in 32 bits: bit b stands for base letter b. A text may hold the letter 0, the entry mark,
 * between the entries that it is made of; a pattern may not. Two letters meet if they share a
 * member, so a mark meets nothing. Start i of a text of n letters is a hit of a pattern of m
 * letters if i + m is at most n and each pattern letter meets the text letter under it. Hits may
 * overlap; none lies over a mark.
 *
 * SLICES. Every lent slice is a pointer and a length in elements. A slice of length 0 may have a
 * null pointer. A slice that is written must not overlap another slice of the same call.
 *
 * RETURNS. A call returns 0 or more, or less than 0 if it is refused: minus (number + 256 * place)
 * of the refusal. The number is one of BREAKWARP_REFUSED_..; the place is 0 where the table below
 * names none, and one above 2^48 would be told as 2^48. BREAKWARP_NUMBER and BREAKWARP_PLACE take
 * a refused answer apart. breakwarp_report alone returns minus the number, the same with place 0.
 * A refused call writes nothing into any lent slice. Past the result of an accepted call a lent
 * slice keeps its contents.
 *
 * STACK. Bytes of stack that a call uses, measured on x86-64 by c/stack.c, which runs each call on
 * a thread whose stack was filled with a pattern: report 67,993 (it holds the text and the list of
 * hits of a sheet), kmp 4,152, to_products 2,072, read_sheet 1,785, bound_choice 1,160, bound 1,128,
 * bm 1,016, hybrid 392, every other call less.
 */
#ifndef BREAKWARP_H
#define BREAKWARP_H

#include <stddef.h>
#include <stdint.h>

#ifdef __cplusplus
extern "C" {
#endif

#define BREAKWARP_VERSION "1.4.3"

/* Limits. */
#define BREAKWARP_MAX_K 32            /* base letters */
#define BREAKWARP_MAX_M 64            /* letters of a pattern, 1 at least */
#define BREAKWARP_MAX_N 65536         /* letters of a text or of a converted string */
#define BREAKWARP_MAX_PRODUCT_K 9     /* base letters where products are asked for */
#define BREAKWARP_MAX_SHEET 8192      /* bytes of a search sheet */
#define BREAKWARP_MAX_SHEET_TEXT 8192 /* no text of a sheet has more letters (proved) */
#define BREAKWARP_MAX_REPORT 40000    /* no report of an accepted sheet is longer (proved) */

/* Number and place of a refused answer r, which is below 0. r is evaluated once; both are int64_t,
 * and constant where r is constant. */
#define BREAKWARP_NUMBER(r) ((INT64_C(0) - (r)) % 256)
#define BREAKWARP_PLACE(r) ((INT64_C(0) - (r)) / 256)

/* Refusals, each with the place that it names, if any. Where a sheet is read, a place is a byte of
 * the sheet, counted from 0, and 1, 2 and 3 name the first byte of the count; else 1, 2, 3 name
 * none, and an index counts letters, values or, for the writer's 12, bytes of the alphabet. */
#define BREAKWARP_REFUSED_K 1         /* k is 0 or above 32 */
#define BREAKWARP_REFUSED_M 2         /* the pattern has no letter, or above 64 */
#define BREAKWARP_REFUSED_N 3         /* text or converted string above 65,536 letters */
#define BREAKWARP_REFUSED_PATTERN 4   /* a pattern letter is 0 or has a bit from k on: its index */
#define BREAKWARP_REFUSED_TEXT 5      /* a text or converted letter has a bit from k on: index */
#define BREAKWARP_REFUSED_PRODUCT_K 6 /* products asked for, k is 10 to 32 */
#define BREAKWARP_REFUSED_PRODUCT 7   /* a value is no product: its index */
#define BREAKWARP_REFUSED_ROOM 8      /* lent output shorter than the result */
#define BREAKWARP_REFUSED_SHEET 10    /* sheet read, or to be written, above 8,192 bytes */
#define BREAKWARP_REFUSED_COUNT 11    /* a count line is ill-formed or missing: where it is due */
#define BREAKWARP_REFUSED_ALPHABET 12 /* alphabet wrong: the first wrong byte, or its index */
#define BREAKWARP_REFUSED_NOTATION 13 /* letter notation wrong: the first wrong byte */
#define BREAKWARP_REFUSED_DIFFERS 14  /* letters read differ from the count: its first byte */
#define BREAKWARP_REFUSED_AFTER 15    /* bytes after the last section: the first of them */
#define BREAKWARP_REFUSED_START 16    /* start + m exceeds n */

/* The six searches. They take k, m letters of pattern and n letters of text, write the first hits,
 * ascending, as many as `hits` holds (cap), and the three counts of work: work[0] scan tests,
 * work[1] shift tests, work[2] word steps. They return the total of all hits; a list too short is
 * no refusal. The six differ in their counts alone. Refusals, in this order: 1, 2, 3, 4, 5, then 8
 * if fewer than three counts are lent. */
int64_t breakwarp_brute(uint32_t k, const uint32_t *pattern, size_t m, const uint32_t *text,
                        size_t n, uint32_t *hits, size_t cap, uint64_t *work, size_t nwork);
int64_t breakwarp_kmp(uint32_t k, const uint32_t *pattern, size_t m, const uint32_t *text,
                      size_t n, uint32_t *hits, size_t cap, uint64_t *work, size_t nwork);
int64_t breakwarp_bm(uint32_t k, const uint32_t *pattern, size_t m, const uint32_t *text,
                     size_t n, uint32_t *hits, size_t cap, uint64_t *work, size_t nwork);
int64_t breakwarp_sunday(uint32_t k, const uint32_t *pattern, size_t m, const uint32_t *text,
                         size_t n, uint32_t *hits, size_t cap, uint64_t *work, size_t nwork);
int64_t breakwarp_shiftand(uint32_t k, const uint32_t *pattern, size_t m, const uint32_t *text,
                           size_t n, uint32_t *hits, size_t cap, uint64_t *work, size_t nwork);
int64_t breakwarp_hybrid(uint32_t k, const uint32_t *pattern, size_t m, const uint32_t *text,
                         size_t n, uint32_t *hits, size_t cap, uint64_t *work, size_t nwork);

/* The first hit alone, for a screen that shows whether a name stands anywhere. The starts are
 * tested as breakwarp_brute tests them, and none after the first hit. Returns 1 if there is one:
 * found[0] is the scan tests up to and including that start, found[1] the start, which is the head
 * of the list of the six searches. Returns 0 if there is none: found[0] is all of brute's scan
 * tests, and found[1] is not written. The whole text is checked first, so that a wrong letter
 * after the hit is refused too. Refusals, in this order: 1, 2, 3, 4, 5, then 8 if fewer than two
 * numbers are lent, whether there is a hit or not. */
int64_t breakwarp_first(uint32_t k, const uint32_t *pattern, size_t m, const uint32_t *text,
                        size_t n, uint64_t *found, size_t nfound);

/* The bound mode: one sign, one letter. A choice gives every letter, that is every set, one of its
 * members, the same wherever that set stands in the pattern or under it; a start is bound-listed if
 * i + m is at most n and some choice gives each pattern letter the same member as the text letter
 * under it. Every bound-listed start is a hit; where all letters are single, every hit is one.
 *
 * breakwarp_bound writes the first bound-listed starts, ascending, as many as `hits` holds (cap),
 * and returns the total of them all; a list too short is no refusal. There are no counts of work.
 * Refusals, in this order: 1, 2, 3, 4, 5.
 *
 * breakwarp_bound_choice asks about one start, which may be any number. Returns 1 if it is
 * bound-listed: choice[j] is the number of the base letter that pattern letter j stands for, the
 * lowest that any choice gives it; all of them are lowest in one choice (proved). Returns 0 if it
 * is not, and writes nothing. Refusals, in this order: 1, 2, 3, 4, 5, then 16 if start + m exceeds
 * n, then 8 if fewer than m numbers are lent, whether the start is bound-listed or not. */
int64_t breakwarp_bound(uint32_t k, const uint32_t *pattern, size_t m, const uint32_t *text,
                        size_t n, uint32_t *hits, size_t cap);
int64_t breakwarp_bound_choice(uint32_t k, const uint32_t *pattern, size_t m,
                               const uint32_t *text, size_t n, size_t start, uint32_t *choice,
                               size_t cap);

/* Why a start is listed, or is not: sets[j] is the set of base letters that pattern letter j and
 * the text letter under it share, 0 if there is none, as with an entry mark. Writes m sets and
 * returns m, at a start that is no hit too. If start + m is at most n, the start is a hit exactly
 * if none of the sets is 0; at a bound-listed start set j has the letter that
 * breakwarp_bound_choice gives for j (both proved). The start may be any number. Refusals, in this
 * order: 1, 2, 3, 4, 5, then 16 if start + m exceeds n, then 8 if fewer than m sets are lent. */
int64_t breakwarp_reasons(uint32_t k, const uint32_t *pattern, size_t m, const uint32_t *text,
                          size_t n, size_t start, uint32_t *sets, size_t cap);

/* Letters to prime products: base letter b stands for the prime at b in 2, 3, 5, 7, 11, 13, 17,
 * 19, 23, and a letter for the product of its members' primes; so an entry mark, 0, for 1. Writes
 * n products and returns n. Refusals, in this order: 1, 6, 3, 5, 8. */
int64_t breakwarp_to_products(uint32_t k, const uint32_t *letters, size_t n, uint32_t *products,
                              size_t cap);

/* Products to letters; 1 gives 0 back, the entry mark. Writes n letters and returns n. Refusals, in
 * this order: 1, 6, 3, 7, 8. */
int64_t breakwarp_from_products(uint32_t k, const uint32_t *products, size_t n, uint32_t *letters,
                                size_t cap);

/* Whether two products meet: 1 if their letters share a member, else 0; the product 1 meets none.
 * Refusals, in this order: 1, 6, 7. */
int64_t breakwarp_products_meet(uint32_t k, uint32_t a, uint32_t b);

/* Reads a search sheet: alphabet bytes, pattern letters and text letters go into the three lent
 * slices, and sizes[0], sizes[1], sizes[2] get k, m and n. Returns 0. Refusals: 10; for each
 * section 11, then 1, 2 or 3 for its count, then 12 or 13, then 14, then 8; 15; last 8 if fewer
 * than three sizes are lent. Nothing is written unless the whole sheet is accepted. Slices of
 * BREAKWARP_MAX_K, BREAKWARP_MAX_M, BREAKWARP_MAX_SHEET_TEXT and 3 elements are long enough for
 * every sheet: with these, or longer ones, 8 cannot come (proved). */
int64_t breakwarp_read_sheet(const uint8_t *sheet, size_t nsheet, uint8_t *alphabet,
                             size_t nalphabet, uint32_t *pattern, size_t npattern, uint32_t *text,
                             size_t ntext, uint64_t *sizes, size_t nsizes);

/* Writes a search sheet and returns its length in bytes. The alphabet has k different bytes from
 * 32 to 126, none of '[', ']', '*', '|'; an entry mark of the text is written '|'. Refusals, in
 * this order: 1, 12, 2, 3, 4, 5, 10, 8. */
int64_t breakwarp_write_sheet(uint32_t k, const uint8_t *alphabet, size_t nalphabet,
                              const uint32_t *pattern, size_t m, const uint32_t *text, size_t n,
                              uint8_t *sheet, size_t cap);

/* The report of a sheet: the total of hits, each start, then for each engine its scan tests, shift
 * tests and word steps, one line each. Writes it and returns its length in bytes. Refusals: those
 * of breakwarp_read_sheet but the 8s, then 8 where the report is longer than cap, which it never
 * is with a cap of BREAKWARP_MAX_REPORT. It returns minus the number, without a place. The reader
 * tells the place for the same sheet:
 *
 *     if (r < 0)
 *         r = breakwarp_read_sheet(sheet, nsheet, alphabet, BREAKWARP_MAX_K, pattern,
 *                 BREAKWARP_MAX_M, text, BREAKWARP_MAX_SHEET_TEXT, sizes, 3);
 *
 * Then BREAKWARP_NUMBER(r) is the same number and BREAKWARP_PLACE(r) its place; only where the
 * report was refused for its own length, with 8, r is 0: the sheet is right. */
int64_t breakwarp_report(const uint8_t *sheet, size_t nsheet, uint8_t *report, size_t cap);

#ifdef __cplusplus
}
#endif

#endif
