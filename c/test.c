/* Every call of breakwarp.h, from C. From the top folder:
 *
 *     cc -std=c11 -Wall -Wextra -Werror -o target/test c/test.c target/staticlib/libbreakwarp.a && target/test
 *
 * Prints `c: N checks` and ends with 0, or says what differs and ends with 1. What is lent for reading stands in
 * blocks of its exact size, so that valgrind sees a read beside it; what is lent for writing stands between guards
 * and is looked at as a whole after each call. */
#include "breakwarp.h"

#include <errno.h>
#include <stdio.h>
#include <stdlib.h>
#include <string.h>

/* The numbers are part of the interface: a screen may have them in its own tables. */
_Static_assert(BREAKWARP_MAX_K == 32 && BREAKWARP_MAX_M == 64 && BREAKWARP_MAX_N == 65536, "limits of a search");
_Static_assert(BREAKWARP_MAX_PRODUCT_K == 9 && BREAKWARP_MAX_SHEET == 8192, "limits of products and sheets");
_Static_assert(BREAKWARP_REFUSED_K == 1 && BREAKWARP_REFUSED_M == 2 && BREAKWARP_REFUSED_N == 3, "refusals 1 to 3");
_Static_assert(BREAKWARP_REFUSED_PATTERN == 4 && BREAKWARP_REFUSED_TEXT == 5, "refusals 4 and 5");
_Static_assert(BREAKWARP_REFUSED_PRODUCT_K == 6 && BREAKWARP_REFUSED_PRODUCT == 7, "refusals 6 and 7");
_Static_assert(BREAKWARP_REFUSED_ROOM == 8 && BREAKWARP_REFUSED_SHEET == 10, "refusals 8 and 10");
_Static_assert(BREAKWARP_REFUSED_COUNT == 11 && BREAKWARP_REFUSED_ALPHABET == 12, "refusals 11 and 12");
_Static_assert(BREAKWARP_REFUSED_NOTATION == 13 && BREAKWARP_REFUSED_DIFFERS == 14, "refusals 13 and 14");
_Static_assert(BREAKWARP_REFUSED_AFTER == 15 && BREAKWARP_REFUSED_START == 16, "refusals 15 and 16");
_Static_assert(BREAKWARP_MAX_SHEET_TEXT == 8192 && BREAKWARP_MAX_REPORT == 40000, "what is long enough");

/* What a refused call returns, written a second time. */
#define AT(number, place) (-((int64_t)(number) + 256 * (int64_t)(place)))

_Static_assert(BREAKWARP_NUMBER(-13 - 256 * 24) == 13 && BREAKWARP_PLACE(-13 - 256 * 24) == 24, "taken apart");
_Static_assert(BREAKWARP_NUMBER(-8) == 8 && BREAKWARP_PLACE(-8) == 0, "taken apart without a place");
_Static_assert(BREAKWARP_NUMBER(AT(15, INT64_C(1) << 48)) == 15, "the number beside the farthest place");
_Static_assert(BREAKWARP_PLACE(AT(15, INT64_C(1) << 48)) == INT64_C(1) << 48, "the farthest place");

#define LENGTH(array) (sizeof(array) / sizeof(array)[0])

static unsigned long checks;

/* What is being tried, for the message. */
static char about[200];

static void same(const char *what, long long seen, long long due)
{
    checks++;
    if (seen != due) {
        printf("c: %s: %s: seen %lld, expected %lld\n", about, what, seen, due);
        exit(1);
    }
}

/* ---- lent memory ---- */

#define GUARD 64

struct lent {
    unsigned char *cells; /* guard, the slice, guard */
    size_t bytes;         /* of the slice */
};

static unsigned char filler(size_t at)
{
    return (unsigned char)(at * 151 + at / 256) ^ 0xa5;
}

static struct lent lend(size_t bytes)
{
    struct lent l = {malloc(bytes + 2 * GUARD), bytes};
    if (l.cells == NULL) {
        printf("c: no memory for the test\n");
        exit(1);
    }
    for (size_t at = 0; at < bytes + 2 * GUARD; at++)
        l.cells[at] = filler(at);
    return l;
}

static void *slice(struct lent l)
{
    return l.cells + GUARD;
}

/* The slice begins with `bytes` bytes of `due`; all else is as it was. The block is given back. */
static void holds(const char *what, struct lent l, const void *due, size_t bytes)
{
    checks++;
    for (size_t at = 0; at < l.bytes + 2 * GUARD; at++) {
        int inside = at >= GUARD && at - GUARD < bytes;
        unsigned char want = inside ? ((const unsigned char *)due)[at - GUARD] : filler(at);
        if (l.cells[at] != want) {
            printf("c: %s: %s: byte %ld of %zu lent is %d, expected %d%s\n", about, what, (long)at - GUARD, l.bytes,
                   l.cells[at], want, inside ? "" : " as before the call");
            exit(1);
        }
    }
    free(l.cells);
}

/* A block of exactly this size with this content, for a slice that is read; null for length 0. */
static void *copy(const void *content, size_t bytes)
{
    if (bytes == 0)
        return NULL;
    void *block = malloc(bytes);
    if (block == NULL) {
        printf("c: no memory for the test\n");
        exit(1);
    }
    memcpy(block, content, bytes);
    return block;
}

/* So many letters, all alike. */
static uint32_t *alike(size_t n, uint32_t letter)
{
    uint32_t *letters = malloc(n * sizeof *letters);
    if (letters == NULL) {
        printf("c: no memory for the test\n");
        exit(1);
    }
    for (size_t at = 0; at < n; at++)
        letters[at] = letter;
    return letters;
}

/* What was lent for reading is as it was. */
static void unchanged(const char *what, void *block, const void *content, size_t bytes)
{
    checks++;
    if (bytes != 0 && memcmp(block, content, bytes) != 0) {
        printf("c: %s: %s was changed\n", about, what);
        exit(1);
    }
    free(block);
}

/* ---- searches ---- */

typedef int64_t search(uint32_t k, const uint32_t *pattern, size_t m, const uint32_t *text, size_t n, uint32_t *hits,
                       size_t cap, uint64_t *work, size_t nwork);

static const struct {
    const char *name;
    search *call;
} engines[] = {
    {"brute", breakwarp_brute},   {"kmp", breakwarp_kmp},           {"bm", breakwarp_bm},
    {"sunday", breakwarp_sunday}, {"shiftand", breakwarp_shiftand}, {"hybrid", breakwarp_hybrid},
};

#define ENGINES LENGTH(engines)

/* One search. `hits` has `answer` starts if the answer is not negative; `work` may be null if the counts do not
 * matter or nothing may be written. */
static void try_search(size_t engine, uint32_t k, const uint32_t *p, size_t m, const uint32_t *t, size_t n, size_t cap,
                       size_t nwork, int64_t answer, const uint32_t *hits, const uint64_t *work)
{
    snprintf(about, sizeof about, "%s, k %u, m %zu, n %zu, list of %zu", engines[engine].name, (unsigned)k, m, n, cap);
    uint32_t *pattern = copy(p, m * sizeof *p);
    uint32_t *text = copy(t, n * sizeof *t);
    struct lent list = lend(cap * sizeof *hits);
    struct lent counts = lend(nwork * sizeof *work);
    errno = 77;
    int64_t seen = engines[engine].call(k, pattern, m, text, n, slice(list), cap, slice(counts), nwork);
    same("answer", seen, answer);
    same("errno", errno, 77);
    size_t written = answer < 0 ? 0 : (size_t)answer < cap ? (size_t)answer : cap;
    holds("hits", list, hits, written * sizeof *hits);
    if (answer >= 0 && work == NULL) {
        /* The counts are written, whatever they are: look at the rest only. */
        uint64_t three[3];
        memcpy(three, slice(counts), sizeof three);
        holds("counts", counts, three, sizeof three);
    } else {
        holds("counts", counts, work, answer < 0 ? 0 : 3 * sizeof *work);
    }
    unchanged("pattern", pattern, p, m * sizeof *p);
    unchanged("text", text, t, n * sizeof *t);
}

/* The letter of a text that ends an entry. It meets nothing. */
#define MARK 0

static const uint32_t anna[] = {1, 4, 4, 1};
static const uint32_t page[] = {1, 4, 4, 1, 4, 4, 3, 4, 1, 4, 4, 5};
static const uint32_t page_hits[] = {0, 3, 8};
/* The first name is cut by the mark, the second one is whole. */
static const uint32_t entries[] = {1, 4, MARK, 4, 1, 1, 4, 4, 1};
static const uint32_t entries_hits[] = {5};

static void worked_search(void)
{
    static const uint64_t work[ENGINES][3] = {{20, 0, 0}, {13, 4, 0}, {14, 3, 0}, {15, 0, 0}, {0, 0, 12}, {1, 0, 12}};
    for (size_t e = 0; e < ENGINES; e++)
        for (size_t cap = 0; cap <= 5; cap++)
            for (size_t nwork = 3; nwork <= 5; nwork++)
                try_search(e, 3, anna, 4, page, 12, cap, nwork, 3, page_hits, work[e]);
}

static void small_searches(void)
{
    static const uint32_t aan[] = {1, 1, 4}, doubt[] = {1, 1, 5, 4}, an[] = {1, 4}, eeean[] = {2, 2, 2, 1, 4};
    static const uint32_t all[] = {7}, e_[] = {2}, aaa[] = {1, 1, 1}, from0[] = {0, 1, 2}, at3[] = {3};
    static const uint64_t none[3] = {0, 0, 0}, brute6[] = {6, 0, 0}, kmp42[] = {4, 2, 0}, hybrid22[] = {2, 0, 2};
    static const uint64_t brute1[] = {1, 0, 0};
    try_search(0, 3, aan, 3, doubt, 4, 9, 3, 2, from0, brute6);
    try_search(1, 3, aan, 3, doubt, 4, 9, 3, 2, from0, kmp42);
    try_search(5, 3, an, 2, eeean, 5, 9, 3, 1, at3, hybrid22);
    try_search(0, 3, e_, 1, aaa, 1, 9, 3, 0, NULL, brute1);
    for (size_t e = 0; e < ENGINES; e++) {
        try_search(e, 3, aan, 3, doubt, 4, 9, 3, 2, from0, NULL);
        try_search(e, 3, an, 2, eeean, 5, 9, 3, 1, at3, NULL);
        try_search(e, 3, all, 1, all, 1, 9, 3, 1, from0, NULL);
        try_search(e, 3, e_, 1, aaa, 1, 9, 3, 0, NULL, NULL);
        try_search(e, 3, an, 2, aaa, 1, 9, 3, 0, NULL, none);
        try_search(e, 3, an, 2, NULL, 0, 9, 3, 0, NULL, none);
        try_search(e, 3, aaa, 1, aaa, 3, 1, 3, 3, from0, NULL);
    }
}

/* Marks in the text: in a name, under `*`, alone, first, last, two in a row, with one base letter and with 32. */
static void marked_searches(void)
{
    static const uint64_t work[ENGINES][3] = {{12, 0, 0}, {11, 0, 0}, {9, 0, 0}, {11, 0, 0}, {0, 0, 9}, {5, 0, 6}};
    static const uint64_t one[ENGINES][3] = {{1, 0, 0}, {1, 0, 0}, {1, 0, 0}, {1, 0, 0}, {0, 0, 1}, {1, 0, 0}};
    /* Two unsure letters before the mark: KMP carries one of them on and comes to the mark again. */
    static const uint64_t carried[ENGINES][3] = {{9, 0, 0}, {8, 1, 0}, {4, 0, 0}, {7, 0, 0}, {0, 0, 6}, {3, 0, 3}};
    static const uint32_t aan[] = {1, 1, 4}, doubts[] = {5, 5, MARK, 1, 1, 4}, at3[] = {3}, all[] = {7};
    static const uint32_t a[] = {1}, lone[] = {MARK, 1, MARK, MARK}, at1[] = {1}, last[] = {UINT32_C(1) << 31};
    static const uint32_t whole[] = {UINT32_MAX}, far[] = {MARK, UINT32_C(1) << 31, MARK, MARK};
    for (size_t e = 0; e < ENGINES; e++) {
        for (size_t cap = 0; cap <= 3; cap++)
            try_search(e, 3, anna, 4, entries, 9, cap, 3, 1, entries_hits, work[e]);
        try_search(e, 3, aan, 3, doubts, 6, 2, 3, 1, at3, carried[e]);
        try_search(e, 3, all, 1, lone, 1, 2, 3, 0, NULL, one[e]);
        try_search(e, 32, whole, 1, lone, 1, 2, 3, 0, NULL, one[e]);
        try_search(e, 1, a, 1, lone, 4, 2, 3, 1, at1, NULL);
        try_search(e, 32, last, 1, far, 4, 2, 3, 1, at1, NULL);
        try_search(e, 32, whole, 1, far + 2, 2, 2, 3, 0, NULL, NULL);
        /* A mark in the pattern is refused. */
        try_search(e, 3, entries + 2, 1, entries, 9, 2, 3, AT(BREAKWARP_REFUSED_PATTERN, 0), NULL, NULL);
        try_search(e, 3, entries, 9, entries, 9, 2, 0, AT(BREAKWARP_REFUSED_PATTERN, 2), NULL, NULL);
    }
}

static void search_refusals(void)
{
    static const uint32_t bad[] = {1, 2, 8}, empty[] = {1, 0}, twice[] = {1, 8, 0}, good[] = {1, 2, 4};
    static const uint32_t behind[] = {MARK, MARK, 8, MARK, 16};
    static const struct {
        uint32_t k;
        const uint32_t *p;
        size_t m;
        const uint32_t *t;
        size_t n, nwork;
        int refusal, place;
    } rows[] = {
        {0, good, 1, good, 3, 3, BREAKWARP_REFUSED_K, 0},
        {33, good, 1, good, 3, 3, BREAKWARP_REFUSED_K, 0},
        {UINT32_MAX, NULL, 0, bad, 3, 0, BREAKWARP_REFUSED_K, 0},
        {3, NULL, 0, good, 3, 3, BREAKWARP_REFUSED_M, 0},
        {3, NULL, 0, bad, 3, 0, BREAKWARP_REFUSED_M, 0},
        {3, bad, 3, good, 3, 3, BREAKWARP_REFUSED_PATTERN, 2},
        {3, empty, 2, good, 3, 3, BREAKWARP_REFUSED_PATTERN, 1},
        {3, empty, 2, bad, 3, 2, BREAKWARP_REFUSED_PATTERN, 1},
        {3, good, 1, bad, 3, 3, BREAKWARP_REFUSED_TEXT, 2},
        {3, good, 1, empty, 2, 0, BREAKWARP_REFUSED_ROOM, 0},
        {3, good, 1, behind, 5, 0, BREAKWARP_REFUSED_TEXT, 2},
        {3, empty, 2, behind, 5, 0, BREAKWARP_REFUSED_PATTERN, 1},
        {2, good, 1, good, 3, 3, BREAKWARP_REFUSED_TEXT, 2},
        {3, twice, 3, good, 3, 3, BREAKWARP_REFUSED_PATTERN, 1},
        {3, good, 1, twice, 3, 3, BREAKWARP_REFUSED_TEXT, 1},
        {3, good, 1, good, 3, 2, BREAKWARP_REFUSED_ROOM, 0},
        {3, good, 1, good, 3, 0, BREAKWARP_REFUSED_ROOM, 0},
    };
    for (size_t e = 0; e < ENGINES; e++)
        for (size_t r = 0; r < LENGTH(rows); r++)
            try_search(e, rows[r].k, rows[r].p, rows[r].m, rows[r].t, rows[r].n, 5, rows[r].nwork,
                       AT(rows[r].refusal, rows[r].place), NULL, NULL);
}

/* The largest text, the longest pattern, the largest alphabet, and one more of each. */
static void search_limits(void)
{
    uint32_t *text = alike(BREAKWARP_MAX_N + 1, UINT32_C(1) << 31), *pattern = text;
    uint32_t *hits = alike(BREAKWARP_MAX_N, 0);
    for (size_t i = 0; i < BREAKWARP_MAX_N; i++)
        hits[i] = (uint32_t)i;
    for (size_t e = 0; e < ENGINES; e++) {
        try_search(e, 32, pattern, 64, text, 65536, 65536, 3, 65473, hits, NULL);
        try_search(e, 32, pattern, 1, text, 65536, 65535, 3, 65536, hits, NULL);
        try_search(e, 32, pattern, 64, text, 65537, 4, 3, -BREAKWARP_REFUSED_N, NULL, NULL);
        try_search(e, 32, pattern, 65, text, 65537, 4, 3, -BREAKWARP_REFUSED_M, NULL, NULL);
        try_search(e, 31, pattern, 64, text, 65536, 4, 3, -BREAKWARP_REFUSED_PATTERN, NULL, NULL);
        try_search(e, 33, pattern, 65, text, 65537, 4, 3, -BREAKWARP_REFUSED_K, NULL, NULL);
    }
    /* A mark as the last letter of the text: one start less. */
    text[BREAKWARP_MAX_N - 1] = MARK;
    for (size_t e = 0; e < ENGINES; e++)
        try_search(e, 32, pattern, 1, text, 65536, 4, 3, 65535, hits, NULL);
    free(text);
    free(hits);
}

/* The farthest places of a search: the last letter of the longest pattern, and of the largest text, behind nothing but
 * marks. */
static void far_searches(void)
{
    static const uint32_t a[] = {1}, last[] = {UINT32_C(1) << 31}, end[] = {65535};
    uint32_t *text = alike(BREAKWARP_MAX_N, MARK), *pattern = alike(BREAKWARP_MAX_M, 1);
    text[BREAKWARP_MAX_N - 1] = last[0];
    pattern[BREAKWARP_MAX_M - 1] = MARK;
    for (size_t e = 0; e < ENGINES; e++) {
        try_search(e, 32, pattern, 64, text, 65536, 4, 3, AT(BREAKWARP_REFUSED_PATTERN, 63), NULL, NULL);
        try_search(e, 31, a, 1, text, 65536, 4, 3, AT(BREAKWARP_REFUSED_TEXT, 65535), NULL, NULL);
        try_search(e, 31, a, 1, text, 65535, 4, 3, 0, NULL, NULL);
        try_search(e, 32, last, 1, text, 65536, 4, 3, 1, end, NULL);
    }
    free(text);
    free(pattern);
}

/* Slices of length 0 with null pointers. */
static void null_searches(void)
{
    static const uint32_t a[] = {1};
    for (size_t e = 0; e < ENGINES; e++) {
        uint64_t work[3] = {9, 9, 9};
        snprintf(about, sizeof about, "%s with null pointers", engines[e].name);
        same("no text, no list", engines[e].call(3, a, 1, NULL, 0, NULL, 0, work, 3), 0);
        same("scan tests", (long long)work[0], 0);
        same("shift tests", (long long)work[1], 0);
        same("word steps", (long long)work[2], 0);
        same("no list", engines[e].call(3, a, 1, a, 1, NULL, 0, work, 3), 1);
        same("no counts", engines[e].call(3, a, 1, a, 1, NULL, 0, NULL, 0), -BREAKWARP_REFUSED_ROOM);
        same("no pattern", engines[e].call(3, NULL, 0, NULL, 0, NULL, 0, NULL, 0), -BREAKWARP_REFUSED_M);
        same("no alphabet", engines[e].call(0, NULL, 0, NULL, 0, NULL, 0, NULL, 0), -BREAKWARP_REFUSED_K);
    }
}

/* ---- the first hit ---- */

/* One call. The scan tests are written if it is not refused, the start if the answer is 1, and nothing else is. */
static void try_first(uint32_t k, const uint32_t *p, size_t m, const uint32_t *t, size_t n, size_t nfound,
                      int64_t answer, uint64_t scan, uint64_t start)
{
    const uint64_t due[] = {scan, start};
    snprintf(about, sizeof about, "first, k %u, m %zu, n %zu, %zu numbers lent", (unsigned)k, m, n, nfound);
    uint32_t *pattern = copy(p, m * sizeof *p);
    uint32_t *text = copy(t, n * sizeof *t);
    struct lent found = lend(nfound * sizeof *due);
    errno = 77;
    same("answer", breakwarp_first(k, pattern, m, text, n, slice(found), nfound), answer);
    same("errno", errno, 77);
    holds("found", found, due, answer < 0 ? 0 : answer == 0 ? sizeof due[0] : sizeof due);
    unchanged("pattern", pattern, p, m * sizeof *p);
    unchanged("text", text, t, n * sizeof *t);
}

/* With no room, too little, enough and more, over three base letters: too little is refused without a hit too, and after
 * a wrong letter. */
static void try_first_rooms(const uint32_t *p, size_t m, const uint32_t *t, size_t n, int64_t answer, uint64_t scan,
                            uint64_t start)
{
    for (size_t nfound = 0; nfound <= 5; nfound++) {
        int short_of = answer >= 0 && nfound < 2;
        try_first(3, p, m, t, n, nfound, short_of ? -BREAKWARP_REFUSED_ROOM : answer, scan, start);
    }
}

static void worked_firsts(void)
{
    static const uint32_t an[] = {1, 4}, na[] = {4, 1}, e_[] = {2}, all[] = {7}, eeean[] = {2, 2, 2, 1, 4};
    static const uint32_t annan[] = {1, 4, 4, 1, 4}, aan[] = {1, 1, 4}, doubt[] = {1, 1, 5, 4}, ae[] = {3};
    static const uint32_t behind[] = {1, 4, 8}, empty[] = {1, 0};
    static const struct {
        const uint32_t *p;
        size_t m;
        const uint32_t *t;
        size_t n;
        int64_t answer;
        uint64_t scan, start;
    } rows[] = {
        {anna, 4, page, 12, 1, 4, 0},
        {an, 2, eeean, 5, 1, 5, 3},
        {na, 2, annan, 5, 1, 5, 2},
        {aan, 3, doubt, 4, 1, 3, 0},
        {ae, 1, annan + 1, 4, 1, 3, 2},
        {all, 1, all, 1, 1, 1, 0},
        {e_, 1, an, 1, 0, 1, 0},
        {e_, 1, annan, 5, 0, 5, 0},
        {an, 2, an, 1, 0, 0, 0},
        {an, 2, NULL, 0, 0, 0, 0},
        {an, 2, behind, 3, AT(BREAKWARP_REFUSED_TEXT, 2), 0, 0},
        {behind, 3, behind, 3, AT(BREAKWARP_REFUSED_PATTERN, 2), 0, 0},
        {empty, 2, page, 12, AT(BREAKWARP_REFUSED_PATTERN, 1), 0, 0},
        {an, 0, behind, 3, -BREAKWARP_REFUSED_M, 0, 0},
    };
    for (size_t r = 0; r < LENGTH(rows); r++)
        try_first_rooms(rows[r].p, rows[r].m, rows[r].t, rows[r].n, rows[r].answer, rows[r].scan, rows[r].start);
}

/* Behind the cut name the whole one; cut off again by one letter; `*` over a mark, and over two and a letter. */
static void marked_firsts(void)
{
    static const uint32_t all[] = {7}, marks[] = {MARK, MARK, 4, MARK}, bad[] = {1, MARK, 8};
    try_first_rooms(anna, 4, entries, 9, 1, 12, 5);
    try_first_rooms(anna, 4, entries, 8, 0, 8, 0);
    try_first_rooms(all, 1, marks, 1, 0, 1, 0);
    try_first_rooms(all, 1, marks, 4, 1, 3, 2);
    try_first_rooms(all, 1, bad, 3, AT(BREAKWARP_REFUSED_TEXT, 2), 0, 0);
    try_first_rooms(marks, 1, entries, 9, AT(BREAKWARP_REFUSED_PATTERN, 0), 0, 0);
    try_first_rooms(bad, 2, entries, 9, AT(BREAKWARP_REFUSED_PATTERN, 1), 0, 0);
}

static void first_refusals(void)
{
    static const uint32_t bad[] = {1, 2, 8}, empty[] = {1, 0}, twice[] = {1, 8, 0}, good[] = {1, 2, 4};
    try_first(0, good, 1, good, 3, 2, -BREAKWARP_REFUSED_K, 0, 0);
    try_first(33, good, 1, good, 3, 2, -BREAKWARP_REFUSED_K, 0, 0);
    try_first(UINT32_MAX, NULL, 0, bad, 3, 0, -BREAKWARP_REFUSED_K, 0, 0);
    try_first(3, NULL, 0, bad, 3, 1, -BREAKWARP_REFUSED_M, 0, 0);
    try_first(3, empty, 2, bad, 3, 1, AT(BREAKWARP_REFUSED_PATTERN, 1), 0, 0);
    try_first(3, twice, 3, good, 3, 2, AT(BREAKWARP_REFUSED_PATTERN, 1), 0, 0);
    try_first(3, good, 1, twice, 3, 2, AT(BREAKWARP_REFUSED_TEXT, 1), 0, 0);
    try_first(2, good, 1, good, 3, 2, AT(BREAKWARP_REFUSED_TEXT, 2), 0, 0);
    /* One base letter and all 32, and a bit that each has not. */
    static const uint32_t two[] = {2}, last[] = {UINT32_C(1) << 31};
    try_first(1, good, 1, good, 1, 2, 1, 1, 0);
    try_first(1, two, 1, good, 1, 2, -BREAKWARP_REFUSED_PATTERN, 0, 0);
    try_first(1, good, 1, two, 1, 2, -BREAKWARP_REFUSED_TEXT, 0, 0);
    try_first(32, last, 1, last, 1, 2, 1, 1, 0);
    try_first(32, last, 1, good, 3, 2, 0, 3, 0);
    try_first(31, good, 1, last, 1, 2, -BREAKWARP_REFUSED_TEXT, 0, 0);
    snprintf(about, sizeof about, "first with null pointers");
    uint64_t found[2] = {9, 9};
    same("no text", breakwarp_first(3, good, 1, NULL, 0, found, 2), 0);
    same("scan tests", (long long)found[0], 0);
    same("no start", (long long)found[1], 9);
    same("no room", breakwarp_first(3, good, 1, good, 1, NULL, 0), -BREAKWARP_REFUSED_ROOM);
    same("no text, no room", breakwarp_first(3, good, 1, NULL, 0, NULL, 0), -BREAKWARP_REFUSED_ROOM);
    same("no pattern", breakwarp_first(3, NULL, 0, NULL, 0, NULL, 0), -BREAKWARP_REFUSED_M);
    same("no alphabet", breakwarp_first(0, NULL, 0, NULL, 0, NULL, 0), -BREAKWARP_REFUSED_K);
}

/* The largest text with its hit at either end and with none, the longest pattern, and one more of each. */
static void first_limits(void)
{
    uint32_t *text = alike(BREAKWARP_MAX_N + 1, UINT32_C(1) << 31), *met = text;
    uint32_t *spoilt = alike(BREAKWARP_MAX_M, UINT32_C(1) << 31);
    spoilt[BREAKWARP_MAX_M - 1] = 1;
    /* All 64 letters at each of the 65,473 starts: no call makes more tests. */
    const uint64_t most = 64 * 65473;
    try_first(32, met, 64, text, 65536, 2, 1, 64, 0);
    try_first(32, met, 1, text, 65536, 2, 1, 1, 0);
    try_first(32, spoilt, 64, text, 65536, 3, 0, most, 0);
    try_first(32, spoilt + 63, 1, text, 65536, 3, 0, 65536, 0);
    try_first(32, met, 64, text, 64, 2, 1, 64, 0);
    try_first(32, met, 64, text, 63, 2, 0, 0, 0);
    try_first(32, met, 64, text, 65536, 1, -BREAKWARP_REFUSED_ROOM, 0, 0);
    try_first(32, spoilt, 64, text, 65536, 1, -BREAKWARP_REFUSED_ROOM, 0, 0);
    try_first(32, met, 64, text, 65537, 2, -BREAKWARP_REFUSED_N, 0, 0);
    try_first(32, met, 65, text, 65536, 2, -BREAKWARP_REFUSED_M, 0, 0);
    try_first(32, met, 65, text, 65537, 0, -BREAKWARP_REFUSED_M, 0, 0);
    try_first(31, met, 64, text, 65537, 0, -BREAKWARP_REFUSED_N, 0, 0);
    try_first(31, met, 64, text, 65536, 0, -BREAKWARP_REFUSED_PATTERN, 0, 0);
    try_first(33, met, 65, text, 65537, 0, -BREAKWARP_REFUSED_K, 0, 0);
    /* The hit at the last start, which is the last test of all, and the same text without its last letter. */
    text[BREAKWARP_MAX_N - 1] = 1;
    try_first(32, spoilt, 64, text, 65536, 2, 1, most, 65472);
    try_first(32, spoilt + 63, 1, text, 65536, 2, 1, 65536, 65535);
    try_first(32, spoilt, 64, text, 65535, 2, 0, most - 64, 0);
    /* A mark in the place of that letter. */
    text[BREAKWARP_MAX_N - 1] = MARK;
    try_first(32, met, 64, text, 65536, 2, 1, 64, 0);
    try_first(32, spoilt + 63, 1, text, 65536, 2, 0, 65536, 0);
    free(text);
    free(spoilt);
}

/* The farthest places: the last letter of the longest pattern, and of the largest text, behind a hit at start 0 and
 * nothing but marks. */
static void far_firsts(void)
{
    static const uint32_t a[] = {1}, last[] = {UINT32_C(1) << 31};
    uint32_t *text = alike(BREAKWARP_MAX_N, MARK), *pattern = alike(BREAKWARP_MAX_M, 1);
    text[0] = 1;
    text[BREAKWARP_MAX_N - 1] = last[0];
    pattern[BREAKWARP_MAX_M - 1] = MARK;
    try_first(32, pattern, 64, text, 65536, 2, AT(BREAKWARP_REFUSED_PATTERN, 63), 0, 0);
    try_first(31, a, 1, text, 65536, 2, AT(BREAKWARP_REFUSED_TEXT, 65535), 0, 0);
    try_first(31, a, 1, text, 65536, 0, AT(BREAKWARP_REFUSED_TEXT, 65535), 0, 0);
    try_first(31, a, 1, text, 65535, 2, 1, 1, 0);
    /* The hit is the last letter, with one test for each letter before it. */
    try_first(32, last, 1, text, 65536, 2, 1, 65536, 65535);
    free(text);
    free(pattern);
}

static uint64_t seed = 1;

static uint32_t below(uint32_t bound)
{
    seed = seed * UINT64_C(6364136223846793005) + UINT64_C(1442695040888963407);
    return (uint32_t)(seed >> 33) % bound;
}

static void draw(uint32_t *letters, size_t n, uint32_t k)
{
    for (size_t at = 0; at < n; at++) {
        letters[at] = UINT32_C(1) << below(k);
        if (below(4) == 0)
            letters[at] |= UINT32_C(1) << below(k);
    }
}

/* The same with some marks, as a text may have them. */
static void draw_text(uint32_t *letters, size_t n, uint32_t k)
{
    draw(letters, n, k);
    for (size_t at = 0; at < n; at++)
        if (below(9) == 0)
            letters[at] = MARK;
}

/* Beside brute on random pairs. Where there is a hit, brute on the text up to the end of it makes the tests that are
 * due, and whatever comes after it changes nothing. */
static void firsts_beside_brute(void)
{
    enum { PAIRS = 600, N = 60 };
    size_t with = 0;
    for (size_t pair = 0; pair < PAIRS; pair++) {
        uint32_t k = 1 + below(pair % 4 == 0 ? 32 : 4), pattern[6], text[N], head[1];
        size_t m = 1 + below(LENGTH(pattern)), n = below(N + 1), nfound = 2 + below(4);
        uint64_t whole[3], upto[3];
        draw(pattern, m, k);
        draw_text(text, N, k);
        snprintf(about, sizeof about, "first beside brute, pair %zu", pair);
        int64_t total = breakwarp_brute(k, pattern, m, text, n, head, 1, whole, 3);
        if (total == 0) {
            try_first(k, pattern, m, text, n, nfound, 0, whole[0], 0);
            continue;
        }
        with++;
        size_t end = head[0] + m;
        same("hits up to its end", breakwarp_brute(k, pattern, m, text, end, head, 1, upto, 3), 1);
        try_first(k, pattern, m, text, n, nfound, 1, upto[0], head[0]);
        try_first(k, pattern, m, text, end, nfound, 1, upto[0], head[0]);
        draw_text(text + end, N - end, k);
        try_first(k, pattern, m, text, end + below((uint32_t)(N - end + 1)), nfound, 1, upto[0], head[0]);
        try_first(k, pattern, m, text, N, nfound, 1, upto[0], head[0]);
        /* One letter less, and neither the hit nor its m tests are made. */
        try_first(k, pattern, m, text, end - 1, nfound, 0, upto[0] - m, 0);
    }
    snprintf(about, sizeof about, "first beside brute");
    same("pairs with a hit and without, a quarter at least", with >= PAIRS / 4 && with <= PAIRS - PAIRS / 4, 1);
}

/* ---- the bound mode ---- */

static const uint32_t at0[] = {0}, at1[] = {1};

/* One call for the list. `hits` has `answer` starts if the answer is not negative. */
static void try_bound(uint32_t k, const uint32_t *p, size_t m, const uint32_t *t, size_t n, size_t cap, int64_t answer,
                      const uint32_t *hits)
{
    snprintf(about, sizeof about, "bound, k %u, m %zu, n %zu, list of %zu", (unsigned)k, m, n, cap);
    uint32_t *pattern = copy(p, m * sizeof *p);
    uint32_t *text = copy(t, n * sizeof *t);
    struct lent list = lend(cap * sizeof *hits);
    errno = 77;
    same("answer", breakwarp_bound(k, pattern, m, text, n, slice(list), cap), answer);
    same("errno", errno, 77);
    size_t written = answer < 0 ? 0 : (size_t)answer < cap ? (size_t)answer : cap;
    holds("hits", list, hits, written * sizeof *hits);
    unchanged("pattern", pattern, p, m * sizeof *p);
    unchanged("text", text, t, n * sizeof *t);
}

typedef int64_t at_start(uint32_t k, const uint32_t *pattern, size_t m, const uint32_t *text, size_t n, size_t start,
                         uint32_t *values, size_t cap);

/* One call at one start, which writes so many of these values. */
static void try_at(const char *name, at_start *call, uint32_t k, const uint32_t *p, size_t m, const uint32_t *t,
                   size_t n, size_t start, size_t cap, int64_t answer, const uint32_t *values, size_t written)
{
    snprintf(about, sizeof about, "%s, k %u, m %zu, n %zu, start %zu, room for %zu", name, (unsigned)k, m, n, start,
             cap);
    uint32_t *pattern = copy(p, m * sizeof *p);
    uint32_t *text = copy(t, n * sizeof *t);
    struct lent room = lend(cap * sizeof *values);
    errno = 77;
    same("answer", call(k, pattern, m, text, n, start, slice(room), cap), answer);
    same("errno", errno, 77);
    holds("what is written", room, values, written * sizeof *values);
    unchanged("pattern", pattern, p, m * sizeof *p);
    unchanged("text", text, t, n * sizeof *t);
}

/* The choice: m numbers are written if the answer is 1, and nothing if it is not. */
static void try_choice(uint32_t k, const uint32_t *p, size_t m, const uint32_t *t, size_t n, size_t start, size_t cap,
                       int64_t answer, const uint32_t *choice)
{
    try_at("bound_choice", breakwarp_bound_choice, k, p, m, t, n, start, cap, answer, choice, answer == 1 ? m : 0);
}

/* With every room from none to more than enough: too little is refused whether the start is listed or not, and after all
 * that is refused besides. */
static void try_choice_rooms(uint32_t k, const uint32_t *p, size_t m, const uint32_t *t, size_t n, size_t start,
                             int64_t answer, const uint32_t *choice)
{
    for (size_t cap = 0; cap <= m + 2; cap++)
        try_choice(k, p, m, t, n, start, cap, answer >= 0 && cap < m ? -BREAKWARP_REFUSED_ROOM : answer, choice);
}

/* Over abcd: a is 1, b 2, c 4, d 8. */
static void worked_bounds(void)
{
    static const struct {
        uint32_t p[3];
        size_t m;
        uint32_t t[6];
        size_t n;
        int64_t total;
        uint32_t starts[4];
    } rows[] = {
        /* [ab][abc][ab] over [abc]ab, which narrowing from left to right would pass, and [ab][bc] over [ac][ab]. */
        {{3, 7, 3}, 3, {7, 1, 2}, 3, 0, {0}},
        {{3, 6}, 2, {5, 3}, 2, 0, {0}},
        {{7, 7}, 2, {3, 6}, 2, 1, {0}},
        {{3}, 1, {3}, 1, 1, {0}},
        /* [ab][ab] in aabb[ab][ab]: not at 1, though it is a hit. */
        {{3, 3}, 2, {1, 1, 2, 2, 3, 3}, 6, 4, {0, 2, 3, 4}},
        {{3}, 1, {MARK, 3, 1, 4}, 4, 2, {1, 2}},
        /* A choice holds for one hit, and the next one has its own. */
        {{3}, 1, {1, 2, 1, 2}, 4, 4, {0, 1, 2, 3}},
        /* One set in the pattern and under it. */
        {{1, 3}, 2, {3, 2}, 2, 0, {0}},
        {{15}, 1, {MARK, MARK}, 2, 0, {0}},
        {{15, 15}, 2, {15, MARK, 15, 15}, 4, 1, {2}},
        {{1, 2}, 2, {1}, 1, 0, {0}},
        {{1, 2}, 2, {0}, 0, 0, {0}},
        {{1, 2}, 2, {2, 1, 2, 1, 2}, 5, 2, {1, 3}},
    };
    for (size_t r = 0; r < LENGTH(rows); r++)
        for (size_t cap = 0; cap <= (size_t)rows[r].total + 2; cap++)
            try_bound(4, rows[r].p, rows[r].m, rows[r].t, rows[r].n, cap, rows[r].total, rows[r].starts);
}

static void worked_choices(void)
{
    static const struct {
        uint32_t p[3];
        size_t m;
        uint32_t t[6];
        size_t n, start;
        int64_t answer;
        uint32_t choice[3];
    } rows[] = {
        {{3, 7, 3}, 3, {7, 1, 2}, 3, 0, 0, {0}},
        {{3, 6}, 2, {5, 3}, 2, 0, 0, {0}},
        {{7, 7}, 2, {3, 6}, 2, 0, 1, {1, 1}},
        {{3}, 1, {3}, 1, 0, 1, {0}},
        {{3, 3}, 2, {1, 1, 2, 2, 3, 3}, 6, 0, 1, {0, 0}},
        {{3, 3}, 2, {1, 1, 2, 2, 3, 3}, 6, 1, 0, {0}},
        {{3, 3}, 2, {1, 1, 2, 2, 3, 3}, 6, 2, 1, {1, 1}},
        {{3, 3}, 2, {1, 1, 2, 2, 3, 3}, 6, 3, 1, {1, 1}},
        {{3, 3}, 2, {1, 1, 2, 2, 3, 3}, 6, 4, 1, {0, 0}},
        {{3, 3}, 2, {1, 1, 2, 2, 3, 3}, 6, 5, -BREAKWARP_REFUSED_START, {0}},
        {{3}, 1, {MARK, 3, 1, 4}, 4, 0, 0, {0}},
        {{3}, 1, {MARK, 3, 1, 4}, 4, 1, 1, {0}},
        {{3}, 1, {MARK, 3, 1, 4}, 4, 3, 0, {0}},
        {{3}, 1, {MARK, 3, 1, 4}, 4, 4, -BREAKWARP_REFUSED_START, {0}},
        /* *[cd] over [bcd]d; then [ad][bd][cd] over [bd][cd]d, where d decides at the end. */
        {{15, 12}, 2, {14, 8}, 2, 0, 1, {1, 3}},
        {{9, 10, 12}, 3, {10, 12, 8}, 3, 0, 1, {3, 3, 3}},
        {{2}, 1, {15}, 1, 0, 1, {1}},
        {{8, 4, 2}, 3, {1, 8, 4, 2}, 4, 1, 1, {3, 2, 1}},
        {{8, 4, 2}, 3, {1, 8, 4, 2}, 4, 0, 0, {0}},
        {{1, 2}, 2, {1}, 1, 0, -BREAKWARP_REFUSED_START, {0}},
        {{1, 2}, 2, {0}, 0, 0, -BREAKWARP_REFUSED_START, {0}},
    };
    for (size_t r = 0; r < LENGTH(rows); r++)
        try_choice_rooms(4, rows[r].p, rows[r].m, rows[r].t, rows[r].n, rows[r].start, rows[r].answer, rows[r].choice);
}

/* What a search refuses, with its place. */
static const uint32_t bad[] = {1, 2, 8}, empty[] = {1, 0}, twice[] = {1, 8, 0}, good[] = {1, 2, 4};
static const uint32_t behind[] = {MARK, MARK, 8, MARK, 16};
static const struct {
    uint32_t k;
    const uint32_t *p;
    size_t m;
    const uint32_t *t;
    size_t n;
    int refusal, place;
} refused[] = {
    {0, good, 1, good, 3, BREAKWARP_REFUSED_K, 0},
    {33, good, 1, good, 3, BREAKWARP_REFUSED_K, 0},
    {UINT32_MAX, NULL, 0, bad, 3, BREAKWARP_REFUSED_K, 0},
    {3, NULL, 0, good, 3, BREAKWARP_REFUSED_M, 0},
    {3, NULL, 0, bad, 3, BREAKWARP_REFUSED_M, 0},
    {3, bad, 3, good, 3, BREAKWARP_REFUSED_PATTERN, 2},
    {3, empty, 2, good, 3, BREAKWARP_REFUSED_PATTERN, 1},
    {3, empty, 2, bad, 3, BREAKWARP_REFUSED_PATTERN, 1},
    {3, empty + 1, 1, behind, 5, BREAKWARP_REFUSED_PATTERN, 0},
    {1, good + 1, 1, good, 1, BREAKWARP_REFUSED_PATTERN, 0},
    {3, twice, 3, good, 3, BREAKWARP_REFUSED_PATTERN, 1},
    {3, good, 1, bad, 3, BREAKWARP_REFUSED_TEXT, 2},
    {3, good, 2, bad, 3, BREAKWARP_REFUSED_TEXT, 2},
    {3, good, 1, twice, 3, BREAKWARP_REFUSED_TEXT, 1},
    {3, good, 1, behind, 5, BREAKWARP_REFUSED_TEXT, 2},
    {2, good, 1, good, 3, BREAKWARP_REFUSED_TEXT, 2},
};

/* Starts at which these are asked about: right ones and wrong ones. */
static const size_t any_starts[] = {0, 1, 3, 65536, SIZE_MAX};

/* 1 to 5 of both calls, in their order and with their places; at one start 16 and 8 come after them, and the whole text
 * is checked, not only what stands under the pattern. */
static void bound_refusals(void)
{
    for (size_t r = 0; r < LENGTH(refused); r++) {
        int64_t answer = AT(refused[r].refusal, refused[r].place);
        for (size_t cap = 0; cap <= 3; cap++)
            try_bound(refused[r].k, refused[r].p, refused[r].m, refused[r].t, refused[r].n, cap, answer, NULL);
        for (size_t s = 0; s < LENGTH(any_starts); s++)
            try_choice_rooms(refused[r].k, refused[r].p, refused[r].m, refused[r].t, refused[r].n, any_starts[s], answer,
                             NULL);
    }
}

/* Starts behind the last one of a pattern of 3 letters in a text of 5, to the largest there are: with some of these the sum
 * with m is small again if it wraps, and some have a right start in their lower bits. */
static const size_t beyond[] = {
    3, 4, 5, 6, 65535, 65536, UINT32_MAX, (size_t)UINT32_MAX + 1, (size_t)UINT32_MAX + 3, SIZE_MAX / 2,
    SIZE_MAX / 2 + 3, SIZE_MAX - 3, SIZE_MAX - 2, SIZE_MAX - 1, SIZE_MAX,
};

static void far_starts(void)
{
    static const uint32_t p[] = {3, 3, 2}, t[] = {2, 1, 3, 2, 2}, first[] = {0, 0, 1}, due[] = {1, 1, 1};
    try_choice_rooms(2, p, 3, t, 5, 0, 0, NULL);
    try_choice_rooms(2, p, 3, t, 5, 1, 1, first);
    try_choice_rooms(2, p, 3, t, 5, 2, 1, due);
    for (size_t s = 0; s < LENGTH(beyond); s++) {
        try_choice_rooms(2, p, 3, t, 5, beyond[s], -BREAKWARP_REFUSED_START, NULL);
        /* A pattern longer than the text, and no text: no start is right, not 0 either. */
        try_choice_rooms(2, p, 3, t, 2, beyond[s], -BREAKWARP_REFUSED_START, NULL);
        try_choice_rooms(2, p, 3, NULL, 0, beyond[s], -BREAKWARP_REFUSED_START, NULL);
    }
    try_choice_rooms(2, p, 3, t, 2, 0, -BREAKWARP_REFUSED_START, NULL);
    try_choice_rooms(2, p, 3, NULL, 0, 0, -BREAKWARP_REFUSED_START, NULL);
    try_bound(2, p, 3, t, 2, 2, 0, NULL);
    try_bound(2, p, 3, NULL, 0, 2, 0, NULL);
}

/* The position of link j of 64 in one of four orders: from left to right, back, from the middle outwards, and the even
 * ones first and then the odd ones backwards, so that no pass in one direction goes further than a link. */
static size_t position(size_t order, size_t j)
{
    switch (order) {
    case 0:
        return j;
    case 1:
        return 63 - j;
    case 2:
        return j < 32 ? 2 * (31 - j) : 2 * (j - 32) + 1;
    default:
        return j % 2 == 0 ? j / 2 : 63 - j / 2;
    }
}

/* A chain of 64 links over 65 different sets, which share the base letters 30 and 31; `first` and `last` are the base
 * letters that stand at its ends, or 0 where a set does. Text letters 1 to 64 are under the pattern, between marks. */
static void chain(size_t order, size_t over, uint32_t first, uint32_t last, uint32_t pattern[64], uint32_t text[66])
{
    uint32_t sets[65];
    for (size_t j = 0; j < 65; j++)
        sets[j] = UINT32_C(3) << 30 | (uint32_t)(j + 1);
    if (first != 0)
        sets[0] = UINT32_C(1) << first;
    if (last != 0)
        sets[64] = UINT32_C(1) << last;
    text[0] = text[65] = MARK;
    for (size_t j = 0; j < 64; j++) {
        /* Which of the two is the pattern's: the first, the second, or both in turn. */
        size_t x = position(order, j), second = over == 2 ? j % 2 : over;
        pattern[x] = sets[j + second];
        text[1 + x] = sets[j + 1 - second];
    }
}

/* Without single letters all sets stand for 30; one at either end decides for all; two that do not agree leave a hit
 * that is not listed. */
static void chained_bounds(void)
{
    static const uint32_t ends[][2] = {{0, 0}, {0, 31}, {31, 0}, {31, 31}, {30, 31}, {31, 30}, {30, 0}, {0, 30}};
    for (size_t row = 0; row < 4 * 3 * LENGTH(ends); row++) {
        uint32_t pattern[64], text[66], due[64], first = ends[row / 12][0], last = ends[row / 12][1];
        chain(row % 4, row / 4 % 3, first, last, pattern, text);
        for (size_t j = 0; j < 64; j++)
            due[j] = first != 0 ? first : last != 0 ? last : 30;
        int64_t listed = first == 0 || last == 0 || first == last;
        try_search(0, 32, pattern, 64, text, 66, 2, 3, 1, at1, NULL);
        try_bound(32, pattern, 64, text + 1, 64, 2, listed, at0);
        try_bound(32, pattern, 64, text, 66, 2, listed, at1);
        try_choice(32, pattern, 64, text + 1, 64, 0, 64, listed, due);
        try_choice(32, pattern, 64, text, 66, 1, 66, listed, due);
        try_choice(32, pattern, 64, text, 66, 0, 64, 0, NULL);
        try_choice(32, pattern, 64, text, 66, 1, 63, -BREAKWARP_REFUSED_ROOM, NULL);
        try_choice(32, pattern, 64, text, 66, 3, 0, -BREAKWARP_REFUSED_START, NULL);
    }
}

/* As many different sets as can stand at a start, 128: their low seven bits differ, and what pair j shares is base letter
 * 8 + j % 24. Then the set of position 61 stands at 63 too, over the same text letter, and over another one that it has. */
static void many_sets(void)
{
    uint32_t pattern[64], text[64], due[64];
    for (uint32_t j = 0; j < 64; j++) {
        due[j] = 8 + j % 24;
        pattern[j] = UINT32_C(1) << due[j] | 2 * j;
        text[j] = UINT32_C(1) << due[j] | (127 ^ 2 * j);
    }
    try_bound(32, pattern, 64, text, 64, 1, 1, at0);
    try_choice(32, pattern, 64, text, 64, 0, 65, 1, due);
    pattern[63] = pattern[61];
    text[63] = text[61];
    due[63] = due[61];
    try_bound(32, pattern, 64, text, 64, 1, 1, at0);
    try_choice(32, pattern, 64, text, 64, 0, 65, 1, due);
    text[63] = 2;
    try_search(0, 32, pattern, 64, text, 64, 1, 3, 1, at0, NULL);
    try_bound(32, pattern, 64, text, 64, 1, 0, NULL);
    try_choice(32, pattern, 64, text, 64, 0, 65, 0, NULL);
}

/* The largest text, the longest pattern, the largest alphabet, and one more of each; the last start and the next one. */
static void bound_limits(void)
{
    uint32_t *text = alike(BREAKWARP_MAX_N + 1, UINT32_C(3) << 30), *pattern = alike(65, UINT32_C(1) << 31);
    uint32_t *hits = alike(BREAKWARP_MAX_N, 0), *due = alike(64, 31);
    for (size_t i = 0; i < BREAKWARP_MAX_N; i++)
        hits[i] = (uint32_t)i;
    try_bound(32, pattern, 64, text, 65536, 65536, 65473, hits);
    try_bound(32, pattern, 1, text, 65536, 65535, 65536, hits);
    try_bound(32, pattern, 64, text, 65537, 4, -BREAKWARP_REFUSED_N, NULL);
    try_bound(32, pattern, 65, text, 65537, 4, -BREAKWARP_REFUSED_M, NULL);
    try_bound(31, pattern, 64, text, 65536, 4, -BREAKWARP_REFUSED_PATTERN, NULL);
    try_bound(33, pattern, 65, text, 65537, 4, -BREAKWARP_REFUSED_K, NULL);
    try_choice(32, pattern, 64, text, 65536, 65472, 64, 1, due);
    try_choice(32, pattern, 64, text, 65536, 65473, 64, -BREAKWARP_REFUSED_START, NULL);
    try_choice(32, pattern, 1, text, 65536, 65535, 3, 1, due);
    try_choice(32, pattern, 1, text, 65536, 65536, 0, -BREAKWARP_REFUSED_START, NULL);
    try_choice(32, pattern, 64, text, 65537, 65473, 64, -BREAKWARP_REFUSED_N, NULL);
    try_choice(32, pattern, 65, text, 65537, 0, 65, -BREAKWARP_REFUSED_M, NULL);
    try_choice(31, pattern, 64, text, 65536, 65473, 0, -BREAKWARP_REFUSED_PATTERN, NULL);
    try_choice(33, pattern, 65, text, 65537, 0, 65, -BREAKWARP_REFUSED_K, NULL);
    /* The pattern is the text's own set, which a letter decides, and the letter after it the other way: the 63 starts with
     * both under them are hits and not listed. */
    uint32_t *wide = alike(64, UINT32_C(3) << 30);
    text[65472] = UINT32_C(1) << 31;
    text[65473] = UINT32_C(1) << 30;
    try_search(0, 32, wide, 64, text, 65536, 4, 3, 65473, hits, NULL);
    try_bound(32, wide, 64, text, 65536, 65536, 65410, hits);
    try_choice(32, wide, 64, text, 65536, 65409, 64, 1, due);
    try_choice(32, wide, 64, text, 65536, 65410, 64, 0, NULL);
    try_choice(32, wide, 64, text, 65536, 65472, 64, 0, NULL);
    for (size_t j = 0; j < 64; j++)
        due[j] = 30;
    try_choice(32, wide, 64, text, 65536, 65408, 64, 1, due);
    free(wide);
    free(text);
    free(pattern);
    free(hits);
    free(due);
}

/* The farthest places: the last letter of the longest pattern, and of the largest text, behind nothing but marks. */
static void far_bounds(void)
{
    static const uint32_t a[] = {1}, last[] = {UINT32_C(1) << 31}, end[] = {65535}, due[] = {31};
    uint32_t *text = alike(BREAKWARP_MAX_N, MARK), *pattern = alike(BREAKWARP_MAX_M, 1);
    text[BREAKWARP_MAX_N - 1] = last[0];
    pattern[BREAKWARP_MAX_M - 1] = MARK;
    try_bound(32, pattern, 64, text, 65536, 4, AT(BREAKWARP_REFUSED_PATTERN, 63), NULL);
    try_bound(31, a, 1, text, 65536, 4, AT(BREAKWARP_REFUSED_TEXT, 65535), NULL);
    try_bound(31, a, 1, text, 65535, 4, 0, NULL);
    try_bound(32, last, 1, text, 65536, 4, 1, end);
    try_choice(32, pattern, 64, text, 65536, SIZE_MAX, 0, AT(BREAKWARP_REFUSED_PATTERN, 63), NULL);
    try_choice(31, a, 1, text, 65536, SIZE_MAX, 0, AT(BREAKWARP_REFUSED_TEXT, 65535), NULL);
    try_choice(31, a, 1, text, 65536, 0, 1, AT(BREAKWARP_REFUSED_TEXT, 65535), NULL);
    try_choice(32, last, 1, text, 65536, 65535, 1, 1, due);
    try_choice(32, last, 1, text, 65536, 65534, 1, 0, NULL);
    free(text);
    free(pattern);
}

/* Slices of length 0 with null pointers. */
static void null_bounds(void)
{
    static const uint32_t a[] = {1}, e[] = {2};
    snprintf(about, sizeof about, "the bound mode with null pointers");
    same("no text, no list", breakwarp_bound(3, a, 1, NULL, 0, NULL, 0), 0);
    same("no list", breakwarp_bound(3, a, 1, a, 1, NULL, 0), 1);
    same("no pattern", breakwarp_bound(3, NULL, 0, NULL, 0, NULL, 0), -BREAKWARP_REFUSED_M);
    same("no alphabet", breakwarp_bound(0, NULL, 0, NULL, 0, NULL, 0), -BREAKWARP_REFUSED_K);
    same("no text, no choice", breakwarp_bound_choice(3, a, 1, NULL, 0, 0, NULL, 0), -BREAKWARP_REFUSED_START);
    same("behind the text", breakwarp_bound_choice(3, a, 1, a, 1, 1, NULL, 0), -BREAKWARP_REFUSED_START);
    same("no room", breakwarp_bound_choice(3, a, 1, a, 1, 0, NULL, 0), -BREAKWARP_REFUSED_ROOM);
    same("no room, not listed", breakwarp_bound_choice(3, a, 1, e, 1, 0, NULL, 0), -BREAKWARP_REFUSED_ROOM);
    same("no pattern at a start", breakwarp_bound_choice(3, NULL, 0, NULL, 0, 0, NULL, 0), -BREAKWARP_REFUSED_M);
    same("no alphabet at a start", breakwarp_bound_choice(0, NULL, 0, NULL, 0, 0, NULL, 0), -BREAKWARP_REFUSED_K);
}

/* What each set of at most four base letters may stand for at one start, narrowed pair by pair until nothing changes;
 * whether something is left to every pair. */
static int narrowed(const uint32_t *p, size_t m, const uint32_t *t, uint32_t left[16])
{
    int changed = 1;
    for (uint32_t set = 0; set < 16; set++)
        left[set] = set;
    while (changed) {
        changed = 0;
        for (size_t j = 0; j < m; j++) {
            uint32_t both = left[p[j]] & left[t[j]];
            if (both == 0)
                return 0;
            changed |= both != left[p[j]] || both != left[t[j]];
            left[p[j]] = left[t[j]] = both;
        }
    }
    return 1;
}

/* So many letters of five, so that the same sets come again; at times marks if `marks`. */
static void draw_sets(uint32_t *letters, size_t n, const uint32_t sets[5], int marks)
{
    for (size_t at = 0; at < n; at++)
        letters[at] = marks && below(20) == 0 ? MARK : sets[below(5)];
}

static uint32_t lowest(uint32_t set)
{
    uint32_t letter = 0;
    while ((set >> letter & 1) == 0)
        letter++;
    return letter;
}

/* Beside brute on random pairs: each hit is listed exactly if narrowing leaves something, and what is written is the
 * lowest of that. Every start is asked about, and two behind the text. */
static void bounds_beside_brute(void)
{
    enum { PAIRS = 240, N = 16 };
    size_t listed = 0, only_hits = 0;
    for (size_t pair = 0; pair < PAIRS; pair++) {
        uint32_t k = 3 + below(2), sets[5], pattern[6], text[N], hits[N], list[N] = {0}, left[16], due[6] = {0};
        size_t m = 1 + below(LENGTH(pattern)), n = below(N + 1), total = 0, hit = 0;
        uint64_t work[3];
        /* All but the first are unsure. */
        for (size_t set = 0; set < LENGTH(sets); set++)
            do
                sets[set] = 1 + below((UINT32_C(1) << k) - 1);
            while (set > 0 && (sets[set] & (sets[set] - 1)) == 0);
        draw_sets(pattern, m, sets, 0);
        draw_sets(text, n, sets, 1);
        size_t all = (size_t)breakwarp_brute(k, pattern, m, text, n, hits, N, work, 3);
        for (size_t start = 0; start <= n + 1; start++) {
            int is_hit = hit < all && hits[hit] == start, is_listed = is_hit && narrowed(pattern, m, text + start, left);
            int64_t answer = start + m > n ? -BREAKWARP_REFUSED_START : is_listed;
            hit += (size_t)is_hit;
            for (size_t j = 0; is_listed && j < m; j++)
                due[j] = lowest(left[pattern[j]]);
            if (is_listed)
                list[total++] = (uint32_t)start;
            try_choice(k, pattern, m, text, n, start, m + below(3), answer, due);
        }
        try_bound(k, pattern, m, text, n, below(N + 1), (int64_t)total, list);
        listed += total;
        only_hits += all - total;
    }
    snprintf(about, sizeof about, "bound beside brute");
    same("starts listed, one a pair at least", listed >= PAIRS, 1);
    same("hits that are not, one in two pairs at least", only_hits >= PAIRS / 2, 1);
}

static void bound_mode(void)
{
    worked_bounds();
    worked_choices();
    bound_refusals();
    far_starts();
    chained_bounds();
    many_sets();
    bound_limits();
    far_bounds();
    null_bounds();
    bounds_beside_brute();
}

/* ---- what is shared ---- */

/* One call. Where it is taken it answers m, and writes as many sets. */
static void try_reasons(uint32_t k, const uint32_t *p, size_t m, const uint32_t *t, size_t n, size_t start, size_t cap,
                        int64_t refusal, const uint32_t *sets)
{
    try_at("reasons", breakwarp_reasons, k, p, m, t, n, start, cap, refusal < 0 ? refusal : (int64_t)m, sets,
           refusal < 0 ? 0 : m);
}

/* With every room from none to more than enough: too little is refused whether the start is a hit or not, and after all
 * that is refused besides. */
static void try_reasons_rooms(uint32_t k, const uint32_t *p, size_t m, const uint32_t *t, size_t n, size_t start,
                              int64_t refusal, const uint32_t *sets)
{
    for (size_t cap = 0; cap <= m + 2; cap++)
        try_reasons(k, p, m, t, n, start, cap, refusal == 0 && cap < m ? -BREAKWARP_REFUSED_ROOM : refusal, sets);
}

/* Over aen: a is 1, e 2, n 4. */
static void worked_reasons(void)
{
    static const uint32_t all[] = {7, 7, 7}, a[] = {1}, e[] = {2}, ae[] = {3}, ae_an[] = {3, 5};
    static const uint32_t cut[] = {1, 7, MARK, 6}, doubts[] = {4, 6, 5, 2};
    static const struct {
        const uint32_t *p;
        size_t m;
        const uint32_t *t;
        size_t n, start;
        int64_t refusal;
        uint32_t sets[4];
    } rows[] = {
        {anna, 4, page, 12, 0, 0, {1, 4, 4, 1}},
        {anna, 4, page, 12, 3, 0, {1, 4, 4, 1}},
        {anna, 4, page, 12, 8, 0, {1, 4, 4, 1}},
        /* No hit: every set is written, also behind the first empty one. */
        {anna, 4, page, 12, 1, 0, {0, 4, 0, 0}},
        {anna, 4, page, 12, 5, 0, {0, 0, 4, 1}},
        {anna, 4, page, 12, 9, -BREAKWARP_REFUSED_START, {0}},
        {anna, 4, page, 12, 12, -BREAKWARP_REFUSED_START, {0}},
        /* A name that a mark cuts, and the whole one behind it. */
        {anna, 4, entries, 9, 0, 0, {1, 4, 0, 0}},
        {anna, 4, entries, 9, 2, 0, {0, 4, 0, 1}},
        {anna, 4, entries, 9, 5, 0, {1, 4, 4, 1}},
        /* `*` over [ae], [ae] over `*`, `*` over a mark, `e` over `a`. */
        {all, 1, ae, 1, 0, 0, {3}},
        {ae, 1, all, 1, 0, 0, {3}},
        {all, 1, cut + 2, 1, 0, 0, {0}},
        {e, 1, a, 1, 0, 0, {0}},
        {all, 3, cut, 4, 1, 0, {7, 0, 6}},
        {ae_an, 2, doubts, 4, 1, 0, {2, 5}},
        {ae_an, 2, doubts, 4, 2, 0, {1, 0}},
        {anna, 4, page, 3, 0, -BREAKWARP_REFUSED_START, {0}},
        {anna, 4, NULL, 0, 0, -BREAKWARP_REFUSED_START, {0}},
    };
    for (size_t r = 0; r < LENGTH(rows); r++)
        try_reasons_rooms(3, rows[r].p, rows[r].m, rows[r].t, rows[r].n, rows[r].start, rows[r].refusal, rows[r].sets);
}

/* 1 to 5 in their order and with their places, before 16 and 8; a wrong letter that is not under the pattern too. */
static void reasons_refusals(void)
{
    static const uint32_t ahead[] = {8, 1, 4};
    for (size_t r = 0; r < LENGTH(refused); r++)
        for (size_t s = 0; s < LENGTH(any_starts); s++)
            try_reasons_rooms(refused[r].k, refused[r].p, refused[r].m, refused[r].t, refused[r].n, any_starts[s],
                              AT(refused[r].refusal, refused[r].place), NULL);
    /* Before the pattern's place, and behind it. */
    try_reasons_rooms(3, anna, 2, ahead, 3, 1, AT(BREAKWARP_REFUSED_TEXT, 0), NULL);
    try_reasons_rooms(3, anna, 1, twice, 2, 0, AT(BREAKWARP_REFUSED_TEXT, 1), NULL);
}

static void far_reasons(void)
{
    static const uint32_t p[] = {3, 3, 2}, t[] = {2, 1, 3, 2, 2}, first[] = {2, 1, 2}, last[] = {3, 2, 2};
    try_reasons_rooms(2, p, 3, t, 5, 0, 0, first);
    try_reasons_rooms(2, p, 3, t, 5, 2, 0, last);
    for (size_t s = 0; s < LENGTH(beyond); s++) {
        try_reasons_rooms(2, p, 3, t, 5, beyond[s], -BREAKWARP_REFUSED_START, NULL);
        try_reasons_rooms(2, p, 3, t, 2, beyond[s], -BREAKWARP_REFUSED_START, NULL);
        try_reasons_rooms(2, p, 3, NULL, 0, beyond[s], -BREAKWARP_REFUSED_START, NULL);
    }
}

/* Every base letter of 32 alone: over itself, over all, over all others, over a mark; all and all others over it; all over
 * marks. */
static void each_base_letter(void)
{
    uint32_t one[32], all[32], others[32], nothing[32];
    for (uint32_t b = 0; b < 32; b++) {
        one[b] = UINT32_C(1) << b;
        all[b] = UINT32_MAX;
        others[b] = ~one[b];
        nothing[b] = MARK;
    }
    try_reasons(32, one, 32, one, 32, 0, 32, 0, one);
    try_reasons(32, one, 32, all, 32, 0, 33, 0, one);
    try_reasons(32, all, 32, one, 32, 0, 34, 0, one);
    try_reasons(32, others, 32, all, 32, 0, 32, 0, others);
    try_reasons(32, others, 32, one, 32, 0, 32, 0, nothing);
    try_reasons(32, one, 32, others, 32, 0, 32, 0, nothing);
    try_reasons(32, one, 32, nothing, 32, 0, 32, 0, nothing);
    try_reasons(32, all, 32, nothing, 32, 0, 32, 0, nothing);
    /* With one base letter less the last one is wrong, and with each k the first one beyond it. */
    try_reasons(31, one, 32, all, 32, 0, 32, AT(BREAKWARP_REFUSED_PATTERN, 31), NULL);
    for (uint32_t k = 1; k < 32; k++) {
        try_reasons(k, one, k, one, k, 0, k, 0, one);
        try_reasons(k, one, k + 1, one, k, 0, k, AT(BREAKWARP_REFUSED_PATTERN, k), NULL);
        try_reasons(k, one, k, one, k + 1, 0, k, AT(BREAKWARP_REFUSED_TEXT, k), NULL);
    }
}

/* The largest text, the longest pattern, the largest alphabet, and one more of each; the last start and the next one. */
static void reasons_limits(void)
{
    uint32_t *text = alike(BREAKWARP_MAX_N + 1, UINT32_C(3) << 30), *pattern = alike(65, UINT32_C(1) << 31);
    uint32_t *due = alike(64, UINT32_C(1) << 31);
    try_reasons(32, pattern, 64, text, 65536, 0, 64, 0, due);
    try_reasons(32, pattern, 64, text, 65536, 65472, 64, 0, due);
    try_reasons(32, pattern, 64, text, 65536, 65472, 65, 0, due);
    try_reasons(32, pattern, 64, text, 65536, 65472, 63, -BREAKWARP_REFUSED_ROOM, NULL);
    try_reasons(32, pattern, 64, text, 65536, 65473, 64, -BREAKWARP_REFUSED_START, NULL);
    try_reasons(32, pattern, 64, text, 65536, 65473, 63, -BREAKWARP_REFUSED_START, NULL);
    try_reasons(32, pattern, 1, text, 65536, 65535, 3, 0, due);
    try_reasons(32, pattern, 1, text, 65536, 65536, 0, -BREAKWARP_REFUSED_START, NULL);
    try_reasons(32, pattern, 64, text, 65537, 65473, 64, -BREAKWARP_REFUSED_N, NULL);
    try_reasons(32, pattern, 65, text, 65537, 0, 65, -BREAKWARP_REFUSED_M, NULL);
    try_reasons(31, pattern, 64, text, 65536, 65473, 0, -BREAKWARP_REFUSED_PATTERN, NULL);
    try_reasons(33, pattern, 65, text, 65537, 0, 65, -BREAKWARP_REFUSED_K, NULL);
    /* Sets of their own at the last start, the last of them over a mark. */
    for (uint32_t j = 0; j < 64; j++) {
        pattern[j] = UINT32_C(1) << j % 32 | UINT32_C(1) << 31 | j;
        text[65472 + j] = j == 63 ? MARK : UINT32_C(1) << j % 32 | j * 3;
        due[j] = pattern[j] & text[65472 + j];
    }
    try_reasons(32, pattern, 64, text, 65536, 65472, 64, 0, due);
    try_reasons(32, pattern, 64, text, 65536, 65472, 65, 0, due);
    free(text);
    free(pattern);
    free(due);
}

/* The farthest places: the last letter of the longest pattern, and of the largest text, behind nothing but marks. */
static void farthest_reasons(void)
{
    static const uint32_t a[] = {1}, last[] = {UINT32_C(1) << 31}, nothing[] = {0};
    uint32_t *text = alike(BREAKWARP_MAX_N, MARK), *pattern = alike(BREAKWARP_MAX_M, 1);
    text[BREAKWARP_MAX_N - 1] = last[0];
    pattern[BREAKWARP_MAX_M - 1] = MARK;
    try_reasons(32, pattern, 64, text, 65536, SIZE_MAX, 0, AT(BREAKWARP_REFUSED_PATTERN, 63), NULL);
    try_reasons(31, a, 1, text, 65536, SIZE_MAX, 0, AT(BREAKWARP_REFUSED_TEXT, 65535), NULL);
    try_reasons(31, a, 1, text, 65536, 0, 1, AT(BREAKWARP_REFUSED_TEXT, 65535), NULL);
    try_reasons(32, last, 1, text, 65536, 65535, 1, 0, last);
    try_reasons(32, last, 1, text, 65536, 65534, 1, 0, nothing);
    free(text);
    free(pattern);
}

/* Slices of length 0 with null pointers. */
static void null_reasons(void)
{
    static const uint32_t a[] = {1}, e[] = {2};
    snprintf(about, sizeof about, "reasons with null pointers");
    same("no text, no sets", breakwarp_reasons(3, a, 1, NULL, 0, 0, NULL, 0), -BREAKWARP_REFUSED_START);
    same("behind the text", breakwarp_reasons(3, a, 1, a, 1, 1, NULL, 0), -BREAKWARP_REFUSED_START);
    same("far behind it", breakwarp_reasons(3, a, 1, a, 1, SIZE_MAX, NULL, 0), -BREAKWARP_REFUSED_START);
    same("no room", breakwarp_reasons(3, a, 1, a, 1, 0, NULL, 0), -BREAKWARP_REFUSED_ROOM);
    same("no room, no hit", breakwarp_reasons(3, a, 1, e, 1, 0, NULL, 0), -BREAKWARP_REFUSED_ROOM);
    same("no pattern", breakwarp_reasons(3, NULL, 0, NULL, 0, 0, NULL, 0), -BREAKWARP_REFUSED_M);
    same("no alphabet", breakwarp_reasons(0, NULL, 0, NULL, 0, 0, NULL, 0), -BREAKWARP_REFUSED_K);
}

/* What two letters have in common, base letter by base letter. */
static uint32_t in_both(uint32_t a, uint32_t b)
{
    uint32_t set = 0;
    for (uint32_t letter = 0; letter < 32; letter++)
        if ((a >> letter & 1) == 1 && (b >> letter & 1) == 1)
            set |= UINT32_C(1) << letter;
    return set;
}

/* One start of a random pair: brute has it as a hit exactly if no set is empty, and what the bound mode chooses is one of
 * the letters that are shared. */
static void reasons_at(uint32_t k, const uint32_t *pattern, size_t m, const uint32_t *text, size_t n, size_t start,
                       int is_hit)
{
    uint32_t due[8] = {0}, choice[8] = {0};
    size_t shared = 0;
    for (size_t j = 0; start + m <= n && j < m; j++) {
        due[j] = in_both(pattern[j], text[start + j]);
        shared += due[j] != 0;
    }
    try_reasons(k, pattern, m, text, n, start, m + below(3), start + m > n ? -BREAKWARP_REFUSED_START : 0, due);
    same("no set is empty", shared == m, is_hit);
    if (breakwarp_bound_choice(k, pattern, m, text, n, start, choice, LENGTH(choice)) == 1)
        for (size_t j = 0; j < m; j++)
            same("the choice is shared", due[j] >> choice[j] & 1, 1);
}

/* Beside brute on random pairs, at every start and two behind the text. */
static void reasons_beside_brute(void)
{
    enum { PAIRS = 240, N = 24 };
    size_t met = 0, missed = 0;
    for (size_t pair = 0; pair < PAIRS; pair++) {
        uint32_t k = 1 + below(pair % 4 == 0 ? 32 : 3), pattern[8], text[N], hits[N];
        size_t m = 1 + below(pair % 8 == 0 ? LENGTH(pattern) : 3), n = below(N + 1), hit = 0;
        uint64_t work[3];
        draw(pattern, m, k);
        draw_text(text, n, k);
        size_t all = (size_t)breakwarp_brute(k, pattern, m, text, n, hits, N, work, 3);
        for (size_t start = 0; start <= n + 1; start++) {
            int is_hit = hit < all && hits[hit] == start;
            reasons_at(k, pattern, m, text, n, start, is_hit);
            hit += (size_t)is_hit;
        }
        met += all;
        missed += n >= m ? n - m + 1 - all : 0;
    }
    snprintf(about, sizeof about, "reasons beside brute");
    same("hits, two a pair at least", met >= 2 * PAIRS, 1);
    same("other starts, two a pair at least", missed >= 2 * PAIRS, 1);
}

static void reasons(void)
{
    worked_reasons();
    reasons_refusals();
    far_reasons();
    each_base_letter();
    reasons_limits();
    farthest_reasons();
    null_reasons();
    reasons_beside_brute();
}

/* ---- products ---- */

typedef int64_t convert(uint32_t k, const uint32_t *from, size_t n, uint32_t *to, size_t cap);

static void try_convert(const char *name, convert *call, uint32_t k, const uint32_t *from, size_t n, size_t cap,
                        int64_t answer, const uint32_t *to)
{
    snprintf(about, sizeof about, "%s, k %u, n %zu, room for %zu", name, (unsigned)k, n, cap);
    uint32_t *input = copy(from, n * sizeof *from);
    struct lent output = lend(cap * sizeof *to);
    errno = 77;
    same("answer", call(k, input, n, slice(output), cap), answer);
    same("errno", errno, 77);
    holds("output", output, to, answer < 0 ? 0 : (size_t)answer * sizeof *to);
    unchanged("input", input, from, n * sizeof *from);
}

#define TO(...) try_convert("to_products", breakwarp_to_products, __VA_ARGS__)
#define FROM(...) try_convert("from_products", breakwarp_from_products, __VA_ARGS__)

static void conversions(void)
{
    static const uint32_t letters[] = {3, 4, 7}, products[] = {6, 5, 30}, nine[] = {0x1ff}, most[] = {223092870};
    static const uint32_t none[] = {0, 4, 7}, mixed[] = {6, 5, 4, 0}, bad[] = {1, 8}, empty[] = {0};
    for (size_t cap = 3; cap <= 5; cap++) {
        TO(3, letters, 3, cap, 3, products);
        FROM(3, products, 3, cap, 3, letters);
    }
    TO(9, nine, 1, 1, 1, most);
    FROM(9, most, 1, 1, 1, nine);
    for (size_t cap = 0; cap < 3; cap++) {
        TO(3, letters, 3, cap, -BREAKWARP_REFUSED_ROOM, NULL);
        FROM(3, products, 3, cap, -BREAKWARP_REFUSED_ROOM, NULL);
    }
    for (size_t at = 0; at < LENGTH(none); at++)
        FROM(3, none + at, 1, 1, -BREAKWARP_REFUSED_PRODUCT, NULL);
    FROM(8, most, 1, 0, -BREAKWARP_REFUSED_PRODUCT, NULL);
    FROM(3, mixed, 4, 4, AT(BREAKWARP_REFUSED_PRODUCT, 2), NULL);
    TO(3, bad, 2, 1, AT(BREAKWARP_REFUSED_TEXT, 1), NULL);
    for (uint32_t k = 10; k <= 32; k++) {
        TO(k, empty, 1, 0, -BREAKWARP_REFUSED_PRODUCT_K, NULL);
        FROM(k, empty, 1, 0, -BREAKWARP_REFUSED_PRODUCT_K, NULL);
    }
    TO(0, empty, 1, 0, -BREAKWARP_REFUSED_K, NULL);
    FROM(0, empty, 1, 0, -BREAKWARP_REFUSED_K, NULL);
    TO(33, empty, 1, 0, -BREAKWARP_REFUSED_K, NULL);
    FROM(33, empty, 1, 0, -BREAKWARP_REFUSED_K, NULL);
    TO(3, NULL, 0, 4, 0, NULL);
    FROM(3, NULL, 0, 4, 0, NULL);
    snprintf(about, sizeof about, "conversions with null pointers");
    same("to_products", breakwarp_to_products(3, NULL, 0, NULL, 0), 0);
    same("from_products", breakwarp_from_products(3, NULL, 0, NULL, 0), 0);
}

/* A mark among letters, and for every k alone; its product is 1, and 0 is still none. */
static void marked_conversions(void)
{
    static const uint32_t letters[] = {3, MARK, 7}, products[] = {6, 1, 30};
    static const uint32_t bad[] = {MARK, MARK, 8}, none[] = {1, 1, 0};
    for (size_t cap = 3; cap <= 5; cap++) {
        TO(3, letters, 3, cap, 3, products);
        FROM(3, products, 3, cap, 3, letters);
    }
    for (uint32_t k = 1; k <= 9; k++) {
        TO(k, letters + 1, 1, 1, 1, products + 1);
        FROM(k, products + 1, 1, 1, 1, letters + 1);
        TO(k, letters + 1, 1, 0, -BREAKWARP_REFUSED_ROOM, NULL);
        FROM(k, products + 1, 1, 0, -BREAKWARP_REFUSED_ROOM, NULL);
    }
    TO(3, bad, 3, 3, AT(BREAKWARP_REFUSED_TEXT, 2), NULL);
    FROM(3, none, 3, 3, AT(BREAKWARP_REFUSED_PRODUCT, 2), NULL);
}

static void long_conversions(void)
{
    size_t n = BREAKWARP_MAX_N + 1;
    uint32_t *letters = alike(n, 0), *products = alike(n, 0);
    for (size_t at = 0; at < n; at++) {
        letters[at] = at % 3 == 2 ? MARK : at % 3 ? 2 : 5;
        products[at] = at % 3 == 2 ? 1 : at % 3 ? 3 : 10;
    }
    TO(3, letters, n - 1, n, (int64_t)n - 1, products);
    FROM(3, products, n - 1, n, (int64_t)n - 1, letters);
    TO(3, letters, n, n, -BREAKWARP_REFUSED_N, NULL);
    FROM(3, products, n, n, -BREAKWARP_REFUSED_N, NULL);
    letters[n - 2] = 8;
    products[n - 2] = 9;
    TO(3, letters, n - 1, n, AT(BREAKWARP_REFUSED_TEXT, n - 2), NULL);
    FROM(3, products, n - 1, n, AT(BREAKWARP_REFUSED_PRODUCT, n - 2), NULL);
    free(letters);
    free(products);
}

static void meetings(void)
{
    snprintf(about, sizeof about, "products_meet");
    same("6 and 10", breakwarp_products_meet(3, 6, 10), 1);
    same("10 and 6", breakwarp_products_meet(3, 10, 6), 1);
    same("6 and 5", breakwarp_products_meet(3, 6, 5), 0);
    same("30 and 30", breakwarp_products_meet(3, 30, 30), 1);
    same("all nine and 23", breakwarp_products_meet(9, 223092870, 23), 1);
    same("0 and 6", breakwarp_products_meet(3, 0, 6), -BREAKWARP_REFUSED_PRODUCT);
    same("6 and 7", breakwarp_products_meet(3, 6, 7), AT(BREAKWARP_REFUSED_PRODUCT, 1));
    /* The mark's product meets nothing, not itself either. */
    same("1 and 1", breakwarp_products_meet(3, 1, 1), 0);
    same("1 and 6", breakwarp_products_meet(3, 1, 6), 0);
    same("30 and 1", breakwarp_products_meet(3, 30, 1), 0);
    same("1 and all nine", breakwarp_products_meet(9, 1, 223092870), 0);
    same("0 and 1", breakwarp_products_meet(3, 0, 1), -BREAKWARP_REFUSED_PRODUCT);
    same("1 and 0", breakwarp_products_meet(3, 1, 0), AT(BREAKWARP_REFUSED_PRODUCT, 1));
    same("1 and 4", breakwarp_products_meet(3, 1, 4), AT(BREAKWARP_REFUSED_PRODUCT, 1));
    same("k 10", breakwarp_products_meet(10, 0, 0), -BREAKWARP_REFUSED_PRODUCT_K);
    same("k 32", breakwarp_products_meet(32, 6, 6), -BREAKWARP_REFUSED_PRODUCT_K);
    same("k 0", breakwarp_products_meet(0, 6, 6), -BREAKWARP_REFUSED_K);
    same("k 33", breakwarp_products_meet(33, 0, 0), -BREAKWARP_REFUSED_K);
}

/* ---- sheets ---- */

static const char worked[] = "3\naen\n4\nanna\n12\nannann[ae]nann[an]\n";
static const char worked_report[] = "hits 3\n0\n3\n8\nbrute 20 0 0\nkmp 13 4 0\nbm 14 3 0\nsunday 15 0 0\n"
                                    "shiftand 0 0 12\nhybrid 1 0 12\n";

static const char entries_sheet[] = "3\naen\n4\nanna\n9\nan|naanna\n";
static const char entries_report[] = "hits 1\n5\nbrute 12 0 0\nkmp 11 0 0\nbm 9 0 0\nsunday 11 0 0\n"
                                    "shiftand 0 0 9\nhybrid 5 0 6\n";

/* Reads a sheet; one that is taken must hold `anna` over `aen` and the text `due` of `n` letters. */
static void try_read_text(const char *bytes, size_t length, size_t nalphabet, size_t npattern, size_t ntext,
                          size_t nsizes, int64_t answer, const uint32_t *due, size_t n)
{
    const uint64_t sizes[3] = {3, 4, n};
    snprintf(about, sizeof about, "read_sheet of %zu bytes beginning %.20s into %zu, %zu, %zu, %zu", length,
             length == 0 ? "" : bytes, nalphabet, npattern, ntext, nsizes);
    uint8_t *sheet = copy(bytes, length);
    struct lent a = lend(nalphabet), p = lend(npattern * sizeof *anna), t = lend(ntext * sizeof *due);
    struct lent s = lend(nsizes * sizeof *sizes);
    errno = 77;
    same("answer",
         breakwarp_read_sheet(sheet, length, slice(a), nalphabet, slice(p), npattern, slice(t), ntext, slice(s), nsizes),
         answer);
    same("errno", errno, 77);
    holds("alphabet", a, "aen", answer < 0 ? 0 : 3);
    holds("pattern", p, anna, answer < 0 ? 0 : sizeof anna);
    holds("text", t, due, answer < 0 ? 0 : n * sizeof *due);
    holds("sizes", s, sizes, answer < 0 ? 0 : sizeof sizes);
    unchanged("sheet", sheet, bytes, length);
}

/* The same of the worked sheet, and of those that are refused. */
static void try_read(const char *bytes, size_t length, size_t nalphabet, size_t npattern, size_t ntext, size_t nsizes,
                     int64_t answer)
{
    try_read_text(bytes, length, nalphabet, npattern, ntext, nsizes, answer, page, LENGTH(page));
}

/* A mark is one letter of the text, and counted as one. */
static void marked_readings(void)
{
    size_t length = strlen(entries_sheet), n = LENGTH(entries);
    try_read_text(entries_sheet, length, 3, 4, 9, 3, 0, entries, n);
    try_read_text(entries_sheet, length, 32, 64, 100, 4, 0, entries, n);
    try_read_text(entries_sheet, length, 3, 4, 8, 3, -BREAKWARP_REFUSED_ROOM, entries, n);
    /* A text line that is cut is wrong at the sheet's length, behind the mark too. */
    for (size_t end = 15; end < length; end++)
        try_read_text(entries_sheet, end, 3, 4, 9, 3, AT(BREAKWARP_REFUSED_NOTATION, end), entries, n);
    uint8_t alphabet[1];
    uint32_t pattern[1], text[3];
    uint64_t sizes[3];
    const char *lone = "1\na\n1\na\n3\n|a|\n";
    snprintf(about, sizeof about, "read_sheet of %.9s", lone);
    same("answer",
         breakwarp_read_sheet((const uint8_t *)lone, strlen(lone), alphabet, 1, pattern, 1, text, 3, sizes, 3), 0);
    same("n", (long long)sizes[2], 3);
    same("first", text[0], MARK);
    same("between", text[1], 1);
    same("last", text[2], MARK);
}

static void readings(void)
{
    size_t length = strlen(worked);
    try_read(worked, length, 3, 4, 12, 3, 0);
    try_read(worked, length, 32, 64, 100, 4, 0);
    try_read(worked, length, 2, 4, 12, 3, -BREAKWARP_REFUSED_ROOM);
    try_read(worked, length, 3, 3, 12, 3, -BREAKWARP_REFUSED_ROOM);
    try_read(worked, length, 3, 4, 11, 3, -BREAKWARP_REFUSED_ROOM);
    try_read(worked, length, 3, 4, 12, 2, -BREAKWARP_REFUSED_ROOM);
    try_read(worked, length, 0, 0, 0, 0, -BREAKWARP_REFUSED_ROOM);
    /* A sheet that ends too soon: in a count, in the alphabet, in the letters. */
    for (size_t end = 0; end < length; end++) {
        int refusal = end < 2    ? BREAKWARP_REFUSED_COUNT
                      : end < 6  ? BREAKWARP_REFUSED_ALPHABET
                      : end < 8  ? BREAKWARP_REFUSED_COUNT
                      : end < 13 ? BREAKWARP_REFUSED_NOTATION
                      : end < 16 ? BREAKWARP_REFUSED_COUNT
                                 : BREAKWARP_REFUSED_NOTATION;
        /* A count line that is cut is missing where it should begin; a letter line is wrong at the sheet's length. */
        size_t place = refusal != BREAKWARP_REFUSED_COUNT ? end : end < 2 ? 0 : end < 8 ? 6 : 13;
        try_read(worked, end, 3, 4, 12, 3, AT(refusal, place));
    }
    snprintf(about, sizeof about, "read_sheet with null pointers");
    same("no sheet", breakwarp_read_sheet(NULL, 0, NULL, 0, NULL, 0, NULL, 0, NULL, 0), -BREAKWARP_REFUSED_COUNT);
    uint8_t alphabet[1];
    uint32_t letter[1];
    uint64_t sizes[3];
    const char *bare = "1\na\n1\na\n0\n\n";
    same("no text",
         breakwarp_read_sheet((const uint8_t *)bare, strlen(bare), alphabet, 1, letter, 1, NULL, 0, sizes, 3), 0);
    same("k", (long long)sizes[0], 1);
    same("m", (long long)sizes[1], 1);
    same("n", (long long)sizes[2], 0);
    same("a", alphabet[0], 'a');
    same("its letter", letter[0], 1);
}

/* Wrong sheets, each with its refusal and the place of it. */
static const struct {
    const char *sheet;
    int refusal, place;
} wrong[] = {
    {"", BREAKWARP_REFUSED_COUNT, 0},
    {"03\naen\n1\na\n1\na\n", BREAKWARP_REFUSED_COUNT, 0},
    {"3\r\naen\r\n1\r\na\r\n1\r\na\r\n", BREAKWARP_REFUSED_COUNT, 0},
    {"0\n\n1\na\n1\na\n", BREAKWARP_REFUSED_K, 0},
    {"33\naen\n1\na\n1\na\n", BREAKWARP_REFUSED_K, 0},
    {"3\naea\n1\na\n1\na\n", BREAKWARP_REFUSED_ALPHABET, 4},
    {"3\naen]\n1\na\n1\na\n", BREAKWARP_REFUSED_ALPHABET, 5},
    {"3\na|n\n1\na\n1\na\n", BREAKWARP_REFUSED_ALPHABET, 3},
    {"1\n|\n1\na\n1\n|\n", BREAKWARP_REFUSED_ALPHABET, 2},
    {"3\naen\n0\n\n1\na\n", BREAKWARP_REFUSED_M, 6},
    {"3\naen\n65\na\n1\na\n", BREAKWARP_REFUSED_M, 6},
    {"3\naen\n1\na\n65537\na\n", BREAKWARP_REFUSED_N, 10},
    {"3\naen\n1\na\n100000\na\n", BREAKWARP_REFUSED_COUNT, 10},
    {"3\naen\n1\n[ea]\n1\na\n", BREAKWARP_REFUSED_NOTATION, 10},
    {"3\naen\n1\n|\n1\na\n", BREAKWARP_REFUSED_NOTATION, 8},
    {"3\naen\n5\nan|na\n1\na\n", BREAKWARP_REFUSED_NOTATION, 10},
    {"3\naen\n1\n[a|n]\n1\na\n", BREAKWARP_REFUSED_NOTATION, 10},
    {"3\naen\n1\na\n1\n[|n]\n", BREAKWARP_REFUSED_NOTATION, 13},
    {"3\naen\n1\na\n3\n|a[a|n]\n", BREAKWARP_REFUSED_NOTATION, 16},
    {"3\naen\n1\na\n1\n[a]\n", BREAKWARP_REFUSED_NOTATION, 14},
    {"3\naen\n1\na\n1\n[aen]\n", BREAKWARP_REFUSED_NOTATION, 15},
    {"2\nae\n1\na\n1\n[ae]\n", BREAKWARP_REFUSED_NOTATION, 11},
    {"1\na\n1\na\n1\n*\n", BREAKWARP_REFUSED_NOTATION, 10},
    {"3\naen\n2\na\n1\na\n", BREAKWARP_REFUSED_DIFFERS, 6},
    {"3\naen\n1\na\n65536\na\n", BREAKWARP_REFUSED_DIFFERS, 10},
    {"3\naen\n1\na\n2\na|a\n", BREAKWARP_REFUSED_DIFFERS, 10},
    {"3\naen\n1\na\n0\n|\n", BREAKWARP_REFUSED_DIFFERS, 10},
    {"3\naen\n1\na\n1\na\n\n", BREAKWARP_REFUSED_AFTER, 14},
};

static void try_report(const char *bytes, size_t length, size_t cap, int64_t answer, const char *due)
{
    snprintf(about, sizeof about, "report of a sheet of %zu bytes beginning %.20s into %zu", length,
             length == 0 ? "" : bytes, cap);
    uint8_t *sheet = copy(bytes, length);
    struct lent report = lend(cap);
    errno = 77;
    same("answer", breakwarp_report(sheet, length, slice(report), cap), answer);
    same("errno", errno, 77);
    holds("report", report, due, answer < 0 ? 0 : (size_t)answer);
    unchanged("sheet", sheet, bytes, length);
}

static void refused_sheets(void)
{
    for (size_t w = 0; w < LENGTH(wrong); w++) {
        try_read(wrong[w].sheet, strlen(wrong[w].sheet), 33, 65, 9, 3, AT(wrong[w].refusal, wrong[w].place));
        try_report(wrong[w].sheet, strlen(wrong[w].sheet), 500, -wrong[w].refusal, NULL);
        try_report(wrong[w].sheet, strlen(wrong[w].sheet), 0, -wrong[w].refusal, NULL);
    }
    static char large[BREAKWARP_MAX_SHEET + 1];
    memset(large, 'a', sizeof large);
    try_read(large, sizeof large, 3, 4, 12, 3, -BREAKWARP_REFUSED_SHEET);
    try_report(large, sizeof large, 500, -BREAKWARP_REFUSED_SHEET, NULL);
    try_read(large, sizeof large - 1, 3, 4, 12, 3, -BREAKWARP_REFUSED_COUNT);
    try_report(large, sizeof large - 1, 500, -BREAKWARP_REFUSED_COUNT, NULL);
}

/* What a screen does with a refused report: the reader tells the place, and with these lengths it never says 8. */
static void places_of_reports(void)
{
    static uint8_t alphabet[BREAKWARP_MAX_K], report[BREAKWARP_MAX_REPORT];
    static uint32_t pattern[BREAKWARP_MAX_M], text[BREAKWARP_MAX_SHEET_TEXT];
    uint64_t sizes[3];
    for (size_t w = 0; w < LENGTH(wrong); w++) {
        const uint8_t *sheet = (const uint8_t *)wrong[w].sheet;
        size_t length = strlen(wrong[w].sheet);
        snprintf(about, sizeof about, "the place of a report of %.20s", wrong[w].sheet);
        int64_t told = breakwarp_report(sheet, length, report, sizeof report);
        int64_t r = breakwarp_read_sheet(sheet, length, alphabet, BREAKWARP_MAX_K, pattern, BREAKWARP_MAX_M, text,
                                         BREAKWARP_MAX_SHEET_TEXT, sizes, 3);
        same("number of the report", BREAKWARP_NUMBER(told), wrong[w].refusal);
        same("place of the report", BREAKWARP_PLACE(told), 0);
        same("number", BREAKWARP_NUMBER(r), wrong[w].refusal);
        same("place", BREAKWARP_PLACE(r), wrong[w].place);
        int64_t answers[] = {r, 0}, *next = answers;
        same("evaluated once", BREAKWARP_PLACE(*next++), wrong[w].place);
        same("evaluations", next - answers, 1);
    }
}

static void reports(void)
{
    size_t length = strlen(worked), needed = strlen(worked_report);
    for (size_t cap = 0; cap <= needed + 1; cap++)
        try_report(worked, length, cap, cap < needed ? -BREAKWARP_REFUSED_ROOM : (int64_t)needed, worked_report);
    try_report(worked, length, BREAKWARP_MAX_REPORT, (int64_t)needed, worked_report);
    needed = strlen(entries_report);
    try_report(entries_sheet, strlen(entries_sheet), needed, (int64_t)needed, entries_report);
    try_report(entries_sheet, strlen(entries_sheet), needed + 1, (int64_t)needed, entries_report);
    try_report(entries_sheet, strlen(entries_sheet), needed - 1, -BREAKWARP_REFUSED_ROOM, NULL);
    snprintf(about, sizeof about, "report with null pointers");
    same("no sheet", breakwarp_report(NULL, 0, NULL, 0), -BREAKWARP_REFUSED_COUNT);
    same("no room", breakwarp_report((const uint8_t *)worked, length, NULL, 0), -BREAKWARP_REFUSED_ROOM);
}

/* The sheet with the most hits: a hit at every letter, 8,192 bytes. Its report fits the header's bound. */
static void longest_report(void)
{
    static char sheet[BREAKWARP_MAX_SHEET];
    static char due[BREAKWARP_MAX_REPORT + 1];
    int n = BREAKWARP_MAX_SHEET - 14;
    int at = snprintf(sheet, sizeof sheet, "1\na\n1\na\n%d\n", n);
    memset(sheet + at, 'a', sizeof sheet - (size_t)at);
    sheet[sizeof sheet - 1] = '\n';
    size_t length = (size_t)snprintf(due, sizeof due, "hits %d\n", n);
    for (int start = 0; start < n; start++)
        length += (size_t)snprintf(due + length, sizeof due - length, "%d\n", start);
    /* One test for each start, or one step for each letter; a single letter costs no shift test. */
    length += (size_t)snprintf(due + length, sizeof due - length,
                               "brute %d 0 0\nkmp %d 0 0\nbm %d 0 0\nsunday %d 0 0\nshiftand 0 0 %d\nhybrid 1 0 %d\n", n,
                               n, n, n, n, n);
    try_report(sheet, sizeof sheet, length - 1, -BREAKWARP_REFUSED_ROOM, NULL);
    try_report(sheet, sizeof sheet, length, (int64_t)length, due);
    try_report(sheet, sizeof sheet, BREAKWARP_MAX_REPORT, (int64_t)length, due);
}

static void try_write(uint32_t k, const char *alphabet, size_t nalphabet, const uint32_t *p, size_t m,
                      const uint32_t *t, size_t n, size_t cap, int64_t answer, const char *due)
{
    snprintf(about, sizeof about, "write_sheet, k %u, alphabet of %zu, m %zu, n %zu, room for %zu", (unsigned)k,
             nalphabet, m, n, cap);
    uint8_t *bytes = copy(alphabet, nalphabet);
    uint32_t *pattern = copy(p, m * sizeof *p), *text = copy(t, n * sizeof *t);
    struct lent sheet = lend(cap);
    errno = 77;
    same("answer", breakwarp_write_sheet(k, bytes, nalphabet, pattern, m, text, n, slice(sheet), cap), answer);
    same("errno", errno, 77);
    holds("sheet", sheet, due, answer < 0 ? 0 : (size_t)answer);
    unchanged("alphabet", bytes, alphabet, nalphabet);
    unchanged("pattern", pattern, p, m * sizeof *p);
    unchanged("text", text, t, n * sizeof *t);
}

/* A mark in the text is one byte of the sheet; in the pattern and in the alphabet it is refused. */
static void marked_writings(void)
{
    static const uint32_t marks[] = {MARK, MARK, 1, 8}, a[] = {1};
    size_t needed = strlen(entries_sheet);
    try_write(3, "aen", 3, anna, 4, entries, 9, needed - 1, -BREAKWARP_REFUSED_ROOM, NULL);
    try_write(3, "aen", 3, anna, 4, entries, 9, needed, (int64_t)needed, entries_sheet);
    try_write(3, "aen", 3, anna, 4, entries, 9, needed + 1, (int64_t)needed, entries_sheet);
    try_write(1, "a", 1, a, 1, marks, 3, 20, 14, "1\na\n1\na\n3\n||a\n");
    try_write(2, "ae", 2, a, 1, marks + 1, 1, 20, 13, "2\nae\n1\na\n1\n|\n");
    try_write(3, "aen", 3, a, 1, marks, 4, 99, AT(BREAKWARP_REFUSED_TEXT, 3), NULL);
    try_write(3, "aen", 3, entries, 4, marks, 4, 99, AT(BREAKWARP_REFUSED_PATTERN, 2), NULL);
    try_write(3, "aen", 3, marks, 1, entries, 9, 99, AT(BREAKWARP_REFUSED_PATTERN, 0), NULL);
    try_write(3, "ae|", 3, marks, 1, marks, 4, 99, AT(BREAKWARP_REFUSED_ALPHABET, 2), NULL);
    try_write(3, "|e|", 3, anna, 4, entries, 9, 99, AT(BREAKWARP_REFUSED_ALPHABET, 0), NULL);
    try_write(1, "|", 1, a, 1, a, 1, 99, AT(BREAKWARP_REFUSED_ALPHABET, 0), NULL);
}

static void writings(void)
{
    static const uint32_t bad[] = {1, 8}, a[] = {1};
    size_t needed = strlen(worked);
    for (size_t cap = 0; cap <= needed + 1; cap++)
        try_write(3, "aen", 3, anna, 4, page, 12, cap, cap < needed ? -BREAKWARP_REFUSED_ROOM : (int64_t)needed, worked);
    try_write(1, "a", 1, a, 1, NULL, 0, 20, 11, "1\na\n1\na\n0\n\n");
    try_write(0, "", 0, NULL, 0, bad, 2, 0, -BREAKWARP_REFUSED_K, NULL);
    try_write(33, "aen", 3, anna, 4, page, 12, 99, -BREAKWARP_REFUSED_K, NULL);
    try_write(3, "ae", 2, NULL, 0, bad, 2, 0, AT(BREAKWARP_REFUSED_ALPHABET, 2), NULL);
    try_write(3, "aenx", 4, anna, 4, page, 12, 99, AT(BREAKWARP_REFUSED_ALPHABET, 3), NULL);
    try_write(3, "aea", 3, anna, 4, page, 12, 99, AT(BREAKWARP_REFUSED_ALPHABET, 2), NULL);
    try_write(3, "a*n", 3, anna, 4, page, 12, 99, AT(BREAKWARP_REFUSED_ALPHABET, 1), NULL);
    try_write(3, "a\nn", 3, anna, 4, page, 12, 99, AT(BREAKWARP_REFUSED_ALPHABET, 1), NULL);
    try_write(3, "aen", 3, NULL, 0, bad, 2, 0, -BREAKWARP_REFUSED_M, NULL);
    try_write(3, "aaxyz", 5, anna, 4, page, 12, 99, AT(BREAKWARP_REFUSED_ALPHABET, 1), NULL);
    try_write(3, "aenxyz", 6, anna, 4, page, 12, 99, AT(BREAKWARP_REFUSED_ALPHABET, 3), NULL);
    try_write(3, "aen", 3, bad, 2, bad, 2, 0, AT(BREAKWARP_REFUSED_PATTERN, 1), NULL);
    try_write(3, "aen", 3, anna, 4, bad, 2, 0, AT(BREAKWARP_REFUSED_TEXT, 1), NULL);
    snprintf(about, sizeof about, "write_sheet with null pointers");
    same("no alphabet", breakwarp_write_sheet(3, NULL, 0, NULL, 0, NULL, 0, NULL, 0), -BREAKWARP_REFUSED_ALPHABET);
    same("no pattern", breakwarp_write_sheet(1, (const uint8_t *)"a", 1, NULL, 0, NULL, 0, NULL, 0), -BREAKWARP_REFUSED_M);
    same("no room", breakwarp_write_sheet(1, (const uint8_t *)"a", 1, a, 1, NULL, 0, NULL, 0), -BREAKWARP_REFUSED_ROOM);
}

/* Eight thousand letters and more: 8,192 bytes are written, one more is refused, whatever the room. */
static void long_writings(void)
{
    static const uint32_t a[] = {1};
    static char full[BREAKWARP_MAX_SHEET + 1];
    size_t n = BREAKWARP_MAX_N + 1;
    uint32_t *text = alike(n, 1);
    int front = snprintf(full, sizeof full, "1\na\n1\na\n8178\n");
    memset(full + front, 'a', 8178);
    full[front + 8178] = '\n';
    try_write(1, "a", 1, a, 1, text, 8178, 8192, 8192, full);
    try_write(1, "a", 1, a, 1, text, 8178, 8191, -BREAKWARP_REFUSED_ROOM, NULL);
    try_write(1, "a", 1, a, 1, text, 8179, 9000, -BREAKWARP_REFUSED_SHEET, NULL);
    try_write(1, "a", 1, a, 1, text, 8179, 0, -BREAKWARP_REFUSED_SHEET, NULL);
    try_write(1, "a", 1, a, 1, text, n - 1, 0, -BREAKWARP_REFUSED_SHEET, NULL);
    try_write(1, "a", 1, a, 1, text, n, 0, -BREAKWARP_REFUSED_N, NULL);
    free(text);
}

int main(void)
{
    worked_search();
    small_searches();
    marked_searches();
    search_refusals();
    search_limits();
    far_searches();
    null_searches();
    worked_firsts();
    marked_firsts();
    first_refusals();
    first_limits();
    far_firsts();
    firsts_beside_brute();
    bound_mode();
    reasons();
    conversions();
    marked_conversions();
    long_conversions();
    meetings();
    readings();
    marked_readings();
    refused_sheets();
    places_of_reports();
    reports();
    longest_report();
    writings();
    marked_writings();
    long_writings();
    printf("c: %lu checks\n", checks);
    return 0;
}
