/* Shows that test.c notices what it looks for. Linked with test.c and the library, it stands between them, calls the
 * library, and makes the slip that the environment variable BREAKWARP_SLIP asks for as CALL:SLIP, for example
 * brute:after: in what is handed on if it is about the mark, else in what has come back. slips.sh builds it and tries
 * every slip of every call. */
#include "breakwarp.h"

#include <errno.h>
#include <stdlib.h>
#include <string.h>

static int asked(const char *call, const char *slip)
{
    const char *both = getenv("BREAKWARP_SLIP");
    size_t length = strlen(call);
    return both != NULL && strncmp(both, call, length) == 0 && both[length] == ':' && strcmp(both + length + 1, slip) == 0;
}

/* One lent slice that the call may write: its first byte, a cell's size, its cells, and how many the call has written. */
struct output {
    void *first;
    size_t cell, cells, written;
};

static int64_t slipped(const char *call, int64_t answer, struct output out, const void *input, size_t bytes)
{
    unsigned char *first = out.first;
    if (first != NULL) {
        if (asked(call, "before"))
            first[-1] ^= 1;
        if (asked(call, "after"))
            first[out.cells * out.cell] ^= 1;
        if (asked(call, "value") && answer >= 0 && out.written > 0)
            first[(out.written - 1) * out.cell] ^= 1;
        if (asked(call, "tail") && answer >= 0 && out.written < out.cells)
            first[out.written * out.cell] ^= 1;
        if (asked(call, "refused") && answer < 0 && out.cells > 0)
            first[0] ^= 1;
    }
    if (asked(call, "input") && bytes > 0)
        ((unsigned char *)(uintptr_t)input)[bytes - 1] ^= 1;
    if (asked(call, "errno"))
        errno = 1;
    if (asked(call, "place") && answer < 0)
        return answer - 256;
    if (asked(call, "no-place") && answer < 0)
        return -BREAKWARP_NUMBER(answer);
    return asked(call, "answer") ? answer + 1 : answer;
}

/* Slips about the mark are made before the call: it gets a copy in which something else stands for each mark. The test
 * notices them only where it has marks. One slip is asked for at a time, so that one copy is enough. */

/* The letters or products, with `to` for each `from` if that slip is asked for. */
static const uint32_t *swapped(const char *call, const char *slip, const uint32_t *values, size_t n, uint32_t from,
                               uint32_t to)
{
    static uint32_t copy[BREAKWARP_MAX_N + 1];
    if (!asked(call, slip) || n > sizeof copy / sizeof *copy)
        return values;
    for (size_t at = 0; at < n; at++)
        copy[at] = values[at] == from ? to : values[at];
    return copy;
}

/* The sheet, with `to` for each `|` of one line, counted from 0, if that slip is asked for: for those in brackets, or
 * for the others. */
static const uint8_t *swapped_line(const char *call, const char *slip, const uint8_t *sheet, size_t n, int line,
                                   int bracket, uint8_t to)
{
    static uint8_t copy[BREAKWARP_MAX_SHEET + 1];
    if (!asked(call, slip) || n > sizeof copy)
        return sheet;
    int inside = 0;
    for (size_t at = 0; at < n; at++) {
        copy[at] = sheet[at] == '|' && line == 0 && inside == bracket ? to : sheet[at];
        line -= sheet[at] == '\n';
        inside = sheet[at] == '[' || (inside && sheet[at] != ']');
    }
    return copy;
}

/* In the alphabet `|` is taken for another byte, in the lines of the pattern and the text for the letter `a`. */
static const uint8_t *swapped_sheet(const char *call, const uint8_t *sheet, size_t n)
{
    sheet = swapped_line(call, "mark-alphabet", sheet, n, 1, 0, '~');
    sheet = swapped_line(call, "mark-pattern", sheet, n, 3, 0, 'a');
    sheet = swapped_line(call, "mark-bracket", sheet, n, 5, 1, 'a');
    return swapped_line(call, "mark", sheet, n, 5, 0, 'a');
}

static size_t least(size_t a, size_t b)
{
    return a < b ? a : b;
}

/* The counts slip as if they were a call of their own, named by the engine and `-work`; so does the text. */
#define SEARCH(name)                                                                                                   \
    int64_t __real_breakwarp_##name(uint32_t, const uint32_t *, size_t, const uint32_t *, size_t, uint32_t *, size_t,  \
                                    uint64_t *, size_t);                                                               \
    int64_t __wrap_breakwarp_##name(uint32_t, const uint32_t *, size_t, const uint32_t *, size_t, uint32_t *, size_t,  \
                                    uint64_t *, size_t);                                                               \
    int64_t __wrap_breakwarp_##name(uint32_t k, const uint32_t *pattern, size_t m, const uint32_t *text, size_t n,     \
                                    uint32_t *hits, size_t cap, uint64_t *work, size_t nwork)                          \
    {                                                                                                                  \
        const uint32_t *p = swapped(#name, "mark-pattern", pattern, m, 0, 1);                                          \
        const uint32_t *t = swapped(#name, "mark", text, n, 0, 1);                                                     \
        int64_t answer = __real_breakwarp_##name(k, p, m, t, n, hits, cap, work, nwork);                               \
        struct output list = {hits, sizeof *hits, cap, answer < 0 ? 0 : least((size_t)answer, cap)};                   \
        struct output counts = {work, sizeof *work, nwork, answer < 0 ? 0 : 3};                                        \
        slipped(#name "-work", answer, counts, text, n * sizeof *text);                                                \
        return slipped(#name, answer, list, pattern, m * sizeof *pattern);                                             \
    }

SEARCH(brute)
SEARCH(kmp)
SEARCH(bm)
SEARCH(sunday)
SEARCH(shiftand)
SEARCH(hybrid)

/* The text slips as if it were a call of its own, `first-text`; so do the scan tests of a hit, `first-scan`, which are
 * not its last value, and what is written without a hit, `first-none`, since a hit's slip would be noticed before. */
int64_t __real_breakwarp_first(uint32_t, const uint32_t *, size_t, const uint32_t *, size_t, uint64_t *, size_t);
int64_t __wrap_breakwarp_first(uint32_t, const uint32_t *, size_t, const uint32_t *, size_t, uint64_t *, size_t);
int64_t __wrap_breakwarp_first(uint32_t k, const uint32_t *pattern, size_t m, const uint32_t *text, size_t n,
                               uint64_t *found, size_t nfound)
{
    const uint32_t *p = swapped("first", "mark-pattern", pattern, m, 0, 1);
    const uint32_t *t = swapped("first", "mark", text, n, 0, 1);
    int64_t answer = __real_breakwarp_first(k, p, m, t, n, found, nfound);
    struct output nothing = {NULL, 1, 0, 0};
    struct output scan = {found, sizeof *found, nfound, answer == 1 ? 1 : 0};
    struct output out = {found, sizeof *found, nfound, answer < 0 ? 0 : answer == 0 ? 1 : 2};
    slipped("first-text", answer, nothing, text, n * sizeof *text);
    slipped("first-scan", answer, scan, NULL, 0);
    if (answer == 0)
        slipped("first-none", answer, out, NULL, 0);
    return slipped("first", answer, out, pattern, m * sizeof *pattern);
}

/* One pass over the pairs from left to right: what a pair shares is left to all that is equal to one of its two sets.
 * Whether something is left to every pair when its turn comes, which is too weak. */
static int one_pass(const uint32_t *p, size_t m, const uint32_t *t)
{
    uint32_t left[BREAKWARP_MAX_M], under[BREAKWARP_MAX_M];
    memcpy(left, p, m * sizeof *p);
    memcpy(under, t, m * sizeof *t);
    for (size_t j = 0; j < m; j++) {
        uint32_t both = left[j] & under[j];
        if (both == 0)
            return 0;
        for (size_t x = 0; x < m; x++) {
            if (p[x] == p[j] || p[x] == t[j])
                left[x] = both;
            if (t[x] == p[j] || t[x] == t[j])
                under[x] = both;
        }
    }
    return 1;
}

/* The hits of brute, all of them with `hits`, and with `one-pass` those that one pass leaves. */
static int64_t list_of_brute(uint32_t k, const uint32_t *p, size_t m, const uint32_t *t, size_t n, uint32_t *hits,
                             size_t cap)
{
    static uint32_t all[BREAKWARP_MAX_N];
    uint64_t work[3];
    int64_t found = __real_breakwarp_brute(k, p, m, t, n, all, BREAKWARP_MAX_N, work, 3), total = 0;
    for (int64_t hit = 0; hit < found; hit++)
        if (asked("bound", "hits") || one_pass(p, m, t + all[hit])) {
            if ((size_t)total < cap)
                hits[total] = all[hit];
            total++;
        }
    return found < 0 ? found : total;
}

/* The text slips as if it were a call of its own, `bound-text`. */
int64_t __real_breakwarp_bound(uint32_t, const uint32_t *, size_t, const uint32_t *, size_t, uint32_t *, size_t);
int64_t __wrap_breakwarp_bound(uint32_t, const uint32_t *, size_t, const uint32_t *, size_t, uint32_t *, size_t);
int64_t __wrap_breakwarp_bound(uint32_t k, const uint32_t *pattern, size_t m, const uint32_t *text, size_t n,
                               uint32_t *hits, size_t cap)
{
    const uint32_t *p = swapped("bound", "mark-pattern", pattern, m, 0, 1);
    const uint32_t *t = swapped("bound", "mark", text, n, 0, 1);
    int brute = asked("bound", "hits") || asked("bound", "one-pass");
    int64_t answer = brute ? list_of_brute(k, p, m, t, n, hits, cap) : __real_breakwarp_bound(k, p, m, t, n, hits, cap);
    struct output nothing = {NULL, 1, 0, 0};
    struct output list = {hits, sizeof *hits, cap, answer < 0 ? 0 : least((size_t)answer, cap)};
    if (asked("bound", "cut") && answer > (int64_t)cap)
        answer = (int64_t)cap;
    slipped("bound-text", answer, nothing, text, n * sizeof *text);
    return slipped("bound", answer, list, pattern, m * sizeof *pattern);
}

/* The start that is handed on, with the slip that is asked for: one further; cut to 32 bits; or, where its sum with m
 * wraps and is small again, a right one. */
static size_t swapped_start(const char *call, size_t start, size_t m)
{
    if (asked(call, "start"))
        return start + (start < BREAKWARP_MAX_N);
    if (asked(call, "start-32"))
        return (uint32_t)start;
    return asked(call, "start-wraps") && start + m < m ? 0 : start;
}

/* The text slips as if it were a call of its own, `bound_choice-text`; so does what is written at a start that is not
 * listed, `bound_choice-none`, and the first number of those at one that is, `bound_choice-first`. */
int64_t __real_breakwarp_bound_choice(uint32_t, const uint32_t *, size_t, const uint32_t *, size_t, size_t, uint32_t *,
                                      size_t);
int64_t __wrap_breakwarp_bound_choice(uint32_t, const uint32_t *, size_t, const uint32_t *, size_t, size_t, uint32_t *,
                                      size_t);
int64_t __wrap_breakwarp_bound_choice(uint32_t k, const uint32_t *pattern, size_t m, const uint32_t *text, size_t n,
                                      size_t start, uint32_t *choice, size_t cap)
{
    uint32_t ample[BREAKWARP_MAX_M];
    const uint32_t *p = swapped("bound_choice", "mark-pattern", pattern, m, 0, 1);
    const uint32_t *t = swapped("bound_choice", "mark", text, n, 0, 1);
    size_t handed = swapped_start("bound_choice", start, m);
    int64_t answer = __real_breakwarp_bound_choice(k, p, m, t, n, handed, choice, cap);
    if (asked("bound_choice", "one-pass") && answer == 0 && one_pass(p, m, t + handed))
        answer = 1;
    /* Too little room is passed over where the start is not listed, or told where the start is to be refused. */
    if (asked("bound_choice", "room-listed") && answer == -BREAKWARP_REFUSED_ROOM &&
        __real_breakwarp_bound_choice(k, p, m, t, n, handed, ample, BREAKWARP_MAX_M) == 0)
        answer = 0;
    if (asked("bound_choice", "room-first") && answer == -BREAKWARP_REFUSED_START && cap < m)
        answer = -BREAKWARP_REFUSED_ROOM;
    struct output nothing = {NULL, 1, 0, 0};
    struct output first = {choice, sizeof *choice, cap, answer == 1 ? 1 : 0};
    struct output none = {answer == 0 ? choice : NULL, sizeof *choice, cap, 0};
    struct output out = {answer == 0 ? NULL : choice, sizeof *choice, cap, answer == 1 ? m : 0};
    slipped("bound_choice-text", answer, nothing, text, n * sizeof *text);
    slipped("bound_choice-first", answer, first, NULL, 0);
    slipped("bound_choice-none", answer, none, NULL, 0);
    return slipped("bound_choice", answer, out, pattern, m * sizeof *pattern);
}

/* Whether this slip is asked for, and leaves the set of position j as it was before the call: where the set is empty; where
 * one before it is; or where any is. */
static int left_alone(const uint32_t *sets, size_t m, size_t j)
{
    size_t first = 0;
    while (first < m && sets[first] != 0)
        first++;
    return (asked("reasons", "keeps") && sets[j] == 0) || (asked("reasons", "first-empty") && first < j) ||
           (asked("reasons", "hit-only") && first < m);
}

/* The sets of a start as a slip would have written them: p is the pattern, t what stands under it, and `before` what the
 * lent slice held. */
static void swapped_sets(const uint32_t *p, size_t m, const uint32_t *t, const uint32_t *before, uint32_t *sets)
{
    uint32_t right[BREAKWARP_MAX_M];
    memcpy(right, sets, m * sizeof *sets);
    for (size_t j = 0; j < m; j++) {
        if (left_alone(right, m, j))
            sets[j] = before[j];
        if (asked("reasons", "union"))
            sets[j] = p[j] | t[j];
        if (asked("reasons", "lowest"))
            sets[j] = right[j] & (0 - right[j]);
        if (asked("reasons", "yes"))
            sets[j] = right[j] != 0;
        if (asked("reasons", "mark-any") && t[j] == 0)
            sets[j] = p[j];
        if (asked("reasons", "backwards"))
            sets[j] = right[m - 1 - j];
    }
}

static int has_empty(const uint32_t *sets, size_t m)
{
    for (size_t j = 0; j < m; j++)
        if (sets[j] == 0)
            return 1;
    return 0;
}

int64_t __real_breakwarp_reasons(uint32_t, const uint32_t *, size_t, const uint32_t *, size_t, size_t, uint32_t *,
                                 size_t);
int64_t __wrap_breakwarp_reasons(uint32_t, const uint32_t *, size_t, const uint32_t *, size_t, size_t, uint32_t *,
                                 size_t);

/* The library's answer at the start that a slip hands on, with the slips in answer and sets. */
static int64_t slipped_reasons(uint32_t k, const uint32_t *p, size_t m, const uint32_t *t, size_t n, size_t start,
                               uint32_t *sets, size_t cap)
{
    uint32_t before[BREAKWARP_MAX_M] = {0}, ample[BREAKWARP_MAX_M];
    size_t handed = swapped_start("reasons", start, m);
    if (asked("reasons", "window") && start < n && m <= n - start)
        handed = 0;
    if (m > 0 && m <= BREAKWARP_MAX_M && m <= cap)
        memcpy(before, sets, m * sizeof *sets);
    int64_t answer = __real_breakwarp_reasons(k, p, m, t, n, handed, sets, cap);
    /* Too little room is passed over where the start is no hit, told where the start is to be refused, or filled. */
    if (answer == -BREAKWARP_REFUSED_ROOM) {
        __real_breakwarp_reasons(k, p, m, t, n, handed, ample, BREAKWARP_MAX_M);
        if (asked("reasons", "room-fills") && cap > 0)
            memcpy(sets, ample, cap * sizeof *sets);
        return asked("reasons", "room-hit") && has_empty(ample, m) ? (int64_t)m : answer;
    }
    if (answer == -BREAKWARP_REFUSED_START && asked("reasons", "room-first") && cap < m)
        return -BREAKWARP_REFUSED_ROOM;
    if (answer < 0)
        return answer;
    int hit = !has_empty(sets, m);
    swapped_sets(p, m, t + handed, before, sets);
    return asked("reasons", "answers-hit") ? hit : answer;
}

/* The text slips as if it were a call of its own, `reasons-text`; so does the first set, `reasons-first`, which is not the
 * last value, and what is written at a start that is no hit, `reasons-none`. */
int64_t __wrap_breakwarp_reasons(uint32_t k, const uint32_t *pattern, size_t m, const uint32_t *text, size_t n,
                                 size_t start, uint32_t *sets, size_t cap)
{
    const uint32_t *p = swapped("reasons", "mark-pattern", pattern, m, 0, 1);
    const uint32_t *t = swapped("reasons", "mark", text, n, 0, 1);
    int64_t answer = slipped_reasons(k, p, m, t, n, start, sets, cap);
    int taken = answer >= 0 && m <= cap, none = taken && has_empty(sets, m);
    struct output nothing = {NULL, 1, 0, 0};
    struct output first = {sets, sizeof *sets, cap, taken ? 1 : 0};
    struct output out = {sets, sizeof *sets, cap, taken ? m : 0};
    slipped("reasons-text", answer, nothing, text, n * sizeof *text);
    slipped("reasons-first", answer, first, NULL, 0);
    slipped("reasons-none", answer, none ? out : nothing, NULL, 0);
    return slipped("reasons", answer, out, pattern, m * sizeof *pattern);
}

/* `mark` is what stands for the mark, the letter 0 or the product 1, and `other` what it is taken for. */
#define CONVERSION(name, mark, other)                                                                                  \
    int64_t __real_breakwarp_##name(uint32_t, const uint32_t *, size_t, uint32_t *, size_t);                           \
    int64_t __wrap_breakwarp_##name(uint32_t, const uint32_t *, size_t, uint32_t *, size_t);                           \
    int64_t __wrap_breakwarp_##name(uint32_t k, const uint32_t *from, size_t n, uint32_t *to, size_t cap)              \
    {                                                                                                                  \
        const uint32_t *f = swapped(#name, "mark", from, n, mark, other);                                              \
        int64_t answer = __real_breakwarp_##name(k, f, n, to, cap);                                                    \
        struct output out = {to, sizeof *to, cap, answer < 0 ? 0 : (size_t)answer};                                    \
        return slipped(#name, answer, out, from, n * sizeof *from);                                                    \
    }

CONVERSION(to_products, 0, 1)
CONVERSION(from_products, 1, 2)

int64_t __real_breakwarp_products_meet(uint32_t, uint32_t, uint32_t);
int64_t __wrap_breakwarp_products_meet(uint32_t, uint32_t, uint32_t);
int64_t __wrap_breakwarp_products_meet(uint32_t k, uint32_t a, uint32_t b)
{
    struct output none = {NULL, 1, 0, 0};
    const uint32_t pair[] = {a, b}, *p = swapped("products_meet", "mark", pair, 2, 1, 2);
    return slipped("products_meet", __real_breakwarp_products_meet(k, p[0], p[1]), none, NULL, 0);
}

int64_t __real_breakwarp_read_sheet(const uint8_t *, size_t, uint8_t *, size_t, uint32_t *, size_t, uint32_t *, size_t,
                                    uint64_t *, size_t);
int64_t __wrap_breakwarp_read_sheet(const uint8_t *, size_t, uint8_t *, size_t, uint32_t *, size_t, uint32_t *, size_t,
                                    uint64_t *, size_t);
int64_t __wrap_breakwarp_read_sheet(const uint8_t *sheet, size_t nsheet, uint8_t *alphabet, size_t nalphabet,
                                    uint32_t *pattern, size_t npattern, uint32_t *text, size_t ntext, uint64_t *sizes,
                                    size_t nsizes)
{
    const uint8_t *read = swapped_sheet("read_sheet", sheet, nsheet);
    int64_t answer = __real_breakwarp_read_sheet(read, nsheet, alphabet, nalphabet, pattern, npattern, text, ntext,
                                                 sizes, nsizes);
    int taken = answer >= 0;
    struct output a = {alphabet, 1, nalphabet, taken ? (size_t)sizes[0] : 0};
    struct output p = {pattern, sizeof *pattern, npattern, taken ? (size_t)sizes[1] : 0};
    struct output t = {text, sizeof *text, ntext, taken ? (size_t)sizes[2] : 0};
    struct output s = {sizes, sizeof *sizes, nsizes, taken ? 3 : 0};
    slipped("read_sheet-pattern", answer, p, NULL, 0);
    slipped("read_sheet-text", answer, t, NULL, 0);
    slipped("read_sheet-sizes", answer, s, NULL, 0);
    return slipped("read_sheet", answer, a, sheet, nsheet);
}

int64_t __real_breakwarp_write_sheet(uint32_t, const uint8_t *, size_t, const uint32_t *, size_t, const uint32_t *,
                                     size_t, uint8_t *, size_t);
int64_t __wrap_breakwarp_write_sheet(uint32_t, const uint8_t *, size_t, const uint32_t *, size_t, const uint32_t *,
                                     size_t, uint8_t *, size_t);
int64_t __wrap_breakwarp_write_sheet(uint32_t k, const uint8_t *alphabet, size_t nalphabet, const uint32_t *pattern,
                                     size_t m, const uint32_t *text, size_t n, uint8_t *sheet, size_t cap)
{
    const uint8_t *a = swapped_line("write_sheet", "mark-alphabet", alphabet, nalphabet, 0, 0, '~');
    const uint32_t *p = swapped("write_sheet", "mark-pattern", pattern, m, 0, 1);
    const uint32_t *t = swapped("write_sheet", "mark", text, n, 0, 1);
    int64_t answer = __real_breakwarp_write_sheet(k, a, nalphabet, p, m, t, n, sheet, cap);
    struct output out = {sheet, 1, cap, answer < 0 ? 0 : (size_t)answer};
    return slipped("write_sheet", answer, out, alphabet, nalphabet);
}

int64_t __real_breakwarp_report(const uint8_t *, size_t, uint8_t *, size_t);
int64_t __wrap_breakwarp_report(const uint8_t *, size_t, uint8_t *, size_t);
int64_t __wrap_breakwarp_report(const uint8_t *sheet, size_t nsheet, uint8_t *report, size_t cap)
{
    int64_t answer = __real_breakwarp_report(swapped_sheet("report", sheet, nsheet), nsheet, report, cap);
    struct output out = {report, 1, cap, answer < 0 ? 0 : (size_t)answer};
    return slipped("report", answer, out, sheet, nsheet);
}
