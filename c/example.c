/* From the top folder, after `make lib`:
 *
 *     cc -std=c11 -O2 -o target/example c/example.c target/staticlib/libbreakwarp.a
 *     target/example < sheets/worked.sheet
 *
 * and after `make install`: cc -std=c11 -O2 -o example example.c `pkg-config --cflags --libs breakwarp`
 *
 * Reads a search sheet from standard input and prints its report. Ends with 0 if there are hits, with 1 if there is
 * none, with 2 if the sheet is refused; the refusal's number and place are told on standard error. */
#include "breakwarp.h"

#include <stdio.h>
#include <string.h>

/* Where the sheet is wrong: the reader tells the place that the report does not. It writes nothing if it refuses, so
 * what is lent to it is lent for its length alone. */
static void tell(const uint8_t *sheet, size_t length)
{
    static uint8_t alphabet[BREAKWARP_MAX_K];
    static uint32_t pattern[BREAKWARP_MAX_M], text[BREAKWARP_MAX_SHEET_TEXT];
    uint64_t sizes[3];
    int64_t r = breakwarp_read_sheet(sheet, length, alphabet, BREAKWARP_MAX_K, pattern, BREAKWARP_MAX_M, text,
                                     BREAKWARP_MAX_SHEET_TEXT, sizes, 3);
    fprintf(stderr, "example: refused %d at %ld\n", (int)BREAKWARP_NUMBER(r), (long)BREAKWARP_PLACE(r));
}

int main(void)
{
    /* One byte more than a sheet may have, so that a longer one is refused and not cut. */
    static uint8_t sheet[BREAKWARP_MAX_SHEET + 1];
    static uint8_t report[BREAKWARP_MAX_REPORT];

    size_t length = fread(sheet, 1, sizeof sheet, stdin);
    if (ferror(stdin)) {
        perror("example: standard input");
        return 2;
    }
    int64_t answer = breakwarp_report(sheet, length, report, sizeof report);
    if (answer < 0) {
        tell(sheet, length);
        return 2;
    }
    if (fwrite(report, 1, (size_t)answer, stdout) != (size_t)answer || fflush(stdout) != 0) {
        perror("example: standard output");
        return 2;
    }
    return memcmp(report, "hits 0\n", 7) == 0;
}
