/*
 * Prints the report of a works whose records stand below, as a database would hand them over. For refused records it
 * prints the refusal's number and the place of the offending record on standard error; the exit status is then 1. It is
 * 2 where the report cannot be printed. It links both archives, since it writes a sheet and reports on it.
 */
#include <stdio.h>

#include "wiltoresh.h"

/* The works of document 01. The source stream is natural gas, with both standard values. */
static const struct wiltoresh_record records[] = {
    {'P', {1, 1000}},
    {'P', {2, 400}},
    {'S', {1, 1, 16, 1000, WILTORESH_STANDARD, WILTORESH_STANDARD, 10000, 0}},
    {'H', {1, 2, 10000, 56100}},
    {'E', {0, 2, 500, 400000}},
    {'B', {2, 100, 1900000, 250000}},
    {'G', {1, 2, 300}},
};
enum { COUNT = sizeof records / sizeof records[0] };

/* No sheet is longer. */
static uint8_t sheet[65536];
/* More than the report of two processes has. */
static uint8_t report[4096];

int main(void)
{
    size_t line, sheet_length, length;
    uint64_t number = wiltoresh_write(&records[0].kind, 9 * COUNT, sheet, sizeof sheet, &line, &sheet_length);
    if (number == 0) {
        number = wiltoresh_report(sheet, sheet_length, report, sizeof report, &line, &length);
    }
    if (number != 0) {
        fprintf(stderr, "refused by %u at record %zu\n", (unsigned)number, line);
        return 1;
    }
    return fwrite(report, 1, length, stdout) == length && fflush(stdout) == 0 ? 0 : 2;
}
