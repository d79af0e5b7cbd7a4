/*
 * Prints the report of a sheet: example SHEET. For a refused sheet it prints the refusal's number and line on standard
 * error, and the text of that line; the exit status is then 1. It is 2 where there is no answer. It links libwiltoresh.a
 * alone.
 */
#include <stdio.h>
#include <stdlib.h>

#include "wiltoresh.h"

/* A sheet has at most 65,536 bytes; one more is enough for it to be refused by 1. */
static uint8_t sheet[65536 + 1];

static int read_sheet(const char *path, size_t *sheet_length)
{
    FILE *file = fopen(path, "rb");
    if (file == NULL) {
        return 0;
    }
    *sheet_length = fread(sheet, 1, sizeof sheet, file);
    int good = !ferror(file);
    fclose(file);
    return good;
}

static void print_refusal(uint64_t number, size_t line, size_t sheet_length)
{
    size_t start;
    size_t length = wiltoresh_line(sheet, sheet_length, line, &start);
    fprintf(stderr, "refused by %u at line %zu\n", (unsigned)number, line);
    fwrite(sheet + start, 1, length, stderr);
    fputc('\n', stderr);
}

int main(int argc, char **argv)
{
    size_t sheet_length;
    if (argc != 2 || !read_sheet(argv[1], &sheet_length)) {
        fputs("example: name a sheet that can be read\n", stderr);
        return 2;
    }
    size_t space_length = wiltoresh_longest();
    uint8_t *space = malloc(space_length);
    if (space == NULL) {
        fputs("example: no memory for the report\n", stderr);
        return 2;
    }
    size_t line, length;
    uint64_t number = wiltoresh_report(sheet, sheet_length, space, space_length, &line, &length);
    if (number != 0) {
        print_refusal(number, line, sheet_length);
    }
    int written = fwrite(space, 1, length, stdout) == length && fflush(stdout) == 0;
    free(space);
    return number != 0 ? 1 : written ? 0 : 2;
}
