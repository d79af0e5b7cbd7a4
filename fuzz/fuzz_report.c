/* A fuzzer's target: a sheet is judged by the proved library and by the plain implementation, and whatever differs ends
 * the run. The archive of the proved library has no checks of the address sanitizer in it. So sheet and space are placed
 * between pages that may not be touched: once so that both end where such a page begins, and once so that both begin
 * where such a page ends. The sheet can be read only. */

#define _GNU_SOURCE
#include "common.h"
#include "wiltoresh.h"

uint64_t plain_report(const uint8_t *sheet, size_t sheet_length, uint8_t *space, size_t space_length, size_t *line,
                      size_t *length);

enum { SHEET_ROOM = 32 * PAGE, SPACE_ROOM = 2 * PAGE };

typedef struct {
    uint64_t number;
    size_t line;
    size_t length;
} Answer;

static Room sheet_room;
/* Memory between two pages that may not be touched. */
static uint8_t *space_room;
/* What a space holds before is a part of this. */
static uint8_t known_bytes[SPACE_ROOM + 256];

int LLVMFuzzerInitialize(int *count, char ***words) {
    (void)count;
    (void)words;
    sheet_room = read_only_room(SHEET_ROOM);
    space_room = between_guards(-1, SPACE_ROOM, PROT_READ | PROT_WRITE);
    require(wiltoresh_longest() <= SPACE_ROOM, "the longest report has no room");
    fill_known(known_bytes, sizeof known_bytes);
    return 0;
}

/* What the fuzzer seeks more of, beside the branches of the plain implementation: answers and shapes of lines. */
enum { FIELDS = 10, LENGTHS = 24 };
__attribute__((section("__libfuzzer_extra_counters"))) static uint8_t answers[NUMBERS][BUCKETS][KINDS];
__attribute__((section("__libfuzzer_extra_counters"))) static uint8_t shapes[KINDS][FIELDS][LENGTHS];

/* Counts the length of each field by kind and place, up to and with the line that the answer names. */
static void count_shapes(const uint8_t *sheet, size_t size, size_t last) {
    size_t line = 1, kind = KINDS - 1, place = 0, length = 0;
    for (size_t at = 0; at < size && (last == 0 || line <= last); at++) {
        if (place == 0 && length == 0) {
            kind = kind_of(sheet[at]);
        }
        if (sheet[at] != ',' && sheet[at] != '\n') {
            length++;
            continue;
        }
        shapes[kind][at_most(place, FIELDS - 1)][at_most(length, LENGTHS - 1)] = 1;
        place = sheet[at] == ',' ? place + 1 : 0;
        line += sheet[at] == '\n';
        length = 0;
    }
}

static void count(const uint8_t *sheet, size_t size, Answer answer) {
    size_t start = 0;
    size_t length = wiltoresh_line(sheet, size, answer.line, &start);
    size_t kind = length > 0 ? kind_of(sheet[start]) : KINDS - 1;
    require(answer.number < NUMBERS, "a number above 18");
    answers[answer.number][bucket_of(answer.line)][kind] = 1;
    count_shapes(sheet, size, answer.line);
}

/* The offending line begins behind its LF, ends before the next, and is the line of that number. */
static void check_line(const uint8_t *sheet, size_t size, size_t line) {
    size_t start = SIZE_MAX, at = 0;
    size_t length = wiltoresh_line(sheet, size, line, &start);
    for (size_t above = 1; above < line && at < size; above++) {
        const uint8_t *end = memchr(sheet + at, '\n', size - at);
        at = end ? (size_t)(end - sheet) + 1 : size;
    }
    const uint8_t *end = at < size ? memchr(sheet + at, '\n', size - at) : NULL;
    size_t expected = line == 0 ? 0 : (end ? (size_t)(end - sheet) : size) - at;
    require(start == at && length == expected, "the line is at another place");
}

static Answer plain(const uint8_t *sheet, size_t size, uint8_t *space, size_t length) {
    Answer answer;
    answer.number = plain_report(sheet, size, space, length, &answer.line, &answer.length);
    return answer;
}

/* Judges a sheet that stands in sheet_room; the space is of so many bytes at the end or the start of its room. All of
 * the room is compared, so that bytes beside the space count too. */
static Answer judge(const uint8_t *sheet, size_t size, size_t length, int at_end, uint64_t seed) {
    static uint8_t expected_room[SPACE_ROOM];
    size_t place = at_end ? SPACE_ROOM - length : 0;
    memcpy(space_room, known_bytes + seed % 256, SPACE_ROOM);
    memcpy(expected_room, space_room, SPACE_ROOM);
    Answer expected = plain(sheet, size, expected_room + place, length);
    Answer had = {UINT64_MAX, SIZE_MAX, SIZE_MAX};
    had.number = wiltoresh_report(sheet, size, space_room + place, length, &had.line, &had.length);
    require(had.number == expected.number, "another number");
    require(had.line == expected.line, "another line");
    require(had.length == expected.length, "another length");
    require(memcmp(space_room, expected_room, SPACE_ROOM) == 0, "another report, or a byte beside it");
    check_line(sheet, size, had.line);
    return had;
}

/* Just enough for the report, one byte less, none, or any length, by the hash. */
static size_t space_length(size_t report, uint64_t seed) {
    switch (seed % 8) {
    case 0:
        return 0;
    case 1:
    case 2:
        return report > 0 ? report - 1 : 0;
    case 3:
        return seed / 8 % (wiltoresh_longest() + 1);
    default:
        return report;
    }
}

int LLVMFuzzerTestOneInput(const uint8_t *bytes, size_t size) {
    if (size > SHEET_ROOM) {
        return -1;
    }
    uint64_t seed = hash(bytes, size);
    const uint8_t *sheet = lend(sheet_room, bytes, size, 0);
    Answer first = judge(sheet, size, wiltoresh_longest(), 0, seed);
    require(first.number != 16, "a report longer than the longest");
    require(memcmp(sheet, bytes, size) == 0, "the sheet is changed");
    count(sheet, size, first);
    sheet = lend(sheet_room, bytes, size, 1);
    judge(sheet, size, space_length(first.length, seed), 1, seed);
    check_line(sheet, size, seed % 9);
    check_line(sheet, size, SIZE_MAX - seed % 2);
    return 0;
}
