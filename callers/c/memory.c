/*
 * Tries what wiltoresh.h says of memory: pointers to nothing, bytes at every alignment, a space that was never written,
 * and what is lent right beside what is given. The functions of records are tried also with memory between pages that may
 * not be touched, what is given being on a page that can only be read. It prints nothing; what does not hold ends it by
 * an assertion.
 */
#define _DEFAULT_SOURCE
#undef NDEBUG
#include <assert.h>
#include <stdlib.h>
#include <string.h>
#include <sys/mman.h>

#include "wiltoresh.h"

static const uint8_t sheet[] = {'P', ',', '1', ',', '5', '\n'};
static const char report[] = "R,1,0,0,0,0,0,0,0,0.000,0.000\nT,0,0,0,0\n";
static const size_t report_length = sizeof report - 1;

/* Document 01's sheet, and its records. */
static const char works[] =
    "P,1,1000\nP,2,400\nS,1,1,16,1000,-,-,10000,0\nH,1,2,10000,56100\nE,0,2,500,400000\nB,2,100,1900000,250000\n"
    "G,1,2,300\n";
static const struct wiltoresh_record records[] = {
    {'P', {1, 1000}},
    {'P', {2, 400}},
    {'S', {1, 1, 16, 1000, WILTORESH_STANDARD, WILTORESH_STANDARD, 10000, 0}},
    {'H', {1, 2, 10000, 56100}},
    {'E', {0, 2, 500, 400000}},
    {'B', {2, 100, 1900000, 250000}},
    {'G', {1, 2, 300}},
};
enum { PAGE = 4096, COUNT = sizeof records / sizeof records[0], WORDS = 9 * COUNT, LENGTH = sizeof works - 1 };

static_assert(sizeof(struct wiltoresh_record) == 9 * sizeof(uint64_t), "a record has padding");
static_assert(offsetof(struct wiltoresh_record, field) == sizeof(uint64_t), "a record has padding");
static_assert(sizeof records == WORDS * sizeof(uint64_t), "an array of records has padding");

/* Reports on a sheet, and expects this number, line 0 and this length. */
static void expect(uint64_t number, size_t expected_length, const uint8_t *given, size_t given_length,
                   uint8_t *space, size_t space_length)
{
    size_t line = 77, length = 77;
    assert(wiltoresh_report(given, given_length, space, space_length, &line, &length) == number);
    assert(line == 0 && length == expected_length);
}

/* The same of a list of records that is written. */
static void expect_written(uint64_t number, size_t expected_length, const uint64_t *given, size_t words,
                           uint8_t *space, size_t space_length)
{
    size_t line = 77, length = 77;
    assert(wiltoresh_write(given, words, space, space_length, &line, &length) == number);
    assert(line == 0 && length == expected_length);
}

/* The same of a sheet whose records are read. */
static void expect_read(uint64_t number, size_t expected_count, const uint8_t *given, size_t given_length,
                        uint64_t *list, size_t words)
{
    size_t line = 77, count = 77;
    assert(wiltoresh_read(given, given_length, list, words, &line, &count) == number);
    assert(line == 0 && count == expected_count);
}

static void expect_no_line(const uint8_t *given, size_t line)
{
    size_t start = 77;
    assert(wiltoresh_line(given, 0, line, &start) == 0 && start == 0);
}

static void try_no_bytes(uint8_t *nowhere)
{
    uint8_t space[sizeof report];
    expect(14, 0, nowhere, 0, space, sizeof space);
    expect(14, 0, nowhere, 0, nowhere, 0);
    expect(16, 0, sheet, sizeof sheet, nowhere, 0);
    expect_no_line(nowhere, 0);
    expect_no_line(nowhere, 1);
    expect_no_line(nowhere, SIZE_MAX);
}

/* Pointers to no numbers and to no bytes. */
static void try_no_records(uint64_t *no_numbers, uint8_t *no_bytes)
{
    uint8_t space[LENGTH];
    uint64_t list[WORDS];
    expect_written(14, 0, no_numbers, 0, space, sizeof space);
    expect_written(14, 0, no_numbers, 0, no_bytes, 0);
    expect_written(16, 0, &records[0].kind, WORDS, no_bytes, 0);
    expect_read(14, 0, no_bytes, 0, list, WORDS);
    expect_read(14, 0, no_bytes, 0, no_numbers, 0);
    expect_read(16, 0, (const uint8_t *)works, LENGTH, no_numbers, 0);
}

/* The sheet stands right behind the space. */
static void try_neighbours(size_t space_length, size_t offset)
{
    uint8_t *memory = malloc(offset + space_length + sizeof sheet);
    assert(memory != NULL);
    uint8_t *space = memory + offset, *behind = space + space_length;
    memcpy(behind, sheet, sizeof sheet);
    expect(0, report_length, behind, sizeof sheet, space, space_length);
    assert(memcmp(space, report, report_length) == 0);
    assert(memcmp(behind, sheet, sizeof sheet) == 0);
    free(memory);
}

/* The bytes of a sheet end where the numbers of its records begin: one is given, the other lent. The numbers begin at a
 * multiple of 8, so the bytes, which may be some more than the sheet has, begin at any place. */
static void try_records_behind(size_t more)
{
    size_t room = (LENGTH + more + 7) / 8 * 8;
    uint8_t *memory = malloc(room + sizeof records);
    assert(memory != NULL);
    uint64_t *numbers = (uint64_t *)(void *)(memory + room);
    uint8_t *bytes = memory + room - LENGTH - more;
    memcpy(numbers, records, sizeof records);
    expect_written(0, LENGTH, numbers, WORDS, bytes, LENGTH + more);
    assert(memcmp(bytes, works, LENGTH) == 0 && memcmp(numbers, records, sizeof records) == 0);
    bytes += more;
    memcpy(bytes, works, LENGTH);
    expect_read(0, COUNT, bytes, LENGTH, numbers, WORDS);
    assert(memcmp(bytes, works, LENGTH) == 0 && memcmp(numbers, records, sizeof records) == 0);
    free(memory);
}

/* The same the other way round: the bytes begin where the numbers end. */
static void try_records_in_front(void)
{
    uint8_t *memory = malloc(sizeof records + LENGTH);
    assert(memory != NULL);
    uint64_t *numbers = (uint64_t *)(void *)memory;
    uint8_t *bytes = memory + sizeof records;
    memcpy(numbers, records, sizeof records);
    expect_written(0, LENGTH, numbers, WORDS, bytes, LENGTH);
    assert(memcmp(bytes, works, LENGTH) == 0 && memcmp(numbers, records, sizeof records) == 0);
    memset(numbers, 0xaa, sizeof records);
    expect_read(0, COUNT, bytes, LENGTH, numbers, WORDS);
    assert(memcmp(bytes, works, LENGTH) == 0 && memcmp(numbers, records, sizeof records) == 0);
    free(memory);
}

/* A page between two that may not be touched. */
static uint8_t *guarded_page(void)
{
    uint8_t *all = mmap(NULL, 3 * PAGE, PROT_NONE, MAP_PRIVATE | MAP_ANONYMOUS, -1, 0);
    assert(all != MAP_FAILED);
    assert(mprotect(all + PAGE, PAGE, PROT_READ | PROT_WRITE) == 0);
    return all + PAGE;
}

/* So many bytes at the start or at the end of a page. */
static uint8_t *part(uint8_t *page, size_t size, int at_end)
{
    return at_end ? page + PAGE - size : page;
}

/* Fills the page, and puts the bytes at its start or at its end, where they can be read only. */
static const uint8_t *give(uint8_t *page, const void *bytes, size_t size, int at_end)
{
    assert(mprotect(page, PAGE, PROT_READ | PROT_WRITE) == 0);
    memset(page, 0x55, PAGE);
    memcpy(part(page, size, at_end), bytes, size);
    assert(mprotect(page, PAGE, PROT_READ) == 0);
    return part(page, size, at_end);
}

/* Of the page, these bytes stand at the start of the part that was lent, and all else is as it was filled. */
static void expect_page(uint8_t *page, const uint8_t *lent, const void *bytes, size_t size)
{
    uint8_t expected[PAGE];
    memset(expected, 0xaa, PAGE);
    memcpy(expected + (lent - page), bytes, size);
    assert(memcmp(page, expected, PAGE) == 0);
}

static void try_guarded_space(uint8_t *given_page, uint8_t *lent_page, size_t length, int at_end)
{
    const uint8_t *list = give(given_page, records, sizeof records, at_end);
    uint8_t *space = part(lent_page, length, at_end);
    size_t written = length < LENGTH ? 0 : LENGTH;
    memset(lent_page, 0xaa, PAGE);
    expect_written(written ? 0 : 16, written, (const uint64_t *)(const void *)list, WORDS, space, length);
    expect_page(lent_page, space, works, written);
}

static void try_guarded_list(uint8_t *given_page, uint8_t *lent_page, size_t words, int at_end)
{
    const uint8_t *bytes = give(given_page, works, LENGTH, at_end);
    uint8_t *list = part(lent_page, words * sizeof(uint64_t), at_end);
    size_t count = words < WORDS ? 0 : COUNT;
    memset(lent_page, 0xaa, PAGE);
    expect_read(count ? 0 : 16, count, bytes, LENGTH, (uint64_t *)(void *)list, words);
    expect_page(lent_page, list, records, count ? sizeof records : 0);
}

/* A list that ends within any record, where a page begins that may not be touched. The last record has the numbers that
 * are there; where none of its fields is missing, the sheet is written down to its line. */
static void try_guarded_part(uint8_t *given_page, uint8_t *lent_page, size_t words)
{
    static const size_t needed[COUNT] = {3, 3, 9, 5, 5, 5, 4};
    const uint8_t *list = give(given_page, records, words * sizeof(uint64_t), 1);
    size_t last = (words - 1) / 9, line = 77, length = 77, start;
    uint64_t number = wiltoresh_write((const uint64_t *)(const void *)list, words, lent_page, PAGE, &line, &length);
    if (words - 9 * last < needed[last]) {
        assert(number == 5 && line == last + 1 && length == 0);
    } else {
        assert(number == 0 && line == 0 && memcmp(lent_page, works, length) == 0);
        wiltoresh_line((const uint8_t *)works, LENGTH, last + 2, &start);
        assert(length == start);
    }
}

static void try_guards(void)
{
    uint8_t *given_page = guarded_page(), *lent_page = guarded_page();
    for (int at_end = 0; at_end <= 1; at_end++) {
        for (size_t length = 0; length <= LENGTH + 9; length++) {
            try_guarded_space(given_page, lent_page, length, at_end);
        }
        for (size_t words = 0; words <= WORDS + 9; words++) {
            try_guarded_list(given_page, lent_page, words, at_end);
        }
    }
    for (size_t words = 1; words <= WORDS; words++) {
        try_guarded_part(given_page, lent_page, words);
    }
}

int main(void)
{
    try_no_bytes(NULL);
    try_no_bytes((uint8_t *)1);
    try_no_records(NULL, NULL);
    try_no_records((uint64_t *)1, (uint8_t *)1);
    /* A space of exactly the report's length, and one that is never too short: the report is written in two ways. */
    for (size_t offset = 0; offset < 16; offset++) {
        try_neighbours(report_length, offset);
        try_neighbours(wiltoresh_longest(), offset);
        try_records_behind(offset);
    }
    try_records_in_front();
    try_guards();
    return 0;
}
