/* A fuzzer's target: a list of records is written by the proved library and by the plain implementation, a sheet is read by
 * both, and whatever differs ends the run. As in fuzz_report.c, what is handed over stands between pages that may not be
 * touched, once at the start of its room and once at the end. What is only read can be read only.
 *
 * The input is a sheet for the readers, good or bad, and for the writers it is the text of a list: a line for each record,
 * its words parted by commas. A digit stands for itself, any other byte but `-` for its number, so that `P` is 80, and `-`
 * takes what is before it from 2^64 - 1, so that `-` alone is that number and `1-` the one below. A line that ends in LF is
 * filled up with 0 to nine words; words past nine are left out. After the last LF there are the words that there are. So the
 * text of a good sheet's records is the sheet itself, spare words and odd lengths are a few bytes away, and both have one
 * dictionary. */

#define _GNU_SOURCE
#include "common.h"
#include "wiltoresh.h"

uint64_t plain_write(const uint64_t *records, size_t words, uint8_t *space, size_t space_length, size_t *line,
                     size_t *length);
uint64_t plain_read(const uint8_t *sheet, size_t sheet_length, uint64_t *records, size_t words, size_t *line,
                    size_t *count);

enum {
    RECORD = 9,
    MOST_SHEET = 65536,
    MOST_INPUT = 17 * PAGE,
    MOST_WORDS = MOST_INPUT * RECORD,
    SPACE_ROOM = 17 * PAGE,
    LIST_WORDS = 73 * PAGE / 8, /* of 4,096 records and some more */
    MARGIN = 32,                /* bytes or words beside what is lent that are compared */
};

/* What both give: `length` is of the sheet in bytes or of the list in records. */
typedef struct {
    uint64_t number;
    size_t line;
    size_t length;
} Answer;

static Room sheet_room, words_room;
/* Memory between two pages that may not be touched. */
static uint8_t *space_room;
static uint64_t *list_room;
/* What is lent holds before is a part of this. */
static union {
    uint8_t bytes[LIST_WORDS * 8 + 256];
    uint64_t words[LIST_WORDS + 32];
} known;

int LLVMFuzzerInitialize(int *count, char ***words) {
    (void)count;
    (void)words;
    sheet_room = read_only_room(MOST_INPUT);
    words_room = read_only_room(MOST_WORDS * sizeof(uint64_t));
    space_room = between_guards(-1, SPACE_ROOM, PROT_READ | PROT_WRITE);
    list_room = (uint64_t *)(void *)between_guards(-1, LIST_WORDS * sizeof(uint64_t), PROT_READ | PROT_WRITE);
    fill_known(known.bytes, sizeof known.bytes);
    return 0;
}

/* What the fuzzer seeks more of, beside the branches of the plain implementation: answers, and digits of words. */
enum { DIGITS = 22 };
__attribute__((section("__libfuzzer_extra_counters"))) static uint8_t written[NUMBERS][BUCKETS][KINDS];
__attribute__((section("__libfuzzer_extra_counters"))) static uint8_t was_read[NUMBERS][BUCKETS];
__attribute__((section("__libfuzzer_extra_counters"))) static uint8_t shapes[KINDS][RECORD][DIGITS];

/* The digits of a word, 0 for a spare one, or one number more for `-`. */
static size_t digits_of(uint64_t word) {
    size_t digits = 0;
    for (uint64_t rest = word; rest > 0; rest /= 10) {
        digits++;
    }
    return word == UINT64_MAX ? DIGITS - 1 : digits;
}

/* Counts the answer, and the words up to and with the record that it names. */
static void count_written(const uint64_t *list, size_t words, Answer answer) {
    size_t start = answer.line > 0 ? (answer.line - 1) * RECORD : 0;
    size_t last = answer.line > 0 ? at_most(words, start + RECORD) : words;
    require(answer.number < NUMBERS, "a number above 18");
    written[answer.number][bucket_of(answer.line)][start < words ? kind_of(list[start]) : KINDS - 1] = 1;
    for (size_t at = 0; at < last; at++) {
        shapes[kind_of(list[at / RECORD * RECORD])][at % RECORD][digits_of(list[at])] = 1;
    }
}

/* The words of the text, as is said above; gives how many. */
static size_t words_of(const uint8_t *text, size_t size, uint64_t *words) {
    size_t count = 0, place = 0;
    uint64_t word = 0;
    for (size_t at = 0; at < size; at++) {
        uint8_t byte = text[at];
        if (byte == ',' || byte == '\n') {
            words[count] = word;
            count += place < RECORD;
            place++;
            word = 0;
        } else if (byte >= '0' && byte <= '9') {
            word = word * 10 + (uint64_t)(byte - '0');
        } else {
            word = byte == '-' ? UINT64_MAX - word : word << 8 | byte;
        }
        for (; byte == '\n' && place < RECORD; place++) {
            words[count++] = 0;
        }
        place = byte == '\n' ? 0 : place;
    }
    if (size > 0 && text[size - 1] != '\n' && place < RECORD) {
        words[count++] = word;
    }
    return count;
}

/* Has both write the list into a space of so many bytes, at the end or the start of its room. */
static Answer write_by_both(const uint64_t *list, size_t words, size_t length, int at_end, uint64_t seed) {
    static uint8_t expected_room[SPACE_ROOM];
    size_t beside = at_most(MARGIN, SPACE_ROOM - length);
    size_t start = at_end ? SPACE_ROOM - length - beside : 0;
    size_t place = at_end ? SPACE_ROOM - length : 0;
    memcpy(space_room + start, known.bytes + seed % 256, length + beside);
    memcpy(expected_room + start, space_room + start, length + beside);
    Answer expected, had = {UINT64_MAX, SIZE_MAX, SIZE_MAX};
    expected.number = plain_write(list, words, expected_room + place, length, &expected.line, &expected.length);
    had.number = wiltoresh_write(list, words, space_room + place, length, &had.line, &had.length);
    require(had.number == expected.number, "written: another number");
    require(had.line == expected.line, "written: another line");
    require(had.length == expected.length, "written: another length");
    require(memcmp(space_room + start, expected_room + start, length + beside) == 0,
            "another sheet is written, or a byte beside it");
    return had;
}

/* Has both read the sheet into a list of so many words, at the end or the start of its room. */
static Answer read_by_both(const uint8_t *sheet, size_t size, size_t words, int at_end, uint64_t seed) {
    static uint64_t expected_room[LIST_WORDS];
    size_t beside = at_most(MARGIN, LIST_WORDS - words);
    size_t start = at_end ? LIST_WORDS - words - beside : 0;
    size_t place = at_end ? LIST_WORDS - words : 0;
    size_t bytes = (words + beside) * sizeof(uint64_t);
    memcpy(list_room + start, known.words + seed % 32, bytes);
    memcpy(expected_room + start, list_room + start, bytes);
    Answer expected, had = {UINT64_MAX, SIZE_MAX, SIZE_MAX};
    expected.number = plain_read(sheet, size, expected_room + place, words, &expected.line, &expected.length);
    had.number = wiltoresh_read(sheet, size, list_room + place, words, &had.line, &had.length);
    require(had.number == expected.number, "read: another number");
    require(had.line == expected.line, "read: another line");
    require(had.length == expected.length, "read: another count");
    require(memcmp(list_room + start, expected_room + start, bytes) == 0,
            "other words are read, or a number beside them is changed");
    return had;
}

/* Just enough, one less, none, or any length up to the most, by the hash. */
static size_t lent_length(size_t enough, size_t most, uint64_t seed) {
    switch (seed % 8) {
    case 0:
        return 0;
    case 1:
    case 2:
        return enough > 0 ? enough - 1 : 0;
    case 3:
        return seed / 8 % (most + 1);
    default:
        return enough;
    }
}

/* The words that were read, at the end of their room, are written again, and the bytes are the sheet's. */
static void write_again(const uint8_t *sheet, size_t size, size_t words, uint64_t seed) {
    const uint64_t *list = lend(words_room, list_room + LIST_WORDS - words, words * sizeof(uint64_t), 1);
    Answer answer = write_by_both(list, words, size, 1, seed);
    require(answer.number == 0 && answer.length == size, "what was read is refused when it is written");
    require(memcmp(space_room + SPACE_ROOM - size, sheet, size) == 0, "what was read is written as another sheet");
}

/* The sheet that was written of the list is read again: it has the list's words, filled up with 0. */
static void read_again(const uint8_t *bytes, size_t size, const uint64_t *list, size_t words, uint64_t seed) {
    const uint8_t *sheet = lend(sheet_room, bytes, size, 1);
    size_t count = (words + RECORD - 1) / RECORD;
    Answer answer = read_by_both(sheet, size, count * RECORD, 1, seed);
    require(answer.number == 0 && answer.length == count, "what was written is refused when it is read");
    const uint64_t *had = list_room + LIST_WORDS - count * RECORD;
    require(memcmp(had, list, words * sizeof(uint64_t)) == 0, "what was written is read as other words");
    for (size_t at = words; at < count * RECORD; at++) {
        require(had[at] == 0, "a spare word that is not 0 is read");
    }
    write_again(sheet, size, count * RECORD, seed);
}

static void write_list(const uint64_t *list, size_t words, uint64_t seed) {
    static uint8_t sheet[MOST_SHEET];
    const size_t bytes = words * sizeof(uint64_t);
    Answer whole;
    whole.number = plain_write(list, words, sheet, sizeof sheet, &whole.line, &whole.length);
    size_t enough = whole.number == 0 ? whole.length : seed / 8 % 2048;
    const uint64_t *lent = lend(words_room, list, bytes, 0);
    Answer answer = write_by_both(lent, words, enough + seed / 8 % 64, 0, seed);
    require(memcmp(lent, list, bytes) == 0, "the list is changed");
    count_written(lent, words, answer);
    lent = lend(words_room, list, bytes, 1);
    write_by_both(lent, words, lent_length(enough, MOST_SHEET, seed), 1, seed);
    if (whole.number == 0) {
        read_again(sheet, whole.length, list, words, seed);
    }
}

static void read_sheet(const uint8_t *bytes, size_t size, uint64_t seed) {
    static uint64_t list[LIST_WORDS];
    Answer whole;
    whole.number = plain_read(bytes, size, list, LIST_WORDS, &whole.line, &whole.length);
    size_t enough = whole.number == 0 ? whole.length * RECORD : seed / 8 % 256;
    const uint8_t *sheet = lend(sheet_room, bytes, size, 0);
    Answer answer = read_by_both(sheet, size, at_most(enough + seed / 8 % 64, LIST_WORDS), 0, seed);
    require(memcmp(sheet, bytes, size) == 0, "the sheet is changed");
    require(answer.number < NUMBERS, "a number above 18");
    was_read[answer.number][bucket_of(answer.line)] = 1;
    sheet = lend(sheet_room, bytes, size, 1);
    answer = read_by_both(sheet, size, lent_length(enough, LIST_WORDS, seed), 1, seed);
    if (answer.number == 0 && seed % 8 > 3) {
        write_again(sheet, size, enough, seed);
    }
}

int LLVMFuzzerTestOneInput(const uint8_t *bytes, size_t size) {
    static uint64_t words[MOST_WORDS];
    if (size > MOST_INPUT) {
        return -1;
    }
    uint64_t seed = hash(bytes, size);
    write_list(words, words_of(bytes, size, words), seed);
    read_sheet(bytes, size, seed);
    return 0;
}
