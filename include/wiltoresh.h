/*
 * Wiltoresh: the carbon balance sheet of an installation. A sheet goes in; a report or a refusal comes out. A sheet can
 * be written from records, which are its lines as numbers, and read into them.
 *
 * The functions are in two archives (x86-64 Linux), each proved and written by rt lib in a crate's folder of its own:
 *
 *     libwiltoresh.a          crates/wiltoresh          wiltoresh_report, wiltoresh_line, wiltoresh_longest
 *     libwiltoresh_records.a  crates/wiltoresh_records  wiltoresh_write, wiltoresh_read
 *
 * callers/archives has both made, and copies them to target/staticlib.
 *
 * So a program that only reports links no code for records. A program may link either or both, in any order: neither
 * needs the other, and no global symbol is defined in both. Neither needs anything but memcpy and memset of the C
 * library.
 *
 * A call is given the sheet, and the records of wiltoresh_write. It is lent the space, the records of wiltoresh_read,
 * and *line, *length, *start and *count.
 *
 * For every function below:
 *
 * - It takes every sheet, every list of records, every space and every line number: of these a caller checks nothing
 *   beforehand.
 * - It never allocates, never traps, always returns and keeps no state between calls. Several threads may call it at
 *   once, given the same sheet or the same records too, as long as, while a call runs, nothing writes to what it is
 *   given, and nothing else reads or writes what it is lent.
 * - Asked of memory:
 *   - `sheet` points to sheet_length bytes that can be read, and `space` to space_length bytes that can be read and
 *     written. They need no alignment.
 *   - `records` points to `words` numbers, aligned as uint64_t, that can be read, and in wiltoresh_read also written.
 *   - What a call is lent may hold anything, as malloc leaves it.
 *   - Where a length is 0, nothing is read or written at its pointer, which may be any pointer, null too. `words` is a
 *     length as well.
 *   - The pointers `line`, `length`, `start` and `count` are never null. Each points to a size_t, aligned as such.
 *   - No length in bytes is above PTRDIFF_MAX, and `words` is at most PTRDIFF_MAX / 8. No array in memory is longer, so
 *     nothing that a caller has is ruled out.
 *   - What a call is lent overlaps neither what it is given nor anything else that it is lent.
 * - docs/BENCHMARK.md has the stack that it needs.
 */
#ifndef WILTORESH_H
#define WILTORESH_H

#include <stddef.h>
#include <stdint.h>

#ifdef __cplusplus
extern "C" {
#endif

/*
 * The whole job: judges the sheet and writes its report at the start of the space.
 *
 * Returns 0 for an accepted sheet, or else the refusal's number, 1 to 18; docs/REFUSALS.md explains each.
 *
 * - Accepted: *line is 0 and *length is the report's length. The report stands in the first *length bytes of the space,
 *   with no zero byte after it; every byte of the space past it is as it was.
 * - Refused: *line is the number of the offending line, the first line being 1, or 0 for a refusal of the whole sheet.
 *   *length is 0. Every byte of the space is as it was.
 *
 * 16 says that the sheet is good and the space is too short for its report; it is given after every other refusal.
 */
uint64_t wiltoresh_report(const uint8_t *sheet, size_t sheet_length,
                          uint8_t *space, size_t space_length,
                          size_t *line, size_t *length);

/*
 * The offending line had back: returns the length of that line without its LF, and *start is the place in the sheet
 * where it starts. *start plus the length is at most sheet_length.
 *
 * For line 0 the length is 0 and *start is 0. For a line past the last one the length is 0 and *start is sheet_length.
 * Bytes after the last LF count as a line.
 */
size_t wiltoresh_line(const uint8_t *sheet, size_t sheet_length, size_t line, size_t *start);

/*
 * No report is longer than this number of bytes, which is the same at every call. wiltoresh_report never refuses by 16
 * where the space has so many bytes.
 */
size_t wiltoresh_longest(void);

/*
 * A record: a line of a sheet as nine numbers. `kind` is the letter of the line's kind in ASCII, 80 for `P`. `field`
 * has the fields behind the letter, in the line's order:
 *
 *     'P'  number, output
 *     'S'  process, method, code, mass, a, b, c, d
 *     'H'  from, to, megajoules, factor
 *     'W'  from, to, megajoules
 *     'E'  from, to, kilowatt hours, factor
 *     'B'  process, mass, direct, indirect
 *     'G'  from, to, mass
 *     'K'  precursor, rank, direct, indirect
 *     'N'  process, precursor, mass
 *
 * WILTORESH_STANDARD is `-`, the standard value of the code. Fields that the kind does not have are spare, and 0.
 * docs/EXAMPLE.md reads a sheet line by line.
 *
 * A list of records is an array of numbers, nine for each record. The struct has no padding, so an array `records` of n
 * of them is such a list: pass `&records[0].kind` and `9 * n`.
 */
struct wiltoresh_record {
    uint64_t kind;
    uint64_t field[8];
};

#define WILTORESH_STANDARD UINT64_MAX

/*
 * Writes the sheet of a list of records at the start of the space: a line for each record, in order. `words` is the
 * list's length in numbers.
 *
 * The sheet that the records spell is judged as wiltoresh_report judges a sheet, room for its report aside; the k-th
 * record is line k. Returns 0 for an accepted sheet, or else the refusal's number; docs/REFUSALS.md says how records
 * come to each.
 *
 * - Accepted: *line is 0 and *length is the sheet's length. The sheet stands in the first *length bytes of the space,
 *   with no zero byte after it; every byte of the space past it is as it was.
 * - Refused: *line is the number of the offending record, the first record being 1, or 0 for a refusal of the whole
 *   sheet. *length is 0. Every byte of the space is as it was.
 *
 * 16 says that the sheet is good and the space is too short for it; it is given after every other refusal. A space of
 * 65,536 bytes is never refused by 16.
 *
 * How a record is spelt:
 *
 * - Its fields are as many of the numbers behind the first as its kind has. Where a spare one is not 0, all that the
 *   record has are fields, and the line is refused by 5.
 * - A first number that is no letter of a kind spells an empty line, which is refused by 4.
 * - Where `words` is no multiple of nine, the last record has the numbers that are there. Too few fields are refused by
 *   5; spare numbers may be missing.
 * - Every number but WILTORESH_STANDARD is spelt in decimal digits. 2^64 - 2 has 20 of them and is out of range in
 *   every field, which is refused by 7.
 */
uint64_t wiltoresh_write(const uint64_t *records, size_t words,
                         uint8_t *space, size_t space_length,
                         size_t *line, size_t *length);

/*
 * Reads the records of a sheet into the start of a list: a record for each line, in order. `words` is the list's length
 * in numbers.
 *
 * The sheet is judged as wiltoresh_report judges it, room for its report aside. Returns 0 for an accepted sheet, or
 * else the refusal's number.
 *
 * - Accepted: *line is 0 and *count is the number of records, which is that of the sheet's lines. The records stand in
 *   the first 9 * *count numbers of the list, spare ones being 0; every number of the list past them is as it was.
 * - Refused: *line is the number of the offending line, the first line being 1, or 0 for a refusal of the whole sheet.
 *   *count is 0. Every number of the list is as it was.
 *
 * 16 says that the sheet is good and the list is too short for its records, nine numbers for each line; it is given
 * after every other refusal. A list of 36,864 numbers is never refused by 16: a sheet has at most 4,096 lines.
 *
 * wiltoresh_write writes these records as the same sheet, byte for byte. Where `words` of wiltoresh_write is a multiple
 * of nine, the sheet that it writes is read as the same numbers.
 */
uint64_t wiltoresh_read(const uint8_t *sheet, size_t sheet_length,
                        uint64_t *records, size_t words,
                        size_t *line, size_t *count);

#ifdef __cplusplus
}
#endif

#endif
