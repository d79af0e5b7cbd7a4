"""Records: round trips, refusals, values that are no numbers; lists of words, and spaces and lists that are lent."""

import unittest
from array import array
from concurrent.futures import ThreadPoolExecutor
from dataclasses import fields, replace
from pathlib import Path

from test_wiltoresh import REFUSED
from wiltoresh import (
    RECORD_WORDS,
    STANDARD,
    Answer,
    BoughtPrecursor,
    Counted,
    Electricity,
    MeasurableHeat,
    OwnGood,
    PrecursorFigures,
    PrecursorUse,
    Process,
    Refusal,
    SourceStream,
    WasteGas,
    read,
    read_into,
    report,
    write,
    write_into,
)

WORKS = (Path(__file__).resolve().parents[2] / "example" / "works.csv").read_bytes()
LINES = 41

# The sheet of document 01, and a line of each kind of document 02.
SHEET = b"""P,1,1000
P,2,400
S,1,1,16,1000,-,-,10000,0
H,1,2,10000,56100
E,0,2,500,400000
B,2,100,1900000,250000
G,1,2,300
K,9,2,1700000,200000
N,2,9,50
"""

RECORDS = [
    Process(number=1, output=1000),
    Process(number=2, output=400),
    SourceStream(process=1, method=1, code=16, mass=1000, a=None, b=None, c=10000, d=0),
    MeasurableHeat(from_=1, to=2, megajoules=10000, factor=56100),
    Electricity(from_=0, to=2, kilowatt_hours=500, factor=400000),
    BoughtPrecursor(process=2, mass=100, direct=1900000, indirect=250000),
    OwnGood(from_=1, to=2, mass=300),
    PrecursorFigures(precursor=9, rank=2, direct=1700000, indirect=200000),
    PrecursorUse(process=2, precursor=9, mass=50),
]

ONE, TWO = Process(1, 5), Process(2, 5)

# 65,536 bytes in 4,096 lines: 6 + 4,094 x 16 + 26 bytes.
GREATEST = [ONE] + [Electricity(0, 1, 1000000, 0)] * 4094 + [Electricity(0, 1, 10000000000, 2000000)]

# Number, line and records.
REFUSED_RECORDS = [
    (1, 0, [Process(1, 50)] + GREATEST[1:]),
    (2, 4097, [ONE] + [WasteGas(0, 1, 1)] * 4096),
    (6, 2, [ONE, SourceStream(1, 3, 0, 1, None, 0, 10000, 0)]),
    (7, 1, [Process(1, 0)]),
    (7, 1, [Process(1, 2**64 - 2)]),
    (8, 1, [TWO]),
    (9, 2, [ONE, WasteGas(1, 2, 9)]),
    (10, 2, [ONE, WasteGas(1, 1, 9)]),
    (11, 2, [ONE, SourceStream(1, 1, 0, 1, None, 1, 1, 0)]),
    (12, 4, [ONE, TWO, OwnGood(1, 2, 1), OwnGood(1, 2, 1)]),
    (13, 3, [ONE, TWO, OwnGood(1, 2, 6)]),
    (14, 0, []),
    (17, 3, [PrecursorFigures(7, 1, 5, 5), PrecursorFigures(7, 2, 5, 5), PrecursorFigures(7, 1, 6, 6)]),
    (18, 3, [ONE, PrecursorUse(1, 7, 9), PrecursorUse(1, 8, 9), PrecursorFigures(7, 3, 5, 5)]),
]


def words(*records: tuple[str, list[int]]) -> array:
    """The words of records, each a letter and its fields."""
    given = array("Q")
    for letter, values in records:
        given.extend([ord(letter), *values] + [0] * (8 - len(values)))
    return given


# Number, line and the words of records.
REFUSED_WORDS = [
    # Each record spells an empty line at least.
    (1, 0, array("Q", [7]) * (65537 * RECORD_WORDS)),
    (2, 4097, words(("P", [1, 5])) + words(("W", [0, 1, 1])) * 4096),
    (4, 2, words(("P", [1, 5]), ("p", [2, 5]))),
    (5, 2, words(("P", [1, 5]), ("P", [2, 5, 1]))),
    (6, 1, words(("P", [1, STANDARD]))),
    (7, 1, words(("P", [1, 0]))),
    (7, 1, words(("P", [1, STANDARD - 1]))),
    (8, 1, words(("P", [2, 5]))),
    (9, 2, words(("P", [1, 5]), ("W", [1, 2, 9]))),
    (10, 2, words(("P", [1, 5]), ("W", [1, 1, 9]))),
    (11, 2, words(("P", [1, 5]), ("S", [1, 1, 0, 1, STANDARD, 1, 1, 0]))),
    (12, 4, words(("P", [1, 5]), ("P", [2, 5]), ("G", [1, 2, 1]), ("G", [1, 2, 1]))),
    (13, 3, words(("P", [1, 5]), ("P", [2, 5]), ("G", [1, 2, 6]))),
    (14, 0, array("Q")),
    (17, 2, words(("K", [7, 1, 5, 5]), ("K", [7, 1, 6, 6]))),
    (18, 2, words(("P", [1, 5]), ("N", [1, 7, 5]))),
]


def patterned(length: int) -> bytearray:
    """A space in which no two neighbours are the same, and where no byte is one of a sheet."""
    return bytearray(128 + place % 127 for place in range(length))


def numbers(length: int) -> array:
    """A list of numbers that no sheet has."""
    return array("Q", (2**63 + place for place in range(length)))


def words_of_the_works() -> array:
    given = numbers(LINES * RECORD_WORDS)
    assert read_into(WORKS, given) == Counted(0, 0, LINES)
    return given


class Records(unittest.TestCase):
    def test_records_of_the_document(self) -> None:
        self.assertEqual(write(RECORDS), SHEET)
        self.assertEqual(read(SHEET), RECORDS)

    def test_example_works(self) -> None:
        records = read(WORKS)
        self.assertEqual(len(records), LINES)
        self.assertEqual(records[18], SourceStream(4, 1, 16, 2000000, 48600, None, 10000, 0))
        self.assertEqual(write(records), WORKS)

    def test_greatest_sheet(self) -> None:
        sheet = write(GREATEST)
        self.assertEqual(len(sheet), 65536)
        self.assertEqual(read(sheet), GREATEST)

    def test_any_iterable(self) -> None:
        self.assertEqual(write(record for record in RECORDS), SHEET)

    def test_refused_records(self) -> None:
        for number, line, records in REFUSED_RECORDS:
            with self.subTest(number=number), self.assertRaises(Refusal) as raised:
                write(records)
            self.assertEqual(raised.exception.args, (number, line, b""))

    def test_offending_record(self) -> None:
        records = [ONE, WasteGas(1, 2, 9)]
        with self.assertRaises(Refusal) as raised:
            write(records)
        self.assertEqual(records[raised.exception.line - 1], WasteGas(1, 2, 9))
        message = "refused by 9 at line 2: process without a P line above it"
        self.assertEqual(str(raised.exception), message)

    def test_refused_sheets(self) -> None:
        for number, line, text, sheet in REFUSED:
            for judged in (read, report):
                with self.subTest(number=number), self.assertRaises(Refusal) as raised:
                    judged(sheet)
                self.assertEqual(raised.exception.args, (number, line, text))


class Values(unittest.TestCase):
    def test_numbers_that_no_word_can_be(self) -> None:
        for place, record in enumerate(RECORDS):
            for field in fields(record):
                for value in (-1, 2**64 - 1, 2**64, 2**200):
                    records = list(RECORDS)
                    records[place] = replace(record, **{field.name: value})
                    with self.subTest(record=records[place]), self.assertRaises(ValueError):
                        write(records)

    def test_fields_that_are_no_numbers(self) -> None:
        for value in ("5", 5.0, b"5", [5]):
            for record in (Process(1, value), SourceStream(1, 1, 16, 5, value, None, 5, 0)):
                with self.subTest(record=record), self.assertRaises(TypeError):
                    write([ONE, record])

    def test_standard_value_only_where_there_may_be_one(self) -> None:
        for place, record in enumerate(RECORDS):
            for field in fields(record):
                records = list(RECORDS)
                records[place] = replace(record, **{field.name: None})
                if field.name in ("a", "b"):
                    self.assertEqual(write(records), SHEET)
                else:
                    with self.subTest(record=records[place]), self.assertRaises(TypeError):
                        write(records)

    def test_message_names_field_and_record(self) -> None:
        with self.assertRaises(ValueError) as raised:
            write([ONE, Process(2, -5)])
        self.assertEqual(str(raised.exception), "output of record 2 must be from 0 to 2^64 - 2, not -5")

    def test_other_types_are_refused(self) -> None:
        for records in ([b"P,1,5"], [("P", 1, 5)], [None], SHEET, [Process]):
            with self.assertRaises(TypeError):
                write(records)
        for sheet in ("P,1,5\n", bytearray(b"P,1,5\n"), None, 5):
            with self.assertRaises(TypeError):
                read(sheet)
            with self.assertRaises(TypeError):
                read_into(sheet, array("Q"))
        for given in ([80, 1, 5], array("L", [80, 1, 5]), array("q", [80, 1, 5]), bytearray(72), None):
            with self.assertRaises(TypeError):
                write_into(given, bytearray(10))
            with self.assertRaises(TypeError):
                read_into(SHEET, given)
        with self.assertRaises(TypeError):
            write_into(array("Q"), bytes(10))


class Words(unittest.TestCase):
    def expect_sheet(self, given: array, sheet: bytes) -> None:
        space = patterned(len(sheet) + 9)
        self.assertEqual(write_into(given, space), Answer(0, 0, len(sheet)))
        self.assertEqual(space, sheet + patterned(len(space))[len(sheet) :])

    def expect_refusal(self, number: int, line: int, given: array) -> None:
        for length in (0, 10, 70000):
            space = patterned(length)
            self.assertEqual(write_into(given, space), Answer(number, line, 0))
            self.assertEqual(space, patterned(length))

    def test_words_of_a_sheet(self) -> None:
        sheet = b"P,1,5\nS,1,1,16,7,-,2,10000,0\n"
        given = words(("P", [1, 5]), ("S", [1, 1, 16, 7, STANDARD, 2, 10000, 0]))
        self.expect_sheet(given, sheet)
        lent = numbers(18)
        self.assertEqual(read_into(sheet, lent), Counted(0, 0, 2))
        self.assertEqual(lent, given)

    def test_example_works_goes_round(self) -> None:
        self.expect_sheet(words_of_the_works(), WORKS)

    def test_refused_words(self) -> None:
        for number, line, given in REFUSED_WORDS:
            with self.subTest(number=number):
                self.expect_refusal(number, line, given)

    def test_first_words_that_are_no_letters(self) -> None:
        for word in (0, 10, 79, 81, ord("p"), 80 + 256, 80 + 2**32, STANDARD):
            given = words(("P", [1, 5]), ("P", [2, 5]))
            given[RECORD_WORDS] = word
            self.expect_refusal(4, 2, given)

    def test_spare_words_that_are_not_zero(self) -> None:
        for spare in range(3, RECORD_WORDS):
            for word in (1, STANDARD - 1, STANDARD):
                given = words(("P", [1, 5]), ("P", [2, 5]))
                given[RECORD_WORDS + spare] = word
                self.expect_refusal(5, 2, given)

    def test_odd_lengths(self) -> None:
        given = words(("P", [1, 5]), ("W", [1, 0, 9]))
        for length in (1, 2):
            self.expect_refusal(5, 1, given[:length])
        for length in range(3, 10):
            self.expect_sheet(given[:length], b"P,1,5\n")
        for length in range(10, 13):
            self.expect_refusal(5, 2, given[:length])
        for length in range(13, 19):
            self.expect_sheet(given[:length], b"P,1,5\nW,1,0,9\n")
        self.expect_refusal(5, 1, array("Q", [80, 1, 5, 0, 1]))
        self.expect_refusal(4, 2, given[:9] + array("Q", [0]))


class Lent(unittest.TestCase):
    def test_every_shorter_space_is_unchanged(self) -> None:
        given = words_of_the_works()
        for length in range(len(WORKS)):
            space = patterned(length)
            self.assertEqual(write_into(given, space), Answer(16, 0, 0))
            self.assertEqual(space, patterned(length))

    def test_space_exactly_long_enough(self) -> None:
        space = patterned(len(WORKS))
        self.assertEqual(write_into(words_of_the_works(), space), Answer(0, 0, len(WORKS)))
        self.assertEqual(space, WORKS)

    def test_past_the_sheet_the_space_is_unchanged(self) -> None:
        space = patterned(70000)
        self.assertEqual(write_into(words_of_the_works(), space), Answer(0, 0, len(WORKS)))
        self.assertEqual(space, WORKS + patterned(70000)[len(WORKS) :])

    def test_every_shorter_list_is_unchanged(self) -> None:
        for length in range(LINES * RECORD_WORDS):
            lent = numbers(length)
            self.assertEqual(read_into(WORKS, lent), Counted(16, 0, 0))
            self.assertEqual(lent, numbers(length))

    def test_past_the_records_the_list_is_unchanged(self) -> None:
        expected = words_of_the_works()
        for more in (1, 8, 9, 10, 40000):
            lent = numbers(len(expected) + more)
            self.assertEqual(read_into(WORKS, lent), Counted(0, 0, LINES))
            self.assertEqual(lent, expected + numbers(len(lent))[len(expected) :])

    def test_refused_sheets_leave_the_list(self) -> None:
        for number, line, _, sheet in REFUSED:
            for length in (0, 8, 36864):
                with self.subTest(number=number, length=length):
                    lent = numbers(length)
                    self.assertEqual(read_into(sheet, lent), Counted(number, line, 0))
                    self.assertEqual(lent, numbers(length))

    def test_space_and_list_may_grow_afterwards(self) -> None:
        given, space = words(("P", [1, 5])), bytearray(6)
        write_into(given, space)
        read_into(b"P,1,5\n", given)
        space.extend(b"#")
        given.append(7)
        self.assertEqual((space, given[-1]), (b"P,1,5\n#", 7))

    def test_several_threads_at_once(self) -> None:
        with ThreadPoolExecutor(8) as threads:
            for records in threads.map(read, [WORKS] * 200):
                self.assertEqual(write(records), WORKS)
            for sheet in threads.map(write, [RECORDS] * 200):
                self.assertEqual(sheet, SHEET)


if __name__ == "__main__":
    unittest.main()
