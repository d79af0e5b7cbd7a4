"""The Python module: the examples of document 01 and some of document 02, the works in example/, lent spaces, threads and
places of lines."""

import doctest
import pickle
import sys
import unittest
from concurrent.futures import ThreadPoolExecutor
from pathlib import Path
from threading import Event, Thread

import wiltoresh
from wiltoresh import Answer, Refusal, line_place, longest, report, report_into

EXAMPLE = Path(__file__).resolve().parents[2] / "example"
WORKS = (EXAMPLE / "works.csv").read_bytes()
WORKS_REPORT = (EXAMPLE / "works.report.csv").read_bytes()

SHEET = b"""P,1,1000
P,2,400
S,1,1,16,1000,-,-,10000,0
H,1,2,10000,56100
E,0,2,500,400000
B,2,100,1900000,250000
G,1,2,300
"""

REPORT = b"""R,1,2131800,0,0,2131800,0,1492260,0,2131.800,0.000
R,2,561000,200000,0,1390540,225000,1390540,225000,3476.350,562.500
T,3107800,3107800,0,0
"""

# 65,536 bytes in 4,096 lines: 6 + 4,094 x 16 + 26 bytes.
GREATEST = b"P,1,5\n" + b"E,0,1,1000000,0\n" * 4094 + b"E,0,1,10000000000,2000000\n"

# Number, line, the line's text and the sheet.
REFUSED = [
    (1, 0, b"", b"P" * 65537),
    (2, 4097, b"E,0,1,1,0", b"P,1,5\n" + b"E,0,1,1,0\n" * 4096),
    (3, 1, b"P,1,5", b"P,1,5"),
    (4, 1, b"", b"\n"),
    (5, 1, b"P,1", b"P,1\n"),
    (6, 1, b"P,1,05", b"P,1,05\n"),
    (7, 1, b"P,1,0", b"P,1,0\n"),
    (8, 1, b"P,2,5", b"P,2,5\n"),
    (9, 2, b"W,1,2,9", b"P,1,5\nW,1,2,9\n"),
    (10, 2, b"W,1,1,9", b"P,1,5\nW,1,1,9\n"),
    (11, 2, b"S,1,1,0,1,-,1,1,0", b"P,1,5\nS,1,1,0,1,-,1,1,0\n"),
    (12, 4, b"G,1,2,1", b"P,1,5\nP,2,5\nG,1,2,1\nG,1,2,1\n"),
    (13, 3, b"G,1,2,6", b"P,1,5\nP,2,5\nG,1,2,6\n"),
    (14, 0, b"", b""),
    (17, 2, b"K,1,1,6,6", b"K,1,1,5,5\nK,1,1,6,6\n"),
    (18, 2, b"N,1,1,5", b"P,1,5\nN,1,1,5\n"),
]

TOO_SHORT = Answer(16, 0, 0)


def patterned(length: int) -> bytearray:
    """A space in which no two neighbours are the same, and where no byte is one of a report."""
    return bytearray(128 + place % 127 for place in range(length))


class Document(unittest.TestCase):
    def test_sheet_of_the_document(self) -> None:
        self.assertEqual(report(SHEET), REPORT)

    def test_example_works(self) -> None:
        self.assertEqual(report(WORKS), WORKS_REPORT)

    def test_balance_raised_to_zero(self) -> None:
        expected = b"R,1,0,0,1,0,0,0,0,0.000,0.000\nT,0,-1,1,0\n"
        self.assertEqual(report(b"P,1,5\nE,1,0,1,1000\n"), expected)

    def test_biomass_in_a_mass_balance(self) -> None:
        """Document 02, ticket 2: 11 g of carbon in and 4 g out, half of each biomass: 6 − 2."""
        sheet = b"P,1,5\nS,1,3,0,3,1000,0,10000,5000\nS,1,4,0,1,1000,0,10000,5000\n"
        self.assertEqual(report(sheet), b"R,1,4,0,0,4,0,4,0,0.800,0.000\nT,4,4,0,0\n")

    def test_figures_of_a_bought_precursor(self) -> None:
        """Document 02, ticket 4: 100 kg at the verified figures, which are stated below the default and the use."""
        sheet = b"P,1,1000\nK,7,3,2500000,400000\nN,1,7,100\nK,7,1,1900000,250000\n"
        expected = b"R,1,0,0,0,190000,25000,190000,25000,190.000,25.000\nT,215000,215000,0,0\n"
        self.assertEqual(report(sheet), expected)
        self.assertEqual(report(b"K,7,1,5,5\n"), b"T,0,0,0,0\n")

    def test_table_of_refusals(self) -> None:
        for number, line, text, sheet in REFUSED:
            with self.subTest(number=number):
                with self.assertRaises(Refusal) as raised:
                    report(sheet)
                refusal = raised.exception
                self.assertEqual((refusal.number, refusal.line, refusal.text), (number, line, text))
                space = patterned(longest())
                self.assertEqual(report_into(sheet, space), Answer(number, line, 0))
                self.assertEqual(space, patterned(longest()))

    def test_greatest_sheet_is_accepted(self) -> None:
        self.assertEqual((len(GREATEST), GREATEST.count(b"\n")), (65536, 4096))
        # 10,000,000,000 kWh at 2,000,000 mg are 20,000,000,000,000 g, a fifth of that for each kilogram.
        expected = (
            b"R,1,0,20000000000000,0,0,20000000000000,0,20000000000000,0.000,4000000000000.000\n"
            b"T,20000000000000,20000000000000,0,0\n"
        )
        self.assertEqual(report(GREATEST), expected)

    def test_examples_in_the_docstrings(self) -> None:
        result = doctest.testmod(wiltoresh, verbose=False)
        self.assertEqual((result.failed, result.attempted > 0), (0, True))


class Space(unittest.TestCase):
    def test_exactly_long_enough(self) -> None:
        space = patterned(len(WORKS_REPORT))
        self.assertEqual(report_into(WORKS, space), Answer(0, 0, len(WORKS_REPORT)))
        self.assertEqual(space, WORKS_REPORT)

    def test_one_byte_too_short(self) -> None:
        space = patterned(len(WORKS_REPORT) - 1)
        self.assertEqual(report_into(WORKS, space), TOO_SHORT)
        self.assertEqual(space, patterned(len(WORKS_REPORT) - 1))

    def test_ten_bytes_for_the_report(self) -> None:
        space = patterned(10)
        self.assertEqual(report_into(SHEET, space), TOO_SHORT)
        self.assertEqual(space, patterned(10))

    def test_past_the_report_the_space_is_unchanged(self) -> None:
        space = patterned(5000)
        self.assertEqual(report_into(WORKS, space), Answer(0, 0, len(WORKS_REPORT)))
        self.assertEqual(space, WORKS_REPORT + patterned(5000)[len(WORKS_REPORT) :])

    def test_empty_space(self) -> None:
        self.assertEqual(report_into(WORKS, bytearray()), TOO_SHORT)
        self.assertEqual(report_into(b"", bytearray()), Answer(14, 0, 0))

    def test_space_may_grow_afterwards(self) -> None:
        space = bytearray(40)
        report_into(b"P,1,5\n", space)
        space.extend(b"#")
        self.assertEqual(space, b"R,1,0,0,0,0,0,0,0,0.000,0.000\nT,0,0,0,0\n#")


class Threads(unittest.TestCase):
    def test_same_sheet(self) -> None:
        with ThreadPoolExecutor(8) as threads:
            for given in threads.map(report, [WORKS] * 500):
                self.assertEqual(given, WORKS_REPORT)

    def test_other_sheets_and_spaces_of_their_own(self) -> None:
        sheets = [WORKS, SHEET] + [sheet for _, _, _, sheet in REFUSED]
        expected = [self.answer(sheet) for sheet in sheets]
        with ThreadPoolExecutor(8) as threads:
            self.assertEqual(list(threads.map(self.answer, sheets * 50)), expected * 50)

    def answer(self, sheet: bytes) -> tuple[Answer, bytearray]:
        space = patterned(5000)
        return report_into(sheet, space), space

    def test_other_threads_run_during_a_call(self) -> None:
        begun, ran = Event(), Event()
        other = Thread(target=lambda: begun.wait() and ran.set())
        other.start()
        interval = sys.getswitchinterval()
        # From here on this thread runs until it gives up Python's lock by itself, which only a call does.
        sys.setswitchinterval(1000)
        begun.set()
        calls = 0
        while calls < 10000 and not ran.is_set():
            report(GREATEST)
            calls += 1
        sys.setswitchinterval(interval)
        other.join()
        self.assertLess(calls, 10000)


class Lines(unittest.TestCase):
    def test_every_line_of_the_example(self) -> None:
        for line, text in enumerate(WORKS.splitlines(), start=1):
            self.assertEqual(WORKS[line_place(WORKS, line)], text)

    def test_lines_that_a_sheet_has_not(self) -> None:
        end = len(WORKS)
        self.assertEqual(line_place(WORKS, 0), slice(0, 0))
        for line in (42, 43, 2**64 - 1, 2**64, 2**64 + 1):
            self.assertEqual(line_place(WORKS, line), slice(end, end))
        with self.assertRaises(ValueError):
            line_place(WORKS, -1)

    def test_text_of_the_first_and_of_the_last_line(self) -> None:
        with self.assertRaises(Refusal) as raised:
            report(b"p,1,5\nP,2,5\n")
        self.assertEqual(raised.exception.args, (4, 1, b"p,1,5"))
        with self.assertRaises(Refusal) as raised:
            report(WORKS + b"G,4,3,1\n")
        self.assertEqual(raised.exception.args, (10, 42, b"G,4,3,1"))
        with self.assertRaises(Refusal) as raised:
            report(WORKS[:-1])
        self.assertEqual(raised.exception.args, (3, 41, b"G,3,4,208000000"))

    def test_zero_bytes_do_not_end_a_sheet(self) -> None:
        with self.assertRaises(Refusal) as raised:
            report(b"P,1,5\nP,\x00,5\n")
        self.assertEqual(raised.exception.args, (6, 2, b"P,\x00,5"))


class Values(unittest.TestCase):
    def test_message(self) -> None:
        self.assertEqual(str(Refusal(14, 0, b"")), "refused by 14: empty sheet")
        message = "refused by 9 at line 4: process without a P line above it"
        self.assertEqual(str(Refusal(9, 4, b"W,1,2,9")), message)
        self.assertEqual(sorted(wiltoresh.MEANINGS), list(range(1, 19)))

    def test_refusal_passes_between_processes(self) -> None:
        copy = pickle.loads(pickle.dumps(Refusal(9, 4, b"W,1,2,9")))
        self.assertEqual((copy.number, copy.line, copy.text), (9, 4, b"W,1,2,9"))

    def test_other_types_are_refused(self) -> None:
        for sheet in ("P,1,5\n", bytearray(b"P,1,5\n"), None, 5):
            with self.assertRaises(TypeError):
                report(sheet)
        for space in (b"0123456789", None, 10):
            with self.assertRaises(TypeError):
                report_into(SHEET, space)


if __name__ == "__main__":
    unittest.main()
