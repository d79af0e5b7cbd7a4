"""The carbon balance sheet of an installation: a sheet goes in, a report or a refusal comes out.

    >>> import wiltoresh
    >>> wiltoresh.report(b"P,1,5\\n")
    b'R,1,0,0,0,0,0,0,0,0.000,0.000\\nT,0,0,0,0\\n'

A sheet can be written from records, one for each line, and read into them. A record is an object of the class of its
kind: Process, SourceStream, MeasurableHeat, WasteGas, Electricity, BoughtPrecursor, OwnGood, PrecursorFigures or
PrecursorUse. Its fields have the line's order; `from_` has its underscore because `from` is a word of Python.

    >>> wiltoresh.write([wiltoresh.Process(1, 5), wiltoresh.WasteGas(1, 0, 9)])
    b'P,1,5\\nW,1,0,9\\n'
    >>> wiltoresh.read(b"P,1,5\\nW,1,0,9\\n")
    [Process(number=1, output=5), WasteGas(from_=1, to=0, megajoules=9)]

The functions are those of a shared object that `callers/run` builds from both archives, libwiltoresh.a and
libwiltoresh_records.a. The environment variable WILTORESH_LIBRARY names another one, which has all of them too.

Threads: every function here may be called from several threads at once, on the same sheet too. The shared object keeps no
state, each call has memory of its own for its answer, and a sheet is bytes, which do not change. While the shared object
works, ctypes lets the other threads run. So report_into, write_into and read_into ask one thing of their caller: until
the call returns, no other thread reads or writes the space or the list that it was lent, nor lends it to a second call,
nor writes to the records that it was given. A space or a list keeps its length meanwhile: to change it raises
BufferError.
"""

import ctypes
import os
from array import array
from dataclasses import dataclass, fields
from pathlib import Path
from typing import Iterable, NamedTuple, Optional, Union

__all__ = [
    "Answer",
    "BoughtPrecursor",
    "Counted",
    "Electricity",
    "MEANINGS",
    "MeasurableHeat",
    "OwnGood",
    "PrecursorFigures",
    "PrecursorUse",
    "Process",
    "RECORD_WORDS",
    "Record",
    "Refusal",
    "STANDARD",
    "SourceStream",
    "WasteGas",
    "line_place",
    "longest",
    "read",
    "read_into",
    "report",
    "report_into",
    "write",
    "write_into",
]

MEANINGS = {
    1: "over 65,536 bytes",
    2: "over 4,096 lines",
    3: "line lacks its LF",
    4: "first field unknown",
    5: "field count",
    6: "not a number, or `-` elsewhere",
    7: "out of range",
    8: "P not next, or after another kind",
    9: "process without a P line above it",
    10: "ends not allowed",
    11: "`-` with code 0",
    12: "second G line of a pair",
    13: "output exceeded",
    14: "empty sheet",
    15: "a whole-gram figure of the report, its sign aside, is 2^63 or more",
    16: "space or list too short",
    17: "second K line of a precursor and rank",
    18: "precursor without a K line",
}
"""What each refusal's number means, in a few words."""


class Answer(NamedTuple):
    """The answer to a sheet or to records, and a lent space, as report_into and write_into give it.

    number is 0 for an accepted sheet, or else the refusal's number, 1 to 18. line is the number of the offending line,
    the first being 1; it is 0 for a refusal of the whole sheet and for an accepted one. length is the length of the
    report, or of the sheet that was written; 0 for a refusal.
    """

    number: int
    line: int
    length: int


class Counted(NamedTuple):
    """The answer to a sheet and a lent list, as read_into gives it.

    number and line are as in Answer. count is the number of records, which is that of the sheet's lines; 0 for a
    refusal.
    """

    number: int
    line: int
    count: int


class Refusal(Exception):
    """A sheet or records sent back: the refusal's number, the offending line's number and its text.

    text is the line without its LF; it is empty where the line is 0. Records have no text: where write raises this,
    text is empty, and records[line - 1] is the offending record, if line is not 0.
    """

    def __init__(self, number: int, line: int, text: bytes) -> None:
        super().__init__(number, line, text)
        self.number = number
        self.line = line
        self.text = text

    def __str__(self) -> str:
        place = f" at line {self.line}" if self.line else ""
        return f"refused by {self.number}{place}: {MEANINGS[self.number]}"


@dataclass(frozen=True)
class Process:
    """`P`: a process. Its number is 1 to 16, its output in kg."""

    number: int
    output: int


@dataclass(frozen=True)
class SourceStream:
    """`S`: a source stream of a process.

    method is 1 for burning, 2 for process emission, 3 for carbon going in and 4 for carbon going out. code is that of
    the fuel (method 1) or of the carbonate (method 2), 0 for none. mass is in kg.

    a is the net calorific value in kJ/kg (method 1), the emission factor in mg/kg (method 2) or the carbon content in
    mg/kg (methods 3 and 4). b is the emission factor in mg/MJ (method 1), or 0. None is the standard value of the code:
    in a of methods 1 and 2, and in b of method 1. c is the oxidation factor (method 1) or the conversion factor
    (method 2), or 10,000, and d the biomass share, by which the grams of every method are lessened, both in
    ten-thousandths.
    """

    process: int
    method: int
    code: int
    mass: int
    a: Optional[int]
    b: Optional[int]
    c: int
    d: int


@dataclass(frozen=True)
class MeasurableHeat:
    """`H`: measurable heat between two processes, 0 being the outside, in MJ; its factor in mg/MJ."""

    from_: int
    to: int
    megajoules: int
    factor: int


@dataclass(frozen=True)
class WasteGas:
    """`W`: waste gas between two processes, 0 being the outside, in MJ."""

    from_: int
    to: int
    megajoules: int


@dataclass(frozen=True)
class Electricity:
    """`E`: electricity between two processes, 0 being the grid or the outside, in kWh; its factor in mg/kWh."""

    from_: int
    to: int
    kilowatt_hours: int
    factor: int


@dataclass(frozen=True)
class BoughtPrecursor:
    """`B`: a precursor that a process bought. mass is in kg, its specific direct and indirect emissions in mg/kg."""

    process: int
    mass: int
    direct: int
    indirect: int


@dataclass(frozen=True)
class OwnGood:
    """`G`: a good of one process that another uses as a precursor, in kg."""

    from_: int
    to: int
    mass: int


@dataclass(frozen=True)
class PrecursorFigures:
    """`K`: specific direct and indirect emissions stated for a bought precursor, in mg/kg.

    precursor is its number, 1 to 255. rank is 1 for verified figures, 2 for the supplier's own and 3 for the published
    default; of those of one precursor the lowest rank number governs, wherever it stands.
    """

    precursor: int
    rank: int
    direct: int
    indirect: int


@dataclass(frozen=True)
class PrecursorUse:
    """`N`: use of a bought precursor by its governing figures. precursor is its number, mass is in kg."""

    process: int
    precursor: int
    mass: int


Record = Union[
    Process,
    SourceStream,
    MeasurableHeat,
    WasteGas,
    Electricity,
    BoughtPrecursor,
    OwnGood,
    PrecursorFigures,
    PrecursorUse,
]
"""A line of a sheet, with its fields in the line's order."""

RECORD_WORDS = 9
"""Words of a record in a list: the letter of its kind as a number, and eight fields."""

STANDARD = 2**64 - 1
"""The word of `-`, the standard value of the code."""

_KINDS = {
    ord("P"): Process,
    ord("S"): SourceStream,
    ord("H"): MeasurableHeat,
    ord("W"): WasteGas,
    ord("E"): Electricity,
    ord("B"): BoughtPrecursor,
    ord("G"): OwnGood,
    ord("K"): PrecursorFigures,
    ord("N"): PrecursorUse,
}
_LETTERS = {kind: letter for letter, kind in _KINDS.items()}
_NAMES = {kind: [field.name for field in fields(kind)] for kind in _LETTERS}

# A sheet has at most so many bytes and lines.
_MOST_BYTES = 65536
_MOST_LINES = 4096


def _load() -> ctypes.CDLL:
    built = Path(__file__).resolve().parents[2] / "target" / "callers" / "libwiltoresh.so"
    path = os.environ.get("WILTORESH_LIBRARY", str(built))
    if not os.path.isfile(path):
        raise ImportError(f"{path} is missing: callers/run builds it, or name another in WILTORESH_LIBRARY")
    library = ctypes.CDLL(path)
    size = ctypes.c_size_t
    place = ctypes.POINTER(size)
    library.wiltoresh_report.argtypes = [ctypes.c_char_p, size, ctypes.c_void_p, size, place, place]
    library.wiltoresh_report.restype = ctypes.c_uint64
    library.wiltoresh_line.argtypes = [ctypes.c_char_p, size, size, place]
    library.wiltoresh_line.restype = size
    library.wiltoresh_longest.argtypes = []
    library.wiltoresh_longest.restype = size
    library.wiltoresh_write.argtypes = [ctypes.c_void_p, size, ctypes.c_void_p, size, place, place]
    library.wiltoresh_write.restype = ctypes.c_uint64
    library.wiltoresh_read.argtypes = [ctypes.c_char_p, size, ctypes.c_void_p, size, place, place]
    library.wiltoresh_read.restype = ctypes.c_uint64
    return library


_library = _load()


def _expect(value: object, kind: type, name: str) -> None:
    # ctypes would take some other values, as an address.
    if not isinstance(value, kind):
        raise TypeError(f"{name} must be {kind.__name__}, not {type(value).__name__}")


def _expect_numbers(value: object, name: str) -> None:
    _expect(value, array, name)
    if value.typecode != "Q":
        raise TypeError(f"{name} must be an array of the type code 'Q', not {value.typecode!r}")


def report(sheet: bytes) -> bytes:
    """The report of the sheet. Raises Refusal for a refused sheet, never with number 16.

    >>> report(b"P,1,5\\nW,1,2,9\\n")
    Traceback (most recent call last):
        ...
    wiltoresh.Refusal: refused by 9 at line 2: process without a P line above it
    """
    space = bytearray(longest())
    answer = report_into(sheet, space)
    if answer.number:
        raise Refusal(answer.number, answer.line, sheet[line_place(sheet, answer.line)])
    return bytes(space[: answer.length])


def report_into(sheet: bytes, space: bytearray) -> Answer:
    """The whole job in a lent space: the report of an accepted sheet stands at the start of the space.

    Every byte past the report is as it was. For a refusal, 16 (the space is too short) included, every byte of the
    space is as it was. A space of longest() bytes is never refused by 16. No other thread may use the space meanwhile.

    >>> report_into(b"P,1,5\\n", bytearray(39))
    Answer(number=16, line=0, length=0)
    >>> report_into(b"P,1,5\\n", bytearray(40))
    Answer(number=0, line=0, length=40)
    """
    _expect(sheet, bytes, "sheet")
    _expect(space, bytearray, "space")
    line = ctypes.c_size_t()
    length = ctypes.c_size_t()
    # As long as this array of ctypes lives, the space cannot change its length.
    lent = (ctypes.c_char * len(space)).from_buffer(space)
    number = _library.wiltoresh_report(
        sheet, len(sheet), ctypes.addressof(lent), len(space), ctypes.byref(line), ctypes.byref(length)
    )
    return Answer(number, line.value, length.value)


def line_place(sheet: bytes, line: int) -> slice:
    """The place of a line in the sheet, without its LF, as a slice to take of the sheet.

    The first line is 1; bytes after the last LF count as a line. Line 0 has the empty place at the sheet's start, and a
    line past the last one the empty place at its end.

    >>> line_place(b"P,1,5\\nW,1,2,9\\n", 2)
    slice(6, 13, None)
    """
    _expect(sheet, bytes, "sheet")
    _expect(line, int, "line")
    if line < 0:
        raise ValueError("line must not be negative")
    start = ctypes.c_size_t()
    # A sheet has at most as many lines as bytes; a greater number would be cut down by ctypes to 64 bits.
    length = _library.wiltoresh_line(sheet, len(sheet), min(line, len(sheet) + 1), ctypes.byref(start))
    return slice(start.value, start.value + length)


def longest() -> int:
    """No report has more bytes: report_into never refuses a space of so many bytes by 16."""
    return _library.wiltoresh_longest()


def write(records: Iterable[Record]) -> bytes:
    """The sheet of the records, a line for each in order. Raises the Refusal that report would raise for it.

    The k-th record is line k: the offending one is records[refusal.line - 1], if the line is not 0. The number is never
    3, 4, 5 or 16.

    Raises TypeError for what is no record, and for a field that is no int; None may be in a and b of SourceStream.
    Raises ValueError for a number below 0 or above 2^64 - 2, which no word of a record can be.

    >>> write([Process(1, 1000), SourceStream(1, 1, 16, 1000, None, None, 10000, 0)])
    b'P,1,1000\\nS,1,1,16,1000,-,-,10000,0\\n'
    >>> write([Process(1, 5), WasteGas(1, 2, 9)])
    Traceback (most recent call last):
        ...
    wiltoresh.Refusal: refused by 9 at line 2: process without a P line above it
    """
    words = array("Q")
    for place, record in enumerate(records, start=1):
        words.extend(_words(record, place))
    space = bytearray(_MOST_BYTES)
    answer = write_into(words, space)
    if answer.number:
        raise Refusal(answer.number, answer.line, b"")
    return bytes(space[: answer.length])


def read(sheet: bytes) -> list[Record]:
    """The records of the sheet, one for each line in order. Raises the Refusal that report raises for it, never 16.

    >>> read(b"P,1,1000\\nG,1,2,300\\n")
    Traceback (most recent call last):
        ...
    wiltoresh.Refusal: refused by 9 at line 2: process without a P line above it
    >>> read(b"P,1,1000\\n")
    [Process(number=1, output=1000)]
    """
    _expect(sheet, bytes, "sheet")
    lines = min(sheet.count(b"\n"), _MOST_LINES)
    words = array("Q", bytes(8 * RECORD_WORDS * lines))
    counted = read_into(sheet, words)
    if counted.number:
        raise Refusal(counted.number, counted.line, sheet[line_place(sheet, counted.line)])
    return [_record(words[RECORD_WORDS * k : RECORD_WORDS * (k + 1)]) for k in range(counted.count)]


def write_into(records: array, space: bytearray) -> Answer:
    """Writes the sheet of a list of records, nine words each, at the start of a lent space.

    The list is an array of the type code "Q". The words of a record are the letter of its kind as a number, then its
    fields in the line's order; STANDARD is `-`, and spare words are 0. Every list may be given, and is judged as the
    sheet that it spells. A first word that is no letter of a kind spells an empty line, which is refused by 4. Where a
    spare word is not 0, all words behind the letter are fields, which is refused by 5. Where the list's length is no
    multiple of nine, the last record has the words that are there.

    Every byte past the sheet is as it was. For a refusal, 16 (the space is too short for the sheet) included, every
    byte of the space is as it was. A space of 65,536 bytes is never refused by 16. No other thread may use the space
    meanwhile, nor write to the list.

    >>> write_into(array("Q", [80, 1, 5, 0, 0, 0, 0, 0, 0]), bytearray(6))
    Answer(number=0, line=0, length=6)
    >>> write_into(array("Q", [80, 1, 5, 0, 0, 0, 0, 0, 0]), bytearray(5))
    Answer(number=16, line=0, length=0)
    """
    _expect_numbers(records, "records")
    _expect(space, bytearray, "space")
    line = ctypes.c_size_t()
    length = ctypes.c_size_t()
    given = (ctypes.c_uint64 * len(records)).from_buffer(records)
    lent = (ctypes.c_char * len(space)).from_buffer(space)
    number = _library.wiltoresh_write(
        ctypes.addressof(given),
        len(records),
        ctypes.addressof(lent),
        len(space),
        ctypes.byref(line),
        ctypes.byref(length),
    )
    return Answer(number, line.value, length.value)


def read_into(sheet: bytes, records: array) -> Counted:
    """Reads the records of a sheet, nine words each, into the start of a lent list.

    The list is an array of the type code "Q"; the words are those that write_into takes. Every number past the records
    is as it was. For a refusal, 16 (the list is shorter than nine numbers for each line) included, every number of the
    list is as it was. A list of 36,864 numbers is never refused by 16. No other thread may use the list meanwhile.

    >>> words = array("Q", [7] * 10)
    >>> read_into(b"P,1,5\\n", words)
    Counted(number=0, line=0, count=1)
    >>> words.tolist()
    [80, 1, 5, 0, 0, 0, 0, 0, 0, 7]
    """
    _expect(sheet, bytes, "sheet")
    _expect_numbers(records, "records")
    line = ctypes.c_size_t()
    count = ctypes.c_size_t()
    lent = (ctypes.c_uint64 * len(records)).from_buffer(records)
    number = _library.wiltoresh_read(
        sheet, len(sheet), ctypes.addressof(lent), len(records), ctypes.byref(line), ctypes.byref(count)
    )
    return Counted(number, line.value, count.value)


def _words(record: Record, place: int) -> list[int]:
    kind = type(record)
    if kind not in _LETTERS:
        raise TypeError(f"record {place} must be of a kind of record, not {kind.__name__}")
    words = [_LETTERS[kind]]
    for name in _NAMES[kind]:
        words.append(_word(getattr(record, name), name, place))
    return words + [0] * (RECORD_WORDS - len(words))


def _word(value: Optional[int], name: str, place: int) -> int:
    # Only a source stream has fields of these names.
    if value is None and name in ("a", "b"):
        return STANDARD
    _expect(value, int, f"{name} of record {place}")
    if not 0 <= value < STANDARD:
        raise ValueError(f"{name} of record {place} must be from 0 to 2^64 - 2, not {value}")
    return value


def _record(words: array) -> Record:
    kind = _KINDS[words[0]]
    # The words of an accepted sheet: `-` stands only where it may.
    values = words[1 : 1 + len(_NAMES[kind])]
    return kind(*(None if value == STANDARD else value for value in values))
