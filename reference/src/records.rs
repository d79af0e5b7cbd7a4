//! Records: the lines of a sheet as numbers, nine words a record, in the order
//! of the lines. The first word is the letter of the kind (80 for `P`), then
//! come its fields as the line has them; `-` is 2^64 − 1 and spare words are 0.
//!
//! "Add a writer that takes the records of one sheet, in order, and writes its
//! lines in the sheet format": `write_sheet`. "Reading the written sheet brings
//! the same records": `read_sheet`.

use crate::reckoning::{Both, Works};
use crate::refusals::{Fault, Refusal, judge};
use crate::sheet::{Field, Fields, Kind, MOST_BYTES, MOST_FIELDS, MOST_LINES};
use crate::{on_no_line, read_and_show};

/// Words of a record: the letter, and the fields of the longest kind.
pub const RECORD_WORDS: usize = 1 + MOST_FIELDS;

/// The word of `-`, 2^64 − 1.
pub const DASH: u64 = Field::DASH.word();

/// The answer to a list of records. Number and line are 0 where the sheet was
/// written; a refusal has length 0.
#[derive(Clone, Copy, Debug, PartialEq, Eq)]
pub struct Written {
    pub number: u32,
    pub line: u32,
    pub length: usize,
}

/// The answer to a sheet whose records are asked for. Number and line are 0
/// where they were had; a refusal has count 0.
#[derive(Clone, Copy, Debug, PartialEq, Eq)]
pub struct Read {
    pub number: u32,
    pub line: u32,
    pub count: usize,
}

/// Writes the sheet of the records at the start of the space. "Bytes past the
/// sheet stay, and on any refusal all do."
pub fn write_sheet(records: &[u64], space: &mut [u8]) -> Written {
    let (number, line, length) = answer(sheet_into(records, space));
    Written {
        number,
        line,
        length,
    }
}

/// Puts the records of the sheet at the start of the list. Numbers past them
/// stay, and on any refusal all do.
pub fn read_sheet(sheet: &[u8], list: &mut [u64]) -> Read {
    let (number, line, count) = answer(records_into(sheet, list));
    Read {
        number,
        line,
        count,
    }
}

fn answer(outcome: Result<usize, Refusal>) -> (u32, u32, usize) {
    match outcome {
        Ok(size) => (0, 0, size),
        Err(refusal) => (refusal.fault as u32, refusal.line, 0),
    }
}

/// "1 and 14 come before any line, 15 and then 16 after all", and 18 before 15;
/// the space is touched when all of them have been passed.
fn sheet_into(records: &[u64], space: &mut [u8]) -> Result<usize, Refusal> {
    let pen = spell(records).ok_or(on_no_line(Fault::TooManyBytes))?;
    let sheet = pen.sheet();
    if sheet.is_empty() {
        return Err(on_no_line(Fault::EmptySheet));
    }
    let mut works = Works::default();
    enter(records, &mut works)?;
    works.settle(Both::portion)?;
    let place = space.get_mut(..sheet.len());
    let place = place.ok_or(on_no_line(Fault::SpaceTooShort))?;
    place.copy_from_slice(sheet);
    Ok(sheet.len())
}

/// The same for a sheet, whose records are kept apart until nothing more can be
/// refused.
fn records_into(sheet: &[u8], list: &mut [u64]) -> Result<usize, Refusal> {
    let mut works = Works::default();
    let mut records = Vec::new();
    read_and_show(sheet, &mut works, |letter, fields| {
        records.push(record_of(letter, fields));
    })?;
    works.settle(Both::portion)?;
    let words = records.as_flattened();
    let place = list.get_mut(..words.len());
    let place = place.ok_or(on_no_line(Fault::SpaceTooShort))?;
    place.copy_from_slice(words);
    Ok(records.len())
}

/// The record of a line that has passed, so that it has no more fields than a
/// record has words for.
#[inline]
fn record_of(letter: u8, fields: &[Field]) -> [u64; RECORD_WORDS] {
    let mut record = [0; RECORD_WORDS];
    record[0] = u64::from(letter);
    for (word, field) in record[1..].iter_mut().zip(fields) {
        *word = field.word();
    }
    record
}

/// "Records whose sheet would be refused, by its lines or after them and report
/// space aside, get the same number and line, the k-th record being line k."
fn enter(records: &[u64], works: &mut Works) -> Result<(), Refusal> {
    let mut fields = [Field::OTHER; MOST_FIELDS];
    for (record, number) in records.chunks(RECORD_WORDS).zip(1..) {
        take_record(record, number, &mut fields, works).map_err(|fault| Refusal {
            fault,
            line: number,
        })?;
    }
    Ok(())
}

/// Enters the record, as a line that was read is entered. What `fields` holds
/// before is of no account.
#[inline]
fn take_record(
    record: &[u64],
    number: u32,
    fields: &mut Fields,
    works: &mut Works,
) -> Result<(), Fault> {
    if number > MOST_LINES {
        return Err(Fault::TooManyLines);
    }
    let (kind, words) = parts(record).ok_or(Fault::UnknownKind)?;
    for (field, word) in fields.iter_mut().zip(words) {
        *field = Field::of_word(*word);
    }
    works.enter(judge(kind, words.len(), fields, works)?, number);
    Ok(())
}

/// The kind of a record and the words of its fields; none where the first word
/// is no letter of a kind, which spells an empty line. The fields are as many
/// as the kind has, but no word is dropped in silence: where a further one is
/// not 0 all are fields. A last record has no more words than there are.
#[inline]
fn parts(record: &[u64]) -> Option<(Kind, &[u64])> {
    let (letter, words) = record.split_first()?;
    let kind = Kind::of(u8::try_from(*letter).ok()?)?;
    let fields = match words.split_at_checked(kind.field_count()) {
        Some((fields, spare)) if spare.iter().all(|word| *word == 0) => fields,
        _ => words,
    };
    Some((kind, fields))
}

/// A line has at most its letter, its LF and eight fields, each with a comma
/// and the 20 digits of the largest word.
const MOST_LINE_BYTES: usize = 2 + MOST_FIELDS * 21;

/// The sheet of the records, if it has no more bytes than one may have. It is
/// spelt from its last byte to its first, as the digits of a number come.
/// Before each record there is room for any line, and a list of any length soon
/// ends, since a record spells at least its LF.
fn spell(records: &[u64]) -> Option<Pen> {
    let lines = records.len().div_ceil(RECORD_WORDS);
    let room = lines.saturating_mul(MOST_LINE_BYTES);
    let mut pen = Pen::new(room.min(MOST_LINE_BYTES + MOST_BYTES));
    for record in records.chunks(RECORD_WORDS).rev() {
        pen.line(record);
        if pen.sheet().len() > MOST_BYTES {
            return None;
        }
    }
    Some(pen)
}

/// Writes in front of what it has written, which begins at `at`.
struct Pen {
    buffer: Vec<u8>,
    at: usize,
}

impl Pen {
    fn new(room: usize) -> Pen {
        Pen {
            buffer: vec![0; room],
            at: room,
        }
    }

    fn sheet(&self) -> &[u8] {
        &self.buffer[self.at..]
    }

    /// "Each line ends in LF; fields stand in a fixed order parted by commas, no
    /// quoting." An empty line is its LF alone.
    #[inline]
    fn line(&mut self, record: &[u64]) {
        self.byte(b'\n');
        if let Some((_, fields)) = parts(record) {
            for word in fields.iter().rev() {
                match *word {
                    DASH => self.byte(b'-'),
                    value => self.number(value),
                }
                self.byte(b',');
            }
            self.byte(record[0] as u8);
        }
    }

    /// Decimal digits, two by two from the last, "with no leading zero except
    /// `0` itself".
    #[inline]
    fn number(&mut self, mut value: u64) {
        while value >= 100 {
            self.pair(value % 100);
            value /= 100;
        }
        if value >= 10 {
            self.pair(value);
        } else {
            self.byte(b'0' + value as u8);
        }
    }

    /// Both digits of a number below 100.
    #[inline]
    fn pair(&mut self, value: u64) {
        self.at -= 2;
        self.buffer[self.at..self.at + 2].copy_from_slice(&PAIRS[value as usize]);
    }

    #[inline]
    fn byte(&mut self, byte: u8) {
        self.at -= 1;
        self.buffer[self.at] = byte;
    }
}

/// The digits `00` to `99`.
const PAIRS: [[u8; 2]; 100] = {
    let mut pairs = [[b'0'; 2]; 100];
    let mut value = 0;
    while value < 100 {
        pairs[value] = [b'0' + value as u8 / 10, b'0' + value as u8 % 10];
        value += 1;
    }
    pairs
};
