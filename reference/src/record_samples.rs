//! Made-up lists of records, for the tests and for a comparison with another
//! implementation. All of it follows from the dice; no clock is asked.

use crate::records::{DASH, RECORD_WORDS};
use crate::samples::{Dice, KILOS, KILOWATT_HOURS, MEGAJOULES, Size, full_sheet, mixed_sheet};
use crate::sheet::{Kind, MOST_BYTES, MOST_LINES};

const LETTERS: &[u8; 9] = b"PSHWEBGKN";

/// Numbers at which ranges, spellings and words end.
const LIMITS: [u64; 22] = [
    0,
    1,
    3,
    4,
    9,
    16,
    255,
    10_000,
    200_000,
    400_000,
    1_000_000,
    2_000_000,
    4_000_000,
    100_000_000,
    KILOS,
    KILOWATT_HOURS,
    MEGAJOULES,
    1 << 32,
    1 << 63,
    10_000_000_000_000_000_000,
    DASH - 2,
    DASH - 1,
];

/// How a list of records is made.
#[derive(Clone, Copy, Debug, PartialEq, Eq)]
pub enum Way {
    /// The records of a good sheet.
    Valid,
    /// Of a good sheet, a few words changed.
    Slipped,
    /// Of a good sheet, a record put in that one of the later checks may refuse.
    Planted,
    /// Of a good sheet, a spare word or two not 0.
    Spare,
    /// Of a good sheet, words lacking or too many at the end.
    Odd,
    /// Of a good sheet, numbers of up to 20 digits in many fields.
    Huge,
    /// Of a good sheet, a record moved, doubled or left out.
    Moved,
    /// Words that never were of a sheet, few of them.
    Wild,
    /// Lists near the limits of bytes and lines. These are long.
    Full,
}

impl Way {
    /// Every way, that of long lists last.
    pub const ALL: [Way; 9] = [
        Way::Valid,
        Way::Slipped,
        Way::Planted,
        Way::Spare,
        Way::Odd,
        Way::Huge,
        Way::Moved,
        Way::Wild,
        Way::Full,
    ];
}

/// A list of records made in this way.
pub fn record_list(dice: &mut Dice, way: Way) -> Vec<u64> {
    let mut list = match way {
        Way::Wild => wild_list(dice),
        Way::Full => full_list(dice),
        _ => good_list(dice),
    };
    match way {
        Way::Valid | Way::Wild | Way::Full => {}
        Way::Slipped => {
            for _ in 0..dice.between(1, 3) {
                slip(dice, &mut list);
            }
        }
        Way::Planted => plant(dice, &mut list),
        Way::Spare => {
            for _ in 0..dice.between(1, 2) {
                spill(dice, &mut list);
            }
        }
        Way::Odd => cut(dice, &mut list),
        Way::Huge => {
            for _ in 0..dice.between(1, 9) {
                let at = shown(dice, &list);
                list[at] = dice.roll() >> dice.below(16);
            }
        }
        Way::Moved => move_record(dice, &mut list),
    }
    list
}

/// The records of a good sheet, parted as text, so that `read_sheet` can be
/// tried by it.
pub fn records_of(sheet: &[u8]) -> Vec<u64> {
    let text = std::str::from_utf8(sheet).unwrap();
    let mut list = Vec::new();
    for line in text.lines() {
        let mut record = [0; RECORD_WORDS];
        for (word, field) in record.iter_mut().zip(line.split(',')) {
            *word = match field {
                "-" => DASH,
                _ if field.as_bytes()[0].is_ascii_alphabetic() => field.as_bytes()[0].into(),
                _ => field.parse().unwrap(),
            };
        }
        list.extend(record);
    }
    list
}

fn good_list(dice: &mut Dice) -> Vec<u64> {
    let size = dice.pick(&[Size::Small, Size::Mixed, Size::Mixed, Size::Highest]);
    let processes = match dice.below(8) {
        0 => 16,
        _ => dice.between(1, 5) as usize,
    };
    let lines = dice.index(12);
    records_of(&mixed_sheet(dice, processes, lines, size))
}

/// Where a word is that the line of a record shows.
fn shown(dice: &mut Dice, list: &[u64]) -> usize {
    let letter = dice.index(list.len() / RECORD_WORDS) * RECORD_WORDS;
    let fields = Kind::of(list[letter] as u8).map_or(0, Kind::field_count);
    letter + dice.index(1 + fields)
}

/// Changes one word, now and then a spare one.
fn slip(dice: &mut Dice, list: &mut [u64]) {
    let at = match dice.below(12) {
        0 => dice.index(list.len()),
        _ => shown(dice, list),
    };
    let word = list[at];
    list[at] = match dice.below(11) {
        0 => word.wrapping_add(1),
        1 => word.wrapping_sub(1),
        2 => word ^ 1 << dice.below(64),
        3 => DASH,
        4 => u64::from(dice.pick(LETTERS)),
        5 => 10u64.pow(dice.below(20) as u32) - dice.below(2),
        6 => dice.below(20),
        7 => dice.below(3),
        8 => list[at.saturating_sub(1)],
        9 => dice.roll(),
        _ => dice.pick(&LIMITS).wrapping_add(dice.below(2)),
    };
}

/// Puts in a record that is refused by 8 to 13, 17 or 18, or by none if the
/// other records are so: an end or a process that is missing, two ends that do
/// not go together, `-` with code 0, a second good of a pair, too much of an
/// output, a second rank of a precursor, a precursor without figures.
fn plant(dice: &mut Dice, list: &mut Vec<u64>) {
    let (from, to) = (dice.below(4), dice.below(4));
    let kg = dice.pick(&[1, 21, KILOS]);
    let (a, b) = dice.pick(&[(DASH, 5), (5, DASH), (DASH, DASH)]);
    let (letter, fields) = match dice.below(9) {
        0 => (b'P', [from, kg, 0, 0, 0, 0, 0, 0]),
        1 => (b'H', [from, to, kg, 5, 0, 0, 0, 0]),
        2 => (b'W', [from, to, kg, 0, 0, 0, 0, 0]),
        3 => (b'E', [from, to, kg, 5, 0, 0, 0, 0]),
        4 => (b'S', [1, 1, 0, kg, a, b, 5, 5]),
        5 => (b'S', [to, 2, dice.below(2), kg, DASH, 0, 5, 5]),
        6 => (b'K', [from, to, 7, 5, 0, 0, 0, 0]),
        7 => (b'N', [1, from, kg, 0, 0, 0, 0, 0]),
        _ => (b'G', [from, to, kg, 0, 0, 0, 0, 0]),
    };
    let record = [u64::from(letter)].into_iter().chain(fields);
    let record: Vec<u64> = record.collect();
    for _ in 0..dice.between(1, 2) {
        let at = dice.between(1, (list.len() / RECORD_WORDS) as u64) as usize * RECORD_WORDS;
        list.splice(at..at, record.iter().copied());
    }
}

/// Changes the last word of a record, or another that most kinds spare.
fn spill(dice: &mut Dice, list: &mut [u64]) {
    let record = dice.index(list.len() / RECORD_WORDS);
    let place = match dice.below(2) {
        0 => RECORD_WORDS - 1,
        _ => dice.between(3, RECORD_WORDS as u64 - 1) as usize,
    };
    list[record * RECORD_WORDS + place] = dice.pick(&[1, 0, 5, DASH, DASH - 1, 1 << 63, 1 << 32]);
}

/// Leaves out words at the end, or adds some.
fn cut(dice: &mut Dice, list: &mut Vec<u64>) {
    match dice.below(4) {
        0 => list.truncate(dice.index(list.len() + 1)),
        1 | 2 => list.truncate(list.len() - dice.index(RECORD_WORDS)),
        _ => {
            // A good record that lacks some words, or all but the letter.
            let record = [u64::from(b'W'), 0, 1, 5, 0, 0, 0, dice.below(2)];
            list.extend(&record[..dice.between(1, 8) as usize]);
        }
    }
}

fn move_record(dice: &mut Dice, list: &mut Vec<u64>) {
    let mut records: Vec<&[u64]> = list.chunks(RECORD_WORDS).collect();
    let from = dice.index(records.len());
    let to = dice.index(records.len());
    match dice.below(3) {
        0 => records.swap(from, to),
        1 => records.insert(to, records[from]),
        _ => drop(records.remove(from)),
    }
    *list = records.concat();
}

fn wild_list(dice: &mut Dice) -> Vec<u64> {
    let length = dice.index(30);
    (0..length)
        .map(|at| match (at % RECORD_WORDS, dice.below(8)) {
            (0, 1..) => u64::from(dice.pick(LETTERS)),
            (_, 0) => dice.roll() >> dice.below(64),
            (_, 1) => dice.pick(&LIMITS),
            (3.., 2..6) => 0,
            _ => dice.below(4),
        })
        .collect()
}

/// Lists whose sheets have about 65,536 bytes or 4,096 lines.
fn full_list(dice: &mut Dice) -> Vec<u64> {
    let size = dice.pick(&[Size::Mixed, Size::Highest]);
    let over = dice.index(3);
    let mut list = match dice.below(8) {
        // Mixed lines, of just the most bytes or a few more.
        0..3 => records_of(&full_sheet(dice, 16, size, MOST_BYTES + over)),
        3..6 => short_records(dice, MOST_LINES as usize - 1 + over),
        // Lines of 20 digits in eight fields; 386 of them are too many bytes.
        6 => [u64::from(b'P')]
            .into_iter()
            .chain([DASH - 1; RECORD_WORDS - 1])
            .cycle()
            .take((384 + over) * RECORD_WORDS)
            .collect(),
        // Empty lines, of one byte each.
        _ => vec![7; (MOST_BYTES - 1 + over) * RECORD_WORDS],
    };
    match dice.below(4) {
        0 => slip(dice, &mut list),
        1 => spill(dice, &mut list),
        _ => {}
    }
    list
}

/// As many good records of one process, with the shortest lines.
fn short_records(dice: &mut Dice, count: usize) -> Vec<u64> {
    let mut list = records_of(b"P,1,1\n");
    for _ in 1..count {
        let mj = dice.between(1, 9);
        list.extend([u64::from(b'W'), 0, 1, mj, 0, 0, 0, 0, 0]);
    }
    list
}
