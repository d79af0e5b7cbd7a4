//! The sheets that are timed. They are the same at every run.

use std::io::Write;

use reference::samples::{Dice, KILOS, Maker, Size, pad};
use reference::sheet::{MOST_BYTES, MOST_LINES};

use crate::SPACE;

const SEED: u64 = 65_536;

/// What is given, what is told of it, and the number and line it is answered
/// with.
pub struct Case<G> {
    /// One word, by which `one_case` takes it.
    pub name: String,
    pub told: String,
    /// A sheet, or the words of its records.
    pub given: Vec<G>,
    /// Bytes of the sheet.
    pub bytes: usize,
    /// How many bytes or numbers are lent.
    pub lent: usize,
    pub number: u64,
    pub line: usize,
}

impl Case<u8> {
    fn accepted(name: &str, told: &str, sheet: Vec<u8>) -> Case<u8> {
        Case::refused(name, told, sheet, 0, 0)
    }

    fn refused(name: &str, told: &str, sheet: Vec<u8>, number: u64, line: usize) -> Case<u8> {
        Case {
            name: name.into(),
            told: told.into(),
            bytes: sheet.len(),
            given: sheet,
            lent: SPACE,
            number,
            line,
        }
    }
}

/// All cases but those of growth.
pub fn cases() -> Vec<Case<u8>> {
    vec![
        Case::accepted("full", "full sheet of mixed lines", mixed(MOST_BYTES)),
        Case::accepted("streams", "full sheet of source streams", streams()),
        Case::accepted("short", "4,096 short lines", short_lines()),
        Case::accepted("goods", "16 processes, all 120 pairs", all_pairs()),
        Case::accepted("no-goods", "16 processes, no goods", no_goods()),
        Case::accepted("uses", "full sheet of N lines", uses()),
        Case::accepted("tiny", "example of document 01", EXAMPLE.into()),
        refused_last(),
        refused_first(),
    ]
}

/// Sheets of mixed lines of document 01's kinds, 1 to 64 KiB.
pub fn growth() -> Vec<Case<u8>> {
    (0..7)
        .map(|doubled| {
            let kib = 1 << doubled;
            let name = format!("{kib}KiB");
            Case::accepted(
                &name,
                &format!("mixed lines, {kib} KiB"),
                mixed(kib * 1_024),
            )
        })
        .collect()
}

pub const EXAMPLE: &str = "P,1,1000\nP,2,400\nS,1,1,16,1000,-,-,10000,0\nH,1,2,10000,56100\n\
E,0,2,500,400000\nB,2,100,1900000,250000\nG,1,2,300\n";

/// A sheet of 16 processes and mixed lines of document 01's kinds, of exactly so
/// many bytes.
pub fn mixed(length: usize) -> Vec<u8> {
    let mut dice = Dice::new(SEED);
    let mut maker = Maker::new(&mut dice, 16, Size::Mixed);
    while maker.sheet.len() + 160 < length {
        maker.line_of_document_01(&mut dice);
    }
    pad(&mut maker.sheet, length);
    maker.sheet
}

/// A full sheet of 16 processes, a K line for each of 255 precursors at any rank,
/// and N lines; a few lines of waste gas fill it up.
fn uses() -> Vec<u8> {
    let mut dice = Dice::new(SEED);
    let mut sheet = Maker::new(&mut dice, 16, Size::Mixed).sheet;
    for precursor in 1..=255 {
        let rank = dice.between(1, 3);
        let direct = Size::Mixed.number(&mut dice, 0, 100_000_000);
        let indirect = Size::Mixed.number(&mut dice, 0, 100_000_000);
        writeln!(sheet, "K,{precursor},{rank},{direct},{indirect}").unwrap();
    }
    while sheet.len() + 60 < MOST_BYTES {
        let n = dice.between(1, 16);
        let precursor = dice.between(1, 255);
        let kg = dice.between(1, KILOS);
        writeln!(sheet, "N,{n},{precursor},{kg}").unwrap();
    }
    pad(&mut sheet, MOST_BYTES);
    sheet
}

/// A full sheet of 16 processes and source streams of all methods; a few lines
/// of waste gas fill it up.
fn streams() -> Vec<u8> {
    let mut dice = Dice::new(SEED);
    let mut maker = Maker::new(&mut dice, 16, Size::Mixed);
    while maker.sheet.len() + 80 < MOST_BYTES {
        maker.stream(&mut dice);
    }
    pad(&mut maker.sheet, MOST_BYTES);
    maker.sheet
}

/// As many lines as a sheet may have, each of 6 to 10 bytes.
pub fn short_lines() -> Vec<u8> {
    let lines = ["H,0,1,9,7", "W,1,0,9", "E,0,1,9,7", "B,1,9,7,5", "W,0,1,9"];
    let mut sheet = b"P,1,9\n".to_vec();
    for line in lines.iter().cycle().take(MOST_LINES as usize - 1) {
        writeln!(sheet, "{line}").unwrap();
    }
    sheet
}

/// 16 processes with heat, power and a bought precursor each.
fn no_goods() -> Vec<u8> {
    let mut sheet = Vec::new();
    for n in 1..=16 {
        writeln!(sheet, "P,{n},{KILOS}").unwrap();
    }
    for n in 1..=16 {
        writeln!(sheet, "H,0,{n},{n}0000000000,56100").unwrap();
        writeln!(sheet, "E,0,{n},{n}000000000,400000").unwrap();
        writeln!(sheet, "B,{n},{n}0000000,1900000,250000").unwrap();
    }
    sheet
}

/// The same, and a G line for every pair.
fn all_pairs() -> Vec<u8> {
    let mut sheet = no_goods();
    for from in 1..16 {
        for to in from + 1..=16 {
            writeln!(sheet, "G,{from},{to},{}", 600_000_000 + from * 1_000 + to).unwrap();
        }
    }
    sheet
}

/// A full sheet whose last line has two equal ends.
pub fn refused_last() -> Case<u8> {
    let last = "W,1,1,999\n";
    let mut sheet = mixed(MOST_BYTES - last.len());
    sheet.extend(last.bytes());
    let line = sheet.iter().filter(|byte| **byte == b'\n').count();
    Case::refused(
        "refused-last",
        "full sheet, last line refused",
        sheet,
        10,
        line,
    )
}

/// A full sheet whose first line is of no kind.
fn refused_first() -> Case<u8> {
    let mut sheet = mixed(MOST_BYTES);
    sheet[0] = b'Q';
    Case::refused("refused-first", "full sheet, line 1 refused", sheet, 4, 1)
}
