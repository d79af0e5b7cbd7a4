//! Sheets at and over the limits of bytes and lines, and random bytes.

use std::io::Write;

use reference::samples::{Dice, KILOS, Size, every_figure, full_sheet, pad};
use reference::sheet::{MOST_BYTES, MOST_LINES};

use crate::limits::beside_any;
use crate::slips::slip;
use crate::valid::{process_count, size};

/// A sheet near the limits of bytes or lines.
pub fn large(dice: &mut Dice) -> Vec<u8> {
    match dice.below(10) {
        0 => full(dice),
        1 => {
            let mut sheet = full(dice);
            slip(dice, &mut sheet);
            sheet
        }
        2..5 => many_lines(dice),
        5 => highest(dice),
        6 => long_field(dice),
        7 | 8 => many_figures(dice),
        _ => {
            let length = near(dice, MOST_BYTES);
            random(dice, length)
        }
    }
}

/// The number itself, or one to three above or below it.
fn near(dice: &mut Dice, number: usize) -> usize {
    match dice.below(4) {
        0 | 1 => number,
        2 => number + 1,
        _ => number - 3 + dice.index(7),
    }
}

/// Mixed lines up to the limit of bytes.
fn full(dice: &mut Dice) -> Vec<u8> {
    let length = near(dice, MOST_BYTES);
    let count = process_count(dice);
    let size = size(dice);
    full_sheet(dice, count, size, length)
}

/// Short lines up to the limit of lines; what comes last may be anything.
fn many_lines(dice: &mut Dice) -> Vec<u8> {
    let mut sheet = b"P,1,1\nP,2,3\n".to_vec();
    let lines = near(dice, MOST_LINES as usize);
    for _ in 2..lines {
        let n = dice.between(1, 2);
        let few = dice.between(1, 9);
        match dice.below(4) {
            0 => writeln!(sheet, "W,1,2,{few}").unwrap(),
            1 => writeln!(sheet, "W,{n},0,{few}").unwrap(),
            2 => writeln!(sheet, "H,0,{n},{few},{few}").unwrap(),
            _ => writeln!(sheet, "E,{n},{n},{few},{few}").unwrap(),
        }
    }
    match dice.below(8) {
        0 => drop(sheet.pop()),
        1 => sheet.push(b'\n'),
        2 => sheet.extend(beside_any(dice).bytes()),
        3 => slip(dice, &mut sheet),
        _ => {}
    }
    sheet
}

/// Figures of every precursor at each rank, or at some, and uses of any, in any
/// order; one in four has no uses, and one in four a K line more.
fn many_figures(dice: &mut Dice) -> Vec<u8> {
    let size = size(dice);
    let mut lines = every_figure(dice, size);
    if dice.once_in(3) {
        lines.truncate(dice.between(100, 764) as usize);
    }
    if dice.once_in(4) {
        let again = lines[dice.index(lines.len())].clone();
        lines.push(again);
    }
    let uses = match dice.below(4) {
        0 => 0,
        1 => near(dice, MOST_LINES as usize - 1).saturating_sub(lines.len()),
        _ => dice.between(1, 600) as usize,
    };
    let most = dice.pick(&[99, 99, KILOS]);
    for _ in 0..uses {
        let kg = dice.between(1, most);
        lines.push(format!("N,1,{},{kg}\n", dice.between(1, 255)));
    }
    dice.shuffle(&mut lines);
    let processes = if uses == 0 { "" } else { "P,1,7\n" };
    (processes.to_owned() + &lines.concat()).into_bytes()
}

/// Bought precursors of the highest figures: no lines weigh more.
fn highest(dice: &mut Dice) -> Vec<u8> {
    let mut sheet = Vec::new();
    let count = dice.between(1, 16);
    for n in 1..=count {
        let output = Size::Highest.number(dice, 1, 10_000_000_000);
        writeln!(sheet, "P,{n},{output}").unwrap();
    }
    for to in 2..=count {
        writeln!(sheet, "G,1,{to},{}", dice.between(1, 600_000_000)).unwrap();
    }
    writeln!(sheet, "K,255,1,100000000,100000000").unwrap();
    let letter = dice.pick(&["B", "N", "BN"]);
    while sheet.len() + 60 < MOST_BYTES {
        let n = dice.between(1, count);
        match dice.pick(letter.as_bytes()) {
            b'B' => writeln!(sheet, "B,{n},10000000000,100000000,100000000"),
            _ => writeln!(sheet, "N,{n},255,10000000000"),
        }
        .unwrap();
    }
    pad(&mut sheet, MOST_BYTES);
    sheet
}

/// One field of very many digits, commas or other bytes.
fn long_field(dice: &mut Dice) -> Vec<u8> {
    let mut sheet = b"P,1,5\nW,0,1,1".to_vec();
    let byte = dice.pick(b"0019,-x");
    let length = near(dice, MOST_BYTES);
    sheet.resize(length - 8, byte);
    sheet.extend(dice.pick(&[&b"\nW,1,0,9"[..], b",1,1,1,\n", b"01,7,1,1"]));
    sheet
}

/// Random bytes of any value, or of the sheet's alphabet.
pub fn random(dice: &mut Dice, length: usize) -> Vec<u8> {
    let alphabet: &[u8] = match dice.below(4) {
        0 => return (0..length).map(|_| dice.roll() as u8).collect(),
        1 => b"PSHWEBGKN0123456789,-\n",
        2 => b"PSHWEBGKN0123456789,,,,,,,,,,\n\n\n-",
        _ => b"PW0112,,,\n",
    };
    let mut sheet: Vec<u8> = match dice.below(2) {
        0 => Vec::new(),
        _ => b"P,1,5\nP,2,9\n".to_vec(),
    };
    sheet.extend((0..length).map(|_| dice.pick(alphabet)));
    sheet
}
