//! A sheet judged by both implementations.

use std::ops::Range;

use reference::samples::Dice;
use wiltoresh::Answer;

/// Bytes of known value that stand before and behind a space.
const MARGIN: usize = 64;

/// What is found to differ, told for a person.
pub struct Difference(pub String);

/// Judges the sheet with both, with a space of known bytes, and compares the
/// answers, every byte of the space and around it, and the line's place.
/// Gives the answer's number.
pub fn compare(sheet: &[u8], dice: &mut Dice) -> Result<u64, Difference> {
    let length = space_length(sheet, dice);
    let before = known_bytes(dice, length + 2 * MARGIN);
    let mut proved_space = before.clone();
    let mut plain_space = before;
    let within = MARGIN..MARGIN + length;
    let proved = wiltoresh::report_into(sheet, &mut proved_space[within.clone()]);
    let plain = plain(sheet, &mut plain_space[within]);
    if proved != plain {
        return differ(length, "answers", proved, plain);
    }
    if proved_space != plain_space {
        let at = first_difference(&proved_space, &plain_space);
        let what = format!("spaces, first at byte {}", at as i64 - MARGIN as i64);
        return differ(length, &what, proved, plain);
    }
    if proved.number == 16 && length >= wiltoresh::longest() {
        return differ(length, "the longest report is longer", proved, plain);
    }
    for line in [plain.line, any_line(sheet, dice)] {
        let place = place(sheet, line);
        let had = wiltoresh::line_place(sheet, line);
        if had != place {
            let what = format!("line {line} had at {had:?} for {place:?}");
            return differ(length, &what, proved, plain);
        }
    }
    Ok(proved.number)
}

fn differ(length: usize, what: &str, proved: Answer, plain: Answer) -> Result<u64, Difference> {
    Err(Difference(format!(
        "a space of {length} bytes: {what}\nproved: {proved:?}\nplain:  {plain:?}"
    )))
}

/// How many elements at the start are the same.
pub fn first_difference<T: PartialEq>(one: &[T], other: &[T]) -> usize {
    let pairs = one.iter().zip(other);
    pairs.take_while(|(one, other)| one == other).count()
}

fn plain(sheet: &[u8], space: &mut [u8]) -> Answer {
    let answer = reference::report_into(sheet, space);
    Answer {
        number: u64::from(answer.number),
        line: answer.line as usize,
        length: answer.length,
    }
}

/// A space for any report, for just this one, for one byte less, none, or any.
fn space_length(sheet: &[u8], dice: &mut Dice) -> usize {
    let longest = wiltoresh::longest();
    let exact = |less| match reference::report(sheet) {
        Ok(report) => report.len() - less,
        Err(_) => 10,
    };
    match dice.below(10) {
        0..4 => longest,
        4 | 5 => exact(0),
        6 => exact(1),
        7 => 0,
        8 => dice.index(200),
        _ => dice.index(longest + 100),
    }
}

pub fn known_bytes(dice: &mut Dice, length: usize) -> Vec<u8> {
    let words = (0..length.div_ceil(8)).flat_map(|_| dice.roll().to_le_bytes());
    words.take(length).collect()
}

/// The number of a line of the sheet, or of one just past it or far past it.
fn any_line(sheet: &[u8], dice: &mut Dice) -> usize {
    let lines = sheet.iter().filter(|byte| **byte == b'\n').count();
    match dice.below(16) {
        0 => u32::MAX as usize,
        _ => dice.index(lines + 3),
    }
}

/// The line's place by the plain implementation: the sheet's start for line
/// 0, its end past the last line.
fn place(sheet: &[u8], line: usize) -> Range<usize> {
    let text = reference::line_at(sheet, line as u32);
    let above = sheet.split_inclusive(|byte| *byte == b'\n');
    let start = above.take(line.saturating_sub(1)).map(<[u8]>::len).sum();
    start..start + text.len()
}
