//! Records written and read by both implementations.

use std::fmt::Debug;

use reference::records::RECORD_WORDS;
use reference::samples::Dice;
use reference::sheet::MOST_BYTES;
use wiltoresh::{Answer, Counted};

use crate::both::{Difference, first_difference, known_bytes};

/// Elements of known value that stand before and behind what is lent.
const MARGIN: usize = 64;

/// Has both write the list, into a space of known bytes, and compares the
/// answers and every byte of the space and around it. What was written is read
/// by both, and then has the words of the list, filled up with 0 to whole
/// records. Gives the writer's number.
pub fn compare_list(list: &[u64], dice: &mut Dice) -> Result<u64, Difference> {
    let length = space_length(list, dice);
    let space = known_bytes(dice, length + 2 * MARGIN);
    let write = |space: &mut [u8]| wiltoresh::write_into(list, space);
    let plain = |space: &mut [u8]| plain_write(list, space);
    let (answer, space) = lent_to_both("writing", space, write, plain)?;
    if answer.number == 0 {
        let sheet = &space[MARGIN..MARGIN + answer.length];
        same_words(list, sheet)?;
        compare_sheet(sheet, dice)?;
    }
    Ok(answer.number)
}

/// Has both read the sheet, into a list of known numbers, and compares the
/// answers and every number of the list and around it. The records of an
/// accepted sheet, written by the proved library, are that sheet again. Gives
/// the reader's number.
pub fn compare_sheet(sheet: &[u8], dice: &mut Dice) -> Result<u64, Difference> {
    let length = list_length(sheet, dice);
    let list = known_numbers(dice, length + 2 * MARGIN);
    let read = |list: &mut [u64]| wiltoresh::read_into(sheet, list);
    let plain = |list: &mut [u64]| plain_read(sheet, list);
    let (answer, list) = lent_to_both("reading", list, read, plain)?;
    if answer.number == 0 {
        let words = answer.count * RECORD_WORDS;
        same_bytes(sheet, &list[MARGIN..MARGIN + words])?;
    }
    Ok(answer.number)
}

/// Lends all but the margins to both, in turn, and compares the answers and
/// what they leave. Gives what both gave.
fn lent_to_both<T: Clone + PartialEq, A: Debug + PartialEq>(
    work: &str,
    before: Vec<T>,
    proved: impl Fn(&mut [T]) -> A,
    plain: impl Fn(&mut [T]) -> A,
) -> Result<(A, Vec<T>), Difference> {
    let length = before.len() - 2 * MARGIN;
    let mut proved_left = before.clone();
    let mut plain_left = before;
    let proved = proved(&mut proved_left[MARGIN..MARGIN + length]);
    let plain = plain(&mut plain_left[MARGIN..MARGIN + length]);
    let what = if proved != plain {
        "answers".into()
    } else if proved_left != plain_left {
        let at = first_difference(&proved_left, &plain_left);
        format!("what they leave, first at {}", at as i64 - MARGIN as i64)
    } else {
        return Ok((proved, proved_left));
    };
    Err(Difference(format!(
        "{work}, {length} lent: {what}\nproved: {proved:?}\nplain:  {plain:?}"
    )))
}

/// The proved library reads these words, filled up with 0 to whole records,
/// from the sheet that it wrote of them.
fn same_words(list: &[u64], sheet: &[u8]) -> Result<(), Difference> {
    let mut words = list.to_vec();
    words.resize(list.len().next_multiple_of(RECORD_WORDS), 0);
    let mut read = vec![0x5a5a; words.len()];
    let answer = wiltoresh::read_into(sheet, &mut read);
    if answer.number != 0 || answer.count * RECORD_WORDS != words.len() || read != words {
        return Err(Difference(format!(
            "what was written is read as other words, {answer:?}\nsheet: {}\nwords: {read:?}",
            sheet.escape_ascii()
        )));
    }
    Ok(())
}

/// The proved library writes these bytes of the words that it read from them.
fn same_bytes(sheet: &[u8], words: &[u64]) -> Result<(), Difference> {
    let mut written = vec![0; sheet.len()];
    let answer = wiltoresh::write_into(words, &mut written);
    if answer.number != 0 || answer.length != sheet.len() || written != sheet {
        return Err(Difference(format!(
            "what was read is written as other bytes, {answer:?}\nbytes: {}",
            written.escape_ascii()
        )));
    }
    Ok(())
}

fn plain_write(list: &[u64], space: &mut [u8]) -> Answer {
    let answer = reference::write_sheet(list, space);
    Answer {
        number: u64::from(answer.number),
        line: answer.line as usize,
        length: answer.length,
    }
}

fn plain_read(sheet: &[u8], list: &mut [u64]) -> Counted {
    let answer = reference::read_sheet(sheet, list);
    Counted {
        number: u64::from(answer.number),
        line: answer.line as usize,
        count: answer.count,
    }
}

/// A space for just this sheet, for one byte less, for some more, for any
/// sheet, none, or any. What is refused has no sheet; up to two bytes a word
/// stand for its length.
fn space_length(list: &[u64], dice: &mut Dice) -> usize {
    let mut space = [0; MOST_BYTES];
    let exact = match reference::write_sheet(list, &mut space).length {
        0 => 1 + dice.index(100 + 2 * list.len()).min(MOST_BYTES),
        length => length,
    };
    match dice.below(20) {
        0..8 => exact,
        8..13 => exact + 1 + dice.index(200),
        13 => MOST_BYTES,
        14..17 => exact - 1,
        17 => 0,
        18 => dice.index(exact),
        _ => dice.index(MOST_BYTES + 100),
    }
}

/// A list for just the records of the sheet, for one number less, for some
/// more, none, or any.
fn list_length(sheet: &[u8], dice: &mut Dice) -> usize {
    let lines = sheet.iter().filter(|byte| **byte == b'\n').count();
    let exact = lines * RECORD_WORDS;
    match dice.below(20) {
        0..9 => exact,
        9..14 => exact + 1 + dice.index(40),
        14..17 => exact.saturating_sub(1),
        17 => 0,
        18 => dice.index(exact + 1),
        _ => exact + dice.index(2_000),
    }
}

fn known_numbers(dice: &mut Dice, length: usize) -> Vec<u64> {
    (0..length).map(|_| dice.roll()).collect()
}
