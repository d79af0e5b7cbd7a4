//! A sheet, or records, sent back.

use std::error::Error;
use std::fmt;

/// A refusal: its number, the offending line's number and that line as a part of the sheet.
///
/// It borrows from the sheet. Where an error must outlive the sheet, take its message: `refusal.to_string()`. A refusal
/// of records, as [`write`](crate::write()) gives it, has no text and borrows nothing.
///
/// ```
/// let refusal = wiltoresh::report(b"P,1,5\nP,2,5\nG,1,2,6\n").unwrap_err();
/// assert_eq!(refusal.number(), 13);
/// assert_eq!(refusal.line(), 3);
/// assert_eq!(refusal.text(), b"G,1,2,6");
/// assert_eq!(refusal.to_string(), "refused by 13 at line 3: output exceeded");
/// ```
#[derive(Clone, Copy, Debug, PartialEq, Eq, Hash)]
pub struct Refusal<'a> {
    number: u64,
    line: usize,
    text: &'a [u8],
}

impl<'a> Refusal<'a> {
    pub(crate) fn new(number: u64, line: usize, text: &'a [u8]) -> Self {
        Refusal { number, line, text }
    }

    /// The refusal's number; [`meaning`] says what it means.
    pub fn number(&self) -> u64 {
        self.number
    }

    /// The number of the offending line or record, the first being 1; 0 for a refusal of the whole sheet.
    pub fn line(&self) -> usize {
        self.line
    }

    /// The offending line, without its LF; empty for line 0, and for a refusal of records.
    pub fn text(&self) -> &'a [u8] {
        self.text
    }
}

impl fmt::Display for Refusal<'_> {
    fn fmt(&self, out: &mut fmt::Formatter<'_>) -> fmt::Result {
        write!(out, "refused by {}", self.number)?;
        if self.line != 0 {
            write!(out, " at line {}", self.line)?;
        }
        match meaning(self.number) {
            Some(words) => write!(out, ": {}", words),
            None => Ok(()),
        }
    }
}

impl Error for Refusal<'_> {}

/// What a refusal's number means, in a few words. None for a number that no refusal has.
///
/// ```
/// assert_eq!(wiltoresh::meaning(14), Some("empty sheet"));
/// assert_eq!(wiltoresh::meaning(0), None);
/// ```
pub fn meaning(number: u64) -> Option<&'static str> {
    Some(match number {
        1 => "over 65,536 bytes",
        2 => "over 4,096 lines",
        3 => "line lacks its LF",
        4 => "first field unknown",
        5 => "field count",
        6 => "not a number, or `-` elsewhere",
        7 => "out of range",
        8 => "P not next, or after another kind",
        9 => "process without a P line above it",
        10 => "ends not allowed",
        11 => "`-` with code 0",
        12 => "second G line of a pair",
        13 => "output exceeded",
        14 => "empty sheet",
        15 => "a whole-gram figure of the report, its sign aside, is 2^63 or more",
        16 => "space or list too short",
        17 => "second K line of a precursor and rank",
        18 => "precursor without a K line",
        _ => return None,
    })
}

#[cfg(test)]
mod tests {
    use super::*;

    #[test]
    fn message_names_the_line() {
        let refusal = Refusal::new(9, 4, b"W,1,2,9");
        let message = "refused by 9 at line 4: process without a P line above it";
        assert_eq!(refusal.to_string(), message);
    }

    #[test]
    fn message_of_a_whole_sheet_names_no_line() {
        let refusal = Refusal::new(14, 0, b"");
        assert_eq!(refusal.to_string(), "refused by 14: empty sheet");
    }

    #[test]
    fn eighteen_numbers_have_a_meaning() {
        let known: Vec<u64> = (0..100)
            .filter(|number| meaning(*number).is_some())
            .collect();
        assert_eq!(known, (1..=18).collect::<Vec<u64>>());
    }
}
