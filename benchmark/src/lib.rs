//! The proved library and the plain implementation, with its own division and
//! with the proved library's walk, over the same sheets and records: how long each
//! takes, and how much stack.

pub mod cases;
pub mod record_cases;
pub mod stack;
pub mod timing;
pub mod walk;

use reference::Outcome;

/// Room for any report: 16 lines of at most 202 bytes and one of at most 90.
pub const SPACE: usize = 4_096;

/// What an implementation says: number, line, and length in bytes or records.
pub type Said = (u64, usize, usize);

/// An implementation: what is given and what is lent in, its answer out. A
/// sheet is bytes, a list of records is numbers.
pub type Implementation<G, L> = fn(&[G], &mut [L]) -> Said;

/// The three that make a report, the proved library first.
pub const REPORT: [Implementation<u8, u8>; 3] = [proved, plain, plain_walk];

/// The two that write a sheet of records.
pub const WRITE: [Implementation<u64, u8>; 2] = [proved_write, plain_write];

/// The two that read the records of a sheet.
pub const READ: [Implementation<u8, u64>; 2] = [proved_read, plain_read];

/// The proved library.
pub fn proved(sheet: &[u8], space: &mut [u8]) -> Said {
    let answer = wiltoresh::report_into(sheet, space);
    (answer.number, answer.line, answer.length)
}

/// The implementation in plain Rust, which divides.
pub fn plain(sheet: &[u8], space: &mut [u8]) -> Said {
    said(reference::report_into(sheet, space))
}

/// The implementation in plain Rust with the walk in the place of its division.
pub fn plain_walk(sheet: &[u8], space: &mut [u8]) -> Said {
    said(reference::report_into_by(walk::portion, sheet, space))
}

fn said(answer: Outcome) -> Said {
    (
        u64::from(answer.number),
        answer.line as usize,
        answer.length,
    )
}

pub fn proved_write(records: &[u64], space: &mut [u8]) -> Said {
    let answer = wiltoresh::write_into(records, space);
    (answer.number, answer.line, answer.length)
}

pub fn plain_write(records: &[u64], space: &mut [u8]) -> Said {
    let answer = reference::write_sheet(records, space);
    let number = u64::from(answer.number);
    (number, answer.line as usize, answer.length)
}

pub fn proved_read(sheet: &[u8], list: &mut [u64]) -> Said {
    let answer = wiltoresh::read_into(sheet, list);
    (answer.number, answer.line, answer.count)
}

pub fn plain_read(sheet: &[u8], list: &mut [u64]) -> Said {
    let answer = reference::read_sheet(sheet, list);
    let number = u64::from(answer.number);
    (number, answer.line as usize, answer.count)
}
