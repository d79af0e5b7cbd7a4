//! The carbon balance sheet of an installation: a sheet goes in, a report or a refusal comes out.
//!
//! [`report()`] does the whole job:
//!
//! ```
//! let sheet = b"P,1,5\nE,1,0,1,1000\n";
//! match wiltoresh::report(sheet) {
//!     Ok(report) => print!("{report}"),
//!     Err(refusal) => eprintln!("{refusal}"),
//! }
//! # assert_eq!(
//! #     wiltoresh::report(sheet).unwrap().as_bytes(),
//! #     b"R,1,0,0,1,0,0,0,0,0.000,0.000\nT,0,-1,1,0\n"
//! # );
//! ```
//!
//! [`report_into`] does it in a space that the caller lends, without allocating.
//!
//! A works' own systems have records and no text. [`write()`] writes the sheet of [`Record`]s, and [`read()`] reads the
//! records of a sheet; [`write_into`] and [`read_into`] do so in a space and a list that the caller lends.
//!
//! ```
//! use wiltoresh::Record;
//!
//! let records = [
//!     Record::Process { number: 1, output: 5 },
//!     Record::Electricity { from: 1, to: 0, kilowatt_hours: 1, factor: 1000 },
//! ];
//! let sheet = wiltoresh::write(&records)?;
//! assert_eq!(sheet, b"P,1,5\nE,1,0,1,1000\n");
//! assert_eq!(wiltoresh::read(b"P,1,5\nE,1,0,1,1000\n")?, records);
//! # Ok::<(), wiltoresh::Refusal>(())
//! ```
//!
//! The functions that all of these call are proved: outcome, line number, length or count, and every byte of the space or
//! number of the list follow by equation from what is given and lent. They keep no state and are safe from several
//! threads at once.

#![warn(missing_docs)]

mod ffi;
mod record;
mod records;
mod refusal;
mod report;

use std::ops::Range;

pub use record::{Record, RECORD_WORDS, STANDARD};
pub use records::{read, read_into, write, write_into, Counted};
pub use refusal::{meaning, Refusal};
pub use report::Report;

/// The answer to a sheet or to records, and a lent space, as [`report_into`] and [`write_into`] give it.
#[derive(Clone, Copy, Debug, PartialEq, Eq, Hash)]
pub struct Answer {
    /// 0 for an accepted sheet, or else the refusal's number, 1 to 18.
    pub number: u64,
    /// The number of the offending line, the first being 1; 0 for a refusal of the whole sheet and for an accepted one.
    pub line: usize,
    /// The length of the report, or of the sheet that was written; 0 for a refusal.
    pub length: usize,
}

/// The report of the sheet, or the refusal with the offending line. Every sheet may be given.
///
/// The space is long enough for every report, so the refusal's number is never 16.
///
/// ```
/// let report = wiltoresh::report(b"P,1,5\n")?;
/// assert_eq!(report.as_bytes(), b"R,1,0,0,0,0,0,0,0,0.000,0.000\nT,0,0,0,0\n");
///
/// let refusal = wiltoresh::report(b"P,1,5\nW,1,2,9\n").unwrap_err();
/// assert_eq!((refusal.number(), refusal.line()), (9, 2));
/// assert_eq!(refusal.text(), b"W,1,2,9");
/// # Ok::<(), wiltoresh::Refusal>(())
/// ```
pub fn report(sheet: &[u8]) -> Result<Report, Refusal<'_>> {
    let mut space = vec![0; longest()];
    let answer = report_into(sheet, &mut space);
    if answer.number != 0 {
        let text = &sheet[line_place(sheet, answer.line)];
        return Err(Refusal::new(answer.number, answer.line, text));
    }
    space.truncate(answer.length);
    Ok(Report::new(space))
}

/// The whole job in a lent space: the report of an accepted sheet stands at the start of the space.
///
/// Every byte past the report is as it was. For a refusal, 16 (the space is too short) included, every byte of the space
/// is as it was. A space of [`longest`] bytes is never refused by 16. Nothing is allocated.
///
/// ```
/// use wiltoresh::{report_into, Answer};
///
/// let mut space = [b'#'; 50];
/// let answer = report_into(b"P,1,5\n", &mut space);
/// assert_eq!(answer, Answer { number: 0, line: 0, length: 40 });
/// assert_eq!(&space[..40], b"R,1,0,0,0,0,0,0,0,0.000,0.000\nT,0,0,0,0\n");
/// assert_eq!(&space[40..], [b'#'; 10]);
///
/// let answer = report_into(b"P,1,5\n", &mut space[..39]);
/// assert_eq!(answer, Answer { number: 16, line: 0, length: 0 });
/// ```
pub fn report_into(sheet: &[u8], space: &mut [u8]) -> Answer {
    let mut line = 0;
    let mut length = 0;
    // SAFETY: the pointers come from references, so they are valid for their lengths, aligned, and no length is above
    // isize::MAX; `sheet` is lent for reading and the other three for writing, so none of them overlap. A slice of no
    // bytes has a pointer to no memory, which the header allows.
    let number = unsafe {
        ffi::wiltoresh_report(
            sheet.as_ptr(),
            sheet.len(),
            space.as_mut_ptr(),
            space.len(),
            &mut line,
            &mut length,
        )
    };
    Answer {
        number,
        line,
        length,
    }
}

/// The place of a line in the sheet, without its LF. The first line is 1; bytes after the last LF count as a line.
///
/// Line 0 has the empty place at the sheet's start, and a line past the last one the empty place at its end, so the
/// place can be taken of the sheet whatever the line is.
///
/// ```
/// let sheet = b"P,1,5\nW,1,2,9\n";
/// assert_eq!(wiltoresh::line_place(sheet, 2), 6..13);
/// assert_eq!(&sheet[wiltoresh::line_place(sheet, 2)], b"W,1,2,9");
/// assert_eq!(wiltoresh::line_place(sheet, 0), 0..0);
/// assert_eq!(wiltoresh::line_place(sheet, 3), 14..14);
/// ```
pub fn line_place(sheet: &[u8], line: usize) -> Range<usize> {
    let mut start = 0;
    // SAFETY: the pointers come from references, as above, and `start` is no part of the sheet.
    let length = unsafe { ffi::wiltoresh_line(sheet.as_ptr(), sheet.len(), line, &mut start) };
    start..start + length
}

/// No report has more bytes: [`report_into`] never refuses a space of so many bytes by 16.
///
/// ```
/// let mut space = vec![0; wiltoresh::longest()];
/// assert_eq!(wiltoresh::report_into(b"P,1,5\n", &mut space).number, 0);
/// ```
pub fn longest() -> usize {
    // SAFETY: the function takes nothing and reads no memory of the caller.
    unsafe { ffi::wiltoresh_longest() }
}
