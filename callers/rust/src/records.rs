//! Records written as a sheet, and a sheet read into records.

use crate::ffi;
use crate::{line_place, Answer, Record, Refusal, RECORD_WORDS};

/// A sheet has at most so many bytes.
const MOST_BYTES: usize = 65_536;

/// A sheet has at most so many lines.
const MOST_LINES: usize = 4096;

/// The answer to a sheet and a lent list, as [`read_into`] gives it.
#[derive(Clone, Copy, Debug, PartialEq, Eq, Hash)]
pub struct Counted {
    /// 0 for an accepted sheet, or else the refusal's number, 1 to 18.
    pub number: u64,
    /// The number of the offending line, the first being 1; 0 for a refusal of the whole sheet and for an accepted one.
    pub line: usize,
    /// The number of records, which is that of the sheet's lines; 0 for a refusal.
    pub count: usize,
}

/// The sheet of the records, a line for each in order, or the refusal that [`report`](crate::report()) would give to it.
///
/// The k-th record is line k, so the offending record is `records[refusal.line() - 1]`, where the line is not 0. The
/// refusal has no text. Its number is never 3, 4, 5 or 16: each line has its LF, a known letter and all its fields.
///
/// ```
/// use wiltoresh::{read, write, Record};
///
/// let records = [
///     Record::Process { number: 1, output: 5 },
///     Record::WasteGas { from: 1, to: 2, megajoules: 9 },
/// ];
/// assert_eq!(write(&records[..1])?, b"P,1,5\n");
/// assert_eq!(read(b"P,1,5\n")?, records[..1]);
///
/// let refusal = write(&records).unwrap_err();
/// assert_eq!((refusal.number(), refusal.line()), (9, 2));
/// assert_eq!(records[refusal.line() - 1], records[1]);
/// # Ok::<(), wiltoresh::Refusal>(())
/// ```
pub fn write(records: &[Record]) -> Result<Vec<u8>, Refusal<'static>> {
    let words: Vec<u64> = records.iter().flat_map(Record::words).collect();
    let mut space = vec![0; MOST_BYTES];
    let answer = write_into(&words, &mut space);
    if answer.number != 0 {
        return Err(Refusal::new(answer.number, answer.line, b""));
    }
    space.truncate(answer.length);
    space.shrink_to_fit();
    Ok(space)
}

/// The records of the sheet, one for each line in order, or the refusal that [`report`](crate::report()) gives to it.
///
/// The list is long enough for every sheet, so the refusal's number is never 16.
///
/// ```
/// use wiltoresh::{read, Record};
///
/// let records = read(b"P,1,5\nE,1,0,1,1000\n")?;
/// assert_eq!(records[0], Record::Process { number: 1, output: 5 });
/// assert_eq!(records.len(), 2);
/// # Ok::<(), wiltoresh::Refusal>(())
/// ```
pub fn read(sheet: &[u8]) -> Result<Vec<Record>, Refusal<'_>> {
    let lines = sheet.iter().filter(|byte| **byte == b'\n').count();
    let mut list = vec![0; RECORD_WORDS * lines.min(MOST_LINES)];
    let counted = read_into(sheet, &mut list);
    if counted.number != 0 {
        let text = &sheet[line_place(sheet, counted.line)];
        return Err(Refusal::new(counted.number, counted.line, text));
    }
    let records = list.chunks_exact(RECORD_WORDS).take(counted.count);
    Ok(records
        .map(|words| Record::from_words(words).expect("an accepted line is a record"))
        .collect())
}

/// Writes the sheet of a list of records, nine words each, at the start of a lent space. Nothing is allocated.
///
/// The words of a record are the letter of its kind as a number, then its fields in the line's order;
/// [`STANDARD`](crate::STANDARD) is `-`, and spare words are 0. [`Record::words`] has them. The k-th record is line k.
///
/// Every list may be given, and is judged as the sheet that it spells. A first word that is no letter of a kind spells
/// an empty line, which is refused by 4. Where a spare word is not 0, all words behind the letter are fields, which is
/// refused by 5. Where the list's length is no multiple of nine, the last record has the words that are there.
///
/// Every byte past the sheet is as it was. For a refusal, 16 (the space is too short for the sheet) included, every
/// byte of the space is as it was. A space of 65,536 bytes is never refused by 16.
///
/// ```
/// use wiltoresh::{write_into, Answer};
///
/// let list = [80, 1, 5, 0, 0, 0, 0, 0, 0, 87, 1, 0, 9, 0, 0, 0, 0, 0];
/// let mut space = [b'#'; 20];
/// let answer = write_into(&list, &mut space);
/// assert_eq!(answer, Answer { number: 0, line: 0, length: 14 });
/// assert_eq!(&space, b"P,1,5\nW,1,0,9\n######");
///
/// let answer = write_into(&list, &mut space[..13]);
/// assert_eq!(answer, Answer { number: 16, line: 0, length: 0 });
/// ```
pub fn write_into(records: &[u64], space: &mut [u8]) -> Answer {
    let mut line = 0;
    let mut length = 0;
    // SAFETY: the pointers come from references, so they are valid for their lengths, aligned, and no slice has more
    // than isize::MAX bytes; `records` is lent for reading and the other three for writing, so none of them overlap. A
    // slice of no elements has a pointer to no memory, which the header allows.
    let number = unsafe {
        ffi::wiltoresh_write(
            records.as_ptr(),
            records.len(),
            space.as_mut_ptr(),
            space.len(),
            &mut line,
            &mut length,
        )
    };
    Answer {
        number,
        line,
        length,
    }
}

/// Reads the records of a sheet, nine words each, into the start of a lent list. Nothing is allocated.
///
/// The words are those that [`write_into`] takes; [`Record::from_words`] makes a record of nine. Every sheet may be
/// given.
///
/// Every number past the records is as it was. For a refusal, 16 (the list is shorter than nine numbers for each line)
/// included, every number of the list is as it was. A list of 36,864 numbers is never refused by 16.
///
/// ```
/// use wiltoresh::{read_into, Counted};
///
/// let mut list = [7; 10];
/// let counted = read_into(b"P,1,5\n", &mut list);
/// assert_eq!(counted, Counted { number: 0, line: 0, count: 1 });
/// assert_eq!(list, [80, 1, 5, 0, 0, 0, 0, 0, 0, 7]);
///
/// let counted = read_into(b"P,1,5\n", &mut list[..8]);
/// assert_eq!(counted, Counted { number: 16, line: 0, count: 0 });
/// ```
pub fn read_into(sheet: &[u8], list: &mut [u64]) -> Counted {
    let mut line = 0;
    let mut count = 0;
    // SAFETY: as above, `sheet` being lent for reading and the other three for writing.
    let number = unsafe {
        ffi::wiltoresh_read(
            sheet.as_ptr(),
            sheet.len(),
            list.as_mut_ptr(),
            list.len(),
            &mut line,
            &mut count,
        )
    };
    Counted {
        number,
        line,
        count,
    }
}
