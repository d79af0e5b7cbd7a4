//! Carbon balance sheet of an installation, written from the scope paper
//! (document 01) and tickets 1, 2 and 4 of the later requests (document 02)
//! alone, for comparison with another implementation.
//!
//! The data goes through the modules in this order: `sheet` parts the bytes
//! into lines and fields, `refusals` judges each line, `reckoning` takes the
//! judged lines and settles them, `report` spells the figures. `records` has
//! the same lines as numbers, writes their sheet and reads them from one.

pub mod reckoning;
pub mod record_samples;
pub mod records;
pub mod refusals;
pub mod report;
pub mod samples;
pub mod sheet;

use reckoning::{Account, Both, Works};
use refusals::{Fault, Refusal, judge};
use report::Report;
use sheet::{Field, Fields, Line, MOST_BYTES, MOST_FIELDS, MOST_LINES, read_line};

pub use records::{Read, Written, read_sheet, write_sheet};
pub use sheet::line_at;

/// The answer to a sheet. An accepted sheet has number 0 and line 0; a refused
/// one has length 0.
#[derive(Clone, Copy, Debug, PartialEq, Eq)]
pub struct Outcome {
    pub number: u32,
    pub line: u32,
    pub length: usize,
}

/// Writes the report of the sheet at the start of the space. The space past
/// the report, and on a refusal all of it, is left as it was.
pub fn report_into(sheet: &[u8], space: &mut [u8]) -> Outcome {
    report_into_by(Both::portion, sheet, space)
}

/// As `report_into`, with ⌊P × C/A⌋ of both pools P by a function that is given
/// the pools, C and A, and promises these quotients. Another way to them can so
/// be timed, all else being equal.
pub fn report_into_by(
    portion: impl Fn(Both, u64, u64) -> Both,
    sheet: &[u8],
    space: &mut [u8],
) -> Outcome {
    let refusal = match whole_report(portion, sheet) {
        Ok(report) => {
            let bytes = report.as_bytes();
            if let Some(place) = space.get_mut(..bytes.len()) {
                place.copy_from_slice(bytes);
                return Outcome {
                    number: 0,
                    line: 0,
                    length: bytes.len(),
                };
            }
            on_no_line(Fault::SpaceTooShort)
        }
        Err(refusal) => refusal,
    };
    Outcome {
        number: refusal.fault as u32,
        line: refusal.line,
        length: 0,
    }
}

/// The report of the sheet, or the refusal's number and line.
pub fn report(sheet: &[u8]) -> Result<Vec<u8>, (u32, u32)> {
    match whole_report(Both::portion, sheet) {
        Ok(report) => Ok(report.as_bytes().to_vec()),
        Err(refusal) => Err((refusal.fault as u32, refusal.line)),
    }
}

fn whole_report(portion: impl Fn(Both, u64, u64) -> Both, sheet: &[u8]) -> Result<Report, Refusal> {
    reckon_by(portion, sheet).map(|account| Report::of(&account))
}

/// Reads, judges and reckons the whole sheet.
pub fn reckon(sheet: &[u8]) -> Result<Account, Refusal> {
    reckon_by(Both::portion, sheet)
}

fn reckon_by(portion: impl Fn(Both, u64, u64) -> Both, sheet: &[u8]) -> Result<Account, Refusal> {
    let mut works = Works::default();
    read(sheet, &mut works)?;
    works.settle(portion)
}

/// Reads and judges the whole sheet and enters its lines. Compiled once, so
/// that the reading is the same whatever gives the quotients.
#[inline(never)]
fn read(sheet: &[u8], works: &mut Works) -> Result<(), Refusal> {
    read_and_show(sheet, works, |_, _| {})
}

/// The same, and letter and fields of each line that passed are shown.
#[inline(always)]
fn read_and_show(
    sheet: &[u8],
    works: &mut Works,
    mut show: impl FnMut(u8, &[Field]),
) -> Result<(), Refusal> {
    if sheet.len() > MOST_BYTES {
        return Err(on_no_line(Fault::TooManyBytes));
    }
    if sheet.is_empty() {
        return Err(on_no_line(Fault::EmptySheet));
    }
    let mut fields = [Field::OTHER; MOST_FIELDS];
    let mut rest = sheet;
    let mut number = 0;
    while !rest.is_empty() {
        number += 1;
        let line = take_line(rest, number, &mut fields, works).map_err(|fault| Refusal {
            fault,
            line: number,
        })?;
        show(rest[0], &fields[..line.count]);
        rest = &rest[line.length..];
    }
    Ok(())
}

/// Enters the line at the start of `rest`. What `fields` holds before is of no
/// account; it is lent so that it need not be moved. This and what it calls is
/// always inlined: a call for each line takes some hundredths of the time of
/// reading.
#[inline(always)]
fn take_line(
    rest: &[u8],
    number: u32,
    fields: &mut Fields,
    works: &mut Works,
) -> Result<Line, Fault> {
    if number > MOST_LINES {
        return Err(Fault::TooManyLines);
    }
    let line = read_line(rest, fields)?;
    works.enter(judge(line.kind, line.count, fields, works)?, number);
    Ok(line)
}

fn on_no_line(fault: Fault) -> Refusal {
    Refusal { fault, line: 0 }
}
