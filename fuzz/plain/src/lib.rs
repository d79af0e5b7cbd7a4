//! The implementation of `reference` with the C interface of the proved
//! library, for the fuzzer.

use std::slice;

/// The whole job; see `wiltoresh_report` in `fuzz_report.c`.
///
/// # Safety
///
/// The pointers are to so many bytes, and to a number each.
#[unsafe(no_mangle)]
pub unsafe extern "C" fn plain_report(
    sheet: *const u8,
    sheet_length: usize,
    space: *mut u8,
    space_length: usize,
    line: *mut usize,
    length: *mut usize,
) -> u64 {
    let sheet = unsafe { slice::from_raw_parts(sheet, sheet_length) };
    let space = unsafe { slice::from_raw_parts_mut(space, space_length) };
    let answer = reference::report_into(sheet, space);
    unsafe {
        *line = answer.line as usize;
        *length = answer.length;
    }
    u64::from(answer.number)
}

/// A sheet of records; see `wiltoresh_write` in `fuzz_records.c`.
///
/// # Safety
///
/// The pointers are to so many words and bytes, and to a number each.
#[unsafe(no_mangle)]
pub unsafe extern "C" fn plain_write(
    records: *const u64,
    words: usize,
    space: *mut u8,
    space_length: usize,
    line: *mut usize,
    length: *mut usize,
) -> u64 {
    let records = unsafe { slice::from_raw_parts(records, words) };
    let space = unsafe { slice::from_raw_parts_mut(space, space_length) };
    let answer = reference::write_sheet(records, space);
    unsafe {
        *line = answer.line as usize;
        *length = answer.length;
    }
    u64::from(answer.number)
}

/// The records of a sheet; see `wiltoresh_read` in `fuzz_records.c`.
///
/// # Safety
///
/// The pointers are to so many bytes and words, and to a number each.
#[unsafe(no_mangle)]
pub unsafe extern "C" fn plain_read(
    sheet: *const u8,
    sheet_length: usize,
    records: *mut u64,
    words: usize,
    line: *mut usize,
    count: *mut usize,
) -> u64 {
    let sheet = unsafe { slice::from_raw_parts(sheet, sheet_length) };
    let list = unsafe { slice::from_raw_parts_mut(records, words) };
    let answer = reference::read_sheet(sheet, list);
    unsafe {
        *line = answer.line as usize;
        *count = answer.count;
    }
    u64::from(answer.number)
}
