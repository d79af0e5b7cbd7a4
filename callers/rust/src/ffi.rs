//! The functions of the two archives, as include/wiltoresh.h declares them.

// Those of libwiltoresh.a.
extern "C" {
    pub fn wiltoresh_report(
        sheet: *const u8,
        sheet_length: usize,
        space: *mut u8,
        space_length: usize,
        line: *mut usize,
        length: *mut usize,
    ) -> u64;

    pub fn wiltoresh_line(
        sheet: *const u8,
        sheet_length: usize,
        line: usize,
        start: *mut usize,
    ) -> usize;

    pub fn wiltoresh_longest() -> usize;
}

// Those of libwiltoresh_records.a.
extern "C" {
    pub fn wiltoresh_write(
        records: *const u64,
        words: usize,
        space: *mut u8,
        space_length: usize,
        line: *mut usize,
        length: *mut usize,
    ) -> u64;

    pub fn wiltoresh_read(
        sheet: *const u8,
        sheet_length: usize,
        records: *mut u64,
        words: usize,
        line: *mut usize,
        count: *mut usize,
    ) -> u64;
}
