//! The lists of records that are written and the sheets whose records are read.

use reference::record_samples::records_of;
use reference::records::RECORD_WORDS;
use reference::sheet::{MOST_BYTES, MOST_LINES};

use crate::cases::{Case, EXAMPLE, mixed, refused_last, short_lines};

/// Numbers of the longest list of records.
const LIST: usize = MOST_LINES as usize * RECORD_WORDS;

/// Lists of records, each written into a space for any sheet, but for the last.
pub fn written() -> Vec<Case<u64>> {
    let case = |name: &str, told: &str, sheet: &[u8]| Case {
        name: format!("write-{name}"),
        told: told.into(),
        given: records_of(sheet),
        bytes: sheet.len(),
        lent: MOST_BYTES,
        number: 0,
        line: 0,
    };
    let refused = refused_last();
    vec![
        case("full", "records of mixed lines", &mixed(MOST_BYTES)),
        case("short", "4,096 records of short lines", &short_lines()),
        case("tiny", "example of document 01", EXAMPLE.as_bytes()),
        Case {
            number: refused.number,
            line: refused.line,
            ..case("refused-last", "last record refused", &refused.given)
        },
        Case {
            lent: MOST_BYTES - 1,
            number: 16,
            ..case("too-short", "space a byte too short", &mixed(MOST_BYTES))
        },
    ]
}

/// The same sheets, each read into a list for the records of any sheet, but for
/// the last.
pub fn read() -> Vec<Case<u8>> {
    let case = |name: &str, told: &str, sheet: Vec<u8>| Case {
        name: format!("read-{name}"),
        told: told.into(),
        bytes: sheet.len(),
        given: sheet,
        lent: LIST,
        number: 0,
        line: 0,
    };
    let refused = refused_last();
    let full = mixed(MOST_BYTES);
    let lines = full.iter().filter(|byte| **byte == b'\n').count();
    vec![
        case("full", "full sheet of mixed lines", full.clone()),
        case("short", "4,096 short lines", short_lines()),
        case("tiny", "example of document 01", EXAMPLE.into()),
        Case {
            number: refused.number,
            line: refused.line,
            ..case("refused-last", "last line refused", refused.given)
        },
        Case {
            lent: lines * RECORD_WORDS - 1,
            number: 16,
            ..case("too-short", "list a number too short", full)
        },
    ]
}
