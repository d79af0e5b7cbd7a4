//! The places of lines in a sheet, and the text of a refusal at the first and at the last line.

use wiltoresh::{line_place, report};

const SHEET: &[u8] = include_bytes!("../../../example/works.csv");

#[test]
fn every_line_of_the_example() {
    let mut start = 0;
    let text = SHEET.strip_suffix(b"\n").unwrap();
    for (before, line) in text.split(|byte| *byte == b'\n').enumerate() {
        assert_eq!(line_place(SHEET, before + 1), start..start + line.len());
        start += line.len() + 1;
    }
    assert_eq!(start, SHEET.len());
}

#[test]
fn lines_that_a_sheet_has_not() {
    let end = SHEET.len();
    assert_eq!(line_place(SHEET, 0), 0..0);
    for line in [42, 43, usize::MAX] {
        assert_eq!(line_place(SHEET, line), end..end);
    }
    for line in [0, 1, usize::MAX] {
        assert_eq!(line_place(b"", line), 0..0);
    }
}

#[test]
fn bytes_after_the_last_line_end_are_a_line() {
    assert_eq!(line_place(b"P,1,5\nP,2", 2), 6..9);
    assert_eq!(line_place(b"\n\nP", 1), 0..0);
    assert_eq!(line_place(b"\n\nP", 2), 1..1);
    assert_eq!(line_place(b"\n\nP", 3), 2..3);
}

#[test]
fn text_of_the_first_line() {
    let refusal_at_first = report(b"p,1,5\nP,2,5\n").unwrap_err();
    assert_eq!(refusal_at_first.number(), 4);
    assert_eq!(refusal_at_first.line(), 1);
    assert_eq!(refusal_at_first.text(), b"p,1,5");
}

#[test]
fn text_of_the_last_line() {
    let mut sheet = SHEET.to_vec();
    sheet.extend(b"G,4,3,1\n");
    let refusal = report(&sheet).unwrap_err();
    assert_eq!((refusal.number(), refusal.line()), (10, 42));
    assert_eq!(refusal.text(), b"G,4,3,1");
}

#[test]
fn text_of_a_last_line_without_its_end() {
    let sheet = SHEET.strip_suffix(b"\n").unwrap();
    let refusal = report(sheet).unwrap_err();
    assert_eq!((refusal.number(), refusal.line()), (3, 41));
    assert_eq!(refusal.text(), b"G,3,4,208000000");
}

#[test]
fn text_that_is_no_utf8() {
    let refusal = report(b"P,1,\xff\xfe\n").unwrap_err();
    assert_eq!((refusal.number(), refusal.line()), (6, 1));
    assert_eq!(refusal.text(), b"P,1,\xff\xfe");
}
