//! A lent space: exactly long enough, one byte too short, longer, empty; and calls from several threads at once.

use std::thread;

use wiltoresh::{longest, report, report_into, Answer};

const SHEET: &[u8] = include_bytes!("../../../example/works.csv");
const REPORT: &[u8] = include_bytes!("../../../example/works.report.csv");

const ACCEPTED: Answer = Answer {
    number: 0,
    line: 0,
    length: REPORT.len(),
};

const TOO_SHORT: Answer = Answer {
    number: 16,
    line: 0,
    length: 0,
};

/// A space in which no two neighbours are the same, and where no byte is one of a report.
fn patterned(length: usize) -> Vec<u8> {
    (0..length).map(|place| 128 + (place % 127) as u8).collect()
}

#[test]
fn exactly_long_enough() {
    let mut space = patterned(REPORT.len());
    assert_eq!(report_into(SHEET, &mut space), ACCEPTED);
    assert_eq!(space, REPORT);
}

#[test]
fn one_byte_too_short() {
    let mut space = patterned(REPORT.len() - 1);
    assert_eq!(report_into(SHEET, &mut space), TOO_SHORT);
    assert_eq!(space, patterned(REPORT.len() - 1));
}

#[test]
fn every_shorter_space_is_unchanged() {
    for length in 0..REPORT.len() {
        let mut space = patterned(length);
        assert_eq!(report_into(SHEET, &mut space), TOO_SHORT);
        assert_eq!(space, patterned(length));
    }
}

#[test]
fn past_the_report_a_longer_space_is_unchanged() {
    for more in [1, 2, 100, longest(), 1_000_000] {
        let length = REPORT.len() + more;
        let mut space = patterned(length);
        assert_eq!(report_into(SHEET, &mut space), ACCEPTED);
        assert_eq!(&space[..REPORT.len()], REPORT);
        assert_eq!(&space[REPORT.len()..], &patterned(length)[REPORT.len()..]);
    }
}

#[test]
fn part_of_a_space_is_lent() {
    let mut space = patterned(3000);
    assert_eq!(report_into(SHEET, &mut space[7..2000]), ACCEPTED);
    let end = 7 + REPORT.len();
    assert_eq!(&space[..7], &patterned(3000)[..7]);
    assert_eq!(&space[7..end], REPORT);
    assert_eq!(&space[end..], &patterned(3000)[end..]);
}

#[test]
fn empty_sheet_and_empty_space() {
    let expected = Answer {
        number: 14,
        line: 0,
        length: 0,
    };
    assert_eq!(report_into(b"", &mut []), expected);
    assert_eq!(report_into(SHEET, &mut []), TOO_SHORT);
}

#[test]
fn several_threads_at_once() {
    thread::scope(|threads| {
        for _ in 0..8 {
            threads.spawn(|| {
                for _ in 0..200 {
                    assert_eq!(report(SHEET).unwrap().as_bytes(), REPORT);
                }
            });
        }
    });
}
