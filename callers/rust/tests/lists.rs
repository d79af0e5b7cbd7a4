//! Lists of words: the refusals that they can meet, spare words, odd lengths; a lent space and a lent list that are
//! exactly long enough, too short and longer; calls from several threads at once.

use std::thread;

use wiltoresh::{read_into, write_into, Answer, Counted, RECORD_WORDS, STANDARD};

const WORKS: &[u8] = include_bytes!("../../../example/works.csv");
const LINES: usize = 41;

const ACCEPTED: Answer = Answer {
    number: 0,
    line: 0,
    length: WORKS.len(),
};

const COUNTED: Counted = Counted {
    number: 0,
    line: 0,
    count: LINES,
};

/// A space in which no two neighbours are the same, and where no byte is one of a sheet.
fn patterned(length: usize) -> Vec<u8> {
    (0..length).map(|place| 128 + (place % 127) as u8).collect()
}

/// A list of numbers that no sheet has.
fn numbers(length: usize) -> Vec<u64> {
    (0..length as u64).map(|place| (1 << 63) + place).collect()
}

fn works() -> Vec<u64> {
    let mut list = numbers(LINES * RECORD_WORDS);
    assert_eq!(read_into(WORKS, &mut list), COUNTED);
    list
}

/// The words of records, each a letter and its fields.
fn words(records: &[(u8, &[u64])]) -> Vec<u64> {
    let mut list = vec![];
    for (letter, fields) in records {
        list.push(u64::from(*letter));
        list.extend(*fields);
        list.resize(list.len() + 8 - fields.len(), 0);
    }
    list
}

/// Expects this refusal in spaces of several lengths, and every byte as it was.
#[track_caller]
fn refused(list: &[u64], number: u64, line: usize) {
    for length in [0, 10, 70_000] {
        let mut space = patterned(length);
        let expected = Answer {
            number,
            line,
            length: 0,
        };
        assert_eq!(write_into(list, &mut space), expected);
        assert_eq!(space, patterned(length));
    }
}

#[track_caller]
fn written(list: &[u64], sheet: &[u8]) {
    let mut space = patterned(sheet.len() + 9);
    let expected = Answer {
        number: 0,
        line: 0,
        length: sheet.len(),
    };
    assert_eq!(write_into(list, &mut space), expected);
    assert_eq!(&space[..sheet.len()], sheet);
    assert_eq!(
        &space[sheet.len()..],
        &patterned(space.len())[sheet.len()..]
    );
}

#[test]
fn words_of_a_sheet() {
    let sheet = b"P,1,5\nS,1,1,16,7,-,2,10000,0\n";
    let expected = [
        [80, 1, 5, 0, 0, 0, 0, 0, 0],
        [83, 1, 1, 16, 7, STANDARD, 2, 10_000, 0],
    ]
    .concat();
    let mut list = numbers(18);
    assert_eq!(read_into(sheet, &mut list).count, 2);
    assert_eq!(list, expected);
    written(&expected, sheet);
}

#[test]
fn example_works_goes_round() {
    written(&works(), WORKS);
}

#[test]
fn refusals_of_a_list() {
    let one: (u8, &[u64]) = (b'P', &[1, 5]);
    let two: (u8, &[u64]) = (b'P', &[2, 5]);
    let own: (u8, &[u64]) = (b'G', &[1, 2, 1]);
    // Each record spells an empty line at least.
    refused(&vec![7; 65_537 * RECORD_WORDS], 1, 0);
    refused(
        &[words(&[one]), words(&[(b'W', &[0, 1, 1])]).repeat(4096)].concat(),
        2,
        4097,
    );
    refused(&words(&[one, (b'p', &[2, 5])]), 4, 2);
    refused(&words(&[one, (b'P', &[2, 5, 1])]), 5, 2);
    refused(&words(&[(b'P', &[1, STANDARD])]), 6, 1);
    refused(&words(&[(b'P', &[1, 0])]), 7, 1);
    refused(&words(&[(b'P', &[2, 5])]), 8, 1);
    refused(&words(&[one, (b'W', &[1, 2, 9])]), 9, 2);
    refused(&words(&[one, (b'W', &[1, 1, 9])]), 10, 2);
    refused(
        &words(&[one, (b'S', &[1, 1, 0, 1, STANDARD, 1, 1, 0])]),
        11,
        2,
    );
    refused(&words(&[one, two, own, own]), 12, 4);
    refused(&words(&[one, two, (b'G', &[1, 2, 6])]), 13, 3);
    refused(&[], 14, 0);
    refused(&words(&[(b'K', &[7, 1]), (b'K', &[7, 1, 5])]), 17, 2);
    refused(&words(&[one, (b'N', &[1, 7, 5])]), 18, 2);
}

#[test]
fn first_words_that_are_no_letters() {
    for word in [
        0,
        10,
        79,
        81,
        b'p'.into(),
        80 + 256,
        80 + (1 << 32),
        STANDARD,
    ] {
        let mut list = words(&[(b'P', &[1, 5]), (b'P', &[2, 5])]);
        list[RECORD_WORDS] = word;
        refused(&list, 4, 2);
    }
}

#[test]
fn spare_words_that_are_not_zero() {
    for spare in 3..RECORD_WORDS {
        for word in [1, STANDARD - 1, STANDARD] {
            let mut list = words(&[(b'P', &[1, 5]), (b'P', &[2, 5])]);
            list[RECORD_WORDS + spare] = word;
            refused(&list, 5, 2);
        }
    }
}

#[test]
fn odd_lengths() {
    let list = words(&[(b'P', &[1, 5]), (b'W', &[1, 0, 9])]);
    refused(&list[..0], 14, 0);
    refused(&list[..1], 5, 1);
    refused(&list[..2], 5, 1);
    for length in 3..10 {
        written(&list[..length], b"P,1,5\n");
    }
    for length in 10..13 {
        refused(&list[..length], 5, 2);
    }
    for length in 13..19 {
        written(&list[..length], b"P,1,5\nW,1,0,9\n");
    }
    // A further word is not dropped, and a last word alone is a record.
    refused(&[80, 1, 5, 0, 1], 5, 1);
    refused(&[80, 1, 5, 0, 0, 0, 0, 0, 0, 0], 4, 2);
}

#[test]
fn numbers_of_twenty_digits() {
    for word in [10_000_000_000_000_000_000, STANDARD - 1] {
        refused(&words(&[(b'P', &[1, word])]), 7, 1);
        refused(&words(&[(b'P', &[word, 5])]), 7, 1);
    }
}

#[test]
fn every_shorter_space_is_unchanged() {
    let list = works();
    for length in 0..WORKS.len() {
        let mut space = patterned(length);
        let answer = write_into(&list, &mut space);
        assert_eq!((answer.number, answer.line, answer.length), (16, 0, 0));
        assert_eq!(space, patterned(length));
    }
}

#[test]
fn exactly_long_enough() {
    let mut space = patterned(WORKS.len());
    assert_eq!(write_into(&works(), &mut space), ACCEPTED);
    assert_eq!(space, WORKS);
}

#[test]
fn past_the_sheet_a_longer_space_is_unchanged() {
    for more in [1, 2, 100, 65_536, 1_000_000] {
        let length = WORKS.len() + more;
        let mut space = patterned(length);
        assert_eq!(write_into(&works(), &mut space), ACCEPTED);
        assert_eq!(&space[..WORKS.len()], WORKS);
        assert_eq!(&space[WORKS.len()..], &patterned(length)[WORKS.len()..]);
    }
}

#[test]
fn every_shorter_list_is_unchanged() {
    for length in 0..LINES * RECORD_WORDS {
        let mut list = numbers(length);
        let counted = read_into(WORKS, &mut list);
        assert_eq!((counted.number, counted.line, counted.count), (16, 0, 0));
        assert_eq!(list, numbers(length));
    }
}

#[test]
fn past_the_records_a_longer_list_is_unchanged() {
    let records = works();
    for more in [1, 2, 8, 9, 10, 36_864, 1_000_000] {
        let mut list = numbers(records.len() + more);
        assert_eq!(read_into(WORKS, &mut list), COUNTED);
        assert_eq!(&list[..records.len()], records);
        assert_eq!(
            &list[records.len()..],
            &numbers(list.len())[records.len()..]
        );
    }
}

#[test]
fn part_of_a_list_is_lent() {
    let records = works();
    let mut list = numbers(1000);
    assert_eq!(read_into(WORKS, &mut list[7..900]), COUNTED);
    let end = 7 + records.len();
    assert_eq!(&list[..7], &numbers(1000)[..7]);
    assert_eq!(&list[7..end], records);
    assert_eq!(&list[end..], &numbers(1000)[end..]);
}

/// Every line's fault comes before a list that is too short, and leaves a list as it was.
#[test]
fn refusals_of_a_sheet() {
    let long = b"P,1,5\n".repeat(10_923);
    let many = [&b"P,1,5\n"[..], &b"W,0,1,1\n".repeat(4096)].concat();
    let refusals: [(u64, usize, &[u8]); 16] = [
        (1, 0, &long),
        (2, 4097, &many),
        (3, 1, b"P,1,5"),
        (4, 1, b"\n"),
        (5, 1, b"P,1\n"),
        (6, 1, b"P,1,05\n"),
        (7, 1, b"P,1,0\n"),
        (8, 1, b"P,2,5\n"),
        (9, 2, b"P,1,5\nW,1,2,9\n"),
        (10, 2, b"P,1,5\nW,1,1,9\n"),
        (11, 2, b"P,1,5\nS,1,1,0,1,-,1,1,0\n"),
        (12, 4, b"P,1,5\nP,2,5\nG,1,2,1\nG,1,2,1\n"),
        (13, 3, b"P,1,5\nP,2,5\nG,1,2,6\n"),
        (14, 0, b""),
        (17, 2, b"K,1,1,5,5\nK,1,1,6,6\n"),
        (18, 2, b"P,1,5\nN,1,1,5\n"),
    ];
    for (number, line, sheet) in refusals {
        for length in [0, 8, 36_864] {
            let mut list = numbers(length);
            let expected = Counted {
                number,
                line,
                count: 0,
            };
            assert_eq!(read_into(sheet, &mut list), expected);
            assert_eq!(list, numbers(length));
        }
    }
}

#[test]
fn several_threads_at_once() {
    let records = works();
    thread::scope(|threads| {
        for _ in 0..8 {
            threads.spawn(|| {
                for _ in 0..200 {
                    written(&records, WORKS);
                    assert_eq!(works(), records);
                }
            });
        }
    });
}
