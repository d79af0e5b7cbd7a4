//! The writer and the reader of records: against a sheet spelt with strings and
//! the report's own refusals, and case by case.

use reference::record_samples::{Way, record_list, records_of};
use reference::samples::{Dice, Size, full_sheet, mixed_sheet};
use reference::{Read, Written, read_sheet, report, write_sheet};

const DASH: u64 = u64::MAX;
const MOST_BYTES: usize = 65_536;

/// The sheets that the paper and the repository show.
const EXAMPLES: [&[u8]; 2] = [
    b"P,1,1000\nP,2,400\nS,1,1,16,1000,-,-,10000,0\nH,1,2,10000,56100\n\
E,0,2,500,400000\nB,2,100,1900000,250000\nG,1,2,300\n",
    include_bytes!("../../example/works.csv"),
];

/// Fields of a kind, as the paper's list of lines has them.
fn field_count(letter: u64) -> Option<usize> {
    let lines = [
        "P,n,kg",
        "S,n,method,code,kg,a,b,c,d",
        "H,from,to,MJ,factor",
        "W,from,to,MJ",
        "E,from,to,kWh,factor",
        "B,n,kg,direct,indirect",
        "G,from,to,kg",
        "K,precursor,rank,direct,indirect",
        "N,process,precursor,kg",
    ];
    lines
        .iter()
        .find(|line| u64::from(line.as_bytes()[0]) == letter)
        .map(|line| line.matches(',').count())
}

/// The sheet of a list, field by field.
fn spelt(list: &[u64]) -> Vec<u8> {
    let mut sheet = String::new();
    for record in list.chunks(9) {
        if let Some(count) = field_count(record[0]) {
            sheet.push(record[0] as u8 as char);
            let spare = record.iter().skip(1 + count).all(|word| *word == 0);
            let count = if spare { count } else { 8 };
            for word in record[1..].iter().take(count) {
                sheet.push(',');
                match *word {
                    DASH => sheet.push('-'),
                    number => sheet += &number.to_string(),
                }
            }
        }
        sheet.push('\n');
    }
    sheet.into_bytes()
}

/// The number, line and sheet that the writer must give with this space.
fn expected(sheet: &[u8], space: usize) -> (u32, u32, &[u8]) {
    match report(sheet) {
        Err((number, line)) => (number, line, &[]),
        Ok(_) if space < sheet.len() => (16, 0, &[]),
        Ok(_) => (0, 0, sheet),
    }
}

/// Writes the list and checks the outcome and every byte of the space.
#[track_caller]
fn writes(list: &[u64], length: usize) -> u32 {
    let sheet = spelt(list);
    let (number, line, bytes) = expected(&sheet, length);
    let mut space = vec![0xaa; length];
    let written = write_sheet(list, &mut space);
    let outcome = Written {
        number,
        line,
        length: bytes.len(),
    };
    assert_eq!(written, outcome, "{list:?}");
    assert_eq!(&space[..bytes.len()], bytes);
    assert!(space[bytes.len()..].iter().all(|byte| *byte == 0xaa));
    number
}

/// Reads the sheet and checks the outcome and every number of the list.
#[track_caller]
fn reads(sheet: &[u8], length: usize) -> u32 {
    let (number, line, records) = match report(sheet) {
        Err((number, line)) => (number, line, vec![]),
        Ok(_) => match records_of(sheet) {
            records if records.len() > length => (16, 0, vec![]),
            records => (0, 0, records),
        },
    };
    let mut list = vec![77; length];
    let read = read_sheet(sheet, &mut list);
    let outcome = Read {
        number,
        line,
        count: records.len() / 9,
    };
    assert_eq!(read, outcome);
    assert_eq!(list[..records.len()], records);
    assert!(list[records.len()..].iter().all(|word| *word == 77));
    number
}

#[track_caller]
fn refused(list: &[u64], number: u32, line: u32) {
    for length in [0, 10, MOST_BYTES + 200] {
        let mut space = vec![0xaa; length];
        let written = write_sheet(list, &mut space);
        let outcome = Written {
            number,
            line,
            length: 0,
        };
        assert_eq!(written, outcome);
        assert!(space.iter().all(|byte| *byte == 0xaa));
    }
}

#[track_caller]
fn spells(list: &[u64], sheet: &str) {
    let mut space = vec![0xaa; sheet.len() + 3];
    let written = write_sheet(list, &mut space);
    assert_eq!((written.number, written.line), (0, 0));
    assert_eq!(&space[..written.length], sheet.as_bytes());
    assert_eq!(space[written.length..], [0xaa; 3]);
}

/// Words of a record whose fields are these, spare words being 0.
fn record(letter: u8, fields: &[u64]) -> Vec<u64> {
    let mut words = vec![0; 9];
    words[0] = letter.into();
    words[1..=fields.len()].copy_from_slice(fields);
    words
}

fn records(lines: &[(u8, &[u64])]) -> Vec<u64> {
    let each = lines.iter().map(|(letter, fields)| record(*letter, fields));
    each.collect::<Vec<_>>().concat()
}

/// Reading and writing again, and writing and reading again.
#[track_caller]
fn goes_round(sheet: &[u8]) {
    let lines = sheet.iter().filter(|byte| **byte == b'\n').count();
    let mut list = vec![77; lines * 9];
    let read = read_sheet(sheet, &mut list);
    assert_eq!((read.number, read.line, read.count), (0, 0, lines));
    let mut space = vec![0xaa; sheet.len()];
    let written = write_sheet(&list, &mut space);
    assert_eq!((written.number, written.line), (0, 0));
    assert_eq!(written.length, sheet.len());
    assert_eq!(space, sheet);
    let mut again = vec![78; list.len()];
    assert_eq!(read_sheet(&space, &mut again), read);
    assert_eq!(again, list);
}

#[test]
fn round_trips() {
    for sheet in EXAMPLES {
        goes_round(sheet);
    }
    let mut dice = Dice::new(10);
    for round in 0..1_000 {
        let size = [Size::Small, Size::Mixed, Size::Highest][round % 3];
        let processes = dice.between(1, 16) as usize;
        let lines = dice.index(40);
        goes_round(&mixed_sheet(&mut dice, processes, lines, size));
    }
    for size in [Size::Mixed, Size::Highest] {
        goes_round(&full_sheet(&mut dice, 16, size, MOST_BYTES));
    }
    goes_round(&("P,1,1\n".to_owned() + &"W,0,1,1\n".repeat(4_095)).into_bytes());
}

#[test]
fn words_of_the_example() {
    let list: Vec<u64> = [
        [80, 1, 1_000, 0, 0, 0, 0, 0, 0],
        [80, 2, 400, 0, 0, 0, 0, 0, 0],
        [83, 1, 1, 16, 1_000, DASH, DASH, 10_000, 0],
        [72, 1, 2, 10_000, 56_100, 0, 0, 0, 0],
        [69, 0, 2, 500, 400_000, 0, 0, 0, 0],
        [66, 2, 100, 1_900_000, 250_000, 0, 0, 0, 0],
        [71, 1, 2, 300, 0, 0, 0, 0, 0],
    ]
    .concat();
    spells(&list, std::str::from_utf8(EXAMPLES[0]).unwrap());
    let mut read = vec![77; 64];
    assert_eq!(read_sheet(EXAMPLES[0], &mut read).count, 7);
    assert_eq!(read[..63], list);
    assert_eq!(read[63], 77);
}

#[test]
fn refusals_of_the_table() {
    let one: (u8, &[u64]) = (b'P', &[1, 5]);
    let two: (u8, &[u64]) = (b'P', &[2, 5]);
    refused(&vec![7; 9 * (MOST_BYTES + 1)], 1, 0);
    let short = |count: usize| {
        let rest = record(b'W', &[0, 1, 1]).repeat(count - 1);
        [record(b'P', &[1, 1]), rest].concat()
    };
    refused(&short(4_097), 2, 4_097);
    refused(&record(b'A', &[1, 5]), 4, 1);
    refused(&record(b'P', &[1, 5, 5]), 5, 1);
    refused(&record(b'P', &[1, DASH]), 6, 1);
    refused(&record(b'P', &[1, 0]), 7, 1);
    refused(&record(b'P', &[2, 5]), 8, 1);
    refused(&records(&[one, (b'W', &[1, 2, 9])]), 9, 2);
    refused(&records(&[one, (b'W', &[1, 1, 9])]), 10, 2);
    let stream = [1, 1, 0, 1, DASH, 1, 1, 0];
    refused(&records(&[one, (b'S', &stream)]), 11, 2);
    let good: (u8, &[u64]) = (b'G', &[1, 2, 1]);
    refused(&records(&[one, two, good, good]), 12, 4);
    refused(&records(&[one, two, (b'G', &[1, 2, 6])]), 13, 3);
    refused(&[], 14, 0);
    // Accepted: 4,096 lines, and after a bad line the list is not judged.
    assert_eq!(writes(&short(4_096), MOST_BYTES), 0);
    let mut bad = short(4_097);
    bad[4_095 * 9 + 3] = 0;
    refused(&bad, 7, 4_096);
}

/// Ticket 4: K and N lines as records, and the refusals 17 and 18.
#[test]
fn precursors() {
    let one: (u8, &[u64]) = (b'P', &[1, 5]);
    let verified: (u8, &[u64]) = (b'K', &[255, 1, 9, 100_000_000]);
    let default: (u8, &[u64]) = (b'K', &[255, 3, 0, 0]);
    let used: (u8, &[u64]) = (b'N', &[1, 255, 10_000_000_000]);
    let list: Vec<u64> = [
        [80, 1, 5, 0, 0, 0, 0, 0, 0],
        [78, 1, 255, 10_000_000_000, 0, 0, 0, 0, 0],
        [75, 255, 3, 0, 0, 0, 0, 0, 0],
        [75, 255, 1, 9, 100_000_000, 0, 0, 0, 0],
    ]
    .concat();
    assert_eq!(list, records(&[one, used, default, verified]));
    let sheet = "P,1,5\nN,1,255,10000000000\nK,255,3,0,0\nK,255,1,9,100000000\n";
    spells(&list, sheet);
    goes_round(sheet.as_bytes());
    // K lines alone, which need no P line.
    spells(&records(&[default]), "K,255,3,0,0\n");
    goes_round(b"K,1,2,0,7\nK,1,1,7,0\n");

    refused(&records(&[one, verified, default, verified]), 17, 4);
    refused(&records(&[verified, verified, one]), 17, 2);
    refused(&records(&[one, used, one]), 8, 3);
    refused(&records(&[one, used, used]), 18, 2);
    refused(
        &records(&[one, verified, (b'N', &[1, 254, 1]), used]),
        18,
        3,
    );
    refused(&records(&[verified, one]), 8, 2);
    refused(&records(&[verified, used]), 9, 2);
    refused(&records(&[one, (b'K', &[256, 1, 9, 9])]), 7, 2);
    refused(&records(&[one, (b'K', &[1, 4, 9, 9])]), 7, 2);
    refused(&records(&[one, (b'K', &[1, 1, DASH, 9])]), 6, 2);
    refused(&records(&[one, (b'K', &[1, 1, 9, 9, 1])]), 5, 2);
    refused(&records(&[one, (b'N', &[1, 0, 9])]), 7, 2);
    refused(&records(&[one, (b'N', &[1, 1, 9, 1])]), 5, 2);
    // 18 before the space, which is too short for any sheet.
    let mut space = [0xaa; 5];
    let written = write_sheet(&records(&[one, used]), &mut space);
    assert_eq!((written.number, written.line), (18, 2));
    assert_eq!(read_sheet(b"P,1,5\nN,1,7,1\n", &mut []).number, 18);
}

#[test]
fn limits_of_bytes() {
    let mut dice = Dice::new(11);
    let list = |dice: &mut Dice, length| records_of(&full_sheet(dice, 16, Size::Mixed, length));
    assert_eq!(writes(&list(&mut dice, MOST_BYTES), MOST_BYTES), 0);
    assert_eq!(writes(&list(&mut dice, MOST_BYTES), MOST_BYTES - 1), 16);
    refused(&list(&mut dice, MOST_BYTES + 1), 1, 0);
    // Bad lines count with all their bytes: an empty line has one, and a word
    // that is spare makes eight fields. 1 comes before the line's own fault.
    refused(&vec![DASH; 9 * MOST_BYTES], 4, 1);
    refused(&vec![DASH; 9 * MOST_BYTES + 1], 1, 0);
    let mut spare = list(&mut dice, MOST_BYTES - 10);
    assert_eq!(writes(&spare, MOST_BYTES), 0);
    // The first record is of the kind P: six fields more of two bytes each.
    spare[8] = 1;
    refused(&spare, 1, 0);
    let mut spare = list(&mut dice, MOST_BYTES - 12);
    spare[8] = 1;
    refused(&spare, 5, 1);
    refused(&vec![u64::MAX - 1; 1_000_000], 1, 0);
    refused(&record(b'P', &[DASH - 1; 8]).repeat(385), 5, 1);
    refused(&record(b'P', &[DASH - 1; 8]).repeat(386), 1, 0);
    // The longest line there is, above just as many bytes as a sheet may have.
    let longest = record(b'P', &[DASH - 1; 8]);
    refused(&[longest, list(&mut dice, MOST_BYTES)].concat(), 1, 0);
}

#[test]
fn letters() {
    for letter in (0..600).chain([80 + (1 << 32), 1 << 63, DASH]) {
        let mut list = record(b'P', &[1, 5]);
        list.extend([letter, 9, 9, 9, 9, 9, 9, 9, 9]);
        let number = match field_count(letter) {
            None => 4,
            // There is no method 9.
            Some(8) => 7,
            Some(_) => 5,
        };
        refused(&list, number, 2);
        let last = list.len() - 8;
        refused(&list[..last], if number == 4 { 4 } else { 5 }, 2);
    }
}

#[test]
fn spare_words() {
    let lines = std::str::from_utf8(EXAMPLES[0]).unwrap().lines();
    let list = records_of(EXAMPLES[0]);
    for (place, line) in lines.enumerate() {
        let count = line.matches(',').count();
        for spare in count..8 {
            for word in [1, 16, DASH - 1, DASH] {
                let mut list = list.clone();
                list[place * 9 + 1 + spare] = word;
                refused(&list, 5, place as u32 + 1);
            }
        }
    }
}

#[test]
fn odd_lengths() {
    let list = records_of(EXAMPLES[0]);
    for length in 0..=list.len() {
        let number = writes(&list[..length], 200);
        let has = (length % 9).checked_sub(1);
        let needs = field_count(list[length / 9 * 9..].first().copied().unwrap_or(0));
        let expected = match (length, has) {
            (0, _) => 14,
            (_, Some(has)) if has < needs.unwrap() => 5,
            _ => 0,
        };
        assert_eq!(number, expected, "{length}");
    }
    // A last record has the words that are there, and one not 0 is not dropped.
    spells(&[80, 1, 5], "P,1,5\n");
    spells(&[80, 1, 5, 0, 0], "P,1,5\n");
    refused(&[80, 1, 5, 0, 1], 5, 1);
    refused(&[80, 1], 5, 1);
    refused(&[80], 5, 1);
    refused(&[79], 4, 1);
    refused(&[80, 1, 5, 0, 0, 0, 0, 0, 0, 80], 5, 2);
    refused(&[80, 1, 5, 0, 0, 0, 0, 0, 0, 0], 4, 2);
}

#[test]
fn huge_numbers() {
    for word in [
        1 << 63,
        9_999_999_999_999_999_999,
        10_000_000_000_000_000_000,
        DASH - 3,
        DASH - 2,
        DASH - 1,
    ] {
        refused(&record(b'P', &[1, word]), 7, 1);
        refused(&record(b'P', &[word, DASH]), 7, 1);
        for place in 0..8 {
            let mut stream = [1, 1, 16, 5, 5, 5, 5, 5];
            stream[place] = word;
            refused(&records(&[(b'P', &[1, 5]), (b'S', &stream)]), 7, 2);
        }
    }
    // `-` stands for the standard value in a and b alone.
    for place in 0..8 {
        let mut stream = [1, 1, 16, 5, 5, 5, 5, 5];
        stream[place] = DASH;
        let list = records(&[(b'P', &[1, 5]), (b'S', &stream)]);
        match place {
            4 => spells(&list, "P,1,5\nS,1,1,16,5,-,5,5,5\n"),
            5 => spells(&list, "P,1,5\nS,1,1,16,5,5,-,5,5\n"),
            _ => refused(&list, 6, 2),
        }
    }
    // Numbers of every length that a field may have.
    for digits in 0..=12 {
        let mj = 10u64.pow(digits);
        for mj in [mj, mj.max(2) - 1, mj.min(MJ - 1) + 1] {
            let list = records(&[(b'P', &[1, 5]), (b'W', &[0, 1, mj])]);
            spells(&list, &format!("P,1,5\nW,0,1,{mj}\n"));
        }
    }
}

const MJ: u64 = 1_000_000_000_000;

#[test]
fn spaces_and_lists() {
    for sheet in EXAMPLES {
        let list = records_of(sheet);
        for length in 0..sheet.len() + 20 {
            let number = writes(&list, length);
            assert_eq!(number, if length < sheet.len() { 16 } else { 0 });
        }
        for length in 0..list.len() + 20 {
            let number = reads(sheet, length);
            assert_eq!(number, if length < list.len() { 16 } else { 0 });
        }
    }
    // A line's fault comes before the list's length.
    assert_eq!(read_sheet(b"P,1,5", &mut []).number, 3);
    assert_eq!(read_sheet(b"", &mut []).number, 14);
}

#[test]
fn made_up_lists() {
    let mut dice = Dice::new(12);
    let mut counts = [0; 19];
    for round in 0..24_000 {
        let way = Way::ALL[round % 8];
        let list = record_list(&mut dice, way);
        let length = match dice.below(3) {
            0 => dice.index(600),
            _ => (spelt(&list).len() + dice.index(4)).saturating_sub(1),
        };
        counts[writes(&list, length) as usize] += 1;
    }
    for (number, count) in counts.iter().enumerate() {
        // No record lacks its LF, 1 and 2 are of long lists, 15 of none.
        if ![1, 2, 3, 15].contains(&number) {
            assert!(*count >= 25, "{number}: {count}");
        }
    }
    for _ in 0..150 {
        let list = record_list(&mut dice, Way::Full);
        counts[writes(&list, MOST_BYTES) as usize] += 1;
    }
    assert!(counts[1] >= 5 && counts[2] >= 5, "{counts:?}");
    assert_eq!((counts[3], counts[15]), (0, 0));
}

#[test]
fn made_up_sheets() {
    let mut dice = Dice::new(13);
    let mut refusals = 0;
    for round in 0..6_000 {
        let size = [Size::Small, Size::Mixed, Size::Highest][round % 3];
        let processes = dice.between(1, 4) as usize;
        let mut sheet = mixed_sheet(&mut dice, processes, round % 5, size);
        if round % 4 != 0 {
            let at = dice.index(sheet.len());
            match dice.below(3) {
                0 => sheet.truncate(at),
                1 => sheet[at] = dice.pick(b"PSHWEBGKN0123456789,\n-x"),
                _ => sheet[at] = dice.pick(b"0123456789"),
            }
        }
        let lines = sheet.iter().filter(|byte| **byte == b'\n').count();
        let length = (lines * 9 + dice.index(4)).saturating_sub(1);
        refusals += usize::from(reads(&sheet, length) != 0);
    }
    assert!((1_000..5_000).contains(&refusals));
}
