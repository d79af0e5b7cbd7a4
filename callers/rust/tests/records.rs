//! Records of the type: round trips, the refusals that they can meet, the greatest number, the limits of a sheet.

use wiltoresh::{read, report, write, Record, STANDARD};

const WORKS: &[u8] = include_bytes!("../../../example/works.csv");

/// The sheet of document 01, and a line of each kind of document 02.
const SHEET: &[u8] = b"P,1,1000
P,2,400
S,1,1,16,1000,-,-,10000,0
H,1,2,10000,56100
E,0,2,500,400000
B,2,100,1900000,250000
G,1,2,300
K,9,2,1700000,200000
N,2,9,50
";

const RECORDS: [Record; 9] = [
    Record::Process {
        number: 1,
        output: 1000,
    },
    Record::Process {
        number: 2,
        output: 400,
    },
    Record::SourceStream {
        process: 1,
        method: 1,
        code: 16,
        mass: 1000,
        a: None,
        b: None,
        c: 10_000,
        d: 0,
    },
    Record::MeasurableHeat {
        from: 1,
        to: 2,
        megajoules: 10_000,
        factor: 56_100,
    },
    Record::Electricity {
        from: 0,
        to: 2,
        kilowatt_hours: 500,
        factor: 400_000,
    },
    Record::BoughtPrecursor {
        process: 2,
        mass: 100,
        direct: 1_900_000,
        indirect: 250_000,
    },
    Record::OwnGood {
        from: 1,
        to: 2,
        mass: 300,
    },
    Record::PrecursorFigures {
        precursor: 9,
        rank: 2,
        direct: 1_700_000,
        indirect: 200_000,
    },
    Record::PrecursorUse {
        process: 2,
        precursor: 9,
        mass: 50,
    },
];

fn process(number: u64, output: u64) -> Record {
    Record::Process { number, output }
}

fn gas(from: u64, to: u64, megajoules: u64) -> Record {
    Record::WasteGas {
        from,
        to,
        megajoules,
    }
}

fn good(mass: u64) -> Record {
    Record::OwnGood {
        from: 1,
        to: 2,
        mass,
    }
}

fn figures(rank: u64) -> Record {
    Record::PrecursorFigures {
        precursor: 255,
        rank,
        direct: 0,
        indirect: 100_000_000,
    }
}

fn used(precursor: u64) -> Record {
    Record::PrecursorUse {
        process: 1,
        precursor,
        mass: 9,
    }
}

fn stream(method: u64, code: u64, a: Option<u64>, b: Option<u64>) -> Record {
    Record::SourceStream {
        process: 1,
        method,
        code,
        mass: 1,
        a,
        b,
        c: 10_000,
        d: 0,
    }
}

#[track_caller]
fn refused(records: &[Record], number: u64, line: usize) {
    let refusal = write(records).unwrap_err();
    assert_eq!((refusal.number(), refusal.line()), (number, line));
    assert_eq!(refusal.text(), b"");
}

#[test]
fn records_of_the_document() {
    assert_eq!(write(&RECORDS).unwrap(), SHEET);
    assert_eq!(read(SHEET).unwrap(), RECORDS);
}

#[test]
fn records_with_a_measured_value_and_waste_gas() {
    let records = [
        process(1, 5),
        stream(1, 16, Some(0), None),
        gas(1, 0, 1_000_000_000_000),
    ];
    refused(&records, 7, 2);
    let records = [
        process(1, 5),
        stream(1, 16, Some(48_600), None),
        stream(2, 1, None, Some(0)),
        stream(3, 0, Some(0), Some(0)),
        gas(1, 0, 1_000_000_000_000),
    ];
    let sheet = b"P,1,5\nS,1,1,16,1,48600,-,10000,0\nS,1,2,1,1,-,0,10000,0\nS,1,3,0,1,0,0,10000,0\nW,1,0,1000000000000\n";
    assert_eq!(write(&records).unwrap(), sheet);
    assert_eq!(read(sheet).unwrap(), records);
}

#[test]
fn records_of_precursors() {
    let records = [
        process(1, 5),
        used(255),
        figures(3),
        figures(1),
        figures(2),
        used(255),
    ];
    let sheet = b"P,1,5\nN,1,255,9\nK,255,3,0,100000000\nK,255,1,0,100000000\nK,255,2,0,100000000\nN,1,255,9\n";
    assert_eq!(write(&records).unwrap(), sheet);
    assert_eq!(read(sheet).unwrap(), records);
    assert_eq!(write(&records[2..5]).unwrap(), &sheet[16..76]);
}

#[test]
fn example_works() {
    let records = read(WORKS).unwrap();
    assert_eq!(records.len(), 41);
    assert_eq!(records[3], process(4, 200_000_000));
    assert_eq!(write(&records).unwrap(), WORKS);
}

#[test]
fn refusals_of_records() {
    let (one, two) = (process(1, 5), process(2, 5));
    refused(&[stream(3, 0, None, Some(0))], 6, 1);
    refused(&[process(1, 0)], 7, 1);
    refused(&[process(2, 5)], 8, 1);
    refused(&[one, gas(0, 1, 9), two], 8, 3);
    refused(&[one, gas(1, 2, 9)], 9, 2);
    refused(&[one, gas(1, 1, 9)], 10, 2);
    refused(&[one, stream(1, 0, None, Some(1))], 11, 2);
    refused(&[one, two, good(1), good(1)], 12, 4);
    refused(&[one, two, good(6)], 13, 3);
    refused(&[], 14, 0);
    refused(&[one, figures(1), figures(2), figures(1)], 17, 4);
    refused(&[one, used(255), used(254), figures(3), used(253)], 18, 3);
    assert_eq!(
        write(&[one, gas(1, 2, 9)]).unwrap_err().to_string(),
        "refused by 9 at line 2: process without a P line above it"
    );
}

#[test]
fn refusals_of_a_sheet_that_is_read() {
    let refusals: [(u64, usize, &[u8], &[u8]); 6] = [
        (3, 2, b"P,2,5", b"P,1,5\nP,2,5"),
        (4, 1, b"", b"\n"),
        (5, 1, b"P,1", b"P,1\n"),
        (6, 1, b"P,1,05", b"P,1,05\n"),
        (13, 3, b"G,1,2,6", b"P,1,5\nP,2,5\nG,1,2,6\n"),
        (14, 0, b"", b""),
    ];
    for (number, line, text, sheet) in refusals {
        let refusal = read(sheet).unwrap_err();
        assert_eq!((refusal.number(), refusal.line()), (number, line));
        assert_eq!(refusal.text(), text);
        assert_eq!(report(sheet).unwrap_err(), refusal);
    }
    assert_eq!(read(&[b'\n'; 65_537]).unwrap_err().number(), 1);
    assert_eq!(read(&[b'\n'; 65_536]).unwrap_err().number(), 4);
}

/// Each field in turn is the number 2^64 - 1, which is no `-`. The same number in a line's text gets the same refusal.
#[test]
fn greatest_number_in_every_field() {
    let text = std::str::from_utf8(SHEET).unwrap();
    let lines: Vec<&str> = text.lines().collect();
    for (place, line) in lines.iter().enumerate() {
        let fields: Vec<&str> = line.split(',').collect();
        for field in 1..fields.len() {
            let mut records = RECORDS;
            *numbers(&mut records[place])[field - 1] = u64::MAX;
            refused(&records, 7, place + 1);

            let mut spelt = fields.clone();
            spelt[field] = "18446744073709551615";
            let sheet = text.replace(line, &spelt.join(","));
            let refusal = report(sheet.as_bytes()).unwrap_err();
            assert_eq!((refusal.number(), refusal.line()), (7, place + 1));
        }
    }
    refused(&[process(1, 5), gas(1, 0, u64::MAX)], 7, 2);
    refused(&[process(1, 5), gas(1, 0, u64::MAX - 1)], 7, 2);
}

/// The numbers of a record, in the line's order; a standard value becomes one.
fn numbers(record: &mut Record) -> Vec<&mut u64> {
    match record {
        Record::Process { number, output } => vec![number, output],
        Record::SourceStream {
            process,
            method,
            code,
            mass,
            a,
            b,
            c,
            d,
        } => {
            let (a, b) = (a.get_or_insert(1), b.get_or_insert(1));
            vec![process, method, code, mass, a, b, c, d]
        }
        Record::MeasurableHeat {
            from,
            to,
            megajoules,
            factor,
        } => vec![from, to, megajoules, factor],
        Record::WasteGas {
            from,
            to,
            megajoules,
        } => vec![from, to, megajoules],
        Record::Electricity {
            from,
            to,
            kilowatt_hours,
            factor,
        } => vec![from, to, kilowatt_hours, factor],
        Record::BoughtPrecursor {
            process,
            mass,
            direct,
            indirect,
        } => vec![process, mass, direct, indirect],
        Record::OwnGood { from, to, mass } => vec![from, to, mass],
        Record::PrecursorFigures {
            precursor,
            rank,
            direct,
            indirect,
        } => vec![precursor, rank, direct, indirect],
        Record::PrecursorUse {
            process,
            precursor,
            mass,
        } => vec![process, precursor, mass],
    }
}

#[test]
fn words_and_records() {
    for record in read(WORKS).unwrap() {
        assert_eq!(Record::from_words(&record.words()), Some(record));
    }
    let words = stream(1, 16, None, Some(7)).words();
    assert_eq!(words, [83, 1, 1, 16, 1, STANDARD, 7, 10_000, 0]);
    assert_eq!(process(1, u64::MAX).words()[2], STANDARD - 1);
    assert_eq!(stream(1, 16, Some(u64::MAX), None).words()[5], STANDARD - 1);
}

#[test]
fn words_of_no_record() {
    assert_eq!(Record::from_words(&[]), None);
    assert_eq!(Record::from_words(&[80, 1, 5]), None);
    assert_eq!(Record::from_words(&[80, 1, 5, 0, 0, 0, 0, 0, 0, 0]), None);
    assert_eq!(Record::from_words(&[79, 1, 5, 0, 0, 0, 0, 0, 0]), None);
    assert_eq!(Record::from_words(&[80, 1, 5, 0, 0, 0, 0, 0, 1]), None);
    assert_eq!(
        Record::from_words(&[80, 1, STANDARD, 0, 0, 0, 0, 0, 0]),
        None
    );
    let mut words = stream(1, 16, None, None).words();
    words[7] = STANDARD;
    assert_eq!(Record::from_words(&words), None);
}

/// 65,536 bytes in 4,096 lines: 6 + 4,094 × 16 + 26 bytes.
fn greatest_list() -> Vec<Record> {
    let power = |kilowatt_hours, factor| Record::Electricity {
        from: 0,
        to: 1,
        kilowatt_hours,
        factor,
    };
    let mut records = vec![process(1, 5)];
    records.extend([power(1_000_000, 0); 4094]);
    records.push(power(10_000_000_000, 2_000_000));
    records
}

#[test]
fn greatest_sheet_goes_round() {
    let records = greatest_list();
    let sheet = write(&records).unwrap();
    assert_eq!(sheet.len(), 65_536);
    assert_eq!(read(&sheet).unwrap(), records);
}

#[test]
fn one_byte_too_many() {
    let mut records = greatest_list();
    records[0] = process(1, 50);
    refused(&records, 1, 0);
}

#[test]
fn one_record_too_many() {
    let mut records = vec![process(1, 5)];
    records.extend([gas(0, 1, 1); 4096]);
    refused(&records, 2, 4097);
    assert!(write(&records[..4096]).is_ok());
}

#[test]
fn very_long_list() {
    refused(&vec![process(1, 5); 1_000_000], 1, 0);
}
