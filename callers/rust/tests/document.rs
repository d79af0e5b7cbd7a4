//! The examples of document 01: its sheet, its table of refusals, what it accepts; cases of document 02; and the works in
//! example/.

use wiltoresh::{longest, report, report_into, Answer, Refusal};

const SHEET: &[u8] = b"P,1,1000
P,2,400
S,1,1,16,1000,-,-,10000,0
H,1,2,10000,56100
E,0,2,500,400000
B,2,100,1900000,250000
G,1,2,300
";

const REPORT: &[u8] = b"R,1,2131800,0,0,2131800,0,1492260,0,2131.800,0.000
R,2,561000,200000,0,1390540,225000,1390540,225000,3476.350,562.500
T,3107800,3107800,0,0
";

/// Number, line, the line's text and the sheet. Rows 1, 2 and 16 need long sheets or a short space: below.
const REFUSED: [(u64, usize, &[u8], &[u8]); 14] = [
    (3, 1, b"P,1,5", b"P,1,5"),
    (4, 1, b"", b"\n"),
    (5, 1, b"P,1", b"P,1\n"),
    (6, 1, b"P,1,05", b"P,1,05\n"),
    (7, 1, b"P,1,0", b"P,1,0\n"),
    (8, 1, b"P,2,5", b"P,2,5\n"),
    (9, 2, b"W,1,2,9", b"P,1,5\nW,1,2,9\n"),
    (10, 2, b"W,1,1,9", b"P,1,5\nW,1,1,9\n"),
    (11, 2, b"S,1,1,0,1,-,1,1,0", b"P,1,5\nS,1,1,0,1,-,1,1,0\n"),
    (12, 4, b"G,1,2,1", b"P,1,5\nP,2,5\nG,1,2,1\nG,1,2,1\n"),
    (13, 3, b"G,1,2,6", b"P,1,5\nP,2,5\nG,1,2,6\n"),
    (14, 0, b"", b""),
    (17, 2, b"K,1,1,6,6", b"K,1,1,5,5\nK,1,1,6,6\n"),
    (18, 2, b"N,1,1,5", b"P,1,5\nN,1,1,5\n"),
];

fn parts(refusal: Refusal<'_>) -> (u64, usize, &[u8]) {
    (refusal.number(), refusal.line(), refusal.text())
}

#[test]
fn sheet_of_the_document() {
    assert_eq!(report(SHEET).unwrap().as_bytes(), REPORT);
}

#[test]
fn example_works() {
    let sheet = include_bytes!("../../../example/works.csv");
    let expected = include_bytes!("../../../example/works.report.csv");
    assert_eq!(report(sheet).unwrap().as_bytes(), expected);
}

#[test]
fn balance_raised_to_zero() {
    let expected = b"R,1,0,0,1,0,0,0,0,0.000,0.000\nT,0,-1,1,0\n";
    let given = report(b"P,1,5\nE,1,0,1,1000\n").unwrap();
    assert_eq!(given.as_bytes(), expected);
}

/// Document 02, ticket 2: 11 g of carbon in and 4 g out, half of each biomass: 6 − 2.
#[test]
fn biomass_in_a_mass_balance() {
    let expected = b"R,1,4,0,0,4,0,4,0,0.800,0.000\nT,4,4,0,0\n";
    let given =
        report(b"P,1,5\nS,1,3,0,3,1000,0,10000,5000\nS,1,4,0,1,1000,0,10000,5000\n").unwrap();
    assert_eq!(given.as_bytes(), expected);
}

/// Document 02, ticket 4: 100 kg at the verified 1,900,000 and 250,000 mg/kg, stated below the default and the use.
#[test]
fn figures_of_a_bought_precursor() {
    let expected = b"R,1,0,0,0,190000,25000,190000,25000,190.000,25.000\nT,215000,215000,0,0\n";
    let given =
        report(b"P,1,1000\nK,7,3,2500000,400000\nN,1,7,100\nK,7,1,1900000,250000\n").unwrap();
    assert_eq!(given.as_bytes(), expected);
    assert_eq!(report(b"K,7,1,5,5\n").unwrap().as_bytes(), b"T,0,0,0,0\n");
}

#[test]
fn table_of_refusals() {
    for (number, line, text, sheet) in REFUSED {
        let refusal = report(sheet).unwrap_err();
        assert_eq!(parts(refusal), (number, line, text));
        // The text is that part of the lent sheet and no copy.
        assert!(line == 0 || sheet.as_ptr_range().contains(&refusal.text().as_ptr()));

        let mut space = vec![b'#'; longest()];
        let expected = Answer {
            number,
            line,
            length: 0,
        };
        assert_eq!(report_into(sheet, &mut space), expected);
        assert!(space.iter().all(|byte| *byte == b'#'));
    }
}

#[test]
fn space_of_ten_bytes_for_the_report() {
    let expected = Answer {
        number: 16,
        line: 0,
        length: 0,
    };
    let mut space = *b"0123456789";
    assert_eq!(report_into(SHEET, &mut space), expected);
    assert_eq!(&space, b"0123456789");
}

/// 65,536 bytes in 4,096 lines: 6 + 4,094 × 16 + 26 bytes.
fn greatest_sheet() -> Vec<u8> {
    let mut sheet = b"P,1,5\n".to_vec();
    sheet.extend(b"E,0,1,1000000,0\n".repeat(4094));
    sheet.extend(b"E,0,1,10000000000,2000000\n");
    sheet
}

#[test]
fn greatest_sheet_is_accepted() {
    let sheet = greatest_sheet();
    assert_eq!(sheet.len(), 65_536);
    assert_eq!(sheet.iter().filter(|byte| **byte == b'\n').count(), 4096);
    // 10,000,000,000 kWh at 2,000,000 mg are 20,000,000,000,000 g, a fifth of that for each kilogram.
    let expected =
        "R,1,0,20000000000000,0,0,20000000000000,0,20000000000000,0.000,4000000000000.000
T,20000000000000,20000000000000,0,0
";
    assert_eq!(report(&sheet).unwrap().to_string(), expected);
}

#[test]
fn one_byte_too_many() {
    let mut sheet = greatest_sheet();
    sheet.push(b'\n');
    assert_eq!(parts(report(&sheet).unwrap_err()), (1, 0, &b""[..]));
}

#[test]
fn very_long_sheet() {
    let sheet = b"P,1,5\n".repeat(1_000_000);
    assert_eq!(parts(report(&sheet).unwrap_err()), (1, 0, &b""[..]));
}

#[test]
fn one_line_too_many() {
    let mut sheet = b"P,1,5\n".to_vec();
    sheet.extend(b"E,0,1,1,0\n".repeat(4095));
    assert!(report(&sheet).is_ok());
    sheet.extend(b"any text");
    assert_eq!(
        parts(report(&sheet).unwrap_err()),
        (2, 4097, &b"any text"[..])
    );
}

#[test]
fn good_taking_all_output_is_accepted() {
    assert!(report(b"P,1,1\nP,2,5\nG,1,2,1\n").is_ok());
}
