//! Writes the cases to standard output, the same bytes at every run. A case is
//! a header of five decimal numbers of eight digits each (sheet length, report
//! space length, number, line, report length), then the sheet, then the report
//! if the number is 0. The count for each number goes to standard error.

use std::io::{self, Write};

use reference::samples::{Dice, KILOS, Maker, Size, every_figure, full_sheet, mixed_sheet, pad};
use reference::sheet::{MOST_BYTES, MOST_LINES};
use reference::{Outcome, report, report_into};

const SEED: u64 = 20_182_066;
const LEAST_CASES: usize = 2_100;
const LEAST_OF_EACH: usize = 25;
/// What a space holds before; no report has this byte.
const BLANK: u8 = 0xaa;

struct Cases {
    out: Vec<u8>,
    counts: [usize; 19],
    dice: Dice,
}

impl Cases {
    /// One case with a space of this length.
    fn add_with(&mut self, sheet: &[u8], space_length: usize) {
        let mut space = vec![BLANK; space_length];
        let outcome = report_into(sheet, &mut space);
        check(sheet, &space, outcome);
        write!(
            self.out,
            "{:08}{:08}{:08}{:08}{:08}",
            sheet.len(),
            space_length,
            outcome.number,
            outcome.line,
            outcome.length
        )
        .unwrap();
        self.out.extend(sheet);
        self.out.extend(&space[..outcome.length]);
        self.counts[outcome.number as usize] += 1;
    }

    /// One case with a space that suffices, just or amply; for a sheet that
    /// is refused anyway, with any space.
    fn add(&mut self, sheet: impl AsRef<[u8]>) {
        let sheet = sheet.as_ref();
        let space = match report(sheet) {
            Ok(report) => report.len() + self.dice.pick(&[0, 0, 1, 2, 60, 4_000]),
            Err(_) => self.dice.pick(&[0, 1, 10, 23, 200, 4_096]),
        };
        self.add_with(sheet, space);
    }

    /// Cases with spaces at both sides of the report's length.
    fn add_spaces(&mut self, sheet: &[u8]) {
        let length = report(sheet).unwrap().len();
        for space in [
            0,
            1,
            length / 2,
            length - 1,
            length,
            length + 1,
            length + 777,
        ] {
            self.add_with(sheet, space);
        }
    }

    fn add_lines(&mut self, before: &str, line: &str) {
        self.add(format!("{before}{line}\n"));
    }
}

/// The promises of the library that a case's bytes do not show.
fn check(sheet: &[u8], space: &[u8], outcome: Outcome) {
    assert!(space[outcome.length..].iter().all(|byte| *byte == BLANK));
    match report(sheet) {
        Ok(report) if report.len() <= space.len() => {
            assert_eq!((outcome.number, outcome.line), (0, 0));
            assert_eq!(report, space[..outcome.length]);
        }
        Ok(_) => assert_eq!(
            outcome,
            Outcome {
                number: 16,
                line: 0,
                length: 0
            }
        ),
        Err((number, line)) => assert_eq!(
            outcome,
            Outcome {
                number,
                line,
                length: 0
            }
        ),
    }
}

const EXAMPLE: &str = "P,1,1000\nP,2,400\nS,1,1,16,1000,-,-,10000,0\nH,1,2,10000,56100\n\
E,0,2,500,400000\nB,2,100,1900000,250000\nG,1,2,300\n";

/// Two processes of the highest output.
const TWO: &str = "P,1,10000000000\nP,2,10000000000\n";

fn processes(count: usize, output: u64) -> String {
    (1..=count).map(|n| format!("P,{n},{output}\n")).collect()
}

/// The sheets that the paper itself shows.
fn paper(cases: &mut Cases) {
    cases.add_spaces(EXAMPLE.as_bytes());
    cases.add_with(EXAMPLE.as_bytes(), 10);
    for sheet in [
        "P,1,1\nS,1,1,16,1,-,-,10000,0\n",
        "P,1,1\nS,1,2,1,1000,-,0,10000,0\n",
        "P,1,1000\nS,1,3,0,1000,850000,0,10000,0\n",
        "P,1,1000\nS,1,4,0,1000,850000,0,10000,0\n",
        "P,1,1\nH,0,1,1,500\n",
        "P,1,1\nH,0,1,1,499\n",
        "P,1,1\nH,0,1,1,1499\n",
        "P,1,1\nH,0,1,1,1500\n",
        "P,1,1\nP,2,1\nW,1,2,1\n",
        "P,1,1\nP,2,1\nW,1,2,10\n",
        "P,1,1\nP,2,1\nW,2,1,10\n",
        "P,1,1\nW,0,1,10\n",
        "P,1,1\nW,1,0,10\n",
        "P,1,3\nP,2,1\nP,3,1\nH,0,1,1,10000\nG,1,2,1\nG,1,3,1\n",
        "P,1,3\nP,2,1\nP,3,1\nH,0,1,1,10000\nG,1,3,1\nG,1,2,1\n",
        "P,1,5\nE,1,0,1,1000\n",
        "P,1,5\nE,1,1,1,1000\n",
        "P,1,5\nP,2,5\nG,1,2,5\n",
        "P,1,1\n",
        "P,1,5",
        "\n",
        "P,1\n",
        "P,1,05\n",
        "P,1,0\n",
        "P,2,5\n",
        "P,1,5\nW,1,2,9\n",
        "P,1,5\nW,1,1,9\n",
        "P,1,5\nS,1,1,0,1,-,1,1,0\n",
        "P,1,5\nP,2,5\nG,1,2,1\nG,1,2,1\n",
        "P,1,5\nP,2,5\nG,1,2,6\n",
        "",
    ] {
        cases.add(sheet);
    }
    for space in 0..LEAST_OF_EACH {
        cases.add_with(b"", space * space);
    }
}

/// A kind of line, its good fields, and for some fields their place and range.
struct Limits {
    kind: &'static str,
    fields: &'static [&'static str],
    ranges: &'static [(usize, u64, u64)],
}

const LIMITS: [Limits; 13] = [
    Limits {
        kind: "P",
        fields: &["3", "7"],
        ranges: &[(0, 1, 16), (1, 1, KILOS)],
    },
    Limits {
        kind: "S",
        fields: &["1", "1", "0", "900", "30000", "70000", "9000", "100"],
        ranges: &[
            (0, 1, 16),
            (1, 1, 4),
            (2, 0, 16),
            (3, 1, KILOS),
            (4, 1, 200_000),
            (5, 0, 400_000),
            (6, 0, 10_000),
            (7, 0, 10_000),
        ],
    },
    Limits {
        kind: "S",
        fields: &["2", "1", "3", "900", "-", "-", "10000", "0"],
        ranges: &[(2, 1, 16), (4, 1, 200_000), (5, 0, 400_000)],
    },
    Limits {
        kind: "S",
        fields: &["2", "2", "1", "900", "40000", "0", "9000", "100"],
        ranges: &[
            (0, 1, 16),
            (1, 1, 4),
            (2, 0, 9),
            (3, 1, KILOS),
            (4, 0, 4_000_000),
            (5, 0, 0),
            (6, 0, 10_000),
            (7, 0, 10_000),
        ],
    },
    Limits {
        kind: "S",
        fields: &["1", "3", "0", "900", "500000", "0", "10000", "7"],
        ranges: &[
            (0, 1, 16),
            (1, 1, 4),
            (2, 0, 0),
            (3, 1, KILOS),
            (4, 0, 1_000_000),
            (5, 0, 0),
            (6, 10_000, 10_000),
            (7, 0, 10_000),
        ],
    },
    Limits {
        kind: "S",
        fields: &["1", "4", "0", "900", "500000", "0", "10000", "7"],
        ranges: &[
            (2, 0, 0),
            (3, 1, KILOS),
            (4, 0, 1_000_000),
            (5, 0, 0),
            (6, 10_000, 10_000),
            (7, 0, 10_000),
        ],
    },
    Limits {
        kind: "H",
        fields: &["0", "1", "77", "56100"],
        ranges: &[
            (0, 0, 16),
            (1, 0, 16),
            (2, 1, 1_000_000_000_000),
            (3, 0, 400_000),
        ],
    },
    Limits {
        kind: "W",
        fields: &["0", "1", "77"],
        ranges: &[(0, 0, 16), (1, 0, 16), (2, 1, 1_000_000_000_000)],
    },
    Limits {
        kind: "E",
        fields: &["0", "1", "77", "400000"],
        ranges: &[
            (0, 0, 16),
            (1, 0, 16),
            (2, 1, 100_000_000_000),
            (3, 0, 2_000_000),
        ],
    },
    Limits {
        kind: "B",
        fields: &["1", "77", "3000", "4000"],
        ranges: &[
            (0, 1, 16),
            (1, 1, KILOS),
            (2, 0, 100_000_000),
            (3, 0, 100_000_000),
        ],
    },
    Limits {
        kind: "G",
        fields: &["1", "2", "77"],
        ranges: &[(0, 0, 16), (1, 0, 16), (2, 1, KILOS)],
    },
    Limits {
        kind: "K",
        fields: &["7", "2", "3000", "4000"],
        ranges: &[
            (0, 1, 255),
            (1, 1, 3),
            (2, 0, 100_000_000),
            (3, 0, 100_000_000),
        ],
    },
    Limits {
        kind: "N",
        fields: &["1", "9", "77"],
        ranges: &[(0, 1, 16), (1, 1, 255), (2, 1, KILOS)],
    },
];

/// Two processes, and figures that most uses of the precursors 1 and 9 need.
const FIGURES: &str = "P,1,900\nP,2,90\nK,9,3,5500,500\nK,1,1,1499,1500\n";

impl Limits {
    fn line(&self, place: usize, value: &str) -> String {
        let mut fields = self.fields.to_vec();
        fields[place] = value;
        format!("{},{}", self.kind, fields.join(","))
    }
}

/// Both sides of every range, and numbers that come into range when cut to
/// 32 or 64 bits.
fn ranges(cases: &mut Cases) {
    for limits in &LIMITS {
        for &(place, lowest, highest) in limits.ranges {
            let mut values = vec![
                lowest.to_string(),
                highest.to_string(),
                (highest + 1).to_string(),
                format!("0{highest}"),
                (u128::from(lowest) + (1 << 32)).to_string(),
                (u128::from(highest) + (1 << 64)).to_string(),
                u64::MAX.to_string(),
                "-".into(),
                "-1".into(),
            ];
            if let Some(below) = lowest.checked_sub(1) {
                values.push(below.to_string());
            }
            if let Some(below) = highest.checked_sub(1) {
                values.push(below.to_string());
            }
            let above = if limits.kind == "N" { FIGURES } else { TWO };
            for value in values {
                cases.add_lines(above, &limits.line(place, &value));
            }
        }
    }
    // Processes and ends where all 16 are there, and the seventeenth.
    let sixteen = processes(16, 9);
    for (kind, ends, rest) in [
        ("S", 1, "2,1,5,-,0,10000,0"),
        ("B", 1, "5,6,7"),
        ("N", 1, "5,6"),
        ("H", 2, "5,600"),
        ("W", 2, "5"),
        ("E", 2, "5,600"),
        ("G", 2, "9"),
    ] {
        for end in ["0", "1", "15", "16", "17"] {
            if ends == 1 {
                cases.add_lines(&sixteen, &format!("{kind},{end},{rest}"));
            } else {
                cases.add_lines(&sixteen, &format!("{kind},{end},16,{rest}"));
                cases.add_lines(&sixteen, &format!("{kind},15,{end},{rest}"));
            }
        }
    }
    for last in ["P,16,9", "P,17,9", "P,1,9", "P,0,9", "P,17,0", "P,16,0"] {
        cases.add_lines(&sixteen, last);
    }
    for count in 1..=15 {
        cases.add_lines(&processes(count, 3), &format!("P,{count},3"));
        cases.add_lines(&processes(count, 3), &format!("P,{},3", count + 2));
        cases.add_lines(
            &processes(count, 3),
            &format!("E,{count},{},1,1", count + 1),
        );
    }
    cases.add_lines(&processes(15, 3), "P,16,3");
    for other in [
        "E,0,1,1,1",
        "W,1,0,1",
        "H,0,1,1,1",
        "B,1,1,1,1",
        "K,1,1,1,1",
        "N,1,1,1",
        "S,1,3,0,1,1,0,10000,0",
    ] {
        cases.add(format!("P,1,5\n{other}\nP,2,5\n"));
        cases.add(format!("P,1,5\n{other}\nP,1,5\n"));
        cases.add(format!("{other}\nP,1,5\n"));
    }
}

/// Every pair of ends of every kind, known or not.
fn ends(cases: &mut Cases) {
    for from in 0..=3 {
        for to in 0..=3 {
            for (kind, rest) in [("H", "9,1500"), ("W", "9"), ("E", "9,1500"), ("G", "2")] {
                cases.add_lines("P,1,4\nP,2,4\n", &format!("{kind},{from},{to},{rest}"));
            }
        }
    }
}

/// What is no number, and first fields and counts that are near to good ones.
fn spelling(cases: &mut Cases) {
    for value in [
        "",
        "00",
        "01",
        "+1",
        "-1",
        "--",
        " 1",
        "1 ",
        "1\r",
        "\t1",
        "1.0",
        "1e1",
        "0x1",
        "1_0",
        "\u{661}",
        "1\0",
        "\0",
        "/",
        ":",
        "1/",
        "1:",
        "\u{2212}",
        "0-",
        "-0",
        "000000000000000001",
        "1111111111111111x",
        "x",
        "1\u{b0}",
        "½",
    ] {
        let limits = &LIMITS[cases.dice.index(LIMITS.len())];
        let place = cases.dice.index(limits.fields.len());
        cases.add_lines(TWO, &limits.line(place, value));
        cases.add_lines("P,1,5\n", &format!("W,0,1,{value}"));
        cases.add_lines("P,1,5\n", &format!("W,{value},1,1"));
    }
    for line in [
        "p,3,5",
        "PP,3,5",
        " P,3,5",
        "P ,3,5",
        "P;3;5",
        "R,1,5",
        "T,1",
        "A",
        "-",
        "0",
        ",",
        ",,",
        "X,1,2,3",
        "s,1",
        "Q",
        "\r",
        "\0",
        "\u{feff}P,3,5",
        "#",
        "O,0,1,5",
        "k,1,1,5,5",
        "n,1,1,5",
        "w,0,1,5",
        "3,P,5",
        "Hh,0,1,5,5",
        "é,1",
        "V,1,2",
    ] {
        cases.add_lines(TWO, line);
        cases.add(line);
    }
    for limits in &LIMITS {
        let full = format!("{},{}", limits.kind, limits.fields.join(","));
        cases.add_lines(TWO, limits.kind);
        cases.add_lines(TWO, &format!("{},", limits.kind));
        cases.add_lines(TWO, &format!("{full},"));
        cases.add_lines(TWO, &format!("{full},0"));
        cases.add_lines(TWO, &format!("{full}\r"));
        cases.add_lines(TWO, &format!("{full}\n"));
        cases.add_lines(TWO, &full[..full.rfind(',').unwrap()]);
        cases.add(format!("{TWO}{full}"));
        cases.add_lines(TWO, &full);
    }
    cases.add_lines(TWO, &format!("S{}", ",0".repeat(2_000)));
    cases.add_lines(TWO, &format!("P{}", ",".repeat(1_000)));
    cases.add(format!("{TWO}S{}", ",".repeat(1_000)));
    for digits in 10..=24 {
        cases.add_lines("P,1,5\n", &format!("W,0,1,{}", "1".repeat(digits)));
        cases.add(format!("P,1,5\nW,0,1,{}", "1".repeat(digits)));
    }
    for digits in [39, 77, 256, 1_000, 4_000] {
        let nines = "9".repeat(digits);
        let power = format!("1{}", "0".repeat(digits));
        cases.add_lines("P,1,5\n", &format!("W,0,1,{nines}"));
        cases.add_lines("P,1,5\n", &format!("E,0,1,{nines}x,x"));
        if digits < 4_000 {
            cases.add_lines("P,1,5\n", &format!("W,{power},0,{nines}x"));
            cases.add_lines("", &format!("P,1,0{nines}"));
            cases.add_lines("P,1,5\n", &format!("S,1,1,16,1,-,-,{power},0"));
        }
    }
}

/// Lines with two and more faults, where the order of the numbers decides.
fn several_faults(cases: &mut Cases) {
    let values = [
        "-",
        "",
        "05",
        "x",
        "0",
        "1",
        "2",
        "3",
        "16",
        "17",
        "18446744073709551617",
        "10000000001",
        "1000000000001",
        "99999999999999999999",
        "4",
        "10000",
        "10001",
    ];
    for round in 0..330 {
        let limits = &LIMITS[round % LIMITS.len()];
        let mut fields = limits.fields.to_vec();
        for _ in 0..cases.dice.between(2, 3) {
            let place = cases.dice.index(fields.len());
            fields[place] = cases.dice.pick(&values);
        }
        match cases.dice.below(12) {
            0 => drop(fields.pop()),
            1 => fields.push("0"),
            _ => {}
        }
        let end = if cases.dice.once_in(12) { "" } else { "\n" };
        let above = cases.dice.pick(&[
            "",
            "P,1,5\n",
            "P,1,90\nP,2,90\n",
            "P,1,5\nP,2,5\nG,1,2,5\n",
            FIGURES,
        ]);
        cases.add(format!("{above}{},{}{end}", limits.kind, fields.join(",")));
    }
    for sheet in [
        "x",
        "P",
        "P,1",
        "S",
        "P,x,5,\n",
        "P,0,x\n",
        "P,x,0\n",
        "P,2,0\n",
        "P,17,5\n",
        "E,0,0,1,1\n",
        "W,0,0,1\n",
        "H,0,0,1,1\n",
        "G,0,0,1\n",
        "H,0,1,1,1\n",
        "G,0,1,1\n",
        "P,1,5\nH,17,1,0,1\n",
        "P,1,5\nH,2,2,1,1\n",
        "P,1,5\nG,0,2,1\n",
        "P,1,5\nG,2,0,1\n",
        "P,1,5\nG,2,1,9\n",
        "P,1,5\nG,1,1,9\n",
        "P,1,5\nP,2,5\nG,1,2,1\nG,1,2,9\n",
        "P,1,5\nP,2,5\nG,1,2,1\nG,2,1,9\n",
        "P,1,5\nS,2,1,0,1,-,-,1,0\n",
        "P,1,5\nS,2,2,0,1,-,0,1,0\n",
        "P,1,5\nS,17,9,0,1,1,1,1,1\n",
        "P,1,5\nS,x,9,0,1,1,1,1,1\n",
        "P,1,5\nS,2,5,x,x,x,x,x,x\n",
        "P,1,5\nS,2,x,99,0,0,0,0,99999\n",
        "P,1,5\nS,1,3,1,x,x,x,x,x\n",
        "P,1,5\nS,1,4,0,1,-,-,-,-\n",
        "P,1,5\nS,1,2,0,1,-,-,1,0\n",
        "P,1,5\nS,1,2,0,1,-,1,1,0\n",
        "P,1,5\nS,1,1,0,1,-,-,1,10001\n",
        "P,1,5\n\nP,3",
        "\nP,1,5",
        "K,17,0,x,1\n",
        "K,256,x,1,1\n",
        "K,1,1,1,1\nK,1,1,1,x\n",
        "K,1,1,1,1\nK,1,1,1,1,1\n",
        "K,1,1,1,1\nK,1,1,1,1",
        "P,1,5\nN,2,7,x\n",
        "P,1,5\nN,2,256,1\n",
        "P,1,5\nN,2,7,1\n",
        "P,1,5\nN,1,7,1\nN,2,7,1\n",
    ] {
        cases.add(sheet);
    }
}

/// A process and a stream for each code of a table. In three of the reports the
/// standard values stand as document 01 prints them.
fn standard_values(cases: &mut Cases) {
    for (codes, method, rest) in [
        (16, 1, "1000,-,1000,10000,0"),
        (16, 1, "1000,1000,-,10000,0"),
        (16, 1, "1000,-,-,10000,0"),
        (16, 1, "9999999937,-,-,9973,1021"),
        (9, 2, "1000,-,0,10000,0"),
        (9, 2, "9999999937,-,0,9973,1021"),
    ] {
        let mut sheet: String = (1..=codes).map(|n| format!("P,{n},1\n")).collect();
        sheet.extend((1..=codes).map(|n| format!("S,{n},{method},{n},{rest}\n")));
        cases.add(sheet);
    }
}

/// Every method and code, with and without `-`.
fn streams(cases: &mut Cases) {
    for code in 0..=17 {
        for (a, b) in [
            ("-", "-"),
            ("-", "60001"),
            ("31007", "-"),
            ("31007", "60001"),
            ("-", "0"),
            ("1", "-"),
        ] {
            let kg = cases.dice.between(1, 99_999);
            cases.add_lines("P,1,1000\n", &format!("S,1,1,{code},{kg},{a},{b},10000,0"));
        }
        let kg = Size::Mixed.number(&mut cases.dice, 1, KILOS);
        let c = cases.dice.between(0, 10_000);
        let d = cases.dice.between(0, 10_000);
        cases.add_lines("P,1,1000\n", &format!("S,1,1,{code},{kg},-,-,{c},{d}"));
    }
    for code in 0..=10 {
        for (a, b) in [
            ("-", "0"),
            ("440001", "0"),
            ("0", "0"),
            ("-", "-"),
            ("-", "1"),
        ] {
            let kg = cases.dice.between(1, 99_999);
            let c = cases.dice.between(0, 10_000);
            let d = cases.dice.between(0, 10_000);
            cases.add_lines("P,1,1000\n", &format!("S,1,2,{code},{kg},{a},{b},{c},{d}"));
        }
    }
    for method in [3, 4] {
        for (code, a, b, c, d) in [
            ("0", "1", "0", "10000", "0"),
            ("0", "999", "0", "10000", "5000"),
            ("0", "1000000", "0", "10000", "10000"),
            ("0", "-", "0", "10000", "0"),
            ("0", "5", "-", "10000", "0"),
            ("0", "5", "0", "-", "0"),
            ("0", "5", "0", "10000", "-"),
            ("-", "5", "0", "10000", "0"),
            ("1", "5", "0", "10000", "0"),
            ("0", "5", "1", "10000", "0"),
            ("0", "5", "0", "9999", "0"),
            ("0", "5", "0", "0", "0"),
        ] {
            let kg = cases.dice.between(1, 99_999);
            cases.add_lines(
                "P,1,1000\n",
                &format!("S,1,{method},{code},{kg},{a},{b},{c},{d}"),
            );
        }
    }
    // `-` with code 0, in sheets that are good up to that line.
    for (above, line) in [
        ("P,1,5\n", "S,1,1,0,1,-,-,0,0"),
        ("P,1,5\n", "S,1,1,0,1,-,0,10000,10000"),
        ("P,1,5\n", "S,1,1,0,1,200000,-,1,0"),
        ("P,1,5\n", "S,1,2,0,1,-,0,1,0"),
        (EXAMPLE, "S,2,1,0,10000000000,-,400000,1,0"),
        (EXAMPLE, "S,1,2,0,7,-,0,0,0"),
    ] {
        cases.add_lines(above, line);
        cases.add(format!("{above}{line}\n{line}\n"));
        cases.add(format!("{above}{line}\nP,1,5\n"));
    }
}

const SHARES: [u64; 5] = [0, 1, 5_000, 9_999, 10_000];

/// kg and carbon content from the lowest to the highest. 10 kg at 1,000 are 37 g,
/// of which a share of 5,000 leaves a half; 4,094 kg are 15,000 g, of which 1 and
/// 9,999 do.
const CARBON: [(u64, u64); 11] = [
    (1, 0),
    (1, 499),
    (1, 500),
    (1, 1_000),
    (1, 1_500),
    (3, 1_000),
    (10, 1_000),
    (4_094, 1_000),
    (1_000, 850_000),
    (KILOS - 1, 999_999),
    (KILOS, 1_000_000),
];

/// The biomass share of carbon going in and going out.
fn charcoal(cases: &mut Cases) {
    for method in [3, 4] {
        for d in SHARES {
            for (kg, a) in CARBON {
                cases.add_lines("P,1,7\n", &format!("S,1,{method},0,{kg},{a},0,10000,{d}"));
            }
        }
        // Few grams with shares at both sides of a half: 4 g, 15 g and 22 g are
        // a half at 8,750, at 9,000 and at 7,500.
        for (kg, half) in [(1, 8_750), (4, 9_000), (6, 7_500)] {
            for d in half - 1..=half + 1 {
                cases.add_lines("P,1,7\n", &format!("S,1,{method},0,{kg},1000,0,10000,{d}"));
            }
        }
    }
    for round in 0..60 {
        let size = [Size::Small, Size::Mixed, Size::Highest][round % 3];
        let mut maker = Maker::new(&mut cases.dice, 2, size);
        for _ in 0..cases.dice.between(1, 4) {
            let method = cases.dice.between(3, 4);
            maker.carbon(&mut cases.dice, method);
        }
        maker.good(&mut cases.dice);
        cases.add(maker.sheet);
    }
}

/// Charcoal in and carbon out in the iron of one process; the balance is raised
/// or not.
fn charcoal_and_iron(cases: &mut Cases) {
    for (kg, a, iron_kg, iron_a) in [
        (1_000, 850_000, 1_000, 40_000),
        (10, 1_000, 5, 1_000),
        (5, 1_000, 10, 1_000),
        (KILOS, 1_000_000, KILOS, 999_999),
    ] {
        for d in SHARES {
            for iron_d in [0, 5_000, 10_000] {
                cases.add(format!(
                    "P,1,9\nP,2,5\nS,1,3,0,{kg},{a},0,10000,{d}\n\
S,1,4,0,{iron_kg},{iron_a},0,10000,{iron_d}\nG,1,2,4\n"
                ));
            }
        }
    }
}

/// Remainders just below, at and just above one half at each rounding.
fn rounding(cases: &mut Cases) {
    for rest in [499, 500, 501, 999, 1_000, 1_499, 1_500] {
        for line in [
            format!("S,1,1,0,1,{rest},1000,10000,0"),
            format!("S,1,1,0,1,1000,{rest},10000,0"),
            format!("S,1,2,0,1,{rest},0,10000,0"),
            format!("S,1,3,0,1,{rest},0,10000,0"),
            format!("S,1,3,0,{rest},1000,0,10000,0"),
            format!("H,0,1,1,{rest}"),
            format!("H,1,0,{rest},1"),
            format!("W,0,1,{rest}"),
            format!("W,1,0,{rest}"),
            format!("E,0,1,1,{rest}"),
            format!("B,1,1,{rest},{}", rest + 1),
        ] {
            cases.add_lines("P,1,7\n", &line);
        }
    }
    for share in [4_999, 5_000, 5_001, 9_999, 1, 0] {
        cases.add_lines("P,1,7\n", &format!("S,1,1,0,1,1000,1000,{share},0"));
        cases.add_lines("P,1,7\n", &format!("S,1,1,0,1,1000,1000,10000,{share}"));
        cases.add_lines("P,1,7\n", &format!("S,1,2,0,3,1000,0,{share},{share}"));
    }
    // Rounded at each stage, and not once at the end.
    cases.add("P,1,1\nS,1,1,0,1,1500,750,7500,2500\n");
    cases.add("P,1,1\nS,1,1,0,1,1499,750,7499,2501\n");
    // Specific figures are cut down.
    for (pool, output) in [
        (2, 3),
        (1_999, 1_000),
        (1_999, 2_000),
        (1, 1_000),
        (1, 1_001),
        (9_999, 10_000),
        (1, KILOS),
    ] {
        cases.add(format!("P,1,{output}\nB,1,{pool},1000,1000\n"));
    }
    // Waste gas, charge and credit.
    for mj in [1u64, 2, 3, 4, 5, 7, 8, 9, 11, 13, 1_000_000_000_000] {
        cases.add(format!(
            "P,1,7\nP,2,7\nW,2,1,{mj}\nW,0,2,{mj}\nW,1,0,{mj}\n"
        ));
    }
}

/// Goods: outputs just taken up and just exceeded, second pairs, and all 120
/// pairs of 16 processes in several orders.
fn goods(cases: &mut Cases) {
    for round in 0..45 {
        let output = match round % 3 {
            0 => cases.dice.between(2, 30),
            1 => cases.dice.between(1_000, 99_999),
            _ => KILOS - cases.dice.below(3),
        };
        let first = cases.dice.between(1, output - 1);
        let last = output - first;
        let above = format!("P,1,{output}\nP,2,1\nP,3,1\nB,1,{output},1777,2333\nG,1,3,{first}\n");
        cases.add_lines(&above, &format!("G,1,2,{last}"));
        cases.add_lines(&above, &format!("G,1,2,{}", last + 1));
        cases.add_lines(&above, &format!("G,1,3,{last}"));
        if last > 1 {
            cases.add_lines(&above, &format!("G,1,2,{}", last - 1));
        }
    }
    // A pair may stand once; its turned pair may not stand at all.
    cases.add("P,1,5\nP,2,5\nP,3,5\nG,1,2,1\nG,2,3,1\nG,1,3,1\nG,2,3,1\n");
    cases.add("P,1,5\nP,2,5\nP,3,5\nG,1,2,1\nG,2,3,1\nG,1,3,1\nG,3,2,1\n");

    let mut pairs: Vec<(u64, u64)> = (1..16)
        .flat_map(|from| (from + 1..=16).map(move |to| (from, to)))
        .collect();
    for order in 0..8 {
        match order {
            0 => pairs.sort_unstable(),
            1 => pairs.reverse(),
            2 => pairs.sort_unstable_by_key(|pair| (pair.1, pair.0)),
            _ => cases.dice.shuffle(&mut pairs),
        }
        // Orders 0 and 3 take all output of every process but the last, others
        // a part of it.
        let mut output = [1u64; 17];
        let kilos: Vec<u64> = pairs
            .iter()
            .map(|_| match order {
                6.. => cases.dice.between(1, KILOS / 16),
                _ => cases.dice.between(1, 999),
            })
            .collect();
        for (pair, kg) in pairs.iter().zip(&kilos) {
            output[pair.0 as usize] += kg;
        }
        let mut sheet = String::new();
        for (process, above) in output.iter().enumerate().skip(1) {
            let spare = match (order, process) {
                (_, 16) => 10,
                (0 | 3, _) => 0,
                _ => cases.dice.between(1, 700),
            };
            sheet += &format!("P,{process},{}\n", above - 1 + spare);
        }
        for process in 1..=16 {
            let kg = cases.dice.between(1, 9_999);
            sheet += &format!("B,{process},{kg},{},{}\n", kg * 7, kg * 3);
        }
        if order >= 6 {
            sheet += "S,1,1,15,10000000000,200000,400000,10000,0\nE,0,1,100000000000,2000000\n";
        }
        for (pair, kg) in pairs.iter().zip(&kilos) {
            sheet += &format!("G,{},{},{kg}\n", pair.0, pair.1);
        }
        cases.add(&sheet);
        if order < 3 {
            let again = cases.dice.pick(&pairs);
            cases.add(format!("{sheet}G,{},{},1\n", again.0, again.1));
            // At most 700 kg are to spare, so the last G exceeds the output.
            if let Some(cut) = sheet.find(&format!("G,{},{},", pairs[119].0, pairs[119].1)) {
                let kg = kilos[119] + 701;
                cases.add(format!(
                    "{}G,{},{},{kg}\n",
                    &sheet[..cut],
                    pairs[119].0,
                    pairs[119].1
                ));
            }
        }
    }
    // Pools that pass 64 bits when multiplied.
    for _ in 0..30 {
        let count = cases.dice.between(2, 5) as usize;
        let mut maker = Maker::new(&mut cases.dice, count, Size::Highest);
        for _ in 0..cases.dice.between(1, 4) {
            maker.bought(&mut cases.dice);
            maker.stream(&mut cases.dice);
        }
        for _ in 0..4 {
            maker.good(&mut cases.dice);
        }
        cases.add(maker.sheet);
    }
}

/// The six orders of three ranks.
const ORDERS: [[usize; 3]; 6] = [
    [0, 1, 2],
    [0, 2, 1],
    [1, 0, 2],
    [1, 2, 0],
    [2, 0, 1],
    [2, 1, 0],
];

/// Figures of bought precursors at several ranks, and their use.
fn precursors(cases: &mut Cases) {
    // Three ranks in each order, the use at each place; figures rise or fall by
    // the rank.
    let rising = [
        "K,7,1,1000,2000\n",
        "K,7,2,3000,4000\n",
        "K,7,3,5000,6000\n",
    ];
    let falling = [
        "K,7,1,6000,5000\n",
        "K,7,2,4000,3000\n",
        "K,7,3,2000,1000\n",
    ];
    for figures in [rising, falling] {
        for order in ORDERS {
            for place in 0..=3 {
                let mut lines = order.map(|rank| figures[rank]).to_vec();
                lines.insert(place, "N,1,7,10\n");
                cases.add(format!("P,1,1\n{}", lines.concat()));
            }
        }
    }
    // Each set of ranks.
    for set in 1..8 {
        let lines: String = (0..3)
            .filter(|rank| set >> rank & 1 == 1)
            .map(|rank| rising[rank])
            .collect();
        cases.add(format!("P,1,1\nN,1,7,10\n{lines}N,1,7,100\n"));
        cases.add(lines);
    }
    for sheet in [
        // Two precursors, one of which has no figures at rank 1.
        "P,1,1\nN,1,7,10\nN,1,8,10\nK,8,3,300,400\nK,7,1,1000,2000\n",
        // A rank that comes after two uses.
        "P,1,1\nK,7,3,5000,6000\nN,1,7,10\nN,1,7,20\nK,7,1,1000,2000\n",
        // Uses in two processes, and what is passed on.
        "P,1,2\nP,2,1\nK,7,1,1000,2000\nN,1,7,10\nN,2,7,30\nG,1,2,1\n",
        // The grams are in entered, and heat to the outside and power lower it.
        "P,1,1000\nN,1,1,100\nK,1,2,1900000,250000\nE,1,0,1,1000000\n",
        "P,1,9\nK,1,2,1000,0\nN,1,1,5\nH,1,0,9,1000\n",
        // Figures that no use needs.
        "P,1,1\nK,7,2,3000,4000\n",
        "P,1,1\nK,7,2,3000,4000\nN,1,7,10\nK,8,1,1,1\n",
        "P,1,1\nK,6,1,9,9\nK,7,2,3000,4000\nN,1,7,10\n",
        // K lines alone; K above P lines; N without its P line.
        "K,1,1,0,0\n",
        "K,255,3,100000000,100000000\n",
        "K,7,1,5,5\nP,1,5\n",
        "P,1,5\nK,7,1,5,5\nP,2,5\n",
        "N,1,7,1\n",
        "K,7,1,5,5\nN,1,7,1\n",
        "N,1,7,1\nK,7,1,5,5\nP,1,5\n",
        "P,1,5\nK,7,1,5,5\nN,2,7,1\n",
    ] {
        cases.add(sheet);
    }
    // Rounded for each line and each figure.
    for rest in [499, 500, 501, 999, 1_000, 1_499, 1_500] {
        for count in [1, 2, 3] {
            let uses = "N,1,7,1\n".repeat(count);
            cases.add(format!("P,1,7\nK,7,2,{rest},{}\n{uses}", rest + 1));
            cases.add(format!(
                "P,1,7\n{uses}B,1,1,{rest},0\nK,7,3,{rest},{rest}\n"
            ));
            cases.add(format!("P,1,7\nK,7,1,{rest},{rest}\nN,1,7,{count}\n"));
        }
    }
    // The highest of all fields.
    cases.add("P,1,1\nK,255,1,100000000,100000000\nN,1,255,10000000000\n");
    cases.add_spaces(b"K,1,1,5,5\nK,255,3,0,0\n");
    cases.add_spaces(b"P,1,7\nN,1,7,1000\nK,7,2,1900,250\n");
    second_of_rank(cases);
    no_figures(cases);
    for round in 0..60 {
        let size = [Size::Small, Size::Mixed, Size::Highest][round % 3];
        let count = cases.dice.between(1, 4) as usize;
        let mut maker = Maker::new(&mut cases.dice, count, size);
        for _ in 0..cases.dice.between(1, 6) {
            maker.precursor_use(&mut cases.dice);
            maker.precursor_figures(&mut cases.dice);
        }
        maker.good(&mut cases.dice);
        cases.add(&maker.sheet);
        let mut sheet = maker.sheet;
        slip(&mut cases.dice, &mut sheet, round % 6);
        cases.add(sheet);
    }
    every_precursor(cases);
}

/// A second K line of a precursor and rank, and lines that are near to one.
fn second_of_rank(cases: &mut Cases) {
    for precursor in [1, 7, 254, 255] {
        for rank in 1..=3 {
            let first = format!("K,{precursor},{rank},5,5\n");
            let others = format!("K,9,{rank},1,1\nK,{precursor},{},6,6\n", rank % 3 + 1);
            cases.add(format!("{first}{first}"));
            cases.add(format!("{first}{others}"));
            cases.add(format!("{others}{first}K,{precursor},{rank},8,8\n"));
            cases.add(format!("P,1,5\nN,1,{precursor},3\n{first}{others}{first}"));
            cases.add(format!("{first}{first}W,0,1,1\n"));
            cases.add(format!("{first}W,0,1,1\n{first}"));
        }
    }
}

/// Uses of precursors without figures: the first of them, after the refusals of
/// all lines.
fn no_figures(cases: &mut Cases) {
    let above = "P,1,5\nP,2,5\nN,1,7,1\n";
    for below in [
        "",
        "N,2,7,1\n",
        "N,1,8,1\n",
        "N,1,1,1\nN,1,255,1\n",
        "K,8,1,5,5\n",
        "K,1,1,5,5\nK,9,3,5,5\n",
        "K,8,1,5,5\nN,1,8,1\n",
        "K,7,3,5,5\n",
        "N,1,8,1\nK,7,3,5,5\n",
        "N,2,8,1\nK,8,3,5,5\n",
        "N,2,8,1\nN,2,9,1\nK,7,3,5,5\n",
        "G,1,2,1\nH,0,1,1,500\n",
    ] {
        cases.add(format!("{above}{below}"));
        cases.add(format!("P,1,5\nP,2,5\n{below}N,1,7,1\n"));
        // 18 comes before 16, whatever space there is.
        cases.add_with(format!("{above}{below}").as_bytes(), 0);
    }
    for last in [
        "W,0,1,1",
        "\n",
        "W,0,1\n",
        "W,0,1,01\n",
        "W,0,1,0\n",
        "P,3,5\n",
        "N,3,7,1\n",
        "G,2,1,1\n",
        "S,1,1,0,1,-,1,1,0\n",
        "G,1,2,1\nG,1,2,1\n",
        "G,1,2,6\n",
        "K,8,1,5,5\nK,8,1,5,5\n",
    ] {
        cases.add(format!("{above}{last}"));
        cases.add(format!("{above}N,2,8,1\nW,0,1,1\n{last}"));
    }
    for precursor in [1, 2, 128, 254, 255] {
        let others: String = (1..=255)
            .filter(|other| *other != precursor)
            .map(|other| format!("K,{other},{},5,5\n", other % 3 + 1))
            .collect();
        cases.add(format!("P,1,5\n{others}N,1,{precursor},1\n"));
        cases.add(format!("P,1,5\nN,1,{precursor},1\n{others}"));
    }
}

/// All 765 K lines that there can be, with uses of every precursor, and sheets
/// as full as they can be.
fn every_precursor(cases: &mut Cases) {
    for round in 0..6 {
        let size = [Size::Mixed, Size::Highest][round % 2];
        let mut lines = every_figure(&mut cases.dice, size);
        if round < 2 {
            cases.add(lines.concat());
            let again = lines[cases.dice.index(765)].clone();
            cases.add(lines.concat() + &again);
        }
        if round > 2 {
            // Without most of the ranks, and all three of some precursors.
            lines.retain(|_| cases.dice.once_in(3));
        }
        let mut uses: Vec<String> = (1..=255)
            .map(|precursor| {
                let kg = size.number(&mut cases.dice, 1, KILOS);
                format!("N,{},{precursor},{kg}\n", 1 + precursor % 16)
            })
            .collect();
        if round == 4 {
            let stated = |n: usize| {
                lines
                    .iter()
                    .any(|line| line.starts_with(&format!("K,{n},")))
            };
            let mut number = 0;
            uses.retain(|_| {
                number += 1;
                stated(number)
            });
        }
        lines.extend(uses);
        cases.dice.shuffle(&mut lines);
        cases.add(processes(16, KILOS) + &lines.concat());
    }
    // As many lines as there may be, the last of them K, and one more.
    let uses: String = (0..4_094)
        .map(|n| format!("N,1,{},1\n", 1 + n % 2))
        .collect();
    let sheet = format!("P,1,1\n{uses}");
    cases.add(format!("{sheet}K,1,1,500,1500\n"));
    cases.add(format!(
        "P,1,1\nK,2,1,499,7\n{}K,1,1,500,1500\n",
        &uses[8..]
    ));
    cases.add(format!("{sheet}K,1,1,500,1500\nK,2,1,1,1\n"));
    // The highest figures, 65,536 bytes.
    let mut sheet = processes(16, KILOS) + "K,255,1,100000000,100000000\n";
    while sheet.len() + 60 < MOST_BYTES {
        sheet += "N,1,255,10000000000\n";
    }
    let mut sheet = sheet.into_bytes();
    pad(&mut sheet, MOST_BYTES);
    cases.add(sheet);
}

/// Balances below zero by every kind of line, self-fed power, waste gas in
/// every direction.
fn balances(cases: &mut Cases) {
    let lowering = [
        "S,1,4,0,50,900000,0,10000,0",
        "H,1,2,70,56100",
        "H,1,0,70,56100",
        "W,1,2,90",
        "W,1,0,90",
        "E,1,0,30,400000",
        "E,1,2,30,400000",
        "E,1,1,30,400000",
    ];
    let raising = [
        "S,1,1,16,1,-,-,10000,0",
        "S,1,3,0,50,900000,0,10000,0",
        "H,0,1,70,56100",
        "H,2,1,70,56101",
        "W,0,1,60",
        "W,2,1,60",
        "E,0,1,30,400000",
        "B,1,3,4000,5000",
        "N,1,5,3\nK,5,2,4000,5000",
    ];
    for low in lowering {
        for high in raising {
            cases.add(format!("P,1,9\nP,2,8\n{low}\n{high}\nG,1,2,4\n"));
        }
    }
    // Balances of exactly 0, of 1 and of 1 below 0.
    for factor in [999, 1_000, 1_499, 1_500, 2_000, 2_500, 3_000] {
        cases.add(format!("P,1,9\nH,0,1,2,1000\nE,1,1,1,{factor}\n"));
        cases.add(format!("P,1,9\nH,0,1,2,1000\nH,1,0,1,{factor}\n"));
    }
    for _ in 0..40 {
        let count = cases.dice.between(1, 4) as usize;
        let size = cases.dice.pick(&[Size::Small, Size::Mixed, Size::Highest]);
        let mut maker = Maker::new(&mut cases.dice, count, size);
        for _ in 0..3 {
            maker.power(&mut cases.dice);
            maker.gas(&mut cases.dice);
        }
        maker.heat(&mut cases.dice);
        cases.add(maker.sheet);
    }
}

fn spaces(cases: &mut Cases) {
    for round in 0..9 {
        let size = [Size::Small, Size::Mixed, Size::Highest][round % 3];
        let sheet = mixed_sheet(&mut cases.dice, 1 + round / 2, 3, size);
        cases.add_spaces(&sheet);
    }
    // A line's fault comes before the space.
    cases.add_with(b"P,1,5\nP,2", 0);
    cases.add_with(b"P,1,5\nP,3,1\n", 0);
}

/// Good sheets of mixed lines, and slips of such sheets.
fn mixed(cases: &mut Cases) {
    for round in 0..110 {
        let size = [Size::Small, Size::Mixed, Size::Highest, Size::Mixed][round % 4];
        let count = if round % 13 == 0 {
            16
        } else {
            cases.dice.between(1, 5) as usize
        };
        let lines = cases.dice.index(9);
        let sheet = mixed_sheet(&mut cases.dice, count, lines, size);
        cases.add(sheet);
    }
    for round in 0..350 {
        let size = [Size::Small, Size::Mixed, Size::Small][round % 3];
        let count = cases.dice.between(1, 4) as usize;
        let lines = cases.dice.between(1, 5) as usize;
        let mut sheet = mixed_sheet(&mut cases.dice, count, lines, size);
        slip(&mut cases.dice, &mut sheet, round % 6);
        if cases.dice.once_in(10) {
            slip(&mut cases.dice, &mut sheet, round % 5);
        }
        cases.add(sheet);
    }
    for round in 0..90 {
        let length = cases.dice.between(1, 40) as usize;
        let sheet: Vec<u8> = (0..length)
            .map(|_| match round % 3 {
                0 => cases.dice.roll() as u8,
                1 => cases.dice.pick(b"PSHWEBGKN0123456789,,,,\n\n-"),
                _ => cases.dice.pick(b"PW01,,\n"),
            })
            .collect();
        cases.add(sheet);
    }
}

/// Changes a good sheet a little.
fn slip(dice: &mut Dice, sheet: &mut Vec<u8>, way: usize) {
    let at = dice.index(sheet.len());
    match way {
        0 => sheet[at] = dice.pick(b"PSHWEBGKN0123456789,\n-x \r\0\xff"),
        1 => drop(sheet.remove(at)),
        2 => sheet.insert(at, sheet[at]),
        3 => sheet.truncate(at),
        4 => sheet[at] = dice.pick(b"0123456789"),
        _ => {
            let mut lines: Vec<&[u8]> = sheet.split_inclusive(|byte| *byte == b'\n').collect();
            let first = dice.index(lines.len());
            let second = dice.index(lines.len());
            match dice.below(3) {
                0 => lines.swap(first, second),
                1 => lines.insert(second, lines[first]),
                _ => drop(lines.remove(first)),
            }
            *sheet = lines.concat();
        }
    }
}

/// A full sheet of the highest figures of all kinds, most of them bought
/// precursors of process 1, which weigh most; its goods go to all others.
fn highest_sheet(dice: &mut Dice) -> Vec<u8> {
    let mut sheet = processes(16, KILOS).into_bytes();
    for to in 2..=16 {
        writeln!(sheet, "G,1,{to},{}", KILOS / 16 + dice.below(9_999)).unwrap();
        writeln!(sheet, "S,{to},1,0,10000000000,200000,400000,10000,0").unwrap();
        writeln!(sheet, "S,1,2,0,10000000000,4000000,0,10000,0").unwrap();
        writeln!(sheet, "S,{to},3,0,10000000000,1000000,0,10000,0").unwrap();
        writeln!(sheet, "S,{},4,0,10000000000,1000000,0,10000,0", to - 1).unwrap();
        writeln!(sheet, "H,{to},{},1000000000000,400000", to - 1).unwrap();
        writeln!(sheet, "W,{},{to},1000000000000", to - 1).unwrap();
        writeln!(sheet, "E,0,{to},100000000000,2000000").unwrap();
        writeln!(sheet, "E,{to},{to},100000000000,2000000").unwrap();
    }
    while sheet.len() + 60 < MOST_BYTES {
        sheet.extend(b"B,1,10000000000,100000000,100000000\n");
    }
    pad(&mut sheet, MOST_BYTES);
    sheet
}

/// Sheets at and over the limits of bytes and lines.
fn full(cases: &mut Cases) {
    // Exactly 65,536 bytes, accepted: mixed lines, and the highest figures.
    let sheet = full_sheet(&mut cases.dice, 16, Size::Mixed, MOST_BYTES);
    assert_eq!(sheet.len(), MOST_BYTES);
    cases.add(&sheet);
    let highest = highest_sheet(&mut cases.dice);
    assert_eq!(highest.len(), MOST_BYTES);
    cases.add(&highest);

    // 65,537 bytes and more.
    for round in 0..LEAST_OF_EACH {
        let sheet = match round {
            0 => [&highest[..], b"\n"].concat(),
            1 => [&sheet[..], b"x"].concat(),
            2 => vec![b'\n'; MOST_BYTES + 1],
            3 => vec![b'9'; MOST_BYTES + 1],
            4 => vec![0; MOST_BYTES + 1],
            5 => [&vec![b'7'; MOST_BYTES + 2][..], b"\n"].concat(),
            6 => [&b"P,1,"[..], &vec![b'7'; MOST_BYTES - 4], b"\n"].concat(),
            _ => {
                let size = cases.dice.pick(&[Size::Mixed, Size::Highest]);
                let count = 1 + round % 16;
                full_sheet(&mut cases.dice, count, size, MOST_BYTES + 1)
            }
        };
        cases.add(sheet);
    }

    // 4,096 lines, accepted; the last of them bad; and one line more.
    let short = |dice: &mut Dice| {
        let mut sheet = "P,1,1\nP,2,3\n".to_owned();
        for _ in 2..MOST_LINES {
            sheet += &match dice.below(4) {
                0 => format!("W,1,2,{}\n", dice.below(9) + 1),
                1 => format!("W,1,0,{}\n", dice.below(9) + 1),
                _ => format!("W,0,{},{}\n", dice.below(2) + 1, dice.below(9) + 1),
            };
        }
        sheet
    };
    let good = short(&mut cases.dice);
    cases.add(&good);
    cases.add(&good[..good.len() - 1]);
    cases.add(good[..good.len() - 2].to_owned() + "0\nW,0,1,1\n");
    let after = [
        "W,0,1,1\n",
        "W,0,1,1",
        "\n",
        "P,3,1\n",
        "x",
        "x\n",
        "\n\n",
        "P",
        "P,1,05\n",
        "-",
        "\0",
        "W,1,1,1\n",
        "W,0,1,1\nW,0,1,1\n",
        "W,0,3,1\n",
        "S,1,1,0,1,-,-,1,0\n",
        "G,1,2,9\n",
        " ",
        "\r\n",
        "G,1,2,1\n",
        "G,1,2,1",
        ",",
        "0",
        "W,0,1\n",
        "\n\n\n\n",
        "T\n",
    ];
    assert!(after.len() >= LEAST_OF_EACH);
    for last in after {
        let sheet = short(&mut cases.dice) + last;
        cases.add(sheet);
    }
}

fn main() -> io::Result<()> {
    let mut cases = Cases {
        out: Vec::new(),
        counts: [0; 19],
        dice: Dice::new(SEED),
    };
    for family in [
        paper,
        ranges,
        ends,
        spelling,
        several_faults,
        streams,
        charcoal,
        charcoal_and_iron,
        rounding,
        goods,
        precursors,
        balances,
        spaces,
        mixed,
        full,
        standard_values,
    ] {
        family(&mut cases);
    }
    let total: usize = cases.counts.iter().sum();
    for (number, count) in cases.counts.iter().enumerate() {
        eprintln!("number {number:2}: {count}");
    }
    eprintln!("cases: {total}, bytes: {}", cases.out.len());
    assert!(total >= LEAST_CASES);
    for (number, count) in cases.counts.iter().enumerate() {
        assert!(
            number == 15 || *count >= LEAST_OF_EACH,
            "too few of {number}"
        );
    }
    io::stdout().lock().write_all(&cases.out)
}
