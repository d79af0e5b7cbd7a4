//! Ticket 4 of the later requests, case by case, each report worked out by hand:
//! K lines, which state figures for a bought precursor, and N lines, which
//! record its use.

use reference::reckoning::Account;
use reference::samples::{Dice, Maker, Size, every_figure, mixed_sheet};
use reference::{Outcome, reckon, report, report_into};

#[track_caller]
fn prints(sheet: &str, expected: &str) {
    let report = report(sheet.as_bytes()).unwrap();
    assert_eq!(String::from_utf8(report).unwrap(), expected, "{sheet}");
}

#[track_caller]
fn refused(sheet: &str, number: u32, line: u32) {
    assert_eq!(report(sheet.as_bytes()), Err((number, line)), "{sheet}");
}

/// The report of one process of output 1 whose bought direct and indirect grams
/// are these, and nothing else enters the works.
#[track_caller]
fn bought(sheet: &str, direct: u64, indirect: u64) {
    let sum = direct + indirect;
    prints(
        sheet,
        &format!(
            "R,1,0,0,0,{direct},{indirect},{direct},{indirect},{direct}.000,{indirect}.000\n\
T,{sum},{sum},0,0\n"
        ),
    );
}

/// Figures of precursor 7 at the ranks 1, 2 and 3: 10 kg of it weigh 10 g and
/// 20 g, 30 g and 40 g, 50 g and 60 g.
const RANKS: [&str; 3] = [
    "K,7,1,1000,2000\n",
    "K,7,2,3000,4000\n",
    "K,7,3,5000,6000\n",
];

const ORDERS: [[usize; 3]; 6] = [
    [0, 1, 2],
    [0, 2, 1],
    [1, 0, 2],
    [1, 2, 0],
    [2, 0, 1],
    [2, 1, 0],
];

/// The N line stands above all K lines, between them and below them.
#[test]
fn rank_1_governs_in_each_order() {
    for order in ORDERS {
        for place in 0..=3 {
            let mut lines = order.map(|rank| RANKS[rank]).to_vec();
            lines.insert(place, "N,1,7,10\n");
            bought(&format!("P,1,1\n{}", lines.concat()), 10, 20);
        }
    }
}

#[test]
fn rank_2_governs_where_rank_1_is_not_stated() {
    for lines in [[RANKS[1], RANKS[2]], [RANKS[2], RANKS[1]]] {
        for place in 0..=2 {
            let mut lines = lines.to_vec();
            lines.insert(place, "N,1,7,10\n");
            bought(&format!("P,1,1\n{}", lines.concat()), 30, 40);
        }
    }
}

#[test]
fn rank_3_governs_alone() {
    bought("P,1,1\nK,7,3,5000,6000\nN,1,7,10\n", 50, 60);
    bought("P,1,1\nN,1,7,10\nK,7,3,5000,6000\n", 50, 60);
}

/// The lowest rank governs whichever figures are the higher: 10 kg at 9,000 and
/// 1,000 are 90 g and 10 g.
#[test]
fn the_rank_governs_and_not_the_figure() {
    for lines in [
        ["K,7,3,1000,9000\n", "K,7,1,9000,1000\n"],
        ["K,7,1,9000,1000\n", "K,7,3,1000,9000\n"],
    ] {
        bought(&format!("P,1,1\n{}N,1,7,10\n", lines.concat()), 90, 10);
    }
    // A verified figure of 0 governs over others.
    bought("P,1,1\nK,7,2,5,5\nN,1,7,1000\nK,7,1,0,0\n", 0, 0);
}

/// A K line governs all uses, those above it too: each of the two weighs 10 g and
/// 20 g. With the figures of the lines above alone the first would be 50 and 60.
#[test]
fn later_figures_govern_earlier_uses() {
    bought(
        "P,1,1\nK,7,3,5000,6000\nN,1,7,10\nK,7,1,1000,2000\nN,1,7,10\n",
        20,
        40,
    );
}

/// Figures of one precursor are of no account for another. 10 kg of 7 at 1,000
/// and 2,000 are 10 g and 20 g, and 10 kg of 8 at 300 and 400 are 3 g and 4 g,
/// though 8 has no figures at rank 1.
#[test]
fn two_precursors() {
    bought(
        "P,1,1\nN,1,7,10\nN,1,8,10\nK,8,3,300,400\nK,7,1,1000,2000\n",
        13,
        24,
    );
    // Numbers that are the same in their last bits or digits.
    bought(
        "P,1,1\nK,255,1,1000,0\nK,127,1,3000,0\nK,1,1,5000,0\nN,1,127,10\n",
        30,
        0,
    );
}

/// The uses of one precursor in two processes, and what is passed on: process 1
/// has 10 g and 20 g, of which half goes to 2, which has 30 g and 60 g itself.
#[test]
fn two_processes() {
    prints(
        "P,1,2\nP,2,1\nK,7,1,1000,2000\nN,1,7,10\nN,2,7,30\nG,1,2,1\n",
        "R,1,0,0,0,10,20,5,10,5.000,10.000\n\
R,2,0,0,0,35,70,35,70,35.000,70.000\n\
T,120,120,0,0\n",
    );
}

/// "An N line weighs like a B line with the governing figures": the two have the
/// same report, whatever stands beside.
#[test]
fn weighs_like_a_b_line() {
    let above = "P,1,900\nP,2,7\nE,1,0,9,77777\nB,2,3,4,5\n";
    for (kg, direct, indirect) in [
        (1u64, 499u64, 500u64),
        (1, 1_499, 1_500),
        (10_000_000_000, 100_000_000, 99_999_999),
        (77, 123_456, 0),
    ] {
        let figures = format!("K,200,2,{direct},{indirect}\n");
        let used = format!("{above}{figures}N,1,200,{kg}\nG,1,2,300\n");
        let bought = format!("{above}B,1,{kg},{direct},{indirect}\nG,1,2,300\n");
        assert_eq!(report(used.as_bytes()), report(bought.as_bytes()));
    }
}

/// Each figure is rounded for that N line alone. 1 kg at 500 is half a gram and
/// so 1 g, at 499 none: three lines are 3 g and 0 g. Added before rounding, 3 kg
/// would be round(1.5) = 2 g and round(1.497) = 1 g.
#[test]
fn rounded_for_each_line() {
    bought("P,1,1\nK,7,1,500,499\nN,1,7,1\nN,1,7,1\nN,1,7,1\n", 3, 0);
    bought("P,1,1\nK,7,1,500,499\nN,1,7,3\n", 2, 1);
    // Both figures added before rounding would be round(0.999) = 1 g.
    bought("P,1,1\nK,7,1,500,499\nN,1,7,1\n", 1, 0);
    // A B line of the same process is rounded apart: 1 g and 1 g.
    bought("P,1,1\nK,7,1,500,0\nN,1,7,1\nB,1,1,500,0\n", 2, 0);
}

/// Its grams count among the purchases: entered has them. 100 kg at 1,900,000
/// and 250,000 are 190,000 g and 25,000 g. Power of 1,000 g given away lowers
/// entered, and is raised.
#[test]
fn entered_has_the_purchases_of_n_lines() {
    prints(
        "P,1,1000\nN,1,1,100\nK,1,2,1900000,250000\nE,1,0,1,1000000\n",
        "R,1,0,0,1000,190000,25000,190000,25000,190.000,25.000\n\
T,215000,214000,1000,0\n",
    );
}

/// Document 01's own example, its B line as an N line with three ranks.
#[test]
fn example_with_an_n_line() {
    prints(
        "P,1,1000\nP,2,400\nS,1,1,16,1000,-,-,10000,0\nH,1,2,10000,56100\n\
E,0,2,500,400000\nK,9,3,7,7\nN,2,9,100\nK,9,1,1900000,250000\nK,9,2,8,8\nG,1,2,300\n",
        "R,1,2131800,0,0,2131800,0,1492260,0,2131.800,0.000\n\
R,2,561000,200000,0,1390540,225000,1390540,225000,3476.350,562.500\n\
T,3107800,3107800,0,0\n",
    );
}

/// "A K line that no N needs changes nothing in the report".
#[test]
fn figures_that_no_use_needs() {
    let without = "P,1,1\nK,7,2,3000,4000\nN,1,7,10\n";
    bought(without, 30, 40);
    bought(&format!("{without}K,7,3,1,1\n"), 30, 40);
    bought(&format!("{without}K,8,1,1,1\n"), 30, 40);
    bought(&format!("P,1,1\nK,6,1,9,9\n{}", &without[6..]), 30, 40);
    bought("P,1,1\nK,7,2,3000,4000\n", 0, 0);
}

/// "A sheet of K lines alone is accepted, and its report is the T line."
#[test]
fn k_lines_alone() {
    prints("K,1,1,0,0\n", "T,0,0,0,0\n");
    prints("K,1,3,100000000,100000000\nK,255,1,5,5\n", "T,0,0,0,0\n");
    let mut space = [7; 12];
    let outcome = report_into(b"K,1,1,9,9\n", &mut space);
    assert_eq!((outcome.number, outcome.length), (0, 10));
    assert_eq!(&space, b"T,0,0,0,0\n\x07\x07");
    assert_eq!(report_into(b"K,1,1,9,9\n", &mut space[..9]).number, 16);
    // It is no report of a sheet of K lines that lacks its LF or has another line.
    refused("K,1,1,0,0", 3, 1);
    refused("K,1,1,0,0\n\n", 4, 2);
}

/// All 765 K lines that there can be, in any order. Each precursor has the
/// direct figure 1,000 × number mg/kg at rank 1, 2,000 more at rank 2 and 4,000
/// more at rank 3; 1 kg of each is 1 g to 255 g, 32,640 g in all.
#[test]
fn every_precursor_at_every_rank() {
    let mut dice = Dice::new(30);
    let mut lines: Vec<String> = (1..=255)
        .flat_map(|n| (1..=3).map(move |rank| (n, rank)))
        .map(|(n, rank)| format!("K,{n},{rank},{},0\n", 1_000 * (n + 2 * rank - 2)))
        .collect();
    assert_eq!(lines.len(), 765);
    prints(&lines.concat(), "T,0,0,0,0\n");
    for at in [0, 254, 764] {
        let again = lines[at].clone();
        refused(&(lines.concat() + &again), 17, 766);
    }
    lines.extend((1..=255).map(|n| format!("N,1,{n},1\n")));
    for _ in 0..5 {
        dice.shuffle(&mut lines);
        bought(&format!("P,1,1\n{}", lines.concat()), 32_640, 0);
    }
    // Without rank 1 each line weighs 2 g more: 510 g more.
    let lines: Vec<String> = lines
        .into_iter()
        .filter(|line| line.starts_with('N') || !line.contains(",1,"))
        .collect();
    // K,1,rank is left out by this too, so precursor 1 is given its figure back.
    bought(
        &format!("P,1,1\nK,1,2,3000,0\n{}", lines.concat()),
        32_640 + 510,
        0,
    );
}

#[test]
fn seventeen_for_the_same_precursor_and_rank_alone() {
    refused("K,7,1,5,5\nK,7,1,5,5\n", 17, 2);
    refused("K,7,1,5,5\nK,7,1,6,6\n", 17, 2);
    refused("K,7,1,5,5\nK,7,2,5,5\nK,7,1,5,5\n", 17, 3);
    for rank in 1..=3 {
        let sheet = format!("{}K,7,{rank},9,9\n", RANKS.concat());
        refused(&sheet, 17, 4);
        prints(
            &format!("K,8,1,1,1\nK,6,1,1,1\n{}", RANKS.concat()),
            "T,0,0,0,0\n",
        );
    }
    // The rank that is stated twice need not be the one that governs, nor needed.
    refused("P,1,1\nK,7,1,5,5\nK,7,3,5,5\nN,1,7,1\nK,7,3,5,5\n", 17, 5);
    // Another rank, another precursor, and the two numbers changed over.
    for line in ["K,7,2,5,5", "K,8,1,5,5", "K,1,7,5,5", "K,71,1,5,5"] {
        let number = report(format!("K,7,1,5,5\n{line}\n").as_bytes()).map_err(|refusal| refusal.0);
        let expected = if line == "K,1,7,5,5" { Err(7) } else { Ok(()) };
        assert_eq!(number.map(drop), expected, "{line}");
    }
    prints("K,1,2,5,5\nK,2,1,5,5\n", "T,0,0,0,0\n");
}

#[test]
fn seventeen_within_its_line() {
    // 3 to 7 before it.
    refused("K,7,1,5,5\nK,7,1,5,5", 3, 2);
    refused("K,7,1,5,5\nk,7,1,5,5\n", 4, 2);
    refused("K,7,1,5,5\nK,7,1,5,5,5\n", 5, 2);
    refused("K,7,1,5,5\nK,7,1,5\n", 5, 2);
    refused("K,7,1,5,5\nK,7,1,5,-\n", 6, 2);
    refused("K,7,1,5,5\nK,7,1,5,100000001\n", 7, 2);
    // A refusal of a line above comes before it, one below after it.
    refused("K,7,1,5,5\nW,0,1,1\nK,7,1,5,5\n", 9, 2);
    refused("K,7,1,5,5\nK,7,1,5,5\nW,0,1,1\n", 17, 2);
    refused("K,7,1,5,5\nK,7,1,5,5\n\n", 17, 2);
}

#[test]
fn eighteen_at_the_first_such_line() {
    refused("P,1,1\nN,1,7,1\n", 18, 2);
    refused("P,1,1\nN,1,7,1\nN,1,7,1\n", 18, 2);
    refused("P,1,1\nN,1,7,1\nN,1,8,1\nK,7,1,5,5\n", 18, 3);
    refused("P,1,1\nN,1,7,1\nN,1,8,1\nN,1,9,1\nK,7,1,5,5\n", 18, 3);
    refused("P,1,1\nK,8,1,5,5\nN,1,8,1\nN,1,7,1\nN,1,6,1\n", 18, 4);
    // The lower precursor number is of no account, the line is.
    refused("P,1,1\nN,1,9,1\nN,1,2,1\nK,5,1,5,5\n", 18, 2);
    refused("P,1,1\nN,1,1,1\nK,7,1,5,5\n", 18, 2);
    // The precursor and not the rank, nor the process.
    refused("P,1,1\nK,1,3,5,5\nN,1,3,1\n", 18, 3);
    refused("P,1,1\nP,2,1\nK,1,1,5,5\nN,1,2,1\n", 18, 4);
}

/// "Once all lines have passed": every refusal of a line, also far below.
#[test]
fn eighteen_after_every_line() {
    let above = "P,1,5\nP,2,5\nN,1,7,1\n";
    refused(above, 18, 3);
    for (line, number) in [
        ("W,0,1,1", 3),
        ("\n", 4),
        ("W,0,1\n", 5),
        ("W,0,1,01\n", 6),
        ("W,0,1,0\n", 7),
        ("P,3,5\n", 8),
        ("N,3,7,1\n", 9),
        ("G,2,1,1\n", 10),
        ("S,1,1,0,1,-,1,1,0\n", 11),
        ("G,1,2,6\n", 13),
    ] {
        refused(&format!("{above}{line}"), number, 4);
        refused(&format!("{above}W,0,1,1\nN,2,8,1\n{line}"), number, 6);
    }
    refused(&format!("{above}G,1,2,1\nG,1,2,1\n"), 12, 5);
    refused(&format!("{above}K,8,1,5,5\nK,8,1,5,5\n"), 17, 5);
    let many = above.to_owned() + &"W,0,1,1\n".repeat(4_093);
    refused(&many, 18, 3);
    refused(&(many + "K,7,1,1,1\n"), 2, 4_097);
    // Before 16, and 14 and 1 are before it.
    let mut space = [9; 3];
    let outcome = Outcome {
        number: 18,
        line: 3,
        length: 0,
    };
    assert_eq!(report_into(above.as_bytes(), &mut space), outcome);
    assert_eq!(space, [9; 3]);
    refused(&(above.to_owned() + &"9".repeat(65_537)), 1, 0);
}

/// K is a kind other than P, so the next P is 8. K itself needs no P line; N
/// needs that of its process.
#[test]
fn places_of_k_and_n() {
    refused("K,7,1,5,5\nP,1,5\n", 8, 2);
    refused("P,1,5\nK,7,1,5,5\nP,2,5\n", 8, 3);
    refused("P,1,5\nN,1,7,1\nP,2,5\nK,7,1,5,5\n", 8, 3);
    refused("K,7,1,5,5\nN,1,7,1\n", 9, 2);
    refused("N,1,7,1\nK,7,1,5,5\n", 9, 1);
    refused("P,1,5\nK,7,1,5,5\nN,2,7,1\n", 9, 3);
    // 9 though the precursor has no K line.
    refused("N,1,7,1\n", 9, 1);
    refused("P,1,5\nN,2,7,1\n", 9, 2);
    refused("K,1,1,5,5\nW,0,1,1\n", 9, 2);
}

/// Ranges and spellings, field by field from the left.
#[test]
fn fields() {
    for (line, number) in [
        ("K", 5),
        ("K,", 5),
        ("K,1,1,1", 5),
        ("K,1,1,1,1,1", 5),
        ("K,1,1,1,1,", 5),
        ("N", 5),
        ("N,1,1", 5),
        ("N,1,1,1,1", 5),
        ("k,1,1,1,1", 4),
        ("n,1,1,1", 4),
        ("KN,1,1,1,1", 4),
        ("K,0,1,1,1", 7),
        ("K,256,1,1,1", 7),
        ("K,257,1,1,1", 7),
        ("K,1,0,1,1", 7),
        ("K,1,4,1,1", 7),
        ("K,1,257,1,1", 7),
        ("K,1,1,100000001,1", 7),
        ("K,1,1,1,100000001", 7),
        ("K,18446744073709551617,1,1,1", 7),
        ("K,-,1,1,1", 6),
        ("K,1,-,1,1", 6),
        ("K,1,1,-,1", 6),
        ("K,1,1,1,-", 6),
        ("K,01,1,1,1", 6),
        ("K,1,1,1,00", 6),
        ("K,x,0,1,1", 6),
        ("K,0,x,1,1", 7),
        ("K,1,1,x,100000001", 6),
        ("K,1,1,100000001,x", 7),
        ("N,0,1,1", 7),
        ("N,17,1,1", 7),
        ("N,1,0,1", 7),
        ("N,1,256,1", 7),
        ("N,1,1,0", 7),
        ("N,1,1,10000000001", 7),
        ("N,-,1,1", 6),
        ("N,1,-,1", 6),
        ("N,1,1,-", 6),
        ("N,1,01,1", 6),
        ("N,0,x,1", 7),
        ("N,x,0,1", 6),
        ("N,1,x,0", 6),
        ("N,1,256,x", 7),
        // 6 and 7 before 9.
        ("N,2,256,1", 7),
        ("N,2,1,x", 6),
        ("N,2,1,1", 9),
        ("N,16,1,1", 9),
    ] {
        refused(&format!("P,1,5\n{line}\n"), number, 2);
        if line != "N,2,1,1" && line != "N,16,1,1" {
            refused(&format!("P,1,5\nK,1,1,0,0\n{line}\n"), number, 3);
        }
    }
    for line in ["K,1,1,0,0", "K,255,3,100000000,100000000", "K,10,2,1,0"] {
        prints(
            &format!("P,1,5\n{line}\n"),
            "R,1,0,0,0,0,0,0,0,0.000,0.000\nT,0,0,0,0\n",
        );
    }
    let sixteen: String = (1..=16).map(|n| format!("P,{n},1\n")).collect();
    // 10^10 kg at 10^8 are 10^15 g.
    let report =
        report((sixteen + "K,255,1,100000000,0\nN,16,255,10000000000\n").as_bytes()).unwrap();
    assert!(report.ends_with(
        b"R,16,0,0,0,1000000000000000,0,1000000000000000,0,1000000000000000.000,0.000\n\
T,1000000000000000,1000000000000000,0,0\n"
    ));
}

/// Lines of a sheet that are not P lines, to be put in any order.
fn parted(sheet: &[u8]) -> (Vec<&str>, Vec<&str>) {
    let text = std::str::from_utf8(sheet).unwrap();
    text.split_inclusive('\n')
        .partition(|line| line.starts_with('P'))
}

/// Made-up sheets hold the sum over the works, and have the report of the sheet
/// with each N line written as the B line that this finds for it, and K lines
/// left out.
#[test]
fn made_up_uses() {
    let mut dice = Dice::new(31);
    let mut several = 0;
    for round in 0..4_000 {
        let size = [Size::Small, Size::Mixed, Size::Highest][round % 3];
        let processes = dice.between(1, 4) as usize;
        let sheet = mixed_sheet(&mut dice, processes, 20, size);
        let (above, lines) = parted(&sheet);
        let mut written = above.concat();
        for line in &lines {
            let field: Vec<&str> = line.trim_end().split(',').collect();
            match field[0] {
                "K" => {}
                "N" => {
                    // The K lines of the precursor, the lowest rank first.
                    let stated = lines
                        .iter()
                        .filter(|line| line.starts_with(&format!("K,{},", field[2])));
                    let mut stated: Vec<&str> = stated.copied().collect();
                    stated.sort_unstable();
                    several += usize::from(stated.len() > 1);
                    let mut figures = stated[0].trim_end().split(',').skip(3);
                    let (direct, indirect) = (figures.next().unwrap(), figures.next().unwrap());
                    written += &format!("B,{},{},{direct},{indirect}\n", field[1], field[3]);
                }
                _ => written += line,
            }
        }
        let account = reckon(&sheet).unwrap();
        holds(&account);
        assert_eq!(account, reckon(written.as_bytes()).unwrap());
    }
    assert!(several > 1_000, "{several}");
}

/// The sum over the works.
#[track_caller]
fn holds(account: &Account) {
    assert_eq!(
        i128::from(account.left),
        i128::from(account.entered) + i128::from(account.raised) + i128::from(account.uncredited)
    );
}

/// Sheets of K lines and uses of the highest figures, as full as one can be.
#[test]
fn full_sheet_of_uses() {
    let mut dice = Dice::new(32);
    let mut sheet = b"P,1,1\n".to_vec();
    let figures = every_figure(&mut dice, Size::Highest);
    assert_eq!(figures.len(), 765);
    sheet.extend(figures.concat().bytes());
    let mut lines = 766;
    while sheet.len() + 22 <= 65_536 && lines < 4_096 {
        sheet.extend(format!("N,1,{},10000000000\n", 100 + lines % 156).bytes());
        lines += 1;
    }
    let account = reckon(&sheet).unwrap();
    holds(&account);
    assert!(account.left > 3_000_000_000_000_000_000);
}

/// K lines stand above their uses and below them, and in any order of ranks.
#[test]
fn made_up_sheets_have_all_orders() {
    let mut dice = Dice::new(33);
    let (mut above, mut below, mut falling) = (0, 0, 0);
    for _ in 0..500 {
        let mut maker = Maker::new(&mut dice, 2, Size::Small);
        for _ in 0..6 {
            maker.precursor_use(&mut dice);
            maker.precursor_figures(&mut dice);
        }
        report(&maker.sheet).unwrap();
        let (_, lines) = parted(&maker.sheet);
        let used = lines.iter().position(|line| line.starts_with('N')).unwrap();
        above += usize::from(lines[..used].iter().any(|line| line.starts_with('K')));
        below += usize::from(lines[used..].iter().any(|line| line.starts_with('K')));
        let ranks = lines.iter().filter(|line| line.starts_with("K,1,"));
        falling += usize::from(!ranks.is_sorted());
    }
    assert!(
        above > 100 && below > 100 && falling > 50,
        "{above} {below} {falling}"
    );
}
