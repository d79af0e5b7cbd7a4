//! The paper's own example, its marked cases, its table of refusals, and near
//! misses around every limit.

use reference::reckoning::{Account, ten_thousandth, thousandth};
use reference::samples::{Dice, Maker, Size, full_sheet, mixed_sheet, pad};
use reference::{Outcome, line_at, reckon, report, report_into};

const EXAMPLE: &str = "P,1,1000\nP,2,400\nS,1,1,16,1000,-,-,10000,0\nH,1,2,10000,56100\n\
E,0,2,500,400000\nB,2,100,1900000,250000\nG,1,2,300\n";

const EXAMPLE_REPORT: &str = "R,1,2131800,0,0,2131800,0,1492260,0,2131.800,0.000\n\
R,2,561000,200000,0,1390540,225000,1390540,225000,3476.350,562.500\n\
T,3107800,3107800,0,0\n";

#[track_caller]
fn accepted(sheet: &str) -> String {
    String::from_utf8(report(sheet.as_bytes()).unwrap()).unwrap()
}

#[track_caller]
fn prints(sheet: &str, expected: &str) {
    assert_eq!(accepted(sheet), expected);
}

#[track_caller]
fn refused(sheet: &str, number: u32, line: u32) {
    assert_eq!(report(sheet.as_bytes()), Err((number, line)), "{sheet}");
}

#[test]
fn example() {
    prints(EXAMPLE, EXAMPLE_REPORT);
}

#[test]
fn marked_streams() {
    prints(
        "P,1,1\nS,1,1,16,1,-,-,10000,0\n",
        "R,1,2693,0,0,2693,0,2693,0,2693.000,0.000\nT,2693,2693,0,0\n",
    );
    prints(
        "P,1,1\nS,1,2,1,1000,-,0,10000,0\n",
        "R,1,440000,0,0,440000,0,440000,0,440000.000,0.000\nT,440000,440000,0,0\n",
    );
    prints(
        "P,1,1000\nS,1,3,0,1000,850000,0,10000,0\n",
        "R,1,3114400,0,0,3114400,0,3114400,0,3114.400,0.000\nT,3114400,3114400,0,0\n",
    );
    prints(
        "P,1,1000\nS,1,4,0,1000,850000,0,10000,0\n",
        "R,1,0,0,3114400,0,0,0,0,0.000,0.000\nT,0,-3114400,3114400,0\n",
    );
}

/// Document 01's fuels, code 1 to 16: kJ/kg and mg/MJ, as it prints them.
const FUELS: [(u64, u64); 16] = [
    (42300, 73300),
    (44300, 69300),
    (43800, 71900),
    (43000, 74100),
    (40400, 77400),
    (47300, 63100),
    (32500, 97500),
    (26700, 98300),
    (28200, 94600),
    (25800, 94600),
    (18900, 96100),
    (11900, 101000),
    (28200, 107000),
    (38700, 44400),
    (2470, 260000),
    (48000, 56100),
];

/// Document 01's carbonates, code 1 to 9: mg/kg, as it prints them.
const CARBONATES: [u64; 9] = [
    440000, 522000, 415000, 223000, 596000, 318000, 298000, 524000, 380000,
];

/// A sheet with a process and a stream for each code; `rest` is what follows the
/// code in its S line. Its report must have these direct grams, code by code.
#[track_caller]
fn stream_of_each_code(method: u64, rest: &str, grams: &[u64]) {
    let codes = 1..=grams.len();
    let mut sheet: String = codes.clone().map(|n| format!("P,{n},1\n")).collect();
    sheet.extend(codes.map(|n| format!("S,{n},{method},{n},{rest}\n")));
    let mut expected: String = (1..)
        .zip(grams)
        .map(|(n, g)| format!("R,{n},{g},0,0,{g},0,{g},0,{g}.000,0.000\n"))
        .collect();
    let sum: u64 = grams.iter().sum();
    expected.push_str(&format!("T,{sum},{sum},0,0\n"));
    prints(&sheet, &expected);
}

/// 1,000 kg at 1,000 mg/MJ weigh the net calorific value, 1,000 kg at
/// 1,000 kJ/kg the emission factor, and 1,000 kg of a carbonate its factor.
#[test]
fn standard_values_as_printed() {
    let (values, factors): (Vec<u64>, Vec<u64>) = FUELS.iter().copied().unzip();
    stream_of_each_code(1, "1000,-,1000,10000,0", &values);
    stream_of_each_code(1, "1000,1000,-,10000,0", &factors);
    stream_of_each_code(2, "1000,-,0,10000,0", &CARBONATES);
}

#[test]
fn marked_rounding() {
    assert_eq!(thousandth(1_499), 1);
    assert_eq!(thousandth(1_500), 2);
    assert_eq!(ten_thousandth(4_999), 0);
    assert_eq!(ten_thousandth(5_000), 1);
    for (factor, grams) in [(499, 0), (500, 1), (1_499, 1), (1_500, 2)] {
        let sheet = format!("P,1,1\nH,0,1,1,{factor}\n");
        prints(
            &sheet,
            &format!(
                "R,1,{grams},0,0,{grams},0,{grams},0,{grams}.000,0.000\nT,{grams},{grams},0,0\n"
            ),
        );
    }
}

#[test]
fn marked_waste_gas() {
    prints(
        "P,1,1\nP,2,1\nW,1,2,1\n",
        "R,1,0,0,37,0,0,0,0,0.000,0.000\nR,2,56,0,0,56,0,56,0,56.000,0.000\nT,56,0,37,19\n",
    );
    prints(
        "P,1,1\nP,2,1\nW,1,2,10\n",
        "R,1,0,0,374,0,0,0,0,0.000,0.000\nR,2,561,0,0,561,0,561,0,561.000,0.000\nT,561,0,374,187\n",
    );
    prints(
        "P,1,1\nW,0,1,10\n",
        "R,1,561,0,0,561,0,561,0,561.000,0.000\nT,561,561,0,0\n",
    );
    prints(
        "P,1,1\nW,1,0,10\n",
        "R,1,0,0,374,0,0,0,0,0.000,0.000\nT,0,-374,374,0\n",
    );
}

#[test]
fn marked_portions() {
    prints(
        "P,1,3\nP,2,1\nP,3,1\nH,0,1,1,10000\nG,1,3,1\nG,1,2,1\n",
        "R,1,10,0,0,10,0,4,0,3.333,0.000\nR,2,0,0,0,3,0,3,0,3.000,0.000\n\
R,3,0,0,0,3,0,3,0,3.000,0.000\nT,10,10,0,0\n",
    );
}

#[test]
fn marked_raised() {
    prints(
        "P,1,5\nE,1,0,1,1000\n",
        "R,1,0,0,1,0,0,0,0,0.000,0.000\nT,0,-1,1,0\n",
    );
}

#[test]
fn self_fed_power() {
    prints(
        "P,1,4\nE,1,1,7,1000\n",
        "R,1,0,7,7,0,7,0,7,0.000,1.750\nT,7,0,7,0\n",
    );
}

#[test]
fn raising_comes_before_precursors() {
    prints(
        "P,1,1\nB,1,1,5000,0\nE,1,0,2,1000\n",
        "R,1,0,0,2,5,0,5,0,5.000,0.000\nT,5,3,2,0\n",
    );
}

#[test]
fn each_stage_is_rounded() {
    // 1.5 MJ is 2 MJ, 2 MJ at 750 is 1.5 g and so 2 g, at 7,500 of 10,000 is
    // 1.5 and so 2, at a share of 2,500 again 1.5 and so 2.
    prints(
        "P,1,1\nS,1,1,0,1,1500,750,7500,2500\n",
        "R,1,2,0,0,2,0,2,0,2.000,0.000\nT,2,2,0,0\n",
    );
}

const SHARES: [u64; 5] = [0, 1, 5_000, 9_999, 10_000];

/// A carbon stream of method 3 and one of method 4, each alone on a sheet.
#[track_caller]
fn carbon_prints(kg: u64, a: u64, d: u64, grams: u64) {
    prints(
        &format!("P,1,1\nS,1,3,0,{kg},{a},0,10000,{d}\n"),
        &format!("R,1,{grams},0,0,{grams},0,{grams},0,{grams}.000,0.000\nT,{grams},{grams},0,0\n"),
    );
    let sign = if grams == 0 { "" } else { "-" };
    prints(
        &format!("P,1,1\nS,1,4,0,{kg},{a},0,10000,{d}\n"),
        &format!("R,1,0,0,{grams},0,0,0,0,0.000,0.000\nT,0,{sign}{grams},{grams},0\n"),
    );
}

/// Ticket 2. Each row has kg, a, and the result for each of `SHARES`, g being
/// the grams before the biomass step.
const CHARCOAL: [(u64, u64, [u64; 5]); 6] = [
    // T1 = 850,000; g = 3,114,400,000/1,000 = 3,114,400. d = 1: g × 9,999 is
    // 31,140,885,600, with 5,000 more 3,114,089 whole parts; cut down it
    // would be 3,114,088. d = 9,999: 3,114,400 + 5,000 is 311 whole parts.
    (1_000, 850_000, [3_114_400, 3_114_089, 1_557_200, 311, 0]),
    // T1 = 1; g = (3,664 + 500)/1,000 = 4. d = 5,000: 20,000/10,000 = 2. The
    // share taken before 3,664 would give T1 = round(0.5) = 1 and so 4.
    (1, 1_000, [4, 4, 2, 0, 0]),
    // T1 = 10; g = (36,640 + 500)/1,000 = 37. d = 1: 369,963 + 5,000 is 37
    // whole parts. d = 5,000: 185,000 + 5,000 is 19. It would be 18 cut down
    // (18.5), with the half to the even number, with the share before 3,664
    // (T1 = 5, 18,320), and rounded once at the end (36.64/2 = 18.32).
    (10, 1_000, [37, 37, 19, 0, 0]),
    // T1 = (1,500 + 500)/1,000 = 2; g = (7,328 + 500)/1,000 = 7. d = 5,000:
    // 35,000 + 5,000 is 4. Rounded once at the end it would be 3, since
    // 1.5 × 3.664/2 = 2.748.
    (1, 1_500, [7, 7, 4, 0, 0]),
    // T1 = 4,094; g = (15,000,416 + 500)/1,000 = 15,000. d = 1: 149,985,000 is
    // 14,998.5 and so 14,999; with the share before 3,664 T1 stays
    // round(4,093.59) = 4,094 and it would be 15,000. d = 9,999: 1.5 and so
    // 2; with the share before 3,664 T1 = round(0.4094) = 0 and it would be 0.
    (4_094, 1_000, [15_000, 14_999, 7_500, 2, 0]),
    // T1 = 10^13; g = 3,664 × 10^10. A ten-thousandth of it is 3,664 × 10^6.
    (
        10_000_000_000,
        1_000_000,
        [
            36_640_000_000_000,
            36_636_336_000_000,
            18_320_000_000_000,
            3_664_000_000,
            0,
        ],
    ),
];

#[test]
fn charcoal() {
    for (kg, a, results) in CHARCOAL {
        for (d, grams) in SHARES.into_iter().zip(results) {
            carbon_prints(kg, a, d, grams);
        }
    }
}

/// Charcoal in and carbon out in the iron, in one process.
#[test]
fn charcoal_and_iron() {
    // In: 3,114,400 × 0 = 0. Out: T1 = 40,000, g = 146,560, all of it fossil.
    prints(
        "P,1,1000\nS,1,3,0,1000,850000,0,10000,10000\nS,1,4,0,1000,40000,0,10000,0\n",
        "R,1,0,0,146560,0,0,0,0,0.000,0.000\nT,0,-146560,146560,0\n",
    );
    // In: 3,114,400 × 1,000/10,000 = 311,440. Out: 146,560/2 = 73,280. With the
    // share for method 3 only the balance would be 311,440 − 146,560 = 164,880.
    prints(
        "P,1,1000\nS,1,3,0,1000,850000,0,10000,9000\nS,1,4,0,1000,40000,0,10000,5000\n",
        "R,1,238160,0,0,238160,0,238160,0,238.160,0.000\nT,238160,238160,0,0\n",
    );
    // 10 kg at d = 5,000 are 19 g (18.5), 5 kg at d = 0 are 18 g (18,320 + 500).
    // Carbon going out is rounded before it is negated: −19, not −18.
    prints(
        "P,1,1\nS,1,3,0,10,1000,0,10000,5000\nS,1,4,0,5,1000,0,10000,0\n",
        "R,1,1,0,0,1,0,1,0,1.000,0.000\nT,1,1,0,0\n",
    );
    prints(
        "P,1,1\nS,1,3,0,5,1000,0,10000,0\nS,1,4,0,10,1000,0,10000,5000\n",
        "R,1,0,0,1,0,0,0,0,0.000,0.000\nT,0,-1,1,0\n",
    );
}

/// "Sheets with d = 0 keep their figures": those of document 01's own rule.
#[test]
fn no_biomass_as_before() {
    prints(EXAMPLE, EXAMPLE_REPORT);
    // T1 = 7 × 123,457/1,000 = 864.199 and so 864; 864 × 3.664 = 3,165.696.
    carbon_prints(7, 123_457, 0, 3_166);
    let mut dice = Dice::new(20);
    for round in 0..3_000 {
        let size = [Size::Small, Size::Mixed, Size::Highest][round % 3];
        let kg = size.number(&mut dice, 1, 10_000_000_000);
        let a = Size::Mixed.number(&mut dice, 0, 1_000_000);
        let carbon = rounded(u128::from(kg * a), 1_000);
        carbon_prints(kg, a, 0, rounded(carbon * 3_664, 1_000) as u64);
    }
}

fn rounded(u: u128, v: u128) -> u128 {
    (u + v / 2) / v
}

/// A carbon stream as ticket 2 has it.
struct Carbon {
    d: u64,
    /// Ten-thousandths of a gram, before the last rounding.
    parts: u128,
    /// Its grams with their sign.
    grams: i64,
}

impl Carbon {
    fn of(line: &str) -> Carbon {
        let field: Vec<&str> = line.split(',').collect();
        let [kg, a, d] = [4, 5, 8].map(|place| field[place].parse::<u64>().unwrap());
        let carbon = rounded(u128::from(kg) * u128::from(a), 1_000);
        let parts = rounded(carbon * 3_664, 1_000) * u128::from(10_000 - d);
        let grams = rounded(parts, 10_000) as i64;
        let grams = if field[2] == "3" { grams } else { -grams };
        Carbon { d, parts, grams }
    }
}

/// A sheet of three processes and made carbon streams.
fn carbon_maker(dice: &mut Dice, round: usize) -> (Maker, Vec<Carbon>) {
    let size = [Size::Small, Size::Mixed, Size::Highest][round % 3];
    let mut maker = Maker::new(dice, 3, size);
    for _ in 0..dice.between(1, 9) {
        let method = dice.between(3, 4);
        maker.carbon(dice, method);
    }
    let lines = std::str::from_utf8(&maker.sheet).unwrap().lines();
    let streams = lines.skip(3).map(Carbon::of).collect();
    (maker, streams)
}

#[test]
fn made_carbon_streams() {
    let mut dice = Dice::new(21);
    for round in 0..3_000 {
        let (mut maker, streams) = carbon_maker(&mut dice, round);
        let account = reckon(&maker.sheet).unwrap();
        let entered: i64 = streams.iter().map(|stream| stream.grams).sum();
        assert_eq!(account.entered, entered);
        holds(&account);
        for _ in 0..3 {
            maker.good(&mut dice);
        }
        holds(&reckon(&maker.sheet).unwrap());
    }
}

/// Half of the made carbon streams have a share, and many a half to round.
#[test]
fn made_biomass_shares() {
    let mut dice = Dice::new(22);
    let streams: Vec<Carbon> = (0..3_000)
        .flat_map(|round| carbon_maker(&mut dice, round).1)
        .collect();
    let count = |what: &dyn Fn(&Carbon) -> bool| streams.iter().filter(|s| what(s)).count();
    let all = streams.len();
    let shared = count(&|stream| stream.d != 0);
    assert!((all * 9 / 20..all * 11 / 20).contains(&shared));
    for share in SHARES {
        assert!(count(&|stream| stream.d == share) > all / 20);
    }
    let halves = count(&|stream| stream.parts % 10_000 == 5_000);
    assert!(halves > all / 20, "{halves} of {all}");
}

#[test]
fn table_of_refusals() {
    refused(&"x".repeat(65_537), 1, 0);
    refused(
        &("P,1,1\n".to_owned() + &"W,0,1,1\n".repeat(4_096)),
        2,
        4_097,
    );
    refused("P,1,5", 3, 1);
    refused("\n", 4, 1);
    refused("P,1\n", 5, 1);
    refused("P,1,05\n", 6, 1);
    refused("P,1,0\n", 7, 1);
    refused("P,2,5\n", 8, 1);
    refused("P,1,5\nW,1,2,9\n", 9, 2);
    refused("P,1,5\nW,1,1,9\n", 10, 2);
    refused("P,1,5\nS,1,1,0,1,-,1,1,0\n", 11, 2);
    refused("P,1,5\nP,2,5\nG,1,2,1\nG,1,2,1\n", 12, 4);
    refused("P,1,5\nP,2,5\nG,1,2,6\n", 13, 3);
    refused("", 14, 0);
    refused("K,1,1,5,5\nK,1,1,5,5\n", 17, 2);
    refused("P,1,5\nN,1,1,5\n", 18, 2);
    let mut space = [7; 10];
    let outcome = report_into(EXAMPLE.as_bytes(), &mut space);
    assert_eq!(
        outcome,
        Outcome {
            number: 16,
            line: 0,
            length: 0
        }
    );
    assert_eq!(space, [7; 10]);
}

#[test]
fn accepted_at_the_limits() {
    accepted("P,1,1\n");
    accepted("P,1,5\nP,2,5\nG,1,2,5\n");
    accepted(&("P,1,1\n".to_owned() + &"W,0,1,1\n".repeat(4_095)));
    let full = full_sheet(&mut Dice::new(1), 16, Size::Mixed, 65_536);
    assert_eq!(full.len(), 65_536);
    report(&full).unwrap();
    let over = full_sheet(&mut Dice::new(1), 16, Size::Mixed, 65_537);
    assert_eq!(report(&over), Err((1, 0)));
}

#[test]
fn line_4097_whatever_it_holds() {
    let lines = "P,1,1\n".to_owned() + &"W,0,1,1\n".repeat(4_095);
    for last in [
        "\n",
        "x",
        "P",
        "P,1,05\n",
        "W,0,1,1\n",
        "W,0,1,1\n\n\n",
        "-",
    ] {
        refused(&(lines.clone() + last), 2, 4_097);
    }
    let bad = "P,1,1\n".to_owned() + &"W,0,1,1\n".repeat(4_094);
    refused(&(bad.clone() + "W,1,1,1\nW,0,1,1\n"), 10, 4_096);
    refused(&(bad + "W,0,1,1"), 3, 4_096);
}

#[test]
fn space() {
    let report = EXAMPLE_REPORT.as_bytes();
    for longer in [0, 1, 500] {
        let mut space = vec![7; report.len() + longer];
        let outcome = report_into(EXAMPLE.as_bytes(), &mut space);
        assert_eq!(
            outcome,
            Outcome {
                number: 0,
                line: 0,
                length: report.len()
            }
        );
        assert_eq!(&space[..report.len()], report);
        assert!(space[report.len()..].iter().all(|byte| *byte == 7));
    }
    let mut space = vec![7; report.len() - 1];
    let outcome = report_into(EXAMPLE.as_bytes(), &mut space);
    assert_eq!(
        outcome,
        Outcome {
            number: 16,
            line: 0,
            length: 0
        }
    );
    assert!(space.iter().all(|byte| *byte == 7));
    // A fault of a line comes before the space.
    assert_eq!(report_into(b"P,1,5", &mut []).number, 3);
}

#[test]
fn offending_line() {
    let sheet = b"P,1,5\nW,1,1,9\nP,2";
    assert_eq!(line_at(sheet, 0), b"");
    assert_eq!(line_at(sheet, 1), b"P,1,5");
    assert_eq!(line_at(sheet, 2), b"W,1,1,9");
    assert_eq!(line_at(sheet, 3), b"P,2");
    assert_eq!(line_at(sheet, 4), b"");
}

#[test]
fn order_within_a_line() {
    refused("x", 3, 1);
    refused("x,1\n", 4, 1);
    refused("PP,1,5\n", 4, 1);
    refused("p,1,5\n", 4, 1);
    refused(",P,1\n", 4, 1);
    refused("P\n", 5, 1);
    refused("P,x,5,\n", 5, 1);
    refused("P,0,5,\n", 5, 1);
    refused("S,1,1,16,1000,-,-,10000,0,0\n", 5, 1);
    refused("S,1,1,16,1000,-,-,10000,0,0,0,0\n", 5, 1);
    refused("P,0,x\n", 7, 1);
    refused("P,x,0\n", 6, 1);
    refused("P,2,x\n", 6, 1);
    refused("P,2,0\n", 7, 1);
    refused("P,17,5\n", 7, 1);
    refused("P,1,5\nP,1,5\n", 8, 2);
    refused("P,1,5\nP,3,5\n", 8, 2);
    refused("P,1,5\nE,0,1,1,1\nP,2,5\n", 8, 3);
    refused("E,0,0,1,1\n", 10, 1);
    refused("H,0,1,1,1\n", 9, 1);
    refused("P,1,5\nH,17,1,0,1\n", 7, 2);
    refused("P,1,5\nH,2,2,1,1\n", 9, 2);
    refused("P,1,5\nG,0,2,1\n", 9, 2);
    refused("P,1,5\nG,0,1,1\n", 10, 2);
    refused("P,1,5\nG,1,0,9\n", 10, 2);
    refused("P,1,5\nG,0,0,9\n", 10, 2);
    refused("P,1,5\nP,2,5\nG,2,1,9\n", 10, 3);
    refused("P,1,5\nP,2,5\nG,1,2,1\nG,1,2,9\n", 12, 4);
    refused("P,1,5\nP,2,5\nP,3,5\nG,1,2,3\nG,1,3,3\n", 13, 5);
    refused("P,1,5\nS,2,1,0,1,-,-,1,0\n", 9, 2);
    refused("P,1,5\nG,1,2,6\n", 9, 2);
    // 6 and 7 before 9 to 13.
    for (wrong, number) in [("x", 6), ("0", 7)] {
        refused(&format!("P,1,5\nW,1,2,{wrong}\n"), number, 2);
        refused(&format!("P,1,5\nW,1,1,{wrong}\n"), number, 2);
        refused(&format!("P,1,5\nS,1,1,0,{wrong},-,1,1,0\n"), number, 2);
        refused(
            &format!("P,1,5\nP,2,5\nG,1,2,1\nG,1,2,{wrong}\n"),
            number,
            4,
        );
    }
    refused("P,1,5\nG,1,x,6\n", 6, 2);
    refused("P,1,5\nG,1,17,6\n", 7, 2);
}

#[test]
fn streams_field_by_field() {
    let cases: [(&str, u32); 28] = [
        ("0,x,0,1,1,0,10000,0", 7),
        ("x,9,0,1,1,0,10000,0", 6),
        ("1,5,x,1,1,0,10000,0", 7),
        ("1,0,x,1,1,0,10000,0", 7),
        ("1,-,0,1,1,0,10000,0", 6),
        ("1,1,17,x,-,-,1,0", 7),
        ("1,1,-,0,-,-,1,0", 6),
        ("1,1,16,0,-,-,1,0", 7),
        ("1,1,16,1,0,-,1,0", 7),
        ("1,1,16,1,200001,x,1,0", 7),
        ("1,1,16,1,-,400001,1,0", 7),
        ("1,1,16,1,-,-,-,0", 6),
        ("1,1,16,1,-,-,10001,0", 7),
        ("1,1,16,1,-,-,1,-", 6),
        ("1,1,16,1,-,-,1,10001", 7),
        ("1,1,0,1,1,-,1,0", 11),
        ("1,1,0,1,-,1,1,0", 11),
        ("1,2,10,1,-,0,1,0", 7),
        ("1,2,0,1,-,0,1,0", 11),
        ("1,2,1,1,4000001,0,1,0", 7),
        ("1,2,1,1,-,-,1,0", 6),
        ("1,2,1,1,-,1,1,0", 7),
        ("1,3,1,1,-,0,10000,0", 7),
        ("1,3,0,1,-,0,10000,0", 6),
        ("1,3,0,1,1000001,0,10000,0", 7),
        ("1,4,0,1,1,1,10000,0", 7),
        ("1,4,0,1,1,0,9999,0", 7),
        ("1,3,0,1,1,0,-,0", 6),
    ];
    for (fields, number) in cases {
        refused(&format!("P,1,5\nS,{fields}\n"), number, 2);
    }
    for good in [
        "1,1,0,1,1,0,0,0",
        "1,1,0,10000000000,200000,400000,10000,10000",
        "1,1,7,1,-,5,1,0",
        "1,1,7,1,5,-,1,0",
        "1,2,0,1,0,0,0,0",
        "1,2,9,10000000000,4000000,0,10000,0",
        "1,2,9,1,-,0,10000,0",
        "1,3,0,1,0,0,10000,10000",
        "1,4,0,10000000000,1000000,0,10000,0",
    ] {
        accepted(&format!("P,1,5\nS,{good}\n"));
    }
}

/// For each kind, its fields with the lowest and the highest of each.
#[test]
fn near_misses_of_every_range() {
    const KILOS: (u64, u64) = (1, 10_000_000_000);
    const MJ: (u64, u64) = (1, 1_000_000_000_000);
    type Ranges = &'static [(usize, (u64, u64))];
    let kinds: [(&str, &[&str], Ranges); 12] = [
        ("P", &["2", "5"], &[(1, KILOS)]),
        (
            "S",
            &["1", "1", "0", "1", "1", "1", "1", "1"],
            &[
                (2, (0, 16)),
                (3, KILOS),
                (4, (1, 200_000)),
                (5, (0, 400_000)),
                (6, (0, 10_000)),
                (7, (0, 10_000)),
            ],
        ),
        (
            "S",
            &["1", "2", "0", "1", "1", "0", "1", "1"],
            &[
                (2, (0, 9)),
                (3, KILOS),
                (4, (0, 4_000_000)),
                (5, (0, 0)),
                (6, (0, 10_000)),
                (7, (0, 10_000)),
            ],
        ),
        (
            "S",
            &["1", "3", "0", "1", "1", "0", "10000", "1"],
            &[
                (2, (0, 0)),
                (3, KILOS),
                (4, (0, 1_000_000)),
                (5, (0, 0)),
                (6, (10_000, 10_000)),
                (7, (0, 10_000)),
            ],
        ),
        (
            "S",
            &["1", "4", "0", "1", "1", "0", "10000", "1"],
            &[
                (2, (0, 0)),
                (3, KILOS),
                (4, (0, 1_000_000)),
                (5, (0, 0)),
                (6, (10_000, 10_000)),
                (7, (0, 10_000)),
            ],
        ),
        ("H", &["0", "1", "1", "1"], &[(2, MJ), (3, (0, 400_000))]),
        ("W", &["0", "1", "1"], &[(2, MJ)]),
        (
            "E",
            &["0", "1", "1", "1"],
            &[(2, (1, 100_000_000_000)), (3, (0, 2_000_000))],
        ),
        (
            "B",
            &["1", "1", "1", "1"],
            &[(1, KILOS), (2, (0, 100_000_000)), (3, (0, 100_000_000))],
        ),
        ("G", &["0", "0", "1"], &[(2, KILOS)]),
        (
            "K",
            &["1", "1", "1", "1"],
            &[
                (0, (1, 255)),
                (1, (1, 3)),
                (2, (0, 100_000_000)),
                (3, (0, 100_000_000)),
            ],
        ),
        ("N", &["1", "1", "1"], &[(1, (1, 255)), (2, KILOS)]),
    ];
    for (kind, fields, limits) in kinds {
        for (index, (lowest, highest)) in limits {
            let with = |value: &str| {
                let mut fields: Vec<&str> = fields.to_vec();
                fields[*index] = value;
                format!("P,1,10000000000\n{kind},{}\n", fields.join(","))
            };
            for value in [*lowest, *highest] {
                // G with both ends 0 passes all ranges and is refused by 10, N
                // without a K line by 18.
                match kind {
                    "G" => refused(&with(&value.to_string()), 10, 2),
                    "N" => refused(&with(&value.to_string()), 18, 2),
                    _ => drop(accepted(&with(&value.to_string()))),
                }
            }
            if *lowest > 0 {
                refused(&with(&(lowest - 1).to_string()), 7, 2);
            }
            refused(&with(&(highest + 1).to_string()), 7, 2);
            refused(&with(&(u128::from(*highest) + (1 << 64)).to_string()), 7, 2);
            refused(&with(&"9".repeat(5_000)), 7, 2);
            refused(&with(&("9".repeat(5_000) + "x")), 6, 2);
            for other in [
                "", "00", "01", "+1", "-1", " 1", "1 ", "1\r", "1.0", "1e1", "0x1", "--",
            ] {
                refused(&with(other), 6, 2);
            }
        }
    }
}

#[test]
fn lengths_of_numbers_around_sixteen_bytes() {
    for digits in 1..60 {
        let number = "1".repeat(digits);
        let expected = if digits <= 12 { 0 } else { 7 };
        for after in ["", "W,0,1,1\nW,0,1,1\nW,0,1,1\nW,0,1,1\n"] {
            let sheet = format!("P,1,1\nW,0,1,{number}\n{after}");
            let number = report(sheet.as_bytes()).map_or_else(|refusal| refusal.0, |_| 0);
            assert_eq!(number, expected, "{sheet}");
        }
        refused(&format!("P,1,1\nW,0,1,{number}"), 3, 2);
        refused(
            &format!("P,1,1\nW,0,1,0{number}\nW,0,1,1,1,1,1,1,1\n"),
            6,
            2,
        );
        refused(&format!("P,1,1\nW,0,1,{number}:\n                "), 6, 2);
        refused(&format!("P,1,1\nW,0,1,{number}/\n                "), 6, 2);
        refused(
            &format!("P,1,1\nW,0,1,{number}\u{b0}\n                "),
            6,
            2,
        );
    }
}

#[test]
fn sixteen_processes() {
    let mut sheet = String::new();
    for process in 1..=16 {
        sheet += &format!("P,{process},10000000000\n");
    }
    accepted(&sheet);
    refused(&(sheet.clone() + "P,16,1\n"), 8, 17);
    refused(&(sheet.clone() + "P,17,1\n"), 7, 17);
    accepted(&(sheet.clone() + "G,15,16,10000000000\n"));
    refused(&(sheet.clone() + "G,16,16,1\n"), 10, 17);
    for from in 1..16 {
        for to in from + 1..=16 {
            sheet += &format!("G,{from},{to},625000000\n");
        }
    }
    sheet += "B,1,10000000000,100000000,99999999\n";
    accepted(&sheet);
}

#[test]
fn grams_neither_come_nor_go() {
    let mut dice = Dice::new(3);
    for round in 0..3_000 {
        let size = [Size::Small, Size::Mixed, Size::Highest][round % 3];
        let processes = dice.between(1, 16) as usize;
        let lines = dice.index(40);
        let sheet = mixed_sheet(&mut dice, processes, lines, size);
        holds(&reckon(&sheet).unwrap());
    }
}

/// The sum over the works.
#[track_caller]
fn holds(account: &Account) {
    assert_eq!(
        i128::from(account.left),
        i128::from(account.entered) + i128::from(account.raised) + i128::from(account.uncredited)
    );
}

#[test]
fn largest_figures() {
    let mut dice = Dice::new(4);
    let mut maker = Maker::new(&mut dice, 1, Size::Highest);
    while maker.sheet.len() + 60 < 65_536 {
        maker.bought(&mut dice);
    }
    pad(&mut maker.sheet, 65_536);
    let account = reckon(&maker.sheet).unwrap();
    assert!(account.left > 3_600_000_000_000_000_000);
}
