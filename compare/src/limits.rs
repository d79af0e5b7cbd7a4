//! Lines with fields at either side of each limit of document 01.

use reference::samples::{Dice, KILOS, KILOWATT_HOURS, MEGAJOULES, Maker, Size};

use crate::valid::{process_count, size};

/// Lowest and highest of a field.
type Limit = (u64, u64);

const N: Limit = (1, 16);
const END: Limit = (0, 16);
const KG: Limit = (1, KILOS);
const MJ: Limit = (1, MEGAJOULES);
const KWH: Limit = (1, KILOWATT_HOURS);
const SHARE: Limit = (0, 10_000);
const NONE: Limit = (0, 0);
const WHOLE: Limit = (10_000, 10_000);
const METHOD: Limit = (1, 4);
const CARBON: Limit = (0, 1_000_000);
const FIGURE: Limit = (0, 100_000_000);
const PRECURSOR: Limit = (1, 255);
const RANK: Limit = (1, 3);
const HEAT: Limit = (0, 400_000);

/// The letter of each kind of line and the limits of its fields; a source
/// stream has a row for each method.
const KINDS: [(char, &[Limit]); 12] = [
    ('P', &[N, KG]),
    (
        'S',
        &[N, (1, 1), (0, 16), KG, (1, 200_000), HEAT, SHARE, SHARE],
    ),
    (
        'S',
        &[N, (2, 2), (0, 9), KG, (0, 4_000_000), NONE, SHARE, SHARE],
    ),
    ('S', &[N, (3, 3), NONE, KG, CARBON, NONE, WHOLE, SHARE]),
    ('S', &[N, (4, 4), NONE, KG, CARBON, NONE, WHOLE, SHARE]),
    ('H', &[END, END, MJ, HEAT]),
    ('W', &[END, END, MJ]),
    ('E', &[END, END, KWH, (0, 2_000_000)]),
    ('B', &[N, KG, FIGURE, FIGURE]),
    ('G', &[END, END, KG]),
    ('K', &[PRECURSOR, RANK, FIGURE, FIGURE]),
    ('N', &[N, PRECURSOR, KG]),
];

/// What is no number, or no number of the sheet's spelling.
const NO_NUMBERS: [&str; 20] = [
    "", "-", "-", "-", "--", "-0", "-1", "+1", "00", "01", " 1", "1 ", "1\r", "1.0", "1e3", "x",
    "1x", "/", ":", "\0",
];

/// Numbers that come into some range when cut to 64 or 32 bits, and long ones.
const LONG: [&str; 7] = [
    "18446744073709551615",
    "18446744073709551616",
    "18446744073709551617",
    "4294967297",
    "9223372036854775808",
    "340282366920938463463374607431768211457",
    "100000000000000000000000000000000000000000000000000000000000000001",
];

/// A field's text at or beside the limit, or no number at all.
fn beside(dice: &mut Dice, (lowest, highest): Limit) -> String {
    match dice.below(12) {
        0 => lowest.saturating_sub(1).to_string(),
        1 => lowest.to_string(),
        2 => (lowest + 1).to_string(),
        3 => highest.saturating_sub(1).to_string(),
        4 => highest.to_string(),
        5 | 6 => (highest + 1).to_string(),
        7 => (u128::from(highest) + (1 << dice.pick(&[8, 16, 32, 63, 64]))).to_string(),
        8 => format!("0{highest}"),
        9 => dice.pick(&LONG).into(),
        _ => dice.pick(&NO_NUMBERS).into(),
    }
}

/// A text at or beside any limit of document 01.
pub fn beside_any(dice: &mut Dice) -> String {
    let fields = dice.pick(&KINDS).1;
    let limit = if dice.once_in(8) {
        METHOD
    } else {
        dice.pick(fields)
    };
    beside(dice, limit)
}

/// A line of any kind, all fields within their limits but up to three.
fn line(dice: &mut Dice, processes: u64) -> String {
    let (letter, limits) = dice.pick(&KINDS);
    let mut fields: Vec<String> = limits
        .iter()
        .map(|limit| match *limit {
            N => dice.between(1, processes).to_string(),
            END => dice.between(0, processes).to_string(),
            // Mostly those that Maker states too.
            PRECURSOR if !dice.once_in(8) => dice.between(1, 3).to_string(),
            (lowest, highest) => Size::Mixed.number(dice, lowest, highest).to_string(),
        })
        .collect();
    if letter == 'S' && fields[1] < "3".into() {
        for place in [4, 5] {
            if limits[place] != NONE && dice.once_in(2) {
                fields[place] = "-".into();
            }
        }
    }
    for _ in 0..dice.pick(&[0, 1, 1, 1, 1, 2, 3]) {
        let place = dice.index(fields.len());
        fields[place] = beside(dice, limits[place]);
    }
    format!("{letter},{}\n", fields.join(","))
}

/// A good sheet followed by lines of which each may break several limits. One in
/// two states figures for the precursors 1 to 3, so that few N lines lack theirs.
pub fn at_limits(dice: &mut Dice) -> Vec<u8> {
    let count = process_count(dice);
    let size = size(dice);
    let mut maker = Maker::new(dice, count, size);
    if dice.once_in(2) {
        for _ in 0..dice.below(4) {
            maker.line(dice);
        }
    }
    if dice.once_in(2) {
        for _ in 0..4 {
            maker.precursor_figures(dice);
        }
    }
    for _ in 0..dice.between(1, 3) {
        let line = line(dice, count as u64);
        maker.sheet.extend(line.bytes());
    }
    maker.sheet
}
