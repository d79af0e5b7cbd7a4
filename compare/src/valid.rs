//! Good sheets. They keep document 01's rules by how they are made.

use std::io::Write;

use reference::samples::{Dice, KILOS, Maker, Size, every_figure, mixed_sheet};

/// A good sheet, small but for that of all pairs.
pub fn valid(dice: &mut Dice) -> Vec<u8> {
    match dice.below(38) {
        32..37 => precursors(dice),
        37 => figures_alone(dice),
        0 => all_pairs(dice),
        1..6 => lowered(dice),
        6..10 => streams(dice),
        10..13 => mass_balance(dice),
        13..16 => goods(dice),
        16..19 => gas_and_power(dice),
        _ => mixed(dice),
    }
}

pub fn size(dice: &mut Dice) -> Size {
    dice.pick(&[Size::Small, Size::Mixed, Size::Mixed, Size::Highest])
}

/// How many processes: mostly a few, sometimes all 16.
pub fn process_count(dice: &mut Dice) -> usize {
    match dice.below(12) {
        0 => 16,
        1 => dice.between(6, 15) as usize,
        _ => dice.between(1, 5) as usize,
    }
}

fn maker(dice: &mut Dice) -> Maker {
    let count = process_count(dice);
    let size = size(dice);
    Maker::new(dice, count, size)
}

/// Lines of every kind.
fn mixed(dice: &mut Dice) -> Vec<u8> {
    let count = process_count(dice);
    let lines = dice.index(14);
    let size = size(dice);
    mixed_sheet(dice, count, lines, size)
}

/// Source streams of all methods and codes.
fn streams(dice: &mut Dice) -> Vec<u8> {
    let mut maker = maker(dice);
    for _ in 0..dice.between(1, 8) {
        maker.stream(dice);
    }
    maker.sheet
}

/// Carbon that comes in and goes out, in few processes, with and without a
/// biomass share.
fn mass_balance(dice: &mut Dice) -> Vec<u8> {
    let size = size(dice);
    let count = dice.between(1, 3) as usize;
    let mut maker = Maker::new(dice, count, size);
    for _ in 0..dice.between(1, 6) {
        let method = dice.between(3, 4);
        maker.carbon(dice, method);
    }
    if dice.once_in(2) {
        maker.good(dice);
    }
    maker.sheet
}

/// More goes out than comes in, so that balances fall below zero.
fn lowered(dice: &mut Dice) -> Vec<u8> {
    let size = size(dice);
    let count = dice.between(1, 4) as usize;
    let mut maker = Maker::new(dice, count, size);
    for _ in 0..dice.between(1, 5) {
        let n = 1 + dice.index(count);
        let kg = size.number(dice, 1, KILOS);
        let a = size.number(dice, 0, 1_000_000);
        match dice.below(4) {
            0 => maker.carbon(dice, 4),
            1 => writeln!(maker.sheet, "E,{n},{n},{kg},{a}").unwrap(),
            2 => writeln!(maker.sheet, "W,{n},0,{kg}").unwrap(),
            _ => writeln!(maker.sheet, "H,{n},0,{kg},{}", a % 400_001).unwrap(),
        }
        if dice.once_in(3) {
            maker.good(dice);
        }
    }
    maker.sheet
}

/// Waste gas and power between processes, to and from outside, and power that
/// a process feeds to itself.
fn gas_and_power(dice: &mut Dice) -> Vec<u8> {
    let mut maker = maker(dice);
    for _ in 0..dice.between(1, 5) {
        maker.gas(dice);
        maker.power(dice);
    }
    maker.sheet
}

/// Goods that pass along, with something in the pools.
fn goods(dice: &mut Dice) -> Vec<u8> {
    let mut maker = maker(dice);
    for _ in 0..dice.between(1, 6) {
        maker.bought(dice);
        maker.good(dice);
        maker.good(dice);
    }
    maker.sheet
}

/// Uses of bought precursors, their figures at one rank to three above them or
/// below, and goods that pass them on.
fn precursors(dice: &mut Dice) -> Vec<u8> {
    let mut maker = maker(dice);
    for _ in 0..dice.between(1, 8) {
        match dice.below(5) {
            0 | 1 => maker.precursor_use(dice),
            2 | 3 => maker.precursor_figures(dice),
            _ => maker.good(dice),
        }
    }
    maker.sheet
}

/// K lines alone, without a process.
fn figures_alone(dice: &mut Dice) -> Vec<u8> {
    let size = size(dice);
    let lines = every_figure(dice, size);
    let count = dice.between(1, 6) as usize;
    lines[..count].concat().into_bytes()
}

/// 16 processes and a G line for each of the 120 pairs, in any order; some
/// outputs are taken up.
pub fn all_pairs(dice: &mut Dice) -> Vec<u8> {
    let mut pairs: Vec<(usize, usize)> = (1..16)
        .flat_map(|from| (from + 1..=16).map(move |to| (from, to)))
        .collect();
    dice.shuffle(&mut pairs);
    let most = dice.pick(&[1, 9, 12_345, KILOS / 16]);
    let kilos: Vec<u64> = pairs.iter().map(|_| dice.between(1, most)).collect();
    let mut output = [0; 17];
    for (pair, kg) in pairs.iter().zip(&kilos) {
        output[pair.0] += kg;
    }
    let mut sheet = Vec::new();
    for (n, taken) in output.iter().enumerate().skip(1) {
        let spare = dice.pick(&[0, 0, 1, 700]);
        let kg = (taken + spare).clamp(1, KILOS);
        writeln!(sheet, "P,{n},{kg}").unwrap();
    }
    for n in 1..=16 {
        let kg = Size::Mixed.number(dice, 1, KILOS);
        let figure = Size::Mixed.number(dice, 0, 100_000_000);
        writeln!(sheet, "B,{n},{kg},{figure},{}", 100_000_000 - figure).unwrap();
    }
    for (pair, kg) in pairs.iter().zip(&kilos) {
        writeln!(sheet, "G,{},{},{kg}", pair.0, pair.1).unwrap();
    }
    sheet
}
