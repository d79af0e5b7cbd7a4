//! `compare [records] [COUNT] [SEED] [INDEX]`: has so many made-up sheets
//! judged by both implementations, or so many made-up lists of records written
//! and read; with an index, that one of the run alone, which is printed.

use std::env::args;
use std::process::exit;

use compare::{record_run, sheet_run};

const COUNT: u64 = 1_000_000;
const SEED: u64 = 20_260_701;

fn main() {
    let mut words = args().skip(1).peekable();
    let records = words.next_if(|word| word == "records").is_some();
    let given: Vec<u64> = words.map(|word| number(&word)).collect();
    let count = given.first().copied().unwrap_or(COUNT);
    let seed = given.get(1).copied().unwrap_or(SEED);
    match (records, given.get(2)) {
        (false, None) => sheet_run::all(count, seed),
        (false, Some(index)) => sheet_run::one(seed, *index),
        (true, None) => record_run::all(count, seed),
        (true, Some(index)) => record_run::one(seed, *index),
    }
}

fn number(word: &str) -> u64 {
    word.parse().unwrap_or_else(|_| {
        eprintln!("usage: compare [records] [COUNT] [SEED] [INDEX]");
        exit(2)
    })
}
