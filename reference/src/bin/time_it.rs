//! Times full sheets of 65,536 bytes and prints nanoseconds a byte. Each run
//! is timed alone, so that the least is a run no other program broke into.

use std::hint::black_box;
use std::time::Instant;

use reference::report_into;
use reference::samples::{Dice, Size, full_sheet};
use reference::sheet::MOST_BYTES;

const RUNS: usize = 2_001;

fn main() {
    let mut dice = Dice::new(65_536);
    for size in [Size::Mixed, Size::Highest] {
        let sheet = full_sheet(&mut dice, 16, size, MOST_BYTES);
        let lines = sheet.iter().filter(|byte| **byte == b'\n').count();
        let mut space = vec![0; 8_192];
        let mut runs: Vec<u128> = (0..RUNS)
            .map(|_| {
                let start = Instant::now();
                let outcome = report_into(black_box(&sheet), black_box(&mut space));
                let time = start.elapsed().as_nanos();
                assert_eq!(black_box(outcome).number, 0);
                time
            })
            .collect();
        runs.sort_unstable();
        let a_byte = |time: u128| time as f64 / MOST_BYTES as f64;
        println!(
            "{size:?}: {lines} lines, least {:.3}, median {:.3} ns a byte",
            a_byte(runs[0]),
            a_byte(runs[RUNS / 2])
        );
    }
}
