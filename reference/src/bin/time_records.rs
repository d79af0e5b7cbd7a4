//! Times the writer and the reader of records on full sheets of 65,536 bytes
//! and prints nanoseconds a byte of the sheet. Each run is timed alone, so that
//! the least is a run no other program broke into.

use std::hint::black_box;
use std::time::Instant;

use reference::records::RECORD_WORDS;
use reference::samples::{Dice, Size, full_sheet};
use reference::sheet::{MOST_BYTES, MOST_LINES};
use reference::{read_sheet, write_sheet};

const RUNS: usize = 2_001;

fn main() {
    let mut dice = Dice::new(65_536);
    for size in [Size::Mixed, Size::Highest] {
        let sheet = full_sheet(&mut dice, 16, size, MOST_BYTES);
        let mut list = vec![0; MOST_LINES as usize * RECORD_WORDS];
        let lines = read_sheet(&sheet, &mut list).count;
        list.truncate(lines * RECORD_WORDS);
        let mut space = vec![0; MOST_BYTES];
        println!("{size:?}: {lines} records");
        time("written", || {
            let written = write_sheet(black_box(&list), black_box(&mut space));
            assert_eq!(black_box(written).length, MOST_BYTES);
        });
        assert_eq!(space, sheet);
        time("read", || {
            let read = read_sheet(black_box(&sheet), black_box(&mut list));
            assert_eq!(black_box(read).count, lines);
        });
    }
}

fn time(what: &str, mut run: impl FnMut()) {
    let mut runs: Vec<u128> = (0..RUNS)
        .map(|_| {
            let start = Instant::now();
            run();
            start.elapsed().as_nanos()
        })
        .collect();
    runs.sort_unstable();
    let a_byte = |time: u128| time as f64 / MOST_BYTES as f64;
    println!(
        "  {what}: least {:.3}, median {:.3} ns a byte",
        a_byte(runs[0]),
        a_byte(runs[RUNS / 2])
    );
}
