//! Sheets judged by both, many times over.

use crate::both::compare;
use crate::dice_of;
use crate::found::tell;
use crate::sheets::sheet;

/// Judges the first `count` sheets of the seed and prints how many had each
/// number.
pub fn all(count: u64, seed: u64) {
    let mut counts = [0u64; 19];
    for index in 0..count {
        counts[judged(seed, index) as usize] += 1;
    }
    for (number, count) in counts.iter().enumerate() {
        println!("number {number:2}: {count:9}");
    }
    println!("seed {seed}");
    println!("{count} sheets: no difference");
}

/// Prints the sheet of this index and judges it.
pub fn one(seed: u64, index: u64) {
    let sheet = sheet(&mut dice_of(seed, index));
    println!("{}", sheet.escape_ascii());
    println!("number {}", judged(seed, index));
    println!("1 sheet: no difference");
}

/// The number that both give, or the end of the run.
fn judged(seed: u64, index: u64) -> u64 {
    let mut dice = dice_of(seed, index);
    let sheet = sheet(&mut dice);
    compare(&sheet, &mut dice).unwrap_or_else(|difference| {
        let run = format!("1 {seed} {index}");
        let given = sheet.escape_ascii().to_string();
        tell(&run, &given, &difference, "difference.sheet", &sheet)
    })
}
