//! Lists of records written and read by both, and sheets read, many times over.

use reference::records::RECORD_WORDS;

use crate::both::Difference;
use crate::dice_of;
use crate::exchange::{compare_list, compare_sheet};
use crate::found::tell;
use crate::lists::list;
use crate::sheets::sheet;

/// Records of a list that are printed; the file has all.
const PRINTED: usize = 60;

/// Has the first `count` lists of the seed written and read, and as many sheets
/// read, and prints how many had each number.
pub fn all(count: u64, seed: u64) {
    let mut counts = [(0u64, 0u64); 19];
    for index in 0..count {
        let (written, read) = exchanged(seed, index);
        counts[written as usize].0 += 1;
        counts[read as usize].1 += 1;
    }
    println!("           lists     sheets read");
    for (number, (lists, sheets)) in counts.iter().enumerate() {
        println!("number {number:2}: {lists:9} {sheets:9}");
    }
    println!("seed {seed}");
    println!("{count} lists and {count} sheets: no difference");
}

/// Prints list and sheet of this index and has them written and read.
pub fn one(seed: u64, index: u64) {
    let mut dice = dice_of(seed, index);
    println!("{}", told(&list(&mut dice), PRINTED));
    println!("{}", sheet(&mut dice).escape_ascii());
    let (written, read) = exchanged(seed, index);
    println!("number {written} written, number {read} of the sheet read");
    println!("1 list and 1 sheet: no difference");
}

/// The numbers that both give of the list and of the sheet, or the end of the
/// run.
fn exchanged(seed: u64, index: u64) -> (u64, u64) {
    let mut dice = dice_of(seed, index);
    let list = list(&mut dice);
    let sheet = sheet(&mut dice);
    let run = format!("records 1 {seed} {index}");
    let of_list = |difference: Difference| {
        let all = told(&list, usize::MAX);
        let given = told(&list, PRINTED);
        tell(
            &run,
            &given,
            &difference,
            "difference.records",
            all.as_bytes(),
        )
    };
    let of_sheet = |difference: Difference| {
        let given = sheet.escape_ascii().to_string();
        tell(&run, &given, &difference, "difference.sheet", &sheet)
    };
    let written = compare_list(&list, &mut dice).unwrap_or_else(of_list);
    let read = compare_sheet(&sheet, &mut dice).unwrap_or_else(of_sheet);
    (written, read)
}

/// The words of a list, a line for each of the first `most` records.
fn told(list: &[u64], most: usize) -> String {
    let mut text = String::new();
    for record in list.chunks(RECORD_WORDS).take(most) {
        let words: Vec<String> = record.iter().map(u64::to_string).collect();
        text += &words.join(" ");
        text += "\n";
    }
    let records = list.len().div_ceil(RECORD_WORDS);
    if records > most {
        text += &format!("and {} records more\n", records - most);
    }
    text
}
