//! Prints how long all implementations take, and how much stack.

use benchmark::cases::{Case, cases, growth};
use benchmark::record_cases::{read, written};
use benchmark::stack::depth;
use benchmark::timing::{ROUNDS, time};
use benchmark::{Implementation, READ, REPORT, WRITE};

const NAMES: [&str; 3] = ["proved", "plain", "walk"];

fn main() {
    println!("Time of a report, all implementations in turn, medians of {ROUNDS} rounds.");
    println!("\"plain\" divides in 128 bits; \"walk\" is plain Rust with the walk of \"proved\".");
    println!("The last two columns are proved / plain and proved / walk.");
    table("case", &cases(), REPORT);
    table("growth", &growth(), REPORT);
    println!();
    println!("The same for records, written and read; a byte is one of their sheet.");
    table("written", &written(), WRITE);
    table("read", &read(), READ);
    println!();
    stack("a report", &cases(), REPORT);
    stack("writing records", &written(), WRITE);
    stack("reading records", &read(), READ);
    println!("Measured on a thread whose stack held a known value in every byte: from the");
    println!("caller's frame down to the lowest byte that was written, the most of all cases");
    println!("but those of growth.");
}

fn table<G: Copy, L: Copy + From<u8> + PartialEq, const N: usize>(
    title: &str,
    cases: &[Case<G>],
    all: [Implementation<G, L>; N],
) {
    let names = &NAMES[..N];
    println!();
    println!(
        "{:<30} {:>6}{}{}{}",
        "",
        "",
        columns(names, |name| format!("{name:>10}")),
        columns(names, |name| format!("{name:>9}")),
        columns(&names[1..], |_| format!("{:>7}", "to"))
    );
    println!(
        "{title:<30} {:>6}{}{}{}",
        "bytes",
        columns(names, |_| format!("{:>10}", "ns")),
        columns(names, |_| format!("{:>9}", "ns/byte")),
        columns(&names[1..], |name| format!("{name:>7}"))
    );
    for case in cases {
        let times = time(case, all);
        let bytes = case.bytes as f64;
        println!(
            "{:<30} {:>6}{}{}{}",
            case.told,
            case.bytes,
            columns(&times.each, |time| format!("{time:>10.0}")),
            columns(&times.each, |time| format!("{:>9.4}", time / bytes)),
            columns(&times.ratios[1..], |ratio| format!("{ratio:>7.2}"))
        );
    }
}

fn columns<T>(of: &[T], column: impl Fn(&T) -> String) -> String {
    of.iter().map(column).collect()
}

/// Prints the stack of the proved library and of plain Rust.
fn stack<G, L: Copy + From<u8>, const N: usize>(
    job: &str,
    cases: &[Case<G>],
    all: [Implementation<G, L>; N],
) {
    let deepest = |implementation| {
        let depths = cases.iter().map(|case| depth(implementation, case));
        depths.max().unwrap_or(0)
    };
    let (proved, plain) = (deepest(all[0]), deepest(all[1]));
    println!("Stack of {job}: proved {proved} bytes, plain {plain} bytes.");
}
