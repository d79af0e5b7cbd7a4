//! One case, so many times, by one implementation:
//! `one_case proved|plain|walk CASE TIMES`. Prints the bytes of its sheet.

use std::env::args;
use std::process::exit;

use benchmark::cases::{Case, cases, growth};
use benchmark::record_cases::{read, written};
use benchmark::timing::run;
use benchmark::{Implementation, READ, REPORT, WRITE};

const NAMES: [&str; 3] = ["proved", "plain", "walk"];

fn main() {
    let given: Vec<String> = args().skip(1).collect();
    let [which, name, times] = &given[..] else {
        usage();
    };
    let which = NAMES.iter().position(|name| name == which);
    let (Some(which), Ok(times)) = (which, times.parse()) else {
        usage();
    };
    let bytes = run_named(reports(), &REPORT, name, which, times)
        .or_else(|| run_named(written(), &WRITE, name, which, times))
        .or_else(|| run_named(read(), &READ, name, which, times));
    match bytes {
        Some(bytes) => println!("{bytes}"),
        None => usage(),
    }
}

fn reports() -> Vec<Case<u8>> {
    cases().into_iter().chain(growth()).collect()
}

/// Runs the case of this name by one implementation, if there are both, and
/// gives the bytes of its sheet.
fn run_named<G, L: Copy + From<u8>>(
    cases: Vec<Case<G>>,
    all: &[Implementation<G, L>],
    name: &str,
    which: usize,
    times: u32,
) -> Option<usize> {
    let case = cases.into_iter().find(|case| case.name == name)?;
    let mut lent = vec![L::from(0); case.lent];
    run(*all.get(which)?, &case.given, &mut lent, times);
    Some(case.bytes)
}

fn usage() -> ! {
    let mut names: Vec<String> = reports().into_iter().map(|case| case.name).collect();
    names.extend(written().into_iter().map(|case| case.name));
    names.extend(read().into_iter().map(|case| case.name));
    eprintln!("usage: one_case proved|plain|walk CASE TIMES");
    eprintln!("cases: {}", names.join(" "));
    eprintln!("Cases of records have no walk.");
    exit(2)
}
