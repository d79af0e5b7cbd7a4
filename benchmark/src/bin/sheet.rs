//! Writes the sheet of one case of a report to standard output: `sheet CASE`.

use std::env::args;
use std::io::{self, Write};
use std::process::exit;

use benchmark::cases::{cases, growth};

fn main() -> io::Result<()> {
    let name = args().nth(1).unwrap_or_default();
    let mut all = cases().into_iter().chain(growth());
    let Some(case) = all.find(|case| case.name == name) else {
        eprintln!("usage: sheet CASE, a case of a report");
        exit(2)
    };
    io::stdout().write_all(&case.given)
}
