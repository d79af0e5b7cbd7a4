//! Reads the sheet from standard input and prints the report, or the refusal's
//! number, a comma, its line number and LF.

use std::io::{self, Read, Write};

use reference::sheet::MOST_BYTES;

fn main() -> io::Result<()> {
    let mut sheet = Vec::new();
    // One byte more than a sheet may have is enough to refuse it.
    let most = MOST_BYTES as u64 + 1;
    io::stdin().lock().take(most).read_to_end(&mut sheet)?;
    let mut out = io::stdout().lock();
    match reference::report(&sheet) {
        Ok(report) => out.write_all(&report)?,
        Err((number, line)) => writeln!(out, "{number},{line}")?,
    }
    out.flush()
}
