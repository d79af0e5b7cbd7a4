//! Prints the report of a sheet: report SHEET. For a refused sheet it prints the refusal on standard error, and the text
//! of the offending line; the exit status is then 1. It is 2 where there is no answer.

use std::env;
use std::fs;
use std::io::{self, Write};
use std::process::ExitCode;

fn main() -> ExitCode {
    let path = match env::args_os().nth(1) {
        Some(path) => path,
        None => {
            eprintln!("report: name a sheet");
            return ExitCode::from(2);
        }
    };
    match fs::read(&path).and_then(|sheet| answer(&sheet)) {
        Ok(code) => code,
        Err(fault) => {
            eprintln!("report: {}: {}", path.to_string_lossy(), fault);
            ExitCode::from(2)
        }
    }
}

fn answer(sheet: &[u8]) -> io::Result<ExitCode> {
    match wiltoresh::report(sheet) {
        Ok(report) => {
            io::stdout().write_all(&report)?;
            Ok(ExitCode::SUCCESS)
        }
        Err(refusal) => {
            eprintln!("{}", refusal);
            eprintln!("{}", String::from_utf8_lossy(refusal.text()));
            Ok(ExitCode::from(1))
        }
    }
}
