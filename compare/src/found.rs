//! A difference told, which ends the run.

use std::fs;
use std::process::exit;

use crate::both::Difference;

/// Where a sheet or list is kept for which a difference was found.
const FOLDER: &str = "target/compare";

/// Tells what was given, what differs and how to run it again, keeps the bytes
/// in a file of this name and ends with status 1.
pub fn tell(run: &str, given: &str, difference: &Difference, name: &str, bytes: &[u8]) -> ! {
    println!("a difference; compare/run {run} runs it again");
    println!("{given}");
    println!("{}", difference.0);
    let path = format!("{FOLDER}/{name}");
    match fs::create_dir_all(FOLDER).and_then(|()| fs::write(&path, bytes)) {
        Ok(()) => println!("what was given is in {path}"),
        Err(error) => println!("what was given could not be written to {path}: {error}"),
    }
    exit(1)
}
