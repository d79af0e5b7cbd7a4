//! Prints the report of a works whose records stand below, as a database would hand them over. For refused records it
//! prints the refusal on standard error, and the offending record; the exit status is then 1.

use std::process::ExitCode;

use wiltoresh::Record;

/// The works of document 01.
const RECORDS: [Record; 7] = [
    Record::Process {
        number: 1,
        output: 1000,
    },
    Record::Process {
        number: 2,
        output: 400,
    },
    // Natural gas, with both standard values.
    Record::SourceStream {
        process: 1,
        method: 1,
        code: 16,
        mass: 1000,
        a: None,
        b: None,
        c: 10_000,
        d: 0,
    },
    Record::MeasurableHeat {
        from: 1,
        to: 2,
        megajoules: 10_000,
        factor: 56_100,
    },
    Record::Electricity {
        from: 0,
        to: 2,
        kilowatt_hours: 500,
        factor: 400_000,
    },
    Record::BoughtPrecursor {
        process: 2,
        mass: 100,
        direct: 1_900_000,
        indirect: 250_000,
    },
    Record::OwnGood {
        from: 1,
        to: 2,
        mass: 300,
    },
];

fn main() -> ExitCode {
    let sheet = match wiltoresh::write(&RECORDS) {
        Ok(sheet) => sheet,
        Err(refusal) => {
            eprintln!("{}", refusal);
            if let Some(place) = refusal.line().checked_sub(1) {
                eprintln!("{:?}", RECORDS[place]);
            }
            return ExitCode::from(1);
        }
    };
    // What write accepts, report accepts.
    print!("{}", wiltoresh::report(&sheet).expect("a good sheet"));
    ExitCode::SUCCESS
}
