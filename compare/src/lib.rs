//! The proved library and the plain implementation on the same made-up sheets
//! and the same made-up lists of records.
//!
//! `valid`, `limits`, `slips` and `edges` make sheets, `sheets` draws one of
//! them, and `both` has a sheet judged twice and compares all that comes back.
//! `lists` draws a list of records, and `exchange` has it written and read
//! twice. `sheet_run` and `record_run` do so many times over; `found` tells of a
//! difference.

pub mod both;
pub mod edges;
pub mod exchange;
pub mod found;
pub mod limits;
pub mod lists;
pub mod record_run;
pub mod sheet_run;
pub mod sheets;
pub mod slips;
pub mod valid;

use reference::samples::Dice;

/// The dice of one sheet or list, which follow from the run's seed and its
/// index alone.
pub fn dice_of(seed: u64, index: u64) -> Dice {
    let mixed = seed ^ index.wrapping_mul(0xd134_2543_de82_ef95);
    Dice::new(Dice::new(mixed).roll())
}
