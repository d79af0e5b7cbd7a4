//! Draws a list of records of any sort.

use reference::record_samples::{Way, record_list};
use reference::samples::Dice;

/// A list of records, which follows from the dice. One of 100 is long.
pub fn list(dice: &mut Dice) -> Vec<u64> {
    let way = match dice.below(100) {
        0..24 => Way::Valid,
        24..44 => Way::Slipped,
        44..59 => Way::Planted,
        59..67 => Way::Spare,
        67..77 => Way::Odd,
        77..82 => Way::Huge,
        82..91 => Way::Moved,
        91..99 => Way::Wild,
        _ => Way::Full,
    };
    record_list(dice, way)
}
