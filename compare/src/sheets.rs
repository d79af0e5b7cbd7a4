//! Draws a sheet of any sort.

use reference::samples::Dice;

use crate::edges::{large, random};
use crate::limits::at_limits;
use crate::slips::slip;
use crate::valid::valid;

/// A sheet, which follows from the dice. One of 100 is large.
pub fn sheet(dice: &mut Dice) -> Vec<u8> {
    match dice.below(100) {
        0..28 => valid(dice),
        28..70 => slipped(dice),
        70..88 => at_limits(dice),
        88..99 => {
            let length = dice.index(50);
            random(dice, length)
        }
        _ => large(dice),
    }
}

/// A good sheet with slips.
fn slipped(dice: &mut Dice) -> Vec<u8> {
    let mut sheet = valid(dice);
    slip(dice, &mut sheet);
    sheet
}
