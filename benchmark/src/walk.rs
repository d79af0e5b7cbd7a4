//! ⌊P × C/A⌋ by document 01's walk, with the steps of the proved library: P bit
//! by bit from its highest one bit down, the two pools side by side, and no
//! branch that the data decides.

use reference::reckoning::Both;

/// A division under way: the dividend so far is quotient × whole + remainder.
#[derive(Clone, Copy)]
struct Division {
    quotient: u64,
    remainder: u64,
}

impl Division {
    const START: Division = Division {
        quotient: 0,
        remainder: 0,
    };

    #[inline]
    fn with_bit(self, bit: u64, part: u64, whole: u64) -> Division {
        let grown = 2 * self.remainder + bit * part;
        let wholes = u64::from(whole <= grown) + u64::from(2 * whole <= grown);
        Division {
            quotient: 2 * self.quotient + wholes,
            remainder: grown - wholes * whole,
        }
    }
}

/// ⌊P × part/whole⌋ for each of the two pools; part is at most whole.
#[inline]
pub fn portion(pools: Both, part: u64, whole: u64) -> Both {
    let mut direct = Division::START;
    let mut indirect = Division::START;
    let bits = u64::BITS - (pools.direct | pools.indirect).leading_zeros();
    for i in (0..bits).rev() {
        direct = direct.with_bit((pools.direct >> i) & 1, part, whole);
        indirect = indirect.with_bit((pools.indirect >> i) & 1, part, whole);
    }
    Both {
        direct: direct.quotient,
        indirect: indirect.quotient,
    }
}
