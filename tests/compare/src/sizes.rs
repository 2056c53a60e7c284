//! Sizes and alignments of random items, such that most jobs get offsets and numbers 12 and 13 come often.
use crate::cases::Random;

/// What the items of one job are drawn from: in one job of twelve some alignments are no powers of two, in one of eight some sizes are large.
pub struct Sizes {
    odd: bool,
    large: bool,
}

impl Sizes {
    pub fn of(r: &mut Random) -> Self {
        Self { odd: r.one_in(12), large: r.one_in(8) }
    }

    pub fn size(&self, r: &mut Random) -> u32 {
        match r.below(24) {
            0 | 1 => r.below(100),
            2 => 0,
            3..=8 if self.large => large(r),
            _ => 1 << r.below(5),
        }
    }

    /// Seldom one of all powers of two, 2,147,483,648 too. A slot's width is drawn here, since it is both.
    pub fn align(&self, r: &mut Random) -> u32 {
        match r.below(24) {
            0 => 1 << r.below(32),
            1..=6 if self.odd => odd(r),
            _ => 1 << r.below(5),
        }
    }
}

/// Around the greatest depth, of which a few pass it together, or any number.
fn large(r: &mut Random) -> u32 {
    match r.below(4) {
        0 => r.number(),
        1 => 2_147_483_650 - r.below(60),
        _ => 1 << (26 + r.below(5)),
    }
}

/// Mostly no power of two: 0, next to one, any, or small, since the largest come first in the order of cells.
fn odd(r: &mut Random) -> u32 {
    match r.below(8) {
        0 => 0,
        1 => (4 << r.below(30)) - 1 + 2 * r.below(2),
        2 => r.number(),
        _ => r.below(20),
    }
}
