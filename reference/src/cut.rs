//! An event's alpha-cut at a level, rounded outward once, after averaging and cutting together.

use crate::end::{rounded, End, Rounding};
use crate::mean::Four;

/// Level k of n.
#[derive(Clone, Copy, PartialEq, Eq, Debug)]
pub struct Level {
    pub k: u32,
    pub n: u32,
}

pub const MOST_LEVELS: u32 = 1_000;

impl Level {
    pub fn in_range(self) -> bool {
        (1..=MOST_LEVELS).contains(&self.n) && self.k <= self.n
    }
}

/// The exact ends of the cut in units, over one denominator: a + (b - a) × k / n and d - (d - c) × k / n.
#[derive(Clone, Copy, PartialEq, Eq, Debug)]
pub struct ExactCut {
    pub lower: u128,
    pub upper: u128,
    pub denominator: u128,
}

/// The level is in range.
pub fn exact_cut(four: &Four, level: Level) -> ExactCut {
    let [a, b, c, d] = four.numerators;
    let k = level.k as u128;
    let rest = (level.n - level.k) as u128;
    ExactCut { lower: a * rest + b * k, upper: d * rest + c * k, denominator: four.denominator * level.n as u128 }
}

/// The lower and the upper end.
pub fn rounded_cut(cut: &ExactCut) -> (End, End) {
    (rounded(cut.lower, cut.denominator, Rounding::Down), rounded(cut.upper, cut.denominator, Rounding::Up))
}
