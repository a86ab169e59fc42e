//! One end of a node's enclosure, its mark, and the rounded step of a gate (01, "A level, and the way up").

/// Units in 1: one unit is a billionth.
pub const U: u32 = 1_000_000_000;

#[derive(Clone, Copy, PartialEq, Eq, Debug)]
pub struct End {
    pub units: u32,
    /// The mark: this end is the exact one.
    pub exact: bool,
}

#[derive(Clone, Copy, PartialEq, Eq, Debug)]
pub enum Rounding {
    Down,
    Up,
}

impl Rounding {
    pub fn opposite(self) -> Rounding {
        match self {
            Rounding::Down => Rounding::Up,
            Rounding::Up => Rounding::Down,
        }
    }
}

/// What a gate starts with.
const START: End = End { units: U, exact: true };

/// A fraction of at most U units, rounded to a unit and marked where nothing was dropped.
pub fn rounded(numerator: u128, denominator: u128, rounding: Rounding) -> End {
    let quotient = numerator / denominator;
    let exact = quotient * denominator == numerator;
    let units = match rounding {
        Rounding::Up if !exact => quotient + 1,
        _ => quotient,
    };
    End { units: units as u32, exact }
}

/// U minus the end; it is exact as the end is.
pub fn complement(end: End) -> End {
    End { units: U - end.units, exact: end.exact }
}

/// A 0 without a mark is no true 0.
fn is_true_zero(end: End) -> bool {
    end.exact && end.units == 0
}

/// A product of two numbers of at most `unit`, over the unit and marked where nothing was dropped. Rounded up it is the
/// least whole number that, times the unit, reaches the product (02, CR 3).
pub fn over_unit(product: u128, unit: u128, rounding: Rounding) -> End {
    let divided = match rounding {
        Rounding::Down => product,
        Rounding::Up => product + unit - 1,
    };
    let units = divided / unit;
    End { units: units as u32, exact: units * unit == product }
}

pub fn step(running: End, factor: End, rounding: Rounding) -> End {
    let product = over_unit(running.units as u128 * factor.units as u128, U as u128, rounding);
    let nothing_lost = running.exact && factor.exact && product.exact;
    End { units: product.units, exact: nothing_lost || is_true_zero(running) || is_true_zero(factor) }
}

pub fn and_end(inputs: impl Iterator<Item = End>, rounding: Rounding) -> End {
    inputs.fold(START, |running, input| step(running, input, rounding))
}

/// The complement turns the order round, so the complements are rounded the other way.
pub fn or_end(inputs: impl Iterator<Item = End>, rounding: Rounding) -> End {
    complement(and_end(inputs.map(complement), rounding.opposite()))
}
