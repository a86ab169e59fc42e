//! The four numbers of an entry as fractions of a unit: as given in units, as a maker's fractions of 1, or as the mean
//! of the opinions weighted by score, in which an expert's silence stands for all of 0 to 1 (02, CR 5).

use crate::end::U;
use crate::opinion_sheet::{Entry, Fractions};

/// a, b = c and d of each term in hundredths of 1 (source 000, table 5); term code 1 stands first.
pub const TERMS: [[u32; 3]; 7] =
    [[0, 4, 8], [7, 13, 19], [17, 27, 37], [35, 50, 65], [62, 73, 82], [81, 87, 93], [92, 96, 100]];

/// a, b, c and d of silence in hundredths of 1: an expert who says nothing rules nothing out.
const SILENCE: [u32; 4] = [0, 0, 100, 100];

/// Hundredths in 1.
const HUNDRED: u32 = 100;

/// a, b, c and d in units, each over the one denominator.
#[derive(Clone, Copy, PartialEq, Eq, Debug)]
pub struct Four {
    pub numerators: [u128; 4],
    pub denominator: u128,
}

pub fn four_numbers(entry: &Entry) -> Four {
    match entry {
        Entry::Four(numbers) => Four { numerators: numbers.map(u128::from), denominator: 1 },
        Entry::Opinions { scores, terms } => in_units(&weighted_mean(scores, terms)),
        Entry::Fractions(fractions) => in_units(fractions),
    }
}

/// Fractions of 1, not rounded. The denominator is above 0 in an accepted sheet.
fn in_units(fractions: &Fractions) -> Four {
    let numerators = fractions.numerators.map(|numerator| numerator as u128 * U as u128);
    Four { numerators, denominator: fractions.denominator as u128 }
}

/// Scores and terms are those of the listed experts. The denominator is 100 times the total of all their scores, above
/// 0 in an accepted sheet, where somebody spoke; it and the sums are 160,000 at most.
pub fn weighted_mean(scores: &[u8], terms: &[u8]) -> Fractions {
    let mut mean = Fractions { denominator: 0, numerators: [0; 4] };
    for (&score, &term) in scores.iter().zip(terms) {
        for (numerator, hundredths) in mean.numerators.iter_mut().zip(four_of(term)) {
            *numerator += score as u32 * hundredths;
        }
        mean.denominator += score as u32 * HUNDRED;
    }
    mean
}

/// a, b, c and d of a listed expert's term in hundredths of 1.
fn four_of(term: u8) -> [u32; 4] {
    match term {
        0 => SILENCE,
        code => {
            let [a, b, d] = TERMS[code as usize - 1];
            [a, b, b, d]
        }
    }
}
