//! Cuts of fraction entries, worked out by hand from documents 01 and 02.

use crate::desk::{exact, holding, unmarked, Desk};
use reference::describe::{fractions, same, Entry, Node};
use reference::end::{End, U};

fn desk(denominator: u32, numerators: [u32; 4]) -> Desk {
    holding(&[Node::Event], &[], &[fractions(denominator, numerators)])
}

/// The event alone at level k of n.
fn check(denominator: u32, numerators: [u32; 4], (k, n): (u32, u32), lower: End, upper: End) {
    let answer = desk(denominator, numerators).answer(k, n).unwrap();
    assert_eq!((answer.lower, answer.upper), (lower, upper), "{numerators:?} of {denominator} at level {k} of {n}");
}

/// One figure: the cut is the same at every level.
fn check_figure(numerator: u32, denominator: u32, lower: End, upper: End) {
    for level in [(0, 1), (1, 1), (1, 2), (1, 3), (0, 1_000), (999, 1_000), (1_000, 1_000)] {
        check(denominator, [numerator; 4], level, lower, upper);
    }
}

#[test]
fn three_failures_in_1250_starts() {
    check_figure(3, 1_250, exact(2_400_000), exact(2_400_000));
}

#[test]
fn one_in_three() {
    check_figure(1, 3, unmarked(333_333_333), unmarked(333_333_334));
    check_figure(2, 3, unmarked(666_666_666), unmarked(666_666_667));
}

#[test]
fn one_in_a_million() {
    check_figure(1, 1_000_000, exact(1_000), exact(1_000));
    check_figure(999_999, 1_000_000, exact(999_999_000), exact(999_999_000));
}

#[test]
fn none_and_all() {
    for denominator in [1, 3, 255, 256, 65_536, 999_983, 1_000_000] {
        check_figure(0, denominator, exact(0), exact(0));
        check_figure(denominator, denominator, exact(U), exact(U));
    }
}

/// 999,983 is a prime: 1,000 times it is 17,000 short of U, so that one failure in it is 1,000 and a part of a unit.
#[test]
fn a_prime_denominator() {
    check_figure(1, 999_983, unmarked(1_000), unmarked(1_001));
    check_figure(999_982, 999_983, unmarked(999_998_999), unmarked(999_999_000));
}

/// (0, 1, 1, 2) of 3. Level 1 of 3: from 1/9 to 2/3 - 1/9 = 5/9. Level 2 of 3: from 2/9 to 4/9.
#[test]
fn a_spread_over_three() {
    let spread = [0, 1, 1, 2];
    check(3, spread, (0, 3), exact(0), unmarked(666_666_667));
    check(3, spread, (1, 3), unmarked(111_111_111), unmarked(555_555_556));
    check(3, spread, (2, 3), unmarked(222_222_222), unmarked(444_444_445));
    check(3, spread, (3, 3), unmarked(333_333_333), unmarked(333_333_334));
}

/// (1, 2, 4, 5) of 6. Half way between 1/6 and 2/6 is 1/4, and between 4/6 and 5/6 is 3/4: exact, though no sixth is.
/// Sixths rounded before the cut would give 249,999,999 and 750,000,001.
#[test]
fn nothing_is_rounded_before_the_cut() {
    let spread = [1, 2, 4, 5];
    check(6, spread, (0, 2), unmarked(166_666_666), unmarked(833_333_334));
    check(6, spread, (1, 2), exact(250_000_000), exact(750_000_000));
    check(6, spread, (2, 2), unmarked(333_333_333), unmarked(666_666_667));
}

/// The pump maker's figure with a spread: 800,000 to 4,800,000 at level 0, and 2,400,000 at the highest. Level 1 of 3:
/// from (2 + 3) / 3,750 = 1,333,333.3.. to (12 + 3) / 3,750 = 4,000,000.
#[test]
fn a_makers_spread() {
    let spread = [1, 3, 3, 6];
    check(1_250, spread, (0, 3), exact(800_000), exact(4_800_000));
    check(1_250, spread, (1, 3), unmarked(1_333_333), exact(4_000_000));
    check(1_250, spread, (3, 3), exact(2_400_000), exact(2_400_000));
}

/// The largest products: 10^6 × 10^3 × 10^9 over 10^6 × 10^3.
#[test]
fn largest_numbers() {
    check(1_000_000, [1_000_000; 4], (0, 1_000), exact(U), exact(U));
    // From (1 × 667 + 499,999 × 333) / 10^9 to (1,000,000 × 667 + 999,999 × 333) / 10^9.
    check(1_000_000, [1, 499_999, 999_999, 1_000_000], (333, 1_000), exact(166_500_334), exact(999_999_667));
}

/// Powers of two lie at the edges of a number's bytes: 1/256 is 3,906,250 exactly, 1/65,536 is 15,258.7.. units.
#[test]
fn numbers_of_three_bytes() {
    check_figure(1, 256, exact(3_906_250), exact(3_906_250));
    check_figure(1, 65_536, unmarked(15_258), unmarked(15_259));
    check_figure(256, 65_536, exact(3_906_250), exact(3_906_250));
    check_figure(65_536, 131_072, exact(500_000_000), exact(500_000_000));
}

/// The numerator of each end at level 0 and at level 1 of 1, with one byte of one of the five numbers raised by one.
#[test]
fn every_byte_of_every_number_counts() {
    let plain = [0x0c_0c0c, 0x02_0202, 0x04_0404, 0x07_0707, 0x08_0808];
    for raised in 0..5 {
        for byte in 0..3 {
            let mut numbers = plain;
            numbers[raised] += 1 << (8 * byte);
            let [denominator, a, b, c, d] = numbers;
            let units = |numerator: u32| numerator as u64 * 1_000_000_000 / denominator as u64;
            let held = desk(denominator, [a, b, c, d]);
            for (k, lower, upper) in [(0, a, d), (1, b, c)] {
                let answer = held.answer(k, 1).unwrap();
                // None of these fractions is a whole number of units.
                let ends = (unmarked(units(lower) as u32), unmarked(units(upper) as u32 + 1));
                assert_eq!((answer.lower, answer.upper), ends, "byte {byte} of number {raised}");
            }
        }
    }
}

/// A maker's figure beside an expert's and a number, by hand: 0.0024 AND 0.5 is 0.0012, and 0.04 OR that is
/// 1 - 0.96 × 0.9988 = 0.041152.
#[test]
fn beside_the_other_kinds() {
    let nodes = [Node::Event, Node::Event, Node::Event, Node::And(vec![0, 1]), Node::Or(vec![2, 3])];
    let entries = [fractions(1_250, [1, 3, 3, 6]), same(500_000_000), Entry::Opinions(vec![1])];
    let answer = holding(&nodes, &[5], &entries).answer(1, 1).unwrap();
    assert_eq!((answer.lower, answer.upper), (exact(41_152_000), exact(41_152_000)));
}

/// Denominators that differ are of no matter to each other: 1/3 AND 3/4 loses a part of a unit at each end.
#[test]
fn beside_another_denominator() {
    let nodes = [Node::Event, Node::Event, Node::And(vec![0, 1])];
    let entries = [fractions(3, [1; 4]), fractions(4, [3; 4])];
    let answer = holding(&nodes, &[], &entries).answer(0, 1).unwrap();
    assert_eq!((answer.lower, answer.upper), (unmarked(249_999_999), unmarked(250_000_001)));
}
