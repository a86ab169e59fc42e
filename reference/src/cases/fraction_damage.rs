//! One fraction entry that breaks a rule of 28, in a small sheet or in one of the largest, with the refusal and the
//! place that it must get.

use super::case::{input_case, Case, Outcome};
use super::fraction_entries::{any_of_three, fractions_alone, fractions_beside};
use super::sheets::any_scores;
use super::spot::SPOTS;
use super::trees::most_events;
use super::valid::{small_tree, Pair};
use crate::describe::{sheet_bytes, Entry};
use crate::opinion_sheet::{entry_place, LARGEST_DENOMINATOR, MOST_EVENTS};
use crate::random::Random;
use crate::tree_file::MOST_NODES;

/// An entry that 28 refuses.
type Fault = fn(&mut Random) -> Entry;

pub const FRACTION_FAULTS: [Fault; 11] = [
    |random| bad_denominator(random, 0),
    |random| bad_denominator(random, LARGEST_DENOMINATOR + 1),
    any_large_denominator,
    |random| falling(random, 0),
    |random| falling(random, 1),
    |random| falling(random, 2),
    above_denominator,
    far_above_denominator,
    falling_in_high_bytes,
    last_byte,
    several_at_once,
];

/// The most that 3 bytes hold.
const MOST_IN_THREE_BYTES: usize = 0xff_ffff;

fn damaged(denominator: u32, numerators: [u32; 4], last: u8) -> Entry {
    Entry::Fractions { denominator, numerators, last }
}

/// Numerators in order that are not above the denominator.
fn rising(random: &mut Random, denominator: u32) -> [u32; 4] {
    let mut numerators = [0; 4].map(|_: u32| random.between(0, denominator as usize) as u32);
    numerators.sort();
    numerators
}

/// The denominator alone is at fault.
fn bad_denominator(random: &mut Random, denominator: u32) -> Entry {
    damaged(denominator, rising(random, denominator), 0)
}

/// Those at the edges of their bytes more often than others.
fn any_large_denominator(random: &mut Random) -> Entry {
    let any = random.between(LARGEST_DENOMINATOR as usize + 1, MOST_IN_THREE_BYTES);
    let denominator = *random.pick(&[0x10_0000, 0x80_0000, MOST_IN_THREE_BYTES, any]);
    bad_denominator(random, denominator as u32)
}

/// Numerator `first` is one above the next, and the others are in order.
fn falling(random: &mut Random, first: usize) -> Entry {
    let denominator = random.between(1, LARGEST_DENOMINATOR as usize) as u32;
    let height = random.between(1, denominator as usize) as u32;
    let mut numerators = [height; 4];
    numerators[..first].fill(0);
    numerators[first + 1] = height - 1;
    damaged(denominator, numerators, 0)
}

fn above_denominator(random: &mut Random) -> Entry {
    let denominator = random.between(1, LARGEST_DENOMINATOR as usize) as u32;
    let [a, b, c, _] = rising(random, denominator);
    damaged(denominator, [a, b, c, denominator + 1], 0)
}

fn far_above_denominator(random: &mut Random) -> Entry {
    let denominator = random.between(1, LARGEST_DENOMINATOR as usize) as u32;
    let above = random.between(denominator as usize + 1, MOST_IN_THREE_BYTES) as u32;
    let above = *random.pick(&[above, denominator + 0x1_0000, MOST_IN_THREE_BYTES as u32]);
    damaged(denominator, if random.percent(50) { [above; 4] } else { [0, 0, 1, above] }, 0)
}

/// Numerators that fall in their middle or their high byte and rise in the low one.
fn falling_in_high_bytes(random: &mut Random) -> Entry {
    let shift = *random.pick(&[8, 16]);
    let (high, first) = (random.between(1, 3) as u32, random.below(3));
    let mut numerators = [high << shift; 4];
    numerators[..first].fill(0);
    numerators[first + 1] = ((high - 1) << shift) + random.between(1, 255) as u32;
    damaged(LARGEST_DENOMINATOR, numerators, 0)
}

fn last_byte(random: &mut Random) -> Entry {
    let denominator = random.between(1, LARGEST_DENOMINATOR as usize) as u32;
    let any = random.between(1, 255) as u8;
    let last = *random.pick(&[1, 128, 255, any]);
    damaged(denominator, rising(random, denominator), last)
}

/// A refusal is one number at one place, whichever of its rules are broken.
fn several_at_once(random: &mut Random) -> Entry {
    let denominator = *random.pick(&[0, 1, LARGEST_DENOMINATOR + 1]);
    damaged(denominator, [5, 4, 3, denominator + 2], random.between(1, 255) as u8)
}

/// The fault in turn, at the spot among the events.
fn write_fault(random: &mut Random, index: u64, entries: &mut [Entry]) -> Outcome {
    let faults = FRACTION_FAULTS.len();
    let (fault, turn) = (index as usize % faults, index as usize / faults);
    // Each fault comes to each spot, and neighbours in the list to different ones.
    let event = SPOTS[(fault + turn) % SPOTS.len()].of(entries.len());
    entries[event] = FRACTION_FAULTS[fault](random);
    if event + 1 < entries.len() && random.percent(50) {
        let later = random.between(event + 1, entries.len() - 1);
        entries[later] = any_faulty(random);
    }
    Outcome::Refused(28, entry_place(event))
}

/// An entry that 10, 12 or 28 refuses.
fn any_faulty(random: &mut Random) -> Entry {
    match random.below(3) {
        0 => Entry::Four([2, 1, 1, 1]),
        1 => Entry::Opinions(vec![]),
        _ => random.pick(&FRACTION_FAULTS)(random),
    }
}

/// A small sheet; one case in two has a further fault behind the first, which is the one that is named.
pub fn small_fault(random: &mut Random, index: u64) -> Case {
    let nodes = small_tree(random, 30);
    let mut pair = fractions_beside(random, nodes);
    let outcome = write_fault(random, index, &mut pair.entries);
    input_case(2, &pair.tree(), &pair.sheet(), outcome)
}

/// Each fault at each spot, in a sheet of 960 entries and in one of 1,024.
pub const LARGE_FAULTS: usize = 2 * SPOTS.len() * FRACTION_FAULTS.len();

/// The same in the sheets of the largest tree and of no tree.
pub fn large_fault(random: &mut Random, index: u64) -> Case {
    let nodes = most_events(random, MOST_NODES);
    let mut pair = if random.percent(50) { fractions_alone(random, nodes) } else { fractions_beside(random, nodes) };
    if index % 2 == 1 {
        fill_to_most(random, &mut pair);
    }
    let outcome = write_fault(random, index / 2, &mut pair.entries);
    input_case(2, &pair.tree(), &pair.sheet(), outcome)
}

/// As many entries as a sheet has at most.
pub fn fill_to_most(random: &mut Random, pair: &mut Pair) {
    let experts = pair.scores.len();
    while pair.entries.len() < MOST_EVENTS {
        pair.entries.push(any_of_three(random, experts));
    }
}

/// A sheet with a fault of 28 at a spot of its entries, for no tree in particular.
pub fn faulty_sheet(random: &mut Random) -> Vec<u8> {
    let experts = random.below(4);
    let mut entries: Vec<Entry> = (0..random.between(1, 6)).map(|_| any_of_three(random, experts)).collect();
    let index = random.below(LARGE_FAULTS) as u64;
    write_fault(random, index, &mut entries);
    let number = random.below(10) as u16;
    sheet_bytes(number, &any_scores(random, experts), &entries)
}
