//! One fault in an opinion sheet, with the refusal that it must get.

use super::case::Outcome;
use super::sheets::{any_four, any_opinions, any_scores};
use super::valid::{any_pair, small_tree, Pair};
use crate::bytes::{read_16, write_16};
use crate::describe::Entry;
use crate::end::U;
use crate::opinion_sheet::*;
use crate::random::Random;

/// The damaged sheet stands with the tree of the pair.
pub struct DamagedSheet {
    pub pair: Pair,
    pub sheet: Vec<u8>,
    pub outcome: Outcome,
}

type Damage = fn(&mut Random) -> DamagedSheet;

pub const SHEET_DAMAGES: [Damage; 29] = [
    shorter,
    letter,
    version,
    |random| event_count(random, 0),
    |random| event_count(random, 1_025),
    any_large_count,
    expert_count,
    both_counts,
    cut,
    longer,
    count_beside_length,
    |random| score_of_expert(random, 0),
    |random| score_of_expert(random, 101),
    any_large_score,
    score_after_last,
    expert_more,
    expert_less,
    unknown_kind,
    |random| numbers_swapped(random, 0),
    |random| numbers_swapped(random, 1),
    |random| numbers_swapped(random, 2),
    number_above_unit,
    unknown_term,
    term_after_last,
    two_terms,
    nobody_spoke,
    unknown_term_and_nobody,
    no_experts,
    two_entries,
];

/// Fewer than sixteen experts, so that there is a place after the last.
fn base(random: &mut Random) -> Pair {
    let nodes = small_tree(random, 30);
    let mut pair = any_pair(random, nodes);
    let experts = random.between(1, MOST_EXPERTS - 1);
    pair.scores = any_scores(random, experts);
    for entry in &mut pair.entries {
        *entry = if random.percent(50) { any_opinions(random, experts) } else { any_four(random) };
    }
    pair
}

fn damaged(pair: Pair, sheet: Vec<u8>, number: u32, place: usize) -> DamagedSheet {
    DamagedSheet { pair, sheet, outcome: Outcome::Refused(number, place) }
}

/// A pair whose chosen event has opinions.
fn base_with_opinions(random: &mut Random) -> (Pair, usize) {
    let mut pair = base(random);
    let event = random.below(pair.entries.len());
    pair.entries[event] = any_opinions(random, pair.scores.len());
    (pair, event)
}

fn shorter(random: &mut Random) -> DamagedSheet {
    let pair = base(random);
    let mut sheet = pair.sheet();
    sheet.truncate(random.below(HEADER));
    let length = sheet.len();
    damaged(pair, sheet, 1, length)
}

fn letter(random: &mut Random) -> DamagedSheet {
    let pair = base(random);
    let mut sheet = pair.sheet();
    sheet[random.below(3)] ^= random.between(1, 255) as u8;
    damaged(pair, sheet, 2, 0)
}

fn version(random: &mut Random) -> DamagedSheet {
    let pair = base(random);
    let mut sheet = pair.sheet();
    write_16(&mut sheet, VERSION_PLACE, *random.pick(&[0, 2, 256, 257, 65_535]));
    damaged(pair, sheet, 3, VERSION_PLACE)
}

fn event_count(random: &mut Random, events: u16) -> DamagedSheet {
    let pair = base(random);
    let mut sheet = pair.sheet();
    write_16(&mut sheet, EVENTS_PLACE, events);
    damaged(pair, sheet, 4, EVENTS_PLACE)
}

fn any_large_count(random: &mut Random) -> DamagedSheet {
    let events = random.between(1_025, 65_535) as u16;
    event_count(random, events)
}

fn expert_count(random: &mut Random) -> DamagedSheet {
    let pair = base(random);
    let mut sheet = pair.sheet();
    sheet[EXPERTS_PLACE] = *random.pick(&[17, 18, 100, 255]);
    damaged(pair, sheet, 4, EXPERTS_PLACE)
}

/// E is judged before the experts.
fn both_counts(random: &mut Random) -> DamagedSheet {
    let DamagedSheet { pair, mut sheet, .. } = expert_count(random);
    write_16(&mut sheet, EVENTS_PLACE, *random.pick(&[0, 1_025]));
    damaged(pair, sheet, 4, EVENTS_PLACE)
}

/// The header stays.
fn cut(random: &mut Random) -> DamagedSheet {
    let pair = base(random);
    let mut sheet = pair.sheet();
    sheet.truncate(random.between(HEADER, sheet.len() - 1));
    let length = sheet.len();
    damaged(pair, sheet, 5, length)
}

fn longer(random: &mut Random) -> DamagedSheet {
    let pair = base(random);
    let mut sheet = pair.sheet();
    sheet.resize(sheet.len() + random.between(1, 40), 0);
    let length = sheet.len();
    damaged(pair, sheet, 5, length)
}

fn count_beside_length(random: &mut Random) -> DamagedSheet {
    let pair = base(random);
    let mut sheet = pair.sheet();
    let events = read_16(&sheet, EVENTS_PLACE);
    write_16(&mut sheet, EVENTS_PLACE, events + 1);
    let length = sheet.len();
    damaged(pair, sheet, 5, length)
}

fn score_of_expert(random: &mut Random, score: u8) -> DamagedSheet {
    let pair = base(random);
    let mut sheet = pair.sheet();
    let place = SCORES_PLACE + random.below(pair.scores.len());
    sheet[place] = score;
    damaged(pair, sheet, 7, place)
}

fn any_large_score(random: &mut Random) -> DamagedSheet {
    let score = random.between(101, 255) as u8;
    score_of_expert(random, score)
}

fn score_after_last(random: &mut Random) -> DamagedSheet {
    let pair = base(random);
    let mut sheet = pair.sheet();
    let place = SCORES_PLACE + random.between(pair.scores.len(), MOST_EXPERTS - 1);
    sheet[place] = random.between(1, 255) as u8;
    damaged(pair, sheet, 7, place)
}

/// The expert added has score 0.
fn expert_more(random: &mut Random) -> DamagedSheet {
    let pair = base(random);
    let mut sheet = pair.sheet();
    sheet[EXPERTS_PLACE] += 1;
    let place = SCORES_PLACE + pair.scores.len();
    damaged(pair, sheet, 7, place)
}

/// The score of the expert left out stands after the last.
fn expert_less(random: &mut Random) -> DamagedSheet {
    let pair = base(random);
    let mut sheet = pair.sheet();
    sheet[EXPERTS_PLACE] -= 1;
    let place = SCORES_PLACE + pair.scores.len() - 1;
    damaged(pair, sheet, 7, place)
}

/// Kind 2 among them, over bytes of another kind.
fn unknown_kind(random: &mut Random) -> DamagedSheet {
    let pair = base(random);
    let mut sheet = pair.sheet();
    let event = random.below(pair.entries.len());
    sheet[entry_place(event)] = random.between(2, 255) as u8;
    match fault_of_kind(&sheet, event) {
        Some(number) => damaged(pair, sheet, number, entry_place(event)),
        None => DamagedSheet { pair, sheet, outcome: Outcome::Answered },
    }
}

/// The refusal of an entry whose kind of 2 or above was written over another, if there is one: seldom its sixteen bytes
/// are fractions.
fn fault_of_kind(sheet: &[u8], event: usize) -> Option<u32> {
    let entry = &sheet[entry_place(event)..entry_place(event + 1)];
    if entry[0] != FRACTIONS {
        return Some(6);
    }
    let number = |first: usize| (0..3).map(|byte| (entry[first + byte] as u32) << (8 * byte)).sum::<u32>();
    let [denominator, a, b, c, d] = [1, 4, 7, 10, 13].map(number);
    let rising = [a, b, c, d, denominator].is_sorted();
    let in_range = denominator != 0 && denominator <= 1_000_000;
    (!rising || !in_range || entry[16] != 0).then_some(28)
}

/// Four rising numbers of which two neighbours change places.
fn numbers_swapped(random: &mut Random, first: usize) -> DamagedSheet {
    let mut pair = base(random);
    let event = random.below(pair.entries.len());
    let step = random.between(1, U as usize / 4) as u32;
    let mut numbers = [0, step, 2 * step, 3 * step];
    numbers.swap(first, first + 1);
    pair.entries[event] = Entry::Four(numbers);
    let sheet = pair.sheet();
    damaged(pair, sheet, 10, entry_place(event))
}

fn number_above_unit(random: &mut Random) -> DamagedSheet {
    let mut pair = base(random);
    let event = random.below(pair.entries.len());
    let d = *random.pick(&[U + 1, U + 1_000, 2 * U, 1 << 31, u32::MAX]);
    pair.entries[event] = Entry::Four(if random.percent(50) { [d; 4] } else { [0, 1, U, d] });
    let sheet = pair.sheet();
    damaged(pair, sheet, 10, entry_place(event))
}

fn unknown_term(random: &mut Random) -> DamagedSheet {
    let (pair, event) = base_with_opinions(random);
    let mut sheet = pair.sheet();
    let place = inside_entry(event, random.below(MOST_EXPERTS));
    sheet[place] = *random.pick(&[8, 9, 16, 128, 255]);
    damaged(pair, sheet, 11, place)
}

fn term_after_last(random: &mut Random) -> DamagedSheet {
    let (pair, event) = base_with_opinions(random);
    let mut sheet = pair.sheet();
    let place = inside_entry(event, random.between(pair.scores.len(), MOST_EXPERTS - 1));
    sheet[place] = random.between(1, 7) as u8;
    damaged(pair, sheet, 11, place)
}

/// A term after the last expert and an unknown one: the first in the file is named.
fn two_terms(random: &mut Random) -> DamagedSheet {
    let (pair, event) = base_with_opinions(random);
    let mut sheet = pair.sheet();
    let after = random.between(pair.scores.len(), MOST_EXPERTS - 1);
    let unknown = random.below(MOST_EXPERTS);
    sheet[inside_entry(event, after)] = 3;
    sheet[inside_entry(event, unknown)] = 8;
    damaged(pair, sheet, 11, inside_entry(event, after.min(unknown)))
}

fn nobody_spoke(random: &mut Random) -> DamagedSheet {
    let mut pair = base(random);
    let event = random.below(pair.entries.len());
    pair.entries[event] = Entry::Opinions(vec![]);
    let sheet = pair.sheet();
    damaged(pair, sheet, 12, entry_place(event))
}

/// 11 comes before 12 in an entry in which no expert spoke.
fn unknown_term_and_nobody(random: &mut Random) -> DamagedSheet {
    let DamagedSheet { pair, mut sheet, outcome } = nobody_spoke(random);
    let Outcome::Refused(_, entry) = outcome else { unreachable!() };
    let place = entry + 1 + random.between(pair.scores.len(), MOST_EXPERTS - 1);
    sheet[place] = 1;
    damaged(pair, sheet, 11, place)
}

/// Without experts an opinion entry is refused by 12, or by 11 at its first term.
fn no_experts(random: &mut Random) -> DamagedSheet {
    let mut pair = base(random);
    pair.scores = vec![];
    pair.entries.iter_mut().for_each(|entry| *entry = any_four(random));
    let event = random.below(pair.entries.len());
    let silent = random.percent(50);
    pair.entries[event] = Entry::Opinions(if silent { vec![] } else { vec![1] });
    let sheet = pair.sheet();
    let (number, place) = if silent { (12, entry_place(event)) } else { (11, inside_entry(event, 0)) };
    damaged(pair, sheet, number, place)
}

/// Kind 2 over the bytes of one entry and nobody in another: the first that is at fault is named.
fn two_entries(random: &mut Random) -> DamagedSheet {
    let mut pair = base(random);
    let silent = random.below(pair.entries.len());
    let unknown = random.below(pair.entries.len());
    pair.entries[silent] = Entry::Opinions(vec![]);
    let mut sheet = pair.sheet();
    sheet[entry_place(unknown)] = FRACTIONS;
    match fault_of_kind(&sheet, unknown) {
        Some(number) if unknown <= silent => damaged(pair, sheet, number, entry_place(unknown)),
        _ => damaged(pair, sheet, 12, entry_place(silent)),
    }
}
