//! Faults of the whole input and of the question: lengths, level, and files that don't go together.

use super::case::{input_case, Case, Outcome};
use super::sheet_damage::{DamagedSheet, SHEET_DAMAGES};
use super::sheets::any_four;
use super::tree_damage::{DamagedTree, TREE_DAMAGES};
use super::trees::count_events;
use super::valid::{any_pair, small_tree, Pair};
use crate::bytes::{read_16, write_16};
use crate::levels::INPUT_HEADER;
use crate::opinion_sheet;
use crate::random::Random;

type Damage = fn(&mut Random) -> Case;

pub const PAIR_DAMAGES: [Damage; 15] = [
    level,
    other_number,
    entry_more,
    entry_less,
    level_before_pair,
    tree_before_sheet,
    sheet_before_level,
    under_six_bytes,
    |random| length_field(random, 2),
    |random| length_field(random, 4),
    byte_more,
    byte_less,
    lengths_swapped,
    empty_tree,
    empty_sheet,
];

fn base(random: &mut Random) -> Pair {
    let nodes = small_tree(random, 20);
    any_pair(random, nodes)
}

fn bad_level(random: &mut Random) -> u16 {
    *random.pick(&[0, 1_001, 1_024, 32_768, 65_535])
}

fn level(random: &mut Random) -> Case {
    let pair = base(random);
    input_case(bad_level(random), &pair.tree(), &pair.sheet(), Outcome::Refused(13, 0))
}

fn other_number(random: &mut Random) -> Case {
    let pair = base(random);
    let mut sheet = pair.sheet();
    let other = pair.number ^ *random.pick(&[1, 0x0080, 0x0100, 0xff00, 0xffff]);
    write_16(&mut sheet, opinion_sheet::NUMBER_PLACE, other);
    input_case(3, &pair.tree(), &sheet, Outcome::Refused(24, 0))
}

fn entry_more(random: &mut Random) -> Case {
    let mut pair = base(random);
    pair.entries.push(any_four(random));
    input_case(3, &pair.tree(), &pair.sheet(), Outcome::Refused(24, 0))
}

/// A tree of one event is passed over: a sheet without entries is another fault.
fn entry_less(random: &mut Random) -> Case {
    let mut pair = base(random);
    while count_events(&pair.nodes) == 1 {
        pair = base(random);
    }
    pair.entries.pop();
    input_case(3, &pair.tree(), &pair.sheet(), Outcome::Refused(24, 0))
}

fn level_before_pair(random: &mut Random) -> Case {
    let mut pair = base(random);
    pair.entries.push(any_four(random));
    input_case(bad_level(random), &pair.tree(), &pair.sheet(), Outcome::Refused(13, 0))
}

fn tree_before_sheet(random: &mut Random) -> Case {
    let DamagedTree { tree, outcome, .. } = random.pick(&TREE_DAMAGES)(random);
    let DamagedSheet { sheet, .. } = random.pick(&SHEET_DAMAGES)(random);
    input_case(2, &tree, &sheet, outcome)
}

/// Where the sheet happens to be acceptable, the level is named.
fn sheet_before_level(random: &mut Random) -> Case {
    let DamagedSheet { pair, sheet, outcome } = random.pick(&SHEET_DAMAGES)(random);
    let outcome = if outcome == Outcome::Answered { Outcome::Refused(13, 0) } else { outcome };
    input_case(bad_level(random), &pair.tree(), &sheet, outcome)
}

fn under_six_bytes(random: &mut Random) -> Case {
    let mut bytes = base(random).answered(2).bytes;
    bytes.truncate(random.below(INPUT_HEADER));
    Case { bytes, outcome: Outcome::Input }
}

fn length_field(random: &mut Random, place: usize) -> Case {
    let mut bytes = base(random).answered(2).bytes;
    let length = read_16(&bytes, place);
    let choices = [length.wrapping_sub(1), length + 1, length ^ 0x0100, 0, 65_535];
    write_16(&mut bytes, place, *random.pick(&choices));
    Case { bytes, outcome: Outcome::Input }
}

fn byte_more(random: &mut Random) -> Case {
    let mut bytes = base(random).answered(2).bytes;
    bytes.push(random.below(256) as u8);
    Case { bytes, outcome: Outcome::Input }
}

fn byte_less(random: &mut Random) -> Case {
    let mut bytes = base(random).answered(2).bytes;
    bytes.pop();
    Case { bytes, outcome: Outcome::Input }
}

/// The lengths are in the wrong order. Their sum is right, so the tree is read to a wrong length and refused by 5;
/// where both are the same, there is no fault.
fn lengths_swapped(random: &mut Random) -> Case {
    let pair = base(random);
    let (tree, sheet) = (pair.tree(), pair.sheet());
    let mut bytes = pair.answered(2).bytes;
    write_16(&mut bytes, 2, sheet.len() as u16);
    write_16(&mut bytes, 4, tree.len() as u16);
    let outcome = if tree.len() == sheet.len() { Outcome::Answered } else { Outcome::Refused(5, sheet.len()) };
    Case { bytes, outcome }
}

fn empty_tree(random: &mut Random) -> Case {
    let pair = base(random);
    input_case(2, &[], &pair.sheet(), Outcome::Refused(1, 0))
}

fn empty_sheet(random: &mut Random) -> Case {
    let pair = base(random);
    input_case(2, &pair.tree(), &[], Outcome::Refused(1, 0))
}
