//! All known faults in turn.

use super::case::{input_case, Case};
use super::pair_damage::PAIR_DAMAGES;
use super::sheet_damage::{DamagedSheet, SHEET_DAMAGES};
use super::tree_damage::{DamagedTree, TREE_DAMAGES};
use crate::random::Random;

pub const DAMAGES: usize = TREE_DAMAGES.len() + SHEET_DAMAGES.len() + PAIR_DAMAGES.len();

pub fn damaged_case(random: &mut Random, index: u64) -> Case {
    let turn = (index % DAMAGES as u64) as usize;
    if turn < TREE_DAMAGES.len() {
        let DamagedTree { pair, tree, outcome } = TREE_DAMAGES[turn](random);
        return input_case(2, &tree, &pair.sheet(), outcome);
    }
    let turn = turn - TREE_DAMAGES.len();
    if turn < SHEET_DAMAGES.len() {
        let DamagedSheet { pair, sheet, outcome } = SHEET_DAMAGES[turn](random);
        return input_case(2, &pair.tree(), &sheet, outcome);
    }
    PAIR_DAMAGES[turn - SHEET_DAMAGES.len()](random)
}
