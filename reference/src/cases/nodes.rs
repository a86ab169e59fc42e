//! Inputs of the node printer: a level before the inputs of the level printer, limits, faults, answered inputs and
//! blind changes in turn, and bytes that are no input.

use super::fractions::fraction_case;
use super::mixed_case;
use crate::bytes::read_16;
use crate::levels::INPUT_HEADER;
use crate::random::Random;

/// A turn of the level printer's cases, with one of the fraction entries after each.
const TURN: u64 = 2;

pub fn node_case(random: &mut Random, index: u64) -> Vec<u8> {
    let turn = index / TURN;
    let input = if index % TURN == 0 { mixed_case(random, turn) } else { fraction_case(random, turn) };
    let k = some_level(random, &input);
    let case = [&k.to_le_bytes()[..], &input].concat();
    if random.percent(2) {
        return case[..random.below(case.len())].to_vec();
    }
    case
}

/// Mostly a level of the input's own; now and then one past its last, or any.
fn some_level(random: &mut Random, input: &[u8]) -> u16 {
    let n = if input.len() < INPUT_HEADER { 0 } else { read_16(input, 0) };
    match random.below(16) {
        0 => 0,
        1 => n,
        2 => n.wrapping_add(1),
        3 => random.below(65_536) as u16,
        _ => random.below(n as usize + 1) as u16,
    }
}
