//! Blind changes to an answered input; what comes of them is left to the judge.

use super::sheets::any_units;
use super::valid::{any_pair, small_tree};
use crate::bytes::{read_16, write_16, write_32};
use crate::levels::printer_input;
use crate::opinion_sheet;
use crate::random::Random;
use crate::tree_file;

pub fn changed_input(random: &mut Random) -> Vec<u8> {
    let nodes = small_tree(random, 24);
    let pair = any_pair(random, nodes);
    let (mut tree, mut sheet) = (pair.tree(), pair.sheet());
    let nodes = pair.nodes.len();
    for _ in 0..*random.pick(&[1, 1, 1, 2, 3]) {
        match random.below(7) {
            0 | 1 => change_bytes(random, &mut tree),
            2 => change_bytes(random, &mut sheet),
            3 => change_links(random, &mut tree, nodes),
            4 => change_records(random, &mut tree, nodes),
            5 => change_numbers(random, &mut sheet),
            _ => change_entries(random, &mut sheet),
        }
    }
    let mut input = printer_input(random.between(1, 4) as u16, &tree, &sheet);
    if random.percent(5) {
        change_bytes(random, &mut input);
    }
    input
}

pub fn change_bytes(random: &mut Random, file: &mut Vec<u8>) {
    if file.is_empty() {
        return;
    }
    let place = random.below(file.len());
    match random.below(8) {
        0 | 1 => file[place] = random.below(256) as u8,
        2 => file[place] ^= 1 << random.below(8),
        3 => file[place] = file[place].wrapping_add(1),
        4 => file[place] = file[place].wrapping_sub(1),
        5 => file.truncate(place),
        6 => file.push(random.below(256) as u8),
        _ => {
            let other = random.below(file.len());
            file.swap(place, other);
        }
    }
}

/// Whether an earlier change left the bytes of this part in the file.
fn reaches(file: &[u8], length: usize) -> bool {
    file.len() >= length
}

fn change_links(random: &mut Random, tree: &mut [u8], nodes: usize) {
    if !reaches(tree, tree_file::file_length(nodes)) {
        return;
    }
    let one = tree_file::link_place(nodes, random.below(nodes - 1));
    let other = tree_file::link_place(nodes, random.below(nodes - 1));
    let (first, second) = (read_16(tree, one), read_16(tree, other));
    match random.below(4) {
        0 => write_16(tree, one, second),
        1 => write_16(tree, one, random.below(nodes) as u16),
        _ => {
            write_16(tree, one, second);
            write_16(tree, other, first);
        }
    }
}

/// Two records change places, or the fields of one do.
fn change_records(random: &mut Random, tree: &mut [u8], nodes: usize) {
    if !reaches(tree, tree_file::file_length(nodes)) {
        return;
    }
    let one = tree_file::record_place(random.below(nodes));
    let other = tree_file::record_place(random.below(nodes));
    match random.below(4) {
        0 => {
            let (a, b) = (read_16(tree, one + 1), read_16(tree, one + 3));
            write_16(tree, one + 1, b);
            write_16(tree, one + 3, a);
        }
        1 => tree[one] = random.below(4) as u8,
        _ => swap_parts(tree, one, other, tree_file::RECORD),
    }
}

pub fn change_numbers(random: &mut Random, sheet: &mut [u8]) {
    let events = sheet.len().saturating_sub(opinion_sheet::HEADER) / opinion_sheet::ENTRY;
    if events == 0 {
        return;
    }
    let place = opinion_sheet::inside_entry(random.below(events), 4 * random.below(4));
    write_32(sheet, place, any_units(random));
}

/// Two entries change places, or one changes its kind.
pub fn change_entries(random: &mut Random, sheet: &mut [u8]) {
    let events = sheet.len().saturating_sub(opinion_sheet::HEADER) / opinion_sheet::ENTRY;
    if events == 0 {
        return;
    }
    let one = opinion_sheet::entry_place(random.below(events));
    let other = opinion_sheet::entry_place(random.below(events));
    if random.percent(50) {
        swap_parts(sheet, one, other, opinion_sheet::ENTRY);
    } else {
        sheet[one] ^= 1;
    }
}

fn swap_parts(file: &mut [u8], one: usize, other: usize, length: usize) {
    if one != other {
        (0..length).for_each(|offset| file.swap(one + offset, other + offset));
    }
}
