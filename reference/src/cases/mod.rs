//! Generated cases: inputs of the level printer, alone and at an hour, inputs of the node printer, pairs to be mirrored,
//! lists of calls, and tree files.

pub mod case;
pub mod spot;
pub mod trees;
pub mod sheets;
pub mod valid;
pub mod limits;
pub mod tree_damage;
pub mod set_trees;
pub mod sheet_damage;
pub mod pair_damage;
pub mod damaged;
pub mod large_damage;
pub mod changed;
pub mod fraction_entries;
pub mod fraction_damage;
pub mod fraction_limits;
pub mod fractions;
pub mod books;
pub mod windows;
pub mod silence;
pub mod mirrors;
pub mod nodes;
pub mod call_lists;
pub mod vector_list;
pub mod fraction_vectors;
pub mod step_vectors;
pub mod window_vectors;
pub mod silence_vectors;
pub mod mirror_list;

use crate::random::Random;

#[derive(Clone, Copy, PartialEq, Eq, Debug)]
pub enum Kind {
    /// Answered inputs of moderate size.
    Valid,
    /// Inputs at and just past each limit of document 01; the list starts over with other numbers when it ends.
    Limits,
    /// One known fault each: every refusal that the printer can give, at every kind of place.
    Damaged,
    /// Blind changes: bytes, lengths, swapped fields. Some stay acceptable.
    Changed,
    /// The four above in turn, a limit seldom since those are long.
    Mixed,
    /// Lists of calls.
    Calls,
    /// Lists of calls, most of them about minimal cut sets.
    Sets,
    /// Tree files for minimal cut sets, one in four with a fault.
    Trees,
    /// One known fault each in the largest trees and sheets, at the first, middle and last places.
    Large,
    /// Sheets with fraction entries: limits, faults, answered inputs and blind changes in turn.
    Fractions,
    /// Inputs of the level printer at an hour: limits of a book, faults, answered inputs and blind changes in turn.
    Windows,
    /// Sheets with many silent experts, one in eight with an event of which nobody speaks.
    Silence,
    /// Pairs to be mirrored: limits, faults, answered pairs and blind changes in turn.
    Mirrors,
    /// Inputs of the node printer: a level before the inputs of the level printer, mixed and with fraction entries.
    Nodes,
}

pub const KINDS: [(&str, Kind); 14] = [
    ("valid", Kind::Valid),
    ("limits", Kind::Limits),
    ("damaged", Kind::Damaged),
    ("changed", Kind::Changed),
    ("mixed", Kind::Mixed),
    ("calls", Kind::Calls),
    ("sets", Kind::Sets),
    ("trees", Kind::Trees),
    ("large", Kind::Large),
    ("fractions", Kind::Fractions),
    ("windows", Kind::Windows),
    ("silence", Kind::Silence),
    ("mirrors", Kind::Mirrors),
    ("nodes", Kind::Nodes),
];

pub fn parse_kind(word: &str) -> Option<Kind> {
    KINDS.iter().find(|(name, _)| *name == word).map(|&(_, kind)| kind)
}

pub fn kind_name(kind: Kind) -> &'static str {
    KINDS.iter().find(|(_, listed)| *listed == kind).map_or("", |&(name, _)| name)
}

/// Case `index` of a seed; it does not depend on how many are written.
pub fn write_case(kind: Kind, seed: u64, index: u64) -> Vec<u8> {
    let random = &mut Random::for_case(seed, index);
    match kind {
        Kind::Valid => valid::valid_case(random, index).bytes,
        Kind::Limits => limits::limit_case(random, index).bytes,
        Kind::Damaged => damaged::damaged_case(random, index).bytes,
        Kind::Changed => changed::changed_input(random),
        Kind::Calls => call_lists::call_list(random).into_bytes(),
        Kind::Sets => call_lists::set_list(random).into_bytes(),
        Kind::Trees => set_trees::tree_case(random, index),
        Kind::Mixed => mixed_case(random, index),
        Kind::Large => large_damage::large_case(random, index).bytes,
        Kind::Fractions => fractions::fraction_case(random, index),
        Kind::Windows => windows::window_case(random, index),
        Kind::Silence => silence::silence_case(random, index).bytes,
        Kind::Mirrors => mirrors::mirror_case(random, index),
        Kind::Nodes => nodes::node_case(random, index),
    }
}

/// Each kind of the turn keeps a count of its own, so that it goes through its whole list.
fn mixed_case(random: &mut Random, index: u64) -> Vec<u8> {
    let turn = index / 16;
    match index % 16 {
        0 => limits::limit_case(random, turn).bytes,
        part @ 1..=5 => valid::valid_case(random, 5 * turn + part - 1).bytes,
        part @ 6..=11 => damaged::damaged_case(random, 6 * turn + part - 6).bytes,
        _ => changed::changed_input(random),
    }
}

/// Whether the cases are inputs of the level printer.
pub fn is_input(kind: Kind) -> bool {
    !matches!(kind, Kind::Calls | Kind::Sets | Kind::Trees | Kind::Windows | Kind::Mirrors | Kind::Nodes)
}

pub fn file_name(kind: Kind, index: u64) -> String {
    let ending = match kind {
        Kind::Calls | Kind::Sets => "calls",
        Kind::Trees => "ftf",
        _ => "input",
    };
    format!("{index:06}.{ending}")
}
