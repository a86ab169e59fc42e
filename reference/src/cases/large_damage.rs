//! One fault in a tree of 1,024 nodes or in a sheet of 960 entries, at the first, the middle or the last place where it
//! can stand, with the refusal that it must get.

use super::case::{input_case, Case, Outcome};
use super::sheets::{any_four, any_opinions, any_scores};
use super::spot::{Spot, SPOTS};
use super::trees::{chain, most_events, random_tree, Shape};
use super::valid::{any_pair, Pair};
use crate::bytes::{read_16, write_16, write_32};
use crate::describe::Node;
use crate::end::U;
use crate::opinion_sheet::{self, entry_place, inside_entry, MOST_EXPERTS, SCORES_PLACE};
use crate::random::Random;
use crate::tree_file::{self, link_place, record_place, AND, EVENT, MOST_NODES, OR};

/// Damages the pair's tree file; answers the refusal's number and place.
type TreeFault = fn(&mut Random, &[Node], &mut Vec<u8>, Spot) -> (u32, usize);

const TREE_FAULTS: [TreeFault; 20] = [
    node_count,
    count_beside_length,
    cut_tree,
    unknown_record,
    event_number,
    event_with_inputs,
    event_as_gate,
    gate_as_event,
    gate_first_link,
    gate_empty,
    gate_of_seventeen,
    gate_sum_past_16_bits,
    root_past_links,
    links_left_over,
    link_to_its_gate,
    link_above_its_gate,
    link_nowhere,
    |_, nodes, tree, spot| link_repeated(nodes, tree, spot, |_| 0),
    |_, nodes, tree, spot| link_repeated(nodes, tree, spot, |later| later / 2),
    |_, nodes, tree, spot| link_repeated(nodes, tree, spot, |later| later - 1),
];

/// Damages the pair's sheet at the spot among its entries and the spot among its experts or terms.
type SheetFault = fn(&mut Random, &Pair, &mut Vec<u8>, Spot, Spot) -> (u32, usize);

const SHEET_FAULTS: [SheetFault; 16] = [
    event_count,
    expert_count,
    entry_count_beside_length,
    cut_sheet,
    longer_sheet,
    |_, pair, sheet, _, expert| score(pair, sheet, expert, 0),
    |_, pair, sheet, _, expert| score(pair, sheet, expert, 101),
    score_after_last,
    unknown_entry,
    |random, _, sheet, entry, _| numbers_swapped(random, sheet, entry, 0),
    |random, _, sheet, entry, _| numbers_swapped(random, sheet, entry, 1),
    |random, _, sheet, entry, _| numbers_swapped(random, sheet, entry, 2),
    number_above_unit,
    unknown_term,
    term_after_last,
    nobody_spoke,
];

/// Each tree fault at three spots in three shapes, each sheet fault at three entries and three experts.
pub const LARGE_DAMAGES: usize = 9 * (TREE_FAULTS.len() + SHEET_FAULTS.len());

/// One case in two has a further fault behind the first, which is the one that is named.
pub fn large_case(random: &mut Random, index: u64) -> Case {
    let turn = (index % LARGE_DAMAGES as u64) as usize;
    let (fault, turn) = (turn / 9, turn % 9);
    if fault < TREE_FAULTS.len() {
        return tree_case(random, TREE_FAULTS[fault], turn / 3, SPOTS[turn % 3]);
    }
    sheet_case(random, SHEET_FAULTS[fault - TREE_FAULTS.len()], SPOTS[turn / 3], SPOTS[turn % 3])
}

fn refused((number, place): (u32, usize)) -> Outcome {
    Outcome::Refused(number, place)
}

fn tree_case(random: &mut Random, fault: TreeFault, shape: usize, spot: Spot) -> Case {
    let nodes = match shape {
        0 => most_events(random, MOST_NODES),
        1 => chain(random, MOST_NODES),
        _ => random_tree(random, Shape { nodes: MOST_NODES, event_share: 50, widest: 4 }),
    };
    let pair = any_pair(random, nodes);
    let mut tree = pair.tree();
    let found = fault(random, &pair.nodes, &mut tree, spot);
    let last = tree.len() - tree_file::LINK;
    if found.1 < last && random.percent(50) {
        write_16(&mut tree, last, 65_535);
    }
    input_case(2, &tree, &pair.sheet(), refused(found))
}

/// 960 entries of both kinds, and places after the last expert.
fn sheet_case(random: &mut Random, fault: SheetFault, entry: Spot, expert: Spot) -> Case {
    let nodes = most_events(random, MOST_NODES);
    let mut pair = any_pair(random, nodes);
    let experts = random.between(3, MOST_EXPERTS - 3);
    pair.scores = any_scores(random, experts);
    for entry in &mut pair.entries {
        *entry = if random.percent(50) { any_opinions(random, experts) } else { any_four(random) };
    }
    let mut sheet = pair.sheet();
    let found = fault(random, &pair, &mut sheet, entry, expert);
    let last = entry_place(pair.entries.len() - 1);
    if found.1 < last && sheet.len() > last && random.percent(50) {
        sheet[last] = 3;
    }
    input_case(2, &pair.tree(), &sheet, refused(found))
}

fn is_event(node: &Node) -> bool {
    *node == Node::Event
}

/// The node at that spot among those for which the test holds; each caller knows that there is one.
fn node_at(nodes: &[Node], spot: Spot, test: impl Fn(&Node) -> bool) -> usize {
    let found: Vec<usize> = (0..nodes.len()).filter(|&node| test(&nodes[node])).collect();
    found[spot.of(found.len())]
}

fn event_place(nodes: &[Node], spot: Spot) -> usize {
    record_place(node_at(nodes, spot, is_event))
}

fn gate_place(nodes: &[Node], spot: Spot) -> usize {
    record_place(node_at(nodes, spot, |node| !is_event(node)))
}

fn node_count(random: &mut Random, _: &[Node], tree: &mut Vec<u8>, _: Spot) -> (u32, usize) {
    write_16(tree, tree_file::NODES_PLACE, *random.pick(&[0, 1_025, 2_048, 65_535]));
    (4, tree_file::NODES_PLACE)
}

fn count_beside_length(_: &mut Random, nodes: &[Node], tree: &mut Vec<u8>, spot: Spot) -> (u32, usize) {
    write_16(tree, tree_file::NODES_PLACE, 1 + spot.of(nodes.len() - 1) as u16);
    (5, tree.len())
}

/// Cut to the header, to half and by one byte.
fn cut_tree(_: &mut Random, _: &[Node], tree: &mut Vec<u8>, spot: Spot) -> (u32, usize) {
    tree.truncate(tree_file::HEADER + spot.of(tree.len() - tree_file::HEADER));
    (5, tree.len())
}

fn unknown_record(random: &mut Random, nodes: &[Node], tree: &mut Vec<u8>, spot: Spot) -> (u32, usize) {
    let place = record_place(spot.of(nodes.len()));
    tree[place] = random.between(3, 255) as u8;
    (6, place)
}

fn event_number(random: &mut Random, nodes: &[Node], tree: &mut Vec<u8>, spot: Spot) -> (u32, usize) {
    let place = event_place(nodes, spot);
    let number = read_16(tree, place + 1);
    write_16(tree, place + 1, number ^ *random.pick(&[1, 0x0100, 0x8000]));
    (7, place)
}

fn event_with_inputs(random: &mut Random, nodes: &[Node], tree: &mut Vec<u8>, spot: Spot) -> (u32, usize) {
    let place = event_place(nodes, spot);
    write_16(tree, place + 3, *random.pick(&[1, 16, 256, 65_535]));
    (7, place)
}

/// Its b is 0, which no gate has.
fn event_as_gate(random: &mut Random, nodes: &[Node], tree: &mut Vec<u8>, spot: Spot) -> (u32, usize) {
    let place = event_place(nodes, spot);
    tree[place] = *random.pick(&[AND, OR]);
    (7, place)
}

/// Its b is above 0, which no event has.
fn gate_as_event(_: &mut Random, nodes: &[Node], tree: &mut Vec<u8>, spot: Spot) -> (u32, usize) {
    let place = gate_place(nodes, spot);
    tree[place] = EVENT;
    (7, place)
}

fn gate_first_link(random: &mut Random, nodes: &[Node], tree: &mut Vec<u8>, spot: Spot) -> (u32, usize) {
    let place = gate_place(nodes, spot);
    let first = read_16(tree, place + 1);
    write_16(tree, place + 1, first ^ *random.pick(&[1, 0x0100, 0x8000]));
    (7, place)
}

fn gate_empty(_: &mut Random, nodes: &[Node], tree: &mut Vec<u8>, spot: Spot) -> (u32, usize) {
    let place = gate_place(nodes, spot);
    write_16(tree, place + 3, 0);
    (7, place)
}

fn gate_of_seventeen(_: &mut Random, nodes: &[Node], tree: &mut Vec<u8>, spot: Spot) -> (u32, usize) {
    let place = gate_place(nodes, spot);
    write_16(tree, place + 3, 17);
    (7, place)
}

/// a + b is 0 in 16 bits.
fn gate_sum_past_16_bits(_: &mut Random, nodes: &[Node], tree: &mut Vec<u8>, spot: Spot) -> (u32, usize) {
    let place = gate_place(nodes, spot);
    write_16(tree, place + 1, 65_535);
    write_16(tree, place + 3, 1);
    (7, place)
}

fn root_past_links(_: &mut Random, nodes: &[Node], tree: &mut Vec<u8>, _: Spot) -> (u32, usize) {
    let place = record_place(nodes.len() - 1);
    let inputs = read_16(tree, place + 3);
    write_16(tree, place + 3, inputs + 1);
    (7, place)
}

/// The root takes one input less; where it has one alone, it is empty itself.
fn links_left_over(_: &mut Random, nodes: &[Node], tree: &mut Vec<u8>, _: Spot) -> (u32, usize) {
    let place = record_place(nodes.len() - 1);
    let inputs = read_16(tree, place + 3);
    write_16(tree, place + 3, inputs - 1);
    (7, if inputs == 1 { place } else { link_place(nodes.len(), 0) })
}

/// The link at that spot, and its gate.
fn link_at(nodes: &[Node], spot: Spot) -> (usize, u16) {
    let gates: Vec<u16> =
        (0..nodes.len()).flat_map(|gate| nodes[gate].inputs().iter().map(move |_| gate as u16)).collect();
    let link = spot.of(gates.len());
    (link_place(nodes.len(), link), gates[link])
}

fn link_to_its_gate(_: &mut Random, nodes: &[Node], tree: &mut Vec<u8>, spot: Spot) -> (u32, usize) {
    let (place, gate) = link_at(nodes, spot);
    write_16(tree, place, gate);
    (8, place)
}

fn link_above_its_gate(_: &mut Random, nodes: &[Node], tree: &mut Vec<u8>, spot: Spot) -> (u32, usize) {
    let (place, gate) = link_at(nodes, spot);
    write_16(tree, place, gate + 1);
    (8, place)
}

fn link_nowhere(random: &mut Random, nodes: &[Node], tree: &mut Vec<u8>, spot: Spot) -> (u32, usize) {
    let (place, _) = link_at(nodes, spot);
    write_16(tree, place, *random.pick(&[1_024, 32_768, 65_535]));
    (8, place)
}

/// A link names the node of an earlier one; the first link has none before it.
fn link_repeated(nodes: &[Node], tree: &mut [u8], spot: Spot, earlier: fn(usize) -> usize) -> (u32, usize) {
    let later = 1 + spot.of(nodes.len() - 2);
    let input = read_16(tree, link_place(nodes.len(), earlier(later)));
    write_16(tree, link_place(nodes.len(), later), input);
    (9, link_place(nodes.len(), later))
}

fn event_count(random: &mut Random, _: &Pair, sheet: &mut Vec<u8>, _: Spot, _: Spot) -> (u32, usize) {
    write_16(sheet, opinion_sheet::EVENTS_PLACE, *random.pick(&[0, 1_025, 2_048, 65_535]));
    (4, opinion_sheet::EVENTS_PLACE)
}

fn expert_count(random: &mut Random, _: &Pair, sheet: &mut Vec<u8>, _: Spot, _: Spot) -> (u32, usize) {
    sheet[opinion_sheet::EXPERTS_PLACE] = *random.pick(&[17, 32, 255]);
    (4, opinion_sheet::EXPERTS_PLACE)
}

fn entry_count_beside_length(_: &mut Random, pair: &Pair, sheet: &mut Vec<u8>, entry: Spot, _: Spot) -> (u32, usize) {
    write_16(sheet, opinion_sheet::EVENTS_PLACE, 1 + entry.of(pair.entries.len() - 1) as u16);
    (5, sheet.len())
}

/// Cut to the header, to half and by one byte.
fn cut_sheet(_: &mut Random, _: &Pair, sheet: &mut Vec<u8>, entry: Spot, _: Spot) -> (u32, usize) {
    sheet.truncate(opinion_sheet::HEADER + entry.of(sheet.len() - opinion_sheet::HEADER));
    (5, sheet.len())
}

fn longer_sheet(_: &mut Random, _: &Pair, sheet: &mut Vec<u8>, _: Spot, _: Spot) -> (u32, usize) {
    sheet.push(0);
    (5, sheet.len())
}

fn score(pair: &Pair, sheet: &mut [u8], expert: Spot, score: u8) -> (u32, usize) {
    let place = SCORES_PLACE + expert.of(pair.scores.len());
    sheet[place] = score;
    (7, place)
}

fn score_after_last(random: &mut Random, pair: &Pair, sheet: &mut Vec<u8>, _: Spot, expert: Spot) -> (u32, usize) {
    let place = SCORES_PLACE + after_last(pair, expert);
    sheet[place] = random.between(1, 255) as u8;
    (7, place)
}

/// The spot among the places after the last expert.
fn after_last(pair: &Pair, spot: Spot) -> usize {
    let experts = pair.scores.len();
    experts + spot.of(MOST_EXPERTS - experts)
}

fn unknown_entry(random: &mut Random, pair: &Pair, sheet: &mut Vec<u8>, entry: Spot, _: Spot) -> (u32, usize) {
    let place = entry_place(entry.of(pair.entries.len()));
    sheet[place] = random.between(3, 255) as u8;
    (6, place)
}

fn write_four(sheet: &mut [u8], event: usize, numbers: [u32; 4]) {
    sheet[entry_place(event)] = opinion_sheet::FOUR_NUMBERS;
    for (index, number) in numbers.into_iter().enumerate() {
        write_32(sheet, inside_entry(event, 4 * index), number);
    }
}

fn write_terms(sheet: &mut [u8], event: usize, terms: [u8; MOST_EXPERTS]) {
    sheet[entry_place(event)] = opinion_sheet::OPINIONS;
    sheet[inside_entry(event, 0)..inside_entry(event, MOST_EXPERTS)].copy_from_slice(&terms);
}

fn events_in(sheet: &[u8]) -> usize {
    read_16(sheet, opinion_sheet::EVENTS_PLACE) as usize
}

/// Four rising numbers of which two neighbours change places.
fn numbers_swapped(random: &mut Random, sheet: &mut [u8], entry: Spot, first: usize) -> (u32, usize) {
    let event = entry.of(events_in(sheet));
    let step = random.between(1, U as usize / 4) as u32;
    let mut numbers = [0, step, 2 * step, 3 * step];
    numbers.swap(first, first + 1);
    write_four(sheet, event, numbers);
    (10, entry_place(event))
}

fn number_above_unit(random: &mut Random, pair: &Pair, sheet: &mut Vec<u8>, entry: Spot, _: Spot) -> (u32, usize) {
    let event = entry.of(pair.entries.len());
    write_four(sheet, event, [0, 1, U, *random.pick(&[U + 1, 2 * U, u32::MAX])]);
    (10, entry_place(event))
}

/// An opinion entry in which the first expert alone speaks, and one term more.
fn write_term(sheet: &mut [u8], event: usize, expert: usize, term: u8) -> (u32, usize) {
    let mut terms = [0; MOST_EXPERTS];
    terms[0] = 1;
    terms[expert] = term;
    write_terms(sheet, event, terms);
    (11, inside_entry(event, expert))
}

fn unknown_term(random: &mut Random, pair: &Pair, sheet: &mut Vec<u8>, entry: Spot, expert: Spot) -> (u32, usize) {
    let term = *random.pick(&[8, 16, 128, 255]);
    write_term(sheet, entry.of(pair.entries.len()), expert.of(MOST_EXPERTS), term)
}

fn term_after_last(random: &mut Random, pair: &Pair, sheet: &mut Vec<u8>, entry: Spot, expert: Spot) -> (u32, usize) {
    let term = random.between(1, 7) as u8;
    write_term(sheet, entry.of(pair.entries.len()), after_last(pair, expert), term)
}

fn nobody_spoke(_: &mut Random, pair: &Pair, sheet: &mut Vec<u8>, entry: Spot, _: Spot) -> (u32, usize) {
    let event = entry.of(pair.entries.len());
    write_terms(sheet, event, [0; MOST_EXPERTS]);
    (12, entry_place(event))
}
