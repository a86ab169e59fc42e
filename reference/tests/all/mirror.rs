//! The mirror of a pair: by hand, beside De Morgan's law on exact fractions of any length, on every reported end and
//! mark, and mirrored twice.

use crate::desk::{fresh_work, holding, Desk, Work, BUFFER_FILL};
use crate::exact::{bottom_up, complement, cut, fraction, mean, Cut, Fraction};
use reference::cases::fraction_entries::{fractions_alone, fractions_beside, lively_fractions};
use reference::cases::mirrors::any_mirror_pair;
use reference::cases::silence::quiet_pair;
use reference::cases::trees::{chain, comb, most_events};
use reference::cases::valid::{any_pair, lively_pair, small_tree, Pair};
use reference::describe::{fractions, same, sheet_bytes, tree_bytes, Entry, Node};
use reference::random::Random;
use std::cmp::Ordering;

const U: u32 = 1_000_000_000;

fn desk_of(pair: &Pair) -> Desk {
    holding(&pair.nodes, &pair.scores, &pair.entries)
}

/// The mirrored entry of one event, as the sheet has it.
fn mirrored_entry(scores: &[u8], entry: Entry) -> Vec<u8> {
    let (_, sheet) = holding(&[Node::Event], scores, &[entry]).mirrored_files();
    sheet[26..].to_vec()
}

/// The bytes of an entry: behind the header of a sheet that has no other.
fn entry_bytes(entry: Entry) -> Vec<u8> {
    sheet_bytes(7, &[], &[entry])[26..].to_vec()
}

#[test]
fn tree_as_bytes() {
    let nodes = [Node::Event, Node::Event, Node::Event, Node::Or(vec![1, 2]), Node::And(vec![3, 0])];
    let (tree, _) = holding(&nodes, &[], &[same(1), same(2), same(3)]).mirrored_files();
    let records = [[0, 0, 0, 0, 0], [0, 1, 0, 0, 0], [0, 2, 0, 0, 0], [1, 0, 0, 2, 0], [2, 2, 0, 2, 0]];
    let links = [1, 0, 2, 0, 3, 0, 0, 0];
    assert_eq!(tree, [&b"FTF\x01\0\x07\0\x05\0"[..], &records.concat(), &links].concat());
}

/// The header with its experts and scores is as held, though no opinion is left.
#[test]
fn sheet_as_bytes() {
    let entries = [Entry::Opinions(vec![2, 0]), fractions(1_250, [1, 3, 3, 6]), Entry::Four([1, 2, 3, 256])];
    let nodes = [vec![Node::Event; 3], vec![Node::Or(vec![0, 1, 2])]].concat();
    let (_, sheet) = holding(&nodes, &[2, 1], &entries).mirrored_files();
    let scores = [2, 1, 0, 0, 0, 0, 0, 0, 0, 0, 0, 0, 0, 0, 0, 0];
    let opinions = [2, 0x2c, 1, 0, 162, 0, 0, 174, 0, 0, 0x12, 1, 0, 0x1e, 1, 0, 0];
    let makers = [2, 0xe2, 4, 0, 0xdc, 4, 0, 0xdf, 4, 0, 0xdf, 4, 0, 0xe1, 4, 0, 0];
    let numbers = [0, 0x00, 0xc9, 0x9a, 0x3b, 0xfd, 0xc9, 0x9a, 0x3b, 0xfe, 0xc9, 0x9a, 0x3b, 0xff, 0xc9, 0x9a, 0x3b];
    let header = [&b"FTS\x01\0\x07\0\x03\0\x02"[..], &scores].concat();
    assert_eq!(sheet, [&header[..], &opinions, &makers, &numbers].concat());
}

#[test]
fn numbers_by_hand() {
    for (numbers, wanted) in [
        ([1, 2, 3, 4], [999_999_996, 999_999_997, 999_999_998, 999_999_999]),
        ([0, 0, 0, 0], [U; 4]),
        ([U; 4], [0; 4]),
        ([0, 0, U, U], [0, 0, U, U]),
        ([0, 1, U - 1, U], [0, 1, U - 1, U]),
        ([100_000_000, 200_000_000, 300_000_000, 700_000_000], [300_000_000, 700_000_000, 800_000_000, 900_000_000]),
    ] {
        assert_eq!(mirrored_entry(&[], Entry::Four(numbers)), entry_bytes(Entry::Four(wanted)));
    }
}

#[test]
fn fractions_by_hand() {
    for (denominator, numerators, wanted) in [
        (1, [0; 4], [1; 4]),
        (1, [0, 0, 1, 1], [0, 0, 1, 1]),
        (2, [1; 4], [1; 4]),
        (1_250, [1, 3, 3, 6], [1_244, 1_247, 1_247, 1_249]),
        (999_999, [0, 1, 2, 999_999], [0, 999_997, 999_998, 999_999]),
        (1_000_000, [0, 1, 65_536, 1_000_000], [0, 934_464, 999_999, 1_000_000]),
        (1_000_000, [1_000_000; 4], [0; 4]),
    ] {
        let found = mirrored_entry(&[5], fractions(denominator, numerators));
        assert_eq!(found, entry_bytes(fractions(denominator, wanted)), "{denominator}");
    }
}

/// Scores, terms, 100 times the total score, and the four sums taken from it.
type Row = (&'static [u8], &'static [u8], u32, [u32; 4]);

/// The second row is P9's and P10's sheet, the third P11's.
#[test]
fn opinions_by_hand() {
    let rows: [Row; 10] = [
        (&[2, 1], &[2, 0], 300, [162, 174, 274, 286]),
        (&[2, 1], &[2, 3], 300, [225, 247, 247, 269]),
        (&[15, 12, 10, 12, 5, 8], &[6, 5, 6, 4, 6, 4], 6_200, [1_126, 1_714, 1_714, 2_326]),
        (&[1], &[4], 100, [35, 50, 50, 65]),
        (&[100], &[1], 10_000, [9_200, 9_600, 9_600, 10_000]),
        (&[1, 1], &[0, 7], 200, [0, 4, 104, 108]),
        (&[100; 16], &[7; 16], 160_000, [0, 6_400, 6_400, 12_800]),
        (&[100; 16], &[1; 16], 160_000, [147_200, 153_600, 153_600, 160_000]),
        (&[100; 16], &[1], 160_000, [9_200, 9_600, 159_600, 160_000]),
        (&[1; 16], &[0, 0, 0, 0, 0, 0, 0, 0, 0, 0, 0, 0, 0, 0, 0, 5], 1_600, [18, 27, 1_527, 1_538]),
    ];
    for (scores, terms, denominator, wanted) in rows {
        let found = mirrored_entry(scores, Entry::Opinions(terms.to_vec()));
        assert_eq!(found, entry_bytes(fractions(denominator, wanted)), "{scores:?} {terms:?}");
    }
}

/// A number of so many bytes, low byte first.
fn number(bytes: &[u8]) -> u32 {
    bytes.iter().rev().fold(0, |number, &byte| 256 * number + u32::from(byte))
}

/// The nodes of an accepted tree file by their bytes.
fn nodes_of(tree: &[u8]) -> Vec<Node> {
    let (records, links) = tree[9..].split_at(5 * number(&tree[7..9]) as usize);
    let mut links = links.chunks(2).map(|link| number(link) as u16);
    let mut node = |record: &[u8]| {
        let inputs = links.by_ref().take(number(&record[3..]) as usize).collect();
        match record[0] {
            0 => Node::Event,
            1 => Node::And(inputs),
            _ => Node::Or(inputs),
        }
    };
    records.chunks(5).map(&mut node).collect()
}

/// The entries of a mirrored sheet by their bytes; none has opinions.
fn entries_of(sheet: &[u8]) -> Vec<Entry> {
    let entry = |bytes: &[u8]| match bytes[0] {
        0 => Entry::Four([1, 5, 9, 13].map(|place| number(&bytes[place..place + 4]))),
        2 => {
            assert_eq!(bytes[16], 0);
            let numerators = [4, 7, 10, 13].map(|place| number(&bytes[place..place + 3]));
            fractions(number(&bytes[1..4]), numerators)
        }
        kind => panic!("entry kind {kind}"),
    };
    sheet[26..].chunks(17).map(entry).collect()
}

/// What an entry is mirrored to, opinions by the plain mean over everybody that is heard.
fn entry_taken_from_1(scores: &[u8], entry: &Entry) -> Entry {
    match entry {
        Entry::Four([a, b, c, d]) => Entry::Four([U - d, U - c, U - b, U - a]),
        Entry::Fractions { denominator, numerators: [a, b, c, d], .. } => {
            fractions(*denominator, [denominator - d, denominator - c, denominator - b, denominator - a])
        }
        Entry::Opinions(terms) => {
            let ([a, b, c, d], denominator) = mean(scores, terms);
            let numerators = [d, c, b, a].map(|sum| (denominator - sum) as u32);
            fractions(denominator as u32, numerators)
        }
    }
}

/// Both files by a plainer way: the tree from its description, and the sheet entry by entry.
fn check_files(pair: &Pair) {
    let exchanged: Vec<Node> = pair
        .nodes
        .iter()
        .map(|node| match node {
            Node::Event => Node::Event,
            Node::And(inputs) => Node::Or(inputs.clone()),
            Node::Or(inputs) => Node::And(inputs.clone()),
        })
        .collect();
    let entries: Vec<Entry> = pair.entries.iter().map(|entry| entry_taken_from_1(&pair.scores, entry)).collect();
    let wanted = (tree_bytes(7, &exchanged), sheet_bytes(7, &pair.scores, &entries));
    assert_eq!(desk_of(pair).mirrored_files(), wanted);
}

/// Equal where their crosswise products are.
fn is_equal(left: &Fraction, right: &Fraction) -> bool {
    let products = [left.numerator.times(&right.denominator), right.numerator.times(&left.denominator)];
    products[0].compare(&products[1]) == Ordering::Equal
}

/// Every node's exact lower and upper end.
fn exact_ends(nodes: &[Node], scores: &[u8], entries: &[Entry], (k, n): (u32, u32)) -> [Vec<Fraction>; 2] {
    let cuts: Vec<Cut> = entries.iter().map(|entry| cut(scores, entry, k, n)).collect();
    let ends = |end: fn(&Cut) -> u128| {
        let events: Vec<Fraction> = cuts.iter().map(|cut| fraction(end(cut), cut.denominator)).collect();
        bottom_up(nodes, &events)
    };
    [ends(|cut| cut.lower), ends(|cut| cut.upper)]
}

/// De Morgan on unrounded ends: each is 1 minus the other end of the same node in the mirrored files.
fn check_exact_ends(pair: &Pair, level: (u32, u32)) {
    let (tree, sheet) = desk_of(pair).mirrored_files();
    let (nodes, entries) = (nodes_of(&tree), entries_of(&sheet));
    let [lowers, uppers] = exact_ends(&pair.nodes, &pair.scores, &pair.entries, level);
    let [mirror_lowers, mirror_uppers] = exact_ends(&nodes, &pair.scores, &entries, level);
    for node in 0..pair.nodes.len() {
        assert!(is_equal(&lowers[node], &complement(&mirror_uppers[node])), "lower end of {node} at {level:?}");
        assert!(is_equal(&uppers[node], &complement(&mirror_lowers[node])), "upper end of {node} at {level:?}");
    }
}

fn ends_at(desk: &Desk, nodes: usize, (k, n): (u32, u32)) -> Work {
    let mut work = fresh_work(nodes, nodes, nodes);
    desk.question(k, n, &mut work).unwrap();
    work
}

/// The law on what is reported: U minus the other end, and its mark.
fn turned_round(work: &Work) -> Work {
    let from_unit = |ends: &[u32]| ends.iter().map(|end| U - end).collect();
    let exchanged = |marks: &u8| match marks {
        1 => 2,
        2 => 1,
        neither_or_both => *neither_or_both,
    };
    let marks = work.marks.iter().map(exchanged).collect();
    Work { lower: from_unit(&work.upper), upper: from_unit(&work.lower), marks }
}

fn check_reported(pair: &Pair, levels: &[(u32, u32)]) {
    let desk = desk_of(pair);
    let mirrored = desk.mirrored();
    let twice = mirrored.mirrored();
    for &level in levels {
        let [plain, turned, back] = [&desk, &mirrored, &twice].map(|desk| ends_at(desk, pair.nodes.len(), level));
        assert_eq!(plain, turned_round(&turned), "{level:?}");
        assert_eq!(plain, back, "{level:?}");
    }
}

/// The tree's bytes and those of numbers and fractions come back; an entry of opinions comes back as its fractions.
fn check_twice(pair: &Pair) {
    let twice = desk_of(pair).mirrored().mirrored();
    let restored = pair.entries.iter().map(|entry| match entry {
        Entry::Opinions(terms) => {
            let (sums, denominator) = mean(&pair.scores, terms);
            fractions(denominator as u32, sums.map(|sum| sum as u32))
        }
        other => other.clone(),
    });
    let restored: Vec<Entry> = restored.collect();
    assert_eq!(twice.tree_store, tree_bytes(7, &pair.nodes));
    assert_eq!(twice.sheet_store, sheet_bytes(7, &pair.scores, &restored));
    let has_opinions = pair.entries.iter().any(|entry| matches!(entry, Entry::Opinions(_)));
    assert_eq!(twice.sheet_store == sheet_bytes(7, &pair.scores, &pair.entries), !has_opinions);
}

/// The lowest level, the highest, and two between.
fn levels(random: &mut Random) -> [(u32, u32); 4] {
    let n = *random.pick(&[1, 2, 3, 7, 10, 999, 1_000]);
    [0, n, n / 2, random.between(0, n)].map(|k| (k as u32, n as u32))
}

#[test]
fn generated_pairs() {
    for index in 0..400 {
        let random = &mut Random::for_case(81, index);
        let pair = any_mirror_pair(random, index);
        check_files(&pair);
        check_twice(&pair);
        check_reported(&pair, &levels(random));
    }
}

#[test]
fn exact_ends_of_small_pairs() {
    let styles: [fn(&mut Random, Vec<Node>) -> Pair; 5] =
        [fractions_beside, fractions_alone, quiet_pair, any_pair, lively_pair];
    for index in 0..600 {
        let random = &mut Random::for_case(83, index);
        let nodes = if index % 7 == 0 { vec![Node::Event] } else { small_tree(random, 12) };
        let pair = styles[index as usize % styles.len()](random, nodes);
        levels(random).iter().for_each(|&level| check_exact_ends(&pair, level));
        check_reported(&pair, &levels(random));
    }
}

#[test]
fn largest_pairs() {
    let random = &mut Random::for_case(85, 0);
    for nodes in [most_events(random, 1_024), comb(random, 512), chain(random, 1_024)] {
        for pair in [
            fractions_beside(random, nodes.clone()),
            quiet_pair(random, nodes.clone()),
            lively_fractions(random, nodes.clone(), 16),
        ] {
            check_files(&pair);
            check_twice(&pair);
            check_reported(&pair, &[(0, 1), (1, 1), (333, 1_000), (2, 7)]);
        }
    }
    let nodes = most_events(random, 1_024);
    check_exact_ends(&lively_fractions(random, nodes, 3), (1, 3));
}

/// P7's zero is no true one: its mirror is an unmarked U, and the marked end of P10 changes sides.
#[test]
fn marks_by_hand() {
    let and = [Node::Event, Node::Event, Node::And(vec![0, 1])];
    let p7 = holding(&and, &[], &[Entry::Four([0, 1, 1, 2]), same(1)]);
    assert_eq!(ends_at(&p7, 3, (1, 2)), Work { lower: vec![0, 1, 0], upper: vec![2, 1, 1], marks: vec![0, 3, 0] });
    let turned = Work { lower: vec![U - 2, U - 1, U - 1], upper: vec![U, U - 1, U], marks: vec![0, 3, 0] };
    assert_eq!(ends_at(&p7.mirrored(), 3, (1, 2)), turned);
    let p10 = holding(&[Node::Event], &[2, 1], &[Entry::Opinions(vec![2, 3])]);
    assert_eq!(ends_at(&p10, 1, (0, 2)), Work { lower: vec![103_333_333], upper: vec![250_000_000], marks: vec![2] });
    let turned = Work { lower: vec![750_000_000], upper: vec![896_666_667], marks: vec![1] };
    assert_eq!(ends_at(&p10.mirrored(), 1, (0, 2)), turned);
}

/// 0.8 AND (0.1 OR 0.4) fails with 0.368, so 0.2 OR (0.9 AND 0.6) works with 0.632.
#[test]
fn road_trip() {
    let nodes = [Node::Event, Node::Event, Node::Event, Node::Or(vec![1, 2]), Node::And(vec![0, 3])];
    let desk = holding(&nodes, &[], &[same(800_000_000), same(100_000_000), same(400_000_000)]);
    let answer = desk.mirrored().answer(1, 2).unwrap();
    assert_eq!((answer.lower.units, answer.upper.units, answer.events), (632_000_000, 632_000_000, 3));
    assert!(answer.lower.exact && answer.upper.exact);
}

/// Buffers of any length from the files' on: the files at their fronts, and what was there behind them.
#[test]
fn rests_of_the_buffers() {
    let pair = any_mirror_pair(&mut Random::for_case(87, 0), 5);
    let desk = desk_of(&pair);
    let (tree, sheet) = desk.mirrored_files();
    for [tree_spare, sheet_spare] in [[0, 0], [1, 0], [0, 1], [9, 300], [7_175, 17_434]] {
        let with_rest = |file: &[u8], spare: usize| [file, &vec![BUFFER_FILL; spare]].concat();
        let mut tree_buffer = vec![BUFFER_FILL; tree.len() + tree_spare];
        let mut sheet_buffer = vec![BUFFER_FILL; sheet.len() + sheet_spare];
        assert_eq!(desk.mirror(&mut tree_buffer, &mut sheet_buffer), Ok(()));
        assert_eq!(tree_buffer, with_rest(&tree, tree_spare));
        assert_eq!(sheet_buffer, with_rest(&sheet, sheet_spare));
    }
}

/// With the state that came back the buffers are stores that hold the mirrored pair.
#[test]
fn the_buffers_as_stores() {
    let pair = any_mirror_pair(&mut Random::for_case(89, 0), 6);
    let desk = desk_of(&pair);
    let mut buffers = Desk { state: desk.state, ..Desk::roomy() };
    assert_eq!(desk.mirror(&mut buffers.tree_store, &mut buffers.sheet_store), Ok(()));
    assert_eq!(buffers.answer(1, 3), desk.mirrored().answer(1, 3));
}
