//! A listed expert who says nothing counts as (0, 0, 100, 100) hundredths with that expert's score (02, CR 5).

use crate::desk::{exact, fresh_work, holding, refusal, unmarked, Desk};
use crate::exact::{cut, Cut};
use reference::cases::sheets::{any_entries, any_opinions, any_scores};
use reference::cases::trees::count_events;
use reference::cases::valid::small_tree;
use reference::describe::{same, sheet_bytes, Entry, Node};
use reference::end::End;
use reference::opinion_sheet::{inside_entry, MOST_EXPERTS};
use reference::random::Random;

fn opinions(terms: &[u8]) -> Entry {
    Entry::Opinions(terms.to_vec())
}

/// One event's ends at level k of n.
fn ends(scores: &[u8], terms: &[u8], k: u32, n: u32) -> (End, End) {
    let answer = holding(&[Node::Event], scores, &[opinions(terms)]).answer(k, n).unwrap();
    (answer.lower, answer.upper)
}

/// By hand, Low with score 2 and silence with score 1: a, b, c and d are 2 × 7, 2 × 13, 2 × 13 + 100 and 2 × 19 + 100
/// of 300, which is 14, 26, 126 and 138. The silent expert may stand first.
#[test]
fn one_of_two() {
    for (scores, terms) in [([2, 1], [2, 0]), ([1, 2], [0, 2])] {
        assert_eq!(ends(&scores, &terms, 0, 2), (unmarked(46_666_666), exact(460_000_000)));
        assert_eq!(ends(&scores, &terms, 1, 2), (unmarked(66_666_666), exact(440_000_000)));
        assert_eq!(ends(&scores, &terms, 2, 2), (unmarked(86_666_666), exact(420_000_000)));
    }
}

/// By hand: a, b = c and d of each term, halved, and 50 more for c and d, in tenths of a hundredth.
#[test]
fn each_term_beside_silence() {
    let halves = [[0, 20, 40], [35, 65, 95], [85, 135, 185], [175, 250, 325], [310, 365, 410], [405, 435, 465]];
    for (index, [a, b, d]) in halves.into_iter().chain([[460, 480, 500]]).enumerate() {
        let terms = [index as u8 + 1, 0];
        let units = |tenths: u32| exact(tenths * 1_000_000);
        assert_eq!(ends(&[9, 9], &terms, 0, 1), (units(a), units(d + 500)));
        assert_eq!(ends(&[9, 9], &terms, 1, 1), (units(b), units(b + 500)));
    }
}

/// By hand, Medium with score 1 beside fifteen silent experts with 100 each: a, b, c and d are 35, 50, 150,050 and
/// 150,065 of 150,100, which is 233,177.88.., 333,111.25.., 999,666,888.74.. and 999,766,822.11.. billionths.
#[test]
fn all_but_one() {
    for speaker in 0..MOST_EXPERTS {
        let (mut scores, mut terms) = ([100; MOST_EXPERTS], [0; MOST_EXPERTS]);
        (scores[speaker], terms[speaker]) = (1, 4);
        assert_eq!(ends(&scores, &terms, 0, 2), (unmarked(233_177), unmarked(999_766_823)));
        assert_eq!(ends(&scores, &terms, 2, 2), (unmarked(333_111), unmarked(999_666_889)));
        let desk = holding(&[Node::Event], &scores, &[opinions(&terms)]);
        assert!((0..=1_000).all(|k| desk.answer(k, 1_000).is_ok()));
    }
}

/// By hand, from the first of `one_of_two` at level 0: times 0.5, or 1 less the product of what is missing to 1.
#[test]
fn marks_under_gates() {
    for (gate, lower, upper) in [
        (Node::And(vec![0, 1]), unmarked(23_333_333), exact(230_000_000)),
        (Node::Or(vec![0, 1]), unmarked(523_333_333), exact(730_000_000)),
    ] {
        let nodes = [Node::Event, Node::Event, gate];
        let answer = holding(&nodes, &[2, 1], &[opinions(&[2, 0]), same(500_000_000)]).answer(0, 2).unwrap();
        assert_eq!((answer.lower, answer.upper), (lower, upper));
    }
}

/// By hand: Medium from every listed expert is Medium, however many places are left after the last. One listed expert
/// more who says nothing makes it 35 m and 65 m + 100 of 100 × (m + 1).
#[test]
fn places_after_the_last_expert() {
    for experts in 1..=MOST_EXPERTS {
        let medium = vec![4; experts];
        assert_eq!(ends(&vec![7; experts], &medium, 0, 1), (exact(350_000_000), exact(650_000_000)));
        if experts < MOST_EXPERTS {
            let (m, one_more) = (experts as u64, ends(&vec![7; experts + 1], &medium, 0, 1));
            let (lower, upper) = (350_000_000 * m, 650_000_000 * m + 1_000_000_000);
            let units = (lower / (m + 1), upper.div_ceil(m + 1));
            assert_eq!((one_more.0.units as u64, one_more.1.units as u64), units);
            let whole = (lower % (m + 1) == 0, upper % (m + 1) == 0);
            assert_eq!((one_more.0.exact, one_more.1.exact), whole);
        }
    }
}

/// 12 at the entry, with experts and with none, in the first entry and in the second; a held sheet that comes to it is
/// no longer an accepted one.
#[test]
fn nobody_spoke() {
    for experts in 0..=MOST_EXPERTS {
        let scores = vec![100; experts];
        assert_eq!(Desk::roomy().sheet(&sheet_bytes(7, &scores, &[opinions(&[])])), refusal(12, 26));
        assert_eq!(Desk::roomy().sheet(&sheet_bytes(7, &scores, &[same(5), opinions(&[])])), refusal(12, 43));
    }
    let mut desk = holding(&[Node::Event], &[100, 1], &[opinions(&[0, 4])]);
    let term = inside_entry(0, 1);
    desk.sheet_store[term] = 0;
    assert_eq!(desk.answer(0, 1), refusal(23, 1));
    desk.sheet_store[term] = 4;
    assert!(desk.answer(0, 1).is_ok());
}

/// Where a listed expert who spoke, beside another one, says nothing instead.
fn fallen_silent(random: &mut Random, entry: &Entry) -> Option<Entry> {
    let Entry::Opinions(terms) = entry else { return None };
    let speakers: Vec<usize> = (0..terms.len()).filter(|&expert| terms[expert] != 0).collect();
    let mut fewer = terms.clone();
    fewer[*random.pick(&speakers)] = 0;
    (speakers.len() > 1).then_some(Entry::Opinions(fewer))
}

/// Each end of `outer`, times the other's denominator, lies at or outside that of `inner`, and one of them outside.
fn strictly_inside(inner: &Cut, outer: &Cut) -> bool {
    let (inside, outside) = (outer.denominator, inner.denominator);
    let lower = (outer.lower * outside).cmp(&(inner.lower * inside));
    let upper = (inner.upper * inside).cmp(&(outer.upper * outside));
    lower.is_le() && upper.is_le() && (lower.is_lt() || upper.is_lt())
}

/// At every level the interval of one term fewer is wider, exactly and as reported.
#[test]
fn a_term_fewer_widens_the_cut() {
    let mut tried = 0;
    for index in 0..400 {
        let random = &mut Random::for_case(83, index);
        let experts = random.between(2, MOST_EXPERTS);
        let scores = any_scores(random, experts);
        let entry = any_opinions(random, experts);
        let Some(fewer) = fallen_silent(random, &entry) else { continue };
        let [before, after] = [&entry, &fewer].map(|entry| holding(&[Node::Event], &scores, &[entry.clone()]));
        let n = *random.pick(&[1, 2, 3, 7, 10, 40]);
        for k in 0..=n {
            let [inner, outer] = [&entry, &fewer].map(|entry| cut(&scores, entry, k, n));
            assert!(strictly_inside(&inner, &outer), "{scores:?} {entry:?} {fewer:?} {k} {n}");
            let [inner, outer] = [&before, &after].map(|desk| desk.question(k, n, &mut fresh_work(1, 1, 1)).unwrap());
            assert!(outer.lower.units <= inner.lower.units && inner.upper.units <= outer.upper.units);
            assert!(outer != inner, "{scores:?} {entry:?} {fewer:?} {k} {n}");
        }
        tried += 1;
    }
    assert!(tried > 300, "{tried}");
}

/// No node's reported interval narrows where a term is taken from an event beneath or elsewhere.
#[test]
fn a_term_fewer_narrows_no_node() {
    let mut tried = 0;
    for index in 0..600 {
        let random = &mut Random::for_case(89, index);
        let nodes = small_tree(random, 14);
        let experts = random.between(2, MOST_EXPERTS);
        let scores = any_scores(random, experts);
        let entries = any_entries(random, experts, count_events(&nodes));
        let event = random.below(entries.len());
        let Some(fewer) = fallen_silent(random, &entries[event]) else { continue };
        let mut wider = entries.clone();
        wider[event] = fewer;
        let n = *random.pick(&[1, 3, 10]);
        let k = random.between(0, n) as u32;
        let [inner, outer] = [&entries, &wider].map(|entries| {
            let mut work = fresh_work(nodes.len(), nodes.len(), nodes.len());
            holding(&nodes, &scores, entries).question(k, n as u32, &mut work).unwrap();
            work
        });
        assert!((0..nodes.len()).all(|node| outer.lower[node] <= inner.lower[node]));
        assert!((0..nodes.len()).all(|node| inner.upper[node] <= outer.upper[node]));
        tried += 1;
    }
    assert!(tried > 150, "{tried}");
}
