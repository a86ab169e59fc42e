//! Silent experts among the stored calls: a term taken away and given back, the refusals of terms, each term beside
//! silence, one expert of sixteen silent and one alone speaking, with the least and the best scores, and silence under
//! gates and at an hour.

use super::valid::Pair;
use super::vector_list::List;
use crate::calls::Call;
use crate::cut::Level;
use crate::describe::{fractions, same, Entry, Node};
use crate::opinion_sheet::{inside_entry, BEST_SCORE, MOST_EXPERTS, SCORES_PLACE};
use crate::work_windows::Window;

const LEAST_SCORE: u8 = 1;
/// The widest level, the narrowest and one between, of three.
const LEVELS: [u32; 3] = [0, 3, 1];

fn opinions(terms: &[u8]) -> Entry {
    Entry::Opinions(terms.to_vec())
}

fn pair_of(nodes: Vec<Node>, scores: &[u8], entries: Vec<Entry>) -> Pair {
    Pair { number: 7, nodes, scores: scores.to_vec(), entries }
}

fn one_event(scores: &[u8], terms: &[u8]) -> Pair {
    pair_of(vec![Node::Event], scores, vec![opinions(terms)])
}

/// An AND over the first half of the events, an OR over the others, and an OR over both.
fn in_halves(scores: &[u8], entries: Vec<Entry>) -> Pair {
    let count = entries.len() as u16;
    let gates = [Node::And((0..count / 2).collect()), Node::Or((count / 2..count).collect())];
    let nodes = [vec![Node::Event; entries.len()], gates.to_vec(), vec![Node::Or(vec![count, count + 1])]].concat();
    pair_of(nodes, scores, entries)
}

/// One score, and the same for all others.
fn one_among(expert: usize, score: u8, others: u8) -> [u8; MOST_EXPERTS] {
    let mut scores = [others; MOST_EXPERTS];
    scores[expert] = score;
    scores
}

impl List {
    pub(super) fn silence(&mut self) {
        self.book(&[]);
        self.term_taken_away();
        self.terms_without_a_speaker();
        self.one_of_two();
        self.one_of_sixteen();
        self.silence_under_gates();
    }

    fn poke_term(&mut self, expert: usize, term: u8) {
        self.calls.push(Call::PokeSheet(inside_entry(0, expert) as u32, term));
    }

    /// P10 and P9: the second expert says nothing, then neither does the first, then both speak again.
    fn term_taken_away(&mut self) {
        self.holding_pair(&one_event(&[2, 1], &[2, 3]));
        self.question(0, 2, 1);
        self.poke_term(1, 0);
        self.question(0, 2, 1);
        self.question(2, 2, 1);
        self.poke_term(0, 0);
        self.judge(0, 2);
        self.poke_term(0, 2);
        self.poke_term(1, 3);
        self.question(0, 2, 1);
    }

    /// Beside the pair held before: 12 with no expert, with sixteen, and at the second entry; 11 after the last expert,
    /// where a listed one is silent and where all are.
    fn terms_without_a_speaker(&mut self) {
        let second = pair_of(vec![], &[1, 1], vec![opinions(&[0, 1]), opinions(&[])]);
        let nobody = [one_event(&[], &[]), one_event(&[BEST_SCORE; MOST_EXPERTS], &[]), second];
        let after_the_last = [&[0, 7, 1], &[0, 0, 1]].map(|terms| one_event(&[1, 1], terms));
        for pair in nobody.iter().chain(&after_the_last) {
            self.calls.push(Call::Sheet(pair.sheet()));
        }
    }

    /// Each level by the short text of a question at an hour, without a window.
    fn at_levels(&mut self, pair: &Pair, levels: &[u32]) {
        for &k in levels {
            self.hour_question(0, pair.sheet().len(), Level { k, n: 3 }, [pair.nodes.len(); 3]);
        }
    }

    fn poke_scores(&mut self, scores: &[u8]) {
        let pokes =
            scores.iter().enumerate().map(|(expert, &score)| Call::PokeSheet((SCORES_PLACE + expert) as u32, score));
        self.calls.extend(pokes);
    }

    /// Each term beside silence, of the second expert and of the first.
    fn one_of_two(&mut self) {
        let entries = (1..=7).map(|term| opinions(&[term, 0])).chain((1..=7).map(|term| opinions(&[0, term])));
        let pair = in_halves(&[1, 1], entries.collect());
        self.holding_pair(&pair);
        self.at_levels(&pair, &LEVELS);
        for scores in [[LEAST_SCORE, BEST_SCORE], [BEST_SCORE, LEAST_SCORE]] {
            self.poke_scores(&scores);
            self.at_levels(&pair, &LEVELS[1..]);
        }
    }

    /// Each of sixteen experts alone silent, and each alone speaking: with any scores, and with a score of the least
    /// among the best and of the best among the least, both of the first expert and of the last.
    fn one_of_sixteen(&mut self) {
        let term = |expert: usize, other: usize| 1 + (expert + other) as u8 % 7;
        let all_but = |expert: usize| {
            let terms = (0..MOST_EXPERTS).map(|other| if other == expert { 0 } else { term(expert, other) });
            Entry::Opinions(terms.collect())
        };
        let alone = |expert: usize| opinions(&one_among(expert, term(expert, 0), 0));
        let entries = (0..MOST_EXPERTS).map(all_but).chain((0..MOST_EXPERTS).map(alone)).collect();
        let scores = [1, 2, 3, 5, 7, 11, 13, 17, 19, 23, 29, 31, 37, 41, 97, 100];
        let pair = in_halves(&scores, entries);
        self.holding_pair(&pair);
        self.question(333, 1_000, pair.nodes.len());
        self.at_levels(&pair, &LEVELS[..2]);
        for (score, others) in [(LEAST_SCORE, BEST_SCORE), (BEST_SCORE, LEAST_SCORE)] {
            for expert in [0, MOST_EXPERTS - 1] {
                self.poke_scores(&one_among(expert, score, others));
                self.at_levels(&pair, &LEVELS[..2]);
            }
        }
    }

    /// A silent expert in one entry of three, under an AND; the event is out of service, and in service again.
    fn silence_under_gates(&mut self) {
        let nodes = vec![Node::Event, Node::Event, Node::Event, Node::Or(vec![1, 2]), Node::And(vec![0, 3])];
        let entries = vec![opinions(&[2, 3, 0]), fractions(1_250, [1, 3, 3, 6]), same(500_000_000)];
        let pair = pair_of(nodes, &[10, 7, 5], entries);
        self.holding_pair(&pair);
        self.question(1, 3, pair.nodes.len());
        self.book(&[Window { event: 0, first: 5, end: 9 }]);
        for hour in [8, 9] {
            self.hour_question(hour, pair.sheet().len(), Level { k: 3, n: 3 }, [pair.nodes.len(); 3]);
        }
    }
}
