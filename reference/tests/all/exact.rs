//! Exact fractions of 1: an event's cut, and every node bottom-up without rounding.

use crate::whole::Whole;
use reference::describe::{Entry, Node};
use reference::mean::TERMS;

#[derive(Clone, Debug)]
pub struct Fraction {
    pub numerator: Whole,
    pub denominator: Whole,
}

/// The lower and the upper end of an event's exact cut over one denominator, by the words of documents 01 and 02.
#[derive(Clone, Copy, Debug)]
pub struct Cut {
    pub lower: u128,
    pub upper: u128,
    pub denominator: u128,
}

pub fn cut(scores: &[u8], entry: &Entry, k: u32, n: u32) -> Cut {
    let ([a, b, c, d], denominator) = match entry {
        Entry::Four(numbers) => (numbers.map(u128::from), 1_000_000_000),
        Entry::Opinions(terms) => mean(scores, terms),
        Entry::Fractions { denominator, numerators, .. } => (numerators.map(u128::from), *denominator as u128),
    };
    let (k, n) = (k as u128, n as u128);
    Cut { lower: a * n + (b - a) * k, upper: d * n - (d - c) * k, denominator: denominator * n }
}

/// An expert of score s is heard s times, and the mean is the plain one over all that was heard: the four sums, and 100
/// times how often somebody was heard.
pub fn mean(scores: &[u8], terms: &[u8]) -> ([u128; 4], u128) {
    let heard: Vec<[u128; 4]> =
        (0..scores.len()).flat_map(|expert| vec![said(terms.get(expert)); scores[expert] as usize]).collect();
    let sum = |number: usize| heard.iter().map(|four| four[number]).sum();
    ([0, 1, 2, 3].map(sum), 100 * heard.len() as u128)
}

/// a, b, c and d of a listed expert in hundredths; with term 0, or where the terms end before, the expert is silent.
fn said(term: Option<&u8>) -> [u128; 4] {
    match term {
        None | Some(0) => [0, 0, 100, 100],
        Some(&code) => [0, 1, 1, 2].map(|column: usize| TERMS[code as usize - 1][column] as u128),
    }
}

pub fn fraction(numerator: u128, denominator: u128) -> Fraction {
    Fraction { numerator: Whole::new(numerator), denominator: Whole::new(denominator) }
}

/// Every node's fraction; each event's is given in the order of events.
pub fn bottom_up(nodes: &[Node], events: &[Fraction]) -> Vec<Fraction> {
    let mut fractions: Vec<Fraction> = Vec::new();
    let mut rest = events.iter();
    for node in nodes {
        let inputs = || node.inputs().iter().map(|&input| &fractions[input as usize]);
        let fraction = match node {
            Node::Event => rest.next().unwrap().clone(),
            Node::And(_) => product(inputs().cloned()),
            Node::Or(_) => complement(&product(inputs().map(complement))),
        };
        fractions.push(fraction);
    }
    fractions
}

pub fn complement(fraction: &Fraction) -> Fraction {
    Fraction { numerator: fraction.denominator.minus(&fraction.numerator), denominator: fraction.denominator.clone() }
}

fn product(fractions: impl Iterator<Item = Fraction>) -> Fraction {
    fractions.fold(fraction(1, 1), |product, factor| Fraction {
        numerator: product.numerator.times(&factor.numerator),
        denominator: product.denominator.times(&factor.denominator),
    })
}

/// The number of events at or beneath each node.
pub fn events_beneath(nodes: &[Node]) -> Vec<usize> {
    let mut beneath: Vec<usize> = Vec::new();
    for node in nodes {
        let count = match node {
            Node::Event => 1,
            gate => gate.inputs().iter().map(|&input| beneath[input as usize]).sum(),
        };
        beneath.push(count);
    }
    beneath
}
