//! Generated cases with many silent experts: known outcomes are met, and in most entries one expert of several speaks.

use crate::generated::check;
use reference::cases::silence::{quiet_pair, silence_case};
use reference::cases::valid::small_tree;
use reference::describe::Entry;
use reference::opinion_sheet::MOST_EXPERTS;
use reference::random::Random;

#[test]
fn cases_meet_their_outcome() {
    for index in 0..400 {
        check(&silence_case(&mut Random::for_case(91, index), index), index);
    }
}

/// With the least and the best score, among few experts and among sixteen.
#[test]
fn most_entries_have_one_speaker() {
    let (mut entries, mut alone) = (0, Vec::new());
    for index in 0..200 {
        let random = &mut Random::for_case(93, index);
        let nodes = small_tree(random, 12);
        let pair = quiet_pair(random, nodes);
        for entry in &pair.entries {
            entries += 1;
            let Entry::Opinions(terms) = entry else { continue };
            if let [speaker] = (0..terms.len()).filter(|&expert| terms[expert] != 0).collect::<Vec<_>>()[..] {
                let total: u32 = pair.scores.iter().map(|&score| score as u32).sum();
                alone.push((terms.len(), pair.scores[speaker] as u32, total - pair.scores[speaker] as u32));
            }
        }
    }
    assert!(2 * alone.len() > entries, "{} of {entries}", alone.len());
    for wanted in [(MOST_EXPERTS, 1, 1_500), (MOST_EXPERTS, 100, 15), (2, 1, 100), (2, 100, 1), (3, 1, 2)] {
        assert!(alone.contains(&wanted), "{wanted:?}");
    }
}
