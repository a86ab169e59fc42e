//! The law of the mirror (02, CR 6) on what each library reports: at each level and node, lower is 1 minus the mirror's
//! upper and upper 1 minus its lower, with the marks exchanged; and mirrored twice, the tree's bytes and every node's
//! ends and marks are as before.

use crate::capi::ONE;
use crate::desk::{Checked, Desk, Difference, Ends};
use reference::bytes::read_16;
use reference::cut::Level;
use reference::random::Random;
use reference::tree_file::NODES_PLACE;

/// A node's ends and mark byte.
type Results = (u32, u32, u8);

fn results(ends: &Ends, node: usize) -> Results {
    (ends.lower[node], ends.upper[node], ends.marks[node])
}

/// What the node of the pair must have, where the mirror's has this.
fn turned_round((lower, upper, marks): Results) -> Results {
    (ONE - upper, ONE - lower, marks >> 1 | (marks & 1) << 1)
}

/// The lowest, the highest, the middle and another level of some n.
fn any_levels(random: &mut Random) -> [Level; 4] {
    let n = *random.pick(&[1, 2, 3, 7, 10, 999, 1_000]);
    [0, n, n / 2, random.between(0, n)].map(|k| Level { k: k as u32, n: n as u32 })
}

/// The desk's pair was just mirrored. The mirrored pair is handed in to a second desk, and its mirror to a third; some
/// levels are put to all three.
pub fn hold_to_law(desk: &mut Desk, random: &mut Random) -> Checked {
    let nodes = read_16(desk.held_tree(), NODES_PLACE) as usize;
    let mut mirror = desk.with_mirrored_pair()?;
    mirror.set_mirror_buffers([mirror.state().tree_len, mirror.state().sheet_len]);
    if !mirror.mirror()? {
        return Err(Difference("a mirrored pair is not mirrored again".to_string()));
    }
    let mut twice = mirror.with_mirrored_pair()?;
    if twice.held_tree() != desk.held_tree() {
        return Err(Difference("mirrored twice, the tree's bytes are others".to_string()));
    }
    for level in any_levels(random) {
        for desk in [&mut *desk, &mut mirror, &mut twice] {
            desk.fill_slices();
            desk.question(level, [nodes; 3])?;
        }
        desk.tally.lawful += same_results(desk, &mirror, nodes, level, "its mirror", turned_round)?;
        same_results(desk, &twice, nodes, level, "mirrored twice, it", |results| results)?;
    }
    [mirror, twice].iter().for_each(|other| desk.tally.add(other.tally));
    Ok(())
}

/// Each library's results of every node are what the other desk's are turned to; answers how many.
fn same_results(
    desk: &Desk,
    other: &Desk,
    nodes: usize,
    Level { k, n }: Level,
    name: &str,
    turn: fn(Results) -> Results,
) -> Result<u64, Difference> {
    let mut held = 0;
    for (ends, others) in desk.ends().zip(other.ends()) {
        for node in 0..nodes {
            let (found, beside) = (results(&ends, node), results(&others, node));
            if found != turn(beside) {
                let library = ends.library;
                let text =
                    format!("{library} reports {found:?} for node {node} at level {k} of {n}, {name} {beside:?}");
                return Err(Difference(text));
            }
            held += 1;
        }
    }
    Ok(held)
}
