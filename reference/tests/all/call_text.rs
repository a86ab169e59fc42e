//! The text of a list of calls.

use reference::calls::{run_calls, SET_FILL};
use reference::cases::set_trees::{join, with_set};
use reference::describe::{sheet_bytes, tree_bytes, Entry, Node};
use reference::hex::hex_text;

#[test]
fn every_kind_of_line() {
    let tree = hex_text(&tree_bytes(7, &[Node::Event]));
    let sheet = hex_text(&sheet_bytes(7, &[], &[Entry::Four([0, 1, 1, 2])]));
    let list = format!(
        "judge 1 2\nstores 16 43\ntree {tree}\nsheet {sheet}\njudge 1 2\nquestion 1 2 1 2 3\nquestion 3 2 0 0 1\n\
         poke tree 0 0\njudge 1 2\nstate 0 43\ndrop\n"
    );
    let broken = format!("00{}", &tree[2..]);
    let expected = format!(
        "refused 21 at 0\nstate 0 0\ntree -\nsheet -\n\
         accepted\nstate 14 0\ntree {tree}eeee\nsheet {fill}\n\
         accepted\nstate 14 43\ntree {tree}eeee\nsheet {sheet}\n\
         nodes 1 events 1\nstate 14 43\ntree {tree}eeee\nsheet {sheet}\n\
         lower 0 ~ upper 2 ~ events 1\nstate 14 43\ntree {tree}eeee\nsheet {sheet}\n\
         lower 0\nupper 2 4000000002\nmarks 0 238 238\n\
         refused 13 at 0\nstate 14 43\ntree {tree}eeee\nsheet {sheet}\nlower\nupper\nmarks 238\n\
         refused 23 at 0\nstate 14 43\ntree {broken}eeee\nsheet {sheet}\n\
         dropped\nstate 0 0\ntree {broken}eeee\nsheet {sheet}\n",
        fill = "ee".repeat(43)
    );
    assert_eq!(run_calls(&list), (expected, true));
}

#[test]
fn questions_at_an_hour() {
    let tree = hex_text(&tree_bytes(7, &[Node::Event]));
    let sheet = hex_text(&sheet_bytes(7, &[], &[Entry::Four([0, 1, 1, 2])]));
    let list = format!(
        "stores 14 43\ntree {tree}\nsheet {sheet}\nhour-question 1 2 1 1 1\nhour 5 44\nhour-question 1 2 1 1 1\n\
         book 00000500000006000000\nhour-question 1 2 1 2 1\nbook 0000050000000600\nhour-question 1 2 1 1 0\n"
    );
    let after = format!("state 14 43\ntree {tree}\nsheet {sheet}\n");
    let written = format!("{}00{}", &sheet[..52], "00ca9a3b".repeat(4));
    let expected = format!(
        "accepted\nstate 14 0\ntree {tree}\nsheet {fill}\naccepted\n{after}\
         refused 30 at 0\n{after}buffer -\nlower 4000000001\nupper 4000000002\nmarks 238\n\
         lower 0 ~ upper 2 ~ events 1\n{after}buffer {sheet}ee\nlower 0\nupper 2\nmarks 0\n\
         lower 1000000000 = upper 1000000000 = events 1\n{after}buffer {written}ee\n\
         lower 1000000000\nupper 1000000000 4000000002\nmarks 3\n\
         refused 29 at 8\n{after}buffer {fill}ee\nlower 4000000001\nupper 4000000002\nmarks\n",
        fill = "ee".repeat(43)
    );
    assert_eq!(run_calls(&list), (expected, true));
}

/// By hand: all bits from 2 on with bit 0 or bit 1 are 2^64 - 3 and 2^64 - 2. Modulo 4294967291, where 2^32 is 5, these
/// are 22 and 23.
#[test]
fn sets_are_summed() {
    let mut nodes = vec![Node::Event; 64];
    let one = join(&mut nodes, Node::Or, vec![0, 1]);
    let others = join(&mut nodes, Node::And, (2..64).collect());
    join(&mut nodes, Node::And, vec![one, others]);
    let tree = hex_text(&tree_bytes(7, &nodes));
    let length = tree.len() / 2;
    let list = format!("stores {length} 0\ntree {tree}\ncount\ncut-sets 5\ncut-sets 1\n");
    let after = format!("state {length} 0\ntree {tree}\nsheet -\n");
    let expected = [
        format!("accepted\n{after}"),
        format!("cut sets 2\n{after}"),
        format!("cut sets 2\n{after}sets 5 45 1013 left 3\n"),
        format!("refused 27 at 0\n{after}sets 1 0 0 left 1\n"),
    ];
    assert_eq!(run_calls(&list), (expected.concat(), true));
}

/// A listed set like what the slice held before is no place left.
#[test]
fn set_like_the_fill() {
    let tree = hex_text(&tree_bytes(7, &with_set(SET_FILL)));
    let (text, _) = run_calls(&format!("stores {} 0\ntree {tree}\ncut-sets 17\ncut-sets 19\n", tree.len() / 2));
    let sets: Vec<&str> = text.lines().filter(|line| line.starts_with("sets ")).collect();
    assert!(sets.len() == 2 && sets[0].ends_with(" left 0") && sets[1].ends_with(" left 2"), "{sets:?}");
}

#[test]
fn lines_that_are_none() {
    let lines = [
        "",
        "drop ",
        " drop",
        "drop\r",
        "tree",
        "tree 4",
        "tree xy",
        "poke tree 0 0",
        "poke store 0 0",
        "stores 1",
        "stores 65537 0",
        "judge 1",
        "judge 1 4294967296",
        "judge -1 2",
        "judge +1 2",
        "judge 01 2",
        "question 1 2 3 4",
        "question 1 2 3 4 65537",
        "tree \u{fffd}\u{fffd}",
        "count ",
        "count 1",
        "cut-sets",
        "cut-sets 65537",
        "cut sets 1",
        "book",
        "book 0",
        "hour 1",
        "hour 4294967296 0",
        "hour 0 65537",
        "hour-question 1 2 3 4",
        "hour-question 1 2 3 4 65537",
    ];
    for line in lines {
        let list = format!("stores 0 0\n{line}\ndrop\n");
        assert_eq!(run_calls(&list), ("line 2\n".to_string(), false), "{line:?}");
    }
}
