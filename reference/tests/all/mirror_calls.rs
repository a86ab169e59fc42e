//! The stored calls of the mirror, as bytes and as text.

use crate::vectors::sum;
use reference::cases::mirror_list::mirror_list;
use reference::describe::{same, sheet_bytes, tree_bytes, Node};
use reference::examples::{example, NAMES};
use reference::mirror_calls::{
    mirror_call_text, mirror_stream_text, read_mirror_stream, write_mirror_stream, MirrorCall,
};
use reference::monitor::State;
use std::collections::BTreeMap;

fn one_event() -> MirrorCall {
    MirrorCall {
        tree_store: [tree_bytes(7, &[Node::Event]), vec![1]].concat(),
        sheet_store: sheet_bytes(7, &[], &[same(1)]),
        state: State { tree_length: 14, sheet_length: 43 },
        tree_buffer: 14,
        sheet_buffer: 44,
    }
}

#[test]
fn bytes_and_back() {
    let call = one_event();
    let head = [15, 43, 14, 43, 14, 44].map(|number: u32| number.to_le_bytes()).concat();
    let stream = write_mirror_stream(&vec![call.clone(); 2]);
    assert_eq!(stream[..82], [&head[..], &call.tree_store, &call.sheet_store].concat());
    assert_eq!(stream[..82], stream[82..]);
    assert_eq!(read_mirror_stream(&stream), Some(vec![call.clone(), call]));
    let list = mirror_list();
    assert_eq!(read_mirror_stream(&write_mirror_stream(&list)), Some(list));
}

#[test]
fn text_by_hand() {
    let call = one_event();
    let tree = tree_bytes(7, &[Node::Event]);
    let sheet = [sheet_bytes(7, &[], &[same(999_999_999)]), vec![0xee]].concat();
    let mirrored = format!("mirrored\nstate 14 43\ntree 14 46..00 {}\nsheet 44 46..ee {}\n", sum(&tree), sum(&sheet));
    assert_eq!(mirror_call_text(&call), mirrored);
    let short = MirrorCall { tree_buffer: 0, sheet_buffer: 8, ..call.clone() };
    let refused = "refused 31 at 0\nstate 14 43\ntree -\nsheet eeeeeeeeeeeeeeee\n";
    assert_eq!(mirror_call_text(&short), refused);
    let state = State { tree_length: 16, sheet_length: u32::MAX as usize };
    let beyond = MirrorCall { state, tree_buffer: 1, sheet_buffer: 9, ..call.clone() };
    let changed = format!("refused 23 at 0\nstate 16 4294967295\ntree ee\nsheet 9 ee..ee {}\n", sum(&[0xeeu8; 9]));
    assert_eq!(mirror_call_text(&beyond), changed);
    let stream = write_mirror_stream(&[call, short, beyond]);
    assert_eq!(mirror_stream_text(&stream), Some(mirrored + refused + &changed));
}

#[test]
fn streams_that_are_none() {
    let stream = write_mirror_stream(&[one_event()]);
    assert_eq!(mirror_stream_text(&[]), Some(String::new()));
    for length in 1..stream.len() {
        assert_eq!(mirror_stream_text(&stream[..length]), None, "{length}");
    }
    let call = one_event();
    for call in [
        MirrorCall { tree_store: vec![0; 8_001], ..call.clone() },
        MirrorCall { sheet_store: vec![0; 18_001], ..call.clone() },
        MirrorCall { tree_buffer: 8_001, ..call.clone() },
        MirrorCall { sheet_buffer: 18_001, ..call },
    ] {
        assert_eq!(mirror_stream_text(&write_mirror_stream(&[call])), None);
    }
}

/// Each refusal is met at each of its places, and each but 31 with buffers that suffice too.
#[test]
fn every_answer() {
    let mut met: BTreeMap<String, Vec<[bool; 2]>> = BTreeMap::new();
    for call in mirror_list() {
        let text = mirror_call_text(&call);
        let suffices = [call.tree_buffer >= call.tree_store.len(), call.sheet_buffer >= call.sheet_store.len()];
        met.entry(text.lines().next().unwrap().to_string()).or_default().push(suffices);
    }
    let refused = [(21, 0), (22, 0), (23, 0), (23, 1), (24, 0), (31, 0)];
    assert_eq!(met.len(), refused.len() + 1);
    assert!(met["mirrored"].len() > 300);
    for (number, place) in refused {
        let buffers = &met[&format!("refused {number} at {place}")];
        assert!([[true, false], [false, true], [false, false]].iter().all(|short| buffers.contains(short)));
        assert_eq!(buffers.contains(&[true, true]), number != 31);
        assert!(buffers.len() > 20);
    }
}

/// The examples, the least files, the largest ones, and both within their room.
#[test]
fn every_size() {
    let list = mirror_list();
    let has = |tree: &[u8], sheet: &[u8]| list.iter().any(|call| call.tree_store == tree && call.sheet_store == sheet);
    for example in NAMES.map(|name| example(name).unwrap()) {
        assert!(has(&example.tree(), &example.sheet()));
    }
    for (tree, sheet) in [(14, 43), (7_175, 16_346), (7_175, 43), (14, 17_434), (8_000, 18_000)] {
        assert!(list.iter().any(|call| (call.tree_store.len(), call.sheet_store.len()) == (tree, sheet)));
    }
    let stream = write_mirror_stream(&list);
    assert!(stream.len() < 500_000 && mirror_stream_text(&stream).unwrap().len() < 500_000);
}
