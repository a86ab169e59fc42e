//! The stored calls, as bytes and as text.

use reference::calls::{Call, Desk, Form};
use reference::cases::vector_list::{parse_family, vector_list, FAMILIES};
use reference::cut::Level;
use reference::describe::{book_bytes, same, sheet_bytes, tree_bytes, Node};
use reference::monitor::State;
use reference::vectors::{read_stream, stream_text, write_stream};
use reference::work_windows::Window;

fn every_kind() -> Vec<Call> {
    vec![
        Call::Stores(16, 43),
        Call::PokeTree(15, 7),
        Call::PokeSheet(42, 8),
        Call::Tree(tree_bytes(7, &[Node::Event])),
        Call::Sheet(sheet_bytes(7, &[], &[same(5)])),
        Call::Judge(Level { k: 1, n: 2 }),
        Call::Question(Level { k: 1, n: 2 }, [1, 8, 17]),
        Call::Count,
        Call::CutSets(0),
        Call::CutSets(4_096),
        Call::Book(book_bytes(&[Window { event: 0, first: 5, end: 6 }])),
        Call::Hour(5, 45),
        Call::HourQuestion(Level { k: 1, n: 2 }, [1, 8, 17]),
        Call::Hour(6, 42),
        Call::HourQuestion(Level { k: 1, n: 2 }, [1, 8, 17]),
        Call::Held(State { tree_length: 3, sheet_length: 4 }),
        Call::Drop,
    ]
}

#[test]
fn bytes_and_back() {
    let calls = every_kind();
    assert_eq!(read_stream(&write_stream(&calls)), Some(calls));
    for (name, family) in FAMILIES {
        let list = vector_list(family);
        assert_eq!(read_stream(&write_stream(&list)), Some(list), "{name}");
    }
}

/// No stored file has more bytes: rt takes so many of a program at most.
const MOST_STORED: usize = 1 << 20;

#[test]
fn every_family() {
    for (name, family) in FAMILIES {
        assert_eq!(parse_family(name), Some(family));
        let stream = write_stream(&vector_list(family));
        let text = stream_text(&stream).unwrap();
        assert!(!text.is_empty() && stream.len() <= MOST_STORED && text.len() <= MOST_STORED, "{name}");
    }
    assert_eq!(parse_family("vectors"), None);
}

#[test]
fn short_text() {
    let (tree, sheet) = (tree_bytes(7, &[Node::Event]), sheet_bytes(7, &[], &[same(5)]));
    let tree_store = [tree, vec![0xee, 7]].concat();
    let tree = format!("tree 16 46..07 {}\n", sum(&tree_store));
    let filled = [vec![0xeeu8; 42], vec![8]].concat();
    let before = format!("sheet 43 ee..08 {}\n", sum(&filled));
    let held = format!("sheet 43 46..00 {}\n", sum(&sheet));
    let marks = [vec![3], vec![238u8; 16]].concat();
    let stores = sum(&[14, 43, sum(&tree_store), sum(&sheet)]);
    let written = [&sheet_bytes(7, &[], &[same(1_000_000_000)])[..], &[0xee; 2]].concat();
    let upper = |first: u64| sum(&[&[first][..], &[4_000_000_002; 7]].concat());
    let answered = sum(&[sum(&written), 1_000_000_000, upper(1_000_000_000), sum(&marks)]);
    let refused = sum(&[sum(&[0xeeu8; 42]), 4_000_000_001, upper(4_000_000_002), sum(&[238u8; 17])]);
    let expected = [
        format!("accepted\nstate 14 0\n{tree}{before}"),
        format!("accepted\nstate 14 43\n{tree}{held}"),
        format!("nodes 1 events 1\nstate 14 43\n{tree}{held}"),
        format!("lower 5 = upper 5 = events 1\nstate 14 43\n{tree}{held}"),
        format!("lower 5\nupper 5{}\n", " 4000000002".repeat(7)),
        format!("marks 17 3..238 {}\n", sum(&marks)),
        format!("cut sets 1\nstate 14 43\n{tree}{held}"),
        format!("refused 27 at 0\nstate 14 43\n{tree}{held}sets 0 0 0 left 0\n"),
        format!("cut sets 1\nstate 14 43\n{tree}{held}sets 4096 1 1 left 4095\n"),
        format!("lower 1000000000 = upper 1000000000 = events 1\nafter {stores} {answered}\n"),
        format!("refused 30 at 0\nafter {stores} {refused}\n"),
        format!("dropped\nstate 0 0\n{tree}{held}"),
    ];
    assert_eq!(stream_text(&write_stream(&every_kind())), Some(expected.concat()));
}

/// The checksum by its definition: digits in base 257, modulo a prime.
pub fn sum<T: Copy + Into<u64>>(places: &[T]) -> u64 {
    let prime = 4_294_967_291;
    let mut power = 1;
    let mut total = 0;
    for &place in places.iter().rev() {
        total = (total + power * place.into()) % prime;
        power = power * 257 % prime;
    }
    total
}

#[test]
fn streams_that_are_none() {
    let stream = write_stream(&every_kind());
    assert_eq!(stream_text(&stream[..stream.len() - 1]), None);
    for calls in [
        vec![Call::Stores(7_201, 0)],
        vec![Call::Stores(0, 17_501)],
        vec![Call::PokeTree(0, 0)],
        vec![Call::Question(Level { k: 1, n: 2 }, [0, 0, 1_101])],
        vec![Call::CutSets(4_097)],
        vec![Call::Book(vec![0; 2_601])],
        vec![Call::Hour(0, 17_501)],
        vec![Call::HourQuestion(Level { k: 1, n: 2 }, [0, 1_101, 0])],
    ] {
        assert_eq!(stream_text(&write_stream(&calls)), None, "{calls:?}");
    }
}

fn text_of(calls: &[Call]) -> String {
    let mut desk = Desk::new(Form::Short);
    calls.iter().map(|call| desk.run(call).unwrap()).collect()
}

/// Each refusal is met, and so is every kind of answer.
#[test]
fn every_answer() {
    let text = FAMILIES.map(|(_, family)| text_of(&vector_list(family))).concat();
    for number in (1..=13).chain(20..=30) {
        assert!(text.contains(&format!("refused {number} at ")), "{number}");
    }
    let answers = ["\naccepted\n", "\ndropped\n", "\nnodes 5 events 3\n", "\nrefused 23 at 1\n"];
    for answer in answers.into_iter().chain(["\ncut sets 1\n", "\ncut sets 4294967296\n", "\ncut sets 13947137604\n"]) {
        assert!(text.contains(answer), "{answer:?}");
    }
    let thirds = "\nlower 333333333 ~ upper 333333334 ~ events 1\n";
    for answer in ["\nlower 2400000 = upper 2400000 = events 1\n", thirds, "\nrefused 28 at 17417\n"] {
        assert!(text.contains(answer), "{answer:?}");
    }
    let beside_silence =
        ["\nlower 46666666 ~ upper 460000000 = events 1\n", "\nlower 86666666 ~ upper 420000000 = events 1\n"];
    for answer in beside_silence {
        assert!(text.contains(answer), "{answer:?}");
    }
    for place in [0, 1, 6, 9, 10, 11, 16, 2_550, 2_556, 2_559, 2_561, 2_570] {
        assert!(text.contains(&format!("\nrefused 29 at {place}\nafter ")), "{place}");
    }
}
