//! The four examples are accepted, have the numbers of their sources, and are what the folder examples/ holds.

use crate::desk::{exact, holding, unmarked};
use reference::cases::trees::count_events;
use reference::describe::Node;
use reference::end::End;
use reference::examples::{example, Example, NAMES};
use reference::hours::{hour_input, print_hours};
use reference::levels::{print_levels, printer_input};
use reference::work_windows::{Plan, Window};
use std::fs;
use std::path::PathBuf;

fn folder(name: &str) -> PathBuf {
    [env!("CARGO_MANIFEST_DIR"), "..", "examples", name].iter().collect()
}

fn levels_text(example: &Example, n: u16) -> String {
    print_levels(&printer_input(n, &example.tree(), &example.sheet()))
}

fn hour_text(example: &Example, n: u16, hour: u32) -> String {
    let book = example.book();
    print_hours(&hour_input(n, &example.tree(), &example.sheet(), Plan { book: &book, hour }))
}

#[test]
fn files_are_the_examples() {
    for name in NAMES {
        let example = example(name).unwrap();
        assert_eq!(fs::read(folder(name).join("tree.ftf")).unwrap(), example.tree(), "{name}");
        assert_eq!(fs::read(folder(name).join("sheet.fts")).unwrap(), example.sheet(), "{name}");
        let book = Some(example.book()).filter(|book| !book.is_empty());
        assert_eq!(fs::read(folder(name).join("windows.ftw")).ok(), book, "{name}");
    }
}

/// Each file levels-N.txt of an example is what is printed for N levels, and each example has one; levels-N-at-H.txt is
/// what is printed at hour H with its book.
#[test]
fn expected_levels_are_printed() {
    for name in NAMES {
        let mut found = 0;
        for file in fs::read_dir(folder(name)).unwrap() {
            let path = file.unwrap().path();
            let stem = path.file_name().unwrap().to_str().unwrap().to_string();
            let Some(n) = stem.strip_prefix("levels-").and_then(|rest| rest.strip_suffix(".txt")) else { continue };
            let example = example(name).unwrap();
            let text = match n.split_once("-at-") {
                Some((n, hour)) => hour_text(&example, n.parse().unwrap(), hour.parse().unwrap()),
                None => levels_text(&example, n.parse().unwrap()),
            };
            assert_eq!(fs::read_to_string(&path).unwrap(), text, "{}", path.display());
            found += 1;
        }
        assert!(found > 0, "{name}");
    }
}

/// A row of the table of nodes in an ORIGIN text, as far as the tree decides it.
fn node_row(nodes: &[Node], place: usize) -> String {
    let inputs = nodes[place].inputs().iter().map(u16::to_string).collect::<Vec<_>>().join(", ");
    match nodes[place] {
        Node::Event => format!("| {place} | event {} | ", count_events(&nodes[..place])),
        Node::And(_) => format!("| {place} | AND of {inputs} | "),
        Node::Or(_) => format!("| {place} | OR of {inputs} | "),
    }
}

#[test]
fn origins_tell_the_tree() {
    for name in NAMES {
        let text = fs::read_to_string(folder(name).join("ORIGIN.md")).unwrap();
        let Example { number, nodes, .. } = example(name).unwrap();
        assert!(text.contains(&format!("\nTree number {number}.\n")), "{name}");
        let mut rows = text.lines().skip_while(|line| !line.starts_with("| node |")).skip(2);
        for place in 0..nodes.len() {
            let row = rows.next().unwrap();
            assert!(row.starts_with(&node_row(&nodes, place)), "{name}: {row}");
        }
        assert_eq!(rows.next(), Some(""), "{name}");
    }
}

#[test]
fn all_are_answered() {
    for name in NAMES {
        let example = example(name).unwrap();
        let text = levels_text(&example, 100);
        assert_eq!(text.lines().count(), 102, "{name}: {text}");
    }
}

#[test]
fn road_trip_is_p8() {
    let example = example("road_trip").unwrap();
    let text = levels_text(&example, 1);
    assert_eq!(text, "tree 1 events 3 levels 1\n1 368000000 = 368000000 =\n0 368000000 = 368000000 =\n");
}

/// Source 004, section 7: six events, four gates; e1 is 0.1, from 0.02 to 0.18.
#[test]
fn container_seal_has_six_events_and_four_gates() {
    let example = example("container_seal").unwrap();
    assert_eq!((count_events(&example.nodes), example.nodes.len()), (6, 10));
    let first = holding(&example.nodes[..1], &[], &example.entries[..1]).answer(0, 1).unwrap();
    assert_eq!((first.lower, first.upper), (exact(20_000_000), exact(180_000_000)));
}

/// Pump 1's opinions are P11 and P12 of document 01.
#[test]
fn fuel_supply_has_p11() {
    let example = example("fuel_supply").unwrap();
    let pump = holding(&example.nodes[..1], &example.scores, &example.entries[..1]);
    let bottom = pump.answer(0, 2).unwrap();
    let top = pump.answer(2, 2).unwrap();
    assert_eq!((bottom.lower.units, bottom.upper.units), (624_838_709, 818_387_097));
    assert_eq!((top.lower.units, top.upper.units), (723_548_387, 723_548_388));
}

/// An event alone at level 0 and at the highest: its lower and upper end at each.
fn event_ends(example: &Example, event: usize) -> [End; 4] {
    let desk = holding(&[Node::Event], &example.scores, &example.entries[event..=event]);
    let (bottom, top) = (desk.answer(0, 1).unwrap(), desk.answer(1, 1).unwrap());
    [bottom.lower, bottom.upper, top.lower, top.upper]
}

/// By hand: 1, 3 and 6 of 1,250 are 0.0008, 0.0024 and 0.0048; 1, 2 and 5 of 730 are 0.00136986301.., 0.00273972602..
/// and 0.00684931506..; opinions of 10 and 5 Low and 7 Very Low have 341 / 22 = 15.5 hundredths as d; those of 10 Low,
/// 7 Fairly Low and 5 silent have 189, 319, 319 + 500 and 449 + 500 of 2,200.
#[test]
fn cooling_pumps_has_makers_figures_beside_opinions() {
    let example = example("cooling_pumps").unwrap();
    let pump = event_ends(&example, 1);
    assert_eq!(pump, [exact(800_000), exact(4_800_000), exact(2_400_000), exact(2_400_000)]);
    let valve = event_ends(&example, 2);
    assert_eq!(valve, [1_369_863, 6_849_316, 2_739_726, 2_739_727].map(unmarked));
    assert_eq!(event_ends(&example, 0)[1], exact(155_000_000));
    let crew = [unmarked(85_909_090), unmarked(431_363_637), exact(145_000_000), unmarked(372_272_728)];
    assert_eq!(event_ends(&example, 3), crew);
    assert_eq!(event_ends(&example, 5)[0], exact(50_000));
}

/// A row of the table of windows in an ORIGIN text.
fn window_row(window: &Window) -> String {
    let Window { event, first, end } = window;
    format!("| {event} | {} | {} | ", with_commas(*first), with_commas(*end))
}

fn with_commas(hour: u32) -> String {
    format!("{},{:03}", hour / 1_000, hour % 1_000)
}

#[test]
fn origins_tell_the_windows() {
    for name in NAMES {
        let text = fs::read_to_string(folder(name).join("ORIGIN.md")).unwrap();
        let rows: Vec<&str> = text.lines().skip_while(|line| !line.starts_with("| event | first")).skip(2).collect();
        let windows = example(name).unwrap().windows;
        for (window, row) in windows.iter().zip(&rows) {
            assert!(row.starts_with(&window_row(window)), "{name}: {row}");
        }
        assert!(rows.is_empty() == windows.is_empty() && rows.get(windows.len()).is_none_or(|row| row.is_empty()));
    }
}

/// Before and after each edge of the plan: the main pump, both, the valve, none; then the standby pump.
#[test]
fn cooling_pumps_has_an_overlap() {
    let example = example("cooling_pumps").unwrap();
    let plain = levels_text(&example, 2);
    let text = |hour| hour_text(&example, 2, hour);
    let stretches = [[43_832, 43_839], [43_840, 43_843], [43_844, 43_847], [43_880, 43_885]];
    for [first, last] in stretches {
        assert_eq!(text(first), text(last));
        assert!(text(first) != plain && text(first - 1) != text(first) && text(last + 1) != text(last), "{first}");
    }
    for hour in [0, 43_831, 43_848, 43_879, 43_886, u32::MAX] {
        assert_eq!(text(hour), plain);
    }
}
