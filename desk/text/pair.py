# A tree's text and its sheet's spreadsheet as one pair, by the names of the basic events.
import collections
import difflib

from desk.text.fault_tree import EVENT, arranged, first_mentions
from desk.text.faults import Fault, Faulty

Pair = collections.namedtuple("Pair", "tree entries")


def joined(tree_text, sheet_text, number, by_rows):
    """The tree, its events in the order of the sheet's rows or of their mention, and the entry of each event."""
    names = [row.name for row in sheet_text.rows]
    faults = []
    try:
        tree = arranged(tree_text, number, names if by_rows else ())
    except Faulty as faulty:
        faults += faulty.faults
    faults += unmatched(tree_text, sheet_text)
    if faults:
        raise Faulty(*faults)
    entries = {row.name: row.entry for row in sheet_text.rows}
    return Pair(tree, [entries[name] for name in tree.events()])


def unmatched(tree_text, sheet_text):
    """A fault for each event without a row, and for each row without an event."""
    gates = {statement.name for statement in tree_text.statements if statement.kind != EVENT}
    events = {name: place for name, place in first_mentions(tree_text).items() if name not in gates}
    rows = {row.name: row.place for row in sheet_text.rows}
    faults = [Fault(tree_text.file, place, f'the basic event "{name}" has no row in {sheet_text.file}',
                    f'add a row "{name}" to it{perhaps(name, set(rows) - set(events))}')
              for name, place in events.items() if name not in rows]
    for name, place in rows.items():
        if name in gates:
            faults.append(Fault(sheet_text.file, place, f'the row "{name}" is a gate of {tree_text.file}',
                                "take the row out: only basic events have rows"))
        elif name not in events:
            faults.append(Fault(sheet_text.file, place, f'the row "{name}" is no basic event of {tree_text.file}',
                                f"take the row out, or correct its name{perhaps(name, set(events) - set(rows))}"))
    return faults


def unknown_events(windows, file, tree_text, events):
    """A fault for each work window whose event the tree does not have."""
    return [Fault(file, window.place, f'the event "{window.event}" is no basic event of {tree_text.file}',
                  f"take the row out, or correct its name{perhaps(window.event, events)}")
            for window in windows if window.event not in events]


def perhaps(name, others):
    """The nearest of the other names, where one is near."""
    near = difflib.get_close_matches(name, sorted(others), 1, 0.75)
    return f' (perhaps "{near[0]}" is meant)' if near else ""
