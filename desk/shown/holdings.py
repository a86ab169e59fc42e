# What an accepted file holds, in one line.
from desk.text.fault_tree import AND, EVENT, OR
from desk.text.sheet import FRACTIONS, NUMBERS, OPINIONS


def tree_holds(tree):
    kinds = [node.kind for node in tree.nodes]
    counts = [counted(kinds.count(EVENT), "basic event"), f"{kinds.count(AND)} AND", f"{kinds.count(OR)} OR"]
    return (f"tree {tree.number}, {counted(len(kinds), 'node')}: {', '.join(counts)}; "
            f'the top event is "{tree.nodes[-1].name}"')


def sheet_holds(number, scores, entries):
    kinds = [entry.kind for entry in entries]
    parts = [f"{kinds.count(kind)} {word}" for kind, word in (
        (NUMBERS, "by four numbers"), (OPINIONS, "by opinions"), (FRACTIONS, "by fractions")) if kind in kinds]
    experts = f"; {counted(len(scores), 'expert')}"
    if scores:
        experts += f" of score {', '.join(map(str, scores))}"
    return f"a sheet for tree {number}, {counted(len(kinds), 'basic event')}: {', '.join(parts)}{experts}"


def book_holds(windows):
    if not windows:
        return "a book of no work windows"
    first, end = min(window[1] for window in windows), max(window[2] for window in windows)
    return f"a book of {counted(len(windows), 'work window')}, from hour {first} to hour {end}"


def counted(count, word):
    return f"{count} {word}" if count == 1 else f"{count} {word}s"
