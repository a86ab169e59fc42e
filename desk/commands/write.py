# A tree's text and its sheet's spreadsheet, and a book's where there is one, as files for the monitor, with names.
import os

from desk.asked import read_file, read_number
from desk.child import Signals
from desk.commands.told import faulty
from desk.new_files import check_folder, write_all
from desk.screen import Stop
from desk.shown.holdings import book_holds, counted, sheet_holds, tree_holds
from desk.text.book import book_data, held_book, read_book
from desk.text.fault_tree import LARGEST_NUMBER
from desk.text.faults import Faulty
from desk.text.names import NAMES_FILE, names_of
from desk.text.pair import joined, unknown_events
from desk.text.sheet import read_sheet, sheet_data
from desk.text.source import read_tree_text
from desk.words import options_apart

OPTIONS = {"-o": "FOLDER", "--number": "N", "--order": "rows or mention"}
ORDERS = {"rows": True, "mention": False}

# The files that are written, by their words in the names file.
FILES = {"tree": ("tree file", "tree.ftf"), "sheet": ("opinion sheet", "sheet.fts"), "book": ("book", "windows.ftw")}

# A text of the largest tree or sheet is far shorter, unless its names are very long.
LONGEST_TEXT = 1 << 20


def write(_, words):
    names, given = options_apart("write", words, OPTIONS)
    if len(names) not in (2, 3) or "-o" not in given:
        raise Stop(2, "nekbrod write takes a tree's text, a sheet's spreadsheet, at most one of a book, and -o FOLDER; "
                   "see nekbrod write --help")
    if names[0].lower().endswith(".csv") and not names[1].lower().endswith(".csv"):
        raise Stop(2, f"the tree's text comes first, and {names[0]} is a spreadsheet; see nekbrod write --help")
    number = read_number("tree's number", given["--number"], LARGEST_NUMBER) if "--number" in given else None
    order = given.get("--order", "rows")
    if order not in ORDERS:
        raise Stop(2, f"the order of the basic events is rows or mention, not '{order}'; see nekbrod write --help")
    words = list(FILES)[:len(names)]
    check_folder(given["-o"], [FILES[word] for word in words] + [("names file", NAMES_FILE)])
    try:
        data, lines = made_of(names, number, ORDERS[order])
    except Faulty as fault:
        return faulty(fault.faults)
    return write_files(given["-o"], data, lines)


def write_files(folder, data, lines):
    whats = [what for what, _ in FILES.values()][:len(data) - 1] + ["names file"]
    paths = [os.path.join(folder, name) for name in data]
    with Signals() as signals:
        files = zip(whats, paths, data.values())
        return write_all(files, [f"wrote {path}: {line}" for path, line in zip(paths, lines)], signals, folder)


def made_of(names, number, by_rows):
    """The bytes of each file by its name in the folder, and what each holds."""
    readers = (read_tree_text, "tree's text"), (read_sheet, "spreadsheet"), (read_book, "book's spreadsheet")
    tree_text, sheet_text, *books = read_all([
        (reader, name, read_file(what, name, LONGEST_TEXT)) for (reader, what), name in zip(readers, names)])
    said = tree_text.number if number is None else number
    tree, entries = joined(tree_text, sheet_text, said, by_rows)
    scores = [expert.score for expert in sheet_text.experts]
    data = {"tree": tree.data(), "sheet": sheet_data(tree.number, scores, entries)}
    lines = [tree_holds(tree), sheet_holds(tree.number, scores, entries)]
    for windows in books:
        faults = unknown_events(windows, names[2], tree_text, tree.events())
        if faults:
            raise Faulty(*faults)
        data["book"] = book_data(windows, tree.events())
        lines.append(book_holds(held_book(data["book"])))
    known = names_of(tree, sheet_text.experts, data)
    files = {FILES[word][1]: value for word, value in data.items()}
    return {**files, NAMES_FILE: known.text().encode()}, lines + [names_hold(known)]


def read_all(reads):
    """What each reader makes of its text, or the faults of all texts together."""
    read, faults = [], []
    for reader, *text in reads:
        try:
            read.append(reader(*text))
        except Faulty as fault:
            faults += fault.faults
    if faults:
        raise Faulty(*faults)
    return read


def names_hold(names):
    experts = f" and of {counted(len(names.experts), 'expert')}" if names.experts else ""
    return f"the names of {counted(len(names.nodes), 'node')}{experts}"
