# Whether files are accepted: the refusal of each as a sentence, or what it holds in a line.
import collections

from desk.asked import LoneBook, LoneFile, Pair, printed_text, read_file
from desk.build import HOUR_LEVELS, LEVELS, up_to_date
from desk.child import Signals
from desk.commands.together import check_together
from desk.commands.told import names_for
from desk.refusal import explain
from desk.screen import Stop, print_text
from desk.shown.holdings import book_holds, sheet_holds, tree_holds
from desk.text.book import held_book
from desk.text.fault_tree import held_tree
from desk.text.sheet import held_sheet
from desk.words import options_apart

# A file's kind by its first letters, and where it has none of these, by the end of its name.
TREE, SHEET, BOOK = "tree file", "opinion sheet", "book"
LETTERS = {b"FTF": TREE, b"FTS": SHEET}
ENDINGS = {".ftf": TREE, ".fts": SHEET, ".ftw": BOOK}

Given = collections.namedtuple("Given", "what name data")


def check(home, words):
    names, _ = options_apart("check", words, {})
    if not names:
        raise Stop(2, "nekbrod check takes a file or several; see nekbrod check --help")
    files = [given(name) for name in names]
    trees, sheets, books = ([file for file in files if file.what == what] for what in (TREE, SHEET, BOOK))
    if books and len(trees) != 1:
        raise Stop(2, f"the book {books[0].name} is judged with its tree: name one tree file beside it")
    with Signals() as signals:
        refused = refusals(home, LEVELS, [LoneFile(*file) for file in trees + sheets], signals)
        if books and refused[0]:
            refused += [f"{book.name}: not judged, since its tree file is refused" for book in books]
        else:
            refused += refusals(home, HOUR_LEVELS, [LoneBook(*book[1:], *trees[0][1:]) for book in books], signals)
        if len(trees) == len(sheets) == 1 and not any(refused[:2]):
            refused += refusals(home, LEVELS, [Pair(trees[0].name, sheets[0].name, "1")], signals)
    told = list(zip(trees + sheets + books, refused))
    lines = [sentence or f"{file.name}: {holds(file)}" for file, sentence in in_order(files, told)]
    lines += [sentence for sentence in refused[len(files):] if sentence]
    print_text("".join(line + "\n" for line in lines).encode("utf-8", "surrogateescape"))
    if any(refused):
        return 1
    if len(trees) == 1:
        check_together([*trees, *(sheets if len(sheets) == 1 else []), *books])
    return 0


def in_order(files, told):
    """What is told of each file, in the order of the files; one that is named twice is told twice."""
    return sorted(told, key=lambda each: files.index(each[0]))


def given(name):
    """A file with its kind."""
    data = read_file("file", name)
    what = LETTERS.get(data[:3]) or ENDINGS.get(name[-4:].lower())
    if what is None:
        raise Stop(2, f"{name} is no tree file, opinion sheet or book: it begins with neither FTF nor FTS, and its "
                   "name does not end in .ftf, .fts or .ftw (nekbrod write says what is wrong with a text)")
    return Given(what, name, data)


def refusals(home, printer, asked, signals):
    """For each of these the sentence of its refusal, or '' where it is accepted."""
    if not asked:
        return []
    with up_to_date(printer, home, signals) as program:
        texts = [printed_text(printer.title, "levels", program, one, signals) for one in asked]
    signals.check()
    return [refusal(home, one, text) for one, text in zip(asked, texts)]


def refusal(home, asked, text):
    """That a file does not belong to the one that stands in for its other is no refusal of its own."""
    if text.startswith(b"tree ") or (isinstance(asked, LoneFile) and text == b"refused 24 at 0\n"):
        return ""
    return explain(home, asked, text)[0]


def holds(file):
    """What an accepted file holds."""
    if file.what == BOOK:
        return book_holds(held_book(file.data))
    if file.what == SHEET:
        return sheet_holds(*held_sheet(file.data))
    names = names_for("tree", file.name, file.data)
    return tree_holds(held_tree(file.data, names.all_nodes() if names else None))
