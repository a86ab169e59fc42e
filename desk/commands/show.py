# A tree file, a sheet or a book as text again: Galileo or Open-PSA, and CSV.
from desk.asked import LoneBook, LoneFile
from desk.build import HOUR_LEVELS, LEVELS
from desk.child import Signals
from desk.commands.check import BOOK, SHEET, TREE, given, refusals
from desk.commands.told import WORDS, names_for
from desk.screen import Stop, print_text, say
from desk.text.book import book_text, held_book
from desk.text.fault_tree import EVENT, MOST_INPUTS, OR, FaultTree, Node, held_tree
from desk.text.galileo import galileo_text
from desk.text.open_psa import open_psa_text
from desk.text.sheet import Expert, held_sheet, sheet_text
from desk.words import options_apart

# No accepted tree has more basic events.
MOST_EVENTS = 960


def show(home, words):
    names, options = options_apart("show", words, {"--open-psa": None})
    if len(names) != 1:
        raise Stop(2, "nekbrod show takes one file; see nekbrod show --help")
    file = given(names[0])
    if "--open-psa" in options and file.what != TREE:
        raise Stop(2, f"--open-psa is for a tree file, and {file.name} is none; see nekbrod show --help")
    with Signals() as signals:
        [sentence] = refusals(home, *judge_of(file), signals)
    if sentence:
        say(sentence)
        return 1
    print_text(text_of(file, "--open-psa" in options).encode())
    return 0


def judge_of(file):
    """The printer that judges the file, and what is put to it."""
    if file.what == BOOK:
        return HOUR_LEVELS, [LoneBook(file.name, file.data, "", widest_tree().data())]
    return LEVELS, [LoneFile(*file)]


def widest_tree():
    """A tree of as many basic events as any accepted tree has: 960, under the fewest gates that can join them."""
    nodes = [Node(f"e{i}", EVENT, ()) for i in range(MOST_EVENTS)]
    open_nodes = list(range(MOST_EVENTS))
    while len(open_nodes) > 1:
        nodes.append(Node("", OR, tuple(open_nodes[:MOST_INPUTS])))
        open_nodes = open_nodes[MOST_INPUTS:] + [len(nodes) - 1]
    return FaultTree(0, nodes)


def text_of(file, as_open_psa):
    names = names_for(WORDS[file.what], file.name, file.data)
    if file.what == TREE:
        tree = held_tree(file.data, names.all_nodes() if names else None)
        return open_psa_text(tree) if as_open_psa else galileo_text(tree)
    if file.what == SHEET:
        _, scores, entries = held_sheet(file.data)
        events = names.events() if names else [f"e{i}" for i in range(len(entries))]
        experts = names.experts if names else [f"E{i + 1}" for i in range(len(scores))]
        return sheet_text([Expert(*both) for both in zip(experts, scores)], events, entries)
    events = names.events() if names else widest_tree().events()
    return book_text(events, held_book(file.data))
