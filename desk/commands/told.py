# What the words of the command share: a refusal and faults in words, and the names beside a file.
from desk.refusal import explain
from desk.screen import say
from desk.shown.holdings import counted
from desk.text.names import names_beside

# The words of the names file for each kind of file.
WORDS = {"tree file": "tree", "opinion sheet": "sheet", "book": "book"}

# Of more faults than these the number is told.
MOST_FAULTS = 20


def refused(home, asked, text):
    """Says which rule is broken and what stands there; the exit status."""
    for line in explain(home, asked, text):
        say(line)
    return 1


def faulty(faults):
    """Says what is wrong with texts, and what can be done; the exit status."""
    for fault in faults[:MOST_FAULTS]:
        say(fault.sentence())
    if len(faults) > MOST_FAULTS:
        say(f"and {counted(len(faults) - MOST_FAULTS, 'fault')} more")
    return 1


def names_for(what, name, data):
    """The names for a tree, a sheet or a book, or None; where those beside it are not for it, a line says so."""
    names, why_not = names_beside(what, name, data)
    if why_not:
        say(f"{why_not}: numbers stand in their place")
    return names
