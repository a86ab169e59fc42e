# All levels of the top event: as the level printer has them, as a table on a terminal, or as CSV.
import os
import sys

from desk.asked import HourPair, Pair, printed_text
from desk.build import HOUR_LEVELS, LEVELS, up_to_date
from desk.child import Signals
from desk.commands.together import check_together
from desk.commands.told import names_for, refused
from desk.screen import Stop, is_terminal, print_text
from desk.shown.holdings import counted
from desk.shown.printed import read_levels
from desk.shown.tables import levels_csv, levels_table

# The options of a question at an hour, with their words, and that of CSV, which has none.
HOUR_OPTIONS = {"--windows": "BOOK", "--hour": "H"}
OPTIONS = {**HOUR_OPTIONS, "--csv": None}

SEE = "see nekbrod --help"
MISPLACED = f"the options --csv, --windows BOOK and --hour H stand right after the word levels; {SEE}"


def levels(home, words):
    asked, as_csv = asked_of(words)
    text = answer(home, asked)
    if not text.startswith(b"tree "):
        print_text(text)
        return refused(home, asked, text)
    check_together(asked.files())
    if as_csv:
        text = levels_csv(read_answer(text, asked)).encode()
    elif is_terminal(sys.stdout):
        text = table_of(read_answer(text, asked), asked).encode()
    print_text(text)
    return 0


def read_answer(text, asked):
    """The levels that were asked for."""
    printed = read_levels(text)
    if (printed.number, printed.n) != (int.from_bytes(asked.tree[5:7], "little"), asked.levels):
        raise Stop(3, f"{printer_for(asked).title} answered another question")
    return printed


def table_of(printed, asked):
    tree = f"tree {printed.number}, {counted(printed.events, 'basic event')}"
    return levels_table(printed, f"{tree}: {title_of(asked)}")


def asked_of(words):
    """The pair, at an hour or not, and whether CSV is wanted."""
    as_csv = words[-1:] == ["--csv"] and len(words) > 3
    if as_csv:
        words = words[:-1]
    if len(words) == 3 and (words[0] not in OPTIONS or os.path.exists(words[0])):
        return Pair(*words), as_csv
    given, words = options_first(words)
    if "--csv" in given and as_csv:
        raise Stop(2, f"--csv is given twice; {SEE}")
    return pair_at(given, words), as_csv or "--csv" in given


def pair_at(given, words):
    """The pair of the last three words, at the hour that the options give, or at none."""
    if not any(option in given for option in HOUR_OPTIONS):
        if any(word in OPTIONS for word in words):
            raise Stop(2, MISPLACED)
        if len(words) != 3:
            raise Stop(2, f"nekbrod takes a tree file, an opinion sheet and a number of levels, or nothing; {SEE}")
        return Pair(*words)
    for option in HOUR_OPTIONS:
        if option not in given:
            raise Stop(2, f"--windows BOOK and --hour H go together, and {option} is missing; {SEE}")
    if len(words) != 3:
        raise Stop(2, "after --windows BOOK and --hour H come a tree file, an opinion sheet and a number of levels; "
                   + SEE)
    return HourPair(*map(given.get, HOUR_OPTIONS), *words)


def options_first(words):
    """The options before the last three words, and the words after them."""
    given = {}
    # Three words after an option are no options, whatever the files are called.
    while words and words[0] in OPTIONS and not (given and len(words) == 3):
        option, words = words[0], words[1:]
        if option in given:
            raise Stop(2, f"{option} is given twice; {SEE}")
        if OPTIONS[option] is None:
            given[option] = True
            continue
        if not words:
            raise Stop(2, f"{option} takes a word, {OPTIONS[option]}, and there is none; {SEE}")
        given[option], words = words[0], words[1:]
    return given, words


def printer_for(asked):
    return LEVELS if asked.hour is None else HOUR_LEVELS


def answer(home, asked):
    """The printer's text for a pair, at an hour or at none."""
    printer = printer_for(asked)
    with Signals() as signals:
        with up_to_date(printer, home, signals) as program:
            text = printed_text(printer.title, "levels", program, asked, signals)
        signals.check()
    return text


def title_of(asked):
    """What the levels are of: the top event by its name, where it has one."""
    names = names_for("tree", asked.tree_name, asked.tree)
    top = names.all_nodes()[-1] if names else "top event"
    return top if asked.hour is None else f"{top}, at hour {asked.hour}"
