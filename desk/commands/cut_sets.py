# The minimal cut sets of a tree file, by the names of its events where there are names.
import sys

from desk.asked import MOST_SETS, TreeFile, sets_text
from desk.build import CUT_SETS, up_to_date
from desk.child import Signals
from desk.commands.told import names_for, refused
from desk.screen import Stop, is_terminal, print_text, say
from desk.words import options_apart


def cut_sets(home, words):
    others, given = options_apart("cut-sets", words, {"--numbers": None})
    if len(others) != 1:
        raise Stop(2, "nekbrod cut-sets takes a tree file alone; see nekbrod --help")
    tree_file = TreeFile(others[0])
    with Signals() as signals:
        with up_to_date(CUT_SETS, home, signals) as program:
            text, unlisted = sets_text(program, tree_file, signals)
        signals.check()
    if not text.startswith(b"tree "):
        print_text(text)
        return refused(home, tree_file, text)
    names = None if "--numbers" in given else names_for("tree", tree_file.name, tree_file.tree)
    print_text(named(text, names.events()) if names else text)
    if unlisted is not None:
        say(f"no set is listed: the tree has {unlisted} minimal cut sets, and at most {MOST_SETS} are listed")
        return 4
    if is_terminal(sys.stdout) and is_terminal(sys.stderr):
        say("each line is a minimal cut set: the basic events that fail the top event together")
    return 0


def named(text, events):
    """The lines of sets with each event's name in quotes in place of its number."""
    header, *sets = text.decode().splitlines()
    lines = [" ".join(f'"{events[int(number)]}"' for number in line.split()) for line in sets]
    return "".join(line + "\n" for line in [header, *lines]).encode()
