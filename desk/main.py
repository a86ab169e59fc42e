# The command's words, and what is done for each.
import os
import signal

from desk import help as help_texts
from desk.commands.check import check
from desk.commands.cut_sets import cut_sets
from desk.commands.levels import MISPLACED, OPTIONS, levels
from desk.commands.mirror import mirror
from desk.commands.nodes import nodes
from desk.commands.plot import plot
from desk.commands.show import show
from desk.commands.write import write
from desk.screen import Stop, print_text, say

EXAMPLE = ("examples/fuel_supply/tree.ftf", "examples/fuel_supply/sheet.fts", "10")

COMMANDS = {"levels": levels, "nodes": nodes, "plot": plot, "cut-sets": cut_sets, "mirror": mirror, "write": write,
            "show": show, "check": check}


def main(home, words):
    # A reader that has gone ends the command without a word, as it ends any program.
    signal.signal(signal.SIGPIPE, signal.SIG_DFL)
    try:
        return run(home, words)
    except Stop as stop:
        say(stop.why)
        return stop.status
    except OSError as error:
        say(error)
        return 3


def run(home, words):
    if words[-1:] in (["--help"], ["-h"]) and (len(words) == 1 or len(words) == 2 and words[0] in COMMANDS):
        print_text(help_texts.WORDS.get(words[0], help_texts.COMMAND).encode())
        return 0
    if words == ["--version"]:
        print_text(f"nekbrod {version(home)}\n".encode())
        return 0
    if not words:
        say("examples/fuel_supply with 10 levels (./nekbrod TREE SHEET LEVELS for your own; ./nekbrod --help)")
        tree, sheet, n = EXAMPLE
        return levels(home, [os.path.join(home, tree), os.path.join(home, sheet), n])
    if len(words) == 3 and (words[0] not in (*COMMANDS, *OPTIONS) or is_pair(words)):
        return levels(home, words)
    if words[0] in COMMANDS:
        return COMMANDS[words[0]](home, words[1:])
    if any(word in OPTIONS for word in words):
        raise Stop(2, MISPLACED)
    raise Stop(2, "nekbrod takes a tree file, an opinion sheet and a number of levels, or nothing; see nekbrod --help")


def is_pair(words):
    """Whether they are two files and a number, whatever the first file is called."""
    return os.path.exists(words[0]) and words[2].isdigit()


def version(home):
    try:
        with open(os.path.join(home, "VERSION"), encoding="utf-8") as file:
            return file.read().strip()
    except OSError as error:
        raise Stop(3, f"the version is not known: {error}") from None
