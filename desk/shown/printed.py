# The printers' texts, read: for each level of the top event, or each node at a level, both ends with their marks.
import collections
import re

from desk.refusal import MOST_NODES, UNIT
from desk.screen import Stop

# An end in billionths, and whether it has the mark =.
End = collections.namedtuple("End", "value exact")
Level = collections.namedtuple("Level", "k lower upper")
# The tree's number, its count of basic events, the number n of levels, and the levels from n down to 0.
Levels = collections.namedtuple("Levels", "number events n levels")
# The tree's number, the level k of n, and for each node its lower and its upper end.
Nodes = collections.namedtuple("Nodes", "number k n ends")

MOST_LEVELS, LARGEST_TREE_NUMBER = 1000, 65535
NUMBER = rb"(0|[1-9][0-9]{0,9})"
LEVELS_HEADER = re.compile(b"tree " + NUMBER + b" events " + NUMBER + b" levels " + NUMBER)
NODES_HEADER = re.compile(b"tree " + NUMBER + b" events " + NUMBER + b" nodes " + NUMBER + b" level " + NUMBER
                          + b" of " + NUMBER)
LINE = re.compile(NUMBER + b" " + NUMBER + b" ([=~]) " + NUMBER + b" ([=~])")


def read_levels(text):
    """The levels of a level printer's text that begins with 'tree '."""
    (number, events, n), lines = header_and_lines("the level printer", LEVELS_HEADER, text)
    check_ranges("the level printer", number, 1 <= events <= MOST_NODES and 1 <= n <= MOST_LEVELS)
    ends = ends_of_lines("the level printer", lines, range(n, -1, -1))
    return Levels(number, events, n, [Level(k, *both) for k, both in zip(range(n, -1, -1), ends)])


def read_nodes(text):
    """The nodes of a node printer's text that begins with 'tree '."""
    (number, events, nodes, k, n), lines = header_and_lines("the node printer", NODES_HEADER, text)
    check_ranges("the node printer", number, 1 <= events <= nodes <= MOST_NODES and k <= n <= MOST_LEVELS and n > 0)
    return Nodes(number, k, n, ends_of_lines("the node printer", lines, range(nodes)))


def header_and_lines(title, form, text):
    """The header's numbers, and the lines after it."""
    header, *lines = text.split(b"\n")
    matched = form.fullmatch(header)
    if not matched:
        raise Stop(3, f"{title} gave a header of another form")
    if lines[-1:] != [b""]:
        raise Stop(3, f"{title} gave a last line without its end")
    return map(int, matched.groups()), lines[:-1]


def check_ranges(title, number, others_fit):
    if number > LARGEST_TREE_NUMBER or not others_fit:
        raise Stop(3, f"{title} gave a header with a number out of its range")


def ends_of_lines(title, lines, numbers):
    """Both ends of each line, which begin with these numbers."""
    if len(lines) != len(numbers):
        raise Stop(3, f"{title} gave {len(lines)} lines after its header, not {len(numbers)}")
    return [ends_of_line(title, line, number) for line, number in zip(lines, numbers)]


def ends_of_line(title, line, number):
    matched = LINE.fullmatch(line)
    if not matched or int(matched.group(1)) != number:
        raise Stop(3, f"{title} gave another line where that of {number} was due")
    lower, upper = int(matched.group(2)), int(matched.group(4))
    if not lower <= upper <= UNIT:
        raise Stop(3, f"{title} gave no interval of probabilities: '{line.decode()}'")
    return End(lower, matched.group(3) == b"="), End(upper, matched.group(5) == b"=")
