#!/usr/bin/env -S python3 -B
"""Tries the reader of the level printer's text, the tables and CSV, and the picture.

    tests/pictures.py [SEED [COUNT]]      a seed from the clock and 2,000 broken texts, unless said

A picture is read back: each corner of its staircase, each dot and each tick is held to the levels.
"""

import decimal
import math
import os
import random
import re
import sys
import time
import xml.etree.ElementTree as ElementTree

from counted import equal, finish, hold

ROOT = os.path.dirname(os.path.dirname(os.path.realpath(__file__)))
sys.path.insert(0, ROOT)
sys.dont_write_bytecode = True

from desk.shown.printed import End, Level, Levels, Nodes, read_levels, read_nodes  # noqa: E402
from desk.shown.plot import picture  # noqa: E402
from desk.screen import Stop  # noqa: E402
from desk.shown.tables import Shown, levels_csv, levels_table, nodes_csv, nodes_table, probability  # noqa: E402

UNIT = 1000000000
LEFT, RIGHT, TOP, BOTTOM = 76.0, 670.0, 94.0, 372.0
SVG = "{http://www.w3.org/2000/svg}"
MARKS_LINE = "= is an exact end; ~ is an end rounded outward, to the safe side of the exact one\n"


def some_levels(*intervals, exact=(), number=3, events=7):
    """Levels from intervals, that of level n first; an exact end is a level and 0 for lower or 1 for upper."""
    n = len(intervals) - 1
    rows = [Level(k, End(lower, (k, 0) in exact), End(upper, (k, 1) in exact))
            for k, (lower, upper) in zip(range(n, -1, -1), intervals)]
    return Levels(number, events, n, rows)


def printed(levels):
    """What the level printer prints for them."""
    lines = [f"tree {levels.number} events {levels.events} levels {levels.n}"]
    for k, lower, upper in levels.levels:
        lines.append(f"{k} {lower.value} {'=' if lower.exact else '~'} {upper.value} {'=' if upper.exact else '~'}")
    return ("\n".join(lines) + "\n").encode()


# Texts of another form, and what is said of each.
GOOD = b"tree 3 events 7 levels 2\n2 300 = 300 ~\n1 250 ~ 350 =\n0 0 ~ 1000000000 =\n"
HEADER_FORM = "a header of another form"
RANGE = "a header with a number out of its range"
LINE_FORM = "another line where that of {} was due"
WRONG_TEXTS = [
    (b"tree \n", HEADER_FORM),
    (b"tree 3 events 7\n", HEADER_FORM),
    (GOOD.replace(b"tree 3", b"tree 03"), HEADER_FORM),
    (GOOD.replace(b"tree 3", b"tree -3"), HEADER_FORM),
    (GOOD.replace(b"events 7", b"events  7"), HEADER_FORM),
    (GOOD.replace(b"levels 2", b"levels 2 "), HEADER_FORM),
    (GOOD.replace(b"levels 2\n", b"levels 2\r\n"), HEADER_FORM),
    (GOOD.replace(b"levels 2", b"cut sets 2"), HEADER_FORM),
    (GOOD.replace(b"tree 3", b"tree \xd9\xa3"), HEADER_FORM),
    (GOOD.replace(b"tree 3", b"tree 65536"), RANGE),
    (GOOD.replace(b"events 7", b"events 0"), RANGE),
    (GOOD.replace(b"events 7", b"events 1025"), RANGE),
    (b"tree 3 events 7 levels 0\n0 1 = 1 =\n", RANGE),
    (GOOD.replace(b"levels 2", b"levels 1001"), RANGE),
    (b"tree 3 events 7 levels 2", "a last line without its end"),
    (GOOD[:-1], "a last line without its end"),
    (GOOD[:-30], "a last line without its end"),
    (b"tree 3 events 7 levels 2\n", "0 lines after its header, not 3"),
    (GOOD.replace(b"1 250 ~ 350 =\n", b""), "2 lines after its header, not 3"),
    (GOOD + b"0 0 ~ 1000000000 =\n", "4 lines after its header, not 3"),
    (GOOD + b"\n", "4 lines after its header, not 3"),
    (GOOD.replace(b"2 300 =", b"1 300 ="), LINE_FORM.format(2)),
    (GOOD.replace(b"1 250 ~", b"0 250 ~"), LINE_FORM.format(1)),
    (GOOD.replace(b"1 250 ~", b"01 250 ~"), LINE_FORM.format(1)),
    (GOOD.replace(b"1 250 ~", b"1 0250 ~"), LINE_FORM.format(1)),
    (GOOD.replace(b"1 250 ~", b"1 250 -"), LINE_FORM.format(1)),
    (GOOD.replace(b"1 250 ~", b"1 250.0 ~"), LINE_FORM.format(1)),
    (GOOD.replace(b"1 250 ~", b"1 250~"), LINE_FORM.format(1)),
    (GOOD.replace(b"1 250 ~", b"1  250 ~"), LINE_FORM.format(1)),
    (GOOD.replace(b"350 =", b"350"), LINE_FORM.format(1)),
    (GOOD.replace(b"350 =", b"350 = ="), LINE_FORM.format(1)),
    (GOOD.replace(b"350 =", b"350 =\r"), LINE_FORM.format(1)),
    (GOOD.replace(b"350 =", b"\xff50 ="), LINE_FORM.format(1)),
    (GOOD.replace(b"1000000000 =", b"10000000000 ="), LINE_FORM.format(0)),
    (GOOD.replace(b"2 300 = 300 ~", b"2 301 = 300 ~"),
     "no interval of probabilities: '2 301 = 300 ~'"),
    (GOOD.replace(b"1000000000 =", b"1000000001 ="),
     "no interval of probabilities: '0 0 ~ 1000000001 ='"),
]


def read(text, reader=read_levels):
    """The levels or nodes, or the status and the sentence of the stop."""
    try:
        return reader(text)
    except Stop as stop:
        return stop.status, stop.why


# The node printer's text for an OR of two events, and texts of another form.
GOOD_NODES = b"tree 3 events 2 nodes 3 level 1 of 2\n0 0 ~ 2 ~\n1 5 = 5 =\n2 4 ~ 8 =\n"
WRONG_NODES = [
    (GOOD_NODES.replace(b" nodes 3", b""), HEADER_FORM),
    (GOOD_NODES.replace(b"level 1 of 2", b"level 1"), HEADER_FORM),
    (GOOD_NODES.replace(b"tree 3", b"tree 65536"), RANGE),
    (GOOD_NODES.replace(b"events 2", b"events 0"), RANGE),
    (GOOD_NODES.replace(b"events 2", b"events 4"), RANGE),
    (GOOD_NODES.replace(b"nodes 3", b"nodes 1025"), RANGE),
    (GOOD_NODES.replace(b"level 1", b"level 3"), RANGE),
    (GOOD_NODES.replace(b"level 1 of 2", b"level 0 of 0"), RANGE),
    (GOOD_NODES.replace(b"of 2", b"of 1001"), RANGE),
    (GOOD_NODES[:-1], "a last line without its end"),
    (GOOD_NODES.replace(b"1 5 = 5 =\n", b""), "2 lines after its header, not 3"),
    (GOOD_NODES.replace(b"1 5 =", b"2 5 ="), LINE_FORM.format(1)),
    (GOOD_NODES.replace(b"1 5 = 5 =", b"1 6 = 5 ="), "no interval of probabilities: '1 6 = 5 ='"),
]


def reading_nodes():
    ends = [(End(0, False), End(2, False)), (End(5, True), End(5, True)), (End(4, False), End(8, True))]
    equal("a text of nodes", read(GOOD_NODES, read_nodes), Nodes(3, 1, 2, ends))
    for text, why in WRONG_NODES:
        equal(f"{text!r}", read(text, read_nodes), (3, f"the node printer gave {why}"))


def reading():
    due = some_levels((300, 300), (250, 350), (0, UNIT), exact=[(2, 0), (1, 1), (0, 1)])
    equal("a good text", read(GOOD), due)
    equal("the largest numbers", read(b"tree 65535 events 1024 levels 1\n1 0 = 0 =\n0 0 = 0 =\n"),
          some_levels((0, 0), (0, 0), exact=[(1, 0), (1, 1), (0, 0), (0, 1)], number=65535, events=1024))
    for text, why in WRONG_TEXTS:
        hold(f"begins as a text of levels does: {text!r}", text.startswith(b"tree "))
        equal(f"{text!r}", read(text), (3, f"the level printer gave {why}"))
    for name in example_names():
        text = example(name)
        levels = read(text)
        equal(f"{name}: printed again", printed(levels), text)
    stored = [text for text in stored_texts() if text.startswith(b"tree ")]
    hold("stored texts with levels", len(stored) > 100, len(stored))
    for text in stored:
        levels = read(text)
        hold(f"{text[:60]!r}: levels", isinstance(levels, Levels) and printed(levels) == text, levels)


def stored_texts():
    """What the level printer prints for the stored inputs: a 32-bit length, low byte first, before each text."""
    with open(os.path.join(ROOT, "crates/level_cases/stdout"), "rb") as file:
        length = file.read(4)
        while length:
            yield file.read(int.from_bytes(length, "little"))
            length = file.read(4)


def example_names():
    folders = sorted(os.listdir(os.path.join(ROOT, "examples")))
    return [os.path.join(folder, name) for folder in folders
            for name in sorted(os.listdir(os.path.join(ROOT, "examples", folder))) if name.startswith("levels-")]


def example(name):
    with open(os.path.join(ROOT, "examples", name), "rb") as file:
        return file.read()


def broken_texts(chance, count):
    """Whatever the text: its levels, which print as the same text, or a stop with status 3."""
    good = [GOOD] + [example(name) for name in example_names()]
    read_whole = 0
    for _ in range(count):
        text = broken(chance, chance.choice(good))
        levels = read(text)
        if isinstance(levels, Levels):
            read_whole += 1
            equal(f"{text!r}: printed again", printed(levels), text)
        else:
            hold(f"{text!r}: stopped", levels[0] == 3 and levels[1].startswith("the level printer gave "), levels)
    hold("some texts are levels still", read_whole > count // 100, read_whole)
    hold("most texts are none", read_whole < count // 2, read_whole)


def broken(chance, text):
    kind = chance.randrange(5)
    if kind == 0:
        return b"tree " + bytes(chance.randrange(256) for _ in range(chance.randrange(60)))
    if kind == 1:
        return text[:chance.randrange(5, len(text) + 1)]
    text = bytearray(text)
    for _ in range(chance.randint(1, 3)):
        at = chance.randrange(5, len(text))
        new = chance.choice(b"0123456789=~ \n") if kind < 4 else chance.randrange(256)
        text[at:at + chance.randint(0, 2)] = bytes([new] * chance.randint(0, 2))
    return bytes(text)


def tables():
    for value, due in (0, "0.000000000"), (1, "0.000000001"), (723133799, "0.723133799"), (UNIT, "1.000000000"):
        equal(f"probability of {value}", probability(value), due)
    levels = some_levels((723133799, 723133802), (0, UNIT), exact=[(0, 1), (1, 0)])
    equal("a table of levels", levels_table(levels, "no fuel"),
          "no fuel\n"
          "level  lower end      upper end      width\n"
          "    1  0.723133799 =  0.723133802 ~  0.000000003\n"
          "    0  0.000000000 ~  1.000000000 =  1.000000000\n" + MARKS_LINE)
    equal("levels as CSV", levels_csv(levels),
          "level,of,lower,lower end,upper,upper end,width\n"
          "1,1,0.723133799,exact,0.723133802,outward,0.000000003\n"
          "0,1,0.000000000,outward,1.000000000,exact,1.000000000\n")
    nodes_tables()
    heads = levels_table(some_levels(*[(1, 2)] * 1001), "t").split("\n")
    equal("the heads above 1,000 levels", heads[1:4], [
        "level  lower end      upper end      width", " 1000  0.000000001 ~  0.000000002 ~  0.000000001",
        "  999  0.000000001 ~  0.000000002 ~  0.000000001"])


def nodes_tables():
    ends = End(5, True), End(17, False)
    # The first name has 2 wide characters, the third an accent of its own, and each name stands in 6 columns.
    nodes = [Shown(0, "主機 a", "basic event", *ends), Shown(1, "", "basic event", *ends),
             Shown(10, 'e\u0301 "x"', "AND", *ends), Shown(1023, "a,\t\x1bb", "OR", *ends)]
    rest = "0.000000005 =  0.000000017 ~  0.000000012\n"
    equal("a table of nodes", nodes_table(nodes, "level 5\nof 10"),
          "level 5 of 10\n"
          "node  name    kind         lower end      upper end      width\n"
          f"   0  主機 a  basic event  {rest}"
          f"   1          basic event  {rest}"
          f'  10  e\u0301 "x"   AND          {rest}'
          f"1023  a, b    OR           {rest}" + MARKS_LINE)
    rest = "0.000000005,exact,0.000000017,outward,0.000000012\n"
    nodes[3] = nodes[3]._replace(name="a\rb")
    equal("nodes as CSV", nodes_csv(nodes),
          "node,name,kind,lower,lower end,upper,upper end,width\n"
          f"0,主機 a,basic event,{rest}1,,basic event,{rest}"
          f'10,"e\u0301 ""x""",AND,{rest}1023,"a\rb",OR,{rest}')
    nameless = [node._replace(name="") for node in nodes[1:3]]
    equal("a table without names", nodes_table(nameless, "t").split("\n")[1:3], [
        "node  kind         lower end      upper end      width",
        "   1  basic event  0.000000005 =  0.000000017 ~  0.000000012"])
    equal("CSV without names", nodes_csv(nameless),
          f"node,kind,lower,lower end,upper,upper end,width\n1,basic event,{rest}10,AND,{rest}")


class Drawn:
    """A picture, read back."""

    def __init__(self, levels, title="top event"):
        self.text = picture(levels, title)
        self.root = ElementTree.fromstring(self.text.encode())
        self.points = [tuple(map(float, pair.split(","))) for pair in self.one("polygon").get("points").split()]
        self.dots = [(float(dot.get("cx")), float(dot.get("cy"))) for dot in self.group("exact")]
        self.labels = [(float(label.get("x")), label.text) for label in self.group("probabilities")]
        self.heights = [(float(label.get("y")) - 4.2, label.text) for label in self.group("possibilities")]
        self.words = [text.text for text in self.root.iter(f"{SVG}text")]
        self.legend = [text.text for text in self.group("legend") if text.tag == f"{SVG}text"]

    def one(self, name):
        return self.root.find(f"{SVG}{name}")

    def group(self, name):
        return [child for group in self.root.iter(f"{SVG}g") if group.get("class") == name for child in group]

    def ticks(self):
        """The places of all ticks below the axis."""
        return [float(line.get("x1")) for line in self.group("axes")
                if line.get("x1") == line.get("x2") and float(line.get("y1")) == BOTTOM]

    def is_logarithmic(self):
        return any("(logarithmic)" in words for words in self.words)

    def is_broken(self):
        return any(line.get("stroke") == "#ffffff" for line in self.group("axes"))

    def bracket(self):
        path = [path for path in self.root.iter(f"{SVG}path") if path.get("class") == "level-n"][0].get("d")
        return [float(number) for number in re.split("[MVH ]", path)[1:]]


def staircase(lefts, rights, heights):
    """A staircase's points: for each level from 0 up its place at its own height and at the next one."""
    steps = list(zip(heights, [*heights[1:], heights[-1]]))
    up = [(x, y) for x, pair in zip(lefts, steps) for y in pair]
    down = [(x, y) for x, pair in zip(rights, steps) for y in pair]
    return up + down[::-1]


def linear_by_hand():
    # Room of a twentieth on both sides: from 0.19 to 0.41, so that 0.01 is 27 pixels.
    exact = [(0, 1), (2, 0), (2, 1)]
    drawn = Drawn(some_levels((300000000, 300000000), (250000000, 350000000), (200000000, 400000000), exact=exact))
    equal("linear: corners", drawn.points, staircase([103, 238, 373], [643, 508, 373], [372, 233, 94]))
    equal("linear: dots", drawn.dots, [(373, 94), (373, 94), (643, 372)])
    equal("linear: bracket", drawn.bracket(), [373, 87, 94, 373, 87])
    equal("linear: labels", drawn.labels, [
        (103, "0.200"), (170.5, "0.225"), (238, "0.250"), (305.5, "0.275"), (373, "0.300"), (440.5, "0.325"),
        (508, "0.350"), (575.5, "0.375"), (643, "0.400")])
    equal("linear: ticks", drawn.ticks(), [place for place, _ in drawn.labels])
    equal("linear: heights", drawn.heights, [(372, "0"), (233, "0.5"), (94, "1.0")])
    equal("linear: words", [drawn.is_logarithmic(), drawn.is_broken()], [False, False])
    equal("linear: title and second lines", drawn.words[:3], [
        "top event", "tree 3, 7 basic events, 2 levels",
        "level 2: 0.300000000 to 0.300000000; level 0: 0.200000000 to 0.400000000"])
    equal("linear: axes and legend", drawn.words[-5:], [
        "probability of the top event, reported to a billionth (0.000000001)", "possibility (level / 2)",
        "between two levels: the interval of the lower one, so that the fuzzy number lies inside",
        "interval of level 2", "an end with a dot is exact, one without is rounded outward"])
    equal("linear: description", drawn.one("desc").text,
          "The probability of the top event as a fuzzy number on a linear scale. tree 3, 7 basic events, 2 levels; "
          "level 2: 0.300000000 to 0.300000000; level 0: 0.200000000 to 0.400000000; "
          "an end with a dot is exact, one without is rounded outward.")
    # One billionth is far less than a hundredth of a pixel, and yet a lower end goes left and an upper end right.
    drawn = Drawn(some_levels((300000001, 300000001), (250000000, 350000000), (200000000, 400000000)))
    equal("linear: the band holds a level between hundredths", [drawn.points[5], drawn.points[6]],
          [(373.0, 94), (373.01, 94)])
    hold("linear: bracket holds it too", drawn.bracket() == [373, 87, 94, 373.01, 87], drawn.bracket())


def close(found, due):
    """Whether places are the due ones to a hundredth of a pixel."""
    return len(found) == len(due) and all(abs(a - b) <= 0.0101 for one, other in zip(found, due)
                                          for a, b in zip(one, other))


def logarithmic_by_hand():
    two, five = 0.30102999566, 0.69897000434
    # Two decades from 100 to 646, 24 pixels off both edges.
    drawn = Drawn(some_levels((10000000, 10000000), (1000000, 100000000)))
    due = staircase([100, 373], [646, 373], [372, 94])
    hold("logarithmic: corners", close(drawn.points, due), drawn.points, due)
    equal("logarithmic: words", [drawn.is_logarithmic(), drawn.is_broken()], [True, False])
    due = [(100, "0.001"), (100 + 273 * two, "0.002"), (100 + 273 * five, "0.005"), (373, "0.01"),
           (373 + 273 * two, "0.02"), (373 + 273 * five, "0.05"), (646, "0.1")]
    equal("logarithmic: labels", [label for _, label in drawn.labels], [label for _, label in due])
    hold("logarithmic: places of labels", close([(x, 0) for x, _ in drawn.labels], [(x, 0) for x, _ in due]))
    digits = [100 + 273 * (math.log10(digit) + i) for i in (0, 1) for digit in range(1, 10)]
    # Left of 0.001 stands 0.0009, and no other tick has room there; so has none right of 0.1.
    due = [100 + 273 * (math.log10(9) - 1), *digits, 646]
    hold("logarithmic: ticks", close([(x, 0) for x in drawn.ticks()], [(x, 0) for x in due]), drawn.ticks(), due)
    # 273 times the logarithm of 2 is 82.1811..
    points = Drawn(some_levels((20000000, 20000000), (1000000, 100000000))).points
    equal("logarithmic: the band holds a level between hundredths", points[3:5], [(455.18, 94), (455.19, 94)])
    lengths = {float(line.get("x1")): float(line.get("y2")) - BOTTOM for line in drawn.group("axes")[2:]}
    equal("logarithmic: length of ticks", [lengths[373], lengths[drawn.ticks()[0]]], [6, 3.5])
    # With 0 the smallest positive end is 80 pixels off the left edge, and a decade has 245.
    drawn = Drawn(some_levels((0, 1000000), (0, 10000000), (0, 100000000), exact=[(2, 0)]))
    due = staircase([76, 76, 76], [646, 401, 156], [372, 233, 94])
    hold("with 0: corners", close(drawn.points, due), drawn.points, due)
    equal("with 0: words", [drawn.is_logarithmic(), drawn.is_broken()], [True, True])
    equal("with 0: first label", drawn.labels[0], (76, "0"))
    equal("with 0: dots", drawn.dots, [(76, 94)])
    # 1 is the right edge, also where the band ends a little before it.
    drawn = Drawn(some_levels((100000000, 100000000), (10000000, UNIT)))
    due = staircase([100, 385], [670, 385], [372, 94])
    hold("up to 1: corners", close(drawn.points, due), drawn.points, due)
    drawn = Drawn(some_levels((100000000, 100000000), (10000000, 999999999)))
    equal("up to 1: last label", drawn.labels[-1], (670, "1"))


# Levels at the edges: whether the scale is logarithmic, whether it is broken, and the first and the last label.
EDGES = [
    ("one less than ten times", [(50, 50), (10, 99)], False, False, "0", "0.00000010"),
    ("ten times", [(20, 20), (10, 100)], True, False, "0.00000001", "0.0000001"),
    ("nine decades", [(7, 7), (1, UNIT)], True, False, "0.00000001", "1"),
    ("nine decades and 0", [(0, 1), (0, UNIT)], True, True, "0", "1"),
    ("0 and ten times the upper end of level n", [(0, 50), (0, 500)], True, True, "0", "0.0000005"),
    ("0 and a decade whose label would meet that of 0", [(0, 13), (0, 284)], True, True, "0", "0.0000002"),
    ("0 and less", [(0, 51), (0, 500)], False, False, "0", "0.0000005"),
    ("0 to 1", [(UNIT // 2, UNIT // 2), (0, UNIT)], False, False, "0", "1.0"),
    ("never", [(0, 0), (0, 0)], False, False, "0", "1.0"),
    ("always", [(UNIT, UNIT), (UNIT, UNIT)], False, False, "0", "1.0"),
    ("one probability", [(368000000, 368000000)] * 2, False, False, "0", "0.5"),
    ("one billionth", [(1, 1), (1, 1)], False, False, "0", "0.000000005"),
    ("a billionth short of 1", [(UNIT - 1, UNIT - 1)] * 2, False, False, "0", "1.0"),
    ("0 to a billionth", [(0, 0), (0, 1)], False, False, "0", "0.000000003"),
    ("a billionth below 1", [(UNIT, UNIT), (UNIT - 1, UNIT)], False, False, "0.999999997", "1.000000000"),
    ("2 without its decade", [(7, 7), (1, 200000000)], True, False, "0.00000001", "0.01"),
    ("three ticks and two more", [(500000010, 500000010), (500000002, 500000016)], False, False,
     "0.500000000", "0.500000020"),
    ("labels too long for nine", [(500000003, 500000003), (500000001, 500000007)], False, False,
     "0.500000000", "0.500000008"),
    ("three billionths", [(723133800, 723133800), (723133799, 723133802)], False, False, "0.723133798", "0.723133803"),
]


def edges():
    for name, intervals, logarithmic, broken_axis, first, last in EDGES:
        levels = some_levels(*intervals)
        drawn = Drawn(levels)
        equal(f"{name}: logarithmic, broken", [drawn.is_logarithmic(), drawn.is_broken()], [logarithmic, broken_axis])
        equal(f"{name}: first and last label", [drawn.labels[0][1], drawn.labels[-1][1]], [first, last])
        hold_picture(name, levels, drawn)
    for name in example_names():
        hold_picture(name, read_levels(example(name)), Drawn(read_levels(example(name))))


def place_on(drawn, value):
    """Where a probability stands by two labels of the axis, the first positive one and the last."""
    if drawn.is_broken() and value == 0:
        return LEFT
    labels = [label for label in drawn.labels if label[1] != "0" or not drawn.is_broken()]
    (x, first), (z, last) = labels[0], labels[-1]
    a, b = float(first), float(last)
    if drawn.is_logarithmic():
        a, b, value = math.log10(a), math.log10(b), math.log10(value / UNIT)
        return x + (value - a) / (b - a) * (z - x)
    return x + (value / UNIT - a) / (b - a) * (z - x)


def hold_picture(name, levels, drawn):
    """Corners, dots and labels of a picture by its own axis."""
    n = levels.n
    rising = list(reversed(levels.levels))
    heights = [BOTTOM - (BOTTOM - TOP) * k / n for k in range(n + 1)]
    lefts = [place_on(drawn, level.lower.value) for level in rising]
    rights = [place_on(drawn, level.upper.value) for level in rising]
    due = staircase(lefts, rights, heights)
    hold(f"{name}: number of corners", len(drawn.points) == len(due) == 4 * (n + 1))
    # The labels' own places are rounded to hundredths of a pixel, and are taken for the whole axis here.
    apart = max(max(abs(x - a), abs(y - b)) for (x, y), (a, b) in zip(drawn.points, due))
    hold(f"{name}: corners", apart < 0.06, apart)
    half = 2 * (n + 1)
    hold(f"{name}: level k's interval is drawn from its height to the next", all(
        drawn.points[2 * k][0] == drawn.points[2 * k + 1][0] and drawn.points[2 * k + 1][1] <= drawn.points[2 * k][1]
        for k in range(n + 1)))
    hold(f"{name}: the band is closed at both sides alike",
         [y for _, y in drawn.points[:half]] == [y for _, y in drawn.points[half:]][::-1])
    hold(f"{name}: inside the frame", all(LEFT <= x <= RIGHT and TOP <= y <= BOTTOM for x, y in drawn.points))
    hold_dots(name, levels, drawn)
    hold_labels(name, drawn)


def hold_dots(name, levels, drawn):
    exact = [(level.k, side) for level in levels.levels for side in (0, 1) if level[1 + side].exact]
    whole = len(exact) == 2 * (levels.n + 1)
    undotted = levels.n > 100 and whole
    due = []
    for k, side in [] if undotted else exact:
        # The corner of level k at its own height, on the way up or on the way down.
        due.append(drawn.points[2 * k] if side == 0 else drawn.points[-1 - 2 * k])
    equal(f"{name}: dots", drawn.dots, due)
    words = "no end is exact: each is rounded outward, to the safe side"
    if exact:
        words = "an end with a dot is exact, one without is rounded outward"
    if whole:
        words = "every end is exact" + (" (no dots with more than 100 levels)" if undotted else "")
    equal(f"{name}: legend", drawn.legend[-1], words)


def hold_labels(name, drawn):
    texts = [label for _, label in drawn.labels]
    hold(f"{name}: plain decimals", all(re.fullmatch(r"[01](\.[0-9]{1,9})?", label) for label in texts), texts)
    values = [float(label) for label in texts]
    hold(f"{name}: labels rise", all(a < b for a, b in zip(values, values[1:])), texts)
    # Digits of DejaVu Sans, a wide font, at 12 pixels.
    sides = [(x - label_width(label) / 2, x + label_width(label) / 2) for x, label in drawn.labels]
    hold(f"{name}: labels stand apart", all(a[1] + 5 < b[0] for a, b in zip(sides, sides[1:])), drawn.labels)
    hold(f"{name}: labels stand in the picture", 20 < sides[0][0] and sides[-1][1] < 718, drawn.labels)
    away = max(abs(x - place_on(drawn, float(label) * UNIT)) for x, label in drawn.labels)
    hold(f"{name}: labels are right at their places", away < 0.03, drawn.labels)
    ticks = drawn.ticks()
    hold(f"{name}: each label has its tick", set(x for x, _ in drawn.labels) <= set(ticks))
    hold(f"{name}: ticks rise", all(a < b for a, b in zip(ticks, ticks[1:])), ticks)
    if drawn.is_logarithmic():
        hold_decades(name, [value for value in values if value > 0], texts)
    else:
        hold(f"{name}: four to nine ticks", 4 <= len(texts) <= 9 and len(ticks) == len(texts), texts)
        steps = {round((b - a) * UNIT) for a, b in zip(values, values[1:])}
        hold(f"{name}: one round step", len(steps) == 1 and str(min(steps)).strip("0") in ("1", "2", "25", "5"), steps)


def hold_decades(name, values, texts):
    """Labels of 1, 2 and 5; those of 1 at one stride, which is a decade where there are any of 2 or 5."""
    digits = {label.strip("0.") for label in texts}
    hold(f"{name}: logarithmic labels", digits <= {"", "1", "2", "5"} and len(values) >= 2, texts)
    decades = [round(math.log10(value)) for value in values if abs(math.log10(value) % 1 - 0.5) > 0.49]
    strides = {b - a for a, b in zip(decades, decades[1:])}
    hold(f"{name}: decades", len(strides) <= 1 and (strides <= {1} or not digits & {"2", "5"}), texts)


def label_width(label):
    return 12 * sum(0.318 if c == "." else 0.636 for c in label)


def random_levels(chance):
    """Nested intervals of any size, with any marks."""
    n = chance.choice([1, 2, 3, 4, 5, 7, 10, 10, 20, 50, 100, 101, 250, 1000])
    most = chance.choice([0, 1, 3, 20, 1000, 10 ** 6, UNIT, UNIT])
    base = chance.choice([0, 0, UNIT - most, chance.randrange(UNIT - most + 1), chance.randrange(1, 20)])
    values = sorted(min(UNIT, base + small(chance, most)) for _ in range(2 * n + 2))
    share = chance.choice([0, 0, 0.1, 0.5, 1, 1])
    exact = {(k, side) for k in range(n + 1) for side in (0, 1) if chance.random() < share}
    return some_levels(*[(values[k], values[2 * n + 1 - k]) for k in range(n, -1, -1)], exact=exact)


def small(chance, most):
    """A number from 0 to the most, of any size."""
    return chance.choice([chance.randint(0, most), int(most ** chance.random()) if most else 0, most, 0])


def random_pictures(chance, count):
    logarithmic = broken_axes = 0
    for index in range(count):
        levels = random_levels(chance)
        drawn = Drawn(levels)
        positive = [end.value for level in levels.levels for end in level[1:] if end.value > 0]
        due = bool(positive) and levels.levels[-1].upper.value >= 10 * min(positive)
        equal(f"random {index}: logarithmic", drawn.is_logarithmic(), due)
        equal(f"random {index}: broken", drawn.is_broken(), due and levels.levels[-1].lower.value == 0)
        hold_picture(f"random {index}, {printed(levels)[:200]!r}", levels, drawn)
        logarithmic += due
        broken_axes += drawn.is_broken()
    hold("both scales are among the random pictures", count // 10 < logarithmic < count - count // 10, logarithmic)
    hold("broken axes are among them", broken_axes > count // 50, broken_axes)


def titles():
    levels = some_levels((300000000, 300000000), (200000000, 400000000))
    for title, due in [
            ("no fuel to engine 1", "no fuel to engine 1"), ("", "top event"), (None, "top event"),
            ("\x00\n", "top event"), ('<a> & "b" \'c\' ]]> &amp;', '<a> & "b" \'c\' ]]> &amp;'),
            ("a\x00\x1b\x7f\x9fb\ud800\ufffe\uffff", "ab"),
            ("a\tb\r\nc", "a b  c"), ("Kühlwasser 冷却水 e\u0301 \U0001f6a2", "Kühlwasser 冷却水 e\u0301 \U0001f6a2")]:
        drawn = Drawn(levels, title)
        equal(f"title {title!r}: whole", drawn.one("title").text, due)
        equal(f"title {title!r}: shown", drawn.words[0], due)
    for title in "word " * 60, "x" * 300, "W" * 300, "水" * 300, "e\u0301" * 300, "i" * 300:
        drawn = Drawn(levels, title)
        lines = drawn.words[:2]
        equal(f"{title[:6]!r}: whole in the document's title", drawn.one("title").text, title.strip())
        hold(f"{title[:6]!r}: cut", lines[1].endswith("…") and title.startswith(lines[0])
             and title[len(lines[0]):].lstrip().startswith(lines[1][:-1].rstrip()), lines)
        hold(f"{title[:6]!r}: no letter begins with an accent", not lines[1].startswith("\u0301"), lines)
        hold(f"{title[:6]!r}: wide font has room", all(bold_width(line) < 672 for line in lines), lines)
        equal(f"{title[:6]!r}: the band stands lower", min(y for _, y in drawn.points), TOP + 23)
    title = "loss of cooling water for the main engine, with the stand-by pump out of service"
    equal("two lines without a cut", " ".join(Drawn(levels, title).words[:2]), title)


def bold_width(line):
    """Widths in DejaVu Sans Bold at 18 pixels."""
    widths = {"W": 1.103, "x": 0.645, "i": 0.343, "水": 1.0, "\u0301": 0, "e": 0.678, "…": 1.0, " ": 0.348}
    return 18 * sum(widths.get(c, 0.69) for c in line)


def same_bytes():
    levels = random_levels(random.Random(1))
    text = picture(levels, "t")
    with decimal.localcontext() as context:
        context.prec, context.rounding = 3, decimal.ROUND_UP
        equal("the same bytes in another decimal context", picture(levels, "t"), text)
    wide = some_levels((7, 9), (1, UNIT))
    text = picture(wide, "t")
    with decimal.localcontext() as context:
        context.prec, context.rounding = 3, decimal.ROUND_UP
        equal("the same bytes on a logarithmic scale", picture(wide, "t"), text)
    hold("ends with a line end", text.endswith("</svg>\n"))
    equal("one event and one level", Drawn(some_levels((7, 9), (1, 9), events=1)).words[1],
          "tree 3, 1 basic event, 1 level")


def main(words):
    seed = int(words[0]) if words else int(time.time())
    count = int(words[1]) if words[1:] else 2000
    print(f"levels, tables and pictures, seed {seed}")
    chance = random.Random(seed)
    reading()
    reading_nodes()
    broken_texts(chance, count)
    tables()
    linear_by_hand()
    logarithmic_by_hand()
    edges()
    random_pictures(chance, count // 4)
    titles()
    same_bytes()
    return finish("pictures.py")


if __name__ == "__main__":
    sys.exit(main(sys.argv[1:]))
