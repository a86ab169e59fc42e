# A refusal as a sentence: its rule in the words of docs/REFUSALS.md, its file, and what stands at its place.
# Records, links, entries, experts and windows are counted from 0, as in docs/FORMATS.md.
import collections
import os
import re

LONGEST = {"tree file": 7175, "opinion sheet": 17434}
TREE_HEADER, SHEET_HEADER = 9, 26
RECORD, ENTRY, EXPERTS = 5, 17, 16
LONGEST_BOOK, WINDOW, FIRST_HOUR, END_HOUR = 2560, 10, 2, 6
MOST_NODES, MOST_EVENTS, UNIT, MOST_DENOMINATOR = 1024, 64, 1000000000, 1000000
GATES = {1: "AND", 2: "OR"}

Row = collections.namedtuple("Row", "rule place aboard")


def explain(home, asked, text):
    """The lines that go with a refusal's own line."""
    page = os.path.join(home, "docs", "REFUSALS.md")
    read_on = f"{page} says what this means and what to do"
    if text.startswith(b"input"):
        return [f"{too_long(asked)}.", f"see that each file is the right one; {read_on}"]
    matched = re.fullmatch(rb"refused ([0-9]+) at ([0-9]+)\n", text)
    if not matched:
        return [read_on]
    number, place = int(matched.group(1)), int(matched.group(2))
    where, found, part = what_stands(asked, number, place)
    row = row_of(read_rows(page), number, part)
    rule = f": {row.rule}" if row else ""
    aboard = f"aboard: {row.aboard}; " if row else ""
    return [f"refusal {number}{rule}. {where}{found}.", f"{aboard}{read_on}"]


def read_rows(page):
    """The page's table: for each number its rows."""
    rows = collections.defaultdict(list)
    try:
        with open(page, encoding="utf-8", errors="replace") as file:
            for line in file:
                cells = [cell.strip().replace("`", "") for cell in line.strip().strip("|").split("|")]
                if line.startswith("|") and len(cells) == 5 and cells[0].isdigit():
                    rows[int(cells[0])].append(Row(cells[1], cells[2], cells[4]))
    except OSError:
        pass
    return rows


def row_of(rows, number, part):
    """The row of a number; where it has several, the one whose place begins with the part's words."""
    fitting = [row for row in rows[number] if len(rows[number]) == 1 or row.place.startswith(part)]
    return fitting[0] if fitting else None


def too_long(asked):
    """What the level printer, the hour printer, the node printer and the mirror program do not let in at all."""
    faults = []
    for what, name, data in asked.files():
        if what in LONGEST and len(data) > LONGEST[what]:
            faults.append(f"the {what} {name} has {len(data)} bytes; allowed: at most {LONGEST[what]}")
    return "; ".join(faults) or "the program did not take its input"


def what_stands(asked, number, place):
    """Where the refusal is, what is found there, and the words for its part of the file."""
    files = [(what, name, READERS[what](data)) for what, name, data in asked.files()]
    readers = [file for _, _, file in files]
    for book in readers[2:]:
        book.events = readers[0].events()
    if number == 13 and asked.levels is not None:
        return "The number of levels", f" is {asked.levels}; allowed: 1 to 1000", ""
    if number == 13 and asked.level is not None:
        return "The level", " is {} of {}; allowed: n from 1 to 1000, and k at most n".format(*asked.level), ""
    if number == 24 and len(readers) > 1:
        return "The two files", f" do not belong together: {two_files(*readers[:2])}", ""
    if number == 26:
        found = f" has {readers[0].events()} basic events; allowed: at most {MOST_EVENTS}"
        return f"The tree file {files[0][1]}", found, ""
    for what, name, file in files:
        found, part = file.fault(number, place)
        if found:
            return f"The {what} {name}, byte {place}: ", found, part
    return "", f"Its place is {place}", ""


def two_files(tree, sheet):
    return (f"the tree file has the tree number {tree.two(5)} and E = {tree.events()}, the opinion sheet "
            f"{sheet.two(5)} and E = {sheet.count()}; allowed: the same in both")


class Bytes:
    """A file's bytes; beyond its end all are 0."""

    def __init__(self, data):
        self.data = data

    def number(self, at, width):
        return int.from_bytes(self.data[at:at + width], "little")

    def one(self, at):
        return self.number(at, 1)

    def two(self, at):
        return self.number(at, 2)

    def count(self):
        """N of a tree file, E of a sheet."""
        return self.two(7)

    def header_fault(self, number, letters, header, length, length_rule):
        """What breaks one of the rules 1, 2, 3 and 5, or '' where the file does not break it."""
        size, found = len(self.data), self.data[:3].decode("latin-1")
        if number == 1 and size < header:
            return f"the file has {size} bytes; allowed: at least {header}"
        if number == 2 and found != letters:
            return f"the letters are {found!r}; allowed: {letters!r}"
        if number == 3 and self.two(3) != 1:
            return f"the version is {self.two(3)}; allowed: 1"
        if number == 5 and size != length:
            return f"the file has {size} bytes; allowed: {length}, which is {length_rule}"
        return ""


class Tree(Bytes):
    def kind(self, i):
        return self.one(TREE_HEADER + RECORD * i)

    def a(self, i):
        return self.two(TREE_HEADER + RECORD * i + 1)

    def b(self, i):
        return self.two(TREE_HEADER + RECORD * i + 3)

    def events(self):
        return sum(self.kind(i) == 0 for i in range(self.count()))

    def first_link(self):
        return TREE_HEADER + RECORD * self.count()

    def link(self, j):
        return self.two(self.first_link() + 2 * j)

    def fault(self, number, place):
        """What this file has at the place that breaks the rule, or '' where it does not; and the part's words."""
        n = self.count()
        if number in (1, 2, 3, 5):
            return self.header_fault(number, "FTF", TREE_HEADER, 7 * n + 7, f"7 × N + 7 for N = {n}"), ""
        if number == 4 and place == 7 and not 1 <= n <= MOST_NODES:
            return f"N, the number of nodes, is {n}; allowed: 1 to {MOST_NODES}", ""
        if number == 7 and place == self.first_link():
            return self.sum_fault(), "9 + 5"
        if number in (6, 7) and TREE_HEADER <= place < self.first_link() and (place - TREE_HEADER) % RECORD == 0:
            i = (place - TREE_HEADER) // RECORD
            return (self.kind_fault(i) if number == 6 else self.record_fault(i)), "the record"
        if number in (8, 9) and place >= self.first_link():
            return self.link_fault(number, (place - self.first_link()) // 2), ""
        return "", ""

    def kind_fault(self, i):
        if self.kind(i) <= 2:
            return ""
        return f"record {i} has the kind {self.kind(i)}; allowed: 0 (basic event), 1 (AND), 2 (OR)"

    def links_before(self, i):
        return sum(self.b(g) for g in range(i) if self.kind(g) in GATES)

    def record_fault(self, i):
        a, b, n = self.a(i), self.b(i), self.count()
        if self.kind(i) == 0:
            event = sum(self.kind(other) == 0 for other in range(i))
            if (a, b) == (event, 0):
                return ""
            return f"record {i}, a basic event, has a = {a} and b = {b}; allowed: a = {event} and b = 0"
        if self.kind(i) not in GATES:
            return ""
        first = self.links_before(i)
        if a == first and 1 <= b <= 16 and a + b <= n - 1:
            return ""
        return (f"record {i}, an {GATES[self.kind(i)]} gate, has a = {a} and b = {b}; "
                f"allowed: a = {first}, b from 1 to 16, and a + b at most N - 1 = {n - 1}")

    def sum_fault(self):
        n = self.count()
        total = self.links_before(n)
        return f"all b together are {total}; allowed: N - 1 = {n - 1}" if total != n - 1 else ""

    def gate_of(self, j):
        """The gate that has link j among its inputs."""
        for g in range(self.count()):
            if self.kind(g) in GATES and self.a(g) <= j < self.a(g) + self.b(g):
                return g
        return None

    def link_name(self, j):
        g = self.gate_of(j)
        return f"link {j}" if g is None else f"link {j}, input {j - self.a(g)} of gate {g} ({GATES[self.kind(g)]}),"

    def link_fault(self, number, j):
        g, node = self.gate_of(j), self.link(j)
        if number == 8 and g is not None and node >= g:
            allowed = f"a node below {g}"
        elif number == 9:
            before = [other for other in range(j) if self.link(other) == node]
            if not before:
                return ""
            allowed = f"a node that no link before it names, and {self.link_name(before[0]).rstrip(',')} names this one"
        else:
            return ""
        return f"{self.link_name(j)} names node {node}; allowed: {allowed}"


class Sheet(Bytes):
    def experts(self):
        return self.one(9)

    def fault(self, number, place):
        """What this file has at the place that breaks the rule, or '' where it does not; and the part's words."""
        e = self.count()
        if number in (1, 2, 3, 5):
            return self.header_fault(number, "FTS", SHEET_HEADER, 26 + 17 * e, f"26 + 17 × E for E = {e}"), ""
        if number == 4 and place == 7:
            return f"E, the number of basic events, is {e}; allowed: 1 to {MOST_NODES}", ""
        if number == 4 and place == 9:
            return f"the number of experts is {self.experts()}; allowed: 0 to {EXPERTS}", ""
        if number == 7 and 10 <= place < SHEET_HEADER:
            return self.expert_value("score", place - 10, self.one(place), "1 to 100"), "the score"
        event, within = divmod(place - SHEET_HEADER, ENTRY)
        if number == 6 and within == 0:
            kind = self.one(place)
            return (f"the entry of event {event} has the kind {kind}; "
                    f"allowed: 0 (four numbers), 1 (opinions), 2 (fractions)"), ""
        if number == 10 and within == 0:
            four = ", ".join(str(self.number(place + 1 + 4 * i, 4)) for i in range(4))
            return (f"the entry of event {event} has the four numbers {four}; "
                    f"allowed: each at least the one before it, and at most {UNIT}"), ""
        if number == 11 and within > 0:
            return self.expert_value(f"term for event {event}", within - 1, self.one(place), "0 to 7"), ""
        if number == 12 and within == 0:
            return (f"the entry of event {event} has no term but 0 (experts: {self.experts()}); "
                    f"allowed: a term from 1 to 7 by one expert at the least"), ""
        if number == 28 and within == 0:
            return self.fractions_fault(event, place), ""
        return "", ""

    def fractions_fault(self, event, place):
        denominator, *numerators = (self.number(place + 1 + 3 * i, 3) for i in range(5))
        last = self.one(place + 16)
        found = f"the numerators {', '.join(map(str, numerators))} over the denominator {denominator}"
        allowed = (f"each numerator at least the one before it, and at most the denominator, "
                   f"which is 1 to {MOST_DENOMINATOR}")
        if last != 0:
            found += f" and the last byte {last}"
            allowed += ", and the last byte 0"
        return f"the entry of event {event} has {found}; allowed: {allowed}"

    def expert_value(self, what, i, value, range_of_listed):
        experts = self.experts()
        allowed = range_of_listed if i < experts else f"0 after the last expert (experts: {experts})"
        return f"expert {i}'s {what} is {value}; allowed: {allowed}"


class Book(Bytes):
    # The tree's count of basic events, which no event of a window reaches.
    events = 0

    def fault(self, number, place):
        """What this file has at the place that breaks the rule, or '' where it does not; and the part's words."""
        size = len(self.data)
        if number == 29 and place == size and (size > LONGEST_BOOK or size % WINDOW != 0):
            return f"the file has {size} bytes; allowed: a multiple of {WINDOW}, and at most {LONGEST_BOOK}", "the book"
        return self.window_fault(*divmod(place, WINDOW)) if number == 29 and place < size else ("", "")

    def window_fault(self, i, within):
        at = WINDOW * i
        event, first, end = self.two(at), self.number(at + FIRST_HOUR, 4), self.number(at + END_HOUR, 4)
        if within == 0 and event >= self.events:
            return f"window {i} has the event {event}; allowed: below E = {self.events}", "the event"
        if within == END_HOUR and end <= first:
            return (f"window {i} has the first hour {first} and the end hour {end}; "
                    f"allowed: an end hour after the first hour"), "the end hour"
        return "", ""


READERS = {"tree file": Tree, "opinion sheet": Sheet, "book": Book}
