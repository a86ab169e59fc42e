# An opinion sheet, from its spreadsheet to the bytes of a sheet file and back.
import collections
import itertools
import math
import re
from struct import pack, unpack_from

from desk.refusal import ENTRY, EXPERTS, MOST_DENOMINATOR, MOST_NODES, SHEET_HEADER, UNIT
from desk.text.cells import Cell, cells_text, has_titles, read_cells, read_rows, shown
from desk.text.faults import Fault, Faulty, Place
from desk.text.figures import FORMS, NoFigure, begins_as_figure, decimal_text, read_figure

# The header of a sheet file: letters, version, tree number, events, experts and their scores.
HEADER, LETTERS, VERSION = f"<3sHHHB{EXPERTS}s", b"FTS", 1
# The kinds of an entry, as the sheet file has them.
NUMBERS, OPINIONS, FRACTIONS = 0, 1, 2

Expert = collections.namedtuple("Expert", "name score")
# Values: four billionths; or a term, 0 to 7, for each listed expert; or a denominator and four numerators.
Entry = collections.namedtuple("Entry", "kind values")
Row = collections.namedtuple("Row", "name entry place")
SheetText = collections.namedtuple("SheetText", "file experts rows")

# The terms of the codes 1 to 7, and the codes of their names and initials; 0 is silence.
TERMS = ("Very Low", "Low", "Fairly Low", "Medium", "Fairly High", "High", "Very High")
CODES = {word.lower(): code for code, term in enumerate(TERMS, 1)
         for word in (term, "".join(part[0] for part in term.split()))}
TERM_FORMS = f"a term is {', '.join(TERMS[:-1])} or {TERMS[-1]}"

# For each number of figures, which of them are a, b, c and d; and what they are called.
FOUR = {1: (0, 0, 0, 0), 3: (0, 1, 1, 2), 4: (0, 1, 2, 3)}
CALLED = {3: ("low", "likely", "high"), 4: ("a", "b", "c", "d")}
COUNTS = "one, three (low, likely, high) or four (a, b, c, d)"

NO_CELL = Cell("", None)


def read_sheet(file, data):
    """The experts and the events' rows; or Faulty, with the first fault of each expert and of each row."""
    cells = read_cells(file, data)
    header = header_rows(cells)
    experts, faults = read_experts(file, *cells[:2]) if header == 2 else ([], [])
    events = cells[header:]
    rows, row_faults = read_rows(events[:MOST_NODES], RowReader(file, len(experts)).row)
    faults += row_faults
    if not events:
        faults.append(Fault(file, Place(1, 1, None), "the sheet has no row of an event",
                            "write a row for each basic event of the tree"))
    for name, *_ in events[MOST_NODES:MOST_NODES + 1]:
        faults.append(Fault(file, name.place, f"the row is the sheet's {MOST_NODES + 1}th, and a sheet holds "
                            f"{MOST_NODES}", "keep the rows of one tree's basic events"))
    if faults:
        raise Faulty(*sorted(faults, key=lambda fault: fault.place[:2]))
    return SheetText(file, experts, rows)


def header_rows(cells):
    """Two with the experts and their scores, one with titles alone, or none."""
    if cells[1:] and cells[1][0].text.lower() in ("score", "scores"):
        return 2
    return 1 if has_titles(cells) else 0


def read_experts(file, names, scores):
    """An expert for each column, and the first fault of each."""
    columns = list(itertools.zip_longest(names[1:], scores[1:], fillvalue=NO_CELL))
    while columns and not any(cell.text for cell in columns[-1]):
        columns.pop()
    experts, faults, seen = [], [], {}
    for number, (name, score) in enumerate(columns, 1):
        wrong = expert_fault(number, name, score, seen)
        if wrong:
            faults.append(Fault(file, *wrong))
        seen.setdefault(name.text, name)
        experts.append(Expert(name.text, None if wrong else int(score.text.lstrip("0"))))
    return experts, faults


def expert_fault(number, name, score, seen):
    """The place of an expert's first fault, what was found and what can be done; or None."""
    if number == EXPERTS + 1:
        return (name.place or score.place, f"the expert is the sheet's {number}th, and a sheet holds {EXPERTS}",
                f"keep {EXPERTS} experts at most")
    if not name.text:
        return name.place or score.place, "the expert has no name", "write it above the score, or take the column out"
    if name.text in seen:
        return (name.place, f"the expert {shown(name.text)} stands in cell {seen[name.text].place.cell} already",
                "give each expert another name")
    if not score.text:
        return (score.place or name.place, f"the expert {shown(name.text)} has no score",
                "write a whole number from 1 to 100 below the name")
    if not re.fullmatch("[1-9][0-9]?|100", score.text.lstrip("0")):
        return (score.place, f"the score {shown(score.text)} is not a whole number from 1 to 100",
                "write how much the expert counts beside the others, such as 10")
    return None


class RowReader:
    """Reads the rows of a sheet with so many experts, one after the other."""

    def __init__(self, file, experts):
        self.file, self.experts = file, experts
        self.names = {}

    def faulty(self, cell, found, remedy):
        return Faulty(Fault(self.file, cell.place, found, remedy))

    def row(self, cells):
        name, *values = cells
        self.check_name(name)
        while values and not values[-1].text:
            values.pop()
        if not values:
            either = "a term by one expert at least, or " if self.experts else ""
            raise self.faulty(name, f"the event {shown(name.text)} has nothing but its name",
                              f"write {either}figures: {COUNTS}")
        first = next(cell for cell in values if cell.text)
        if not is_term(first) and not begins_as_figure(first.text):
            raise self.neither(first)
        entry = self.opinions(values) if is_term(first) else self.figures(name, values)
        return Row(name.text, entry, name.place)

    def check_name(self, name):
        if not name.text:
            raise self.faulty(name, "the row has no name", "write the name of a basic event in its first cell")
        if '"' in name.text:
            raise self.faulty(name, f"the name {shown(name.text)} has a double quote", "write it without")
        if name.text in self.names:
            first = self.names[name.text]
            raise self.faulty(name, f"the event {shown(name.text)} has a row already, at line {first.line} "
                              f"(cell {first.cell})", "keep one row for each event")
        self.names[name.text] = name.place

    def opinions(self, cells):
        terms = [0] * self.experts
        for expert, cell in enumerate(cells):
            if not cell.text:
                continue
            if begins_as_figure(cell.text):
                raise self.faulty(cell, f"{shown(cell.text)} stands in a row of terms",
                                  "give the event terms alone, or figures alone")
            if not is_term(cell):
                raise self.neither(cell)
            if expert >= self.experts:
                raise self.beyond_experts(cell)
            terms[expert] = CODES[cell.text.lower()]
        return Entry(OPINIONS, tuple(terms))

    def beyond_experts(self, cell):
        if self.experts:
            remedy = "write the expert's name and score above it, or take it out"
        else:
            remedy = 'list the experts in two rows at the top, "event" with their names and "score" with their scores'
        return self.faulty(cell, f"the term {shown(cell.text)} stands under no expert", remedy)

    def neither(self, cell):
        forms = f"{FORMS}, and {TERM_FORMS}" if self.experts else FORMS
        return self.faulty(cell, f"{shown(cell.text)} is neither a figure nor a term", forms)

    def figures(self, name, cells):
        figures = [self.figure(cell) for cell in cells]
        if len(figures) not in FOUR:
            raise self.faulty(cells[1 if len(cells) == 2 else 4],
                              f"the event {shown(name.text)} has {len(figures)} figures", f"write {COUNTS}")
        self.check_rising(cells, figures)
        four = [figures[i] for i in FOUR[len(figures)]]
        if not any(figure.is_fraction for figure in figures):
            return Entry(NUMBERS, tuple(UNIT // figure.denominator * figure.numerator for figure in four))
        denominator = 1
        for figure in figures:
            denominator *= figure.denominator // math.gcd(denominator, figure.denominator)
        if denominator > MOST_DENOMINATOR:
            raise self.faulty(cells[0], f"the figures have the common denominator {denominator}, and a sheet holds "
                              f"up to {MOST_DENOMINATOR}", "write all of them over one denominator that it holds")
        numerators = (denominator // figure.denominator * figure.numerator for figure in four)
        return Entry(FRACTIONS, (denominator, *numerators))

    def figure(self, cell):
        if not cell.text:
            raise self.faulty(cell, "the cell is empty, and one after it is not",
                              "write the figures side by side from the second cell on")
        if is_term(cell):
            raise self.faulty(cell, f"the term {shown(cell.text)} stands in a row of figures",
                              "give the event figures alone, or terms alone")
        if not begins_as_figure(cell.text):
            raise self.neither(cell)
        try:
            return read_figure(cell.text)
        except NoFigure as wrong:
            raise self.faulty(cell, wrong.found, wrong.remedy) from None

    def check_rising(self, cells, figures):
        for i, (lower, upper) in enumerate(zip(figures, figures[1:])):
            if lower.numerator * upper.denominator > upper.numerator * lower.denominator:
                called = CALLED[len(figures)]
                found = (f"the figures do not rise: {called[i]}, {shown(cells[i].text)}, "
                         f"is above {called[i + 1]}, {shown(cells[i + 1].text)}")
                raise self.faulty(cells[i + 1], found, "write them from the lowest to the highest")


def is_term(cell):
    return cell.text.lower() in CODES


def sheet_data(number, scores, entries):
    """The bytes of a sheet file."""
    header = pack(HEADER, LETTERS, VERSION, number, len(entries), len(scores), bytes(scores))
    return header + b"".join(map(entry_data, entries))


def entry_data(entry):
    if entry.kind == NUMBERS:
        values = pack("<4I", *entry.values)
    elif entry.kind == OPINIONS:
        values = bytes(entry.values)
    else:
        values = b"".join(value.to_bytes(3, "little") for value in entry.values)
    return (bytes([entry.kind]) + values).ljust(ENTRY, b"\0")


def held_sheet(data):
    """The tree's number, the experts' scores and the entries of an accepted sheet file."""
    _, _, number, events, experts, scores = unpack_from(HEADER, data)
    places = range(SHEET_HEADER, SHEET_HEADER + ENTRY * events, ENTRY)
    return number, list(scores[:experts]), [held_entry(data[at:at + ENTRY], experts) for at in places]


def held_entry(data, experts):
    kind = data[0]
    if kind == NUMBERS:
        return Entry(kind, unpack_from("<4I", data, 1))
    if kind == OPINIONS:
        return Entry(kind, tuple(data[1:1 + experts]))
    return Entry(kind, tuple(int.from_bytes(data[at:at + 3], "little") for at in range(1, 16, 3)))


def sheet_text(experts, names, entries):
    """The sheet as CSV; an expert without a name is called E1, E2, .. by the column."""
    titles = [expert.name or f"E{number}" for number, expert in enumerate(experts, 1)]
    rows = [["event", *titles], ["score", *(str(expert.score) for expert in experts)]]
    return cells_text(rows + [[name, *entry_cells(entry)] for name, entry in zip(names, entries)])


def entry_cells(entry):
    if entry.kind == OPINIONS:
        return [TERMS[code - 1] if code else "" for code in entry.values]
    if entry.kind == NUMBERS:
        four = [decimal_text(value) for value in entry.values]
    else:
        denominator, *numerators = entry.values
        four = [f"{numerator}/{denominator}" for numerator in numerators]
    a, b, c, d = four
    return [a] if a == d else [a, b, d] if b == c else four
