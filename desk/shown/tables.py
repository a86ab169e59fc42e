# Probabilities as people read them: tables for a terminal, and CSV for a spreadsheet.
import collections
import unicodedata

from desk.refusal import UNIT

# A node of the tree: its name is "" where it has none, its kind "basic event", "AND" or "OR".
Shown = collections.namedtuple("Shown", "number name kind lower upper")

MARKS = "= is an exact end; ~ is an end rounded outward, to the safe side of the exact one"


def probability(billionths):
    return f"{billionths // UNIT}.{billionths % UNIT:09d}"


def levels_table(levels, title):
    rows = [[str(level.k), *table_cells(level)] for level in levels.levels]
    return table(title, ["level", "lower end", "upper end", "width"], rows)


def nodes_table(shown, title):
    rows = [[str(node.number), one_line(node.name), node.kind, *table_cells(node)] for node in shown]
    return table(title, *with_names(shown, ["node", "name", "kind", "lower end", "upper end", "width"], rows))


def levels_csv(levels):
    rows = [[str(level.k), str(levels.n), *csv_cells(level)] for level in levels.levels]
    return csv_text([["level", "of", "lower", "lower end", "upper", "upper end", "width"], *rows])


def nodes_csv(shown):
    heads = ["node", "name", "kind", "lower", "lower end", "upper", "upper end", "width"]
    rows = [[str(node.number), node.name, node.kind, *csv_cells(node)] for node in shown]
    heads, rows = with_names(shown, heads, rows)
    return csv_text([heads, *rows])


def with_names(shown, heads, rows):
    """The heads and the rows, without the column of names where no node has one."""
    if any(node.name for node in shown):
        return heads, rows
    return [head for head in heads if head != "name"], [row[:1] + row[2:] for row in rows]


def table_cells(interval):
    """Both ends with their marks, and the width."""
    ends = [f"{probability(end.value)} {'=' if end.exact else '~'}" for end in (interval.lower, interval.upper)]
    return [*ends, width_of(interval)]


def csv_cells(interval):
    """Both ends, each with its mark as a word, since a cell = begins a formula, and the width."""
    marks = {True: "exact", False: "outward"}
    ends = [(probability(end.value), marks[end.exact]) for end in (interval.lower, interval.upper)]
    return [*ends[0], *ends[1], width_of(interval)]


def width_of(interval):
    return probability(interval.upper.value - interval.lower.value)


def table(title, heads, rows):
    """The title, the columns under their heads, the first one to the right, and what the marks mean."""
    widths = [max(map(columns, column)) for column in zip(heads, *rows)]
    lines = [one_line(title)]
    for first, *cells in [heads, *rows]:
        row = [" " * (widths[0] - columns(first)) + first]
        row += [cell + " " * (width - columns(cell)) for cell, width in zip(cells, widths[1:])]
        lines.append("  ".join(row).rstrip())
    return "\n".join([*lines, MARKS, ""])


def columns(text):
    """How many columns of a terminal a text takes: two for a wide character, none for one set upon another."""
    return sum(map(columns_of_character, text))


def columns_of_character(character):
    if unicodedata.category(character) in ("Mn", "Me", "Cf"):
        return 0
    return 2 if unicodedata.east_asian_width(character) in ("W", "F") else 1


def one_line(text):
    """A text on one line: a line end or a tab is a space, and other control characters are taken out."""
    return "".join(map(in_line, text))


def in_line(character):
    # The last two are no characters, and an XML document can't have them.
    if unicodedata.category(character) not in ("Cc", "Cs", "Zl", "Zp") and character not in "\ufffe\uffff":
        return character
    return " " if character.isspace() else ""


def csv_text(rows):
    return "".join(",".join(map(csv_cell, row)) + "\n" for row in rows)


def csv_cell(text):
    """A cell, in quotes where it needs them; the csv module leaves a lone carriage return bare in some versions."""
    return '"' + text.replace('"', '""') + '"' if any(c in text for c in ',"\r\n') else text
