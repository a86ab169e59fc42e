# The cells of a CSV file, as spreadsheets export it, each with its place; and rows of text as such a file.
import collections
import re

from desk.text.faults import Fault, Faulty
from desk.text.lines import LINE_END, Lines, decoded

# The text has no spaces at its ends, and one where several stand; the place is where it begins.
Cell = collections.namedtuple("Cell", "text place")

# Any kind of space is one, the no-break spaces of spreadsheets too.
NO_SPACE = re.compile(r"\S")
# Control characters, ends of lines and paragraphs, and a byte-order mark that does not begin the file.
CONTROL = re.compile("[\x00-\x1f\x7f-\x9f\u2028\u2029\ufeff\ufffe\uffff]")
SAVE_AS_UTF_8 = "save it as CSV UTF-8"
# A longer text is shown by its beginning.
MOST_SHOWN = 60


def read_cells(file, data):
    """The rows that are not empty, each a list of cells; or Faulty, with the first fault of each row."""
    text = decoded(file, data, SAVE_AS_UTF_8)
    lines = Lines(text)
    separator, start = separator_and_start(file, text)
    rows, faults = [], []
    for number, matches in enumerate(matched_rows(text, start, separator), 1):
        names = [cell_name(number, column) for column in range(len(matches))]
        row = [Cell(cell_text(match), lines.place(cell_start(match), name)) for match, name in zip(matches, names)]
        if any(cell.text for cell in row):
            rows.append(row)
        for match, name in zip(matches, names):
            wrong = cell_fault(match)
            if wrong:
                at, found, remedy = wrong
                faults.append(Fault(file, lines.place(at, name), found, remedy))
                break
    if faults:
        raise Faulty(*faults)
    return rows


def has_titles(rows):
    """Whether the first row has the columns' titles, of which the first is event or events."""
    return bool(rows) and rows[0][0].text.lower() in ("event", "events")


def read_rows(rows, read_row):
    """What is read of each row, and the faults of those that have one."""
    read, faults = [], []
    for row in rows:
        try:
            read.append(read_row(row))
        except Faulty as faulty:
            faults += faulty.faults
    return read, faults


def separator_and_start(file, text):
    """What stands between the cells, and where the first row begins: after a line that names the separator."""
    named = re.match(f"sep=([^\r\n])(?:{LINE_END}|\\Z)", text, re.IGNORECASE)
    if named and named[1] not in ",;":
        raise Faulty(Fault(file, Lines(text).place(named.start(1)),
                           "the separator is neither a comma nor a semicolon",
                           "save the file with commas or semicolons between its cells"))
    if named:
        return named[1], named.end()
    # A row of one cell has neither, and a decimal comma may stand beside semicolons.
    parted = [row for row in matched_rows(text, 0, ",;") if len(row) > 1]
    semicolons = [any(match["end"] == ";" for match in row) for row in parted]
    return (";" if parted and all(semicolons) else ","), 0


def matched_rows(text, start, separators):
    """Rows of cells, each a match of its text, quoted or plain, and of what ends it."""
    cell = re.compile(f'(?:"(?P<quoted>[^"]*(?:""[^"]*)*)(?P<closing>"?)(?P<after>[^{separators}\r\n]*)'
                      f"|(?P<plain>[^{separators}\r\n]*))(?P<end>[{separators}]|{LINE_END}|\\Z)")
    row = []
    for match in cell.finditer(text, start):
        row.append(match)
        if match["end"] not in tuple(separators):
            yield row
            row = []


def cell_text(match):
    text = match["plain"] if match["quoted"] is None else match["quoted"].replace('""', '"')
    return " ".join(text.split())


def cell_start(match):
    """Where the cell's first character stands that is no space, or where the cell does."""
    first = NO_SPACE.search(match.string, match.start(), match.start("end"))
    return first.start() if first else match.start()


def cell_fault(match):
    """Where a cell has its fault, what was found and what can be done, or None."""
    end = match.start("end")
    quoted = match["quoted"] is not None
    if quoted and not match["closing"]:
        return match.start(), "the quoted cell does not end", "close it with a double quote, and double those within"
    control = CONTROL.search(match.string, match.start(), end)
    if control:
        return (control.start(), *control_words(control[0]))
    after = NO_SPACE.search(match.string, match.start("after"), end) if quoted else None
    if after:
        return (after.start(), "text stands after the closing quote",
                "put the whole cell in quotes, and double those within")
    return None


def control_words(control):
    """What was found and what can be done, for a control character."""
    if control == "\0":
        return "the cell has a NUL character", SAVE_AS_UTF_8
    if control == "\t":
        return "the cell has a tab", "write a space, or save the file with commas or semicolons between its cells"
    if control in "\r\n":
        return "the cell has a line break", "write its text in one line, and see that its quote ends"
    return f"the cell has the control character U+{ord(control):04X}", "take it out"


def cell_name(row, column):
    """As spreadsheets name it, rows counted from 1 and columns here from 0."""
    letters = ""
    while column >= 0:
        letters = chr(ord("A") + column % 26) + letters
        column = column // 26 - 1
    return f"{letters}{row}"


def shown(text):
    """A text as a sentence has it, in double quotes."""
    return f'"{text}"' if len(text) <= MOST_SHOWN else f'"{text[:MOST_SHOWN]}.."'


def cells_text(rows):
    return "".join(",".join(map(written, row)) + "\n" for row in rows)


def written(text):
    # A semicolon out of quotes could be taken for the separator.
    return '"' + text.replace('"', '""') + '"' if re.search('[,;"\r\n]', text) else text
