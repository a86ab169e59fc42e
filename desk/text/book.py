# A book of work windows, from its spreadsheet to bytes and back.
import collections
import itertools
import re
from struct import iter_unpack, pack

from desk.asked import LAST_HOUR
from desk.refusal import LONGEST_BOOK, WINDOW
from desk.text.cells import cells_text, has_titles, read_cells, read_rows, shown
from desk.text.faults import Fault, Faulty

Window = collections.namedtuple("Window", "event first end place")

MOST_WINDOWS = LONGEST_BOOK // WINDOW
TITLES = ("event", "first hour", "end hour")
# A window's event number, first hour and end hour.
FIELDS = "<HII"
PARTS = "write an event, a first hour and an end hour"


def read_book(file, data):
    """The windows, in their order; or Faulty, with the first fault of each row."""
    rows = read_cells(file, data)
    titles = rows.pop(0) if has_titles(rows) else []
    windows, faults = read_rows(rows[:MOST_WINDOWS], lambda cells: window(file, cells))
    faults = title_faults(file, titles) + faults
    for event, *_ in rows[MOST_WINDOWS:MOST_WINDOWS + 1]:
        faults.append(Fault(file, event.place, f"the window is the book's {MOST_WINDOWS + 1}th, and a book holds "
                            f"{MOST_WINDOWS}", "leave out windows that are over"))
    if faults:
        raise Faulty(*faults)
    return windows


def title_faults(file, titles):
    """The first hour that stands among the titles, since a window would be lost with it."""
    hours = [cell for cell in titles[1:] if re.match("[0-9]", cell.text)]
    return [Fault(file, cell.place, f"the hour {shown(cell.text)} stands in the row of titles",
                  'write titles above the windows if an event is named "event"') for cell in hours[:1]]


def window(file, cells):
    event, *hours = cells
    if not event.text:
        raise faulty(file, event, "the window has no event", "write the name of a basic event in its first cell")
    for title, cell in itertools.zip_longest(TITLES[1:], hours[:2]):
        if cell is None or not cell.text:
            raise faulty(file, cell or event, f"the window of {shown(event.text)} has no {title}", PARTS)
    for cell in hours[2:]:
        if cell.text:
            raise faulty(file, cell, f"{shown(cell.text)} stands after the end hour", PARTS)
    first, end = (read_hour(file, title, cell) for title, cell in zip(TITLES[1:], hours))
    if end <= first:
        raise faulty(file, hours[1], f"the end hour {end} is not after the first hour {first}",
                     "write the hour from which the event is in service again")
    return Window(event.text, first, end, event.place)


def read_hour(file, title, cell):
    digits = cell.text.lstrip("0") or "0"
    if not re.fullmatch("[0-9]{1,10}", digits) or int(digits) > LAST_HOUR:
        raise faulty(file, cell, f"the {title} {shown(cell.text)} is not a whole number from 0 to {LAST_HOUR}",
                     "write the hours since commissioning, in digits alone")
    return int(digits)


def faulty(file, cell, found, remedy):
    return Faulty(Fault(file, cell.place, found, remedy))


def book_data(windows, events):
    """The bytes of the book; each window's event is among the names of the basic events, which are in their order."""
    numbers = {name: number for number, name in enumerate(events)}
    return b"".join(pack(FIELDS, numbers[event], first, end) for event, first, end, _ in windows)


def held_book(data):
    """The event number, first hour and end hour of each window of an accepted book."""
    return list(iter_unpack(FIELDS, data))


def book_text(events, windows):
    return cells_text([TITLES, *([events[number], str(first), str(end)] for number, first, end in windows)])
