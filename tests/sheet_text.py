#!/usr/bin/env -S python3 -B
"""Tries the sheets and the books that are spreadsheets: cells.py, figures.py, sheet.py and book.py of desk/text.

    tests/sheet_text.py [SEED [COUNT]]      a seed from the clock and 2,000 rounds of each kind, unless said

Every fault is tried by a text that has it, with its whole sentence.
"""

import codecs
import csv
import io
import os
import random
import sys
import time
import unicodedata

from counted import finish, hold

ROOT = os.path.dirname(os.path.dirname(os.path.realpath(__file__)))
sys.path.insert(0, ROOT)

from desk.text.book import book_data, book_text, held_book, read_book
from desk.text.cells import cells_text, read_cells
from desk.text.faults import Faulty
from desk.text.figures import NoFigure, begins_as_figure, decimal_text, read_figure
from desk.text.sheet import Entry, Expert, held_sheet, read_sheet, sheet_data, sheet_text

NUMBERS, OPINIONS, FRACTIONS = 0, 1, 2
UNIT = 1000000000
BOM = b"\xef\xbb\xbf"


def as_bytes(text):
    return text if isinstance(text, bytes) else text.encode()


def sentences(read, text):
    """The sentences of a text's faults, or what was read of it."""
    try:
        return read("f.csv", as_bytes(text))
    except Faulty as faulty:
        return [fault.sentence() for fault in faulty.faults]


def hold_faults(read, text, *due):
    """The text has these faults; each is written without the file's name."""
    found = sentences(read, text)
    due = [f"f.csv, {sentence}" for sentence in due]
    hold(f"faults of {text[:60]!r}", found == due, *due, "but:", *(found if isinstance(found, list) else [found]))


# The rows of each text, a cell as its text, line, column and name.
CELLS = [
    ("a,b\nc,d\n", [[("a", 1, 1, "A1"), ("b", 1, 3, "B1")], [("c", 2, 1, "A2"), ("d", 2, 3, "B2")]]),
    (BOM + b"a;b\r\n\r\nc;d", [[("a", 1, 1, "A1"), ("b", 1, 3, "B1")], [("c", 3, 1, "A3"), ("d", 3, 3, "B3")]]),
    ("a\rb", [[("a", 1, 1, "A1")], [("b", 2, 1, "A2")]]),
    ("a\r\nb\nc\rd", [[(text, line, 1, f"A{line}")] for line, text in enumerate("abcd", 1)]),
    # The line that names the separator is a line, and no row.
    ("sep=;\r\na,1;b\r\n", [[("a,1", 2, 1, "A1"), ("b", 2, 5, "B1")]]),
    (BOM + b"SEP=,\na;b,c", [[("a;b", 2, 1, "A1"), ("c", 2, 5, "B1")]]),
    ("sep=;\n\na", [[("a", 3, 1, "A2")]]),
    ("sep=;x\n", [[("sep=", 1, 1, "A1"), ("x", 1, 6, "B1")]]),
    # Quotes, doubled within quotes, and as text in a cell that does not begin with one.
    ('"a, ""b""",c', [[('a, "b"', 1, 1, "A1"), ("c", 1, 12, "B1")]]),
    ('5" pipe,x', [[('5" pipe', 1, 1, "A1"), ("x", 1, 9, "B1")]]),
    ('"",a', [[("", 1, 1, "A1"), ("a", 1, 4, "B1")]]),
    ('"a" ,b', [[("a", 1, 1, "A1"), ("b", 1, 6, "B1")]]),
    (' "a",b', [[('"a"', 1, 2, "A1"), ("b", 1, 6, "B1")]]),
    # Spaces at the ends and runs of them, no-break spaces among them.
    ("  pump \u00a0 one ,\u00a0x\u202f", [[("pump one", 1, 3, "A1"), ("x", 1, 16, "B1")]]),
    ("pump\u00a01\u3000a", [[("pump 1 a", 1, 1, "A1")]]),
    ("a,  ,b", [[("a", 1, 1, "A1"), ("", 1, 3, "B1"), ("b", 1, 6, "C1")]]),
    ('"  a  b  "', [[("a b", 1, 1, "A1")]]),
    # The separator: a semicolon only if each row of several cells has one out of quotes.
    ("a;b\nc\n", [[("a", 1, 1, "A1"), ("b", 1, 3, "B1")], [("c", 2, 1, "A2")]]),
    ("a;b,c\nd,e\n", [[("a;b", 1, 1, "A1"), ("c", 1, 5, "B1")], [("d", 2, 1, "A2"), ("e", 2, 3, "B2")]]),
    ("a;0,5\n \nb;0,1\n", [[("a", 1, 1, "A1"), ("0,5", 1, 3, "B1")], [("b", 3, 1, "A3"), ("0,1", 3, 3, "B3")]]),
    ('"a;b",c\n"d;e",f\n', [[("a;b", 1, 1, "A1"), ("c", 1, 7, "B1")], [("d;e", 2, 1, "A2"), ("f", 2, 7, "B2")]]),
    (";a\nb;c", [[("", 1, 1, "A1"), ("a", 1, 2, "B1")], [("b", 2, 1, "A2"), ("c", 2, 3, "B2")]]),
    ('c,"a;b"\n', [[("c", 1, 1, "A1"), ("a;b", 1, 3, "B1")]]),
    ('"a,b";c\n', [[("a,b", 1, 1, "A1"), ("c", 1, 7, "B1")]]),
    # Rows that are padded, and rows of padding alone.
    ("a,,\n,,\nc,,\n", [[("a", 1, 1, "A1"), ("", 1, 3, "B1"), ("", 1, 4, "C1")],
                        [("c", 3, 1, "A3"), ("", 3, 3, "B3"), ("", 3, 4, "C3")]]),
    ("\u00e9,\u00df,\U0001f6a2,x", [[("\u00e9", 1, 1, "A1"), ("\u00df", 1, 3, "B1"), ("\U0001f6a2", 1, 5, "C1"),
                                     ("x", 1, 7, "D1")]]),
    ("", []), ("\n\r\n\r", []), (";;\n;;\n", []), (",,\n", []), ("sep=;", []), (BOM, []), ('"",""\n', []),
]

NOT_UTF_8 = "is not UTF-8; save it as CSV UTF-8"
UTF_16 = "line 1, column 1: the file is in UTF-16; save it as CSV UTF-8"
SEPARATOR = ("line 1, column 5: the separator is neither a comma nor a semicolon; "
             "save the file with commas or semicolons between its cells")
NO_END = "the quoted cell does not end; close it with a double quote, and double those within"
AFTER = "text stands after the closing quote; put the whole cell in quotes, and double those within"
TAB = "the cell has a tab; write a space, or save the file with commas or semicolons between its cells"
BREAK = "the cell has a line break; write its text in one line, and see that its quote ends"
NUL = "the cell has a NUL character; save it as CSV UTF-8"
CONTROL = "the cell has the control character U+{}; take it out"
CELL_FAULTS = [
    (codecs.BOM_UTF16_LE + "a,b".encode("utf-16-le"), [UTF_16]),
    (codecs.BOM_UTF16_BE + "a,b".encode("utf-16-be"), [UTF_16]),
    (b"a,b\nm\xe9t,1\n", [f"line 2, column 2: the byte E9 {NOT_UTF_8}"]),
    (BOM + "\u00e9,".encode() + b"\xff,\xfe", [f"line 1, column 3: the byte FF {NOT_UTF_8}"]),
    (b"a\r\nb\rc\xc3", [f"line 3, column 2: the byte C3 {NOT_UTF_8}"]),
    (b"\xed\xa0\x80", [f"line 1, column 1: the byte ED {NOT_UTF_8}"]),
    ("sep=|\na|b\n", [SEPARATOR]),
    ("sep=\t\n", [SEPARATOR]),
    ('a,"b\nc,d\n', [f"line 1, column 3 (cell B1): {NO_END}"]),
    ('a\n"b""', [f"line 2, column 1 (cell A2): {NO_END}"]),
    ('sep=,\na,"', [f"line 2, column 3 (cell B1): {NO_END}"]),
    ('a,"b"c\n', [f"line 1, column 6 (cell B1): {AFTER}"]),
    ('a,"b"  "c"\n', [f"line 1, column 8 (cell B1): {AFTER}"]),
    ("a\tb\n", [f"line 1, column 2 (cell A1): {TAB}"]),
    ('x,"a\tb"', [f"line 1, column 5 (cell B1): {TAB}"]),
    ('x\r\n"a\r\nb"', [f"line 2, column 3 (cell A2): {BREAK}"]),
    ('"a\rb"', [f"line 1, column 3 (cell A1): {BREAK}"]),
    # A row with a line break is one row, of two lines.
    ('"a\nb",x\n"c"y,z\n', [f"line 1, column 3 (cell A1): {BREAK}", f"line 3, column 4 (cell A2): {AFTER}"]),
    ("a,b\0", [f"line 1, column 4 (cell B1): {NUL}"]),
    ("a\x07", [f"line 1, column 2 (cell A1): {CONTROL.format('0007')}"]),
    ("a\x7f", [f"line 1, column 2 (cell A1): {CONTROL.format('007F')}"]),
    ("\u0085", [f"line 1, column 1 (cell A1): {CONTROL.format('0085')}"]),
    ("a,\u2028", [f"line 1, column 3 (cell B1): {CONTROL.format('2028')}"]),
    (BOM + BOM + b"a", [f"line 1, column 1 (cell A1): {CONTROL.format('FEFF')}"]),
    ("a,b\uffff", [f"line 1, column 4 (cell B1): {CONTROL.format('FFFF')}"]),
    # The first of a row, of each row.
    ("a\tb,c\td\n\x01\n", [f"line 1, column 2 (cell A1): {TAB}",
                           f"line 2, column 1 (cell A2): {CONTROL.format('0001')}"]),
]


def cells():
    for text, due in CELLS:
        found = sentences(read_cells, text)
        plain = [[(cell[0], *cell[1]) if len(cell) == 2 else cell for cell in row] for row in found]
        hold(f"cells of {text!r}", plain == due, due, plain)
    for text, due in CELL_FAULTS:
        hold_faults(read_cells, text, *due)
    [row] = read_cells("f.csv", b"x," * 702 + b"x")
    for column, name in (0, "A1"), (25, "Z1"), (26, "AA1"), (51, "AZ1"), (52, "BA1"), (701, "ZZ1"), (702, "AAA1"):
        hold(f"column {column} is {name}", row[column].place.cell == name, row[column])
    text = cells_text([["a", "b,c"], ["d;e", 'f"g', "h\ni", "j\rk"], [""], ("x", "y z")])
    hold("cells as text", text == 'a,"b,c"\n"d;e","f""g","h\ni","j\rk"\n\nx,y z\n', text)


LONG = "0" * 5000
FIGURES = [
    ("0.1", 1, 10), ("0,1", 1, 10), (".5", 1, 2), (",5", 1, 2), ("1", 1, 1), ("0", 0, 1), ("0.0", 0, 1),
    ("1e-5", 1, 100000), ("1,5E-05", 3, 200000), ("1.000000000000", 1, 1), ("0.10000000000", 1, 10), ("000.5", 1, 2),
    ("0.123456789", 123456789, UNIT), ("100E-2", 1, 1), ("0.000001e+3", 1, 1000), ("10e-1", 1, 1), ("1E-9", 1, UNIT),
    ("0e999999999", 0, 1), ("0e-999999999", 0, 1), ("1e-" + LONG + "5", 1, 100000), ("1e" + LONG, 1, 1),
    (LONG + ".5", 1, 2), ("0.5" + LONG, 1, 2), ("5" + LONG + "e-5001", 1, 2), ("0." + LONG + "5e5000", 1, 2),
    ("0.999999999", 999999999, UNIT), ("0.000000002", 1, UNIT // 2),
]
FRACTION_FIGURES = [
    ("3/1250", 3, 1250), ("3 / 1250", 3, 1250), ("3/ 1250", 3, 1250), ("2/4", 2, 4), ("0/7", 0, 7), ("5/5", 5, 5),
    ("003/0010", 3, 10), ("1000000/1000000", 1000000, 1000000), (LONG + "1/" + LONG + "2", 1, 2),
]
FORMS = "a figure is a decimal, such as 0.1 or 1,5E-05, or a fraction of whole numbers, such as 3/1250"
RANGE = "a probability is from 0 to 1"
DENOMINATORS = "a denominator is from 1 to 1000000"
SHORTEN = "write it as a fraction, or shorten it yourself: a low figure down, a high one up"
AS_TEXT = "format the cell as text before a fraction such as 1/12 is written in it"
NINES = "9" * 5000
NO_FIGURES = [
    *((text, f'"{text}" has a minus sign', RANGE) for text in ("-0.1", "\u22120,1", "-1/3", "- 5", "-0", "-5%")),
    *((text, f'"{text}" has a percent sign', "write it as a decimal, 5% as 0.05") for text in ("5%", "0,5 %")),
    *((text, f'"{text}" is above 1', RANGE) for text in (
        "1.5", "2", "1,000000001", "10", "1e1", "1e999999999", "1.0000000001", "0.11e1", "4/3", "9",
        "99999999999/1000000", "1000000/999999")),
    (NINES, f'"{NINES[:60]}.." is above 1', RANGE),
    (f"0.{NINES}", f'"0.{NINES[:58]}.." has 5000 digits after the point, and a sheet holds 9', SHORTEN),
    *((text, f'"{text}" has {count} digits after the point, and a sheet holds 9', SHORTEN) for text, count in (
        ("0.1234567891", 10), ("1e-10", 10), ("0.00000000010", 10), ("1,5E-9", 10), ("1e-999999999", 999999999))),
    *((text, f'"{text}" has an exponent of 10 digits', FORMS) for text in ("1e-9999999999", "1e1234567890")),
    ("3/0", '"3/0" has the denominator 0', DENOMINATORS),
    ("0/000", '"0/000" has the denominator 0', DENOMINATORS),
    ("3/1000001", '"3/1000001" has a denominator above 1000000', DENOMINATORS),
    (f"1/{NINES}", f'"1/{NINES[:58]}.." has a denominator above 1000000', DENOMINATORS),
    *((text, f'"{text}" looks like a date', AS_TEXT) for text in (
        "12-Jan", "10-Jan", "1-Feb", "12. Jan", "2026-01-12", "12.01.2026", "1/12/26", "1/1/1")),
    *((text, f'"{text}" is not a figure', FORMS) for text in (
        "1.234,5", "1,234.5", "1 250", "1.234.567", "1/2/3/4", "+0.1", "1.", "1e", "1e-", "1e5.5", "0x1", "0.5/3",
        "3/1,250", "3/", "/3", "1/-2", "1 e-5", "0..1", "", "abc", "nan", "inf", "\u0661", "\u00bd", "1_0", "1/2e0")),
]


def figures():
    for (text, *due), is_fraction in [(row, False) for row in FIGURES] + [(row, True) for row in FRACTION_FIGURES]:
        found = read_figure(text)
        hold(f"figure {text[:40]}", found == (*due, is_fraction), found)
        hold(f"{text[:40]} begins as a figure", begins_as_figure(text))
    for text, *due in NO_FIGURES:
        try:
            found = read_figure(text)
        except NoFigure as wrong:
            found = [wrong.found, wrong.remedy]
        hold(f"no figure {text[:40]}", found == due, *due, "but:", found)
    for text, begins in ("5%", True), ("-.5", True), ("\u22121", True), ("+1", True), ("Low", False), ("", False):
        hold(f"begins as a figure: {text}", begins_as_figure(text) == begins)
    for billionths, due in [(0, "0"), (UNIT, "1"), (800000000, "0.8"), (2000, "0.000002"), (1, "0.000000001"),
                            (123456789, "0.123456789"), (100000000, "0.1")]:
        hold(f"{billionths} as a decimal", decimal_text(billionths) == due, decimal_text(billionths))


# A sheet of two experts, and its bytes by docs/FORMATS.md: 1,250 is E2 04, a billion 00 CA 9A 3B.
SMALL = """event,Ann,Bo
score,10,100
n,0,0.000000001,0.000000256,1
o,VH,
f,1/1250,3/1250,6/1250
"""
SMALL_ENTRIES = [(NUMBERS, (0, 1, 256, UNIT)), (OPINIONS, (7, 0)), (FRACTIONS, (1250, 1, 3, 3, 6))]
SMALL_DATA = bytes.fromhex(
    "465453 0100 0201 0300 02 0A64 0000000000000000000000000000"
    "00 00000000 01000000 00010000 00CA9A3B"
    "01 0700 0000000000000000000000000000"
    "02 E20400 010000 030000 030000 060000 00")

# What the cells after an event's name are, in a sheet of three experts.
ENTRIES = [
    ("0.8", NUMBERS, (800000000,) * 4),
    ("0.1,0.2,0.3", NUMBERS, (100000000, 200000000, 200000000, 300000000)),
    ("0,0.000000001,.5,1", NUMBERS, (0, 1, 500000000, UNIT)),
    ('"0,1","0,10","0,100"', NUMBERS, (100000000,) * 4),
    ("1E-05,,,,", NUMBERS, (10000,) * 4),
    ("3/1250", FRACTIONS, (1250, 3, 3, 3, 3)),
    ("2/4", FRACTIONS, (4, 2, 2, 2, 2)),
    ("1/6,1/4,1/2", FRACTIONS, (12, 2, 3, 3, 6)),
    ("0.1,1/4,0.5", FRACTIONS, (20, 2, 5, 5, 10)),
    ("0,0,1/3,1", FRACTIONS, (3, 0, 0, 1, 3)),
    ("0.5,2/4,0.5", FRACTIONS, (4, 2, 2, 2, 2)),
    ("1 / 1250 , 3/1250,\u00a06/1250", FRACTIONS, (1250, 1, 3, 3, 6)),
    ("0.000001,1/2,1", FRACTIONS, (1000000, 1, 500000, 500000, 1000000)),
    ("Very Low,Low,Fairly Low", OPINIONS, (1, 2, 3)),
    ("Medium,Fairly High,High", OPINIONS, (4, 5, 6)),
    ("Very High,,", OPINIONS, (7, 0, 0)),
    (",,very  LOW", OPINIONS, (0, 0, 1)),
    ("vl,l,fl", OPINIONS, (1, 2, 3)),
    ("M,Fh,H,,,", OPINIONS, (4, 5, 6)),
    (" VH ", OPINIONS, (7, 0, 0)),
]

# One sheet as several programs save it: its experts, and its events with their entries.
SAME_EXPERTS = [("Chief; engine", 10), ("Yard", 7)]
SAME_ROWS = [("main pump", (OPINIONS, (2, 0))), ("pump, standby", (NUMBERS, (20000, 100000, 100000, 300000))),
             ("valve", (FRACTIONS, (730, 2, 2, 2, 2)))]
SAME = [
    'event,"Chief; engine",Yard\nscore,10,7\nmain pump,Low\n"pump, standby",0.00002,0.0001,0.0003\nvalve,2/730\n',
    BOM + b'event;"Chief; engine";Yard;\r\nscore;10;7;\r\nmain pump;Low;;\r\npump, standby;2E-05;0,0001;0,0003\r\n'
    b'valve;2/730;;\r\n;;;\r\n',
    b'sep=;\r\n;"Chief; engine";Yard\r\nScores;10;7\r\nmain pump;low\r\n\r\n'
    b'pump, standby;0,00002;1E-4;3,0E-4\r\nvalve;2/730',
    '"Event","Chief; engine","Yard",""\r"SCORE","10","7",""\r"main\u00a0pump","L","",""\r'
    '"pump, standby","0,00002","0,0001","0,0003"\r"valve"," 2 / 730 ","",""\r',
]


def entries_of(sheet):
    return [row.entry for row in sheet.rows]


def parts(sheet):
    """The experts, the names and the entries of a sheet, or its faults."""
    return sheet if isinstance(sheet, list) else (sheet.experts, [row.name for row in sheet.rows], entries_of(sheet))


def hold_data(name, text, number, due):
    """The sheet that is read of the text, written as a file, has these bytes."""
    sheet = sentences(read_sheet, text)
    if isinstance(sheet, list):
        return hold(name, False, *sheet)
    found = sheet_data(number, [expert.score for expert in sheet.experts], entries_of(sheet))
    return hold(name, found == due, due.hex(), found.hex())


def sheets():
    hold_data("the small sheet's bytes", SMALL, 258, SMALL_DATA)
    hold("the small sheet's bytes read", held_sheet(SMALL_DATA) == (258, [10, 100], SMALL_ENTRIES),
         held_sheet(SMALL_DATA))
    one = sheet_data(65535, [], [Entry(FRACTIONS, (1000000, 0, 1, 999999, 1000000))])
    hold("the largest denominator", one == bytes.fromhex(
        "465453 0100 FFFF 0100 00" + "00" * 16 + "02 40420F 000000 010000 3F420F 40420F 00"), one.hex())
    for text, kind, values in ENTRIES:
        sheet = sentences(read_sheet, f"event,A,B,C\nscore,1,2,3\nP,{text}\n")
        hold(f"entry of {text!r}", sheet == ("f.csv", [("A", 1), ("B", 2), ("C", 3)],
                                             [("P", (kind, values), (3, 1, "A3"))]), sheet)
    for text in SAME:
        sheet = sentences(read_sheet, text)
        hold(f"experts of {text[:20]!r}", getattr(sheet, "experts", sheet) == SAME_EXPERTS, sheet)
        rows = [(row.name, row.entry) for row in getattr(sheet, "rows", [])]
        hold(f"rows of {text[:20]!r}", rows == SAME_ROWS, sheet)
    sheet = read_sheet("f.csv", as_bytes(SAME[2]))
    hold("places after a sep line and an empty one", [row.place for row in sheet.rows] == [
        (4, 1, "A3"), (6, 1, "A5"), (7, 1, "A6")], sheet)
    headers()
    hold("the small sheet shown", sheet_text([Expert("Ann", 10), Expert("Bo", 100)], "nof", held_sheet(SMALL_DATA)[2])
         == SMALL.replace("VH", "Very High"))
    text = sheet_text([Expert(None, 1), Expert("", 2)], ["a,b", "c;d"],
                      [Entry(NUMBERS, (5, 5, 5, 5)), Entry(FRACTIONS, (4, 0, 2, 3, 3))])
    due = 'event,E1,E2\nscore,1,2\n"a,b",0.000000005\n"c;d",0/4,2/4,3/4,3/4\n'
    hold("quotes, and default names", text == due, text)


def headers():
    """What the first rows are, by the experts and the events' names that are read."""
    for text, experts, names in [
            ("P,0.1\n", [], ["P"]),
            ("event\nP,0.1\n", [], ["P"]),
            ("Events,low,likely,high\nP,0.1\nevent,0.1\n", [], ["P", "event"]),
            ("event\nscore\nP,0.1\nscore,1\n", [], ["P", "score"]),
            ("event,A,,\nSCORES,007,,\nP,Low,,\n", [("A", 7)], ["P"]),
            ("anything,A,B\nscore,1,100\nP,0.1\n", [("A", 1), ("B", 100)], ["P"]),
            ("event," + ",".join("abcdefghijklmnop") + "\nscore" + ",9" * 16 + "\nP" + "," * 16 + "L\n",
             [(letter, 9) for letter in "abcdefghijklmnop"], ["P"])]:
        sheet = sentences(read_sheet, text)
        hold(f"experts of {text!r}", getattr(sheet, "experts", sheet) == experts, sheet)
        hold(f"names of {text!r}", [row.name for row in getattr(sheet, "rows", [])] == names, sheet)


NO_NAME = "the expert has no name; write it above the score, or take the column out"
NO_SCORE = 'the expert "Bo" has no score; write a whole number from 1 to 100 below the name'
SCORE = 'the score "{}" is not a whole number from 1 to 100; ' \
    "write how much the expert counts beside the others, such as 10"
MANY_EXPERTS = "the expert is the sheet's 17th, and a sheet holds 16; keep 16 experts at most"
NO_ROW = "line 1, column 1: the sheet has no row of an event; write a row for each basic event of the tree"
HAS_ROW = 'the event "{}" has a row already, at line {} (cell A{}); keep one row for each event'
NO_EVENT = "the row has no name; write the name of a basic event in its first cell"
COUNTS = "one, three (low, likely, high) or four (a, b, c, d)"
TERM_FORMS = f"{FORMS}, and a term is Very Low, Low, Fairly Low, Medium, Fairly High, High or Very High"
GAP = "the cell is empty, and one after it is not; write the figures side by side from the second cell on"
IN_TERMS = '"0.1" stands in a row of terms; give the event terms alone, or figures alone'
IN_FIGURES = 'the term "Low" stands in a row of figures; give the event figures alone, or terms alone'
FALL = 'the figures do not rise: {}, "{}", is above {}, "{}"; write them from the lowest to the highest'
COMMON = "the figures have the common denominator {}, and a sheet holds up to 1000000; " \
    "write all of them over one denominator that it holds"
LIST_EXPERTS = 'list the experts in two rows at the top, "event" with their names and "score" with their scores'
ABC = '"abc" is neither a figure nor a term'
TWO = "event,Ann,Bo\nscore,10,7\n"
SHEET_FAULTS = [
    # The two rows of experts.
    ("event,,Bo\nscore,10,7\nP,0.1\n", [f"line 1, column 7 (cell B1): {NO_NAME}"]),
    ("event,Ann\nscore,10,7\nP,0.1\n", [f"line 2, column 10 (cell C2): {NO_NAME}"]),
    ("event,Ann,,Bo\nscore,1,,2\nP,0.1\n", [f"line 1, column 11 (cell C1): {NO_NAME}"]),
    ("event,Ann,Bo\nscore,10\nP,0.1\n", [f"line 1, column 11 (cell C1): {NO_SCORE}"]),
    ("event,Ann,Bo,\nscore,10,,\nP,0.1\n", [f"line 2, column 10 (cell C2): {NO_SCORE}"]),
    *((f"event,Ann\nscore,{score}\nP,Low\n", [f"line 2, column 7 (cell B2): {SCORE.format(score)}"])
      for score in ("0", "000", "101", "1000", "7.5", "ten", "-1", "1e1", "10%", "\u0661")),
    ("event,Ann,Ann\nscore,1,2\nP,Low,Low\n", [
        'line 1, column 11 (cell C1): the expert "Ann" stands in cell B1 already; give each expert another name']),
    *((f"event,{','.join(letters)}\nscore{',9' * len(letters)}\nP{',L' * len(letters)}\n", [
        f"line 1, column 39 (cell R1): {MANY_EXPERTS}"]) for letters in ("abcdefghijklmnopq", "abcdefghijklmnopqr")),
    ("event,Ann,Ann\nscore,x,2\nP\n", [
        'line 1, column 11 (cell C1): the expert "Ann" stands in cell B1 already; give each expert another name',
        f"line 2, column 7 (cell B2): {SCORE.format('x')}",
        'line 3, column 1 (cell A3): the event "P" has nothing but its name; '
        f"write a term by one expert at least, or figures: {COUNTS}"]),
    # No rows at all.
    *((text, [NO_ROW]) for text in ("", "\n\n", "event\n", "event,a,b,c,d\n", TWO, ";;\n;;\n", "sep=,\n", BOM)),
    # A row's name.
    ("P,0.1\n,0.2\n", [f"line 2, column 1 (cell A2): {NO_EVENT}"]),
    ("P 1,0.1\nQ,0.1\n P  1,0.2\n", [
        f"line 3, column 2 (cell A3): {HAS_ROW.format('P 1', 1, 1)}"]),
    ("sep=;\nP;x\nP;0,2\n", [
        f'line 2, column 3 (cell B1): "x" is neither a figure nor a term; {FORMS}',
        f"line 3, column 1 (cell A2): {HAS_ROW.format('P', 2, 1)}"]),
    ('"a ""b""",0.1\n', ['line 1, column 1 (cell A1): the name "a "b"" has a double quote; write it without']),
    ('a "b",0.1\n', ['line 1, column 1 (cell A1): the name "a "b"" has a double quote; write it without']),
    ("P\x1b,0.1\n", [f"line 1, column 2 (cell A1): {CONTROL.format('001B')}"]),
    ("P,,,\n", [f'line 1, column 1 (cell A1): the event "P" has nothing but its name; write figures: {COUNTS}']),
    (TWO + "P,,\n", ['line 3, column 1 (cell A3): the event "P" has nothing but its name; '
                     f"write a term by one expert at least, or figures: {COUNTS}"]),
    ("x" * 60, [f'line 1, column 1 (cell A1): the event "{"x" * 60}" has nothing but its name; '
                f"write figures: {COUNTS}"]),
    (f"{'x' * 61},\n", [f'line 1, column 1 (cell A1): the event "{"x" * 60}.." has nothing but its name; '
                        f"write figures: {COUNTS}"]),
    # The number of figures.
    ("P,0.1,0.2\n", [f'line 1, column 7 (cell C1): the event "P" has 2 figures; write {COUNTS}']),
    ("P,0,0,0,0,1\n", [f'line 1, column 11 (cell F1): the event "P" has 5 figures; write {COUNTS}']),
    ("P,0,0,0,0,0,1\n", [f'line 1, column 11 (cell F1): the event "P" has 6 figures; write {COUNTS}']),
    ("P,0.1,,0.3\n", [f"line 1, column 7 (cell C1): {GAP}"]),
    ("P,,0.1\n", [f"line 1, column 3 (cell B1): {GAP}"]),
    # Terms and figures.
    (TWO + "P,0.1,Low\n", [f"line 3, column 7 (cell C3): {IN_FIGURES}"]),
    (TWO + "P,Low,0.1\n", [f"line 3, column 7 (cell C3): {IN_TERMS}"]),
    (TWO + "P,,Low,0.1\n", [f"line 3, column 8 (cell D3): {IN_TERMS}"]),
    (TWO + "P,abc\n", [f"line 3, column 3 (cell B3): {ABC}; {TERM_FORMS}"]),
    (TWO + "P,,abc\n", [f"line 3, column 4 (cell C3): {ABC}; {TERM_FORMS}"]),
    (TWO + "P,Low,abc\n", [f"line 3, column 7 (cell C3): {ABC}; {TERM_FORMS}"]),
    (TWO + "P,0.1,abc\n", [f"line 3, column 7 (cell C3): {ABC}; {TERM_FORMS}"]),
    (TWO + "P,Low,High,abc\n", [f"line 3, column 12 (cell D3): {ABC}; {TERM_FORMS}"]),
    ("P,abc\n", [f"line 1, column 3 (cell B1): {ABC}; {FORMS}"]),
    (TWO + "P,Low,High,M\n", ['line 3, column 12 (cell D3): the term "M" stands under no expert; '
                              "write the expert's name and score above it, or take it out"]),
    ("event,Ann\nP,,Low\nQ,vh\n", [
        f'line 2, column 4 (cell C2): the term "Low" stands under no expert; {LIST_EXPERTS}',
        f'line 3, column 3 (cell B3): the term "vh" stands under no expert; {LIST_EXPERTS}']),
    # Figures that are none, at their places.
    ("P,5%\n", ['line 1, column 3 (cell B1): "5%" has a percent sign; write it as a decimal, 5% as 0.05']),
    ("sep=;\nP; -0,1\n", [f'line 2, column 4 (cell B1): "-0,1" has a minus sign; {RANGE}']),
    ("P,0,0,1.5\n", [f'line 1, column 7 (cell D1): "1.5" is above 1; {RANGE}']),
    ('P,"1.234,5"\n', [f'line 1, column 3 (cell B1): "1.234,5" is not a figure; {FORMS}']),
    ("P,0.1234567891\n", ['line 1, column 3 (cell B1): "0.1234567891" has 10 digits after the point, '
                          f"and a sheet holds 9; {SHORTEN}"]),
    # Figures that do not rise.
    ("P,0.3,0.2,0.4\n", [f"line 1, column 7 (cell C1): {FALL.format('low', '0.3', 'likely', '0.2')}"]),
    ("P,0.1,0.2,0.1\n", [f"line 1, column 11 (cell D1): {FALL.format('likely', '0.2', 'high', '0.1')}"]),
    ("P,.2,.1,.3,.4\n", [f"line 1, column 6 (cell C1): {FALL.format('a', '.2', 'b', '.1')}"]),
    ("P,.1,.3,.2,.4\n", [f"line 1, column 9 (cell D1): {FALL.format('b', '.3', 'c', '.2')}"]),
    ("P,.1,.2,.4,.3\n", [f"line 1, column 12 (cell E1): {FALL.format('c', '.4', 'd', '.3')}"]),
    ("P,1/2,1/3,1\n", [f"line 1, column 7 (cell C1): {FALL.format('low', '1/2', 'likely', '1/3')}"]),
    ("P;0,3;33/1000;1\n", [f"line 1, column 7 (cell C1): {FALL.format('low', '0,3', 'likely', '33/1000')}"]),
    # A common denominator that has no place.
    ("P,1/999983,1/2,1\n", [f"line 1, column 3 (cell B1): {COMMON.format(1999966)}"]),
    ("P,0.0000001,1/2,1\n", [f"line 1, column 3 (cell B1): {COMMON.format(10000000)}"]),
    # The first fault of each row, of all rows.
    (",5%\nP,0.1\nQ,x,5%\nP\n", [
        f"line 1, column 1 (cell A1): {NO_EVENT}",
        f'line 3, column 3 (cell B3): "x" is neither a figure nor a term; {FORMS}',
        f"line 4, column 1 (cell A4): {HAS_ROW.format('P', 2, 2)}"]),
]


def sheet_faults():
    for text, due in SHEET_FAULTS:
        hold_faults(read_sheet, text, *due)
    rows = [f"e{number},0.1\n" for number in range(1027)]
    hold("1,024 rows", len(getattr(sentences(read_sheet, "".join(rows[:1024])), "rows", [])) == 1024)
    many = "the row is the sheet's 1025th, and a sheet holds 1024; keep the rows of one tree's basic events"
    for count in 1025, 1027:
        hold_faults(read_sheet, "".join(rows[:count]), f"line 1025, column 1 (cell A1025): {many}")
    hold_faults(read_sheet, "event\nscore\n" + "".join(rows[:1025]), f"line 1027, column 1 (cell A1027): {many}")


# By docs/FORMATS.md: 43,832 is 38 AB 00 00, 43,844 44 AB 00 00.
BOOK = "event,first hour,end hour\nmain,43832,43844\nvalve,0,4294967295\nmain,0001,2\n"
BOOK_DATA = bytes.fromhex("0000 38AB0000 44AB0000  0200 00000000 FFFFFFFF  0000 01000000 02000000")
BOOK_EVENTS = ["main", "standby", "valve"]
HOUR = 'the {} hour "{}" is not a whole number from 0 to 4294967295; ' \
    "write the hours since commissioning, in digits alone"
PARTS = "write an event, a first hour and an end hour"
AGAIN = "write the hour from which the event is in service again"
TITLE = 'stands in the row of titles; write titles above the windows if an event is named "event"'
BOOK_FAULTS = [
    (",1,2\n", ["line 1, column 1 (cell A1): the window has no event; "
                "write the name of a basic event in its first cell"]),
    ("P\n", [f'line 1, column 1 (cell A1): the window of "P" has no first hour; {PARTS}']),
    ("P,,2\n", [f'line 1, column 3 (cell B1): the window of "P" has no first hour; {PARTS}']),
    ("P,1,,\n", [f'line 1, column 5 (cell C1): the window of "P" has no end hour; {PARTS}']),
    ("P,1,,3\n", [f'line 1, column 5 (cell C1): the window of "P" has no end hour; {PARTS}']),
    ("P,1,2,x\n", [f'line 1, column 7 (cell D1): "x" stands after the end hour; {PARTS}']),
    ("P,1,2,,x\n", [f'line 1, column 8 (cell E1): "x" stands after the end hour; {PARTS}']),
    *((f"P,{hour},9\n", [f"line 1, column 3 (cell B1): {HOUR.format('first', hour)}"]) for hour in (
        "x", "-1", "1.0", "1e1", "4294967296", "9" * 40, "\u0661", "+1", "1 000", "0x1")),
    ("P,1,4294967296\n", [f"line 1, column 5 (cell C1): {HOUR.format('end', 4294967296)}"]),
    ("P;43.832;43.844\n", [f"line 1, column 3 (cell B1): {HOUR.format('first', '43.832')}"]),
    ("P,5,5\n", [f"line 1, column 5 (cell C1): the end hour 5 is not after the first hour 5; {AGAIN}"]),
    ("P,5,04\n", [f"line 1, column 5 (cell C1): the end hour 4 is not after the first hour 5; {AGAIN}"]),
    ("event,5,6\n", [f'line 1, column 7 (cell B1): the hour "5" {TITLE}']),
    ("event,from,0\n", [f'line 1, column 12 (cell C1): the hour "0" {TITLE}']),
    ("event,,43.844\nP,1\n", [f'line 1, column 8 (cell C1): the hour "43.844" {TITLE}',
                              f'line 2, column 1 (cell A2): the window of "P" has no end hour; {PARTS}']),
    ("P,1\nQ,1,2\nR,2,1\n", [f'line 1, column 1 (cell A1): the window of "P" has no end hour; {PARTS}',
                             f"line 3, column 5 (cell C3): the end hour 1 is not after the first hour 2; {AGAIN}"]),
    ("P\t,1,2\n", [f"line 1, column 2 (cell A1): {TAB}"]),
]


def books():
    windows = sentences(read_book, BOOK)
    hold("a book's windows", windows == [("main", 43832, 43844, (2, 1, "A2")), ("valve", 0, 4294967295, (3, 1, "A3")),
                                         ("main", 1, 2, (4, 1, "A4"))], windows)
    hold("its bytes", book_data(windows, BOOK_EVENTS) == BOOK_DATA, book_data(windows, BOOK_EVENTS).hex())
    held = held_book(BOOK_DATA)
    hold("its bytes read", held == [(0, 43832, 43844), (2, 0, 4294967295), (0, 1, 2)], held)
    text = book_text(BOOK_EVENTS, held)
    hold("a book shown", text == BOOK.replace("0001", "1"), text)
    for text in (BOM + b"Events;first;end;\r\nmain;43832;43844;\r\nvalve;0;4294967295\r\nmain;1;2\r\n;;;\r\n",
                 "main,43832,43844\nvalve,0,4294967295\n\nmain,1,2",
                 'sep=;\n"main";"43832";"43844"\nvalve;0;4294967295\nmain;1;2'):
        windows = sentences(read_book, text)
        hold(f"the same windows of {text[:20]!r}", [window[:3] for window in windows] == [
            ("main", 43832, 43844), ("valve", 0, 4294967295), ("main", 1, 2)], windows)
    for text in "", "event,first hour,end hour\n", "EVENT\n", ";;\n", "\r\n", BOM:
        hold(f"an empty book: {text!r}", sentences(read_book, text) == [], sentences(read_book, text))
    hold("an empty book shown", book_text([], []) == "event,first hour,end hour\n")
    hold("an empty book's bytes", book_data([], ["P"]) == b"" and held_book(b"") == [])
    titled = sentences(read_book, "event,from,to\nevent,1,2\n")
    hold("an event named event", titled == [("event", 1, 2, (2, 1, "A2"))], titled)
    for text, due in BOOK_FAULTS:
        hold_faults(read_book, text, *due)
    many = "the window is the book's 257th, and a book holds 256; leave out windows that are over"
    hold("256 windows", len(sentences(read_book, "P,1,2\n" * 256)) == 256)
    for count in 257, 300:
        hold_faults(read_book, "P,1,2\n" * count, f"line 257, column 1 (cell A257): {many}")


# The sheets and the book of examples/, as their ORIGIN.md has them.
EXAMPLES = {
    "road_trip": (1, "event\nscore\nthe phone fails,0.8\nthe engine fails,0.1\nthe battery fails,0.4\n"),
    "container_seal": (2, "event\nscore\ne1,0.02,0.1,0.18\ne2,0.000002,0.00001,0.000018\ne3,0.0002,0.001,0.0018\n"
                       "e4,0.0002,0.001,0.0018\ne5,0.0002,0.001,0.0018\ne6,0.0002,0.001,0.0018\n"),
    "fuel_supply": (3, "event,E1,E2,E3,E4,E5,E6\nscore,15,12,10,12,5,8\n"
                    "P1,High,Fairly High,High,Medium,High,Medium\n"
                    "P2,High,Fairly High,High,Medium,High,Medium\n"
                    "P3,High,High,Very High,High,Very High,High\n"
                    "V1,Fairly High,Medium,Fairly High,High,Very High,Medium\n"
                    "V3,Medium,Fairly High,High,Fairly Low,High,Medium\n"
                    "S1,Fairly High,Medium,High,High,Medium,Fairly High\n"
                    "CF,Fairly Low,Fairly High,Fairly Low,Fairly High,Medium,Low\n"),
    "cooling_pumps": (4, "event,E1,E2,E3\nscore,10,7,5\nthe main pump stops,Low,Very Low,Low\n"
                      "the standby pump does not start,1/1250,3/1250,6/1250\n"
                      "the changeover valve sticks,1/730,2/730,5/730\n"
                      "the crew does not turn the valve,Low,Fairly Low,\n"
                      "the sea strainer is clogged,1/3650,2/3650,4/3650\n"
                      "the sea-water line bursts,0.00005,0.0001,0.0003\n"),
}
EXAMPLE_BOOK = "event,first hour,end hour\nmain,43832,43844\nvalve,43840,43848\nstandby,43880,43886\n"


def stored(name, file):
    with open(os.path.join(ROOT, "examples", name, file), "rb") as opened:
        return opened.read()


def examples():
    folders = [name for name in os.listdir(os.path.join(ROOT, "examples"))
               if os.path.exists(os.path.join(ROOT, "examples", name, "sheet.fts"))]
    hold("every example with a sheet is tried", sorted(folders) == sorted(EXAMPLES), folders)
    for name, (number, text) in EXAMPLES.items():
        data = stored(name, "sheet.fts")
        hold_data(f"{name} written", text, number, data)
        found, scores, entries = held_sheet(data)
        names = [row.name for row in read_sheet("f.csv", text.encode()).rows]
        shown = sheet_text([Expert(None, score) for score in scores], names, entries)
        hold(f"{name} shown", (found, shown) == (number, text), found, shown)
    data = stored("cooling_pumps", "windows.ftw")
    found = book_data(read_book("f.csv", EXAMPLE_BOOK.encode()), BOOK_EVENTS)
    hold("the book of cooling_pumps written", found == data, found.hex(), data.hex())
    hold("the book of cooling_pumps shown", book_text(BOOK_EVENTS, held_book(data)) == EXAMPLE_BOOK)


def number_bytes(number, width):
    return number.to_bytes(width, "little")


def random_entry(choice, experts):
    """An entry, and its bytes."""
    kind = choice.choice([NUMBERS, OPINIONS, FRACTIONS] if experts else [NUMBERS, FRACTIONS])
    if kind == OPINIONS:
        terms = [choice.choice([0, 0, choice.randint(1, 7)]) for _ in range(experts)]
        terms[choice.randrange(experts)] = choice.randint(1, 7)
        return (kind, tuple(terms)), bytes([kind, *terms]).ljust(17, b"\0")
    denominators = [1, 2, 3, 10, 1250, 4096, 999983, 1000000, choice.randint(1, 1000000)]
    most = UNIT if kind == NUMBERS else choice.choice(denominators)
    step = choice.choice([1, 1, 10, 1000, 10 ** 6])
    four = sorted(min(most, choice.randint(0, most // step) * step) for _ in range(4))
    four = choice.choice([four, [four[0]] * 4, [four[0], four[1], four[1], four[3]], [0, 0, most, most]])
    values = tuple(four) if kind == NUMBERS else (most, *four)
    width = 4 if kind == NUMBERS else 3
    return (kind, values), (bytes([kind]) + b"".join(number_bytes(value, width) for value in values)).ljust(17, b"\0")


def random_names(choice, count, letters):
    """Names that differ, without spaces at their ends and without two together."""
    names = []
    while len(names) < count:
        name = " ".join("".join(choice.choice(letters) for _ in range(choice.randint(1, 8))) for _ in range(2))
        if name not in names:
            names.append(name)
    return names


def random_sheet(choice):
    """A sheet's bytes, its number, scores and entries."""
    number, experts = choice.randrange(65536), choice.choice([0, 1, 2, 3, 6, 16])
    events = choice.choice([1, 2, 5, 12, choice.randint(1, 40)])
    scores = [choice.randint(1, 100) for _ in range(experts)]
    entries = [random_entry(choice, experts) for _ in range(events)]
    data = (b"FTS\1\0" + number_bytes(number, 2) + number_bytes(events, 2) + bytes([experts])
            + bytes(scores).ljust(16, b"\0") + b"".join(entry_bytes for _, entry_bytes in entries))
    return data, number, scores, [entry for entry, _ in entries]


def exported(choice, text):
    """The sheet as a spreadsheet with semicolons and decimal commas exports it, by Python's own CSV writer."""
    rows = list(csv.reader(io.StringIO(text)))
    width = max(map(len, rows)) + choice.randint(1, 2)
    padded = [row + [""] * (width - len(row)) for row in rows]
    commas = [[row[0]] + [cell.replace(".", ",") for cell in row[1:]] for row in padded[2:]]
    out = io.StringIO()
    quoting = choice.choice([csv.QUOTE_ALL, csv.QUOTE_MINIMAL])
    csv.writer(out, delimiter=";", lineterminator=choice.choice(["\r\n", "\n", "\r"]), quoting=quoting).writerows(
        padded[:2] + commas)
    first = choice.choice(["", "", "sep=;\r\n"])
    return choice.choice([b"", BOM]) + (first + out.getvalue()).encode()


def random_sheets(seed, count):
    choice = random.Random(seed)
    letters = "abcXYZ019,;.:'/-_%&=()<>\u00e9\u00df\u4e2d\U0001f6a2"
    kinds = set()
    for index in range(count):
        data, number, scores, entries = random_sheet(choice)
        kinds.update(kind for kind, _ in entries)
        held = held_sheet(data)
        hold(f"sheet {seed} {index} held", held == (number, scores, entries), held)
        names = random_names(choice, len(entries), letters)
        experts = [Expert(*pair) for pair in zip(random_names(choice, len(scores), letters + '"'), scores)]
        text = sheet_text(experts, names, held[2])
        hold_data(f"sheet {seed} {index} written again", text, number, data)
        sheet = sentences(read_sheet, text)
        hold(f"sheet {seed} {index} read", parts(sheet) == (experts, names, entries), text, sheet)
        again = sentences(read_sheet, exported(choice, text))
        hold(f"sheet {seed} {index} exported", parts(again) == (experts, names, entries), text, again)
    hold("every kind of entry among them", kinds == {NUMBERS, OPINIONS, FRACTIONS} or count < 100, kinds)


def random_books(seed, count):
    choice = random.Random(seed)
    for index in range(count):
        events = random_names(choice, choice.randint(1, 9), "ab,;7\u00e9")
        hours = [0, 1, choice.randint(2, 2 ** 31), 2 ** 32 - 2, 2 ** 32 - 1]
        windows = [(choice.randrange(len(events)), *sorted(choice.sample(hours, 2)))
                   for _ in range(choice.choice([0, 1, 3, 256]))]
        data = b"".join(number_bytes(event, 2) + number_bytes(first, 4) + number_bytes(end, 4)
                        for event, first, end in windows)
        hold(f"book {seed} {index} held", held_book(data) == windows)
        again = sentences(read_book, book_text(events, held_book(data)))
        hold(f"book {seed} {index} written again", book_data(again, events) == data, again)


def mutated(choice, data):
    """The text cut off, or with bytes changed, put in, taken out or moved."""
    pieces = [b'"', b",", b";", b"\n", b"\r", b"\0", b"\t", b"\xff", b"\xc3", b"/", b"e9", b"-", b"%", b" ", b'""',
              b"0" * 40, b"9" * 5000, b"1e999999999", b"0.5", b"1/3", b"Low", b"score", b"event", b"sep=;\n", BOM,
              "\u00a0\u2028".encode()]
    for _ in range(choice.randint(1, 6)):
        at, more = choice.randint(0, len(data)), choice.choice([0, 0, 1, 3, 10])
        put = choice.choice([b"", choice.choice(pieces), data[:more], bytes([choice.randrange(256)])])
        data = data[:at] + put + data[at + more:]
    return data[:choice.randint(0, len(data))] if choice.random() < 0.2 else data


def unfit(data):
    """What a sheet file has that docs/FORMATS.md does not allow, or ''."""
    experts, entries = data[9], [data[at:at + 17] for at in range(26, len(data), 17)]
    if not 1 <= len(entries) <= 1024 or experts > 16 or not all(1 <= score <= 100 for score in data[10:10 + experts]):
        return "header"
    for entry in entries:
        if entry[0] == OPINIONS and (not any(entry[1:]) or max(entry[1:]) > 7 or any(entry[1 + experts:])):
            return "opinions"
        width, last = (4, UNIT) if entry[0] == NUMBERS else (3, int.from_bytes(entry[1:4], "little"))
        values = [int.from_bytes(entry[at:at + width], "little") for at in range(1 if width == 4 else 4, 16, width)]
        if entry[0] != OPINIONS and (values + [last] != sorted(values + [last]) or not 1 <= last <= UNIT):
            return "values"
    return ""


def is_one_line(sentence):
    return not any(unicodedata.category(character) in ("Cc", "Cs", "Zl", "Zp") for character in sentence)


def hold_garbage(name, read, data):
    """A text is read, or has faults whose sentences fit on a line each and whose places are in the text."""
    try:
        return read("f.csv", data)
    except Faulty as faulty:
        lines = data.count(b"\n") + data.count(b"\r") + 1
        places = [fault.place[:2] for fault in faulty.faults]
        told = [fault.sentence() for fault in faulty.faults]
        hold(name, told and all(map(is_one_line, told)), data, *told)
        hold(f"{name}, places", places == sorted(places) and all(
            1 <= line <= lines and 1 <= column <= len(data) + 1 for line, column in places), data, *told)
    except Exception as error:
        hold(name, False, repr(error), data)
    return None


def garbage(seed, count):
    choice = random.Random(seed)
    good = [*map(as_bytes, SAME), SMALL.encode(), BOOK.encode(), *(text.encode() for _, text in EXAMPLES.values())]
    read_well = 0
    for index in range(count):
        data = mutated(choice, choice.choice(good))
        if index % 4 == 0:
            letters = b'ab,;"\n\r\t 0159./%-eE\xa0\xc2' if index % 8 else range(256)
            data = bytes(choice.choice(letters) for _ in range(index % 97))
        sheet = hold_garbage(f"garbage {seed} {index} as a sheet", read_sheet, data)
        book = hold_garbage(f"garbage {seed} {index} as a book", read_book, data)
        if sheet:
            read_well += 1
            written = sheet_data(7, [expert.score for expert in sheet.experts], entries_of(sheet))
            hold(f"garbage {seed} {index}, a sheet that the format allows", not unfit(written), unfit(written), data)
            text = sheet_text(sheet.experts, [row.name for row in sheet.rows], entries_of(sheet))
            hold_data(f"garbage {seed} {index}, the sheet written again", text, 7, written)
        if book is not None:
            names = sorted({window.event for window in book})
            again = book_text(names, held_book(book_data(book, names)))
            hold(f"garbage {seed} {index}, the book written again", [window[:3] for window in book] == [
                window[:3] for window in sentences(read_book, again)], data)
    print(f"{read_well} of {count} garbled texts were sheets all the same")


def main(words):
    seed = int(words[0]) if words else int(time.time())
    count = int(words[1]) if words[1:] else 2000
    print(f"sheets and books as spreadsheets, seed {seed}")
    for part in cells, figures, sheets, sheet_faults, books, examples:
        part()
    for part in random_sheets, random_books, garbage:
        part(seed, count)
    return finish("sheet_text.py")


sys.exit(main(sys.argv[1:]))
