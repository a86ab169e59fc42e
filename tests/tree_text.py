#!/usr/bin/env -S python3 -B
"""Tries fault trees as text: Galileo and Open-PSA, read and written, and each fault by a text that has it.

    tests/tree_text.py [SEED [ROUNDS]]      a seed from the clock and 2,000 rounds, unless said

Where SCRAM is at hand, it judges what is written as Open-PSA.
"""

import encodings.aliases
import glob
import os
import random
import re
import shutil
import subprocess
import sys
import tempfile
import time
import unicodedata
import zlib
from struct import pack, unpack_from

from counted import finish, hold

ROOT = os.path.dirname(os.path.dirname(os.path.realpath(__file__)))
sys.path.insert(0, ROOT)

from desk.text.fault_tree import AND, EVENT, OR, FaultTree, Mention, Node, arranged, first_mentions, held_tree
from desk.text.faults import Faulty, Place
from desk.text.galileo import galileo_text, read_galileo
from desk.text.open_psa import open_psa_text, read_open_psa


def galileo(text, rows=(), number=0):
    """The tree of a text; `number` is that of a text which says none, None for the tree's own."""
    stated = read_galileo("t.dft", text)
    return arranged(stated, number if stated.number is None else stated.number, rows)


def open_psa(data, rows=()):
    stated = read_open_psa("t.xml", data if isinstance(data, bytes) else data.encode())
    return arranged(stated, stated.number or 0, rows)


def sentences(reader, text):
    try:
        return ["no fault", repr(reader(text))]
    except Faulty as faulty:
        return [fault.sentence() for fault in faulty.faults]


def hold_faults(reader, file, text, *faults):
    """The text has these faults and no other: line, column, what was found, what can be done."""
    due = [f"{file}, line {line}, column {column}: {found}; {remedy}" for line, column, found, remedy in faults]
    said = sentences(reader, text)
    hold(f"the faults of {text[-200:]!r}", said == due, said, due)


def tree_file(number, nodes):
    """Each node is a kind and its inputs."""
    records, links, events = b"", [], 0
    for kind, inputs in nodes:
        records += pack("<BHH", kind, events if kind == EVENT else len(links), len(inputs))
        events += kind == EVENT
        links += inputs
    return b"FTF" + pack("<HHH", 1, number, len(nodes)) + records + pack(f"<{len(links)}H", *links)


def is_accepted(data):
    """Whether a file keeps the rules of docs/FORMATS.md."""
    letters, version, _, count = unpack_from("<3sHHH", data)
    if letters != b"FTF" or version != 1 or not 1 <= count <= 1024 or len(data) != 7 * count + 7:
        return False
    links = unpack_from(f"<{count - 1}H", data, 9 + 5 * count)
    events = first = 0
    for i in range(count):
        kind, a, b = unpack_from("<BHH", data, 9 + 5 * i)
        if kind == 0 and (a, b) != (events, 0):
            return False
        if kind != 0 and (kind > 2 or a != first or not 1 <= b <= 16 or max(links[a:a + b], default=i) >= i):
            return False
        events += kind == 0
        first += b
    return first == count - 1 and len(set(links)) == len(links)


def order_of(tree):
    return " ".join(node.name for node in tree.nodes)


# A tree with its bytes by hand: events A, B and C, then G, an OR of B and C, then T, an AND of A and G.
SMALL = '// nekbrod: tree number 258\ntoplevel "T";\n"T" and "A" "G";\n"G" or "B" "C";\n'
SMALL_BYTES = (b"FTF\1\0\2\1\5\0" b"\0\0\0\0\0" b"\0\1\0\0\0" b"\0\2\0\0\0" b"\2\0\0\2\0" b"\1\2\0\2\0"
               b"\1\0\2\0" b"\0\0\3\0")


def small_trees():
    tree = galileo(SMALL)
    hold("the bytes of a small tree", tree.data() == SMALL_BYTES, tree.data())
    hold("its names", order_of(tree) == "A B C G T", tree)
    hold("its events", tree.events() == ["A", "B", "C"])
    hold("held again", held_tree(SMALL_BYTES, ["A", "B", "C", "G", "T"]) == tree)
    hold("default names", order_of(held_tree(SMALL_BYTES)) == "e0 e1 e2 g3 g4")
    hold("one event", galileo("toplevel A;").data() == b"FTF\1\0\0\0\1\0\0\0\0\0\0")
    hold("default names by event and by node", order_of(held_tree(tree_file(
        1, [(EVENT, []), (OR, [0]), (EVENT, []), (AND, [2, 1])]))) == "e0 g1 e1 g3")
    places = first_mentions(read_galileo("t.dft", SMALL))
    hold("first mentions", {name: place[:2] for name, place in places.items()} == {
        "T": (2, 10), "A": (3, 9), "G": (3, 13), "B": (4, 8), "C": (4, 12)}, places)
    hold("their order", list(places) == ["T", "A", "G", "B", "C"])
    late = first_mentions(read_galileo("t.dft", "T and A; toplevel T;"))
    hold("a top that is named late", list(late.items()) == [("T", Place(1, 1, None)), ("A", Place(1, 7, None))], late)


ORDERS = [
    # the text, the rows, the names in the order of the file
    ("toplevel T; T and A G; G or B C;", "", "A B C G T"),
    ("toplevel T; T and A G; G or B C;", "C B A", "C B A G T"),
    ("toplevel T; T and A G; G or B C;", "C X G", "C A B G T"),
    ("toplevel T; T and A G; G or B C;", "C C C B", "C B A G T"),
    ("toplevel T; T and G A; G or B C;", "", "A B C G T"),
    ("toplevel T; A; G or B C; B; T and A G; C;", "C B A", "A B C G T"),
    ("toplevel T; T and A G; B; A; G or B C; C;", "", "A B C G T"),
    ("toplevel T; B; H or C; G or B; A; T and A G H; C;", "", "B C H G A T"),
    ("toplevel T; T or G H; H and D C; G and B A;", "", "D C B A G H T"),
    ("toplevel T; A; G or B; T and A G;", "", "B A G T"),
    ("toplevel T; G or X; T and F G; F or Y Z; Y;", "", "X Z G Y F T"),
]

# Texts that state the small tree.
SAME = [
    "toplevel T;T and A G;G or B C;",
    'TopLevel\t"T"; T AND A G; G Or B C;',
    "T and A G; G or B C; toplevel T;",
    'toplevel "T";;; "T"and"A""G";\r\n"G"or"B" "C";',
    "toplevel T; // top; no more\rT and /* A; */ A\n/* B\nC */\nG; G or B// and\nC ; /* ** / */",
    'toplevel " T "; T and "A\u00a0" G; G or "\u2003B" "C";',
]
NUMBERS = [
    ("// nekbrod: tree number 3", 3), ("//NEKBROD:tree  number 065535 ", 65535), ("/// nekbrod: tree number 0", 0),
    ("", None), ("// nekbrod, tree number 3", None), ("// tree number 3\n/* nekbrod */", None),
]


def galileo_reading():
    for text, rows, order in ORDERS:
        tree = galileo(text, rows.split())
        hold(f"the order of {text!r}", order_of(tree) == order and is_accepted(tree.data()), tree, order)
    for text in SAME:
        tree = galileo(f"// nekbrod: tree number 258\n{text}", "ABC")
        hold(f"the small tree as {text!r}", tree.data() == SMALL_BYTES, tree)
    hold("a byte-order mark", galileo("\ufefftoplevel A;").events() == ["A"])
    tree = galileo('toplevel "the  top ; // event";\n"the top ; // event" or pump-1.a_Ü7 "and" "toplevel" "Или";')
    hold("names", order_of(tree) == "pump-1.a_Ü7 and toplevel Или the top ; // event", tree)
    hold("a name that begins with =", order_of(galileo('toplevel T; T and "=A" B;')) == "=A B T")
    for text, number in NUMBERS:
        stated = read_galileo("t.dft", f"toplevel A; {text}\n")
        hold(f"the number of {text!r}", stated.number == number, stated)


def own_number(tree):
    """By docs/FORMATS.md."""
    data = tree.data()
    names = [*tree.events(), tree.nodes[-1].name]
    return 2 + zlib.crc32(data[:5] + b"\0\0" + data[7:] + "".join(f"{name}\n" for name in names).encode()) % 65534


# Texts without a number, the rows, and the number that comes from the tree itself: it is the same in every release.
OWN_NUMBERS = [
    ("toplevel T; T or G c; G and a b;", "a b c", 13094), ("toplevel T; T or G c; G and a b;", "c a b", 61451),
    ("toplevel A;", "", 65502), ('toplevel "Kühlwasser 冷却水";', "", 4712),
    ("toplevel T; T and A G; G or B C;", "", 48641),
]
# What is changed of the last one, and whether the number is another then.
OTHER_TREES = [
    ("the order of the rows", "toplevel T; T and A G; G or B C;", "A C B", True),
    ("an event's name", "toplevel T; T and A G; G or B D;", "A B D", True),
    ("names with a space moved", 'toplevel T; T and "A " G; G or " B" C;', "A B C", False),
    ("a gate's kind", "toplevel T; T or A G; G or B C;", "A B C", True),
    ("both kinds", "toplevel T; T or A G; G and B C;", "A B C", True),
    ("what a gate joins", "toplevel T; T and B G; G or A C;", "A B C", True),
    ("the order of inputs", "toplevel T; T and G A; G or B C;", "A B C", True),
    ("a gate more", "toplevel T; T and A G; G or B H; H or C;", "A B C", True),
    ("an event more", "toplevel T; T and A G; G or B C D;", "A B C D", True),
    ("the top's name", "toplevel U; U and A G; G or B C;", "A B C", True),
    ("another gate's name", "toplevel T; T and A H; H or B C;", "A B C", False),
    ("the order of statements", "G or B C; T and A G; toplevel T; // a comment", "A B C", False),
]


def own_numbers():
    for text, rows, number in OWN_NUMBERS:
        tree = galileo(text, rows.split(), None)
        hold(f"the number of {text!r}, rows {rows}", tree.number == own_number(tree) == number, tree)
        hold(f"the number of {text!r}: it is not written", "nekbrod" not in galileo_text(tree), galileo_text(tree))
        text = f"{text}\n"
        said = galileo(f"// nekbrod: tree number {number}\n{text}", rows.split(), None)
        hold(f"the number {number} of {text!r}, said", said == tree, said)
        for other in 0, 1, 65535, number + 1, number - 1:
            said = galileo(f"// nekbrod: tree number {other}\n{text}", rows.split(), None)
            hold(f"the number {other} of {text!r}", said == tree._replace(number=other), said)
            hold(f"the number {other} of {text!r}, written", galileo_text(said).splitlines()[0]
                 == f"// nekbrod: tree number {other}", galileo_text(said))
    for name, text, rows, is_other in OTHER_TREES:
        tree = galileo(text, rows.split(), None)
        hold(f"{name}: another number", (tree.number != number) == is_other, tree)


ONLY = "only and and or have a place in a tree file"
AT_MOST = "the true probability is at most the upper end, and may lie below the lower one"
AT_LEAST = "the true probability is at least the lower end, and may lie above the upper one"
OR_OR_AND = f"{ONLY}: with or in its place {AT_MOST}; with and {AT_LEAST}"
AND_IN_PLACE = f"{ONLY}: with and in its place, which leaves the order out, {AT_MOST}"
MOVE = "the figures of an event stand in its row of the sheet: move them there"
LEAVE = f'{MOVE}, and leave "A"; or nothing here'
NO_TOP = (1, 1, "the file has no toplevel", 'name the top in a statement of its own: toplevel "NAME";')
IN_QUOTES = "put a name that has it in quotes, or take it out"
DUE = "end each statement with ;, or put the word in quotes if it is a name"
NUMBER_LINE = ("a comment begins with nekbrod: and is not the line of the tree number",
               "write // nekbrod: tree number 3, or begin it with another word")
CONTROL = "take it out: a name has no control characters"
NO_KIND = "write and or or before its inputs, and end each statement with ;"
ONE_TOP = "name one top, and end each statement with ;"

GALILEO_FAULTS = [
    ("", NO_TOP),
    ("// toplevel A;\n", NO_TOP),
    ('"toplevel" or A;', NO_TOP),
    ("A and B;\nC xor D;", NO_TOP, (2, 3, 'the gate "C" is of the kind xor', ONLY)),
    ("toplevel A;\n  toplevel B;", (2, 3, "toplevel stands twice, first at line 1, column 1", "name one top")),
    ("toplevel A; TOPLEVEL;", (1, 13, "toplevel stands twice, first at line 1, column 1", "name one top")),
    ("toplevel;", (1, 1, "toplevel has no name", 'write toplevel "NAME";')),
    ("toplevel A B;", (1, 12, "toplevel has more than one name", ONE_TOP)),
    ('toplevel "A"\n"A" or "B";', (2, 1, "toplevel has more than one name", ONE_TOP)),
    ("toplevel or;", (1, 10, "the word or stands where a name is due", DUE)),
    ("toplevel A; A or B", (1, 13, "the file ends within the statement that begins here", "end it with ;")),
    (" toplevel A", (1, 2, "the file ends within the statement that begins here", "end it with ;")),
    ('toplevel A;\n"A" or "B;\n"C" or D;\n',
     (2, 8, "a quote does not end in its line", 'end the name with "')),
    ('toplevel "A;', (1, 10, "a quote does not end in its line", 'end the name with "')),
    ("toplevel A; A or B /* ; C", (1, 20, "a comment does not end", "end it with */")),
    ("toplevel /*/ A;", (1, 10, "a comment does not end", "end it with */")),
    ("toplevel A; A or B@C;", (1, 19, "the character @ (U+0040) is not expected here", IN_QUOTES)),
    ("toplevel A; A or / B;", (1, 18, "the character / (U+002F) is not expected here", IN_QUOTES)),
    ("toplevel A; A or B\0;", (1, 19, "the character U+0000 is not expected here", IN_QUOTES)),
    ("toplevel A; \udc80 or B;", (1, 13, "the character U+DC80 is not expected here", IN_QUOTES)),
    ("toplevel A; A ? B;", (1, 15, "the character ? (U+003F) is not expected here", "take it out")),
    ("toplevel A; A or,B C;", (1, 17, "the character , (U+002C) is not expected here", "take it out")),
    ('toplevel A; A or "B\tC";', (1, 20, "a name has the character U+0009", CONTROL)),
    ('toplevel A; A or "B\u2028";', (1, 20, "a name has the character U+2028", CONTROL)),
    ('toplevel "A\uffff";', (1, 12, "a name has the character U+FFFF", CONTROL)),
    ('toplevel "\ud800";', (1, 11, "a name has the character U+D800", CONTROL)),
    ('toplevel A; A or "";', (1, 18, "a name is empty", "write the name between the quotes")),
    ('toplevel "  ";', (1, 10, "a name is empty", "write the name between the quotes")),
    ('toplevel A; and A B;', (1, 13, "the word and stands where a name is due", DUE)),
    ('toplevel A;\n"A" and "B" "C"\n"B" OR "D";', (3, 5, "the word OR stands where a name is due", DUE)),
    ('toplevel A; A "B" "C";', (1, 15, 'a name stands where the kind of the gate "A" is due', NO_KIND)),
    ('toplevel A; "A" lambda=0.1 dorm=0.5;', (1, 17, 'the event "A" has the figure lambda', LEAVE)),
    ('toplevel A; "A" prob = 0.1;', (1, 17, 'the event "A" has the figure prob', LEAVE)),
    ("toplevel A; A or B rate=1;", (1, 20, "the figure rate stands where a name is due", MOVE)),
    ("toplevel A; lambda=1;", (1, 13, "the figure lambda stands where a name is due", MOVE)),
    ("toplevel A; A be;", (1, 15, 'the gate "A" is of the kind be', LEAVE)),
    ("toplevel A;\nparam x;", (2, 1, "param names a figure", f"{MOVE}, and take the statement out")),
    ("toplevel A; // nekbrod: tree 3", (1, 13, *NUMBER_LINE)),
    ("toplevel A; /* nekbrod: tree number 3 */", (1, 13, *NUMBER_LINE)),
    ("toplevel A; // Nekbrod: tree number -3", (1, 13, *NUMBER_LINE)),
    ("toplevel A;\n//nekbrod: tree number 65536", (2, 1, "the tree number is above 65535",
                                                   "a tree number is 0 to 65535")),
    (f"toplevel A; // nekbrod: tree number {'9' * 5000}", (1, 13, "the tree number is above 65535",
                                                           "a tree number is 0 to 65535")),
    ("// nekbrod: tree number 3\n// nekbrod: tree number 3\ntoplevel A;",
     (2, 1, "the tree number stands twice, first at line 1, column 1", "take one of the two out")),
    ("toplevel A; A xor B;\r\nB 2of3 C D E; C or @;\rD;\nparam p;\n",
     (1, 15, 'the gate "A" is of the kind xor', ONLY), (2, 3, 'the gate "B" is of the kind 2of3', OR_OR_AND),
     (2, 20, "the character @ (U+0040) is not expected here", IN_QUOTES),
     (4, 1, "param names a figure", f"{MOVE}, and take the statement out")),
]

OTHER_KINDS = [
    # Votes that three inputs cannot have are among them.
    *((kind, ONLY) for kind in ("xor", "por", "por<=", "spare", "wsp", "csp", "hsp", "fdep", "pdep", "seq", "mutex",
                                "not", "inhibit", "ADN", "0of3", "vot0", "of3", "=1", "4of3", "4of4", "vot4", "2of2",
                                "2of4", "10of3", "vot10", f"{'9' * 5000}of3", f"vot{'9' * 5000}")),
    *((kind, AND_IN_PLACE) for kind in ("pand", "pand<=", "pand<", "pand>", "pand-incl", "pand-excl", "PAND")),
    *((kind, OR_OR_AND) for kind in ("2of3", "vot2", "2OF3", "02of03")),
    *((kind, f"{ONLY}: write or") for kind in ("1of3", "vot1", "01of3", "1of4")),
    *((kind, f"{ONLY}: write and") for kind in ("3of3", "vot3", "03of03", "VOT3")),
]
FIGURES = ("lambda", "prob", "rate", "shape", "cov", "res", "repl", "phases", "dorm", "mean", "stddev", "interval")


def galileo_faults():
    for text, *faults in GALILEO_FAULTS:
        hold_faults(lambda text: read_galileo("t.dft", text), "t.dft", text, *faults)
    for kind, remedy in OTHER_KINDS:
        hold_faults(galileo, "t.dft", f'toplevel G;\n"G" {kind} A "B" C;',
                    (2, 5, f'the gate "G" is of the kind {kind}', remedy))
    for figure in FIGURES:
        hold_faults(galileo, "t.dft", f'toplevel G; G or A;\n"A" {figure}=0.25;',
                    (2, 5, f'the event "A" has the figure {figure}', LEAVE))


TWICE = "state it once, or give one of the two another name"
ONE_GATE = "a node has one gate, since events are taken to be independent:"
DRAW_ONCE = f"{ONE_GATE} draw the shared part once, as A or (B and C) for (A or B) and (A or C)"
ONE_OUT = f"{ONE_GATE} take one of the two out"
NO_INPUT = "the top is an input of no gate: take it out here, or name another top"
LINK = "make it an input of a gate there, or take it out"
CIRCLE = "are a circle: each has the next as an input, the last the first"
LEADS_BACK = "a tree has no circle: take the input out that leads back"
SIXTEEN = " ".join(f"a{i}" for i in range(16))

TREE_FAULTS = [
    ("toplevel A; A or B; A and C;", (1, 21, '"A" is stated twice, first at line 1, column 13', TWICE)),
    ("toplevel T; T or A; A; A;", (1, 24, '"A" is stated twice, first at line 1, column 21', TWICE)),
    ("toplevel T; T or A; A; A and B;", (1, 24, '"A" is stated twice, first at line 1, column 21', TWICE)),
    ("toplevel G; G and;", (1, 13, 'the gate "G" has no inputs',
                            "a gate has 1 to 16: name them, or make it a basic event")),
    (f"toplevel G; G or {SIXTEEN} a16;", (1, 13, 'the gate "G" has 17 inputs',
     "a gate has 1 to 16: group some of them under a further gate of the same kind")),
    ("toplevel T;\nT and G H;\nG or A B;\nH or A C;",
     (4, 6, '"A" is an input of "H", and of "G" at line 3, column 6', DRAW_ONCE)),
    ("toplevel T;\nT and A B A A;", (2, 11, '"A" is an input of "T" twice, first at line 2, column 7', ONE_OUT),
     (2, 13, '"A" is an input of "T" twice, first at line 2, column 7', ONE_OUT)),
    ("toplevel T;\nT and A;\nG or T B;", (3, 6, 'the top "T" is an input of "G"', NO_INPUT)),
    ("toplevel T;\nT and A;\nR or G;\nG or T B;", (4, 6, 'the top "T" is an input of "G"', NO_INPUT)),
    ("toplevel A; G or A;", (1, 18, 'the top "A" is an input of "G"', NO_INPUT)),
    ("toplevel T;\nT and A G;\nG or B T;", (2, 1, f'the gates "T", "G" {CIRCLE}', LEADS_BACK)),
    ("toplevel T;\nT and A G;\nG or B H;\nH and C G;", (3, 1, f'the gates "G", "H" {CIRCLE}', LEADS_BACK),
     (4, 9, '"G" is an input of "H", and of "T" at line 2, column 9', DRAW_ONCE)),
    ("toplevel T;\nT or H;\nG or H;\nH and G;", (3, 1, f'the gates "G", "H" {CIRCLE}', LEADS_BACK),
     (3, 6, '"H" is an input of "G", and of "T" at line 2, column 6', DRAW_ONCE)),
    ("toplevel T;\nT or A;\nZ and X;\nY or Z;\nX and Y;", (3, 1, f'the gates "Z", "X", "Y" {CIRCLE}', LEADS_BACK)),
    ("toplevel T;\nT or A;\nX or Y;\nY or X;\nV or V;", (3, 1, f'the gates "X", "Y" {CIRCLE}', LEADS_BACK),
     (5, 1, 'the gate "V" is an input of itself', LEADS_BACK)),
    ("toplevel T;\nT or A;\nX or Y;\nY or Z;\nZ or Y X;", (4, 1, f'the gates "Y", "Z" {CIRCLE}', LEADS_BACK),
     (5, 6, '"Y" is an input of "Z", and of "X" at line 3, column 6', DRAW_ONCE)),
    ("toplevel T;\nT or A T;", (2, 1, 'the gate "T" is an input of itself', LEADS_BACK)),
    ("toplevel T;\nT or A;\nG and B H;\nH or C;\nD;", (3, 1, 'the gate "G" is not beneath the top "T"', LINK),
     (5, 1, 'the basic event "D" is not beneath the top "T"', LINK)),
    ("toplevel X; T or A;", (1, 13, 'the gate "T" is not beneath the top "X"', LINK)),
    ("toplevel T; D; T and;", (1, 13, 'the basic event "D" is not beneath the top "T"', LINK),
     (1, 16, 'the gate "T" has no inputs', "a gate has 1 to 16: name them, or make it a basic event")),
]


def chain(gates, last):
    """Gates g0, g1, .. of one input each, one to a line from line 2 on."""
    inputs = [f"g{i}" for i in range(1, gates)] + [last]
    return "toplevel g0;\n" + "".join(f"g{i} or {name};\n" for i, name in enumerate(inputs))


def tree_faults():
    for text, *faults in TREE_FAULTS:
        hold_faults(galileo, "t.dft", text, *faults)
    ladder = "".join(f"a{i} or b{i} c{i}; b{i} or a{i + 1}; c{i} or a{i + 1};" for i in range(100))
    hold("100 shared gates above each other", len(sentences(galileo, f"toplevel a0; {ladder}")) == 100)
    hold("16 inputs", len(galileo(f"toplevel G; G or {SIXTEEN};").nodes) == 17)
    tree = galileo(chain(1023, "e"))
    hold("a chain of 1,023 gates", is_accepted(tree.data()) and order_of(tree) == " ".join(
        ["e", *(f"g{i}" for i in reversed(range(1023)))]), tree.nodes[:3])
    most = "a tree file has at most 1024: draw a part of the tree as one basic event"
    hold_faults(galileo, "t.dft", chain(1024, "e"),
                (1025, 10, 'the tree has 1025 nodes, and "e" is number 1025', most))
    hold_faults(galileo, "t.dft", chain(1026, "e"),
                (1025, 10, 'the tree has 1027 nodes, and "g1024" is number 1025', most))
    names = ", ".join(f'"g{i}"' for i in range(1000))
    hold_faults(galileo, "t.dft", chain(1000, "g0"), (2, 1, f"the gates {names} {CIRCLE}", LEADS_BACK))


def model(body, data=""):
    """An Open-PSA model; the body begins on line 3, the model data two lines after its end."""
    return f'<opsa-mef>\n<define-fault-tree name="F">\n{body}\n</define-fault-tree>\n{data}</opsa-mef>\n'


def gate(formula, more=""):
    """A model of the gate G, whose formula begins on line 4."""
    return model(f'<define-gate name="G">\n{formula}\n</define-gate>{more}')


def event(name):
    return f'<basic-event name="{name}"/>'


AN_EVENT = event("A")
SMALL_MODEL = """<?xml version="1.0"?>
<?other program?>
<opsa-mef name="plant" xmlns:xsi="x" xsi:noNamespaceSchemaLocation="y">
<!-- no gate -->
<label>all</label>
<define-fault-tree name="F">
<label>the tree</label>
<attributes><attribute name="tree-number" value="258"/><attribute name="x" value="y"/></attributes>
<define-gate name="T"><label>a &lt; b</label><attributes/>
<and><basic-event name="A"/><gate name="G"/></and></define-gate>
<define-gate name="G" role="private"><or><event name="B"/><event name="C" type="basic-event"/></or></define-gate>
<define-basic-event name="B"/>
</define-fault-tree>
<model-data><define-basic-event name="C" role="public"><label>c</label></define-basic-event></model-data>
</opsa-mef>
"""
COMPONENTS = model(
    f'<define-gate name="T"><and><gate name="F.K.G"/><gate name="H"/><event name="F.L.B"/></and></define-gate>'
    f'<define-component name="K"><define-gate name="G"><or>{event("A")}</or></define-gate></define-component>'
    f'<define-component name="L" role="private"><label>l</label><define-component name="M"><define-gate name="H">'
    f'{event("F.C")}</define-gate></define-component><define-basic-event name="B"/></define-component>')
NESTED = gate(f'<and><or>{event("A")}<and>{event("B")}{event("C")}</and></or><or>{event("D")}{event("E")}</or></and>')
TAKEN = gate(f'<and><or>{event("G.1")}</or><gate name="G.2"/></and>',
             f'<define-gate name="G.2"><or><or>{event("B")}</or></or></define-gate>')

MODELS = [
    # a model, the names in the order of the file, the kinds, the inputs of the gates
    (model('<define-basic-event name="A"/>'), "A", "e", ""),
    (model("", '<model-data><define-basic-event name="A"/></model-data>'), "A", "e", ""),
    (gate(AN_EVENT), "A G", "eo", "0"),
    (gate(f"<and>{AN_EVENT}</and>"), "A G", "ea", "0"),
    (gate(f'<attributes><attribute name="gate-kind" value="and"/></attributes>{AN_EVENT}'), "A G", "ea", "0"),
    (gate(f'<attributes><attribute name="gate-kind" value="or"/></attributes>{AN_EVENT}'), "A G", "eo", "0"),
    (NESTED, "A B C D E G.2 G.1 G.3 G", "eeeeeaooa", "12 05 34 67"),
    (TAKEN, "G.1 B G.3 G.2.1 G.2 G", "eeoooa", "0 1 3 24"),
    (COMPONENTS, "B A F.C G H T", "eeeooa", "1 2 340"),
    (gate('<or><basic-event name="F.G"/><event name=" F.G  x"/></or>', '<define-basic-event name="G x"/>'
          '<define-basic-event name="F.G"/>'), "F.G G x G", "eeo", "01"),
]


def open_psa_reading():
    hold("a small model", open_psa(SMALL_MODEL).data() == SMALL_BYTES)
    hold("with another order of events", order_of(open_psa(SMALL_MODEL, "CAB")) == "C A B G T")
    for text, order, kinds, inputs in MODELS:
        tree, links = open_psa(text), iter(inputs.split())
        due = [Node(node.name, "eao".index(kind), () if kind == "e" else tuple(map(int, next(links))))
               for node, kind in zip(tree.nodes, kinds)]
        hold(f"the names of {text!r}", order_of(tree) == order, tree)
        hold(f"the nodes of {text!r}", list(tree.nodes) == due and len(kinds) == len(due), tree)
    for encoding in "utf-8", "utf-8-sig", "utf-16", "iso-8859-1", "windows-1252", "UTF-16LE", "ISO-8859-15":
        text = f'<?xml version="1.0" encoding="{encoding.replace("-sig", "")}"?>{gate(event("Ü"))}'
        tree = open_psa(text.encode(encoding))
        hold(f"a model in {encoding}", order_of(tree) == "Ü G", tree)
    deep = open_psa(gate("<or>" * 1023 + AN_EVENT + "</or>" * 1023))
    hold("1,023 nested formulas", len(deep.nodes) == 1024 and is_accepted(deep.data()))
    hold("the number of a tree", [read_open_psa("t.xml", text.encode()).number for text in (
        SMALL_MODEL, gate(AN_EVENT))] == [258, None])
    stated = read_open_psa("t.xml", NESTED.encode())
    hold("places", [(one.name, *one.place[:2]) for one in stated.statements] == [
        ("G", 3, 1), ("G.1", 4, 6), ("G.2", 4, 33), ("G.3", 4, 95)], stated)
    hold("the place of the top", stated.top == Mention("G", Place(3, 1, None)), stated.top)


ONLY_THESE = "only <and> and <or> have a place in a tree file"
NO_HOUSE = "a tree file has no house events: write the tree as it is with this one on or off"
ONLY_TREE = "only a fault tree has a place in a tree file: take it out"
NO_PLACE = "it has no place there: take it out"
NAME_IT = 'give it one: name="NAME"'
NO_QUOTES = "take it out: a name has no double quotes and no control characters"
DEFINE = 'define it, or write <basic-event name="H"/> if it is not developed further'
ONE_FORMULA = "give it one: <and> or <or> over its inputs, or the one input that it has"
NO_SUCH = "it has no place in a tree file: take it out"
DEFINED_TWICE = "define it once, or give one of the two another name"
USE_IT = "make it an input of a gate, or take it out"
EXPORT = "correct it, or export it again from the program that it comes from"
PUT_DOCTYPE = "take the DOCTYPE out, and write what its entities stand for in their place"
SAVE = "save the file as UTF-8"
IN_TREE, IN_G, IN_MODEL = '<define-fault-tree name="F">', '<define-gate name="G">', "<opsa-mef>"
A_GATE = f'{IN_G}{AN_EVENT}</define-gate>'


def noted(*numbers):
    notes = "".join(f'<attribute name="tree-number"{number}/>\n' for number in numbers)
    return f"<attributes>\n{notes}</attributes>"


MODEL_FAULTS = [
    ("<scram/>", (1, 1, "the file begins with <scram>", "an Open-PSA model begins with <opsa-mef>")),
    ("<opsa-mef/>", (1, 1, "the model has no fault tree", "state it in <define-fault-tree>")),
    (model(A_GATE, '<define-fault-tree name="H"/>'),
     (5, 1, "a further fault tree begins, the first at line 2, column 1",
      "put all gates in one, or each tree in a file of its own")),
    ("<opsa-mef>\n<define-fault-tree/></opsa-mef>", (2, 1, "<define-fault-tree> has no name", NAME_IT)),
    (model(f"<define-gate>{AN_EVENT}</define-gate>"), (3, 1, "<define-gate> has no name", NAME_IT)),
    (model(' <define-gate name=" "><xor/></define-gate>'), (3, 2, "<define-gate> has no name", NAME_IT)),
    (model("<define-basic-event/>"), (3, 1, "<define-basic-event> has no name", NAME_IT)),
    (model(f"{A_GATE}\n<define-component/>"), (4, 1, "<define-component> has no name", NAME_IT)),
    (gate("<basic-event/>"), (4, 1, "<basic-event> has no name", NAME_IT)),
    (gate("<or>\n<gate name=''/></or>"), (5, 1, "<gate> has no name", NAME_IT)),
    (gate("<event/>"), (4, 1, "<event> has no name", NAME_IT)),
    (gate('<basic-event name="a&quot;b"/>'),
     (4, 1, 'the name in <basic-event> has the character " (U+0022)', NO_QUOTES)),
    (model('<define-gate name="a&#10;b"/>'), (3, 1, "the name in <define-gate> has the character U+000A", NO_QUOTES)),
    (gate(f"<and>\n{AN_EVENT}\n<not>{AN_EVENT}</not>\n</and>"), (6, 1, "<not> stands in <and>", ONLY_THESE)),
    (gate("<or><or>\n<xor/></or></or>"), (5, 1, "<xor> stands in <or>", ONLY_THESE)),
    (gate('<house-event name="H"/>'), (4, 1, f"<house-event> stands in {IN_G}", NO_HOUSE)),
    (model('<define-house-event name="H"/>'), (3, 1, f"<define-house-event> stands in {IN_TREE}", NO_HOUSE)),
    (gate("<xor/>", "\n<define-house-event/>"), (4, 1, f"<xor> stands in {IN_G}", ONLY_THESE),
     (6, 1, f"<define-house-event> stands in {IN_TREE}", NO_HOUSE)),
    (gate('<event name="H" type="house-event"/>'),
     (4, 1, 'the type of <event name="H"> is neither gate nor basic-event', NO_HOUSE)),
    (gate('<event name="H" type="thing"/>'),
     (4, 1, 'the type of <event name="H"> is neither gate nor basic-event', "write one of them, or no type")),
    (gate('<or>\n<constant value="true"/></or>'),
     (5, 1, "<constant> stands in <or>", "a tree file has no constants: write the tree as it is with this one put in")),
    (model('<define-CCF-group name="C" model="MGL"/>'),
     (3, 1, f"<define-CCF-group> stands in {IN_TREE}",
      "events are taken to be independent: write the common cause as a basic event of its own")),
    (model(A_GATE, '<model-data>\n<define-parameter name="p"><int value="1"/></define-parameter></model-data>'),
     (6, 1, "<define-parameter> stands in <model-data>", f"{MOVE}, and take it out")),
    (model("<x:gate/>"), (3, 1, f"<x:gate> stands in {IN_TREE}", NO_PLACE)),
    (model(A_GATE, '<define-gate name="H"/>'), (5, 1, f"<define-gate> stands in {IN_MODEL}", NO_PLACE)),
    (gate(f"<and>\n<label>x</label>{AN_EVENT}</and>"), (5, 1, "<label> stands in <and>", NO_PLACE)),
    (gate('<basic-event name="A">\n<label/></basic-event>'),
     (5, 1, '<label> stands in <basic-event name="A">', NO_PLACE)),
    (gate('<gate name="H"/>'), (4, 1, '<gate name="H"> names nothing that is defined', DEFINE)),
    (gate('<event name="H"/>'), (4, 1, '<event name="H"> names nothing that is defined', DEFINE)),
    (gate('<event name="H" type="gate"/>'), (4, 1, '<event name="H"> names nothing that is defined', DEFINE)),
    (gate('<gate name="F.A"/>', '\n<define-basic-event name="A"/>'),
     (4, 1, '<gate name="F.A"> names the basic event "A"', 'write <basic-event name="A"/>')),
    (gate('<event name="A" type="gate"/>', '\n<define-basic-event name="A"/>'),
     (4, 1, '<event name="A"> names the basic event "A"', 'write <basic-event name="A"/>')),
    (gate('<basic-event name="F.G"/>'),
     (4, 1, '<basic-event name="F.G"> names the gate "G"', 'write <gate name="G"/>')),
    (model(f'<define-gate name="G" role="own">{AN_EVENT}</define-gate>'),
     (3, 1, f"the role of {IN_G} is neither public nor private", "write one of them, or no role")),
    (gate(f'<or k="2">{AN_EVENT}</or>'), (4, 1, "<or> has the attribute k", NO_SUCH)),
    (f'<opsa-mef version="2">{model(A_GATE)[10:]}', (1, 1, "<opsa-mef> has the attribute version", NO_SUCH)),
    (gate('<event name="A" role="public"/>', '\n<define-basic-event name="A"/>'),
     (4, 1, '<event name="A"> has the attribute role', NO_SUCH)),
    (gate(f"<or>{AN_EVENT} and</or>"), (4, 1, "<or> has text in it", "take it out, or put it in a <label>")),
    (model(f"{A_GATE}\n{A_GATE}"), (4, 1, '"G" is defined twice, first at line 3, column 1', DEFINED_TWICE)),
    (model(f'{A_GATE}\n<define-basic-event name="G"/>'),
     (4, 1, '"G" is defined twice, first at line 3, column 1', DEFINED_TWICE)),
    (gate(AN_EVENT, '\n<define-basic-event name="A"/>\n<define-basic-event name="A"/>'),
     (7, 1, '"A" is defined twice, first at line 6, column 1', DEFINED_TWICE)),
    (gate("<label>x</label>"), (3, 1, f"{IN_G} has 0 formulas", ONE_FORMULA)),
    (gate(f'{AN_EVENT}{event("B")}'), (3, 1, f"{IN_G} has 2 formulas", ONE_FORMULA)),
    (gate("<and>\n<or/>\n</and>"), (5, 1, 'the gate "G.1" has no inputs',
                                   "a gate has 1 to 16: name them, or make it a basic event")),
    (gate(f"<and>{AN_EVENT}\n{AN_EVENT}</and>"),
     (5, 1, '"A" is an input of "G" twice, first at line 4, column 6', ONE_OUT)),
    (model(f'{A_GATE}\n<define-gate name="H">{event("B")}</define-gate>\n'
           f'<define-gate name="I">{event("C")}</define-gate>'),
     (4, 1, 'the gates "G", "H", "I" are inputs of no gate',
      "a tree has one top: make the others inputs of a gate beneath it, or take them out")),
    (gate(AN_EVENT, f'\n<define-gate name="H">{event("B")}</define-gate>'),
     (6, 1, 'the gates "G", "H" are inputs of no gate',
      "a tree has one top: make the others inputs of a gate beneath it, or take them out")),
    (model(f'{IN_G}<gate name="H"/></define-gate>\n<define-gate name="H"><gate name="G"/></define-gate>'),
     (3, 1, f'the gates "G", "H" {CIRCLE}', LEADS_BACK)),
    (model(f'{IN_G}<or>\n<or><gate name="G"/></or></or></define-gate>'),
     (3, 1, f'the gates "G", "G.1" {CIRCLE}', LEADS_BACK)),
    (gate(AN_EVENT, '\n<define-basic-event name="B"/>\n<define-basic-event name="C"/>'),
     (6, 1, '<define-basic-event name="B"> is an input of no gate', USE_IT),
     (7, 1, '<define-basic-event name="C"> is an input of no gate', USE_IT)),
    (model(""), (2, 1, f"{IN_TREE} has no gate", "define its gates, or one basic event alone")),
    (model('<define-basic-event name="A"/><define-basic-event name="B"/>'),
     (2, 1, f"{IN_TREE} has no gate", "define its gates, or one basic event alone")),
    *((model(noted(number) + A_GATE), (4, 1, "the tree number is not a number from 0 to 65535", "correct its value"))
      for number in (' value="65536"', ' value=""', ' value="three"', ' value="-1"', "", f' value="{"9" * 5000}"')),
    (model(noted(' value="3"', ' value="3"') + A_GATE),
     (5, 1, "the tree number stands twice, first at line 4, column 1", "take one of the two out")),
    (gate(f'<attributes>\n<attribute name="gate-kind" value="AND"/></attributes>{AN_EVENT}'),
     (5, 1, f"the kind of {IN_G} is neither and nor or", "write one of them, or take it out")),
    ("", (1, 1, "the XML cannot be read: no element found", EXPORT)),
    ("<opsa-mef>\n</opsa>", (2, 3, "the XML cannot be read: mismatched tag", EXPORT)),
    (gate(AN_EVENT)[:-3], (7, 1, "the XML cannot be read: unclosed token", EXPORT)),
    (gate("<or>&x;</or>"), (4, 5, "the XML cannot be read: undefined entity", EXPORT)),
    ('<?xml version="1.0"?>\n <!DOCTYPE opsa-mef [<!ENTITY x "y">]>\n<opsa-mef/>',
     (2, 2, "the file declares a document type", PUT_DOCTYPE)),
    ("\ufeff<!DOCTYPE opsa-mef>\n<opsa-mef/>", (1, 1, "the file declares a document type", PUT_DOCTYPE)),
    ('<?xml version="1.0" encoding="EBCDIC"?>\n<opsa-mef/>', (1, 1, 'the encoding "EBCDIC" is not known', SAVE)),
    (gate("<!-- ÜÜ --><gate/>"), (4, 12, "<gate> has no name", NAME_IT)),
]

OTHER_FORMULAS = [
    *((tag, "", ONLY_THESE) for tag in ("not", "xor", "nand", "nor", "cardinality", "iff", "imply", "atleast")),
    *(("atleast", f' min="{least}"', ONLY_THESE)
      for least in ("0", "x", "", "4", "10", "9" * 5000, "\u0662", "\u00b2")),
    *(("atleast", f' min="{least}"', f"{ONLY_THESE}: write <or>") for least in ("1", "01")),
    *(("atleast", f' min="{least}"', f"{ONLY_THESE}: write <and>") for least in ("3", "003")),
    *(("atleast", f' min="{least}"', f"{ONLY_THESE}: with <or> in its place {AT_MOST}; with <and> {AT_LEAST}")
      for least in ("2", "02", " 2 ")),
]
UNREADABLE = [
    # bytes, the encoding, where the first byte is that is not in it
    (gate(event("A?")).encode().replace(b"?", b"\xff"), "utf-8", 4, 21),
    (b'<?xml version="1.0" encoding="US-ASCII"?>\n<opsa-mef name="\xe9"/>', "US-ASCII", 2, 17),
    (b'<?xml version="1.0" encoding="windows-1252"?>\n<opsa-mef name="\x81"/>', "windows-1252", 2, 17),
]


def open_psa_faults():
    for text, *faults in MODEL_FAULTS:
        hold_faults(open_psa, "t.xml", text, *faults)
    for tag, attributes, remedy in OTHER_FORMULAS:
        hold_faults(open_psa, "t.xml", gate(f'<{tag}{attributes}>{AN_EVENT}{event("B")}{event("C")}</{tag}>'),
                    (4, 1, f"<{tag}> stands in {IN_G}", remedy))
    for tag in ("event-tree", "initiating-event", "functional-event", "sequence", "rule", "alignment", "substitution"):
        hold_faults(open_psa, "t.xml", model(A_GATE, f'<define-{tag} name="X"><collect-formula/></define-{tag}>'),
                    (5, 1, f"<define-{tag}> stands in {IN_MODEL}", ONLY_TREE))
    for tag in "float", "exponential", "constant", "parameter":
        parent = '<define-basic-event name="A">'
        hold_faults(open_psa, "t.xml", gate(AN_EVENT, f"{parent}\n<{tag}/></define-basic-event>"),
                    (6, 1, f"<{tag}> stands in {parent}", f"{MOVE}, and leave {parent} empty, or nothing here"))
    for data, encoding, line, column in UNREADABLE:
        hold_faults(open_psa, "t.xml", data, (line, column, f"a byte is not in the encoding {encoding}", SAVE))
    hold_faults(open_psa, "t.xml", b"<opsa-mef>\n</opsa>\xff", (2, 3, "the XML cannot be read: mismatched tag", EXPORT))
    said = sentences(open_psa, gate("<or>" * 20000 + AN_EVENT + "</or>" * 20000))
    found = 'the tree has 20001 nodes, and "G.1024" is number 1025'
    hold("20,000 nested formulas", len(said) == 1 and found in said[0], said)
    for encoding in sorted({*encodings.aliases.aliases, *encodings.aliases.aliases.values()}):
        said = sentences(open_psa, f'<?xml version="1.0" encoding="{encoding}"?>{gate(AN_EVENT)}')
        hold(f"the encoding {encoding}", len(said) == 1 or said[0] == "no fault", said)


def small_tree(*names):
    return held_tree(SMALL_BYTES, list(names))


def writing():
    text = galileo_text(small_tree("A", "B", "C", "G", "T"))
    hold("a small tree as Galileo", text == '// nekbrod: tree number 258\ntoplevel "T";\n'
         '"G" or "B" "C";\n"T" and "A" "G";\n', text)
    mixed = held_tree(tree_file(0, [(EVENT, []), (OR, [0]), (EVENT, []), (AND, [2, 1])]))
    text = galileo_text(mixed)
    hold("events between gates as Galileo", text == '// nekbrod: tree number 0\ntoplevel "g3";\n'
         '"e0";\n"g1" or "e0";\n"e1";\n"g3" and "e1" "g1";\n', text)
    hold("one event as Galileo", galileo_text(held_tree(tree_file(1, [(EVENT, [])]))) ==
         '// nekbrod: tree number 1\ntoplevel "e0";\n')
    text = open_psa_text(small_tree("A", "B", "C", "G", "T"), {"A": "0.1", "C": "0.000002"})
    hold("a small tree as Open-PSA", text == SMALL_WRITTEN, text)
    text = open_psa_text(small_tree("a & b", "B", "C<", "G", "T"), {"a & b": "0.1", "C<": "0.000002"})
    labels = {"e0": "a &amp; b", "e1": "B", "e2": "C&lt;", "g3": "G", "g4": "T"}
    due = SMALL_WRITTEN
    for name, old in zip(labels, "ABCGT"):
        due = due.replace(f'name="{old}"', f'name="{name}"')
    due = re.sub('    (<define-(?:gate|basic-event) name="(..)">)\n',
                 lambda made: f"    {made.group(1)}\n      <label>{labels[made.group(2)]}</label>\n", due)
    hold("names that are no identifiers", text == due, text, due)
    for names in ("A B- C G T", "A B--B C G T", "A 1 C G T", "A Ü C G T", "A B.1 C G T"):
        hold(f"no identifiers among {names}", 'name="e1"' in open_psa_text(small_tree(*names.split())))
    for names in ("A B-1 C G T", "_ B_ C G T-a-7"):
        hold(f"identifiers {names}", 'name="e1"' not in open_psa_text(small_tree(*names.split())))


SMALL_WRITTEN = """<?xml version="1.0" encoding="UTF-8"?>
<opsa-mef>
  <define-fault-tree name="tree-258">
    <attributes>
      <attribute name="tree-number" value="258"/>
    </attributes>
    <define-gate name="T">
      <and>
        <basic-event name="A"/>
        <gate name="G"/>
      </and>
    </define-gate>
    <define-gate name="G">
      <or>
        <basic-event name="B"/>
        <basic-event name="C"/>
      </or>
    </define-gate>
  </define-fault-tree>
  <model-data>
    <define-basic-event name="A">
      <float value="0.1"/>
    </define-basic-event>
    <define-basic-event name="B">
    </define-basic-event>
    <define-basic-event name="C">
      <float value="0.000002"/>
    </define-basic-event>
  </model-data>
</opsa-mef>
"""


def random_tree(random):
    """An accepted tree; its nodes stand in any order that the file allows."""
    nodes, loose, size = [], [], random.choice((1, 2, 3, 5, 10, 40, 200))
    while len(nodes) < size or len(loose) > 1:
        if loose and (len(nodes) >= size or random.random() < 0.4):
            count = min(len(loose), random.choice((1, 2, 2, 3, 16)) if len(nodes) < size else 16)
            inputs = random.sample(loose, count)
            loose = [node for node in loose if node not in inputs]
            nodes.append((random.choice((AND, OR)), inputs))
        else:
            nodes.append((EVENT, []))
        loose.append(len(nodes) - 1)
    return tree_file(random.randrange(65536), nodes)


def random_names(random, count):
    letters = random.choice(("abcXYZ_", "ab  ;/*-.0", "äи漢 '<>&=", "aA,\\\u0301\U0001d11e"))
    names = set()
    while len(names) < count:
        names.add(" ".join("".join(random.choice(letters) for _ in range(random.randrange(1, 12))).split()) or "x")
        letters += random.choice("abcdefghijklmnopqrstuvwxyz")
    return random.sample(sorted(names), count)


def shape(tree):
    """The gates and events by name, whatever their order."""
    names = [node.name for node in tree.nodes]
    return tree.number, names[-1], {node.name: (node.kind, [names[i] for i in node.inputs]) for node in tree.nodes}


def round_trips(random, count):
    for _ in range(count):
        data = random_tree(random)
        plain = held_tree(data)
        named = held_tree(data, random_names(random, len(plain.nodes)))
        hold("a random tree is one", is_accepted(data) and plain.data() == data, data)
        for tree in plain, named:
            again = galileo(galileo_text(tree), tree.events(), None)
            hold("as Galileo and back", again == tree and again.data() == data, galileo_text(tree), again)
            own = tree._replace(number=own_number(tree))
            text = galileo_text(own)
            again = galileo(text, tree.events(), None)
            hold("with a number of its own, and back", again == own and "nekbrod: tree" not in text, text, again)
            hold("the range of a number of its own", 2 <= own.number <= 65535, own.number)
        again = open_psa(open_psa_text(plain), plain.events())
        hold("as Open-PSA and back", shape(again) == shape(plain) and again.events() == plain.events(), plain, again)
        again = open_psa(open_psa_text(named), plain.events())
        is_plain = all(re.fullmatch(r"[A-Za-z_]\w*(-\w+)*", node.name, re.ASCII) for node in named.nodes)
        hold("names that are none to Open-PSA", shape(again) == shape(named if is_plain else plain), named, again)
    for name in sorted(glob.glob(os.path.join(ROOT, "examples/*/tree.ftf"))):
        with open(name, "rb") as file:
            data = file.read()
        tree = held_tree(data)
        hold(f"{name} as Galileo", galileo(galileo_text(tree), tree.events()).data() == data)
        hold(f"{name} as Open-PSA", open_psa(open_psa_text(tree), tree.events()).data() == data)


GOOD = [text.encode() for text in (SMALL, galileo_text(held_tree(tree_file(
    7, [(EVENT, []), (OR, [0]), (EVENT, []), (EVENT, []), (AND, [2, 1, 3])]))), SAME[4], SMALL_MODEL, SMALL_WRITTEN,
    NESTED, TAKEN, COMPONENTS)] + [SMALL_MODEL.encode("utf-16")]
PIECES = [
    b'"', b";", b"//", b"/*", b"*/", b"toplevel", b" and ", b" or ", b"=", b"\0", b"\xff", b"\xc3\xa9", b"\r", b"\n",
    b"<", b">", b"</", b"/>", b"<and>", b"</and>", b"<or>", b"name=", b'name="G"', b"&", b"&#9;", b"&lt;", b"<!--",
    b"<![CDATA[", b"<!DOCTYPE x [", b"<?", b"T", b"A", b"G", b"// nekbrod: tree number ", b"99999", b"\xef\xbb\xbf",
]


def spoiled(random, data):
    """A text with a few random changes."""
    for _ in range(random.randrange(1, 6)):
        at = random.randrange(len(data) + 1)
        end = min(len(data), at + random.choice((0, 0, 1, 1, 5, 40)))
        put = random.choice((b"", bytes([random.randrange(256)]), random.choice(PIECES), random.choice(PIECES),
                             data[end:end + 30], random.choice(GOOD)[at:end]))
        data = data[:at] + put + data[end:]
    return data[:random.randrange(len(data) + 1)] if random.random() < 0.1 else data


def is_told(faulty):
    """Faults in order, each in one line, at a place."""
    places = [fault.place[:2] for fault in faulty.faults]
    said = "".join(fault.sentence() for fault in faulty.faults)
    return (places and places == sorted(places) and min(min(place) for place in places) >= 1
            and not any(unicodedata.category(character) in ("Cc", "Cs") for character in said))


def garbage(random, rounds):
    """Whatever the bytes: an accepted tree or faults."""
    trees = collected = 0
    for turn in range(rounds):
        data = bytes(random.randrange(256) for _ in range(random.randrange(80))) if turn % 10 == 0 else (
            spoiled(random, random.choice(GOOD)))
        for reader, text in (open_psa, data), (galileo, data.decode("utf-8", "surrogateescape")):
            try:
                tree = reader(text)
                trees += 1
                hold("a tree of garbage is accepted", is_accepted(tree.data()), data)
                hold("and written again", galileo(galileo_text(tree), tree.events(), None) == tree, data)
            except Faulty as faulty:
                collected += len(faulty.faults)
                hold("the faults of garbage", is_told(faulty), data, [fault.sentence() for fault in faulty.faults])
            except Exception as error:
                hold("garbage", False, data, error)
    print(f"of spoiled texts {trees} were trees, and the others had {collected} faults")
    hold("trees and faults among spoiled texts", trees and collected)


def probability(tree, given):
    values = []
    for node in tree.nodes:
        value = 1.0
        for i in node.inputs:
            value *= values[i] if node.kind == AND else 1 - values[i]
        values.append(float(given[node.name]) if node.kind == EVENT else value if node.kind == AND else 1 - value)
    return values[-1]


def judged_by_scram(random, count):
    if not shutil.which("scram"):
        print("skipped: what SCRAM says of Open-PSA texts (there is no scram)")
        return
    with tempfile.TemporaryDirectory() as folder:
        name = os.path.join(folder, "tree.xml")
        for turn in range(count):
            plain = held_tree(random_tree(random))
            named = FaultTree(plain.number, tuple(node._replace(name=other) for node, other in zip(
                plain.nodes, random_names(random, len(plain.nodes)))))
            tree = random.choice((plain, named))
            given = {event: f"0.{random.randrange(1, 1000):03}" for event in tree.events()}
            with open(name, "w", encoding="utf-8") as file:
                file.write(open_psa_text(tree, given))
            ran = subprocess.run(["scram", "--validate", name], stdout=subprocess.PIPE, stderr=subprocess.STDOUT)
            hold("SCRAM takes it", ran.returncode == 0, ran.stdout, open_psa_text(tree))
            if 1 < len(tree.nodes) <= 20:
                ran = subprocess.run(["scram", "--probability", "1", name], stdout=subprocess.PIPE,
                                     stderr=subprocess.STDOUT)
                found = re.search(rb'<sum-of-products [^>]*probability="([^"]*)"', ran.stdout)
                due = probability(tree, given)
                hold("SCRAM's probability", found and abs(float(found.group(1)) - due) <= 1e-4 * due, ran.stdout, due)


def main(words):
    seed = int(words[0]) if words else int(time.time())
    rounds = int(words[1]) if words[1:] else 2000
    print(f"fault trees as text, seed {seed}")
    small_trees()
    galileo_reading()
    own_numbers()
    galileo_faults()
    tree_faults()
    open_psa_reading()
    open_psa_faults()
    writing()
    round_trips(random.Random(seed), rounds // 4)
    garbage(random.Random(seed), rounds)
    judged_by_scram(random.Random(seed), 20)
    return finish("tree_text.py")


sys.exit(main(sys.argv[1:]))
