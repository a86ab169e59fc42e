#!/usr/bin/env -S python3 -B
# The command's words for texts, names and pictures: write, show, check, nodes, plot, levels --csv, and the names of
# cut-sets; and files that do not belong together. What is due is worked out by hand, or stands in the shipped examples.
# All but the shipped examples run in a copy, where a stand-in for rt is on the path.
import contextlib
import os
import random
import re
import resource
import shutil
import signal
import sys
import tempfile
import time
import unicodedata
import zlib
from xml.etree import ElementTree

from command_runs import (
    CAN_BE_SHUT_OUT, FUEL, LAST_HOUR, LEVELS, NODES, PAUSE, PLAN, PROGRAMS, PUMPS, ROAD, ROAD_LEVELS, ROOT,
    SHUT_OUT, UNIT, Copy, ended, finish, four, fractions, hold, last_of, on_terminal, read, run, sheet, skipped,
    table_rows, terms, tree, two, until, usual_signals, window, write)

sys.path.insert(0, ROOT)
sys.dont_write_bytecode = True

from desk.commands.check import given  # noqa: E402
from desk.commands.show import text_of  # noqa: E402
from desk.commands.together import check_together  # noqa: E402
from desk.commands.write import made_of  # noqa: E402
from desk.screen import Stop  # noqa: E402
from desk.text.faults import Faulty  # noqa: E402

COMMAND = os.path.join(ROOT, "nekbrod")
SIGNALS = (signal.SIGINT, signal.SIGTERM, signal.SIGHUP, signal.SIGQUIT)
LONGEST_TEXT = 1 << 20
GARBLED = 2000

# Of each example its texts, and by hand what each of its files holds.
EXAMPLES = {
    "road_trip": (["tree.dft", "sheet.csv"], {
        "tree.ftf": 'tree 1, 5 nodes: 3 basic events, 1 AND, 1 OR; the top event is "trip"',
        "sheet.fts": "a sheet for tree 1, 3 basic events: 3 by four numbers; 0 experts",
        "names.txt": "the names of 5 nodes"}),
    "container_seal": (["tree.xml", "sheet.csv"], {
        "tree.ftf": 'tree 2, 10 nodes: 6 basic events, 1 AND, 3 OR; the top event is "container"',
        "sheet.fts": "a sheet for tree 2, 6 basic events: 6 by four numbers; 0 experts",
        "names.txt": "the names of 10 nodes"}),
    "cooling_pumps": (["tree.dft", "sheet.csv", "windows.csv"], {
        "tree.ftf": 'tree 4, 10 nodes: 6 basic events, 2 AND, 2 OR; the top event is "no sea water to the coolers"',
        "sheet.fts": "a sheet for tree 4, 6 basic events: 1 by four numbers, 2 by opinions, 3 by fractions; "
                     "3 experts of score 10, 7, 5",
        "windows.ftw": "a book of 3 work windows, from hour 43832 to hour 43886",
        "names.txt": "the names of 10 nodes and of 3 experts"}),
    "fuel_supply": (["tree.dft", "sheet.csv"], {
        "tree.ftf": 'tree 3, 9 nodes: 7 basic events, 1 AND, 1 OR; the top event is "no fuel to engine 1"',
        "sheet.fts": "a sheet for tree 3, 7 basic events: 7 by opinions; 6 experts of score 15, 12, 10, 12, 5, 8",
        "names.txt": "the names of 9 nodes and of 6 experts"}),
}


def example(name, *files):
    return [os.path.join(ROOT, "examples", name, file) for file in files]


ROAD_TEXTS = example("road_trip", "tree.dft", "sheet.csv")
PUMP_TEXTS = example("cooling_pumps", "tree.dft", "sheet.csv", "windows.csv")
ROAD_NAMES = read(example("road_trip", "names.txt")[0])


def shipped(name):
    """The files of an example that write makes, with their bytes."""
    return {file: read(*example(name, file)) for file in EXAMPLES[name][1]}


def said(name, ran, status, *lines, out=""):
    """The status, standard output to the byte, and standard error line by line."""
    hold(f"{name}: status", ran.status == status, ran)
    hold(f"{name}: standard output", ran.out == out.encode("utf-8", "surrogateescape"), ran)
    hold(f"{name}: standard error", ran.lines == [f"nekbrod: {line}" for line in lines], ran)


def all_in(folder):
    """Every file of a folder with its bytes; None for what is no file, and where there is no folder."""
    if not os.path.isdir(folder):
        return None
    paths = {name: os.path.join(folder, name) for name in sorted(os.listdir(folder))}
    return {name: read(path) if os.path.isfile(path) else None for name, path in paths.items()}


class Writing:
    """A place for texts, and the folder that write makes files in."""

    def __init__(self, copy, work, name="writing"):
        self.copy, self.place = copy, os.path.join(work, name)
        self.out = os.path.join(self.place, "out")
        os.makedirs(self.place)

    def text(self, name, data):
        return write(os.path.join(self.place, name), data)

    def clear(self):
        if os.path.islink(self.out) or os.path.isfile(self.out):
            os.remove(self.out)
        shutil.rmtree(self.out, ignore_errors=True)

    def start(self, *words, **more):
        return self.copy.start("write", *words, "-o", self.out, **{"cwd": self.place, **more})

    def run(self, *words, **more):
        return ended(self.start(*words, **more))

    def new(self, *words, **more):
        """A run into a folder that is new."""
        self.clear()
        return self.run(*words, **more)

    def refused(self, name, ran, status, *lines, left=None):
        """These lines alone, and in the folder only what was there."""
        said(name, ran, status, *lines)
        hold(f"{name}: nothing written", all_in(self.out) == left, ran)


def written(name, ran, folder, files, holds=None):
    """These files and no other, a line for each, and nothing else said."""
    hold(f"{name}: status", ran.status == 0, ran)
    hold(f"{name}: no errors", ran.errors == "", ran)
    made = all_in(folder) or {}
    hold(f"{name}: its files", sorted(made) == sorted(files), ran)
    for file, data in files.items():
        hold(f"{name}: {file}", made.get(file) == data, ran)
    if holds:
        lines = "".join(f"wrote {os.path.join(folder, file)}: {held}\n" for file, held in holds.items())
        hold(f"{name}: its lines", ran.out == lines.encode("utf-8", "surrogateescape"), ran)


def shipped_texts(work, bare):
    """By the command itself, and by a copy where nothing is built and rt is not on the path."""
    for name, (texts, holds) in EXAMPLES.items():
        folder = os.path.join(work, f"shipped {name}")
        ran = run([COMMAND, "write", *example(name, *texts), "-o", folder])
        written(name, ran, folder, shipped(name), holds)
        hold(f"{name}: for others to read", {os.stat(os.path.join(folder, file)).st_mode & 0o777
                                             for file in os.listdir(folder)} == {0o644}, ran)
        folder = os.path.join(work, f"unbuilt {name}")
        ran = bare.run("write", *example(name, *texts), "-o", folder)
        written(f"{name}, nothing built and no rt", ran, folder, shipped(name), holds)
    hold("nothing built: nothing was", not os.path.exists(bare.target))


def names_text(files, nodes):
    """The names file for a tree's and a sheet's bytes: the checksums are CRC-32."""
    sums = [f"{word} {zlib.crc32(data):08x}" for word, data in zip(("tree", "sheet"), files)]
    lines = ["nekbrod names", *sums, *(f"{i} {node}" for i, node in enumerate(nodes))]
    return "".join(line + "\n" for line in lines).encode()


THREE_TREE = 'toplevel "top";\n"top" or "c" "a" "b";\n'
THREE_SHEET = "b,0.2\nc,0.3\na,0.1\n"
FIGURES = {"a": 100000000, "b": 200000000, "c": 300000000}


def own_number(data, *names):
    """By docs/FORMATS.md, from a tree file of the number 0, the names of its events and that of its top."""
    return 2 + zlib.crc32(data + "".join(f"{name}\n" for name in names).encode()) % 65534


def three_files(order, number=None):
    """By hand: an OR of c, a and b, whose events stand in this order; with its own number where none is given."""
    records, links = [(0, 0, 0), (0, 1, 0), (0, 2, 0), (2, 0, 3)], [order.index(name) for name in "cab"]
    if number is None:
        number = own_number(tree(records, links, 0), *order, "top")
    files = {"tree.ftf": tree(records, links, number),
             "sheet.fts": sheet([four(*[FIGURES[name]] * 4) for name in order], number=number)}
    nodes = [*(f"event {name}" for name in order), "or top"]
    return {**files, "names.txt": names_text(files.values(), nodes)}


def numbers_and_orders(writing):
    """The tree's number, and the order of the basic events."""
    texts = writing.text("three.dft", THREE_TREE), writing.text("three.csv", THREE_SHEET)
    numbered = writing.text("numbered.dft", "// nekbrod: tree number 77\n" + THREE_TREE), texts[1]
    for name, words, files in (
            ("no number", texts, three_files("bca")),
            *((f"the number {number}", [*texts, "--number", number], three_files("bca", int(number)))
              for number in ("0", "1", "7", "65535", "0007")),
            ("the text's own number", numbered, three_files("bca", 77)),
            ("a number above the text's own", [*numbered, "--number", "5"], three_files("bca", 5)),
            ("the order of rows", [*texts, "--order", "rows"], three_files("bca")),
            ("the order of mention", [*texts, "--order", "mention"], three_files("cab")),
            ("options before the texts", ["--order", "mention", "--number", "3", *texts], three_files("cab", 3)),
            ("options among the texts", [texts[0], "--number", "3", texts[1]], three_files("bca", 3))):
        written(name, writing.new(*words), writing.out, files)
    writing.clear()
    ran = writing.copy.run("write", "-o", writing.out, *texts)
    written("the folder first", ran, writing.out, three_files("bca"))
    stated = writing.text("stated.dft", 'toplevel "top";\n"c";\n"top" or "c" "a" "b";\n')
    for order, events in ("rows", "bac"), ("mention", "abc"):
        ran = writing.new(stated, texts[1], "--order", order)
        written(f"an event with a statement, {order}", ran, writing.out, three_files(events))


TAKES = ("nekbrod write takes a tree's text, a sheet's spreadsheet, at most one of a book, and -o FOLDER; "
         "see nekbrod write --help")


def bad_words_of_write(writing):
    """Words that are not taken: one line, and nothing written."""
    out = ["-o", writing.out]
    see = "see nekbrod write --help"
    writing.clear()
    for name, words, line in (
            ("no word", [], TAKES), ("no folder", ROAD_TEXTS, TAKES), ("one text", [ROAD_TEXTS[0], *out], TAKES),
            ("four texts", [*PUMP_TEXTS, PUMP_TEXTS[2], *out], TAKES), ("no text", out, TAKES),
            ("options after --", ["--", *ROAD_TEXTS, *out], TAKES),
            ("two folders", [*out, *ROAD_TEXTS, *out], f"-o is given twice; {see}"),
            ("two numbers", ["--number", "1", *ROAD_TEXTS, *out, "--number", "1"], f"--number is given twice; {see}"),
            ("two orders", ["--order", "rows", "--order", "rows", *ROAD_TEXTS, *out], f"--order is given twice; {see}"),
            ("-o at the end", [*ROAD_TEXTS, "-o"], f"-o takes a word, FOLDER, and there is none; {see}"),
            ("--number at the end", [*ROAD_TEXTS, *out, "--number"],
             f"--number takes a word, N, and there is none; {see}"),
            ("--order at the end", [*ROAD_TEXTS, *out, "--order"],
             f"--order takes a word, rows or mention, and there is none; {see}"),
            ("an unknown option", [*ROAD_TEXTS, *out, "--wat"], f"nekbrod write has no option --wat; {see}"),
            ("an unknown letter", ["-n", "3", *ROAD_TEXTS, *out], f"nekbrod write has no option -n; {see}"),
            *((f"the order {order!r}", [*ROAD_TEXTS, *out, "--order", order],
               f"the order of the basic events is rows or mention, not '{order}'; {see}")
              for order in ("", "Rows", "sheet")),
            *((f"the number {number!r}", [*ROAD_TEXTS, *out, "--number", number],
               f"the tree's number is a number, not '{number}'")
              for number in ("", "ten", "-1", "+1", "1.5", "0x10", " 5", "5 ", "٣", "1_0")),
            *((f"the number {number[:20]}", [*ROAD_TEXTS, *out, "--number", number],
               f"the tree's number is at most 65535, not {number}") for number in ("65536", "9" * 5000))):
        writing.refused(f"write, {name}", writing.copy.run("write", *words), 2, line)
    names = writing.text("-tree", read(ROAD_TEXTS[0])), writing.text("--number", read(ROAD_TEXTS[1]))
    ran = writing.run("--", *map(os.path.basename, names))
    writing.refused("-o after --", ran, 2, TAKES)
    ran = writing.copy.run("write", "-o", "out", "--", "-tree", "--number", cwd=writing.place)
    written("names that begin with a dash", ran, writing.out, shipped("road_trip"))


TEXT_WORDS = ("tree's text", "spreadsheet", "book's spreadsheet")


def unread_texts(writing):
    """Each text missing, a folder, a pipe or too long: one line, and nothing written."""
    none, folder, pipe = (os.path.join(writing.place, name) for name in ("none", "folder", "pipe"))
    long = writing.text("long", b" " * (LONGEST_TEXT + 1))
    os.mkdir(folder)
    os.mkfifo(pipe)
    writing.clear()
    for which, what in enumerate(TEXT_WORDS):
        for name, line in ((none, f"there is no {what} {none}"), ("", f"there is no {what} "),
                           (folder, f"the {what} {folder} is not a file"), (pipe, f"the {what} {pipe} is not a file"),
                           (long, f"the {what} {long} is longer than {LONGEST_TEXT} bytes")):
            texts = [*PUMP_TEXTS[:which], name, *PUMP_TEXTS[which + 1:]]
            writing.refused(f"write, {os.path.basename(name)} as {what}", writing.run(*texts), 2, line)
    road = read(ROAD_TEXTS[0])
    longest = writing.text("longest", road + b" " * (LONGEST_TEXT - len(road)))
    written("the longest text", writing.new(longest, ROAD_TEXTS[1]), writing.out, shipped("road_trip"))


def shut_texts(writing):
    """Texts that can't be read, and folders that can't be written."""
    if not CAN_BE_SHUT_OUT:
        skipped.append("texts and folders without rights: root has them all, and nobody has no python3")
        return
    texts = [writing.text(f"open {i}", read(text)) for i, text in enumerate(PUMP_TEXTS)]
    shut = writing.text("shut", "")
    os.chmod(shut, 0)
    writing.clear()
    os.mkdir(writing.out)
    os.chmod(writing.out, 0o777)
    for which, what in enumerate(TEXT_WORDS):
        ran = writing.run(*texts[:which], shut, *texts[which + 1:], cwd="/", **SHUT_OUT)
        line = f"the {what} {shut} cannot be read: Permission denied"
        writing.refused(f"write, {what} that can't be read", ran, 2, line, left={})
    os.chmod(writing.out, 0o555)
    ran = writing.run(*texts, cwd="/", **SHUT_OUT)
    line = f"the folder {writing.out} cannot be written, where the tree file would go"
    writing.refused("write, a folder without the right to write", ran, 2, line, left={})
    new = os.path.join(writing.out, "new")
    ran = writing.copy.run("write", *texts, "-o", new, cwd="/", **SHUT_OUT)
    line = f"the folder {writing.out} cannot be written, where the folder would go"
    writing.refused("write, a new folder in one without the right to write", ran, 2, line, left={})
    os.chmod(writing.out, 0o755)


def folders(writing):
    """Folders that are taken, and those that are not."""
    road = shipped("road_trip")
    other = {"notes": b"mine", "windows.ftw": b"another's"}
    written("a new folder", writing.new(*ROAD_TEXTS), writing.out, road)
    writing.clear()
    ran = writing.copy.run("write", *ROAD_TEXTS, "-o", writing.out + "/")
    written("a new folder with a slash", ran, writing.out, road)
    hold("a new folder with a slash: its line", ran.out.startswith(f"wrote {writing.out}/tree.ftf: ".encode()), ran)
    writing.clear()
    os.mkdir(writing.out)
    written("an empty folder", writing.run(*ROAD_TEXTS), writing.out, road)
    writing.clear()
    for name, data in other.items():
        write(os.path.join(writing.out, name), data)
    written("a folder with other files", writing.run(*ROAD_TEXTS), writing.out, {**road, **other})
    writing.clear()
    os.mkdir(writing.out)
    written("the folder here", writing.copy.run("write", *ROAD_TEXTS, "-o", ".", cwd=writing.out), writing.out, road)
    link = os.path.join(writing.place, "link")
    writing.clear()
    os.mkdir(writing.out)
    os.symlink(writing.out, link)
    written("a link to a folder", writing.copy.run("write", *ROAD_TEXTS, "-o", link), writing.out, road)
    writing.clear()
    for name, folder, line in (
            ("a link to no folder", link, f"{link} exists and is not overwritten: the folder needs a new name"),
            ("a folder in none", f"{writing.out}/new", f"there is no folder {writing.out} for the folder"),
            ("a folder in a file", f"{ROAD[0]}/new", f"there is no folder {ROAD[0]} for the folder"),
            ("a file as the folder", ROAD[0], f"{ROAD[0]} exists and is not overwritten: the folder needs a new name"),
            ("an empty name", "", "the folder needs a name, not ''")):
        writing.refused(f"write, {name}", writing.copy.run("write", *ROAD_TEXTS, "-o", folder), 2, line)
    hold("a link to no folder: as it was", os.readlink(link) == writing.out)


MADE = {"tree.ftf": "tree file", "sheet.fts": "opinion sheet", "windows.ftw": "book", "names.txt": "names file"}


def state_of(path):
    """What has a name, without following a link."""
    found = os.lstat(path)
    return found.st_mode, found.st_mtime_ns, found.st_size, found.st_ino


def what_exists(writing):
    """Whatever has the name of one of the files stays as it is, and nothing is beside it."""
    for file, what in MADE.items():
        path = os.path.join(writing.out, file)
        for kind, put in (("a file", lambda: write(path, "another's")), ("an empty file", lambda: write(path, "")),
                          ("a folder", lambda: os.mkdir(path)), ("a link to nothing", lambda: os.symlink("none", path)),
                          ("a link to a file", lambda: os.symlink(ROAD[0], path))):
            writing.clear()
            os.mkdir(writing.out)
            put()
            before = state_of(path)
            ran = writing.run(*PUMP_TEXTS)
            name = f"{kind} as {what}"
            said(name, ran, 2, f"{path} exists and is not overwritten: the {what} needs another folder")
            hold(f"{name}: untouched", state_of(path) == before, ran)
            hold(f"{name}: nothing beside it", os.listdir(writing.out) == [file], ran)


def with_room(size):
    """No file of a process may have more bytes than this."""
    def limit():
        usual_signals()
        resource.setrlimit(resource.RLIMIT_FSIZE, (size, size))

    return {"preexec_fn": limit}


def unwritten(writing):
    """No room, and lines that nobody gets: no file and no new folder is left, and another folder is as before."""
    # A tree file of 14 bytes, a sheet of 43, a book of 100; the names have more.
    name = "a" * 60
    one = [writing.text("one.dft", f'toplevel "{name}";\n'), writing.text("one.csv", f"{name},0.5\n"),
           writing.text("one windows.csv", f"{name},1,2\n" * 10)]
    cases = [(f"room for {room} bytes", with_room(room),
              f"the {MADE[file]} {writing.out}/{file} could not be written: File too large")
             for room, file in ((10, "tree.ftf"), (40, "sheet.fts"), (60, "windows.ftw"), (100, "names.txt"))]
    reader, writer = os.pipe()
    os.close(reader)
    opened = [writer]
    cases += [("a closed output", {"stdout": None, "preexec_fn": lambda: os.close(1)},
               "the text could not be written: standard output is closed"),
              ("a reader that has gone", {"stdout": writer}, "the text could not be written: Broken pipe")]
    if os.path.exists("/dev/full"):
        opened.append(os.open("/dev/full", os.O_WRONLY))
        cases.append(("a full output", {"stdout": opened[1]}, "the text could not be written: No space left on device"))
    for name, more, line in cases:
        writing.refused(f"write, {name}", writing.new(*one, **more), 3, line)
        write(os.path.join(writing.out, "notes"), "mine")
        writing.refused(f"write, {name}, in a folder", writing.run(*one, **more), 3, line, left={"notes": b"mine"})
    for file in opened:
        os.close(file)


class Paused:
    """A run that stops after each file that it has stored; `start` starts it with an environment."""

    def __init__(self, place, start):
        self.notes = os.path.join(place, "notes")
        shutil.rmtree(self.notes, ignore_errors=True)
        modules = os.path.join(place, "pause")
        write(os.path.join(modules, "sitecustomize.py"), PAUSE)
        os.mkdir(self.notes)
        self.process = start(env={"PYTHONPATH": modules, "NOTES": self.notes})

    def stored(self):
        path = os.path.join(self.notes, "stored")
        return read(path) if os.path.exists(path) else b""

    def after(self, count):
        """Goes on until so many are stored."""
        for before in range(1, count):
            write(os.path.join(self.notes, f"on{before}"), "")
        hold(f"a run that stops: {count} stored", until(lambda: self.stored() == str(count).encode()))

    def go_on(self):
        for count in range(1, 5):
            write(os.path.join(self.notes, f"on{count}"), "")
        return ended(self.process)


def paused_write(writing):
    """Write of four files into a new folder, which stops after each."""
    writing.clear()
    return Paused(writing.place, lambda **more: writing.start(*PUMP_TEXTS, **more))


def paused(writing):
    """Signals, and files of others, while the four are being written."""
    written("write that goes on", paused_write(writing).go_on(), writing.out, shipped("cooling_pumps"))
    for number in SIGNALS:
        for count in (1, 2, 3, 4):
            stopping = paused_write(writing)
            stopping.after(count)
            hold("write that stops: its files", sorted(all_in(writing.out)) == sorted(list(MADE)[:count]))
            stopping.process.send_signal(number)
            name = signal.Signals(number).name
            writing.refused(f"{name} after {count} files", stopping.go_on(), 128 + number, f"ended by {name}")
    stopping = paused_write(writing)
    stopping.after(1)
    write(os.path.join(writing.out, "notes"), "another's")
    stopping.process.send_signal(signal.SIGTERM)
    writing.refused("a file that appears in the new folder", stopping.go_on(), 143, "ended by SIGTERM",
                    left={"notes": b"another's"})
    stopping = paused_write(writing)
    stopping.after(2)
    write(os.path.join(writing.out, "names.txt"), "another's")
    writing.refused("a names file that appears", stopping.go_on(), 3,
                    f"the names file {writing.out}/names.txt could not be written: File exists",
                    left={"names.txt": b"another's"})
    stopping = paused_write(writing)
    stopping.after(1)
    os.remove(os.path.join(writing.out, "tree.ftf"))
    write(os.path.join(writing.out, "tree.ftf"), "another's")
    stopping.process.send_signal(signal.SIGINT)
    writing.refused("another's file in place of the first", stopping.go_on(), 130, "ended by SIGINT",
                    left={"tree.ftf": b"another's"})


GOOD_TREE = b'toplevel "top";\n"top" or "pump" "valve" "line";\n'
GOOD_SHEET = b"event,p\npump,0.1\nvalve,0.2\nline,0.3\n"
NO_TOP = ('tree.dft, line 1, column 1: the file has no toplevel; '
          'name the top in a statement of its own: toplevel "NAME";')
NO_ROW = "sheet.csv, line 1, column 1: the sheet has no row of an event; write a row for each basic event of the tree"
FIGURES_OF = "write figures: one, three (low, likely, high) or four (a, b, c, d)"

# Name, the texts of a tree, a sheet and, where there is one, a book, and the sentence of each fault.
FAULTS = [
    ("faults in all three", (b'toplevel "top";\n"top" xor "pump" "valve";\n"pump" prob=0.1;\n',
                             b"event,p\npump,1.5\nvalve\n", b"pump,5,5\n"), [
        'tree.dft, line 2, column 7: the gate "top" is of the kind xor; only and and or have a place in a tree file',
        'tree.dft, line 3, column 8: the event "pump" has the figure prob; the figures of an event stand in its row of '
        'the sheet: move them there, and leave "pump"; or nothing here',
        'sheet.csv, line 2, column 6 (cell B2): "1.5" is above 1; a probability is from 0 to 1',
        f'sheet.csv, line 3, column 1 (cell A3): the event "valve" has nothing but its name; {FIGURES_OF}',
        "windows.csv, line 1, column 8 (cell C1): the end hour 5 is not after the first hour 5; "
        "write the hour from which the event is in service again"]),
    ("events and rows that do not match", (GOOD_TREE, b"event,p\npump,0.1\nvavle,0.2\ntop,0.3\nhull,0.4\n"), [
        'tree.dft, line 2, column 17: the basic event "valve" has no row in sheet.csv; '
        'add a row "valve" to it (perhaps "vavle" is meant)',
        'tree.dft, line 2, column 25: the basic event "line" has no row in sheet.csv; add a row "line" to it',
        'sheet.csv, line 3, column 1 (cell A3): the row "vavle" is no basic event of tree.dft; '
        'take the row out, or correct its name (perhaps "valve" is meant)',
        'sheet.csv, line 4, column 1 (cell A4): the row "top" is a gate of tree.dft; '
        "take the row out: only basic events have rows",
        'sheet.csv, line 5, column 1 (cell A5): the row "hull" is no basic event of tree.dft; '
        "take the row out, or correct its name"]),
    ("a row of another case, after a space", (GOOD_TREE, GOOD_SHEET.replace(b"line", b" Line")), [
        'tree.dft, line 2, column 25: the basic event "line" has no row in sheet.csv; '
        'add a row "line" to it (perhaps "Line" is meant)',
        'sheet.csv, line 4, column 2 (cell A4): the row "Line" is no basic event of tree.dft; '
        'take the row out, or correct its name (perhaps "line" is meant)']),
    ("windows of no event", (GOOD_TREE, GOOD_SHEET,
                             b"event,first hour,end hour\npum,1,2\npump,1,2\nhull,3,4\ntop,5,6\n"), [
        'windows.csv, line 2, column 1 (cell A2): the event "pum" is no basic event of tree.dft; '
        'take the row out, or correct its name (perhaps "pump" is meant)',
        'windows.csv, line 4, column 1 (cell A4): the event "hull" is no basic event of tree.dft; '
        "take the row out, or correct its name",
        'windows.csv, line 5, column 1 (cell A5): the event "top" is no basic event of tree.dft; '
        "take the row out, or correct its name"]),
    ("a circle, and a row too few", (
        b'toplevel "top";\n"top" or "pump" "valve";\n"valve" and "line" "top";\n', b"pump,0.1\n"), [
        'tree.dft, line 2, column 1: the gates "top", "valve" are a circle: each has the next as an input, the last '
        "the first; a tree has no circle: take the input out that leads back",
        'tree.dft, line 3, column 13: the basic event "line" has no row in sheet.csv; add a row "line" to it']),
    ("an empty tree", (b"", GOOD_SHEET), [NO_TOP]),
    ("an empty sheet", (GOOD_TREE, b""), [NO_ROW]),
    ("both empty", (b"", b""), [NO_TOP, NO_ROW]),
    ("titles alone", (GOOD_TREE, b"event,p\n"), [NO_ROW]),
    ("XML that ends early", (b"<opsa-mef>\n  <define-fault-tree", GOOD_SHEET), [
        "tree.dft, line 2, column 3: the XML cannot be read: unclosed token; "
        "correct it, or export it again from the program that it comes from"]),
    # Its one word is 42 characters, of which none is a space, a quote or a semicolon.
    ("a tree file as a tree's text", (read(ROAD[0]), GOOD_SHEET), [
        "tree.dft, line 1, column 1: the file ends within the statement that begins here; end it with ;", NO_TOP]),
    # The first byte above 7F is that of 0.8 in billionths, at byte 29.
    ("a sheet file as a tree's text", (read(ROAD[1]), GOOD_SHEET), [
        "tree.dft, line 1, column 30: the byte AF is not UTF-8; save the file as UTF-8"]),
    ("a tree file as a spreadsheet", (GOOD_TREE, read(ROAD[0])), [
        "sheet.csv, line 1, column 4 (cell A1): the cell has the control character U+0001; take it out"]),
    ("a sheet file as a spreadsheet", (GOOD_TREE, read(ROAD[1])), [
        "sheet.csv, line 1, column 30: the byte AF is not UTF-8; save it as CSV UTF-8"]),
    ("a book as its spreadsheet", (GOOD_TREE, GOOD_SHEET, window(0, 1, 2)), [
        "windows.csv, line 1, column 1 (cell A1): the cell has a NUL character; save it as CSV UTF-8"]),
    ("a sheet in UTF-16", (GOOD_TREE, GOOD_SHEET.decode().encode("utf-16")), [
        "sheet.csv, line 1, column 1: the file is in UTF-16; save it as CSV UTF-8"]),
    ("a tree in UTF-16", (b"\xff\xfe" + GOOD_TREE.decode().encode("utf-16-le"), GOOD_SHEET), [
        "tree.dft, line 1, column 1: the file is in UTF-16; save the file as UTF-8"]),
    ("a sheet that is not UTF-8", (GOOD_TREE, b"event,p\npump,0.1\nv\xe9,0.2\n"), [
        "sheet.csv, line 3, column 2: the byte E9 is not UTF-8; save it as CSV UTF-8"]),
]

# A tree's text that is not UTF-8, and where the byte E9 stands, columns in characters; a byte-order mark is none.
NOT_UTF_8 = [
    ("in its second line", b'toplevel "top";\n"top" or "\xe9" "b";\n', 2, 11),
    ("after letters of two bytes", 'toplevel "top";\n"töp" or "ü'.encode() + b'\xe9";\n', 2, 12),
    ("at its end", b'toplevel "top";\n\xe9', 2, 1),
    ("with lines that end in CR and LF", b'toplevel "top";\r\n"top" or "\xe9" "b";\r\n', 2, 11),
    ("with lines that end in CR", b'toplevel "top";\r"top" or "\xe9" "b";\r', 2, 11),
    ("after a byte-order mark", b"\xef\xbb\xbf\xe9", 1, 1),
    ("in the second line after a byte-order mark", b'\xef\xbb\xbftoplevel "top";\n"top" or "\xe9" "b";\n', 2, 11),
    ("after a byte-order mark and letters of two bytes", b"\xef\xbb\xbf" + "//üü".encode() + b"\xe9\n", 1, 5),
]


def faults(writing):
    """A line for each fault of all texts, and nothing written."""
    names = "tree.dft", "sheet.csv", "windows.csv"
    cases = FAULTS + [(f"not UTF-8 {name}", (text, GOOD_SHEET), [
        f"tree.dft, line {line}, column {column}: the byte E9 is not UTF-8; save the file as UTF-8"])
        for name, text, line, column in NOT_UTF_8]
    for name, texts, sentences in cases:
        for file, text in zip(names, texts):
            writing.text(file, text)
        writing.refused(name, writing.new(*names[:len(texts)]), 1, *sentences)
    for count in (1, 19, 20, 21, 22, 45):
        writing.text("tree.dft", GOOD_TREE)
        writing.text("sheet.csv", "".join(f"e{i}\n" for i in range(count)))
        lines = [f'sheet.csv, line {i + 1}, column 1 (cell A{i + 1}): the event "e{i}" has nothing but its name; '
                 f"{FIGURES_OF}" for i in range(min(count, 20))]
        if count > 20:
            lines.append("and 1 fault more" if count == 21 else f"and {count - 20} faults more")
        writing.refused(f"{count} faults", writing.new("tree.dft", "sheet.csv"), 1, *lines)


def unusual_texts(writing):
    """Byte-order marks, lines that end in CR and LF, a wide space in a name, and odd names of the texts."""
    writing.text("tree.dft", b"\xef\xbb\xbf" + read(ROAD_TEXTS[0]))
    writing.text("sheet.csv", b"\xef\xbb\xbf" + read(ROAD_TEXTS[1]).replace(b"\n", b"\r\n"))
    ran = writing.new("tree.dft", "sheet.csv")
    written("byte-order marks", ran, writing.out, shipped("road_trip"))
    writing.text("tree.dft", 'toplevel "t";\n"t" or "sea\u2003water" "b";\n')
    writing.text("sheet.csv", "sea\u2003water,0.1\nb,0.2\n")
    ran = writing.new("tree.dft", "sheet.csv")
    hold("a wide space in a name, the same in both texts", ran.status == 0, ran)
    for name in ("the tree", "%s\\n\\1", "$HOME *", "it's", '"', "\udcff\u00e9"):
        tree_text, sheet_text = (writing.text(f"{name} {i}", read(path)) for i, path in enumerate(ROAD_TEXTS))
        folder = os.path.join(writing.place, name)
        ran = writing.copy.run("write", tree_text, sheet_text, "-o", folder)
        written(f"the name {name!r}", ran, folder, shipped("road_trip"), EXAMPLES["road_trip"][1])
        writing.text(f"{name} 1", "phone,0.8\nengine,0.1\nbattery\n")
        sentence = f'line 3, column 1 (cell A3): the event "battery" has nothing but its name; {FIGURES_OF}'
        ran = writing.new(tree_text, sheet_text)
        writing.refused(f"a fault and the name {name!r}", ran, 1, f"{sheet_text}, {sentence}")


def garbled(draw, data):
    """The bytes with some of them changed, taken out, doubled or cut off."""
    data = bytearray(data)
    for _ in range(draw.choice([1, 1, 2, 3, 10, 50])):
        at, size = draw.randrange(len(data) + 1), draw.choice([1, 1, 2, 5, 30])
        put = draw.choice([b"", b"", bytes([draw.randrange(256)]), data[at:at + size] * 2, b'"', b",", b"\n", b"\r",
                           b";", b"\0", b"\x1b", b"\t", b"\xef\xbb\xbf", b"<", b"&#x85;", "é".encode(), b"\xc3"])
        data[at:at + size] = put
    return bytes(data[:draw.randrange(len(data) + 1)] if draw.random() < 0.1 else data)


def garbled_texts(work, seed):
    """Whatever bytes the texts have, files or faults with a place come of them, each fault a sentence in one line."""
    names = [os.path.join(work, "garbled", file) for file in ("tree", "sheet.csv", "windows.csv")]
    made = refused = 0
    for index in range(GARBLED):
        draw = random.Random(f"{seed} {index}")
        name = draw.choice(list(EXAMPLES))
        texts = [read(text) for text in example(name, *EXAMPLES[name][0])]
        which = draw.randrange(len(texts))
        texts[which] = garbled(draw, texts[which] if draw.random() < 0.95 else bytes(40))
        for path, text in zip(names, texts):
            write(path, text)
        told, wrong = [], None
        try:
            made_of(names[:len(texts)], None, True)
            made += 1
        except Faulty as faulty:
            told = faulty.faults
            refused += 1
        except Exception as error:
            wrong = error
        one_line = all(fault.place.line > 0 and fault.place.column > 0
                       and not any(unicodedata.category(c) == "Cc" for c in fault.sentence()) for fault in told)
        hold(f"garbled texts, seed {seed}, round {index}: {wrong or [fault.sentence() for fault in told]!r}",
             wrong is None and one_line)
    hold("garbled texts: some are made, and some have faults", made > 20 and refused > 1000)


# By hand, from the texts of the examples.
ROAD_SHOWN = """// nekbrod: tree number 1
toplevel "trip";
"car" or "engine" "battery";
"trip" and "phone" "car";
"""
ROAD_NUMBERED = """// nekbrod: tree number 1
toplevel "g4";
"g3" or "e1" "e2";
"g4" and "e0" "g3";
"""
ROAD_SHEET_SHOWN = "event\nscore\nphone,0.8\nengine,0.1\nbattery,0.4\n"
ROAD_SHEET_NUMBERED = "event\nscore\ne0,0.8\ne1,0.1\ne2,0.4\n"
PUMPS_SHEET_SHOWN = """event,chief engineer,second engineer,engineer of the yard
score,10,7,5
the main pump stops,Low,Very Low,Low
the standby pump does not start,1/1250,3/1250,6/1250
the changeover valve sticks,1/730,2/730,5/730
the crew does not turn the valve,Low,Fairly Low,
the sea strainer is clogged,1/3650,2/3650,4/3650
the sea-water line bursts,0.00005,0.0001,0.0003
"""
PUMPS_SHEET_NUMBERED = """event,E1,E2,E3
score,10,7,5
e0,Low,Very Low,Low
e1,1/1250,3/1250,6/1250
e2,1/730,2/730,5/730
e3,Low,Fairly Low,
e4,1/3650,2/3650,4/3650
e5,0.00005,0.0001,0.0003
"""
PLAN_SHOWN = """event,first hour,end hour
the main pump stops,43832,43844
the changeover valve sticks,43840,43848
the standby pump does not start,43880,43886
"""
PLAN_NUMBERED = "event,first hour,end hour\ne0,43832,43844\ne2,43840,43848\ne1,43880,43886\n"


def shown_texts(writing):
    """Each file's text by hand, with its names, and from a folder without a names file."""
    alone = os.path.join(writing.place, "alone")
    for name, path, text, numbered in (
            ("a tree", ROAD[0], ROAD_SHOWN, ROAD_NUMBERED), ("a sheet", ROAD[1], ROAD_SHEET_SHOWN, ROAD_SHEET_NUMBERED),
            ("a sheet with experts", PUMPS[1], PUMPS_SHEET_SHOWN, PUMPS_SHEET_NUMBERED),
            ("a book", PLAN, PLAN_SHOWN, PLAN_NUMBERED)):
        said(f"{name}, shown", writing.copy.run("show", path), 0, out=text)
        copied = write(os.path.join(alone, os.path.basename(path)), read(path))
        said(f"{name}, shown without names", writing.copy.run("show", copied), 0, out=numbered)
    said("a tree, shown from here", writing.copy.run("show", "tree.ftf", cwd=os.path.dirname(ROAD[0])), 0,
         out=ROAD_SHOWN)
    empty = write(os.path.join(alone, "empty.ftw"), b"")
    said("an empty book, shown", writing.copy.run("show", empty), 0, out="event,first hour,end hour\n")


def texts_written(name, writing, files, options=()):
    """The texts that show prints of files, written again; the runs of show must say nothing."""
    texts = []
    for path in files:
        words = [path, *options] if path.endswith(".ftf") else [path]
        ran = writing.copy.run("show", *words)
        hold(f"{name}: {os.path.basename(path)} shown", ran.status == 0 and ran.errors == "", ran)
        texts.append(writing.text(f"shown {os.path.basename(path)}", ran.out))
    return writing.new(*texts)


def written_again(writing):
    """Shown and written again, every file is the same to the byte."""
    for name, (_, holds) in EXAMPLES.items():
        files = [file for file in holds if file != "names.txt"]
        ran = texts_written(name, writing, example(name, *files))
        written(f"{name}, shown and written again", ran, writing.out, shipped(name), holds)
        alone = [write(os.path.join(writing.place, name, file), read(*example(name, file))) for file in files]
        for option in [], ["--open-psa"]:
            ran = texts_written(f"{name}, without names", writing, alone, option)
            again = all_in(writing.out) or {}
            hold(f"{name}, without names, shown {option} and written again",
                 {file: again.get(file) for file in files} == {file: read(*example(name, file)) for file in files}, ran)
    for name in ("road_trip", "container_seal"):
        ran = texts_written(name, writing, example(name, "tree.ftf", "sheet.fts"), ["--open-psa"])
        written(f"{name}, as Open-PSA and again", ran, writing.out, shipped(name), EXAMPLES[name][1])
    figures = [four(0, 1, 2, UNIT), four(*[UNIT] * 4), fractions(1000000, 0, 1, 2, 1000000), fractions(7, 7, 7, 7, 7),
               terms(0, 7), terms(1, 0)]
    for name, records, links in (
            ("one event", [(0, 0, 0)], []),
            ("an AND of one event", [(0, 0, 0), (1, 0, 1)], [0]),
            ("events after gates", [(0, 0, 0), (1, 0, 1), (0, 1, 0), (2, 1, 2)], [0, 2, 1]),
            ("gates from the lowest to the highest",
             [(0, 0, 0), (0, 1, 0), (0, 2, 0), (0, 3, 0), (1, 0, 2), (2, 2, 2), (1, 4, 2)], [3, 2, 0, 1, 5, 4]),
            ("six events", [*((0, i, 0) for i in range(6)), (2, 0, 6)], [5, 3, 1, 0, 2, 4])):
        events = sum(kind == 0 for kind, _, _ in records)
        files = {"tree.ftf": tree(records, links, 65535),
                 "sheet.fts": sheet(figures[:events], scores=[1, 100], number=65535)}
        pair = [write(os.path.join(writing.place, "pair", file), data) for file, data in files.items()]
        ran = texts_written(name, writing, pair)
        again = all_in(writing.out) or {}
        hold(f"{name}, shown and written again", {file: again.get(file) for file in files} == files, ran)


def open_psa_shown(copy):
    """The elements of an Open-PSA text, by hand; names that SCRAM does not take are labels."""
    for name, tops, gates, events in (
            ("road_trip", "1", {"trip": ("and", ["phone", "car"]), "car": ("or", ["engine", "battery"])},
             {"phone": None, "engine": None, "battery": None}),
            ("fuel_supply", "3", {"g8": ("and", ["e0", "g7"]), "g7": ("or", ["e1", "e2", "e3", "e4", "e5", "e6"])},
             {"e0": "pump 1 fails", "e1": "pump 2 fails", "e2": "pump 3 fails", "e3": "valve 1 is stuck",
              "e4": "valve 3 is stuck", "e5": "flowmeter 1 fails", "e6": "the controller fails"})):
        ran = copy.run("show", "--open-psa", *example(name, "tree.ftf"))
        hold(f"{name} as Open-PSA: status", ran.status == 0 and ran.errors == "", ran)
        root = ElementTree.fromstring(ran.out)
        number = root.find("define-fault-tree/attributes/attribute[@name='tree-number']").get("value")
        formulas = {gate.get("name"): [(part.tag, [one.get("name") for one in part]) for part in gate
                                       if part.tag in ("and", "or")] for gate in root.iter("define-gate")}
        labels = {event.get("name"): event.findtext("label") for event in root.iter("define-basic-event")}
        hold(f"{name} as Open-PSA: its number", (root.tag, number) == ("opsa-mef", tops), ran)
        hold(f"{name} as Open-PSA: its gates", formulas == {gate: [formula] for gate, formula in gates.items()}, ran)
        hold(f"{name} as Open-PSA: its events", labels == events, ran)


# Name, a file's name and bytes, the refusal's number, which of its rows in the page's table, and what is said after it.
REFUSED = [
    ("a tree of 8 bytes", "a.ftf", bytes(8), 1, 0, "byte 8: the file has 8 bytes; allowed: at least 9"),
    ("an empty sheet", "a.fts", b"", 1, 0, "byte 0: the file has 0 bytes; allowed: at least 26"),
    ("other letters", "a.ftf", tree([(0, 0, 0)], [], letters=b"FTX"), 2, 0,
     "byte 0: the letters are 'FTX'; allowed: 'FTF'"),
    ("a header alone", "a tree", tree([], [], count=1), 5, 0,
     "byte 9: the file has 9 bytes; allowed: 14, which is 7 × N + 7 for N = 1"),
    ("a gate linked to itself", "a.ftf", tree([(0, 0, 0), (1, 0, 1)], [1]), 8, 0,
     "byte 19: link 0, input 0 of gate 1 (AND), names node 1; allowed: a node below 1"),
    ("numbers that fall", "a.fts", sheet([four(1, 0, 0, 0)]), 10, 0,
     "byte 26: the entry of event 0 has the four numbers 1, 0, 0, 0; "
     "allowed: each at least the one before it, and at most 1000000000"),
    ("nobody spoke", "a sheet", sheet([terms()], scores=[1, 1]), 12, 0,
     "byte 26: the entry of event 0 has no term but 0 (experts: 2); "
     "allowed: a term from 1 to 7 by one expert at the least"),
    ("a denominator of 0", "A.FTS", sheet([fractions(0, 0, 0, 0, 0)]), 28, 0,
     "byte 26: the entry of event 0 has the numerators 0, 0, 0, 0 over the denominator 0; "
     "allowed: each numerator at least the one before it, and at most the denominator, which is 1 to 1000000"),
]
REFUSED_BOOKS = [
    ("a book of 11 bytes", bytes(11), 0, "byte 11: the file has 11 bytes; allowed: a multiple of 10, and at most 2560"),
    ("257 windows", window(0, 1, 2) * 257, 0,
     "byte 2570: the file has 2570 bytes; allowed: a multiple of 10, and at most 2560"),
    ("an event beyond all", window(0, 1, 2) + window(960, 1, 2), 1,
     "byte 10: window 1 has the event 960; allowed: below E = {}"),
    ("an end hour that is the first", window(0, 5, 5), 2,
     "byte 6: window 0 has the first hour 5 and the end hour 5; allowed: an end hour after the first hour"),
]


def refusal(number, which, what, path, found):
    """The sentence of a refusal."""
    return f"refusal {number}: {table_rows()[number][which][0]}. The {what} {path}, {found}."


def kind_of(data, file):
    return "opinion sheet" if data[:3] == b"FTS" or file.lower().endswith(".fts") else "tree file"


def refused_shows(writing):
    """A refused file: its sentence on standard error, and nothing printed."""
    show = writing.copy.run
    for name, file, data, number, which, found in REFUSED:
        path = writing.text(file, data)
        said(f"show, {name}", show("show", path), 1, refusal(number, which, kind_of(data, file), path, found))
    for name, data, which, found in REFUSED_BOOKS:
        path = writing.text("a.ftw", data)
        said(f"show, {name}", show("show", path), 1, refusal(29, which, "book", path, found.format(960)))
    for file, data, what, most in (("a.ftf", b"FTF" + bytes(7173), "tree file", 7175),
                                   ("a.fts", bytes(17435), "opinion sheet", 17434)):
        path = writing.text(file, data)
        said(f"show, a long {what}", show("show", path), 1,
             f"the {what} {path} has {len(data)} bytes; allowed: at most {most}.")
    see = "see nekbrod show --help"
    none, text = os.path.join(writing.place, "none.ftf"), writing.text("a text", "hello")
    long = writing.text("long.ftf", bytes(65536))
    for name, words, line in (
            ("no file", [], f"nekbrod show takes one file; {see}"),
            ("two files", ROAD, f"nekbrod show takes one file; {see}"),
            ("an option alone", ["--open-psa"], f"nekbrod show takes one file; {see}"),
            ("a sheet as Open-PSA", [ROAD[1], "--open-psa"],
             f"--open-psa is for a tree file, and {ROAD[1]} is none; {see}"),
            ("a book as Open-PSA", ["--open-psa", PLAN], f"--open-psa is for a tree file, and {PLAN} is none; {see}"),
            ("an option twice", ["--open-psa", ROAD[0], "--open-psa"], f"--open-psa is given twice; {see}"),
            ("an unknown option", [ROAD[0], "--csv"], f"nekbrod show has no option --csv; {see}"),
            ("no such file", [none], f"there is no file {none}"),
            ("a folder", [writing.place], f"the file {writing.place} is not a file"),
            ("a text", [text], NO_KIND.format(text)), ("a tree's text", [ROAD_TEXTS[0]], NO_KIND.format(ROAD_TEXTS[0])),
            ("65,536 bytes", [long], f"the file {long} is longer than 65535 bytes")):
        said(f"show, {name}", show("show", *words), 2, line)


NO_KIND = ("{} is no tree file, opinion sheet or book: it begins with neither FTF nor FTS, and its name does not end "
           "in .ftf, .fts or .ftw (nekbrod write says what is wrong with a text)")
OTHERS, NO_NAMES = "{names} has the names for other files than {file}", "{names} is no file of names"
NUMBERS_STAND = ": numbers stand in their place"


def others_names(names, file):
    """What is said of a names file that is not for the file beside it."""
    return OTHERS.format(names=names, file=file) + NUMBERS_STAND


# Name, what a names file beside the road trip has, and why it is not used.
DAMAGED = [
    ("of another tree", read(example("fuel_supply", "names.txt")[0]), OTHERS),
    ("not UTF-8", ROAD_NAMES.replace(b"phone", b"ph\xf6ne"), "{names} cannot be read (it is not UTF-8)"),
    ("in UTF-16", ROAD_NAMES.decode().encode("utf-16"), "{names} cannot be read (it is not UTF-8)"),
    ("empty", b"", NO_NAMES),
    ("cut off in its first line", b"nekbrod na", NO_NAMES),
    ("cut off in its last line", ROAD_NAMES[:-3], OTHERS),
    ("cut off after its checksums", ROAD_NAMES[:ROAD_NAMES.index(b"0 event")], NO_NAMES),
    ("of other words", b"hello\nworld\n", NO_NAMES),
    ("with another first line", ROAD_NAMES.replace(b"nekbrod names", b"names"), NO_NAMES),
    ("with another word", ROAD_NAMES.replace(b"sheet ", b"shoot "), NO_NAMES),
    ("with a checksum twice", ROAD_NAMES.replace(b"sheet ", b"tree "), NO_NAMES),
    ("with no checksum", ROAD_NAMES.replace(b"tree ", b"book "), OTHERS),
    ("with a checksum of other digits", ROAD_NAMES.replace(b"tree e", b"tree g"), NO_NAMES),
    ("with an empty line", ROAD_NAMES.replace(b"0 event", b"\n0 event"), NO_NAMES),
    ("with a node too few", ROAD_NAMES.replace(b"4 and trip\n", b""), OTHERS),
    ("with a node too many", ROAD_NAMES + b"5 or all\n", OTHERS),
    ("with a number left out", ROAD_NAMES.replace(b"1 event", b"2 event"), NO_NAMES),
    ("with a node without a name", ROAD_NAMES.replace(b"event phone", b"event"), NO_NAMES),
    ("with a kind changed", ROAD_NAMES.replace(b"3 or", b"3 and"), OTHERS),
    ("with an unknown kind", ROAD_NAMES.replace(b"3 or", b"3 xor"), NO_NAMES),
    ("with lines that end in CR and LF", ROAD_NAMES.replace(b"\n", b"\r\n"), NO_NAMES),
]


def damaged_names(writing):
    """A line says why a names file is not used, and the default names stand in its place."""
    folder = os.path.join(writing.place, "damaged")
    path, names = write(os.path.join(folder, "tree.ftf"), read(ROAD[0])), os.path.join(folder, "names.txt")
    for name, data, why in DAMAGED:
        write(names, data)
        line = why.format(names=names, file=path) + NUMBERS_STAND
        said(f"names {name}", writing.copy.run("show", path), 0, line, out=ROAD_NUMBERED)
    os.remove(names)
    line = f"{names} is not a file{NUMBERS_STAND}"
    os.mkdir(names)
    said("a folder of names", writing.copy.run("show", path), 0, line, out=ROAD_NUMBERED)
    os.rmdir(names)
    os.mkfifo(names)
    said("a pipe of names", writing.copy.run("show", path), 0, line, out=ROAD_NUMBERED)
    os.remove(names)
    os.symlink("none", names)
    said("a link to no names", writing.copy.run("show", path), 0, out=ROAD_NUMBERED)
    os.remove(names)
    if CAN_BE_SHUT_OUT:
        os.chmod(write(names, ROAD_NAMES), 0)
        line = f"{names} cannot be read (Permission denied){NUMBERS_STAND}"
        # Nobody may build, and what is built is run as it is.
        ran = last_of(writing.copy.run("show", path, cwd="/", **SHUT_OUT))
        said("names that can't be read", ran, 0, line, out=ROAD_NUMBERED)
        os.chmod(names, 0o644)
    pumps = {file: write(os.path.join(folder, "pumps", file), data) for file, data in shipped("cooling_pumps").items()}
    fewer = read(pumps["names.txt"]).split(b"2 event")[0]
    for name, data, file, numbered in (
            ("a sheet, an expert too few", read(pumps["names.txt"]).replace(b"expert second engineer\n", b""),
             "sheet.fts", PUMPS_SHEET_NUMBERED),
            ("a sheet, events too few", fewer, "sheet.fts", PUMPS_SHEET_NUMBERED),
            ("a book, events too few", fewer, "windows.ftw", PLAN_NUMBERED)):
        write(pumps["names.txt"], data)
        said(f"names of {name}", writing.copy.run("show", pumps[file]), 0,
             others_names(pumps["names.txt"], pumps[file]), out=numbered)


def edited_names(writing):
    """A name that somebody edited is used; one that no text can have must not spoil what is shown."""
    folder = os.path.join(writing.place, "edited")
    pair = [write(os.path.join(folder, os.path.basename(path)), read(path)) for path in ROAD]
    names = write(os.path.join(folder, "names.txt"), ROAD_NAMES.replace(b"phone", "the cell phône".encode()))
    for file, text in zip(pair, (ROAD_SHOWN, ROAD_SHEET_SHOWN)):
        said(f"an edited name in {os.path.basename(file)}", writing.copy.run("show", file), 0,
             out=text.replace("phone", "the cell phône"))
    for name, put in (("a quote", b'"phone"'), ("another event's name", b"engine"), ("a gate's name", b"car"),
                      ("a tab", b"cell\tphone"), ("an escape", b"\x1b[31mphone"), ("spaces", b" cell  phone ")):
        write(names, ROAD_NAMES.replace(b"phone", put))
        texts = [writing.text(f"edited {i}", writing.copy.run("show", file).out) for i, file in enumerate(pair)]
        ran = writing.new(*texts)
        again = all_in(writing.out) or {}
        hold(f"a name edited to {name}: written again", [again.get(os.path.basename(file)) for file in pair]
             == [read(file) for file in pair], ran)


def are_compared(files, name):
    """Whether the names beside files are compared: nothing comes of it, or status 5."""
    try:
        with contextlib.redirect_stderr(None):
            check_together(files)
    except Stop as stop:
        hold(f"{name}: compared", stop.status == 5)
        return True
    except Exception as error:
        hold(f"{name}: compared: {error!r}", False)
    return False


def garbled_names(work, seed):
    """Whatever a names file has, a text comes of every file beside it, and its names are compared."""
    folder = os.path.join(work, "garbled names")
    files = {file: write(os.path.join(folder, file), data) for file, data in shipped("cooling_pumps").items()}
    names = read(files["names.txt"])
    kept, apart = names.index(b"0 event"), 0
    for index in range(GARBLED):
        draw = random.Random(f"{seed} {index}")
        data = garbled(draw, names)
        if draw.random() < 0.8:
            # The checksums are right, and lines are gone or garbled.
            fewer = b"".join(line for line in names[kept:].splitlines(True) if draw.random() < 0.8)
            data = names[:kept] + (fewer if draw.random() < 0.5 else garbled(draw, names[kept:]))
        write(files["names.txt"], data)
        for file in ("tree.ftf", "sheet.fts", "windows.ftw"):
            text, wrong = "", None
            try:
                # Why names are not used is said on standard error.
                with contextlib.redirect_stderr(None):
                    text = text_of(given(files[file]), False)
            except Exception as error:
                wrong = error
            hold(f"garbled names, seed {seed}, round {index}: {file}: {wrong!r}", text)
        pair = ("tree file", PUMPS[0]), ("opinion sheet", files["sheet.fts"]), ("book", files["windows.ftw"])
        apart += are_compared([(what, path, read(path)) for what, path in pair], f"garbled names, round {index}")
    hold("garbled names: some are apart, and some are not", 0 < apart < GARBLED, apart)


# A gate without a name is called by its node number.
DEFAULT_TOPS = {"road_trip": "g4", "container_seal": "g9", "cooling_pumps": "g9", "fuel_supply": "g8"}


def accepted_files(writing):
    """What each file holds, in the order given."""
    check = writing.copy.run
    for name, (_, holds) in EXAMPLES.items():
        files = {file: held for file, held in holds.items() if file != "names.txt"}
        for order in (list(files), list(files)[::-1]):
            lines = "".join(f"{path}: {files[os.path.basename(path)]}\n" for path in example(name, *order))
            said(f"check, {name}, {order}", check("check", *example(name, *order)), 0, out=lines)
        tree_held, sheet_held = files["tree.ftf"], files["sheet.fts"]
        [path] = example(name, "tree.ftf")
        said(f"check, {name}, its tree alone", check("check", path), 0, out=f"{path}: {tree_held}\n")
        [path] = example(name, "sheet.fts")
        said(f"check, {name}, its sheet alone", check("check", path), 0, out=f"{path}: {sheet_held}\n")
        alone = write(os.path.join(writing.place, "alone", "tree.ftf"), read(*example(name, "tree.ftf")))
        line = f'{alone}: {tree_held.partition("the top")[0]}the top event is "{DEFAULT_TOPS[name]}"\n'
        said(f"check, {name}, without names", check("check", alone), 0, out=line)
    hold("check: rt is asked", set(writing.copy.calls()) >= {"run in levels", "run in hour_levels"})
    lines = [f"{path}: {EXAMPLES[name][1][file]}\n" for name in EXAMPLES for file in ("sheet.fts", "tree.ftf")
             for path in example(name, file)]
    paths = [line.partition(": ")[0] for line in lines]
    said("check, four pairs", check("check", *paths), 0, out="".join(lines))
    one = writing.text("one.ftf", tree([(0, 0, 0)], [], number=65535))
    empty = writing.text("empty.ftw", b"")
    said("check, a tree of one event and an empty book", check("check", empty, one), 0,
         out=f"{empty}: a book of no work windows\n"
             f'{one}: tree 65535, 1 node: 1 basic event, 0 AND, 0 OR; the top event is "e0"\n')
    one = writing.text("one.fts", sheet([fractions(1, 0, 0, 1, 1)], scores=[100]))
    said("check, a sheet of one event and one expert", check("check", one), 0,
         out=f"{one}: a sheet for tree 7, 1 basic event: 1 by fractions; 1 expert of score 100\n")
    book = writing.text("one.ftw", window(2, 7, LAST_HOUR))
    said("check, a book of one window", check("check", ROAD[0], book), 0,
         out=f"{ROAD[0]}: {EXAMPLES['road_trip'][1]['tree.ftf']}\n"
             f"{book}: a book of 1 work window, from hour 7 to hour {LAST_HOUR}\n")


def refused_checks(writing):
    """The sentence of each refused file on standard output, between the lines of the others."""
    check = writing.copy.run
    road = f"{ROAD[0]}: {EXAMPLES['road_trip'][1]['tree.ftf']}\n"
    for name, file, data, number, which, found in REFUSED:
        path = writing.text(file, data)
        sentence = refusal(number, which, kind_of(data, file), path, found)
        said(f"check, {name}", check("check", path), 1, out=sentence + "\n")
        said(f"check, {name}, beside another", check("check", path, ROAD[0]), 1, out=sentence + "\n" + road)
    path = writing.text("twice.ftf", bytes(8))
    sentence = refusal(1, 0, "tree file", path, "byte 8: the file has 8 bytes; allowed: at least 9") + "\n"
    said("check, a refused file twice", check("check", path, path), 1, out=sentence * 2)
    for file, data, what, most in (("a.ftf", b"FTF" + bytes(7173), "tree file", 7175),
                                   ("a.fts", bytes(17435), "opinion sheet", 17434)):
        path = writing.text(file, data)
        said(f"check, a long {what}", check("check", path), 1,
             out=f"the {what} {path} has {len(data)} bytes; allowed: at most {most}.\n")
    for name, data, which, found in REFUSED_BOOKS:
        path = writing.text("a.ftw", data)
        for order in (path, ROAD[0]), (ROAD[0], path):
            lines = {path: refusal(29, which, "book", path, found.format(3)) + "\n", ROAD[0]: road}
            said(f"check, {name}", check("check", *order), 1, out="".join(map(lines.get, order)))
    damaged = writing.text("damaged.ftf", bytes(8))
    ran = check("check", damaged, PLAN)
    hold("check, a refused tree and its book: status", ran.status == 1, ran)
    hold("check, a refused tree and its book: a line for each", PLAN in ran.out.decode(), ran)


def not_a_pair(number, events, sheet_number, sheet_events):
    """The sentence of refusal 24: of each file its tree number and its count of basic events."""
    return (f"refusal 24: {table_rows()[24][0][0]}. The two files do not belong together: the tree file has the tree "
            f"number {number} and E = {events}, the opinion sheet {sheet_number} and E = {sheet_events}; "
            "allowed: the same in both.")


def checked_pairs(writing):
    """A tree and a sheet alone are judged as a pair too."""
    check = writing.copy.run
    one = writing.text("pair/one.ftf", tree([(0, 0, 0)], []))
    held = f'{one}: tree 7, 1 node: 1 basic event, 0 AND, 0 OR; the top event is "e0"\n'
    for name, data, number, events in (("another number", sheet([four(0, 0, 0, 0)], number=8), 8, 1),
                                       ("another count", sheet([four(0, 0, 0, 0)] * 2), 7, 2)):
        other = writing.text("pair/other.fts", data)
        line = (f"{other}: a sheet for tree {number}, {events} basic event{'s' if events > 1 else ''}: "
                f"{events} by four numbers; 0 experts\n")
        sentence = not_a_pair(7, 1, number, events) + "\n"
        said(f"check, a pair of {name}", check("check", one, other), 1, out=held + line + sentence)
        said(f"check, a pair of {name}, the sheet first", check("check", other, one), 1, out=line + held + sentence)
        said(f"check, two trees and a sheet of {name}", check("check", one, ROAD[0], other), 0,
             out=held + f"{ROAD[0]}: {EXAMPLES['road_trip'][1]['tree.ftf']}\n" + line)


def put_back(copy, crate, program, *words):
    """The built program in place of another one."""
    copy.change(read(program), crate)
    hold(f"{crate} again", copy.run(*words).status == 0)


def bad_checks(writing):
    """Words that are not taken, names that are another tree's, and another program."""
    see = "see nekbrod check --help"
    none, text = os.path.join(writing.place, "none.fts"), writing.text("a text", "hello")
    books = "the book {} is judged with its tree: name one tree file beside it"
    for name, words, line in (
            ("no file", [], f"nekbrod check takes a file or several; {see}"),
            ("an option", ["--csv", ROAD[0]], f"nekbrod check has no option --csv; {see}"),
            ("a book without a tree", [PLAN], books.format(PLAN)),
            ("a book with a sheet alone", [PUMPS[1], PLAN], books.format(PLAN)),
            ("two trees and a book", [PUMPS[0], PLAN, ROAD[0]], books.format(PLAN)),
            ("no such file", [ROAD[0], none], f"there is no file {none}"),
            ("a folder", [writing.place], f"the file {writing.place} is not a file"),
            ("a text", [ROAD[0], text], NO_KIND.format(text)),
            ("a spreadsheet", [ROAD_TEXTS[1]], NO_KIND.format(ROAD_TEXTS[1])),
            ("names", example("road_trip", "names.txt"), NO_KIND.format(*example("road_trip", "names.txt")))):
        said(f"check, {name}", writing.copy.run("check", *words), 2, line)
    path = write(os.path.join(writing.place, "other", "tree.ftf"), read(ROAD[0]))
    names = write(os.path.join(writing.place, "other", "names.txt"), read(example("fuel_supply", "names.txt")[0]))
    said("check, another tree's names", writing.copy.run("check", path), 0, others_names(names, path),
         out=f'{path}: tree 1, 5 nodes: 3 basic events, 1 AND, 1 OR; the top event is "g4"\n')
    writing.copy.change("#!/bin/sh\necho hello\n")
    said("check, another level printer", last_of(writing.copy.run("check", path)), 3,
         "the level printer gave neither levels nor a refusal")
    put_back(writing.copy, "levels", LEVELS, "check", ROAD[0])


# By hand: 0.1 or 0.4 is 1 - 0.9 × 0.6, and 0.8 × 0.46 is 0.368, all of it exact at every level.
ROAD_NODES = [("phone", "basic event", "0.800000000"), ("engine", "basic event", "0.100000000"),
              ("battery", "basic event", "0.400000000"), ("car", "OR", "0.460000000"), ("trip", "AND", "0.368000000")]
ROAD_NODES_TABLE = """tree 1, level {} of {}
node  name     kind         lower end      upper end      width
   0  phone    basic event  0.800000000 =  0.800000000 =  0.000000000
   1  engine   basic event  0.100000000 =  0.100000000 =  0.000000000
   2  battery  basic event  0.400000000 =  0.400000000 =  0.000000000
   3  car      OR           0.460000000 =  0.460000000 =  0.000000000
   4  trip     AND          0.368000000 =  0.368000000 =  0.000000000
= is an exact end; ~ is an end rounded outward, to the safe side of the exact one
"""
ROAD_NODES_CSV = "node,name,kind,lower,lower end,upper,upper end,width\n" + "".join(
    f"{i},{name},{kind},{end},exact,{end},exact,0.000000000\n" for i, (name, kind, end) in enumerate(ROAD_NODES))

# Level 5 of 10 of the fuel supply, as the table of docs/GUIDE.md has it: the ends, their marks, and by hand the width.
FUEL_NODES_CSV = """node,name,kind,lower,lower end,upper,upper end,width
0,pump 1 fails,basic event,0.674193548,outward,0.770967742,outward,0.096774194
1,pump 2 fails,basic event,0.674193548,outward,0.770967742,outward,0.096774194
2,pump 3 fails,basic event,0.864193548,outward,0.919354839,outward,0.055161291
3,valve 1 is stuck,basic event,0.647661290,outward,0.751209678,outward,0.103548388
4,valve 3 is stuck,basic event,0.534112903,outward,0.642983871,outward,0.108870968
5,flowmeter 1 fails,basic event,0.665000000,exact,0.764516130,outward,0.099516130
6,the controller fails,basic event,0.397177419,outward,0.496048388,outward,0.098870969
7,nothing takes over,OR,0.998533251,outward,0.999805310,outward,0.001272059
8,no fuel to engine 1,AND,0.673204675,outward,0.770817643,outward,0.097612968
"""


def without_names(text):
    """A CSV text of nodes without its second column."""
    rows = [line.split(",") for line in text.splitlines()]
    return "".join(",".join(row[:1] + row[2:]) + "\n" for row in rows)


def nodes(writing):
    """Tables and CSV by hand, with names and without."""
    ask = writing.copy.run
    for k, n in ("1", "2"), ("0", "2"), ("2", "2"), ("0", "1"), ("1000", "1000"), ("0001", "02"):
        said(f"nodes, level {k} of {n}", ask("nodes", *ROAD, k, n), 0, out=ROAD_NODES_TABLE.format(int(k), int(n)))
        for name, words in (("at the end", [*ROAD, k, n, "--csv"]), ("at the front", ["--csv", *ROAD, k, n]),
                            ("in the middle", [ROAD[0], "--csv", ROAD[1], k, n])):
            said(f"nodes, level {k} of {n}, --csv {name}", ask("nodes", *words), 0, out=ROAD_NODES_CSV)
    hold("nodes: rt is asked", writing.copy.calls()[-1:] == ["run in node_lines"])
    said("nodes, the fuel supply", ask("nodes", *FUEL, "5", "10", "--csv"), 0, out=FUEL_NODES_CSV)
    alone = [write(os.path.join(writing.place, "nodes", os.path.basename(path)), read(path)) for path in ROAD]
    table = "\n".join(line[:6] + line[15:] if line[:4].strip().isdigit() or line.startswith("node") else line
                      for line in ROAD_NODES_TABLE.format(1, 2).split("\n"))
    said("nodes without names", ask("nodes", *alone, "1", "2"), 0, out=table)
    said("nodes without names, --csv", ask("nodes", *alone, "1", "2", "--csv"), 0, out=without_names(ROAD_NODES_CSV))
    names = write(os.path.join(writing.place, "nodes", "names.txt"), read(example("fuel_supply", "names.txt")[0]))
    said("nodes, another tree's names", ask("nodes", *alone, "1", "2", "--csv"), 0,
         others_names(names, alone[0]), out=without_names(ROAD_NODES_CSV))
    write(names, ROAD_NAMES.replace(b"phone", b"phone, old"))
    said("nodes, a name with a comma", ask("nodes", *alone, "1", "2", "--csv"), 0,
         out=ROAD_NODES_CSV.replace("phone", '"phone, old"'))


def refused_line(name, ran, line, sentence, advice):
    """The line of a refusal alone, status 1, the sentence, and the page to read on."""
    hold(f"{name}: status", ran.status == 1, ran)
    hold(f"{name}: the line alone", ran.out == line.encode() + b"\n", ran)
    hold(f"{name}: two lines of errors", len(ran.lines) == 2, ran)
    hold(f"{name}: the sentence", ran.lines[:1] == [f"nekbrod: {sentence}"], ran)
    due = rf"nekbrod: {re.escape(advice)}; .*/docs/REFUSALS\.md says what this means and what to do"
    hold(f"{name}: what to do", re.fullmatch(due, ran.lines[-1] if ran.lines else ""), ran)


def refused_nodes(writing):
    """Levels out of range, files that are refused, words that are not taken."""
    ask = writing.copy.run
    rows = table_rows()
    for k, n in ("3", "2"), ("0", "0"), ("0", "1001"), ("1001", "1001"), ("65535", "65535"):
        refused_line(f"nodes, level {k} of {n}", ask("nodes", *ROAD, k, n), "refused 13 at 0",
                     f"refusal 13: {rows[13][0][0]}. The level is {k} of {n}; "
                     "allowed: n from 1 to 1000, and k at most n.", f"aboard: {rows[13][0][3]}")
    refused_line("nodes, another tree's sheet", ask("nodes", ROAD[0], FUEL[1], "1", "2"), "refused 24 at 0",
                 not_a_pair(1, 3, 3, 7), f"aboard: {rows[24][0][3]}")
    for name, file, data, number, which, found in REFUSED:
        path = writing.text(file, data)
        what = kind_of(data, file)
        one = writing.text("one of seven", tree([(0, 0, 0)], []))
        pair = [path, ROAD[1]] if what == "tree file" else [one, path]
        place = found.partition(":")[0].rpartition(" ")[2]
        refused_line(f"nodes, {name}", ask("nodes", *pair, "1", "2"), f"refused {number} at {place}",
                     refusal(number, which, what, path, found), f"aboard: {rows[number][which][3]}")
    takes = ("nekbrod nodes takes a tree file, an opinion sheet, a level K and a number of levels N; "
             "see nekbrod nodes --help")
    for name, words, line in (
            *((f"{count} words", [*ROAD, "1", "2", "3"][:count], takes) for count in (0, 1, 2, 3, 5)),
            ("--csv for a word", [*ROAD, "1", "--csv"], takes),
            ("--csv twice", ["--csv", *ROAD, "1", "2", "--csv"], "--csv is given twice; see nekbrod nodes --help"),
            ("an unknown option", [*ROAD, "1", "2", "--wat"],
             "nekbrod nodes has no option --wat; see nekbrod nodes --help"),
            ("a level that is no number", [*ROAD, "one", "2"], "the level is a number, not 'one'"),
            ("no number of levels", [*ROAD, "1", "two"], "the number of levels is a number, not 'two'"),
            ("a negative level", [*ROAD, "--", "-1", "2"], "the level is a number, not '-1'"),
            ("level 65,536", [*ROAD, "65536", "2"], "the level is at most 65535, not 65536"),
            ("65,536 levels", [*ROAD, "1", "65536"], "the number of levels is at most 65535, not 65536"),
            ("no such tree", ["none", ROAD[1], "1", "2"], "there is no tree file none"),
            ("no such sheet", [ROAD[0], "none", "1", "2"], "there is no opinion sheet none")):
        said(f"nodes, {name}", ask("nodes", *words), 2, line)


NODE_LINES = ["0 800000000 = 800000000 =", "1 100000000 = 100000000 =", "2 400000000 = 400000000 =",
              "3 460000000 = 460000000 =", "4 368000000 = 368000000 ="]
NODE_TEXT = "".join(line + "\n" for line in ["tree 1 events 3 nodes 5 level 1 of 2", *NODE_LINES])

# What another node printer prints for the road trip, level 1 of 2, and what is said.
OTHER_NODES = [
    ("nothing", "", "the node printer gave neither nodes nor a refusal"),
    ("something else", "hello\n", "the node printer gave neither nodes nor a refusal"),
    ("levels", ROAD_LEVELS.decode(), "the node printer gave a header of another form"),
    ("a header alone", NODE_TEXT[:37], "the node printer gave 0 lines after its header, not 5"),
    ("no line end", NODE_TEXT[:-1], "the node printer gave a last line without its end"),
    ("a line too few", NODE_TEXT[:-len(NODE_LINES[4]) - 1], "the node printer gave 4 lines after its header, not 5"),
    ("a line too many", NODE_TEXT + "5 0 = 0 =\n", "the node printer gave 6 lines after its header, not 5"),
    ("another node's line", NODE_TEXT.replace("3 46", "2 46"),
     "the node printer gave another line where that of 3 was due"),
    ("another mark", NODE_TEXT.replace("3 460000000 =", "3 460000000 !"),
     "the node printer gave another line where that of 3 was due"),
    ("ends that fall", NODE_TEXT.replace("3 460000000", "3 460000001"),
     "the node printer gave no interval of probabilities: '3 460000001 = 460000000 ='"),
    ("an end above 1", NODE_TEXT.replace("= 460000000 =", "= 1000000001 ="),
     "the node printer gave no interval of probabilities: '3 460000000 = 1000000001 ='"),
    ("a number out of its range", NODE_TEXT.replace("tree 1 ", "tree 65536 "),
     "the node printer gave a header with a number out of its range"),
]


def other_node_printers(writing):
    """A printer that fails or prints something else: status 3, and one line."""
    copy = writing.copy
    for name, text, line in OTHER_NODES:
        write(copy.notes + "/text", text)
        copy.change(f"#!/bin/sh\nexec cat '{copy.notes}/text' # {name}\n", "node_lines")
        said(f"a node printer that prints {name}", last_of(copy.run("nodes", *ROAD, "1", "2")), 3, line)
    for name, text in (("another tree's nodes", "".join(NODE_TEXT.splitlines(True)[:4]).replace("nodes 5", "nodes 3")),
                       ("another tree's number", NODE_TEXT.replace("tree 1 ", "tree 2 ")),
                       ("another level", NODE_TEXT.replace("level 1 of 2", "level 2 of 2"))):
        write(copy.notes + "/text", text)
        copy.change(f"#!/bin/sh\nexec cat '{copy.notes}/text' # {name}\n", "node_lines")
        ran = last_of(copy.run("nodes", *ROAD, "1", "2"))
        hold(f"a node printer that prints {name}", ran.status == 3 and ran.out == b"", ran)
    for name, commands, line in (("fails", "exit 7", "the node printer ended with status 7"),
                                 ("is killed", "kill -9 $$", "the node printer was ended by signal 9")):
        copy.change(f"#!/bin/sh\n{commands}\n", "node_lines")
        said(f"a node printer that {name}", last_of(copy.run("nodes", *ROAD, "1", "2")), 3, line)
    copy.change(f"#!/bin/sh\ncat >'{copy.notes}/input'\necho refused 24 at 0\n", "node_lines")
    ran = copy.run("nodes", *ROAD, "1", "258")
    files = [read(path) for path in ROAD]
    due = two(1) + b"\2\1" + two(len(files[0])) + two(len(files[1])) + b"".join(files)
    hold("the node printer's input", read(copy.notes + "/input") == due, ran)
    put_back(copy, "node_lines", NODES, "nodes", *ROAD, "1", "2")


SVG = "{http://www.w3.org/2000/svg}"


def drawn(name, ran, path, line, title, *ends):
    """A picture with its line: well-formed, with this title, and these ends in its description."""
    said(name, ran, 0, out=f"wrote {path}: {line}\n")
    if not os.path.isfile(path):
        hold(f"{name}: its file", False, ran)
        return
    root = ElementTree.parse(path).getroot()
    hold(f"{name}: an SVG document", root.tag == SVG + "svg", ran)
    hold(f"{name}: its title", root.findtext(SVG + "title") == title, ran)
    hold(f"{name}: its ends", all(text in root.findtext(SVG + "desc") for text in ends), ran)
    hold(f"{name}: for others to read", os.stat(path).st_mode & 0o777 == 0o644, ran)


def ends_of(line):
    """The two ends of a printed line of a level, as probabilities."""
    _, lower, _, upper, _ = line.split()
    return " to ".join(f"{int(end) // UNIT}.{int(end) % UNIT:09d}" for end in (lower, upper))


def plots(writing):
    """Pictures of pairs, with names and without, at an hour or at none."""
    ask, picture = writing.copy.run, os.path.join(writing.place, "picture.svg")
    road = "the picture of tree 1, 2 levels"
    ends = "0.368000000 to 0.368000000"
    for words in ([*ROAD, "2", "-o", picture], ["-o", picture, *ROAD, "2"], [ROAD[0], "-o", picture, ROAD[1], "2"]):
        drawn("a picture", ask("plot", *words), picture, road, "trip", ends)
        first = read(picture)
        os.remove(picture)
    ask("plot", *ROAD, "2", "-o", picture)
    hold("a picture: the same again", read(picture) == first)
    os.remove(picture)
    here = os.path.join(writing.place, "here")
    os.mkdir(here)
    ran = ask("plot", *ROAD, "2", "-o", "picture.svg", cwd=here)
    said("a picture here", ran, 0, out=f"wrote picture.svg: {road}\n")
    hold("a picture here: its bytes", all_in(here) == {"picture.svg": first})
    [expected] = example("cooling_pumps", "levels-10-at-43842.txt")
    _, first, *_, last = read(expected).decode().splitlines()
    for words in (["--windows", PLAN, "--hour", "43842", *PUMPS, "10", "-o", picture],
                  [*PUMPS, "10", "-o", picture, "--hour", "43842", "--windows", PLAN]):
        drawn("a picture at an hour", ask("plot", *words), picture, "the picture of tree 4, 10 levels",
              "no sea water to the coolers, at hour 43842", ends_of(first), ends_of(last))
        os.remove(picture)
    pair = [write(os.path.join(writing.place, "plots", os.path.basename(path)), read(path)) for path in ROAD]
    drawn("a picture without names", ask("plot", *pair, "2", "-o", picture), picture, road, "top event", ends)
    os.remove(picture)
    write(os.path.join(writing.place, "plots", "names.txt"), ROAD_NAMES.replace(b"trip", "<Öl> & 'öl'".encode()))
    drawn("a picture with a name of signs", ask("plot", *pair, "2", "-o", picture), picture, road, "<Öl> & 'öl'", ends)
    os.remove(picture)


def bad_words_of_plot(writing, out):
    """Words that are not taken."""
    see, none = "see nekbrod plot --help", os.path.join(writing.place, "none")
    takes = f"nekbrod plot takes a tree file, an opinion sheet, a number of levels and -o FILE.svg; {see}"
    together = "--windows BOOK and --hour H go together, and {} is missing; see nekbrod --help"
    exists = "{} exists and is not overwritten: the picture needs a new name"
    for name, words, line in (
            ("nothing", [], takes), ("no -o", [*ROAD, "2"], takes), ("no number", [*ROAD, *out], takes),
            ("four words", [*ROAD, "2", "3", *out], takes),
            ("-o alone", [*ROAD, "2", "-o"], f"-o takes a word, FILE.svg, and there is none; {see}"),
            ("-o twice", [*out, *ROAD, "2", *out], f"-o is given twice; {see}"),
            ("--csv", [*ROAD, "2", *out, "--csv"], f"nekbrod plot has no option --csv; {see}"),
            ("no hour", ["--windows", PLAN, *PUMPS, "2", *out], together.format("--hour")),
            ("no book", ["--hour", "5", *PUMPS, "2", *out], together.format("--windows")),
            ("levels that are no number", [*ROAD, "two", *out], "the number of levels is a number, not 'two'"),
            ("no such tree", [none, ROAD[1], "2", *out], f"there is no tree file {none}"),
            ("no folder", [*ROAD, "2", "-o", none + "/x"], f"there is no folder {none} for the picture"),
            ("an empty name", [*ROAD, "2", "-o", ""], "the picture needs a name, not ''"),
            ("a file", [*ROAD, "2", "-o", ROAD[0]], exists.format(ROAD[0])),
            ("a folder", [*ROAD, "2", "-o", writing.place], exists.format(writing.place))):
        said(f"plot, {name}", writing.copy.run("plot", *words), 2, line)
    os.symlink("none", out[1])
    said("plot, a link to nothing", writing.copy.run("plot", *ROAD, "2", *out), 2, exists.format(out[1]))
    os.remove(out[1])


def unplotted(writing):
    """Files that are refused, and pictures that can't be written: no file is left."""
    ask, rows = writing.copy.run, table_rows()
    picture = os.path.join(writing.place, "picture.svg")
    out = ["-o", picture]
    bad_words_of_plot(writing, out)
    refused_line("plot, another tree's sheet", ask("plot", ROAD[0], FUEL[1], "2", *out), "refused 24 at 0",
                 not_a_pair(1, 3, 3, 7), f"aboard: {rows[24][0][3]}")
    refused_line("plot, 0 levels", ask("plot", *ROAD, "0", *out), "refused 13 at 0", f"refusal 13: {rows[13][0][0]}. "
                 "The number of levels is 0; allowed: 1 to 1000.", f"aboard: {rows[13][0][3]}")
    # What the stand-in for rt notes has room.
    writing.copy.stand_in()
    said("plot, no room", ask("plot", *ROAD, "2", *out, **with_room(2000)), 3,
         f"the picture {picture} could not be written: File too large")
    said("plot, a closed output", ask("plot", *ROAD, "2", *out, stdout=None, preexec_fn=lambda: os.close(1)), 3,
         "the text could not be written: standard output is closed")
    hold("plot: no file left", not os.path.lexists(picture))
    for number in SIGNALS:
        stopping = Paused(writing.place, lambda **more: writing.copy.start("plot", *ROAD, "2", *out, **more))
        stopping.after(1)
        stopping.process.send_signal(number)
        name = signal.Signals(number).name
        said(f"plot, {name}", stopping.go_on(), 128 + number, f"ended by {name}")
        hold(f"plot, {name}: no file left", not os.path.lexists(picture))


LEVELS_HEAD = "level,of,lower,lower end,upper,upper end,width\n"


def csv_of(text):
    """The CSV of printed levels: probabilities, and words for the marks."""
    header, *lines = text.decode().splitlines()
    n, rows = header.split()[-1], []
    for line in lines:
        k, lower, lower_mark, upper, upper_mark = line.split()
        ends = [f"{int(end) // UNIT}.{int(end) % UNIT:09d}" for end in (lower, upper, int(upper) - int(lower))]
        words = [{"=": "exact", "~": "outward"}[mark] for mark in (lower_mark, upper_mark)]
        rows.append(",".join([k, n, ends[0], words[0], ends[1], words[1], ends[2]]) + "\n")
    return LEVELS_HEAD + "".join(rows)


def equal_levels(n, end):
    """By hand: every level is this end, exactly."""
    return LEVELS_HEAD + "".join(f"{k},{n},{end},exact,{end},exact,0.000000000\n" for k in range(n, -1, -1))


def levels_as_csv(writing):
    """By hand for the road trip, whose phone is out of service from hour 5 to 6; as printed for other examples."""
    ask = writing.copy.run
    book = writing.text("phone.ftw", window(0, 5, 6))
    for name, words in (("at the front", ["--csv", *ROAD, "2"]), ("at the end", [*ROAD, "2", "--csv"])):
        said(f"--csv {name}", ask("levels", *words), 0, out=equal_levels(2, "0.368000000"))
    # With the phone out, the trip fails as the car does.
    for hour, end in ("5", "0.460000000"), ("6", "0.368000000"):
        at = ["--windows", book, "--hour", hour]
        for name, words in (("at the front", ["--csv", *at, *ROAD, "2"]), ("at the end", [*at, *ROAD, "2", "--csv"]),
                            ("among the options", [*at[:2], "--csv", *at[2:], *ROAD, "2"])):
            said(f"--csv {name}, hour {hour}", ask("levels", *words), 0, out=equal_levels(2, end))
    for name, pair, more, n, file in (
            ("fuel_supply", FUEL, [], "10", "levels-10.txt"),
            ("cooling_pumps", PUMPS, ["--windows", PLAN, "--hour", "43842"], "10", "levels-10-at-43842.txt")):
        said(f"--csv, {name}", ask("levels", *more, *pair, n, "--csv"), 0, out=csv_of(read(*example(name, file))))
    see = "see nekbrod --help"
    takes = f"nekbrod takes a tree file, an opinion sheet and a number of levels, or nothing; {see}"
    for name, words, line in (
            ("twice", ["--csv", *ROAD, "2", "--csv"], f"--csv is given twice; {see}"),
            ("twice at the front", ["--csv", "--csv", *ROAD, "2"], f"--csv is given twice; {see}"),
            ("and two files", ["--csv", *ROAD], takes), ("and four words", ["--csv", *ROAD, "2", "2"], takes),
            ("and a book alone", ["--csv", "--windows", book, *ROAD, "2"],
             f"--windows BOOK and --hour H go together, and --hour is missing; {see}")):
        said(f"--csv {name}", ask("levels", *words), 2, line)
    ran = ask("levels", ROAD[0], FUEL[1], "2", "--csv")
    hold("--csv, another tree's sheet", ran.status == 1 and ran.out == b"refused 24 at 0\n", ran)
    copy = writing.copy
    for name, text, line in (
            ("an odd text", "tree of no consequence", "a header of another form"),
            ("too few levels", "tree 1 events 3 levels 2", "0 lines after its header, not 3")):
        copy.change(f"#!/bin/sh\necho '{text}'\n")
        said(f"--csv, {name}", last_of(ask("levels", "--csv", *ROAD, "2")), 3, f"the level printer gave {line}")
    put_back(copy, "levels", LEVELS, *ROAD, "2")


ROAD_TABLE = """tree 1, 3 basic events: {}
level  lower end      upper end      width
    2  {end} =  {end} =  0.000000000
    1  {end} =  {end} =  0.000000000
    0  {end} =  {end} =  0.000000000
= is an exact end; ~ is an end rounded outward, to the safe side of the exact one
"""


def tables(writing):
    """On a terminal a table, else plain lines; --csv is CSV on a terminal too."""
    copy, book = writing.copy, writing.text("phone.ftw", window(0, 5, 6))
    at = ["--windows", book, "--hour", "5"]
    pair = [write(os.path.join(writing.place, "tables", os.path.basename(path)), read(path)) for path in ROAD]
    for name, words, text in (
            ("a terminal", [*ROAD, "2"], ROAD_TABLE.format("trip", end="0.368000000")),
            ("a terminal, an hour", [*at, *ROAD, "2"], ROAD_TABLE.format("trip, at hour 5", end="0.460000000")),
            ("a terminal, no names", [*pair, "2"], ROAD_TABLE.format("top event", end="0.368000000")),
            ("a terminal, --csv", [*ROAD, "2", "--csv"], equal_levels(2, "0.368000000"))):
        said(name, on_terminal(copy, "levels", *words, stream="stdout"), 0, out=text)
    names = write(os.path.join(writing.place, "tables", "names.txt"), read(example("fuel_supply", "names.txt")[0]))
    said("a terminal, another tree's names", on_terminal(copy, "levels", *pair, "2", stream="stdout"), 0,
         others_names(names, pair[0]), out=ROAD_TABLE.format("top event", end="0.368000000"))
    said("no terminal", copy.run("levels", *ROAD, "2"), 0, out=ROAD_LEVELS.decode())
    said("no terminal, another tree's names", copy.run("levels", *pair, "2"), 0, out=ROAD_LEVELS.decode())
    ran = on_terminal(copy, "levels", ROAD[0], FUEL[1], "2", stream="stdout")
    hold("a terminal, a refusal", ran.status == 1 and ran.out == b"refused 24 at 0\n", ran)
    said("a terminal, nodes", on_terminal(copy, "nodes", *ROAD, "1", "2", stream="stdout"), 0,
         out=ROAD_NODES_TABLE.format(1, 2))


def sets(name, ran, header, lines, *errors):
    """A header, these sets in whatever order, and these errors."""
    first, *rest = ran.out.decode().splitlines()
    hold(f"{name}: status", ran.status == 0, ran)
    hold(f"{name}: its header", first == header, ran)
    hold(f"{name}: its sets", sorted(rest) == sorted(lines), ran)
    hold(f"{name}: standard error", ran.lines == [f"nekbrod: {line}" for line in errors], ran)


def named_sets(writing):
    """Cut sets by their names, and by numbers where there are no names or --numbers is given."""
    ask = writing.copy.run
    header, numbers = "tree 1 events 3 cut sets 2", ["0 1", "0 2"]
    sets("cut sets by names", ask("cut-sets", ROAD[0]), header, ['"phone" "engine"', '"phone" "battery"'])
    for words in ([ROAD[0], "--numbers"], ["--numbers", ROAD[0]]):
        sets("cut sets by numbers", ask("cut-sets", *words), header, numbers)
    sets("cut sets of the fuel supply", ask("cut-sets", FUEL[0]), "tree 3 events 7 cut sets 6",
         [f'"pump 1 fails" "{other}"' for other in ("pump 2 fails", "pump 3 fails", "valve 1 is stuck",
                                                    "valve 3 is stuck", "flowmeter 1 fails", "the controller fails")])
    alone = write(os.path.join(writing.place, "sets", "tree.ftf"), read(ROAD[0]))
    sets("cut sets without names", ask("cut-sets", alone), header, numbers)
    names = write(os.path.join(writing.place, "sets", "names.txt"), read(example("fuel_supply", "names.txt")[0]))
    sets("cut sets, another tree's names", ask("cut-sets", alone), header, numbers, others_names(names, alone))
    sets("cut sets by numbers, another tree's names", ask("cut-sets", alone, "--numbers"), header, numbers)
    write(names, ROAD_NAMES.replace(b"phone", "ein Täfelchen".encode()))
    sets("cut sets, an edited name", ask("cut-sets", alone), header,
         ['"ein Täfelchen" "engine"', '"ein Täfelchen" "battery"'])
    see = "see nekbrod cut-sets --help"
    said("cut-sets, an option twice", ask("cut-sets", "--numbers", ROAD[0], "--numbers"), 2,
         f"--numbers is given twice; {see}")
    said("cut-sets, an unknown option", ask("cut-sets", "--csv", ROAD[0]), 2,
         f"nekbrod cut-sets has no option --csv; {see}")


def mirror_beside(writing):
    """The mirror of a pair in its own folder is another tree: it does not get the names."""
    folder = os.path.join(writing.place, "mirror")
    for file, data in shipped("road_trip").items():
        write(os.path.join(folder, file), data)
    tree_name, sheet_name, out_tree, out_sheet, names = (
        os.path.join(folder, name) for name in ("tree.ftf", "sheet.fts", "out.ftf", "out.fts", "names.txt"))
    ran = writing.copy.run("mirror", tree_name, sheet_name, out_tree, out_sheet)
    hold("a mirror beside its pair", ran.status == 0 and ran.errors == "", ran)
    # By hand: the trip works if the phone works, or both the engine and the battery.
    sets("cut sets of a mirror beside its pair", writing.copy.run("cut-sets", out_tree), "tree 1 events 3 cut sets 2",
         ["0", "1 2"], others_names(names, out_tree))
    said("the sheet of a mirror beside its pair", writing.copy.run("show", out_sheet), 0,
         others_names(names, out_sheet), out="event\nscore\ne0,0.2\ne1,0.9\ne2,0.6\n")
    sets("cut sets of the pair", writing.copy.run("cut-sets", tree_name), "tree 1 events 3 cut sets 2",
         ['"phone" "engine"', '"phone" "battery"'])


# By hand: G is 0.1 × 0.1, so that T is 1 - 0.99 × 0.1; with c's figure taken for a's and a's for b's it would be 0.181.
T_TREE = 'toplevel "T";\n"T" or "G" "{c}";\n"G" and "{a}" "{b}";\n'
T_ROWS, T_SORTED = "{a},0.1\n{b},0.1\n{c},0.9\n", "{c},0.9\n{a},0.1\n{b},0.1\n"
# The figures of another month, or of another engine: 1 - 0.99 × 0.5.
T_OTHER = T_ROWS.replace("0.9", "0.5")
T_NAMES = {"a": "a", "b": "b", "c": "c"}
T_BOOK = "{c},5,6\n"
# With this name both orders come to one number, as one change of 65,534 does.
ALIKE, ALIKE_NUMBER = {**T_NAMES, "a": "pump 117148"}, 23096
TREE_FILE, SHEET_FILE, BOOK_FILE = "tree.ftf", "sheet.fts", "windows.ftw"


def two_levels(number, end=901000000):
    """What is printed where both levels are this end, exactly."""
    return f"tree {number} events 3 levels 1\n1 {end} = {end} =\n0 {end} = {end} =\n"


class Folders:
    """Folders of files that write makes, and what is asked of files of different folders."""

    # The ways to ask; None for all.
    asked_by = None

    def __init__(self, copy, work):
        self.copy, self.place = copy, os.path.join(work, "folders")
        self.svg, *self.mirror = (os.path.join(self.place, name) for name in ("out.svg", "out.ftf", "out.fts"))

    def path(self, *names):
        return os.path.join(self.place, *names)

    def write(self, folder, texts, *words, names=T_NAMES):
        """Writes a folder of a tree's text, a spreadsheet and perhaps a book's, with these names in them."""
        texts = [write(self.path("texts", f"{folder} {i}"), text.format(**names)) for i, text in enumerate(texts)]
        ran = self.copy.run("write", *texts, "-o", self.path(folder), *words)
        hold(f"the folder {folder} is written", ran.status == 0, ran)

    def without(self, name, folder, other):
        """A folder with the files of another, but for the one of this name."""
        for file, data in all_in(self.path(other)).items():
            if file != name:
                write(self.path(folder, file), data)

    def words(self, tree_file, sheet_file):
        """The ways to ask about a pair, without a book."""
        pair = tree_file, sheet_file
        ways = {"levels": [*pair, "1"], "levels --csv": ["levels", "--csv", *pair, "1"],
                "nodes": ["nodes", *pair, "1", "1"], "nodes --csv": ["nodes", *pair, "1", "1", "--csv"],
                "plot": ["plot", *pair, "1", "-o", self.svg], "mirror": ["mirror", *pair, *self.mirror],
                "check": ["check", *pair], "check, the sheet first": ["check", *reversed(pair)]}
        return {name: ways[name] for name in self.asked_by or ways}

    def clear(self):
        for path in self.svg, *self.mirror:
            if os.path.lexists(path):
                os.remove(path)

    def hold_unwritten(self, name, ran):
        hold(f"{name}: no file", not any(map(os.path.lexists, (self.svg, *self.mirror))), ran)
        self.clear()

    def refused(self, name, tree_folder, sheet_folder, number, sheet_number, events=3):
        """Every word refuses the tree of one folder with the sheet of another by 24, in the page's words."""
        pair = self.path(tree_folder, TREE_FILE), self.path(sheet_folder, SHEET_FILE)
        sentence = not_a_pair(number, events, sheet_number, events)
        for words, asked in self.words(*pair).items():
            ran = self.copy.run(*asked)
            if asked[0] == "check":
                hold(f"{name}, {words}", ran.status == 1 and ran.errors == ""
                     and ran.out.decode().splitlines()[2:] == [sentence], ran)
            else:
                refused_line(f"{name}, {words}", ran, "refused 24 at 0", sentence, f"aboard: {table_rows()[24][0][3]}")
            self.hold_unwritten(f"{name}, {words}", ran)

    def apart(self, name, one, other, found, ways):
        """Each way to ask ends with status 5 and the sentence alone, and check with what the files hold before it."""
        line = (f"{one} and {other} are of different trees, or of different orders of the basic events: {found}; "
                "take files that were written together, or write them again")
        for words, asked in ways.items():
            ran = self.copy.run(*asked)
            hold(f"{name}, {words}: status", ran.status == 5, ran)
            held = len(asked) - 1 if asked[0] == "check" else 0
            hold(f"{name}, {words}: no interval", ran.out.count(b"\n") == held and b"refus" not in ran.out, ran)
            hold(f"{name}, {words}: the sentence", ran.errors == f"nekbrod: {line}\n", ran)
            self.hold_unwritten(f"{name}, {words}", ran)

    def pair_apart(self, name, tree_folder, sheet_folder, thing, first, second):
        pair = self.path(tree_folder, TREE_FILE), self.path(sheet_folder, SHEET_FILE)
        paths = self.path(tree_folder, "names.txt"), self.path(sheet_folder, "names.txt")
        self.apart(name, *pair, f"{thing} is {first} by {paths[0]} and {second} by {paths[1]}", self.words(*pair))

    def answered(self, name, tree_folder, sheet_folder, out, *lines):
        """The levels, and of every other word an answer; on standard error these lines alone."""
        pair = self.path(tree_folder, TREE_FILE), self.path(sheet_folder, SHEET_FILE)
        said(name, self.copy.run(*pair, "1"), 0, *lines, out=out)
        for words, asked in self.words(*pair).items():
            ran = self.copy.run(*asked)
            # Tables have a line of their own where names are another file's.
            kept = [line for line in ran.lines if not line.endswith(NUMBERS_STAND)]
            hold(f"{name}, {words}", ran.status == 0 and kept == [f"nekbrod: {line}" for line in lines], ran)
            self.clear()


def of_another_order(folders):
    """A spreadsheet is sorted, written again, and its sheet put to the tree of before."""
    texts, of_sorted = (T_TREE, T_ROWS), (T_TREE, T_SORTED)
    folders.write("old", texts)
    folders.write("new", of_sorted)
    for folder, number in ("old", 13094), ("new", 61451):
        folders.answered(f"the {folder} pair", folder, folder, two_levels(number))
    folders.refused("a sorted sheet", "old", "new", 13094, 61451)
    folders.refused("an unsorted sheet", "new", "old", 61451, 13094)
    for name, names, words, number in (("said", T_NAMES, ["--number", "5"], 5), ("alike", ALIKE, [], ALIKE_NUMBER)):
        old, new = f"old {name}", f"new {name}"
        folders.write(old, texts, *words, names=names)
        folders.write(new, of_sorted, *words, names=names)
        for folder in old, new:
            folders.answered(f"a number {name}, the pair {folder}", folder, folder, two_levels(number))
        first = f'"{names["a"]}"'
        folders.pair_apart(f"a number {name}, a sorted sheet", old, new, "event 0", first, '"c"')
        folders.pair_apart(f"a number {name}, an unsorted sheet", new, old, "event 0", '"c"', first)
    shown_and_sorted(folders)


def shown_and_sorted(folders):
    """The texts that show gives of a pair write it again; with sorted rows they write another tree's."""
    texts = []
    for file, due in ((TREE_FILE, 'toplevel "T";\n"G" and "a" "b";\n"T" or "G" "c";\n'),
                      (SHEET_FILE, "event\nscore\na,0.1\nb,0.1\nc,0.9\n")):
        said(f"{file} of a number of its own, shown", folders.copy.run("show", folders.path("old", file)), 0, out=due)
        texts.append(due)
    folders.write("shown", texts)
    hold("shown and written again", all_in(folders.path("shown")) == all_in(folders.path("old")))
    folders.write("shown sorted", (texts[0], T_SORTED))
    hold("shown, sorted and written again", all_in(folders.path("shown sorted")) == all_in(folders.path("new")))
    ran = folders.copy.run("show", "--open-psa", folders.path("old", TREE_FILE))
    hold("its Open-PSA text has the number", b'name="tree-number" value="13094"' in ran.out, ran)


def alike_in_bytes(folders):
    """Files that have the same bytes under other names are of another tree all the same."""
    other = {"a": "valve 1", "b": "valve 2", "c": "valve 3"}
    folders.write("valves", (T_TREE, T_OTHER), "--number", "5", names=other)
    hold("two trees of the same bytes", read(folders.path("valves", TREE_FILE)) == read(
        folders.path("old said", TREE_FILE)))
    folders.pair_apart("a sheet of a tree of the same bytes", "old said", "valves", "event 0", '"a"', '"valve 1"')
    folders.write("swapped", (T_TREE, "{b},0.1\n{a},0.1\n{c},0.9\n"), "--number", "5")
    hold("two sheets of the same bytes", read(folders.path("swapped", SHEET_FILE)) == read(
        folders.path("old said", SHEET_FILE)))
    folders.pair_apart("a sheet of the same bytes", "old said", "swapped", "event 0", '"a"', '"b"')


def of_another_system(folders):
    """Sheets of systems with as many basic events, whose texts say no number, or the same one."""
    numbers = re.compile(r"<attributes>.*?</attributes>|// nekbrod: tree number [0-9]+", re.DOTALL)
    for name in "container_seal", "cooling_pumps":
        texts = [read(path).decode() for path in example(name, *EXAMPLES[name][0][:2])]
        texts = [numbers.sub("", text) for text in texts]
        folders.write(name, texts)
        folders.write(f"{name} 5", texts, "--number", "5")
    seal, pumps = (int.from_bytes(read(folders.path(name, TREE_FILE))[5:7], "little")
                   for name in ("container_seal", "cooling_pumps"))
    hold("two systems have two numbers", seal != pumps and min(seal, pumps) >= 2)
    folders.refused("the pumps' sheet", "container_seal", "cooling_pumps", seal, pumps, 6)
    folders.refused("the seal's sheet", "cooling_pumps", "container_seal", pumps, seal, 6)
    folders.pair_apart("the pumps' sheet, one number", "container_seal 5", "cooling_pumps 5", "the top event",
                       '"container"', '"no sea water to the coolers"')
    # The same names for the parts of another engine: the top's name alone tells them apart.
    other = T_TREE.replace('"T"', '"U"'), T_OTHER
    folders.write("engine 2", other)
    folders.write("engine 2 said", other, "--number", "5")
    folders.refused("engine 2's sheet", "old", "engine 2", 13094,
                    int.from_bytes(read(folders.path("engine 2", TREE_FILE))[5:7], "little"))
    folders.pair_apart("engine 2's sheet, one number", "old said", "engine 2 said", "the top event", '"T"', '"U"')
    folders.write("other gates", (T_TREE.replace('"G" and', '"G" or'), T_OTHER), "--number", "5")
    folders.pair_apart("a sheet of other gates", "old said", "other gates", "node 3", "an AND", "an OR")
    folders.write("gates of one", (T_TREE.replace('"G" "{c}"', '"G" "H";\n"H" or "{c}"'), T_OTHER), "--number", "5")
    folders.pair_apart("a sheet of a gate more", "old said", "gates of one", "node 5", "not there", "an OR")


def of_one_tree(folders):
    """What is answered: another month's sheet, names that are not there, not for the file, or edited."""
    folders.write("may", (T_TREE, T_OTHER))
    folders.write("may said", (T_TREE, T_OTHER), "--number", "5")
    folders.answered("another month's sheet", "old", "may", two_levels(13094, 505000000))
    folders.answered("another month's sheet, a number said", "old said", "may said", two_levels(5, 505000000))
    folders.write("renamed", (T_TREE.replace('"G"', '"both"'), T_OTHER))
    folders.answered("a sheet of a tree with a gate renamed", "old", "renamed", two_levels(13094, 505000000))
    folders.without("names.txt", "old unnamed", "old said")
    folders.without("names.txt", "new unnamed", "new said")
    wrong = two_levels(5, 181000000)
    for name, tree_folder, sheet_folder in (("no names beside the tree", "old unnamed", "new said"),
                                            ("no names beside the sheet", "old said", "new unnamed"),
                                            ("no names", "old unnamed", "new unnamed")):
        folders.answered(f"nothing to compare, {name}", tree_folder, sheet_folder, wrong)
    names_not_for_it(folders, wrong)


def names_not_for_it(folders, wrong):
    """A line where names are for one file of two, and those beside the other are not for it."""
    unknown = "{}: whether {} and {} are of one tree and order is not known"
    folders.without("sheet.fts", "mixed", "old said")
    mixed_tree, mixed_sheet, names = (folders.path("mixed", name) for name in (TREE_FILE, SHEET_FILE, "names.txt"))
    write(mixed_sheet, read(folders.path("new said", SHEET_FILE)))
    folders.answered("another sheet in the tree's folder", "mixed", "mixed", wrong, unknown.format(
        OTHERS.format(names=names, file=mixed_sheet), mixed_sheet, mixed_tree))
    old_sheet = folders.path("old said", SHEET_FILE)
    folders.without("names.txt", "damaged", "old said")
    damaged_tree, damaged = folders.path("damaged", TREE_FILE), folders.path("damaged", "names.txt")
    for name, data, why in ("no names file", b"hello\n", NO_NAMES), ("others' names", ROAD_NAMES, OTHERS):
        write(damaged, data)
        folders.answered(f"{name} beside the tree", "damaged", "old said", two_levels(5), unknown.format(
            why.format(names=damaged, file=damaged_tree), damaged_tree, old_sheet))
        folders.answered(f"{name} beside both", "damaged", "damaged", two_levels(5))
    folders.without("names.txt", "edited", "old said")
    edited, text = folders.path("edited", "names.txt"), read(folders.path("old said", "names.txt"))
    write(edited, text.replace(b" G\n", b" both pumps\n"))
    folders.answered("a gate's name edited", "edited", "may said", two_levels(5, 505000000))
    write(edited, text.replace(b" b\n", b" pump b\n"))
    folders.pair_apart("an event's name edited", "edited", "may said", "event 1", '"pump b"', '"b"')


def books_apart(folders):
    """A book has no number: its names alone tell that it is of another order."""
    for folder, rows, words in (("planned", T_ROWS, []), ("planned sorted", T_SORTED, []),
                                ("planned fewer", "{a},0.1\n{c},0.9\n", ["--number", "5"])):
        tree_text = T_TREE if "{b}" in rows else T_TREE.replace(' "{b}"', "")
        folders.write(folder, (tree_text, rows, T_BOOK), *words)
    tree_file, sheet_file = folders.path("old", TREE_FILE), folders.path("old", SHEET_FILE)

    def ways(book):
        at = ["--windows", book, "--hour", "5"]
        return {"levels": ["levels", *at, tree_file, sheet_file, "1"],
                "levels --csv": ["levels", *at, tree_file, sheet_file, "1", "--csv"],
                "plot": ["plot", *at, tree_file, sheet_file, "1", "-o", folders.svg],
                "check": ["check", tree_file, sheet_file, book], "check, no sheet": ["check", book, tree_file]}

    ran = folders.copy.run(*ways(folders.path("planned", BOOK_FILE))["levels"])
    said("a book of the tree", ran, 0, out=two_levels(13094, UNIT))
    for folder, thing, first, second in (("planned sorted", "event 0", '"a"', '"c"'),
                                         ("planned fewer", "event 1", '"b"', '"c"')):
        book, old, new = (folders.path(*names) for names in (
            (folder, BOOK_FILE), ("old", "names.txt"), (folder, "names.txt")))
        folders.apart(f"a book of the folder {folder}", tree_file, book,
                      f"{thing} is {first} by {old} and {second} by {new}", ways(book))
    book = write(folders.path("loose", BOOK_FILE), read(folders.path("planned sorted", BOOK_FILE)))
    said("a book without names", folders.copy.run("check", tree_file, book), 0, out=(
        f'{tree_file}: tree 13094, 5 nodes: 3 basic events, 1 AND, 1 OR; the top event is "T"\n'
        f"{book}: a book of 1 work window, from hour 5 to hour 6\n"))
    book = write(folders.path("old", BOOK_FILE), read(book))
    line = (f"{OTHERS.format(names=folders.path('old', 'names.txt'), file=book)}: "
            f"whether {book} and {tree_file} are of one tree and order is not known")
    # It has a for c: 1 - 0.9 × 0.1.
    ran = folders.copy.run(*ways(book)["levels"])
    said("another book in the tree's folder", ran, 0, line, out=two_levels(13094, 910000000))
    os.remove(book)


def mirrors_together(folders):
    """Both files of a mirror are a pair, wherever they lie; one of them with a file of the pair is told of."""
    once = folders.path("old said", "works.ftf"), folders.path("old said", "works.fts")
    copy, names = folders.copy, folders.path("old said", "names.txt")
    ran = copy.run("mirror", folders.path("old said", TREE_FILE), folders.path("old said", SHEET_FILE), *once)
    hold("a mirror beside its names", ran.status == 0 and ran.errors == "", ran)
    said("a mirror beside its names, asked", copy.run(*once, "1"), 0, out=two_levels(5, 99000000))
    sheet_file = folders.path("old said", SHEET_FILE)
    ran = copy.run(once[0], sheet_file, "1")
    hold("a mirrored tree with the sheet of the pair", ran.status == 0 and ran.lines == [
        f"nekbrod: {OTHERS.format(names=names, file=once[0])}: whether {once[0]} and {sheet_file} are of one tree and "
        "order is not known"], ran)


def together(work, copy):
    folders = Folders(copy, work)
    of_another_order(folders)
    folders.asked_by = "levels", "check"
    of_another_system(folders)
    alike_in_bytes(folders)
    of_one_tree(folders)
    books_apart(folders)
    mirrors_together(folders)
    pair = folders.path("old said", TREE_FILE), folders.path("new said", SHEET_FILE)
    ran = on_terminal(copy, "levels", *pair, "1", stream="stdout")
    hold("a terminal, a sorted sheet", ran.status == 5 and ran.out == b"" and len(ran.lines) == 1, ran)


AT_MOST = "the true probability is at most the upper end, and may lie below the lower one"
AT_LEAST = "the true probability is at least the lower end, and may lie above the upper one"
ONLY = "only and and or have a place in a tree file: "


def bounds(writing):
    """What is said of a gate in place of one that a tree file has no place for, and that it is so.

    Of three pumps of 0.1 each two or more fail with 3 × 0.01 × 0.9 + 0.001; two such pumps fail in one order with half
    of 0.01."""
    for kind, pumps, true, others in (
            ("2of3", 3, 28000000, {"or": "at most", "and": "at least"}), ("pand", 2, 5000000, {"and": "at most"})):
        rows = writing.text("sheet.csv", "".join(f"pump {i},0.1\n" for i in range(pumps)))
        inputs = " ".join(f'"pump {i}"' for i in range(pumps))
        text = writing.text("tree.dft", f'toplevel "no water";\n"no water" {kind} {inputs};\n')
        advice = (f"with or in its place {AT_MOST}; with and {AT_LEAST}" if kind == "2of3" else
                  f"with and in its place, which leaves the order out, {AT_MOST}")
        writing.refused(f"bounds, {kind}", writing.new(text, rows), 1, f"{text}, line 2, column 12: "
                        f'the gate "no water" is of the kind {kind}; {ONLY}{advice}')
        for other, bound in others.items():
            text = writing.text("tree.dft", f'toplevel "no water";\n"no water" {other} {inputs};\n')
            hold(f"bounds, {other} for {kind}: written", writing.new(text, rows).status == 0)
            ran = writing.copy.run(*(os.path.join(writing.out, file) for file in ("tree.ftf", "sheet.fts")), "1")
            lower, upper = (int(ran.out.split()[place]) for place in (7, 9))
            # It lies on one side of both ends.
            right = true < lower <= upper if bound == "at most" else lower <= upper < true
            hold(f"bounds, {other} for {kind}: {bound}", right, ran)


def writes(work, copy, seed):
    shipped_texts(work, Copy(work, "bare copy", built=False))
    writing = Writing(copy, work, "writes")
    numbers_and_orders(writing)
    bad_words_of_write(writing)
    unread_texts(writing)
    shut_texts(writing)
    folders(writing)
    what_exists(writing)
    unwritten(writing)
    paused(writing)
    faults(writing)
    unusual_texts(writing)
    garbled_texts(work, seed)
    hold("write: rt is not asked", copy.calls() == [])


def shows(work, copy, seed):
    writing = Writing(copy, work, "shows")
    shown_texts(writing)
    written_again(writing)
    open_psa_shown(copy)
    refused_shows(writing)
    damaged_names(writing)
    edited_names(writing)
    garbled_names(work, seed)


def checks(work, copy):
    writing = Writing(copy, work, "checks")
    accepted_files(writing)
    refused_checks(writing)
    checked_pairs(writing)
    bad_checks(writing)


def answers(work, copy):
    writing = Writing(copy, work, "answers")
    nodes(writing)
    refused_nodes(writing)
    other_node_printers(writing)
    plots(writing)
    unplotted(writing)
    levels_as_csv(writing)
    tables(writing)
    named_sets(writing)
    mirror_beside(writing)
    bounds(writing)


def main(words):
    if os.environ.get("LC_ALL") != "C":
        # The names of files are the same bytes whatever the locale is.
        os.execve(sys.executable, [sys.executable, "-B", *sys.argv], {**os.environ, "LC_ALL": "C"})
    for crate, program in PROGRAMS.items():
        if not os.access(program, os.X_OK):
            print(f"{program} is not built: tests/build.sh")
            return 2
    signal.signal(signal.SIGTERM, lambda *_: sys.exit(2))
    os.umask(0o022)
    seed = int(words[0]) if words else int(time.time())
    print(f"garbled texts and names, seed {seed}")
    with tempfile.TemporaryDirectory() as work:
        os.chmod(work, 0o755)
        copy = Copy(work, "a copy")
        writes(work, copy, seed)
        shows(work, copy, seed)
        checks(work, copy)
        answers(work, copy)
        together(work, copy)
    return finish("words.py")


sys.exit(main(sys.argv[1:]))
