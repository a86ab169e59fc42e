# The command at the root: every shipped example, levels to the byte, cut sets by brute force and its mirror by the law,
# its refusals in words, a maker's figures, hours of a book, files of a mirror, bad arguments, building, signals.
# All but the shipped examples run in a copy, where a stand-in for rt is on the path.
import itertools
import os
import pty
import re
import resource
import shutil
import signal
import sys
import tempfile
import time

from command_runs import (
    CAN_BE_SHUT_OUT, CRATES, CUT_SETS, FUEL_LEVELS, HOUR_LEVELS, IS_ROOT, LAST_HOUR, LEVELS, LONGEST, MIRROR, NOBODY,
    PAUSE, PLAN, PROGRAMS, PUMPS, PYTHON, ROAD, ROAD_LEVELS, ROOT, SHUT_OUT, UNIT, Copy, ended, finish, four,
    fractions, hold, last_of, on_terminal, printed, read, run, sheet, skipped, stopped, table_rows, terms, tree, two,
    until, window, write)


def shipped_examples():
    """By the command itself, and by the real rt, to which nothing has changed."""
    examples = os.path.join(ROOT, "examples")
    for name in sorted(os.listdir(examples)):
        folder = os.path.join(examples, name)
        for expected in sorted(os.listdir(folder)):
            matched = re.fullmatch("levels-([0-9]+).txt", expected)
            if matched:
                n = matched.group(1)
                ran = run([os.path.join(ROOT, "nekbrod"), folder + "/tree.ftf", folder + "/sheet.fts", n])
                printed(f"{name}, {n} levels", ran, read(os.path.join(folder, expected)))
                hold(f"{name}: no errors", ran.errors == "", ran)
            matched = re.fullmatch("levels-([0-9]+)-at-([0-9]+).txt", expected)
            if matched:
                n, hour = matched.groups()
                ran = run([os.path.join(ROOT, "nekbrod"), "levels", "--windows", folder + "/windows.ftw", "--hour",
                           hour, folder + "/tree.ftf", folder + "/sheet.fts", n])
                printed(f"{name}, {n} levels at hour {hour}", ran, read(os.path.join(folder, expected)))
                hold(f"{name} at hour {hour}: no errors", ran.errors == "", ran)
        if os.path.exists(folder + "/tree.ftf"):
            ran = run([os.path.join(ROOT, "nekbrod"), "cut-sets", "--numbers", folder + "/tree.ftf"])
            sets_printed(name, ran, read(folder + "/tree.ftf"))


def turned(line):
    """A level's line of the mirrored pair: each end 1 minus the other one, with its mark."""
    k, lower, lower_mark, upper, upper_mark = line.split()
    return f"{k} {UNIT - int(upper)} {upper_mark} {UNIT - int(lower)} {lower_mark}"


def shipped_mirrors(work):
    """Of each example the mirror has its levels turned over, mirrored twice its tree and all its levels are back."""
    command = os.path.join(ROOT, "nekbrod")
    for name, n in (("road_trip", "2"), ("fuel_supply", "10"), ("container_seal", "100"), ("cooling_pumps", "10")):
        folder = os.path.join(ROOT, "examples", name)
        pair = folder + "/tree.ftf", folder + "/sheet.fts"
        once, twice = ([os.path.join(work, name + end) for end in (f"{turn}.ftf", f"{turn}.fts")] for turn in (1, 2))
        for given, new in (pair, once), (once, twice):
            ran = run([command, "mirror", *given, *new])
            hold(f"{name}, mirrored: status", ran.status == 0 and ran.errors == "", ran)
        header, *lines = read(f"{folder}/levels-{n}.txt").decode().splitlines()
        ran = run([command, *once, n])
        hold(f"{name}, mirrored: every level", ran.out.decode().splitlines() == [header, *map(turned, lines)], ran)
        printed(f"{name}, mirrored twice", run([command, *twice, n]), read(f"{folder}/levels-{n}.txt"))
        hold(f"{name}, mirrored: another tree", read(once[0]) != read(pair[0]))
        hold(f"{name}, mirrored twice: the tree's bytes", read(twice[0]) == read(pair[0]))


def calls(work, copy):
    ran = copy.run()
    printed("no arguments", ran, FUEL_LEVELS)
    hold("no arguments: what it shows", "examples/fuel_supply with 10 levels" in ran.errors, ran)
    printed("from another folder", copy.run(cwd="/"), FUEL_LEVELS)
    folder = os.path.dirname(ROAD[0])
    printed("names from here", copy.run("tree.ftf", "./sheet.fts", "2", cwd=folder), ROAD_LEVELS)
    printed("a number with zeros before it", copy.run(*ROAD, "0002"), ROAD_LEVELS)
    printed("a number with 5,000 zeros before it", copy.run(*ROAD, "0" * 5000 + "2"), ROAD_LEVELS)
    ran = run([PYTHON, os.path.relpath(copy.command, folder), "tree.ftf", "sheet.fts", "2"], cwd=folder,
              env={"PATH": copy.tools})
    printed("by python3 and a path from here", ran, ROAD_LEVELS)
    os.symlink(copy.command, os.path.join(work, "link"))
    os.mkdir(os.path.join(work, "links"))
    os.symlink("../link", os.path.join(work, "links/to link"))
    ran = run(["links/to link", *ROAD, "2"], cwd=work, env={"PATH": copy.tools})
    printed("through two links", ran, ROAD_LEVELS)
    ran = copy.run("levels", *ROAD, "2")
    printed("the word levels", ran, ROAD_LEVELS)
    hold("the word levels: no errors", ran.errors == "", ran)
    modules = [name for _, _, files in os.walk(copy.home + "/desk") for name in files]
    hold("nothing written beside the modules", all(name.endswith(".py") for name in modules))
    helps(copy)
    ran = copy.run("--version")
    hold("version: status", ran.status == 0, ran)
    hold("version: as in VERSION", ran.out == b"nekbrod " + read(os.path.join(ROOT, "VERSION")), ran)
    hold("version: three numbers", re.fullmatch(rb"nekbrod [0-9]+\.[0-9]+\.[0-9]+\n", ran.out), ran)
    write(copy.home + "/VERSION", "7.8.9\n")
    ran = copy.run("--version")
    hold("version: another", ran.out == b"nekbrod 7.8.9\n", ran)
    os.remove(copy.home + "/VERSION")
    stopped("version: none", copy.run("--version"), 3, "version is not known.*VERSION")
    shutil.copy(os.path.join(ROOT, "VERSION"), copy.home)


# What the help of the command has, and that of each of its words.
HELPS = {
    "": ["nekbrod TREE SHEET LEVELS", "nekbrod levels TREE SHEET LEVELS", "nekbrod cut-sets TREE",
         "nekbrod levels --windows BOOK --hour H TREE SHEET LEVELS", "nekbrod mirror TREE SHEET OUT_TREE OUT_SHEET",
         "nekbrod nodes TREE SHEET K N", "nekbrod plot TREE SHEET LEVELS -o FILE.svg", "nekbrod show FILE",
         "nekbrod write TREE.dft SHEET.csv -o FOLDER", "nekbrod check FILE...", "--version", "Exit status",
         "5 the names say that files are of different trees\nor orders", "128 + n"],
    "levels": ["nekbrod TREE SHEET LEVELS", "--csv", "--windows BOOK --hour H", "since", "in billionths"],
    "cut-sets": ["nekbrod cut-sets TREE", "--numbers", "100000"],
    "mirror": ["nekbrod mirror TREE SHEET OUT_TREE OUT_SHEET", "main engine working", "1 minus the upper end",
               "comes back as fractions"],
    "nodes": ["nekbrod nodes TREE SHEET K N [--csv]", "names.txt"],
    "plot": ["TREE SHEET LEVELS -o FILE.svg", "staircase", "logarithmic"],
    "write": ["nekbrod write TREE.dft SHEET.csv", "-o FOLDER", "--number N", "--order rows|mention", "Open-PSA",
              "comes from the\ntree itself", "is refused by 24"],
    "show": ["nekbrod show FILE [--open-psa]", "the same bytes"],
    "check": ["nekbrod check FILE...", "the status is 5"],
}


def helps(copy):
    for word, texts in HELPS.items():
        for option in ("--help", "-h"):
            words = [*word.split(), option]
            ran = copy.run(*words)
            hold(f"{words}: status", ran.status == 0, ran)
            for text in texts:
                hold(f"{words}: {text}", text.encode() in ran.out, ran)
            hold(f"{words}: no errors", ran.errors == "", ran)


def file_names(work, copy):
    names = os.path.join(work, "names")
    for name in ("the tree", "-n", "--help", "--version", "levels", "cut-sets", "mirror", "nodes", "plot", "write",
                 "show", "check", "--csv", "--windows", "--hour", "%s\\n\\1", "$HOME *", "it's", '"', "\udcff\u00e9"):
        write(os.path.join(names, name), read(ROAD[0]))
        write(os.path.join(names, name + ".fts"), read(ROAD[1]))
        printed(f"the file name {name!r}", copy.run(name, name + ".fts", "2", cwd=names), ROAD_LEVELS)
        printed(f"levels and the file name {name!r}", copy.run("levels", name, name + ".fts", "2", cwd=names),
                ROAD_LEVELS)
        write(os.path.join(names, name + ".ftw"), b"")
        ran = copy.run("levels", "--windows", name + ".ftw", "--hour", "2", name, name + ".fts", "2", cwd=names)
        printed(f"a book and the file name {name!r}", ran, ROAD_LEVELS)
        new = f"{name}.new", f"{name}.sheet"
        ran = copy.run("mirror", name, f"{name}.fts", *new, cwd=names)
        both_written(f"the new name {new[0]!r}", ran, new, mirror_of_road(), names)
    ran = copy.run("\udcff.none", "x", "2", cwd=names)
    stopped("a name that is not UTF-8", ran, 2, "there is no tree file \udcff.none$")


EVENT = (0, 0, 0)
ONE = tree([EVENT], [])
TWO = tree([EVENT, (0, 1, 0), (2, 0, 2)], [0, 1])
GOOD = sheet([four(0, 1, 1, 2)])


def wrong_fractions(name, denominator, a, b, c, d, last=0):
    """A case of 28 in a sheet of one entry, as those in REFUSED."""
    found, allowed = (f" and the last byte {last}", ", and the last byte 0") if last else ("", "")
    return (name, ONE, sheet([fractions(denominator, a, b, c, d, last=last)]), 2, "refused 28 at 26", 0, "sheet",
            f"the entry of event 0 has the numerators {a}, {b}, {c}, {d} over the denominator {denominator}{found}; "
            "allowed: each numerator at least the one before it, and at most the denominator, which is 1 to 1000000"
            + allowed)


# Name, tree, sheet, levels, the printer's line, which of its number's rows in the page's table, the file, what is said.
REFUSED = [
    ("a tree of 8 bytes", bytes(8), GOOD, 2, "refused 1 at 8", 0, "tree", "the file has 8 bytes; allowed: at least 9"),
    ("an empty sheet", ONE, b"", 2, "refused 1 at 0", 0, "sheet", "the file has 0 bytes; allowed: at least 26"),
    ("a sheet's letters in a tree", tree([EVENT], [], letters=b"FTS"), GOOD, 2, "refused 2 at 0", 0, "tree",
     "the letters are 'FTS'; allowed: 'FTF'"),
    ("a zero among the sheet's letters", ONE, sheet([four(0, 0, 0, 0)], letters=b"F\0S"), 2, "refused 2 at 0", 0,
     "sheet", "the letters are 'F\\x00S'; allowed: 'FTS'"),
    ("a tree's version", tree([EVENT], [], version=257), GOOD, 2, "refused 3 at 3", 0, "tree",
     "the version is 257; allowed: 1"),
    ("a sheet's version", ONE, sheet([four(0, 0, 0, 0)], version=2), 2, "refused 3 at 3", 0, "sheet",
     "the version is 2; allowed: 1"),
    ("no node", tree([], []), GOOD, 2, "refused 4 at 7", 0, "tree", "N, the number of nodes, is 0; allowed: 1 to 1024"),
    ("1,025 nodes", tree([EVENT], [], count=1025), GOOD, 2, "refused 4 at 7", 0, "tree",
     "N, the number of nodes, is 1025; allowed: 1 to 1024"),
    ("no event", ONE, sheet([], count=0), 2, "refused 4 at 7", 0, "sheet",
     "E, the number of basic events, is 0; allowed: 1 to 1024"),
    ("17 experts", ONE, sheet([four(0, 0, 0, 0)], experts=17), 2, "refused 4 at 9", 0, "sheet",
     "the number of experts is 17; allowed: 0 to 16"),
    ("a header of a tree alone", tree([], [], count=1), GOOD, 2, "refused 5 at 9", 0, "tree",
     "the file has 9 bytes; allowed: 14, which is 7 × N + 7 for N = 1"),
    ("a sheet with a byte more", ONE, GOOD + b"\0", 2, "refused 5 at 44", 0, "sheet",
     "the file has 44 bytes; allowed: 43, which is 26 + 17 × E for E = 1"),
    ("a record of kind 3", tree([EVENT, (3, 0, 1)], [0]), GOOD, 2, "refused 6 at 14", 0, "tree",
     "record 1 has the kind 3; allowed: 0 (basic event), 1 (AND), 2 (OR)"),
    ("an entry of kind 3", ONE, sheet([fractions(1, 1, 0, 0, 0, kind=3, last=1)]), 2, "refused 6 at 26", 0, "sheet",
     "the entry of event 0 has the kind 3; allowed: 0 (four numbers), 1 (opinions), 2 (fractions)"),
    ("a second entry of kind 9", TWO, sheet([four(0, 0, 0, 0), terms(kind=9)]), 2, "refused 6 at 43", 0, "sheet",
     "the entry of event 1 has the kind 9; allowed: 0 (four numbers), 1 (opinions), 2 (fractions)"),
    ("an event's number", tree([EVENT, (0, 4, 0), (2, 0, 2)], [0, 1]), GOOD, 2, "refused 7 at 14", 0, "tree",
     "record 1, a basic event, has a = 4 and b = 0; allowed: a = 1 and b = 0"),
    ("an event with inputs", tree([(0, 0, 1)], []), GOOD, 2, "refused 7 at 9", 0, "tree",
     "record 0, a basic event, has a = 0 and b = 1; allowed: a = 0 and b = 0"),
    ("a gate's first link", tree([EVENT, (1, 0, 1), (2, 0, 1)], [0, 1]), GOOD, 2, "refused 7 at 19", 0, "tree",
     "record 2, an OR gate, has a = 0 and b = 1; allowed: a = 1, b from 1 to 16, and a + b at most N - 1 = 2"),
    ("a gate with no input", tree([EVENT, (1, 0, 0)], [0]), GOOD, 2, "refused 7 at 14", 0, "tree",
     "record 1, an AND gate, has a = 0 and b = 0; allowed: a = 0, b from 1 to 16, and a + b at most N - 1 = 1"),
    ("too few links", tree([EVENT, (0, 1, 0)], [0]), GOOD, 2, "refused 7 at 19", 1, "tree",
     "all b together are 0; allowed: N - 1 = 1"),
    ("a score of 0", TWO, sheet([terms(1), terms(1)], scores=[0]), 2, "refused 7 at 10", 2, "sheet",
     "expert 0's score is 0; allowed: 1 to 100"),
    ("a score of 101 at a place where the tree has a record", TWO,
     sheet([terms(1), terms(1)], scores=[1, 2, 3, 4, 101]), 2, "refused 7 at 14", 2, "sheet",
     "expert 4's score is 101; allowed: 1 to 100"),
    ("a score of 101 at a place where the tree has its last gate", TWO,
     sheet([terms(1), terms(1)], scores=[1] * 9 + [101]), 2, "refused 7 at 19", 2, "sheet",
     "expert 9's score is 101; allowed: 1 to 100"),
    ("a score right after the last expert", ONE, sheet([four(0, 0, 0, 0)], scores=[5], experts=0), 2,
     "refused 7 at 10", 2, "sheet", "expert 0's score is 5; allowed: 0 after the last expert (experts: 0)"),
    ("a score after the last expert", ONE, sheet([four(0, 0, 0, 0)], after=b"\1"), 2, "refused 7 at 25", 2, "sheet",
     "expert 15's score is 1; allowed: 0 after the last expert (experts: 0)"),
    ("a gate linked to itself", tree([EVENT, (1, 0, 1)], [1]), GOOD, 2, "refused 8 at 19", 0, "tree",
     "link 0, input 0 of gate 1 (AND), names node 1; allowed: a node below 1"),
    ("a second input above its gate", tree([EVENT, (0, 1, 0), (1, 0, 2), (2, 2, 1)], [0, 3, 2]), GOOD, 2,
     "refused 8 at 31", 0, "tree", "link 1, input 1 of gate 2 (AND), names node 3; allowed: a node below 2"),
    ("two gates over one event", tree([EVENT, (1, 0, 1), (2, 1, 1)], [0, 0]), GOOD, 2, "refused 9 at 26", 0, "tree",
     "link 1, input 0 of gate 2 (OR), names node 0; allowed: a node that no link before it names, "
     "and link 0, input 0 of gate 1 (AND) names this one"),
    ("four numbers out of order", ONE, sheet([four(1, 0, 0, 0)]), 2, "refused 10 at 26", 0, "sheet",
     "the entry of event 0 has the four numbers 1, 0, 0, 0; "
     "allowed: each at least the one before it, and at most 1000000000"),
    ("a number above 1", TWO, sheet([four(0, 0, 0, 0), four(0, 0, 0, 1000000001)]), 2, "refused 10 at 43", 0, "sheet",
     "the entry of event 1 has the four numbers 0, 0, 0, 1000000001; "
     "allowed: each at least the one before it, and at most 1000000000"),
    ("a term of 8", ONE, sheet([terms(8)], scores=[1]), 2, "refused 11 at 27", 0, "sheet",
     "expert 0's term for event 0 is 8; allowed: 0 to 7"),
    ("a term after the last expert", TWO, sheet([terms(1, 1), terms(1, last=1)], scores=[1, 1]), 2,
     "refused 11 at 59", 0, "sheet",
     "expert 15's term for event 1 is 1; allowed: 0 after the last expert (experts: 2)"),
    ("nobody spoke", ONE, sheet([terms()], scores=[1, 1]), 2, "refused 12 at 26", 0, "sheet",
     "the entry of event 0 has no term but 0 (experts: 2); allowed: a term from 1 to 7 by one expert at the least"),
    wrong_fractions("a second numerator below the first", 1250, 3, 2, 3, 6),
    wrong_fractions("a third numerator below the second", 1000000, 65536, 131072, 131071, 200000),
    wrong_fractions("a last numerator below the third", 256, 0, 255, 256, 255),
    wrong_fractions("a numerator above the denominator", 1250, 1, 3, 3, 1251),
    wrong_fractions("a denominator of 0", 0, 0, 0, 0, 0),
    wrong_fractions("a denominator above 1,000,000", 1000001, 0, 1, 2, 3),
    wrong_fractions("the largest number of three bytes", 16777215, 0, 0, 0, 16777215),
    wrong_fractions("a last byte of 7", 1250, 3, 3, 3, 3, last=7),
    wrong_fractions("everything wrong in a fraction entry", 0, 9, 8, 7, 6, last=255),
    ("a second entry, of fractions, after opinions", TWO, sheet([terms(1), fractions(3, 0, 0, 0, 4)], scores=[1]), 2,
     "refused 28 at 43", 0, "sheet", "the entry of event 1 has the numerators 0, 0, 0, 4 over the denominator 3; "
     "allowed: each numerator at least the one before it, and at most the denominator, which is 1 to 1000000"),
]

QUESTIONED = [
    *((f"{n} levels", ONE, GOOD, n, "refused 13 at 0", f"The number of levels is {n}; allowed: 1 to 1000")
      for n in (0, 1001, 65535)),
    ("another tree's number", ONE, sheet([four(0, 0, 0, 0)], number=8), 2, "refused 24 at 0",
     "The two files do not belong together: the tree file has the tree number 7 and E = 1, "
     "the opinion sheet 8 and E = 1; allowed: the same in both"),
    ("another number of events", TWO, GOOD, 2, "refused 24 at 0",
     "The two files do not belong together: the tree file has the tree number 7 and E = 2, "
     "the opinion sheet 7 and E = 1; allowed: the same in both"),
]


def refused(name, ran, line, sentence, advice):
    """The line of a refusal alone, status 1, the sentence, and the page to read on."""
    hold(f"{name}: status", ran.status == 1, ran)
    hold(f"{name}: the line alone", ran.out == line.encode() + b"\n", ran)
    hold(f"{name}: two lines of errors", len(ran.lines) == 2, ran)
    hold(f"{name}: the sentence", ran.lines[:1] == [f"nekbrod: {sentence}."], ran)
    hold(f"{name}: what to do", ran.lines[1:] and ran.lines[1].startswith(f"nekbrod: {advice}; "), ran)
    hold(f"{name}: where to read on", re.search(r"/docs/REFUSALS\.md says", ran.errors), ran)


def refusals(work, copy):
    rows = table_rows()
    names = write(os.path.join(work, "pair/a tree"), b""), write(os.path.join(work, "pair/a sheet"), b"")
    files = {"tree": f"The tree file {names[0]}", "sheet": f"The opinion sheet {names[1]}"}

    def ask(tree_bytes, sheet_bytes, levels):
        write(names[0], tree_bytes)
        write(names[1], sheet_bytes)
        return copy.run(*names, str(levels))

    for name, tree_bytes, sheet_bytes, levels, line, which, file, found in REFUSED:
        number, place = int(line.split()[1]), line.split()[3]
        cells = rows[number][which]
        refused(name, ask(tree_bytes, sheet_bytes, levels), line,
                f"refusal {number}: {cells[0]}. {files[file]}, byte {place}: {found}", f"aboard: {cells[3]}")
    for name, tree_bytes, sheet_bytes, levels, line, found in QUESTIONED:
        cells = rows[int(line.split()[1])][0]
        refused(name, ask(tree_bytes, sheet_bytes, levels), line,
                f"refusal {line.split()[1]}: {cells[0]}. {found}", f"aboard: {cells[3]}")
    given = {int(case[4].split()[1]) for case in REFUSED + QUESTIONED}
    hold("each number that the printer gives", given == {*range(1, 14), 24, 28})
    ran = copy.run(ROAD[1], ROAD[0], "2")
    hold("files in the wrong order", ran.out == b"refused 2 at 0\n" and ran.status == 1, ran)
    look = "see that each file is the right one"
    for length in (7176, 65535):
        refused(f"a tree of {length} bytes", ask(bytes(length), GOOD, 2), "input",
                f"the tree file {names[0]} has {length} bytes; allowed: at most 7175", look)
    refused("a sheet of 17,435 bytes", ask(ONE, bytes(17435), 2), "input",
            f"the opinion sheet {names[1]} has 17435 bytes; allowed: at most 17434", look)
    refused("both files too long", ask(bytes(7176), bytes(17435), 2), "input",
            f"the tree file {names[0]} has 7176 bytes; allowed: at most 7175; "
            f"the opinion sheet {names[1]} has 17435 bytes; allowed: at most 17434", look)
    the_page(copy, ask)


def the_page(copy, ask):
    """The rule's words are those of the page, and a page that is missing takes nothing else away."""
    page = os.path.join(copy.home, "docs/REFUSALS.md")
    kept = read(page)
    write(page, kept.replace(b"an opinion entry in which nobody spoke", b"silence"))
    ran = ask(ONE, sheet([terms()], scores=[1]), 2)
    hold("the page's own words", "refusal 12: silence. The opinion sheet" in ran.errors, ran)
    os.remove(page)
    ran = ask(ONE, sheet([terms()], scores=[1]), 2)
    hold("no page: status", ran.status == 1, ran)
    hold("no page: the sentence", "refusal 12. The opinion sheet" in ran.errors, ran)
    write(page, kept)


# Name, a fraction entry's denominator and numerators, and by hand what each level from the highest down to 0 prints.
ANSWERED = [
    ("3 failures in 1,250 starts", (1250, 3, 3, 3, 3), ["2400000 = 2400000 ="] * 2),
    ("3 in 1,250, 1 at the least and 6 at the most", (1250, 1, 3, 3, 6),
     ["2400000 = 2400000 =", "1600000 = 3600000 =", "800000 = 4800000 ="]),
    ("1 in 3", (3, 1, 1, 1, 1), ["333333333 ~ 333333334 ~"] * 2),
    # Half way from 1/3 to 2/3 is 1/2, which is exact if neither was rounded before.
    ("thirds", (3, 1, 2, 2, 3), ["666666666 ~ 666666667 ~", "500000000 = 833333334 ~", "333333333 ~ 1000000000 ="]),
    ("the largest denominator", (1000000, 0, 1, 999999, 1000000), ["1000 = 999999000 =", "0 = 1000000000 ="]),
]


def fraction_entries(work, copy):
    pair = write(os.path.join(work, "maker/tree"), ONE), os.path.join(work, "maker/sheet")
    for name, numbers, levels in ANSWERED:
        write(pair[1], sheet([fractions(*numbers)]))
        n = len(levels) - 1
        text = f"tree 7 events 1 levels {n}\n" + "".join(f"{n - i} {line}\n" for i, line in enumerate(levels))
        printed(name, copy.run(*pair, str(n)), text.encode())


# An AND of 0.5 and 0.25; the first is out of service from hour 10 to 20 and, once more, from 12 to 14, the second from
# 15 to 25 and up to the last end hour that there is.
BOTH_FAIL = tree([EVENT, (0, 1, 0), (1, 0, 2)], [0, 1])
HALF_AND_QUARTER = sheet([four(*[500000000] * 4), four(*[250000000] * 4)])
BOOK = window(0, 10, 20) + window(1, 15, 25) + window(0, 12, 14) + window(1, LAST_HOUR - 1, LAST_HOUR)
AT_HOURS = [
    (125000000, (0, 9, 25, LAST_HOUR - 2, LAST_HOUR)),
    (250000000, (10, 11, 12, 13, 14)),
    (500000000, (20, 24, LAST_HOUR - 1)),
    (1000000000, (15, 19)),
]

# Name, book, the printer's line, which row of 29 in the page's table, what is said.
WRONG_BOOKS = [
    *((f"a book of {length} bytes", bytes(length), f"refused 29 at {length}", 0,
       f"the file has {length} bytes; allowed: a multiple of 10, and at most 2560")
      for length in (1, 9, 11, 2559, 2561, 2570, 65535)),
    ("a book with a byte more", BOOK + b"\0", "refused 29 at 41", 0,
     "the file has 41 bytes; allowed: a multiple of 10, and at most 2560"),
    ("257 windows", window(0, 1, 2) * 257, "refused 29 at 2570", 0,
     "the file has 2570 bytes; allowed: a multiple of 10, and at most 2560"),
    ("an event equal to E", window(2, 1, 2), "refused 29 at 0", 1, "window 0 has the event 2; allowed: below E = 2"),
    ("the largest event in the last of 256 windows", window(1, 1, 2) * 255 + window(65535, 1, 2), "refused 29 at 2550",
     1, "window 255 has the event 65535; allowed: below E = 2"),
    ("a window of no hour", window(0, 0, 0), "refused 29 at 6", 2,
     "window 0 has the first hour 0 and the end hour 0; allowed: an end hour after the first hour"),
    ("an end hour before its first hour", BOOK + window(1, LAST_HOUR, LAST_HOUR - 1), "refused 29 at 46", 2,
     f"window 4 has the first hour {LAST_HOUR} and the end hour {LAST_HOUR - 1}; "
     "allowed: an end hour after the first hour"),
    ("a wrong end hour, and a wrong event after it", window(0, 7, 7) + window(2, 1, 2), "refused 29 at 6", 2,
     "window 0 has the first hour 7 and the end hour 7; allowed: an end hour after the first hour"),
    ("a wrong event and a wrong end hour in one window", window(1, 7, 8) + window(2, 8, 8), "refused 29 at 10", 1,
     "window 1 has the event 2; allowed: below E = 2"),
]


def hours(work, copy):
    names = [os.path.join(work, "hours", name) for name in ("a tree", "a sheet", "a book")]
    rows = table_rows()

    def ask(book=BOOK, hour=0, tree_bytes=BOTH_FAIL, sheet_bytes=HALF_AND_QUARTER, levels=1):
        for name, data in zip(names, (tree_bytes, sheet_bytes, book)):
            write(name, data)
        return copy.run("levels", "--windows", names[2], "--hour", str(hour), *names[:2], str(levels))

    for end, open_hours in AT_HOURS:
        for hour in open_hours:
            text = f"tree 7 events 2 levels 1\n1 {end} = {end} =\n0 {end} = {end} =\n"
            printed(f"hour {hour}", ask(hour=hour), text.encode())
    hold("hours: rt is asked", copy.calls()[-1:] == ["run in hour_levels"])
    plain = copy.run(*names[:2], "1").out
    printed("the largest book, none of it open", ask(window(1, 5, 6) * 256, hour=6), plain)
    for name, words in (("--hour first", ["--hour", "15", "--windows", PLAN]),
                        ("zeros before the hour", ["--windows", PLAN, "--hour", "0" * 5000 + "15"])):
        printed(name, copy.run("levels", *words, *PUMPS, "10"),
                copy.run("levels", "--windows", PLAN, "--hour", "15", *PUMPS, "10").out)
    empty = write(os.path.join(work, "hours/empty"), b"")
    for book, hour in (empty, "0"), (empty, "77"), (PLAN, str(LAST_HOUR)):
        printed(f"as without a book, hour {hour}", copy.run("levels", "--windows", book, "--hour", hour, *PUMPS, "10"),
                copy.run(*PUMPS, "10").out)
    for name, book, line, which, found in WRONG_BOOKS:
        cells, place = rows[29][which], line.split()[3]
        refused(name, ask(book), line, f"refusal 29: {cells[0]}. The book {names[2]}, byte {place}: {found}",
                f"aboard: {cells[3]}")
    for name, given, line, found in (
            ("an hour, tree refused", {"tree_bytes": b""}, "refused 1 at 0",
             f"The tree file {names[0]}, byte 0: the file has 0 bytes; allowed: at least 9"),
            ("an hour, sheet refused", {"sheet_bytes": sheet([terms()] * 2, scores=[1])}, "refused 12 at 26",
             f"The opinion sheet {names[1]}, byte 26: the entry of event 0 has no term but 0 (experts: 1); "
             "allowed: a term from 1 to 7 by one expert at the least"),
            ("an hour, 0 levels", {"levels": 0}, "refused 13 at 0", "The number of levels is 0; allowed: 1 to 1000"),
            ("an hour, another tree's sheet", {"sheet_bytes": GOOD}, "refused 24 at 0",
             "The two files do not belong together: the tree file has the tree number 7 and E = 2, "
             "the opinion sheet 7 and E = 1; allowed: the same in both")):
        cells = rows[int(line.split()[1])][0]
        refused(f"{name}, before its book", ask(b"\0", **given), line,
                f"refusal {line.split()[1]}: {cells[0]}. {found}", f"aboard: {cells[3]}")
    refused("an hour, a tree of 7,176 bytes", ask(tree_bytes=bytes(7176)), "input",
            f"the tree file {names[0]} has 7176 bytes; allowed: at most 7175", "see that each file is the right one")
    refused("an hour, a sheet of 17,435 bytes", ask(sheet_bytes=bytes(17435)), "input",
            f"the opinion sheet {names[1]} has 17435 bytes; allowed: at most 17434",
            "see that each file is the right one")
    other_hour_printers(copy, names, ask)


def other_hour_printers(copy, names, ask):
    for name, commands, words in (("prints nothing", ":", "the hour printer gave neither levels nor a refusal"),
                                  ("fails", "exit 7", "the hour printer ended with status 7")):
        copy.change(f"#!/bin/sh\n{commands}\n", "hour_levels")
        stopped(f"an hour printer that {name}", last_of(ask()), 3, words)
    for line in ("refused 29 at 0", "refused 29 at 3", "refused 29 at 40", "refused 29 at 99999", "refused 30 at 0"):
        copy.change(f"#!/bin/sh\necho {line}\n", "hour_levels")
        ran = ask()
        hold(f"an hour printer that says '{line}'", ran.status == 1 and ran.out == line.encode() + b"\n"
             and f"Its place is {line.split()[3]}." in ran.errors and "Traceback" not in ran.errors, ran)
    hold("refusal 30 in the page's words", f"refusal 30: {table_rows()[30][0][0]}. Its place is 0." in ran.errors, ran)
    copy.change("#!/bin/sh\ncat >'" + copy.notes + "/input'; echo tree of no consequence\n", "hour_levels")
    ran = ask(hour=LAST_HOUR - 255)
    files = [read(name) for name in names]
    expected = two(1) + b"".join(two(len(file)) for file in files) + b"\0\xff\xff\xff" + b"".join(files)
    hold("the hour printer's input", read(copy.notes + "/input") == expected, ran)
    copy.change(read(HOUR_LEVELS), "hour_levels")
    ask()
    if os.path.exists("/dev/full"):
        with open("/dev/full", "wb") as full:
            ran = copy.run("levels", "--windows", names[2], "--hour", "0", *names[:2], "1", stdout=full)
        hold("an hour, a full disk", ran.status == 3 and len(ran.lines) == 1
             and "could not be written: No space left" in ran.errors, ran)


AND_OF_TWO = tree([EVENT, (0, 1, 0), (1, 0, 2)], [0, 1])
MIRRORED = [
    # Name, tree and sheet, and by hand the mirror of both.
    ("four numbers", ONE, GOOD, ONE, sheet([four(UNIT - 2, UNIT - 1, UNIT - 1, UNIT)])),
    ("an OR of a maker's figures and certainty", TWO, sheet([fractions(1250, 1, 3, 3, 6), four(*[UNIT] * 4)]),
     AND_OF_TWO, sheet([fractions(1250, 1244, 1247, 1247, 1249), four(0, 0, 0, 0)])),
    # Scores 2 and 1, Low and silence: (14, 26, 126, 138) over 300 (docs/FORMATS.md).
    ("an AND of opinions", AND_OF_TWO, sheet([terms(2), terms(7, 1)], scores=[2, 1]), TWO,
     sheet([fractions(300, 162, 174, 274, 286), fractions(300, 92, 104, 104, 116)], scores=[2, 1])),
    ("the largest total score", ONE, sheet([terms(*[4] * 15, last=4)], scores=[100] * 16), ONE,
     sheet([fractions(160000, 56000, 80000, 80000, 104000)], scores=[100] * 16)),
]


def mirror_of_road():
    """By hand: the AND is an OR, and the OR an AND; 0.8, 0.1 and 0.4 are 0.2, 0.9 and 0.6."""
    records = [(0, 0, 0), (0, 1, 0), (0, 2, 0), (1, 0, 2), (2, 2, 2)]
    entries = [four(*[number] * 4) for number in (200000000, 900000000, 600000000)]
    return tree(records, [1, 2, 0, 3], number=1), sheet(entries, number=1)


def both_written(name, ran, names, files, folder=""):
    """Both new files with these bytes, a line for each, and nothing else said."""
    said = "".join(f"wrote {new}: {text}\n" for new, text in zip(names, (
        "the mirrored tree file, AND and OR exchanged", "the mirrored opinion sheet, 1 minus each probability")))
    hold(f"{name}: status", ran.status == 0, ran)
    hold(f"{name}: a line for each", ran.out == said.encode("utf-8", "surrogateescape") and ran.errors == "", ran)
    paths = [os.path.join(folder, new) for new in names]
    hold(f"{name}: both files", all(map(os.path.isfile, paths)) and [read(path) for path in paths] == [*files], ran)
    hold(f"{name}: for others to read", all(os.stat(path).st_mode & 0o777 == 0o644 for path in paths), ran)


class Outs:
    """Two new names in a folder of their own, and what may stand there."""

    def __init__(self, copy, folder):
        self.copy, self.folder = copy, folder
        self.names = os.path.join(folder, "out tree"), os.path.join(folder, "out sheet")
        self.clear()

    def clear(self):
        shutil.rmtree(self.folder, ignore_errors=True)
        os.makedirs(self.folder)

    def words(self):
        return ["mirror", *ROAD, *self.names]

    def run(self, **more):
        return self.copy.run(*self.words(), **more)

    def start(self, **more):
        return self.copy.start(*self.words(), **more)

    def left(self):
        """All that stands in the folder, with its bytes."""
        return {name: read(os.path.join(self.folder, name)) for name in sorted(os.listdir(self.folder))}

    def failed(self, name, ran, status, words, left=()):
        """One line that says why, and only these files with these bytes in the folder."""
        stopped(name, last_of(ran), status, words)
        hold(f"{name}: no file left", self.left() == dict(left), ran)


def mirrors(work, copy):
    outs = Outs(copy, os.path.join(work, "mirrors/new"))
    pair = [os.path.join(work, "mirrors", name) for name in ("a tree", "a sheet")]
    both_written("a mirror", outs.run(), outs.names, mirror_of_road())
    hold("a mirror: rt is asked", copy.calls()[-1:] == ["run in mirror_files"])
    outs.failed("a mirror again", outs.run(), 2, "out tree exists and is not overwritten", outs.left())
    for name, *files in MIRRORED:
        outs.clear()
        for file, data in zip(pair, files):
            write(file, data)
        both_written(f"the mirror of {name}", copy.run("mirror", *pair, *outs.names), outs.names, files[2:])
    refused_mirrors(pair, outs)
    what_exists(work, outs)
    unwritten_mirrors(outs)
    other_mirror_programs(outs)
    paused_mirrors(work, outs)
    mirrors_at_once(outs)


def refused_mirrors(pair, outs):
    """Each refusal of the two files in words, and no file."""
    rows = table_rows()
    files = {"tree": f"The tree file {pair[0]}", "sheet": f"The opinion sheet {pair[1]}"}
    outs.clear()

    def ask(name, tree_bytes, sheet_bytes, line, sentence, advice):
        write(pair[0], tree_bytes)
        write(pair[1], sheet_bytes)
        ran = outs.copy.run("mirror", *pair, *outs.names)
        refused(f"mirror: {name}", ran, line, sentence, advice)
        hold(f"mirror: {name}: no file", outs.left() == {}, ran)

    for name, tree_bytes, sheet_bytes, _, line, which, file, found in REFUSED:
        number, place = int(line.split()[1]), line.split()[3]
        cells = rows[number][which]
        ask(name, tree_bytes, sheet_bytes, line,
            f"refusal {number}: {cells[0]}. {files[file]}, byte {place}: {found}", f"aboard: {cells[3]}")
    for name, tree_bytes, sheet_bytes, _, line, found in QUESTIONED:
        if line == "refused 24 at 0":
            ask(name, tree_bytes, sheet_bytes, line, f"refusal 24: {rows[24][0][0]}. {found}",
                f"aboard: {rows[24][0][3]}")
    look = "see that each file is the right one"
    ask("a tree of 7,176 bytes", bytes(7176), GOOD, "input",
        f"the tree file {pair[0]} has 7176 bytes; allowed: at most 7175", look)
    ask("a sheet of 17,435 bytes", ONE, bytes(17435), "input",
        f"the opinion sheet {pair[1]} has 17435 bytes; allowed: at most 17434", look)


def stand_at(name):
    """For each kind of thing that may have a name already: what puts it there."""
    return (("a file", lambda: write(name, "another's")), ("an empty file", lambda: write(name, "")),
            ("a folder", lambda: os.mkdir(name)), ("a pipe", lambda: os.mkfifo(name)),
            *((f"a link to {what}", lambda target=target: os.symlink(target, name))
              for what, target in (("a file", ROAD[0]), ("nothing", "nothing"), ("itself", name))))


def state_of(name):
    """What has a name, without following a link: its kind, its time, its length and where it lies."""
    found = os.lstat(name)
    return found.st_mode, found.st_mtime_ns, found.st_size, found.st_ino


def what_exists(work, outs):
    """Whatever has one of the names stays as it is, and rt is not asked; nor is it for one name given twice."""
    called = len(outs.copy.calls())
    for which, what in enumerate(("mirrored tree file", "mirrored opinion sheet")):
        name = outs.names[which]
        for kind, put in stand_at(name):
            outs.clear()
            put()
            before = state_of(name)
            ran = outs.run()
            stopped(f"{kind} as {what}", ran, 2, f"{name} exists and is not overwritten: the {what} needs a new name$")
            hold(f"{kind} as {what}: untouched", state_of(name) == before, ran)
            hold(f"{kind} as {what}: nothing beside it", os.listdir(outs.folder) == [os.path.basename(name)], ran)
    outs.clear()
    os.symlink(outs.folder, os.path.join(work, "mirrors/link"))
    for kind, other in (("as it is", outs.names[0]), ("another way", f"{outs.folder}/../new/out tree"),
                        ("through a link", os.path.join(work, "mirrors/link/out tree")),
                        ("from here", "out tree")):
        ran = outs.copy.run("mirror", *ROAD, outs.names[0], other, cwd=outs.folder)
        outs.failed(f"one name twice, {kind}", ran, 2, "name one file, and two are written$")
    hold("what exists: rt is not asked", len(outs.copy.calls()) == called)


def unwritten_mirrors(outs):
    """A file that appears, a folder that goes, no room, once the names were found free: no file of this run stays."""
    tree_name, sheet_name = outs.names

    def meanwhile(name, commands, words, left=()):
        outs.clear()
        outs.copy.change(f"#!/bin/sh\n{commands}\nexec '{MIRROR}'\n", "mirror_files")
        outs.failed(name, outs.run(), 3, words, left)

    meanwhile("a tree file that appears", f"echo mine >'{tree_name}'",
              "the mirrored tree file .*out tree could not be written: File exists$", {"out tree": b"mine\n"})
    meanwhile("a sheet that appears", f"echo mine >'{sheet_name}'",
              "the mirrored opinion sheet .*out sheet could not be written: File exists$", {"out sheet": b"mine\n"})
    outs.clear()
    outs.copy.change(f"#!/bin/sh\nrmdir '{outs.folder}'\nexec '{MIRROR}'\n", "mirror_files")
    stopped("a folder that goes", last_of(outs.run()), 3, "out tree could not be written: No such file or directory$")
    hold("a folder that goes: not made", not os.path.exists(outs.folder))
    # The tree file has 42 bytes and the sheet 77; the command's limit is lowered once it has put both to the program.
    for room, what in (20, "mirrored tree file"), (60, "mirrored opinion sheet"):
        outs.clear()
        outs.copy.stand_in()
        outs.copy.change(waiting(outs.copy, "program"), "mirror_files")
        process = outs.start()
        until(lambda: outs.copy.note("program") != "")
        resource.prlimit(process.pid, resource.RLIMIT_FSIZE, (room, room))
        write(outs.copy.notes + "/go", "")
        outs.failed(f"room for {room} bytes", ended(process), 3, f"the {what} .* could not be written: File too large$")
    as_before(outs)
    if os.path.exists("/dev/full"):
        with open("/dev/full", "wb") as full:
            outs.failed("lines to a full disk", outs.run(stdout=full), 3, "text could not be written: No space left")
    outs.failed("lines to a closed output", outs.run(stdout=None, preexec_fn=lambda: os.close(1)), 3,
                "text could not be written: standard output is closed")
    reader, writer = os.pipe()
    os.close(reader)
    outs.failed("lines to a reader that has gone", outs.run(stdout=writer), 3, "text could not be written: Broken pipe")
    os.close(writer)


def waiting(copy, note):
    """A mirror program that notes its id, and goes on once it is told to."""
    return (f"#!/bin/sh\necho $$ >'{copy.notes}/{note}'\nwhile ! cat '{copy.notes}/go' >/dev/null 2>&1; do sleep 0.02; "
            f"done\nexec '{MIRROR}'\n")


def as_before(outs):
    """The built mirror program again, and no file."""
    outs.copy.stand_in()
    outs.copy.change(read(MIRROR), "mirror_files")
    outs.clear()
    hold("the mirror program again", outs.run().status == 0)
    outs.clear()


def other_mirror_programs(outs):
    neither = "neither two files of the lengths given nor a refusal$"
    files = mirror_of_road()
    for name, data in (("nothing", b""), ("something else", b"hello\n"), ("the tree file alone", files[0]),
                       ("a byte too few", files[0] + files[1][:-1]), ("a byte too many", b"".join(files) + b"\n"),
                       ("the sheet first", b"".join(reversed(files))), ("two trees", files[0] + files[0] + bytes(35))):
        outs.clear()
        write(outs.copy.notes + "/text", data)
        outs.copy.change(f"#!/bin/sh\nexec cat '{outs.copy.notes}/text' # {name}\n", "mirror_files")
        outs.failed(f"a mirror program that prints {name}", outs.run(), 3, f"the mirror program gave {neither}")
    outs.copy.change(f"#!/bin/sh\n'{MIRROR}'\nexit 7\n", "mirror_files")
    outs.failed("a mirror program that fails", outs.run(), 3, "the mirror program ended with status 7$")
    for line in ("refused 31 at 0", "refused 13 at 0", "refused x"):
        outs.copy.change(f"#!/bin/sh\necho {line}\n", "mirror_files")
        ran = outs.run()
        hold(f"a mirror program that says '{line}'", ran.status == 1 and ran.out == line.encode() + b"\n"
             and "docs/REFUSALS.md" in ran.lines[-1] and "Traceback" not in ran.errors and outs.left() == {}, ran)
        if line == "refused 31 at 0":
            said = f"refusal 31: {table_rows()[31][0][0]}. Its place is 0."
            hold("refusal 31 in the page's words", said in ran.errors, ran)
    outs.copy.change(f"#!/bin/sh\ncat >'{outs.copy.notes}/input'\necho refused 24 at 0\n", "mirror_files")
    ran = outs.run()
    given = [read(name) for name in ROAD]
    hold("the mirror program's input",
         read(outs.copy.notes + "/input") == two(len(given[0])) + two(len(given[1])) + b"".join(given), ran)
    as_before(outs)


class Paused:
    """A mirror that stops after it has stored each file."""

    def __init__(self, outs, modules):
        self.copy = outs.copy
        outs.clear()
        self.copy.stand_in()
        self.process = outs.start(env={"PYTHONPATH": modules, "NOTES": self.copy.notes})

    def after(self, count):
        hold(f"a mirror that stops: {count} stored", until(lambda: self.copy.note("stored") == str(count)))

    def go_on(self):
        for count in (1, 2):
            write(f"{self.copy.notes}/on{count}", "")
        return ended(self.process)


def paused_mirrors(work, outs):
    """Signals and others' files while the two are being written."""
    modules = os.path.dirname(write(os.path.join(work, "pause/sitecustomize.py"), PAUSE))
    both_written("a mirror that goes on", Paused(outs, modules).go_on(), outs.names, mirror_of_road())
    for number in (signal.SIGINT, signal.SIGTERM, signal.SIGHUP, signal.SIGQUIT):
        for stored in (1, 2):
            paused = Paused(outs, modules)
            write(f"{outs.copy.notes}/on{stored - 1}", "")
            paused.after(stored)
            hold("a mirror that stops: its files", len(outs.left()) == stored)
            paused.process.send_signal(number)
            name = signal.Signals(number).name
            outs.failed(f"{name} after {stored} files", paused.go_on(), 128 + number, f"^nekbrod: ended by {name}$")
    paused = Paused(outs, modules)
    paused.after(1)
    write(outs.names[1], "another's")
    outs.failed("a sheet that appears between the files", paused.go_on(), 3,
                "out sheet could not be written: File exists$", {"out sheet": b"another's"})
    paused = Paused(outs, modules)
    paused.after(1)
    os.remove(outs.names[0])
    write(outs.names[0], "another's")
    paused.process.send_signal(signal.SIGTERM)
    outs.failed("another's file in place of the first", paused.go_on(), 143, "ended by SIGTERM",
                {"out tree": b"another's"})
    signals_of_mirrors(outs)


def signals_of_mirrors(outs):
    """While the program runs nothing is written yet, and it goes with the command."""
    for number in (signal.SIGINT, signal.SIGTERM, signal.SIGHUP):
        outs.clear()
        outs.copy.stand_in()
        outs.copy.change(waiting(outs.copy, "program"), "mirror_files")
        process = outs.start()
        until(lambda: outs.copy.note("program").endswith("\n"))
        process.send_signal(number)
        name = signal.Signals(number).name
        outs.failed(f"{name} while it is mirrored", ended(process), 128 + number, f"ended by {name}$")
        hold(f"{name} while it is mirrored: nothing runs", not is_alive(outs.copy.note("program").strip()))
    as_before(outs)


def mirrors_at_once(outs):
    """Of runs with the same two names one writes both files, and no other touches them."""
    outs.copy.change(waiting(outs.copy, "program"), "mirror_files")
    one = outs.start()
    until(lambda: outs.copy.note("program") != "")
    other = outs.start()
    # The other has found both names free by then, and waits for the one.
    time.sleep(2)
    write(outs.copy.notes + "/go", "")
    one, other = ended(one), ended(other)
    both_written("two mirrors: the one", last_of(one, 0), outs.names, mirror_of_road())
    stopped("two mirrors: the other", last_of(other), 3, "out tree could not be written: File exists$")
    as_before(outs)
    runs = [ended(process) for process in [outs.start() for _ in range(6)]]
    hold("six mirrors: one writes", sorted(ran.status for ran in runs)[0:2] in ([0, 2], [0, 3]))
    hold("six mirrors: both files", list(outs.left().values()) == [*reversed(mirror_of_road())])


def bad_mirrors(work, copy, none, long):
    """Names of a mirror that are not taken, whatever the files are; nothing is written."""
    free = os.path.join(work, "free"), os.path.join(work, "free too")
    for name, words, said in (
            ("no such tree", [none, ROAD[1], *free], "there is no tree file .*none$"),
            ("no such sheet", [ROAD[0], none, *free], "there is no opinion sheet .*none$"),
            ("a folder as a tree", [work, ROAD[1], *free], "the tree file .* is not a file"),
            ("a sheet of 65,536 bytes", [ROAD[0], long, *free], "the opinion sheet .* is longer than 65535 bytes"),
            ("an empty new name", [*ROAD, "", free[1]], "the mirrored tree file needs a name, not ''$"),
            ("a second new name that is empty", [*ROAD, free[0], ""], "mirrored opinion sheet needs a name, not ''$"),
            ("a new name that is a folder's", [*ROAD, free[0] + "/", free[1]], "tree file needs a name, not '.*/'$"),
            ("no such folder", [*ROAD, none + "/x", free[1]], "there is no folder .*none for the mirrored tree file$"),
            ("no such second folder", [*ROAD, free[0], none + "/x"], "folder .*none for the mirrored opinion sheet$"),
            ("a file as a folder", [*ROAD, long + "/x", free[1]], "is no folder .*long for the mirrored tree file$")):
        stopped(f"mirror, {name}", copy.run("mirror", *words), 2, said)
    hold("bad mirrors: nothing written", not any(map(os.path.lexists, free)))


def bad_hours(work, copy, none, long):
    """Words of an hour that are not taken."""
    after = "stand right after the word levels; see nekbrod --help$"
    missing = "--windows BOOK and --hour H go together, and {} is missing; see nekbrod --help$"
    both = ["--windows", PLAN, "--hour", "5"]
    for name, words, said in (
            ("--windows alone", ["levels", "--windows"], "--windows takes a word, BOOK, and there is none"),
            ("--hour alone", ["levels", "--hour"], "--hour takes a word, H, and there is none"),
            ("a book and --hour alone", ["levels", "--windows", PLAN, "--hour"], "--hour takes a word, H, and there"),
            ("no hour", ["levels", "--windows", PLAN, *PUMPS, "2"], missing.format("--hour")),
            ("no book", ["levels", "--hour", "5", *PUMPS, "2"], missing.format("--windows")),
            ("a book and two words", ["levels", "--windows", PLAN, "2"], missing.format("--hour")),
            ("an hour and two words", ["levels", "--hour", "5", "2"], missing.format("--windows")),
            ("two books", ["levels", "--windows", PLAN, "--windows", PLAN, *PUMPS, "2"], "--windows is given twice"),
            ("two hours", ["levels", *both, "--hour", "6", *PUMPS, "2"], "--hour is given twice"),
            ("an hour and no file", ["levels", *both], "after --windows BOOK and --hour H come a tree file, an op"),
            ("an hour and two files", ["levels", *both, *PUMPS], "and a number of levels; see nekbrod --help$"),
            ("an hour and four words", ["levels", *both, *PUMPS, "2", "2"], "and a number of levels; see nekbrod --h"),
            ("an unknown option", ["levels", "--wat", PLAN, *both, *PUMPS, "2"], after),
            ("options without levels", [*both, *PUMPS, "2"], after),
            ("an option and two words", ["--hour", "5", "2"], after),
            ("options after the files", ["levels", *PUMPS, "2", *both], after),
            ("options among the files", ["levels", PUMPS[0], *both, PUMPS[1], "2"], after),
            ("options of cut-sets", ["cut-sets", *both, PUMPS[0]], "nekbrod cut-sets has no option --windows; ")):
        stopped(name, copy.run(*words), 2, said)
    for hour in ("", "noon", "-1", "+1", "1.5", "0x10", " 5", "5\n", "٣", "1_0"):
        ran = copy.run("levels", "--windows", PLAN, "--hour", hour, *PUMPS, "2")
        hold(f"hour {hour!r}: status", ran.status == 2 and ran.out == b"", ran)
        hold(f"hour {hour!r}: said", ran.errors == f"nekbrod: the hour is a number, not '{hour}'\n", ran)
    for hour in ("4294967296", "99999999999999999999", "9" * 5000):
        stopped(f"hour {hour[:20]}", copy.run("levels", "--windows", PLAN, "--hour", hour, *PUMPS, "2"), 2,
                f"the hour is at most 4294967295, not {hour}$")
    stopped("an hour, 65,536 levels", copy.run("levels", *both, *PUMPS, "65536"), 2, "the number of levels is at most")
    for name, book, words in (("no such book", none, "there is no book .*none$"),
                              ("an empty name of a book", "", "there is no book"),
                              ("a folder as a book", work, "the book .* is not a file"),
                              ("a book of 65,536 bytes", long, "the book .* is longer than 65535 bytes")):
        stopped(name, copy.run("levels", "--windows", book, "--hour", "5", *PUMPS, "2"), 2, words)
    stopped("a book, no such tree", copy.run("levels", *both, none, PUMPS[1], "2"), 2, "there is no tree file .*none$")


def bad_arguments(work, copy):
    for name, words in (("one argument", [ROAD[0]]), ("two arguments", ROAD), ("four arguments", [*ROAD, "2", "2"]),
                        ("an empty argument", [""]), ("levels alone", ["levels"]),
                        ("levels and one file", ["levels", ROAD[0]]),
                        ("levels and four", ["levels", *ROAD, "2", "2"]), ("an unknown word", ["--wat"]),
                        ("version and more", ["--version", "2"]), ("cut-sets alone", ["cut-sets"]),
                        ("cut-sets and two files", ["cut-sets", *ROAD]),
                        ("cut-sets and three", ["cut-sets", *ROAD, "2"]),
                        ("help after a file", ["cut-sets", ROAD[0], "--help"]),
                        *((f"mirror and {count} words", ["mirror", *ROAD, "x", "y", "z"][:count + 1])
                          for count in (0, 1, 2, 3, 5))):
        stopped(name, copy.run(*words), 2, "see nekbrod (cut-sets )?--help$")
    for n in ("", "ten", "-1", "+1", "1.5", "0x10", " 5", "5 ", "5\n", "٣", "1_0"):
        ran = copy.run(*ROAD, n)
        hold(f"{n!r} levels: status", ran.status == 2, ran)
        hold(f"{n!r} levels: nothing printed", ran.out == b"", ran)
        hold(f"{n!r} levels: said", ran.errors == f"nekbrod: the number of levels is a number, not '{n}'\n", ran)
    for n in ("65536", "99999999999999999999", "9" * 5000):
        stopped(f"{n[:20]} levels", copy.run(*ROAD, n), 2, f"the number of levels is at most 65535, not {n}$")
    none = os.path.join(work, "none")
    stopped("no such tree", copy.run(none, ROAD[1], "2"), 2, "there is no tree file .*none$")
    stopped("no such sheet", copy.run(ROAD[0], none, "2"), 2, "there is no opinion sheet .*none$")
    stopped("an empty name", copy.run("", ROAD[1], "2"), 2, "there is no tree file")
    stopped("a folder", copy.run(work, ROAD[1], "2"), 2, "is not a file")
    long = write(os.path.join(work, "long"), bytes(65536))
    stopped("a sheet of 65,536 bytes", copy.run(ROAD[0], long, "2"), 2,
            "the opinion sheet .* is longer than 65535 bytes")
    stopped("a tree of 65,536 bytes", copy.run(long, ROAD[1], "2"), 2, "the tree file .* is longer than 65535 bytes")
    for name, file, words in (("no such tree", none, "there is no tree file .*none$"),
                              ("an empty name", "", "there is no tree file"), ("a folder", work, "is not a file"),
                              ("65,536 bytes", long, "the tree file .* is longer than 65535 bytes")):
        stopped(f"cut-sets, {name}", copy.run("cut-sets", file), 2, words)
    bad_hours(work, copy, none, long)
    bad_mirrors(work, copy, none, long)
    hold("bad arguments: rt is not asked", copy.calls() == [])
    shut = write(os.path.join(work, "shut"), read(ROAD[0]))
    os.chmod(shut, 0)
    if not CAN_BE_SHUT_OUT:
        skipped.append("a file that can't be read: root reads every file, and nobody has no python3")
        return
    stopped("a file that can't be read", copy.run(shut, shut, "2", cwd="/", **SHUT_OUT), 2,
            "the tree file .*shut cannot be read: Permission denied")
    pair = [write(os.path.join(work, "open", os.path.basename(name)), read(name)) for name in ROAD]
    stopped("a book that can't be read",
            copy.run("levels", "--windows", shut, "--hour", "5", *pair, "2", cwd="/", **SHUT_OUT), 2,
            "the book .*shut cannot be read: Permission denied")
    free = os.path.join(work, "open/free"), os.path.join(work, "open/other")
    os.chmod(os.path.dirname(free[0]), 0o555)
    for name, words, said in (
            ("a mirror, a sheet that can't be read", [pair[0], shut, *free],
             "the opinion sheet .*shut cannot be read: Permission denied"),
            ("a mirror, a folder without the right to write", [*pair, *free],
             "the folder .*open cannot be written, where the mirrored tree file would go")):
        stopped(name, copy.run("mirror", *words, cwd="/", **SHUT_OUT), 2, said)
    os.chmod(os.path.dirname(free[0]), 0o755)


def kinds_and_links(file):
    """The kind of each node of a tree file, and the nodes that each gate joins."""
    def number(at):
        return int.from_bytes(file[at:at + 2], "little")

    nodes = []
    for at in range(9, 9 + 5 * number(7), 5):
        links = 9 + 5 * number(7) + 2 * number(at + 1)
        inputs = [number(links + 2 * j) for j in range(number(at + 3))] if file[at] else []
        nodes.append((file[at], number(at + 1), inputs))
    return nodes


def top_fails(nodes, failed):
    """Whether the root fails where exactly these events have failed."""
    fails = []
    for kind, a, inputs in nodes:
        fails.append(a in failed if kind == 0 else (all, any)[kind - 1](fails[i] for i in inputs))
    return fails[-1]


def minimal_cut_sets(file):
    """By trying every set of events: those under which the root fails, and under no set strictly inside."""
    nodes = kinds_and_links(file)
    events = [a for kind, a, _ in nodes if kind == 0]
    found = []
    for size in range(len(events) + 1):
        for chosen in map(set, itertools.combinations(events, size)):
            if not any(inner < chosen for inner in found) and top_fails(nodes, chosen):
                found.append(chosen)
    return found


def sets_of_lines(ran):
    """The sets that were printed, each as its line says, and whether every line has rising numbers."""
    lines = [line.split(" ") for line in ran.out.decode("latin-1").splitlines()[1:]]
    rising = all(word == str(int(word)) for line in lines for word in line) and all(
        int(one) < int(other) for line in lines for one, other in zip(line, line[1:]))
    return [frozenset(map(int, line)) for line in lines] if rising else None


def sets_printed(name, ran, file):
    """A header, and every minimal cut set once."""
    due = minimal_cut_sets(file)
    events = sum(kind == 0 for kind, _, _ in kinds_and_links(file))
    header = f"tree {int.from_bytes(file[5:7], 'little')} events {events} cut sets {len(due)}\n"
    hold(f"{name}: status", ran.status == 0, ran)
    hold(f"{name}: header", ran.out.startswith(header.encode()), ran)
    found = sets_of_lines(ran)
    hold(f"{name}: each set once", found is not None and len(found) == len(due)
         and set(found) == set(map(frozenset, due)), ran)
    hold(f"{name}: no errors", ran.errors == "", ran)


def joined(kind, *inputs):
    """A gate over these; a number is so many basic events."""
    return kind, inputs


def tree_of(root, number=7):
    """The tree file of a gate, inputs before their gates."""
    records, links, events = [], [], itertools.count()

    def put(node):
        if node is None:
            records.append((0, next(events), 0))
        else:
            kind, inputs = node
            below = [put(i) for given in inputs for i in ([None] * given if isinstance(given, int) else [given])]
            records.append((kind, len(links), len(below)))
            links.extend(below)
        return len(records) - 1

    put(root)
    return tree(records, links, number)


AND, OR = 1, 2
LISTED = [
    ("one event", ONE),
    ("an OR of two", TWO),
    ("an AND of three", tree_of(joined(AND, 3))),
    ("an OR of ANDs", tree_of(joined(OR, joined(AND, 2), joined(AND, 3), 1))),
    ("an AND of ORs", tree_of(joined(AND, joined(OR, 2), joined(OR, 3), 2), number=65535)),
    ("gates with one input", tree_of(joined(OR, joined(AND, joined(OR, joined(AND, joined(OR, 2), 1)))))),
    ("three layers", tree_of(joined(AND, joined(OR, joined(AND, 2, joined(OR, 2)), 1), joined(OR, 2, joined(AND, 2))))),
    ("sixteen inputs", tree_of(joined(OR, 16))),
]
SIXTY_FOUR = tree_of(joined(OR, *[joined(OR, 16)] * 4))
SIXTY_FIVE = tree_of(joined(OR, *[joined(OR, 16)] * 4, 1))
LARGE = tree_of(joined(OR, *[joined(OR, *[joined(OR, 16)] * 8)] * 7))
MOST_LISTED = tree_of(joined(AND, *[joined(OR, 10)] * 5))
TOO_MANY = tree_of(joined(AND, *[joined(OR, 10)] * 5, joined(OR, 2)))
MOST_COUNTED = tree_of(joined(AND, *[joined(OR, 4)] * 16))


def cut_sets(work, copy):
    name = os.path.join(work, "a tree alone")

    def ask(file, **more):
        return copy.run("cut-sets", write(name, file), **more)

    for what, file in LISTED:
        sets_printed(what, ask(file), file)
    ran = ask(SIXTY_FOUR)
    hold("64 events: header", ran.out.startswith(b"tree 7 events 64 cut sets 64\n") and ran.status == 0, ran)
    hold("64 events: each alone", sorted(sets_of_lines(ran) or [], key=min) == [{event} for event in range(64)], ran)
    ran = ask(tree_of(joined(AND, *[joined(AND, 16)] * 4)))
    hold("64 events of one set", ran.out.split(b"\n")[1].split() == [str(e).encode() for e in range(64)], ran)
    ran = ask(MOST_LISTED)
    hold("100,000 sets: status", ran.status == 0 and ran.errors == "", ran)
    found = sets_of_lines(ran) or []
    hold("100,000 sets: each once", len(found) == len(set(found)) == 100000, ran)
    hold("100,000 sets: one event of each ten",
         all(sorted(event // 10 for event in chosen) == [0, 1, 2, 3, 4] for chosen in found), ran)
    for file, count, events in (TOO_MANY, 200000, 52), (MOST_COUNTED, 4 ** 16, 64):
        ran = ask(file)
        hold(f"{count} sets: status", ran.status == 4, ran)
        hold(f"{count} sets: the header alone", ran.out == f"tree 7 events {events} cut sets {count}\n".encode(), ran)
        hold(f"{count} sets: said", ran.errors == f"nekbrod: no set is listed: the tree has {count} minimal cut sets, "
             "and at most 100000 are listed\n", ran)
    hold("cut sets: rt is asked", copy.calls()[-1:] == ["run in cut_set_lines"])
    refused_sets(name, ask)
    sets_unwritten(copy, ask)


def refused_sets(name, ask):
    rows = table_rows()
    for what, file, _, _, line, which, of, found in REFUSED:
        if of == "tree":
            number, place = int(line.split()[1]), line.split()[3]
            cells = rows[number][which]
            refused(f"cut sets: {what}", ask(file), line,
                    f"refusal {number}: {cells[0]}. The tree file {name}, byte {place}: {found}", f"aboard: {cells[3]}")
    for file, events in (SIXTY_FIVE, 65), (LARGE, 896):
        refused(f"{events} events", ask(file), "refused 26 at 0",
                f"refusal 26: {rows[26][0][0]}. The tree file {name} has {events} basic events; allowed: at most 64",
                f"aboard: {rows[26][0][3]}")
    for length in (7176, 65535):
        ran = ask(ONE + bytes(length - len(ONE)))
        refused(f"cut sets: a tree of {length} bytes", ran, f"refused 5 at {length}",
                f"refusal 5: {rows[5][0][0]}. The tree file {name}, byte {length}: the file has {length} bytes; "
                "allowed: 14, which is 7 × N + 7 for N = 1", f"aboard: {rows[5][0][3]}")


def sets_unwritten(copy, ask):
    if os.path.exists("/dev/full"):
        with open("/dev/full", "wb") as full:
            ran = ask(TWO, stdout=full)
        hold("cut sets, a full disk", ran.status == 3 and len(ran.lines) == 1
             and "could not be written: No space left" in ran.errors, ran)
    for text, words in (("", "neither cut sets nor a refusal"), ("hello", "neither cut sets nor a refusal"),
                        ("tree 7 events 2", "neither cut sets nor a refusal"),
                        ("tree 7 events 2 cut sets 2\n0", "counted 2 sets and listed 1"),
                        ("tree 7 events 2 cut sets 100000", "counted 100000 sets and listed 0"),
                        ("tree 7 events 2 cut sets 100001\n0", "counted 100001 sets and listed 1")):
        copy.change(f"#!/bin/sh\necho '{text}'\n", "cut_set_lines")
        stopped(f"a cut set printer that prints {text!r}", last_of(ask(TWO)), 3, words)
    copy.change("#!/bin/sh\nexit 7\n", "cut_set_lines")
    stopped("a cut set printer that fails", last_of(ask(TWO)), 3, "the cut set printer ended with status 7")
    copy.change("#!/bin/sh\necho refused 13 at 0\n", "cut_set_lines")
    ran = ask(TWO)
    hold("a refusal that is none of its own", ran.status == 1 and "Traceback" not in ran.errors
         and "docs/REFUSALS.md" in ran.lines[-1], ran)
    copy.change(read(CUT_SETS), "cut_set_lines")
    ask(TWO)


def building(copy):
    stopped("nothing built and no rt", copy.run(*ROAD, "2"), 3, "the level printer is not built.*rt is not on the path")
    stopped("cut-sets, nothing built and no rt", copy.run("cut-sets", ROAD[0]), 3,
            "the cut set printer is not built.*rt is not on the path")
    stopped("an hour, nothing built and no rt", copy.run("levels", "--windows", PLAN, "--hour", "5", *PUMPS, "2"), 3,
            "the hour printer is not built.*rt is not on the path")
    stopped("mirror, nothing built and no rt", copy.run("mirror", *ROAD, copy.home + "/a", copy.home + "/b"), 3,
            "the mirror program is not built.*rt is not on the path")
    copy.stand_in()
    ran = copy.run()
    printed("a first run", ran, FUEL_LEVELS)
    hold("a first run: what it does", "proving and building" in ran.errors, ran)
    hold("a first run: rt's lines", "nekbrod: printer proved\n" in ran.errors, ran)
    hold("a first run: not the prover's lines", "some::function" not in ran.errors, ran)
    hold("a first run: nothing of what is unchanged", "unchanged" not in ran.errors, ran)
    hold("a first run: no passing line", "\r" not in ran.errors, ran)
    hold("a first run: the call", copy.calls() == ["run in levels"], ran)
    ran = copy.run(*ROAD, "2")
    printed("a second run", ran, ROAD_LEVELS)
    hold("a second run: no errors", ran.errors == "", ran)
    hold("a second run: rt is asked", copy.calls() == ["run in levels"] * 2, ran)
    os.remove(copy.program)
    ran = copy.run(*ROAD, "2")
    printed("a program that was removed", ran, ROAD_LEVELS)
    write(os.path.join(copy.home, "crates.txt"), "levels: printer\nprinter: levels\n")
    printed("crates that rest on each other", copy.run(*ROAD, "2"), ROAD_LEVELS)
    write(os.path.join(copy.home, "crates.txt"), CRATES)
    copy.change("#!/bin/sh\necho tree of another source\n")
    ran = copy.run(*ROAD, "2")
    printed("another source with an old date", ran, b"tree of another source\n")
    hold("another source: said", "nekbrod: proving what has changed" in ran.errors, ran)
    os.utime(copy.source())
    ran = copy.run(*ROAD, "2")
    hold("a new date alone: nothing proved", ran.errors == "", ran)
    copy.stand_in(begin="sleep 2")
    ran = copy.run(*ROAD, "2")
    hold("a slow rt where nothing changed: nothing said", ran.errors == "" and ran.status == 0, ran)
    building_sets(copy)
    building_hours(copy)
    building_mirrors(copy)
    without_rt(copy)


def building_sets(copy):
    """Each program is built when it is first asked for."""
    copy.stand_in()
    ran = copy.run("cut-sets", "--numbers", ROAD[0])
    hold("a first run of cut-sets: its text", ran.status == 0 and ran.out.startswith(b"tree 1 events 3 cut sets "), ran)
    hold("a first run of cut-sets: what it does", "proving and building the cut set printer" in ran.errors, ran)
    hold("a first run of cut-sets: the call", copy.calls() == ["run in cut_set_lines"], ran)
    sets_printed("a second run of cut-sets", copy.run("cut-sets", "--numbers", ROAD[0]), read(ROAD[0]))
    os.remove(copy.built("cut_set_lines") + ".stamp")
    copy.stand_in(status=1)
    ran = copy.run("cut-sets", "--numbers", ROAD[0])
    hold("cut-sets, a build that fails: status", ran.status == 3 and ran.out == b"", ran)
    hold("cut-sets, a build that fails: said", "'rt run in crates/cut_set_lines' failed: it ended with status 1" in ran.errors
         and "no cut set is printed; " in ran.lines[-1], ran)
    copy.stand_in()
    printed("the levels after it", copy.run(*ROAD, "2"), b"tree of another source\n")


def building_hours(copy):
    copy.stand_in()
    words = ["levels", "--windows", PLAN, "--hour", str(LAST_HOUR), *PUMPS, "10"]
    text = read(os.path.join(ROOT, "examples/cooling_pumps/levels-10.txt"))
    ran = copy.run(*words)
    printed("a first run for an hour", ran, text)
    hold("a first run for an hour: what it does", "proving and building the hour printer" in ran.errors, ran)
    hold("a first run for an hour: the call", copy.calls() == ["run in hour_levels"], ran)
    ran = copy.run(*words)
    printed("a second run for an hour", ran, text)
    hold("a second run for an hour: no errors", ran.errors == "", ran)
    os.remove(copy.built("hour_levels") + ".stamp")
    copy.stand_in(status=1)
    ran = copy.run(*words)
    hold("an hour, a build that fails: status", ran.status == 3 and ran.out == b"", ran)
    hold("an hour, a build that fails: said", "'rt run in crates/hour_levels' failed: it ended with status 1" in ran.errors
         and "no level is printed; " in ran.lines[-1], ran)


def building_mirrors(copy):
    outs = Outs(copy, os.path.join(copy.home, "new"))
    copy.stand_in()
    ran = outs.run()
    both_written("a first mirror", last_of(ran, 0), outs.names, mirror_of_road())
    hold("a first mirror: what it does", "proving and building the mirror program" in ran.errors, ran)
    hold("a first mirror: the call", copy.calls() == ["run in mirror_files"], ran)
    os.remove(copy.built("mirror_files") + ".stamp")
    outs.clear()
    copy.stand_in(status=1)
    ran = outs.run()
    outs.failed("a mirror, a build that fails", ran, 3, "no file is written; .*nekbrod.log has all that rt said$")
    said = "'rt run in crates/mirror_files' failed: it ended with status 1"
    hold("a mirror, a build that fails: said", said in ran.errors, ran)


def without_rt(copy):
    copy.without_rt()
    copy.change("#!/bin/sh\necho tree of a third source\n")
    ran = copy.run(*ROAD, "2")
    printed("no rt: as it is", ran, b"tree of another source\n")
    hold("no rt: one line", len(ran.lines) == 1, ran)
    hold("no rt: said", re.search("rt is not on the path.*run as it is.*older than its sources", ran.errors), ran)
    os.remove(os.path.join(copy.target, "stamp/levels"))
    stopped("no rt and no stamp", copy.run(*ROAD, "2"), 3, "not seen to be right.*rt is not on the path")


def failing_builds(copy):
    for name, words in (
            ("a proof that fails", {"before": "echo a line that says why", "status": 1}),
            ("a program that fails", {"after": "cp src/main.rt out/levels", "status": 1}),
            ("a toolchain that fails", {"before": "echo 'crates/x.rt:3:4: error' >&2", "status": 2})):
        copy.empty()
        copy.stand_in(**words)
        for turn in ("first", "again"):
            ran = copy.run(*ROAD, "2")
            name_here = f"{name}, {turn}"
            hold(f"{name_here}: status", ran.status == 3, ran)
            hold(f"{name_here}: nothing printed", ran.out == b"", ran)
            said = f"'rt run in crates/levels' failed: it ended with status {words['status']}. Its last lines:"
            hold(f"{name_here}: said", said in ran.errors, ran)
            hold(f"{name_here}: rt's last lines", "\nnekbrod:   fn some::function: proved\n" in ran.errors, ran)
            hold(f"{name_here}: the log's name", ran.lines[-1].endswith("target/nekbrod.log has all that rt said"), ran)
            log = read(copy.target + "/nekbrod.log").decode()
            whole = log.startswith("rt: chose --jobs 2 for theory\n") and log.endswith("\nlogic=proved functions=1 sum=0\n")
            hold(f"{name_here}: the log", whole, ran)
            if "before" in words:
                why = words["before"].split("echo ")[1].split(" >&2")[0].strip("'")
                hold(f"{name_here}: why", f"nekbrod:   {why}\n" in ran.errors and why in log, ran)
    copy.empty()
    copy.stand_in(before="i=0; while [ $i -lt 40 ]; do echo line $i; i=$((i + 1)); done", status=1,
                  after="echo 'rt: chose --jobs 2 for levels'")
    ran = copy.run(*ROAD, "2")
    hold("a long failure: its last twelve lines", "  line 39" in ran.errors and "  line 33" in ran.errors
         and "  line 32" not in ran.errors, ran)
    hold("a long failure: not how rt goes about it", "chose" not in ran.errors, ran)
    copy.stand_in(wrote="echo another text")
    for turn in ("first", "again"):
        ran = copy.run(*ROAD, "2")
        hold(f"a stored case that fails, {turn}: status", ran.status == 3 and ran.out == b"", ran)
        hold(f"a stored case that fails, {turn}: said", re.search("the level printer does not print .*crates/levels/stdout "
             "for the stdin beside it, so no level is printed", ran.errors), ran)
    copy.empty()
    copy.stand_in(leaves="rm -f out/levels")
    ran = copy.run(*ROAD, "2")
    hold("rt leaves no program: status", ran.status == 3, ran)
    hold("rt leaves no program: said", "left no program" in ran.errors, ran)
    copy.stand_in(before="kill -9 $$")
    ran = copy.run(*ROAD, "2")
    hold("rt is killed", ran.status == 3 and "it was ended by signal 9" in ran.errors, ran)


def unwritable(copy):
    """A lock that is a folder can't be written by root either."""
    copy.empty()
    copy.stand_in()
    copy.change(read(LEVELS))
    write(copy.target, "not a folder")
    stopped("target/ is a file", copy.run(*ROAD, "2"), 3, "not built.*target cannot be written: ")
    os.remove(copy.target)
    ran = copy.run(*ROAD, "2")
    printed("target/ can be made", ran, ROAD_LEVELS)
    os.remove(copy.target + "/nekbrod.lock")
    os.mkdir(copy.target + "/nekbrod.lock")
    ran = copy.run(*ROAD, "2")
    printed("target/ can't be written", ran, ROAD_LEVELS)
    hold("target/ can't be written: one line", len(ran.lines) == 1, ran)
    said = re.search("target/nekbrod.lock cannot be written: .*run as it is", ran.errors)
    hold("target/ can't be written: said", said, ran)
    os.rmdir(copy.target + "/nekbrod.lock")
    write(copy.target + "/nekbrod.lock", "")
    if not CAN_BE_SHUT_OUT:
        skipped.append("a folder without the right to write: root writes in every folder, and nobody has no python3")
        return
    names = [write(os.path.join(copy.home, os.path.basename(name)), read(name)) for name in ROAD]
    for folder in ("target", "target/stamp", "crates/levels/out"):
        for inner in ("target", "target/stamp", "target/nekbrod.lock", "crates/levels/out"):
            if IS_ROOT:
                os.chown(os.path.join(copy.home, inner), NOBODY, NOBODY)
        os.chmod(os.path.join(copy.home, folder), 0o555)
        ran = copy.run(*names, "2", cwd="/", **SHUT_OUT)
        os.chmod(os.path.join(copy.home, folder), 0o755)
        printed(f"{folder} without the right to write", ran, ROAD_LEVELS)
        said = re.search(f"{folder} cannot be written: Permission denied; .*run as it is", ran.errors)
        hold(f"{folder}: said", said, ran)
    kept = [copy.target, os.path.dirname(copy.program)]
    for folder in kept:
        os.rename(folder, folder + ".kept")
    os.chmod(copy.home, 0o555)
    ran = copy.run(*names, "2", cwd="/", **SHUT_OUT)
    os.chmod(copy.home, 0o755)
    stopped("a first run in a folder without the right to write", ran, 3,
            "not built, and .*target cannot be written: Permission denied")
    for folder in kept:
        os.rename(folder + ".kept", folder)


def is_alive(pid):
    try:
        with open(f"/proc/{pid}/stat", encoding="latin-1") as file:
            return file.read().rsplit(")", 1)[1].split()[0] not in "ZX"
    except (FileNotFoundError, ProcessLookupError):
        return False


def long_build(copy, trap=""):
    """A build with children and a temporary file that would take minutes; its ids and the file's folder go to notes."""
    copy.empty()
    copy.stand_in(before=f"""{trap}
echo >"$TMPDIR/left"
echo "$TMPDIR" >'{copy.notes}/temporary'
sleep 300 >/dev/null 2>&1 &
one=$!
(sleep 300; true) >/dev/null 2>&1 &
echo $$ $one $! >'{copy.notes}/ids'
wait""")


def interrupted(name, copy, process, number):
    """After a signal nothing is left, the status is 128 + it, and the next run ends right."""
    hold(f"{name}: it builds", until(lambda: copy.note("ids").endswith("\n")))
    pids, folder = copy.note("ids").split(), copy.note("temporary").strip()
    hold(f"{name}: its temporary file", os.path.exists(os.path.join(folder, "left")))
    time.sleep(0.1)
    hold(f"{name}: its children live", len(pids) == 3 and all(map(is_alive, pids)))
    began = time.monotonic()
    process.send_signal(number)
    ran = ended(process)
    took = time.monotonic() - began
    hold(f"{name}: status", ran.status == 128 + number, ran)
    hold(f"{name}: nothing printed", ran.out == b"", ran)
    hold(f"{name}: said", f"nekbrod: ended by {signal.Signals(number).name}\n" in ran.errors, ran)
    hold(f"{name}: no child left", not any(map(is_alive, pids)), ran)
    hold(f"{name}: no temporary file left", not os.path.exists(folder or "/"), ran)
    copy.stand_in()
    printed(f"{name}: the next run", copy.run(*ROAD, "2"), ROAD_LEVELS)
    return took


def signals(copy):
    for number in (signal.SIGINT, signal.SIGTERM, signal.SIGHUP, signal.SIGQUIT):
        long_build(copy)
        took = interrupted(signal.Signals(number).name, copy, copy.start(*ROAD, "2"), number)
        # A group that does not end at TERM has 5 seconds.
        hold(f"{signal.Signals(number).name}: at once", took < 4.5)
    long_build(copy, trap="trap '' TERM")
    interrupted("children that ignore TERM", copy, copy.start(*ROAD, "2"), signal.SIGINT)
    copy.empty()
    copy.stand_in(before=f"echo >'{copy.notes}/begun'; sleep 0.5")
    process = copy.start(*ROAD, "2", preexec_fn=lambda: signal.signal(signal.SIGHUP, signal.SIG_IGN))
    until(lambda: copy.note("begun"))
    process.send_signal(signal.SIGHUP)
    printed("HUP that was ignored at the start", ended(process), ROAD_LEVELS)
    copy.change(f"#!/bin/sh\necho $$ >'{copy.notes}/printer'\nexec sleep 300\n")
    process = copy.start(*ROAD, "2")
    until(lambda: copy.note("printer").endswith("\n"))
    process.send_signal(signal.SIGINT)
    ran = ended(process)
    hold("INT while it prints: status", ran.status == 130 and ran.out == b"", ran)
    hold("INT while it prints: nothing left", not is_alive(copy.note("printer").strip()), ran)
    copy.change(read(LEVELS))


def two_at_once(copy):
    copy.empty()
    copy.stand_in(before=f"echo >'{copy.notes}/begun'; sleep 6")
    one = copy.start(*ROAD, "2")
    hold("two at once: one builds", until(lambda: copy.note("begun")))
    other, third = copy.start(*ROAD, "2"), copy.start(*ROAD, "2")
    # Both have begun to wait by then.
    time.sleep(2)
    third.send_signal(signal.SIGINT)
    third = ended(third)
    hold("two at once: INT ends one that waits", third.status == 130 and third.out == b"", third)
    one, other = ended(one), ended(other)
    printed("two at once: the one", one, ROAD_LEVELS)
    printed("two at once: the other", other, ROAD_LEVELS)
    hold("two at once: the one builds", "proving and building" in one.errors and "another run" not in one.errors, one)
    waits = other.errors.startswith("nekbrod: another run is building or checking")
    hold("two at once: the other says that it waits", waits, other)
    hold("two at once: the other does not build", "printer proved" not in other.errors, other)
    hold("two at once: rt alone at a time", copy.calls() == ["run in levels"] * 2 and copy.note("overlap") == "", other)
    copy.empty()
    # What it prints after its reader was killed is lost, and it goes on.
    copy.stand_in(before=f"trap '' PIPE; echo >'{copy.notes}/begun'; sleep 2")
    one = copy.start(*ROAD, "2")
    until(lambda: copy.note("begun"))
    one.kill()
    one.wait()
    printed("after a run that was killed", copy.run(*ROAD, "2"), ROAD_LEVELS)
    hold("after a run that was killed: rt alone at a time", copy.note("overlap") == "")
    one.communicate()
    lock_file_removed(copy)


def lock_file_removed(copy):
    """Where target/ goes while one waits, the one that waited takes the lock that is there then."""
    copy.empty()
    copy.stand_in(before=f"echo >>'{copy.notes}/begun'; sleep 1.5")
    one = copy.start(*ROAD, "2")
    until(lambda: copy.note("begun"))
    other = copy.start(*ROAD, "2")
    time.sleep(0.5)
    os.remove(copy.target + "/nekbrod.lock")
    ended(one)
    printed("the lock's file removed", ended(other), ROAD_LEVELS)
    hold("the lock's file removed: there again", os.path.exists(copy.target + "/nekbrod.lock"))


# By hand from levels-2.txt: every level is 0.368, exactly.
ROAD_TABLE = """tree 1, 3 basic events: trip
level  lower end      upper end      width
    2  0.368000000 =  0.368000000 =  0.000000000
    1  0.368000000 =  0.368000000 =  0.000000000
    0  0.368000000 =  0.368000000 =  0.000000000
= is an exact end; ~ is an end rounded outward, to the safe side of the exact one
"""


def terminals(copy):
    copy.empty()
    copy.stand_in(before="sleep 1.2", after="sleep 1.2")
    ran = on_terminal(copy, *ROAD, "2")
    printed("on a terminal", ran, ROAD_LEVELS)
    for name, words in (("the first crate", "printer, 1 of 3"), ("the next crate", "levels, 2 of 3")):
        shown = re.search(rf"\r\x1b\[Knekbrod: {words} crates proved, [0-9]+ s\r", ran.errors)
        hold(f"progress: {name}", shown, ran)
    hold("progress: cleared before a line", re.search(r"\r\x1b\[Knekbrod: printer proved", ran.errors), ran)
    hold("progress: cleared at the end", ran.errors.rsplit("nekbrod: ", 1)[1].endswith("\r\x1b[K")
         or ran.errors.endswith("\n"), ran)
    ran = on_terminal(copy, *ROAD, "2")
    hold("on a terminal, nothing changed: nothing said", ran.errors == "", ran)
    ours, theirs = pty.openpty()
    process = copy.start(*ROAD, "2", stdout=theirs, stderr=theirs)
    os.close(theirs)
    process.wait(timeout=LONGEST)
    text = os.read(ours, 65536).decode()
    os.close(ours)
    hold("on a terminal: a table", text.replace("\r\n", "\n") == ROAD_TABLE)
    copy.run("cut-sets", ROAD[0])
    ours, theirs = pty.openpty()
    process = copy.start("cut-sets", ROAD[0], stdout=theirs, stderr=theirs)
    os.close(theirs)
    process.wait(timeout=LONGEST)
    text = os.read(ours, 65536).decode()
    os.close(ours)
    hold("on a terminal: a set explained", text.endswith("that fail the top event together\r\n"))


def other_program(copy, commands):
    copy.change(f"#!/bin/sh\n{commands}\n")
    return copy.run(*ROAD, "2")


def broken_programs(copy):
    copy.stand_in()
    stopped("a program that prints nothing", last_of(other_program(copy, ":")), 3, "neither levels nor a refusal")
    stopped("a program that prints something else", last_of(other_program(copy, "echo hello")), 3,
            "neither levels nor a refusal")
    stopped("a program that fails", last_of(other_program(copy, "echo tree; exit 7")), 3, "ended with status 7")
    stopped("a program that is killed", last_of(other_program(copy, "kill -9 $$")), 3, "ended by signal 9")
    copy.change("\0\0not a program")
    stopped("a program that can't be run", last_of(copy.run(*ROAD, "2")), 3, "could not be run")
    for line in ("refused 99 at 3", "refused 8 at 99999", "refused 7 at 0", "refused x"):
        ran = other_program(copy, f"echo {line}")
        hold(f"a program that says '{line}'", ran.status == 1 and ran.out == line.encode() + b"\n"
             and "docs/REFUSALS.md" in ran.lines[-1] and "Traceback" not in ran.errors, ran)
    ran = other_program(copy, "cat >'" + copy.notes + "/input'; echo tree of no consequence")
    files = [read(name) for name in ROAD]
    expected = two(2) + two(len(files[0])) + two(len(files[1])) + files[0] + files[1]
    hold("the printer's input", read(copy.notes + "/input") == expected, ran)
    long = "tree " + "x" * 300000
    write(copy.notes + "/long", long)
    ran = other_program(copy, "cat '" + copy.notes + "/long'")
    printed("a long text without a line feed, and input that is not read", ran, long.encode())
    copy.change(read(LEVELS))
    copy.run(*ROAD, "2")


def outputs(copy):
    if os.path.exists("/dev/full"):
        for name, words in (("levels", [*ROAD, "2"]), ("help", ["--help"]), ("version", ["--version"])):
            with open("/dev/full", "wb") as full:
                ran = copy.run(*words, stdout=full)
            hold(f"a full disk, {name}: status", ran.status == 3, ran)
            hold(f"a full disk, {name}: said", "could not be written: No space left" in ran.errors, ran)
            hold(f"a full disk, {name}: one line", len(ran.lines) == 1, ran)
    ran = copy.run(*ROAD, "2", stdout=None, preexec_fn=lambda: os.close(1))
    hold("a closed output: status", ran.status == 3, ran)
    hold("a closed output: said", "could not be written: standard output is closed" in ran.errors, ran)
    ran = copy.run(stderr=None, preexec_fn=lambda: os.close(2))
    printed("closed errors", ran, FUEL_LEVELS)
    with open("/dev/full", "wb") as full:
        printed("full errors", copy.run(stderr=full), FUEL_LEVELS)
    printed("a closed input", copy.run(*ROAD, "2", stdin=None, preexec_fn=lambda: os.close(0)), ROAD_LEVELS)
    reader, writer = os.pipe()
    os.close(reader)
    ran = copy.run(*ROAD, "2", stdout=writer)
    os.close(writer)
    hold("a broken pipe: ended by it, without a word", ran.status == -signal.SIGPIPE and ran.errors == "", ran)


def main():
    for crate, program in PROGRAMS.items():
        if not os.access(program, os.X_OK):
            print(f"{program} is not built: tests/build.sh")
            return 2
    signal.signal(signal.SIGTERM, lambda *_: sys.exit(2))
    os.umask(0o022)
    with tempfile.TemporaryDirectory() as work:
        os.chmod(work, 0o755)
        shipped_examples()
        shipped_mirrors(work)
        copy = Copy(work, "a copy")
        bad_arguments(work, copy)
        file_names(work, copy)
        refusals(work, copy)
        fraction_entries(work, copy)
        hours(work, copy)
        mirrors(work, copy)
        calls(work, copy)
        cut_sets(work, copy)
        outputs(copy)
        bare = Copy(work, "bare copy", built=False)
        building(bare)
        failing_builds(bare)
        unwritable(bare)
        broken_programs(bare)
        signals(bare)
        two_at_once(bare)
        terminals(bare)
    return finish("command.sh")


sys.exit(main())
