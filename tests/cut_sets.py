#!/usr/bin/env -S python3 -B
"""Holds the cut set printer to reference/: for each tree both print the same lines, in whatever order.

    tests/cut_sets.py [SEED [COUNT]]      a seed from the clock and 2,000 generated trees, unless said

Before them come inputs at the edges of the format, with the first line that each must have. A difference is printed
with the command that makes its tree again.
"""

import os
import subprocess
import sys
import time
from struct import pack

from counted import finish, hold

ROOT = os.path.dirname(os.path.dirname(os.path.realpath(__file__)))
PROGRAM = os.path.join(ROOT, "crates/cut_set_lines/out/cut_set_lines")
REFERENCE = os.path.join(ROOT, "reference/target/release/reference")
EVENT, AND, OR = 0, 1, 2
MOST_LISTED = 100000
# A run that takes longer than this hangs.
LONGEST = 60


def run(words, data, **more):
    return subprocess.run(words, input=data, stderr=subprocess.PIPE, timeout=LONGEST,
                          **{"stdout": subprocess.PIPE, **more})


def frames(stream):
    """The cases of a stream: a 32-bit length, low byte first, before each."""
    at = 0
    while at < len(stream):
        length = int.from_bytes(stream[at:at + 4], "little")
        yield stream[at + 4:at + 4 + length]
        at += 4 + length


def in_order(text):
    """The first line, and the others sorted."""
    first, *lines = text.split(b"\n")
    return first, sorted(lines)


def unlisted(text):
    """What the printer says on standard error beside this text."""
    words = text.split(b"\n")[0].split()
    too_many = words[:1] == [b"tree"] and int(words[-1]) > MOST_LISTED
    return b"cut_set_lines: no set is listed, since there are more than 100000\n" if too_many else b""


def compare(name, tree, due):
    ran = run([PROGRAM], tree)
    hold(f"{name}: status", ran.returncode == 0, ran.stderr)
    hold(f"{name}: as by reference/", in_order(ran.stdout) == in_order(due), ran.stdout, due)
    hold(f"{name}: errors", ran.stderr == unlisted(due), ran.stderr)
    return ran.stdout


def tree_file(nodes):
    """Tree 7: each node is a kind and its inputs."""
    records, links, events = b"", [], 0
    for kind, inputs in nodes:
        records += pack("<BHH", kind, events if kind == EVENT else len(links), len(inputs))
        events += kind == EVENT
        links += inputs
    return b"FTF" + pack("<HHH", 1, 7, len(nodes)) + records + pack(f"<{len(links)}H", *links)


def two_layers(upper, lower, widths, more=0):
    """A gate over gates of so many events each, and over some events more."""
    nodes, inputs = [], []
    for width in widths:
        first = len(nodes)
        nodes += [(EVENT, [])] * width + [(lower, list(range(first, first + width)))]
        inputs.append(len(nodes) - 1)
    inputs += range(len(nodes), len(nodes) + more)
    return nodes + [(EVENT, [])] * more + [(upper, inputs)]


def under(gates, nodes):
    """The tree under so many gates of one input."""
    return nodes + [(AND + i % 2, [len(nodes) - 1 + i]) for i in range(gates)]


def one_more(nodes):
    """An OR of the tree and one event."""
    return nodes + [(EVENT, []), (OR, [len(nodes) - 1, len(nodes)])]


ONE = tree_file([(EVENT, [])])
EDGES = [
    ("one event", ONE, "tree 7 events 1 cut sets 1"),
    ("64 events, each alone", tree_file(two_layers(OR, OR, [16] * 4)), "tree 7 events 64 cut sets 64"),
    ("64 events in one set", tree_file(two_layers(AND, AND, [16] * 4)), "tree 7 events 64 cut sets 1"),
    ("64 events in 16 sets", tree_file(two_layers(OR, AND, [4] * 16)), "tree 7 events 64 cut sets 16"),
    ("65 events", tree_file(two_layers(OR, OR, [16] * 4, 1)), "refused 26 at 0"),
    ("65 events in one set", tree_file(two_layers(AND, AND, [16] * 4, 1)), "refused 26 at 0"),
    ("as many sets as are listed", tree_file(two_layers(AND, OR, [10] * 5)), "tree 7 events 50 cut sets 100000"),
    ("one set more", tree_file(one_more(two_layers(AND, OR, [10] * 5))), "tree 7 events 51 cut sets 100001"),
    ("more sets than are listed", tree_file(two_layers(AND, OR, [10] * 5 + [2])), "tree 7 events 52 cut sets 200000"),
    ("a count beyond 32 bits", tree_file(two_layers(AND, OR, [4] * 16)), "tree 7 events 64 cut sets 4294967296"),
    ("a chain of 900 gates", tree_file(under(900, two_layers(AND, OR, [3, 2]))), "tree 7 events 5 cut sets 6"),
    ("1,024 nodes", tree_file(under(1022, [(EVENT, []), (OR, [0])])), "tree 7 events 1 cut sets 1"),
    ("no byte", b"", "refused 1 at 0"),
    ("eight bytes", ONE[:8], "refused 1 at 8"),
    ("a sheet", b"FTS" + bytes(23), "refused 2 at 0"),
    ("a byte more", ONE + b"\0", "refused 5 at 15"),
    ("7,176 bytes", ONE + bytes(7176 - len(ONE)), "refused 5 at 7176"),
    ("65,536 bytes", ONE + bytes(65536 - len(ONE)), "refused 5 at 65536"),
]


def edges():
    for name, tree, first in EDGES:
        due = run([REFERENCE, "cut-sets"], tree).stdout
        text = compare(name, tree, due)
        hold(f"{name}: first line", text.split(b"\n")[0] == first.encode(), text)
    text = run([PROGRAM], ONE + bytes(100000)).stdout
    hold("a longer input by its first 65,536 bytes", text == b"refused 5 at 65536\n", text)


def outputs():
    """A text that cannot be written is told, in one line on standard error."""
    told = b"cut_set_lines: the text could not be written\n"
    tree = tree_file(two_layers(AND, OR, [3, 2]))
    ran = run(["sh", "-c", '"$0" >&-', PROGRAM], tree)
    hold("a closed output", ran.stderr == told, ran.stderr)
    if not os.path.exists("/dev/full"):
        print("skipped: a full disk (there is no /dev/full)")
        return
    too_many = tree_file(two_layers(AND, OR, [10] * 5 + [2]))
    for name, file in ("sets", tree), ("a refusal", b""), ("too many sets", too_many):
        with open("/dev/full", "wb") as full:
            ran = run([PROGRAM], file, stdout=full)
        hold(f"a full disk, {name}", ran.stderr == told, ran.stderr)


def generated(seed, count):
    """Trees of the reference, one run each. Among them must be every kind of answer."""
    stream = run([REFERENCE, "cases", str(seed), str(count), "trees", "-"], b"", check=True).stdout
    answers = run([REFERENCE, "each", "cut-sets"], stream, check=True).stdout
    trees, texts = list(frames(stream)), list(frames(answers))
    hold("as many answers as trees", len(trees) == len(texts) == count)
    listed = sets = unlisted_trees = refused = 0
    for index, (tree, due) in enumerate(zip(trees, texts)):
        compare(f"{REFERENCE} case {seed} {index} trees", tree, due)
        listed += due.count(b"\n") > 1
        sets += max(due.count(b"\n") - 1, 0)
        unlisted_trees += unlisted(due) != b""
        refused += due.startswith(b"refused")
    print(f"{listed} trees with {sets} sets in all, {unlisted_trees} with too many to list, {refused} refused")
    hold("sets among the generated trees", listed)
    hold("too many sets among them", unlisted_trees or count < 1000)
    hold("refusals among them", refused or count < 1000)


def main(words):
    for name, command in (PROGRAM, "tests/build.sh"), (
            REFERENCE, "cargo build --release --offline --manifest-path reference/Cargo.toml"):
        if not os.access(name, os.X_OK):
            print(f"{name} is not built: {command}")
            return 2
    seed = int(words[0]) if words else int(time.time())
    count = int(words[1]) if words[1:] else 2000
    print(f"cut_set_lines held to reference/, seed {seed}")
    edges()
    outputs()
    generated(seed, count)
    return finish("cut_sets.py")


sys.exit(main(sys.argv[1:]))
