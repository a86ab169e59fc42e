#!/usr/bin/env -S python3 -B
"""Holds the level printer to SCRAM, an Open-PSA tool of others, where it is on the path.

    tests/scram.py [SEED [COUNT]]      a seed from the clock and 20 random trees, unless said

Trees with a point probability for each event go both ways: as text and CSV through the command's modules to the proved
level printer, and as an Open-PSA model to SCRAM, which reckons the top event by a binary decision diagram, without an
approximation. Its value, of six digits, must lie in the interval.
"""

import os
import random
import shutil
import subprocess
import sys
import tempfile
import time
from decimal import Decimal
from xml.etree import ElementTree

from counted import finish, hold

ROOT = os.path.dirname(os.path.dirname(os.path.realpath(__file__)))
sys.path.insert(0, ROOT)
sys.dont_write_bytecode = True

from desk.commands.write import made_of  # noqa: E402
from desk.text.fault_tree import AND, EVENT, OR, FaultTree, Node  # noqa: E402
from desk.text.faults import Faulty  # noqa: E402
from desk.text.open_psa import open_psa_text  # noqa: E402

LEVELS = os.path.join(ROOT, "crates/levels/out/levels")
UNIT = 10**9
# SCRAM prints so many significant digits, without the zeros at their end.
DIGITS = 6
# A run that takes longer than this hangs.
LONGEST = 60

KINDS = {"and": AND, "or": OR}

# Of each example its text, and by hand its gates, the top first, each with its kind and its inputs, and its figures.
EXAMPLES = {
    "road_trip": ("tree.dft", [("trip", "and", ["phone", "car"]), ("car", "or", ["engine", "battery"])],
                  {"phone": "0.8", "engine": "0.1", "battery": "0.4"}),
    "container_seal": ("tree.xml", [
        ("container", "or", ["e2", "all_seals"]),
        ("all_seals", "and", ["e1", "first_compression_seal", "second_compression_seal"]),
        ("first_compression_seal", "or", ["e3", "e4"]), ("second_compression_seal", "or", ["e5", "e6"])],
        {"e1": "0.1", "e2": "0.00001", "e3": "0.001", "e4": "0.001", "e5": "0.001", "e6": "0.001"}),
}


def write(folder, name, text):
    path = os.path.join(folder, name)
    with open(path, "w", encoding="utf-8") as file:
        file.write(text)
    return path


def printed_interval(files):
    """The ends of level 1 of 1, in billionths; both levels are alike, since every event has one probability."""
    tree, sheet = files["tree.ftf"], files["sheet.fts"]
    given = b"".join(number.to_bytes(2, "little") for number in (1, len(tree), len(sheet))) + tree + sheet
    text = subprocess.run([LEVELS], input=given, stdout=subprocess.PIPE, timeout=LONGEST).stdout.decode()
    header, *lines = text.splitlines()
    if not header.startswith("tree ") or len(lines) != 2 or lines[0].split()[1:] != lines[1].split()[1:]:
        raise ValueError(text)
    _, lower, _, upper, _ = lines[0].split()
    return int(lower), int(upper)


def scram_value(folder, model):
    """The top event's probability as SCRAM prints it, and what it says of its approximation."""
    report = os.path.join(folder, "report.xml")
    ran = subprocess.run(["scram", "--bdd", "--probability", "1", "-o", report, write(folder, "model.xml", model)],
                         stdout=subprocess.PIPE, stderr=subprocess.STDOUT, timeout=LONGEST)
    if ran.returncode != 0:
        raise ValueError(ran.stdout.decode("utf-8", "replace"))
    root = ElementTree.parse(report).getroot()
    [analysis] = root.findall("information/calculated-quantity[@name='Probability Analysis']")
    [top] = root.findall("results/sum-of-products")
    return Decimal(top.get("probability")), analysis.get("approximation")


def fault_tree(gates, events):
    """The tree of these gates, the top first, as the command's modules hold it."""
    names = [*events, *(name for name, _, _ in reversed(gates))]
    nodes = [Node(event, EVENT, ()) for event in events]
    nodes += [Node(name, KINDS[kind], tuple(map(names.index, inputs))) for name, kind, inputs in reversed(gates)]
    return FaultTree(1, tuple(nodes))


def compare(name, folder, tree_text, gates, probabilities):
    """SCRAM's value within the interval, widened by half a unit of SCRAM's last digit."""
    sheet = "".join(f"{event},{figure}\n" for event, figure in probabilities.items())
    try:
        files, _ = made_of((tree_text, write(folder, "sheet.csv", sheet)), None, True)
        lower, upper = printed_interval(files)
        model = open_psa_text(fault_tree(gates, list(probabilities)), probabilities)
        value, approximation = scram_value(folder, model)
    except (Faulty, ValueError, ElementTree.ParseError, subprocess.TimeoutExpired) as error:
        hold(f"{name}: an answer of both", False, error)
        return
    half = Decimal(5).scaleb(value.adjusted() - DIGITS) if value else Decimal(0)
    hold(f"{name}: no approximation", approximation == "none", approximation)
    hold(f"{name}: a narrow interval", 0 <= upper - lower < 2 * (2 * len(probabilities) - 1), lower, upper)
    hold(f"{name}: SCRAM's value in it", (value - half) * UNIT <= upper and lower <= (value + half) * UNIT,
         f"{lower} to {upper}", value)


def any_tree(draw, events):
    """The gates of a random tree over all these events, the top first: name, kind and the names of the inputs."""
    nodes, gates = list(events), []
    while len(nodes) > 1 or not gates:
        draw.shuffle(nodes)
        count = draw.choice([1, 2, 2, 3, 4, 6])
        gates.append((f"gate {len(gates)}", draw.choice(["and", "or"]), nodes[:count]))
        nodes = nodes[count:] + [gates[-1][0]]
    return gates[::-1]


def as_galileo(gates):
    statements = [f'"{name}" {kind} ' + " ".join(f'"{given}"' for given in inputs) for name, kind, inputs in gates]
    return "".join(f"{statement};\n" for statement in [f'toplevel "{gates[0][0]}"', *statements])


def as_open_psa(gates):
    names = {name for name, _, _ in gates}
    lines = ["<opsa-mef>", '<define-fault-tree name="tree">']
    for name, kind, inputs in gates:
        references = "".join(f'<{"gate" if given in names else "basic-event"} name="{given}"/>' for given in inputs)
        lines.append(f'<define-gate name="{name}"><{kind}>{references}</{kind}></define-gate>')
    return "\n".join([*lines, "</define-fault-tree>", "</opsa-mef>", ""])


def any_probability(draw):
    digits = draw.choice([1, 2, 3, 6, 9])
    figure = draw.choice([draw.randint(0, 10**digits), draw.randint(0, 9), 10**digits])
    return f"{figure // 10**digits}.{figure % 10**digits:0{digits}}"


def random_tree(draw, name, folder):
    """Names that SCRAM takes, or such as it does not; Galileo or Open-PSA."""
    word = draw.choice(["e", "event "])
    events = [f"{word}{i}" for i in range(draw.choice([1, 2, 3, 5, 8, 13]))]
    gates = any_tree(draw, events)
    text = draw.choice([as_galileo, as_open_psa])(gates)
    compare(name, folder, write(folder, "tree.txt", text), gates, {event: any_probability(draw) for event in events})


def main(words):
    if shutil.which("scram") is None:
        print("skipped: scram is not installed")
        return finish("scram.py")
    if not os.access(LEVELS, os.X_OK):
        print(f"{LEVELS} is not built: tests/build.sh")
        return 2
    seed = int(words[0]) if words else int(time.time())
    count = int(words[1]) if words[1:] else 20
    print(f"the level printer held to SCRAM, seed {seed}")
    with tempfile.TemporaryDirectory() as folder:
        for name, (tree_text, *given) in EXAMPLES.items():
            compare(name, folder, os.path.join(ROOT, "examples", name, tree_text), *given)
        for index in range(count):
            random_tree(random.Random(f"{seed} {index}"), f"seed {seed}, tree {index}", folder)
    return finish("scram.py")


sys.exit(main(sys.argv[1:]))
