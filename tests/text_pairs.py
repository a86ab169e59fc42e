#!/usr/bin/env -S python3 -B
"""Random trees and sheets as people write them, from the text to the proved answer.

    tests/text_pairs.py [SEED [COUNT]]      a seed from the clock and 1,000 pairs, unless said

Each pair is written as text here, by random habits: Galileo or Open-PSA, commas or semicolons, points or commas. The
command's own modules make the files, the proved level printer answers them, and its ends are held to an exact rational
evaluation of what the text says: safe, near, and marked exactly where they are exact. Shown as text and written again,
the files are the same to the byte; with the sheet's rows in another order their names tell them apart, and where no
number is said their numbers do as a rule. Every 100th pair goes through the command itself.
"""

import os
import random
import subprocess
import sys
import tempfile
import time
import zlib
from fractions import Fraction
from xml.sax.saxutils import quoteattr

from counted import finish, hold

ROOT = os.path.dirname(os.path.dirname(os.path.realpath(__file__)))
sys.path.insert(0, ROOT)
sys.dont_write_bytecode = True

from desk.commands.write import made_of  # noqa: E402
from desk.text.fault_tree import held_tree  # noqa: E402
from desk.text.galileo import galileo_text  # noqa: E402
from desk.text.names import difference, parse_names  # noqa: E402
from desk.text.sheet import Expert, held_sheet, sheet_text  # noqa: E402

LEVELS = os.path.join(ROOT, "crates/levels/out/levels")
COMMAND = os.path.join(ROOT, "nekbrod")
UNIT = 10**9

# Each term's a, b, c and d in hundredths, by document 01; silence by document 02.
TERMS = {"Very Low": (0, 4, 4, 8), "Low": (7, 13, 13, 19), "Fairly Low": (17, 27, 27, 37), "Medium": (35, 50, 50, 65),
         "Fairly High": (62, 73, 73, 82), "High": (81, 87, 87, 93), "Very High": (92, 96, 96, 100),
         "": (0, 0, 100, 100)}
LETTERS = {"Very Low": "VL", "Low": "L", "Fairly Low": "FL", "Medium": "M", "Fairly High": "FH", "High": "H",
           "Very High": "VH"}


class Gate:
    def __init__(self, name, kind, inputs):
        self.name, self.kind, self.inputs = name, kind, inputs


def any_tree(draw, events, kinds=("and", "or")):
    """A random tree over these names: gates of 1 to 16 inputs, and the gates' names count up."""
    nodes, made = list(events), 0
    draw.shuffle(nodes)
    while len(nodes) > 1 or (made == 0 and draw.random() < 0.9):
        count = min(len(nodes), draw.choice([1, 2, 2, 2, 3, 3, 4, 5, 8, 16]))
        taken = [nodes.pop(draw.randrange(len(nodes))) for _ in range(count)]
        made += 1
        nodes.append(Gate(f"gate {made}", draw.choice(kinds), taken))
        if made > 300:
            nodes = [Gate("rest", "or", nodes[:16])] + nodes[16:]
    return nodes[0]


def gates_of(node):
    if isinstance(node, str):
        return []
    return [node] + [gate for each in node.inputs for gate in gates_of(each)]


def name_of(node):
    return node if isinstance(node, str) else node.name


def as_galileo(draw, root, number):
    """Statements in any order, with comments and spaces as people leave them."""
    lines = [f'toplevel "{name_of(root)}";']
    for gate in gates_of(root):
        kind = draw.choice([gate.kind, gate.kind.upper()])
        inputs = draw.choice([" ", "  ", "\n    "]).join(f'"{name_of(each)}"' for each in gate.inputs)
        lines.append(f'"{gate.name}" {kind} {inputs};' + draw.choice(["", "", " // as drawn", " /* two\nlines */"]))
    draw.shuffle(lines)
    if number is not None:
        lines.insert(0, f"// nekbrod: tree number {number}")
    return draw.choice(["\n", "\r\n"]).join(lines) + "\n"


def as_open_psa(draw, root, number):
    """Gates in any order; some formulas are nested in the gate above them."""
    nested = {id(gate) for gate in gates_of(root)[1:] if draw.random() < 0.3}

    def formula(gate):
        return f"<{gate.kind}>" + "".join(reference(each) for each in gate.inputs) + f"</{gate.kind}>"

    def reference(node):
        if isinstance(node, str):
            return f"<basic-event name={quoteattr(node)}/>"
        return formula(node) if id(node) in nested else f"<gate name={quoteattr(node.name)}/>"

    gates = [f"<define-gate name={quoteattr(gate.name)}>{formula(gate)}</define-gate>"
             for gate in gates_of(root) if id(gate) not in nested]
    draw.shuffle(gates)
    if isinstance(root, str):
        gates = [f"<define-basic-event name={quoteattr(root)}/>"]
    said = "" if number is None else (f'<attributes><attribute name="tree-number" value="{number}"/></attributes>')
    return ('<?xml version="1.0"?>\n<opsa-mef>\n<define-fault-tree name="tree">\n' + said + "\n".join(gates)
            + "\n</define-fault-tree>\n</opsa-mef>\n")


def any_entry(draw, experts):
    """The cells of an event's row, with points, and its four exact numbers."""
    style = draw.choice(["one", "three", "four", "starts", "fractions", "mixed"] + ["terms"] * (3 if experts else 0))
    if style == "terms":
        words = [draw.choice(list(TERMS)) for _ in experts]
        if not any(words):
            words[draw.randrange(len(words))] = "Medium"
        total = 100 * sum(score for _, score in experts)
        four = [Fraction(sum(score * TERMS[word][i] for word, (_, score) in zip(words, experts)), total)
                for i in range(4)]
        return [draw.choice([word, LETTERS.get(word, ""), word.lower()]) for word in words], four
    digits = draw.choice([1, 2, 3, 5, 9])
    if style in ("starts", "fractions"):
        below = draw.choice([2, 3, 7, 1250, 730, 999983, draw.randint(1, 1000000)])
        figures = sorted(draw.randint(0, below) for _ in range(4))
        count = 1 if style == "starts" else draw.choice([3, 4])
        cells = [f"{above}/{below}" for above in figures]
        values = [Fraction(above, below) for above in figures]
    else:
        figures = sorted(draw.randint(0, 10**digits) for _ in range(4))
        cells = [decimal(draw, figure, digits) for figure in figures]
        values = [Fraction(figure, 10**digits) for figure in figures]
        count = {"one": 1, "three": 3, "four": 4}.get(style, 3)
        if style == "mixed" and digits < 4:
            cells[2], values[2] = "1/1", Fraction(1)
            cells[3], values[3] = "1", Fraction(1)
    chosen = {1: [0], 3: [0, 1, 3], 4: [0, 1, 2, 3]}[count]
    four = [values[i] for i in ([0] * 4 if count == 1 else [0, 1, 1, 3] if count == 3 else chosen)]
    return [cells[i] for i in chosen], four


def decimal(draw, figure, digits):
    """figure / 10^digits, as people and spreadsheets write it."""
    plain = f"{figure // 10**digits}.{figure % 10**digits:0{digits}}"
    return draw.choice([plain, plain.rstrip("0").rstrip("."), f"{figure}e-{digits}", f"{figure}E-0{digits}"])


def as_csv(draw, experts, rows):
    """Rows with commas or semicolons, points or commas, quotes, a byte-order mark, CRLF, as they come."""
    separator, comma = draw.choice([",", ";"]), draw.random() < 0.5
    width = max([len(experts)] + [len(cells) for _, cells in rows]) + draw.choice([0, 0, 2])
    lines = [["event"] + [name for name, _ in experts], ["score"] + [str(score) for _, score in experts]]
    if not experts and draw.random() < 0.5:
        lines = draw.choice([[], [["event", "a", "b", "c", "d"]]])
    lines += [[name] + [cell.replace(".", ",") if comma else cell for cell in cells] for name, cells in rows]
    text = ""
    for line in lines:
        padded = line + [""] * (width + 1 - len(line) if draw.random() < 0.8 else 0)
        text += separator.join(cell_text(draw, cell, separator) for cell in padded) + draw.choice(["\n", "\r\n"])
    # One cell a row could be taken for a file of the other separator, as spreadsheets never leave it.
    marked = f"sep={separator}\n" if any(";" in cell for line in lines for cell in line) else ""
    return draw.choice([b"", b"\xef\xbb\xbf"]) + (marked + text).encode()


def cell_text(draw, cell, separator):
    if separator in cell or '"' in cell or draw.random() < 0.1:
        return '"' + cell.replace('"', '""') + '"'
    return cell


def exact_ends(root, cuts):
    """The exact lower and upper end of the top event, from those of the events."""
    if isinstance(root, str):
        return cuts[root]
    lower = upper = Fraction(1)
    for each in root.inputs:
        low, high = exact_ends(each, cuts)
        lower *= low if root.kind == "and" else 1 - low
        upper *= high if root.kind == "and" else 1 - high
    return (lower, upper) if root.kind == "and" else (1 - lower, 1 - upper)


def answered(name, files, root, numbers, n):
    """Every level's ends and the exact ones: on the safe side, less than 2 × E − 1 units off, and marked if exact."""
    tree, sheet = files["tree.ftf"], files["sheet.fts"]
    given = b"".join(number.to_bytes(2, "little") for number in (n, len(tree), len(sheet))) + tree + sheet
    text = subprocess.run([LEVELS], input=given, stdout=subprocess.PIPE).stdout.decode()
    header, *lines = text.splitlines()
    hold(f"{name}: accepted", header.startswith("tree ") and len(lines) == n + 1, header)
    most = 2 * len(numbers) - 1
    for line in lines:
        k, low, low_mark, high, high_mark = line.split()
        part = Fraction(int(k), n)
        cuts = {event: (a + (b - a) * part, d - (d - c) * part) for event, (a, b, c, d) in numbers.items()}
        lower, upper = (end * UNIT for end in exact_ends(root, cuts))
        right = (0 <= lower - int(low) < most and 0 <= int(high) - upper < most
                 and (low_mark == "=") == (lower == int(low)) and (high_mark == "=") == (upper == int(high)))
        hold(f"{name}: level {k} of {n}", right, line, float(lower), float(upper))


def shown_again(name, folder, files):
    """Shown as text and written again, the files are the same to the byte."""
    names = parse_names(files["names.txt"].decode())
    tree = held_tree(files["tree.ftf"], names.all_nodes())
    _, scores, entries = held_sheet(files["sheet.fts"])
    again = os.path.join(folder, "again.dft"), os.path.join(folder, "again.csv")
    experts = [Expert(*both) for both in zip(names.experts, scores)]
    write(again[0], galileo_text(tree).encode())
    write(again[1], sheet_text(experts, names.events(), entries).encode())
    made, _ = made_of(again, None, True)
    hold(f"{name}: written again", made == files, galileo_text(tree))


def own_number(files):
    """The number that comes from the tree itself, by docs/FORMATS.md."""
    tree, names = files["tree.ftf"], parse_names(files["names.txt"].decode())
    text = "".join(f"{name}\n" for name in [*names.events(), names.all_nodes()[-1]])
    return 2 + zlib.crc32(tree[:5] + b"\0\0" + tree[7:] + text.encode()) % 65534


def sorted_rows(draw, name, paths, files, rows, experts, number):
    """Of the same tree, with the rows in another order: other names at the numbers, and the number that is due."""
    others = draw.sample(rows, len(rows))
    write(paths[1], as_csv(draw, experts, others))
    made, _ = made_of(paths, None, True)
    names, other_names = (parse_names(each["names.txt"].decode()) for each in (files, made))
    is_other = names.events() != other_names.events()
    hold(f"{name}: rows in another order", other_names.events() == [event for event, _ in others], other_names)
    hold(f"{name}: told apart by their names", (difference(names, other_names) is not None) == is_other, others)
    due = own_number(made) if number is None else number
    hold(f"{name}: the number of another order", made["tree.ftf"][5:7] == made["sheet.fts"][5:7]
         == due.to_bytes(2, "little"), due)


def write(name, data):
    with open(name, "wb") as file:
        file.write(data)


def any_names(draw, count):
    """Names as people give them; each ends in its number, so that no two are alike."""
    words = ["pump", "valve", "Kühlwasser", "sea chest", "line (old)", "A&B", "50 % load", "flow; meter", "x,y", "n°"]
    return [f"{draw.choice(words)} {i}" for i in range(count)]


def one_pair(draw, name, folder, through_command):
    events = any_names(draw, draw.choice([1, 1, 2, 3, 4, 5, 8, 13, 30]))
    root = any_tree(draw, events)
    experts = [(draw.choice(["E{}", 'Dr. "Bo" {}', "chief; {}", "2., {}"]).format(i), draw.randint(1, 100))
               for i in range(draw.choice([0, 0, 1, 2, 3, 16]))]
    number = draw.choice([None, 0, 7, 65535])
    entries = {event: any_entry(draw, experts) for event in draw.sample(events, len(events))}
    tree_text = draw.choice([as_galileo, as_open_psa])(draw, root, number)
    paths = os.path.join(folder, "tree.txt"), os.path.join(folder, "sheet.csv")
    write(paths[0], tree_text.encode())
    write(paths[1], as_csv(draw, experts, [(event, cells) for event, (cells, _) in entries.items()]))
    by_rows = draw.random() < 0.5
    files, _ = made_of(paths, None, by_rows)
    due = own_number(files) if number is None else number
    hold(f"{name}: the tree's number", files["tree.ftf"][5:7] == files["sheet.fts"][5:7] == due.to_bytes(2, "little"))
    if by_rows:
        events_written = parse_names(files["names.txt"].decode()).events()
        hold(f"{name}: the events in the order of rows", events_written == list(entries), events_written)
    answered(name, files, root, {event: four for event, (_, four) in entries.items()}, draw.choice([1, 2, 3, 10]))
    shown_again(name, folder, files)
    if through_command:
        by_command(name, folder, paths, files, by_rows)
    sorted_rows(draw, name, paths, files, [(event, cells) for event, (cells, _) in entries.items()], experts, number)


def by_command(name, folder, paths, files, by_rows):
    """The command writes the same files, shows both, and writes what it showed to the same bytes."""
    first, second = os.path.join(folder, "first"), os.path.join(folder, "second")
    order = ["--order", "rows" if by_rows else "mention"]
    runs = [subprocess.run([COMMAND, "write", *paths, "-o", first, *order], stdout=subprocess.PIPE)]
    texts = []
    for file in ("tree.ftf", "sheet.fts"):
        runs.append(subprocess.run([COMMAND, "show", os.path.join(first, file)], stdout=subprocess.PIPE))
        texts.append(os.path.join(folder, f"shown.{file}"))
        write(texts[-1], runs[-1].stdout)
    runs.append(subprocess.run([COMMAND, "write", *texts, "-o", second], stdout=subprocess.PIPE))
    hold(f"{name}: the command", all(ran.returncode == 0 for ran in runs), [ran.returncode for ran in runs])
    for made in first, second:
        for file, data in files.items():
            path = os.path.join(made, file)
            hold(f"{name}: {made} {file}", os.path.exists(path) and open(path, "rb").read() == data)


def main(words):
    if not os.access(LEVELS, os.X_OK):
        print(f"{LEVELS} is not built: tests/build.sh")
        return 2
    seed = int(words[0]) if words else int(time.time())
    count = int(words[1]) if words[1:] else 1000
    print(f"pairs written as text, seed {seed}")
    for index in range(count):
        with tempfile.TemporaryDirectory() as folder:
            one_pair(random.Random(f"{seed} {index}"), f"seed {seed}, pair {index}", folder, index % 100 == 0)
    return finish(f"text_pairs.py, {count} pairs")


sys.exit(main(sys.argv[1:]))
