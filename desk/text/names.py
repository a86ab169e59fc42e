# The names of nodes and experts, which the formats have no place for: a text file beside the files that they are for.
# It has the checksums of these files, so that no name is ever put to the nodes of another tree.
import collections
import os
import re
import zlib

from desk.text.fault_tree import in_single_spaces, unfit_at

NAMES_FILE = "names.txt"
FIRST_LINE = "nekbrod names"
WORDS = ("tree", "sheet", "book")
KINDS = {0: "event", 1: "and", 2: "or"}
KINDS_SHOWN = {"event": "a basic event", "and": "an AND", "or": "an OR"}
# No names file is longer: 1,040 names of the longest text that a line may have.
LONGEST = 1 << 24

Named = collections.namedtuple("Named", "kind name")


class Names(collections.namedtuple("Names", "sums nodes experts")):
    """The checksum of each file, the nodes in their order, each with its kind, and the experts."""

    def all_nodes(self):
        return [node.name for node in self.nodes]

    def events(self):
        return [node.name for node in self.nodes if node.kind == KINDS[0]]

    def identity(self):
        """What names of one tree in one order have alike; of a gate its kind, and its name where it is the top."""
        return {"the top event": f'"{self.nodes[-1].name}"',
                **{f"event {i}": f'"{name}"' for i, name in enumerate(self.events())},
                **{f"node {i}": KINDS_SHOWN[node.kind] for i, node in enumerate(self.nodes)}}

    def fit(self, what, data):
        """Whether they are for a tree, a sheet or a book with these bytes: each node and expert has one."""
        if self.sums.get(what) != checksum(data):
            return False
        if what == "tree":
            return [KINDS.get(data[at]) for at in records(data)] == [node.kind for node in self.nodes]
        if what == "book":
            return all(number_at(data, at) < len(self.events()) for at in range(0, len(data), 10))
        return (number_at(data, 7), data[9]) == (len(self.events()), len(self.experts))

    def text(self):
        lines = [FIRST_LINE] + [f"{word} {value}" for word, value in self.sums.items()]
        lines += [f"{i} {node.kind} {node.name}" for i, node in enumerate(self.nodes)]
        lines += [f"expert {name}" for name in self.experts]
        return "\n".join(lines) + "\n"


def checksum(data):
    return f"{zlib.crc32(data):08x}"


def number_at(data, at):
    return int.from_bytes(data[at:at + 2], "little")


def records(data):
    """Where the records of a tree file begin."""
    return range(9, min(9 + 5 * number_at(data, 7), len(data)), 5)


def names_of(tree, experts, files):
    """The names for files, given as their words, tree, sheet and book, and their bytes."""
    nodes = [Named(KINDS[node.kind], node.name) for node in tree.nodes]
    return Names({word: checksum(data) for word, data in files.items()}, nodes, [expert.name for expert in experts])


def parse_names(text):
    """The names that a text has, or None where it is no text of names."""
    first, *lines = text.split("\n")[:-1] or [""]
    names = Names({}, [], [])
    for line in lines:
        word, _, rest = line.partition(" ")
        kind, _, name = rest.partition(" ")
        if word in WORDS and word not in names.sums and not names.nodes and re.fullmatch("[0-9a-f]{8}", rest):
            names.sums[word] = rest
        elif word == str(len(names.nodes)) and kind in KINDS.values() and name and not names.experts:
            names.nodes.append(Named(kind, name))
        elif word == "expert" and rest:
            names.experts.append(rest)
        else:
            return None
    right = first == FIRST_LINE and names.nodes and are_names(names.all_nodes()) and are_names(names.experts, '"')
    return names if right else None


def are_names(texts, more=""):
    """Whether a text could give these names, each to one; an expert's may have double quotes too."""
    return len(set(texts)) == len(texts) and all(
        unfit_at(text.replace(more, "")) is None and in_single_spaces(text) == text for text in texts)


def difference(names, others):
    """The first thing that the trees of two names differ in, and what each has there; or None."""
    ours, theirs = names.identity(), others.identity()
    for thing in {**ours, **theirs}:
        both = ours.get(thing, "not there"), theirs.get(thing, "not there")
        if both[0] != both[1]:
            return (thing, *both)
    return None


def names_path(name):
    """Where the names for a file lie."""
    return os.path.join(os.path.dirname(name), NAMES_FILE)


def names_beside(what, name, data):
    """The names for a file, a tree, a sheet or a book, or None; and why there are none, where a names file is there."""
    path = names_path(name)
    if os.path.exists(path) and not os.path.isfile(path):
        return None, f"{path} is not a file"
    try:
        with open(path, encoding="utf-8", newline="\n") as file:
            names = parse_names(file.read(LONGEST))
    except FileNotFoundError:
        return None, ""
    except (OSError, UnicodeDecodeError) as error:
        return None, f"{path} cannot be read ({getattr(error, 'strerror', None) or 'it is not UTF-8'})"
    if names is None:
        return None, f"{path} is no file of names"
    if not names.fit(what, data):
        return None, f"{path} has the names for other files than {name}"
    return names, ""
