# A fault tree: what a text states of it, what is wrong with that, its nodes in the order of the tree file, and the
# bytes of the file.
import collections
import re
import struct
import unicodedata
import zlib

from desk.text.faults import Fault, Faulty

# The kinds of a node, as the tree file has them.
EVENT, AND, OR = 0, 1, 2
MOST_NODES, MOST_INPUTS, LARGEST_NUMBER = 1024, 16, 65535
# The least tree number that comes from the tree itself: 0 is that of a file which stands in for another, and 1 is what
# people write themselves.
LEAST_OWN_NUMBER = 2

# What holds of an interval where a gate that is more likely to fail than the one that is meant stands in its place, and
# where one that is less likely to does.
UPPER_HOLDS = "the true probability is at most the upper end, and may lie below the lower one"
LOWER_HOLDS = "the true probability is at least the lower end, and may lie above the upper one"

# A name where a text has it.
Mention = collections.namedtuple("Mention", "name place")
# A node as a text states it: its inputs are mentions, and a basic event has none.
Statement = collections.namedtuple("Statement", "name kind inputs place")
# What a text says: its number is None where it says none, its top is a mention.
TreeText = collections.namedtuple("TreeText", "file number top statements")
# A node of a tree: its inputs are places in the list of nodes.
Node = collections.namedtuple("Node", "name kind inputs")


class FaultTree(collections.namedtuple("FaultTree", "number nodes")):
    """The nodes stand in the order of the file: each gate after its inputs, and the root last."""

    def events(self):
        """The names of the basic events, in their order."""
        return [node.name for node in self.nodes if node.kind == EVENT]

    def data(self):
        """The bytes of the tree file."""
        records, links, events = [], [], 0
        for node in self.nodes:
            first = events if node.kind == EVENT else len(links)
            records.append(struct.pack("<BHH", node.kind, first, len(node.inputs)))
            events += node.kind == EVENT
            links += node.inputs
        header = b"FTF" + struct.pack("<HHH", 1, self.number, len(self.nodes))
        return header + b"".join(records) + struct.pack(f"<{len(links)}H", *links)

    def own_number(self):
        """The number that comes from the tree itself: its gates, its events' names in their order, its top's name."""
        names = [*self.events(), self.nodes[-1].name]
        data = self._replace(number=0).data() + "".join(f"{name}\n" for name in names).encode()
        return LEAST_OWN_NUMBER + zlib.crc32(data) % (LARGEST_NUMBER + 1 - LEAST_OWN_NUMBER)


def held_tree(data, names=None):
    """The tree of the bytes of an accepted file; a name for each node, or the default names."""
    number, count = struct.unpack_from("<HH", data, 5)
    records = [struct.unpack_from("<BHH", data, 9 + 5 * i) for i in range(count)]
    links = struct.unpack_from(f"<{count - 1}H", data, 9 + 5 * count)
    if names is None:
        names = default_names(kind for kind, _, _ in records)
    return FaultTree(number, tuple(Node(name, kind, () if kind == EVENT else links[first:first + inputs])
                                   for name, (kind, first, inputs) in zip(names, records)))


def default_names(kinds):
    """A basic event is named by its event number, a gate by its node number."""
    names, events = [], 0
    for number, kind in enumerate(kinds):
        names.append(f"e{events}" if kind == EVENT else f"g{number}")
        events += kind == EVENT
    return names


def tree_number(word):
    """The tree number that a text gives, or None where the word is no number or too large."""
    digits = word.lstrip("0") or "0"
    if not re.fullmatch("[0-9]+", word) or len(digits) > len(str(LARGEST_NUMBER)) or int(digits) > LARGEST_NUMBER:
        return None
    return int(digits)


def vote_remedy(least, inputs, or_gate, and_gate):
    """What can be done about a gate that fails if at least so many of its inputs do; `least` is the text of a number.

    It is '' where no such gate has these inputs."""
    least = least.lstrip("0")
    if not re.fullmatch("[0-9]+", least) or (len(least), least) > (len(str(inputs)), str(inputs)):
        return ""
    if least == "1":
        return f"write {or_gate}"
    if least == str(inputs):
        return f"write {and_gate}"
    return f"with {or_gate} in its place {UPPER_HOLDS}; with {and_gate} {LOWER_HOLDS}"


def unfit_at(text):
    """Where a text has its first character that no name has, or None."""
    for at, character in enumerate(text):
        # Control characters, halves of a pair, line and paragraph ends, and the two numbers that are no characters.
        if character in '"\ufffe\uffff' or unicodedata.category(character) in ("Cc", "Cs", "Zl", "Zp"):
            return at
    return None


def in_single_spaces(text):
    """A name as it is held: no spaces at its ends, and one for a run of them."""
    return " ".join(text.split())


def character_in_words(character):
    code = f"U+{ord(character):04X}"
    return f"{character} ({code})" if character.isprintable() and not character.isspace() else code


def place_in_words(place):
    return f"line {place.line}, column {place.column}"


def by_place(placed):
    return placed.place.line, placed.place.column


def first_mentions(text):
    """Where each name is first mentioned, in the order of the text."""
    mentions = [text.top, *text.statements, *(mention for stated in text.statements for mention in stated.inputs)]
    places = {}
    for mention in sorted(mentions, key=by_place):
        places.setdefault(mention.name, mention.place)
    return places


def arranged(text, number, rows=()):
    """The tree that a text states, with its own number where none is given.

    Its basic events without a statement stand in the order of the rows' names."""
    faults = [*statement_faults(text), *sharing_faults(text), *link_faults(text), *count_faults(text)]
    if faults:
        raise Faulty(*sorted(faults, key=by_place))
    statements = {stated.name: stated for stated in text.statements}
    order = node_order(text, statements, rows)
    numbers = {name: i for i, name in enumerate(order)}
    nodes = []
    for name in order:
        kind, inputs = (statements[name].kind, statements[name].inputs) if name in statements else (EVENT, ())
        nodes.append(Node(name, kind, tuple(numbers[mention.name] for mention in inputs)))
    tree = FaultTree(number, tuple(nodes))
    return tree._replace(number=tree.own_number()) if number is None else tree


def node_order(text, statements, rows):
    """The names: first the basic events without a statement, then each statement's after its inputs."""
    row_of = {}
    for row, name in enumerate(rows):
        row_of.setdefault(name, row)
    unstated = [name for name in first_mentions(text) if name not in statements]
    order = sorted(unstated, key=lambda name: row_of.get(name, len(rows)))
    written = set(order)
    for stated in text.statements:
        waiting = [(stated.name, False)]
        while waiting:
            name, after_inputs = waiting.pop()
            if after_inputs:
                order.append(name)
            elif name not in written:
                written.add(name)
                waiting.append((name, True))
                waiting.extend((mention.name, False) for mention in reversed(statements[name].inputs))
    return order


def node_in_words(stated):
    return f"the {'basic event' if stated.kind == EVENT else 'gate'} \"{stated.name}\""


def statement_faults(text):
    """What is wrong with a statement by itself."""
    first = {}
    for stated in text.statements:
        if stated.name in first:
            before = place_in_words(first[stated.name].place)
            yield Fault(text.file, stated.place, f'"{stated.name}" is stated twice, first at {before}',
                        "state it once, or give one of the two another name")
        first.setdefault(stated.name, stated)
        inputs = len(stated.inputs)
        if stated.kind != EVENT and inputs == 0:
            yield Fault(text.file, stated.place, f'the gate "{stated.name}" has no inputs',
                        f"a gate has 1 to {MOST_INPUTS}: name them, or make it a basic event")
        if inputs > MOST_INPUTS:
            yield Fault(text.file, stated.place, f'the gate "{stated.name}" has {inputs} inputs',
                        f"a gate has 1 to {MOST_INPUTS}: group some of them under a further gate of the same kind")


def sharing_faults(text):
    """Nodes that are an input twice."""
    first = {}
    for stated in text.statements:
        for mention in stated.inputs:
            if mention.name not in first:
                first[mention.name] = stated.name, mention.place
                continue
            gate, place = first[mention.name]
            before = place_in_words(place)
            if gate == stated.name:
                found = f'"{mention.name}" is an input of "{gate}" twice, first at {before}'
                remedy = "take one of the two out"
            else:
                found = f'"{mention.name}" is an input of "{stated.name}", and of "{gate}" at {before}'
                remedy = "draw the shared part once, as A or (B and C) for (A or B) and (A or C)"
            yield Fault(text.file, mention.place, found,
                        f"a node has one gate, since events are taken to be independent: {remedy}")


def link_faults(text):
    """Circles, a top that is an input, and nodes that are not beneath the top."""
    top, gates = text.top.name, {}
    for stated in text.statements:
        for mention in stated.inputs:
            gates.setdefault(mention.name, []).append(stated.name)
    beneath, above = reached(top, inputs_by_name(text.statements)), reached(top, gates)
    yield from circle_faults(text.file, text.statements)
    for stated in text.statements:
        for mention in stated.inputs:
            # Where the gate is beneath the top, both are in a circle.
            if mention.name == top and stated.name not in beneath:
                yield Fault(text.file, mention.place, f'the top "{top}" is an input of "{stated.name}"',
                            "the top is an input of no gate: take it out here, or name another top")
    for stated in first_by_name(text.statements).values():
        # What is beneath such a node, or above the top, is told by that fault alone.
        if stated.name not in beneath and stated.name not in gates and stated.name not in above:
            yield Fault(text.file, stated.place, f'{node_in_words(stated)} is not beneath the top "{top}"',
                        "make it an input of a gate there, or take it out")


def reached(start, steps):
    """The names that steps lead to, with the start itself."""
    found, waiting = {start}, [start]
    while waiting:
        ahead = [name for name in steps.get(waiting.pop(), ()) if name not in found]
        found.update(ahead)
        waiting.extend(ahead)
    return found


def first_by_name(statements):
    return {stated.name: stated for stated in reversed(statements)}


def inputs_by_name(statements):
    """The names of each gate's inputs; where it is stated twice, those of both."""
    inputs = {}
    for stated in statements:
        inputs.setdefault(stated.name, []).extend(mention.name for mention in stated.inputs)
    return inputs


def circle_faults(file, statements):
    """A fault at the gate of each circle that is stated first."""
    stated_first = first_by_name(statements)
    for circle in circles(inputs_by_name(statements)):
        first = min(range(len(circle)), key=lambda i: by_place(stated_first[circle[i]]))
        names = [f'"{name}"' for name in circle[first:] + circle[:first]]
        if len(names) == 1:
            found = f"the gate {names[0]} is an input of itself"
        else:
            found = f"the gates {', '.join(names)} are a circle: each has the next as an input, the last the first"
        yield Fault(file, stated_first[circle[first]].place, found,
                    "a tree has no circle: take the input out that leads back")


def circles(inputs):
    """Circles of gates, each in the order of its inputs; no two have a gate in common."""
    left, told = set(), set()
    for start in inputs:
        path, places, ahead = [], {}, []
        name = None if start in left else start
        while name is not None or path:
            if name is None:
                left.add(path[-1])
                del places[path.pop()]
                ahead.pop()
            elif name in places:
                circle = path[places[name]:]
                if told.isdisjoint(circle):
                    told.update(circle)
                    yield circle
            elif name in inputs and name not in left:
                places[name] = len(path)
                path.append(name)
                ahead.append(iter(inputs[name]))
            name = next(ahead[-1], None) if ahead else None


def count_faults(text):
    mentions = list(first_mentions(text).items())
    if len(mentions) > MOST_NODES:
        name, place = mentions[MOST_NODES]
        yield Fault(text.file, place, f'the tree has {len(mentions)} nodes, and "{name}" is number {MOST_NODES + 1}',
                    f"a tree file has at most {MOST_NODES}: draw a part of the tree as one basic event")
