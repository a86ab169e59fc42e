# A fault tree in the Open-PSA Model Exchange Format, as SCRAM reads it: one fault tree of AND and OR gates over basic
# events, without figures.
import html
import itertools
import re
from xml.parsers import expat

from desk.text.fault_tree import (
    AND, EVENT, LARGEST_NUMBER, OR, Mention, Statement, TreeText, by_place, character_in_words, circle_faults,
    default_names, in_single_spaces, place_in_words, tree_number, unfit_at, vote_remedy)
from desk.text.faults import Fault, Faulty, Place

KINDS = {"and": AND, "or": OR}
REFERENCES = ("gate", "basic-event", "event")
FORMULAS = (*KINDS, *REFERENCES)
NODES = ("define-gate", "define-basic-event", *REFERENCES)
NOTES = ("label", "attributes")
# What may stand in what.
IN_TREE = ("define-gate", "define-basic-event", "define-component", *NOTES)
WITHIN = {"opsa-mef": ("define-fault-tree", "model-data", *NOTES), "model-data": ("define-basic-event",),
          "define-fault-tree": IN_TREE, "define-component": IN_TREE, "define-gate": (*FORMULAS, *NOTES),
          "define-basic-event": NOTES, "and": FORMULAS, "or": FORMULAS, "gate": (), "basic-event": (), "event": ()}
ATTRIBUTES = {"opsa-mef": ("name",), "model-data": (), "define-fault-tree": ("name",), "and": (), "or": (),
              "define-component": ("name", "role"), "define-gate": ("name", "role"), "gate": ("name",),
              "define-basic-event": ("name", "role"), "basic-event": ("name",), "event": ("name", "type")}
ENCODING = re.compile("utf-8|utf-16(le|be)?|us-ascii|iso-8859-([1-9]|1[013456])|windows-125[0-8]", re.IGNORECASE)
BYTE_ORDER_MARKS = (b"\xef\xbb\xbf", b"\xff\xfe", b"\xfe\xff")
# SCRAM's names: no dash stands at an end or beside another.
IDENTIFIER = re.compile("[A-Za-z_][A-Za-z0-9_]*(-[A-Za-z0-9_]+)*")

ONLY = "only <and> and <or> have a place in a tree file"
MOVE = "the figures of an event stand in its row of the sheet: move them there"
NO_HOUSE_EVENT = "a tree file has no house events: write the tree as it is with this one on or off"
NO_EVENT_TREE = "only a fault tree has a place in a tree file: take it out"
REMEDIES = {
    "define-house-event": NO_HOUSE_EVENT, "house-event": NO_HOUSE_EVENT,
    "constant": "a tree file has no constants: write the tree as it is with this one put in",
    "define-CCF-group": "events are taken to be independent: write the common cause as a basic event of its own",
    "define-parameter": f"{MOVE}, and take it out",
    **dict.fromkeys(("not", "xor", "nand", "nor", "cardinality", "iff", "imply"), ONLY),
    **dict.fromkeys(("define-event-tree", "define-initiating-event", "define-functional-event", "define-sequence",
                     "define-rule", "define-alignment", "define-substitution"), NO_EVENT_TREE)}


def read_open_psa(file, data):
    """What an XML file states; or its faults."""
    elements = Parser(file, data).elements
    model = Model(file, elements)
    model.take(elements[0])
    return model.tree_text()


class Element:
    """An element of an XML file, and what is found out about it."""

    def __init__(self, tag, attributes, place):
        self.tag, self.attributes, self.place = tag, attributes, place
        self.children, self.has_text = [], False
        # A name that a node can have, and the name of the gate that a formula is.
        self.name = self.gate = None

    def __str__(self):
        return f"<{self.tag}>" if self.name is None else f'<{self.tag} name="{self.name}">'

    def noted(self, name):
        """The elements among its attributes that have the name."""
        return [note for notes in self.children if notes.tag == "attributes"
                for note in notes.children if note.attributes.get("name") == name]


class Parser:
    """The elements of an XML file, in its order."""

    def __init__(self, file, data):
        self.file, self.elements, self.open = file, [], []
        self.encoding, self.mark = "utf-8", 1 if data.startswith(BYTE_ORDER_MARKS) else 0
        self.expat = expat.ParserCreate()
        self.expat.XmlDeclHandler = self.declare
        self.expat.DefaultHandler = self.refuse_doctype
        self.expat.StartElementHandler = self.start
        self.expat.EndElementHandler = lambda tag: self.open.pop()
        self.expat.CharacterDataHandler = self.take_text
        try:
            self.expat.Parse(data, True)
        except expat.ExpatError as error:
            raise Faulty(Fault(file, self.place(error.lineno, error.offset), *self.why_stopped(data, error))) from None

    def why_stopped(self, data, error):
        """Why expat stopped, and what can be done."""
        try:
            data.decode(self.encoding)
        except UnicodeDecodeError as undecoded:
            if undecoded.start == self.expat.ErrorByteIndex:
                return f"a byte is not in the encoding {self.encoding}", "save the file as UTF-8"
        return (f"the XML cannot be read: {expat.ErrorString(error.code)}",
                "correct it, or export it again from the program that it comes from")

    def place(self, line, before):
        """A byte-order mark is counted by expat, and is no character of the first line."""
        return Place(line, before + 1 - (self.mark if line == 1 else 0), None)

    def here(self):
        return self.place(self.expat.CurrentLineNumber, self.expat.CurrentColumnNumber)

    def declare(self, version, encoding, standalone):
        if encoding and not ENCODING.fullmatch(encoding):
            raise Faulty(Fault(self.file, self.here(), f'the encoding "{encoding}" is not known',
                               "save the file as UTF-8"))
        self.encoding = encoding or self.encoding

    def refuse_doctype(self, markup):
        if markup == "<!DOCTYPE":
            raise Faulty(Fault(self.file, self.here(), "the file declares a document type",
                               "take the DOCTYPE out, and write what its entities stand for in their place"))

    def start(self, tag, attributes):
        element = Element(tag, attributes, self.here())
        if self.open:
            self.open[-1].children.append(element)
        self.elements.append(element)
        self.open.append(element)

    def take_text(self, text):
        if self.open and not text.isspace():
            self.open[-1].has_text = True


class Model:
    """What an Open-PSA file defines, and its faults."""

    def __init__(self, file, elements):
        self.file, self.faults, self.number = file, [], None
        # The elements of gates and of basic events by name, and those of fault trees and of tree numbers.
        self.gates, self.events, self.trees, self.numbers = {}, {}, [], []
        # The names that a nested formula cannot have.
        self.taken = {in_single_spaces(element.attributes.get("name", "")) for element in elements
                      if element.tag in NODES}

    def tell(self, element, found, remedy):
        self.faults.append(Fault(self.file, element.place, found, remedy))

    def take(self, root):
        """All that is defined, whatever it stands in."""
        if root.tag != "opsa-mef":
            self.tell(root, f"the file begins with {root}", "an Open-PSA model begins with <opsa-mef>")
            return
        waiting = [root]
        while waiting:
            element = waiting.pop()
            if element.tag in NOTES:
                continue
            self.take_definition(element)
            # A formula is read when all names are known.
            if element.tag != "define-gate":
                waiting.extend(reversed(self.members(element)))
        if not self.trees:
            self.tell(root, "the model has no fault tree", "state it in <define-fault-tree>")

    def take_definition(self, element):
        if element.tag == "define-fault-tree":
            self.take_tree(element)
        if element.tag.startswith("define-"):
            element.name = self.name(element)
        of_kind = {"define-gate": self.gates, "define-basic-event": self.events}.get(element.tag)
        if of_kind is None or element.name is None:
            return
        before = self.gates.get(element.name) or self.events.get(element.name)
        if before:
            self.tell(element, f'"{element.name}" is defined twice, first at {place_in_words(before.place)}',
                      "define it once, or give one of the two another name")
        else:
            of_kind[element.name] = element

    def take_tree(self, element):
        if self.trees:
            self.tell(element, f"a further fault tree begins, the first at {place_in_words(self.trees[0].place)}",
                      "put all gates in one, or each tree in a file of its own")
        self.trees.append(element)
        for note in element.noted("tree-number"):
            self.take_number(note)

    def take_number(self, note):
        number = tree_number(note.attributes.get("value", "").strip())
        if number is None:
            self.tell(note, f"the tree number is not a number from 0 to {LARGEST_NUMBER}", "correct its value")
        elif self.numbers:
            self.tell(note, f"the tree number stands twice, first at {place_in_words(self.numbers[0].place)}",
                      "take one of the two out")
        self.number = number
        self.numbers.append(note)

    def members(self, element):
        """What stands in an element; what has no place there is told."""
        for attribute in element.attributes:
            if attribute not in ATTRIBUTES[element.tag] and not (
                    element.tag == "opsa-mef" and attribute.startswith(("xml", "xsi:"))):
                self.tell(element, f"{element} has the attribute {attribute}",
                          "it has no place in a tree file: take it out")
        if element.attributes.get("role", "public") not in ("public", "private"):
            self.tell(element, f"the role of {element} is neither public nor private", "write one of them, or no role")
        if element.has_text:
            self.tell(element, f"{element} has text in it", "take it out, or put it in a <label>")
        for child in element.children:
            if child.tag not in WITHIN[element.tag]:
                self.tell(child, f"{child} stands in {element}", remedy_of(child, element))
        return [child for child in element.children if child.tag in WITHIN[element.tag]]

    def name(self, element):
        """The name that an element has, or None."""
        text = element.attributes.get("name", "")
        at = unfit_at(text)
        if at is not None:
            self.tell(element, f"the name in {element} has the character {character_in_words(text[at])}",
                      "take it out: a name has no double quotes and no control characters")
            return None
        if not text.strip():
            self.tell(element, f"{element} has no name", 'give it one: name="NAME"')
        return in_single_spaces(text) or None

    def tree_text(self):
        statements = [stated for gate in self.gates.values() for stated in self.statements(gate)]
        top = None if self.faults else self.top(statements)
        if self.faults:
            raise Faulty(*sorted(self.faults, key=by_place))
        return TreeText(self.file, self.number, top, tuple(statements))

    def statements(self, gate):
        """The statement of a gate, and those of the formulas nested in it."""
        known = [member for member in self.members(gate) if member.tag not in NOTES]
        formulas = [child for child in gate.children if child.tag not in NOTES]
        if len(formulas) != 1:
            self.tell(gate, f"{gate} has {len(formulas)} formulas",
                      "give it one: <and> or <or> over its inputs, or the one input that it has")
        elif known and known[0].tag in REFERENCES:
            return [Statement(gate.name, self.single_kind(gate), tuple(self.inputs(known)), gate.place)]
        elif known:
            return [Statement(formula.gate, KINDS[formula.tag], tuple(self.inputs(self.members(formula))),
                              gate.place if formula is known[0] else formula.place)
                    for formula in self.nested_formulas(gate.name, known[0])]
        return []

    def single_kind(self, gate):
        """The kind of a gate of one input, which has no formula to say it: OR, unless it is noted."""
        kind = OR
        for note in gate.noted("gate-kind"):
            kind = KINDS.get(note.attributes.get("value"))
            if kind is None:
                self.tell(note, f"the kind of {gate} is neither and nor or", "write one of them, or take it out")
        return kind

    def nested_formulas(self, name, formula):
        """A gate's formula and those nested in it, in their order, each with the name of the gate that it is."""
        free = (f"{name}.{count}" for count in itertools.count(1) if f"{name}.{count}" not in self.taken)
        formulas, waiting = [], [formula]
        while waiting:
            element = waiting.pop()
            if element.tag in KINDS:
                element.gate = next(free) if formulas else name
                self.taken.add(element.gate)
                formulas.append(element)
                waiting.extend(reversed(element.children))
        return formulas

    def inputs(self, formulas):
        for formula in formulas:
            name = formula.gate if formula.tag in KINDS else self.referred(formula)
            if name is not None:
                yield Mention(name, formula.place)

    def referred(self, reference):
        """The name of the node that a reference is to, or None."""
        reference.name = self.name(reference)
        self.members(reference)
        kind = reference.attributes.get("type", "event") if reference.tag == "event" else reference.tag
        if kind not in REFERENCES:
            self.tell(reference, f"the type of {reference} is neither gate nor basic-event",
                      NO_HOUSE_EVENT if kind == "house-event" else "write one of them, or no type")
        elif reference.name is not None:
            name = self.defined(reference.name)
            if kind == "event" and (name in self.gates or name in self.events):
                return name
            if kind == "gate" and name in self.gates or kind == "basic-event" and name not in self.gates:
                return name
            self.tell_reference(reference, name)
        return None

    def defined(self, name):
        """The name, or its last part where that is defined and the whole is not."""
        last = name.rpartition(".")[2].strip()
        known = [part for part in (name, last) if part in self.gates or part in self.events]
        return known[0] if known else name

    def tell_reference(self, reference, name):
        if name in self.gates:
            self.tell(reference, f'{reference} names the gate "{name}"', f'write <gate name="{name}"/>')
        elif name in self.events:
            self.tell(reference, f'{reference} names the basic event "{name}"', f'write <basic-event name="{name}"/>')
        else:
            self.tell(reference, f"{reference} names nothing that is defined",
                      f'define it, or write <basic-event name="{name}"/> if it is not developed further')

    def top(self, statements):
        """The one gate that is no input, or the one basic event where there is no gate."""
        inputs = {mention.name for stated in statements for mention in stated.inputs}
        tops = [gate for gate in self.gates.values() if gate.name not in inputs]
        unused = [event for event in self.events.values() if event.name not in inputs]
        if not self.gates and len(unused) == 1:
            tops, unused = unused, []
        elif not self.gates:
            self.tell(self.trees[0], f"{self.trees[0]} has no gate", "define its gates, or one basic event alone")
        elif not tops:
            self.faults.extend(circle_faults(self.file, statements))
        for event in unused if self.gates else ():
            self.tell(event, f"{event} is an input of no gate", "make it an input of a gate, or take it out")
        if len(tops) > 1:
            names = ", ".join(f'"{gate.name}"' for gate in tops)
            self.tell(tops[1], f"the gates {names} are inputs of no gate",
                      "a tree has one top: make the others inputs of a gate beneath it, or take them out")
        return Mention(tops[0].name, tops[0].place) if tops else None


def remedy_of(child, parent):
    """What can be done about an element that has no place where it stands."""
    if parent.tag == "define-basic-event":
        return f"{MOVE}, and leave {parent} empty, or nothing here"
    if child.tag != "atleast":
        return REMEDIES.get(child.tag, "it has no place there: take it out")
    remedy = vote_remedy(child.attributes.get("min", "").strip(), len(child.children), "<or>", "<and>")
    return f"{ONLY}: {remedy}" if remedy else ONLY


def open_psa_text(tree, probabilities=None):
    """The model of a tree, with a probability as a decimal text for each event's name, or without."""
    names, labels = [node.name for node in tree.nodes], None
    if not all(IDENTIFIER.fullmatch(name) for name in names):
        names, labels = default_names(node.kind for node in tree.nodes), names
    lines = ['<?xml version="1.0" encoding="UTF-8"?>', "<opsa-mef>", f'  <define-fault-tree name="tree-{tree.number}">',
             *attribute_lines("    ", "tree-number", tree.number)]
    for place in gates_from_root(tree):
        lines += [f'    <define-gate name="{names[place]}">', *label_lines(labels, place),
                  *formula_lines(tree, names, place), "    </define-gate>"]
    lines += ["  </define-fault-tree>", "  <model-data>"]
    for place, node in enumerate(tree.nodes):
        if node.kind == EVENT:
            given = (probabilities or {}).get(node.name)
            figure = [] if given is None else [f'      <float value="{given}"/>']
            lines += [f'    <define-basic-event name="{names[place]}">', *label_lines(labels, place), *figure,
                      "    </define-basic-event>"]
    return "".join(f"{line}\n" for line in [*lines, "  </model-data>", "</opsa-mef>"])


def gates_from_root(tree):
    """The places of the gates, depth first."""
    waiting = [len(tree.nodes) - 1]
    while waiting:
        place = waiting.pop()
        if tree.nodes[place].kind != EVENT:
            yield place
            waiting.extend(reversed(tree.nodes[place].inputs))


def attribute_lines(indent, name, value):
    return [f"{indent}<attributes>", f'{indent}  <attribute name="{name}" value="{value}"/>', f"{indent}</attributes>"]


def label_lines(labels, place):
    return [f"      <label>{html.escape(labels[place], quote=False)}</label>"] if labels else []


def formula_lines(tree, names, place):
    node = tree.nodes[place]
    inputs = []
    for i in node.inputs:
        tag = "basic-event" if tree.nodes[i].kind == EVENT else "gate"
        inputs.append(f'<{tag} name="{names[i]}"/>')
    if len(inputs) == 1:
        # SCRAM takes no formula of one input, so that an AND of one is noted.
        noted = attribute_lines("      ", "gate-kind", "and") if node.kind == AND else []
        return [*noted, f"      {inputs[0]}"]
    tag = "and" if node.kind == AND else "or"
    return [f"      <{tag}>", *(f"        {reference}" for reference in inputs), f"      </{tag}>"]
