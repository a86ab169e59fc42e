# A fault tree as Galileo text, as Storm and DFTCalc read it: statements of a top, of gates over their inputs and,
# beyond their grammar, of basic events at their place in the order.
import collections
import re

from desk.text.fault_tree import (
    AND, EVENT, LARGEST_NUMBER, OR, UPPER_HOLDS, Mention, Statement, TreeText, by_place, character_in_words,
    in_single_spaces, place_in_words, tree_number, unfit_at, vote_remedy)
from desk.text.faults import Fault, Faulty, Place
from desk.text.lines import Lines

PIECE = re.compile(r"""(?P<space>\s+)
    | (?P<line_comment>//[^\r\n]*)
    | (?P<comment>/\*.*?\*/)
    | (?P<open_comment>/\*.*)
    | "(?P<name>[^"\r\n]*)"
    | (?P<open_name>"[^\r\n]*)
    | (?P<end>;)
    | (?P<word>(?:(?!//|/\*)[^\s";])+)""", re.VERBOSE | re.DOTALL)
NUMBER_COMMENT = re.compile(r"nekbrod:\s*tree\s+number\s+([0-9]+)", re.IGNORECASE)
FIGURE = re.compile(r"(\w+)=")
NAME_CHARACTER, KIND_CHARACTER = re.compile(r"[\w.-]"), re.compile(r"[\w.<>=-]")
VOTES = re.compile("([0-9]+)of([0-9]+)|vot([0-9]+)")
KINDS = {"and": AND, "or": OR}
RESERVED = ("toplevel", *KINDS)
ONLY = "only and and or have a place in a tree file"
MOVE = "the figures of an event stand in its row of the sheet: move them there"

# A name or a word; the place of a name is that of its quote.
Token = collections.namedtuple("Token", "text place quoted")


def read_galileo(file, text):
    """What a text states; or all its faults, one for each statement."""
    reader = Reader(file)
    for kind, piece, place in pieces(text[1:] if text.startswith("\ufeff") else text):
        reader.take(kind, piece, place)
    return reader.tree_text()


def galileo_text(tree):
    """The text that states a tree: read again, with its basic events as rows, it gives the same file.

    A number of the tree's own is left out, so that it does not outlive a change of the text or of the rows."""
    kinds = [node.kind for node in tree.nodes]
    names = [f'"{node.name}"' for node in tree.nodes]
    events_first = EVENT not in kinds[len(tree.events()):]
    lines = [] if tree.number == tree.own_number() else [f"// nekbrod: tree number {tree.number}"]
    lines.append(f"toplevel {names[-1]};")
    for name, node in zip(names, tree.nodes):
        if node.kind != EVENT:
            inputs = " ".join(names[i] for i in node.inputs)
            lines.append(f"{name} {'and' if node.kind == AND else 'or'} {inputs};")
        elif not events_first:
            lines.append(f"{name};")
    return "".join(f"{line}\n" for line in lines)


def pieces(text):
    """The names, words, statement ends and comments of a text, each with its kind and place."""
    lines = Lines(text)
    for piece in PIECE.finditer(text):
        yield piece.lastgroup, piece.group(piece.lastgroup), lines.place(piece.start())


def keyword(token):
    """The word of a token in small letters; '' where it stands in quotes, and so is a name."""
    return "" if token.quoted else token.text.lower()


class Reader:
    """What a text has stated so far, its faults, and the tokens of the statement that is not ended."""

    def __init__(self, file):
        self.file, self.faults, self.tokens = file, [], []
        self.number, self.top, self.statements = None, None, []
        # Where the tree number and toplevel stand first.
        self.number_place = self.top_place = None

    def tell(self, place, found, remedy):
        self.faults.append(Fault(self.file, place, found, remedy))

    def refuse(self, place, found, remedy):
        """Ends the reading of a statement."""
        raise Faulty(Fault(self.file, place, found, remedy))

    def take(self, kind, piece, place):
        if kind in ("name", "word"):
            self.tokens.append(Token(piece, place, kind == "name"))
        elif kind == "end":
            self.end_statement()
        elif kind == "open_name":
            self.drop_statement()
            self.tell(place, "a quote does not end in its line", 'end the name with "')
        elif kind == "open_comment":
            self.drop_statement()
            self.tell(place, "a comment does not end", "end it with */")
        elif kind != "space":
            self.take_comment(kind, piece.strip("/*").strip(), place)

    def tree_text(self):
        if self.tokens:
            self.tell(self.tokens[0].place, "the file ends within the statement that begins here", "end it with ;")
            self.drop_statement()
        if self.top_place is None:
            self.tell(Place(1, 1, None), "the file has no toplevel",
                      'name the top in a statement of its own: toplevel "NAME";')
        if self.faults:
            raise Faulty(*sorted(self.faults, key=by_place))
        return TreeText(self.file, self.number, self.top, tuple(self.statements))

    def take_comment(self, kind, comment, place):
        """A comment is passed over, unless it is for this reader."""
        if not comment.lower().startswith("nekbrod:"):
            return
        matched = NUMBER_COMMENT.fullmatch(comment)
        if kind != "line_comment" or not matched:
            self.tell(place, "a comment begins with nekbrod: and is not the line of the tree number",
                      "write // nekbrod: tree number 3, or begin it with another word")
        elif tree_number(matched.group(1)) is None:
            self.tell(place, f"the tree number is above {LARGEST_NUMBER}", f"a tree number is 0 to {LARGEST_NUMBER}")
        elif self.number_place:
            self.tell(place, f"the tree number stands twice, first at {place_in_words(self.number_place)}",
                      "take one of the two out")
        else:
            self.number, self.number_place = tree_number(matched.group(1)), place

    def drop_statement(self):
        """Gives up the statement; a toplevel in it has been seen."""
        if self.tokens and keyword(self.tokens[0]) == "toplevel":
            self.top_place = self.top_place or self.tokens[0].place
        self.tokens = []

    def end_statement(self):
        tokens, self.tokens = self.tokens, []
        try:
            if tokens:
                self.take_statement(tokens[0], tokens[1:])
        except Faulty as faulty:
            self.faults.extend(faulty.faults)

    def take_statement(self, first, rest):
        if keyword(first) == "toplevel":
            self.take_top(first.place, rest)
        elif keyword(first) == "param":
            self.refuse(first.place, "param names a figure", f"{MOVE}, and take the statement out")
        else:
            name = self.name(first)
            kind, inputs = self.gate(name, rest) if rest else (EVENT, ())
            self.statements.append(Statement(name, kind, inputs, first.place))

    def take_top(self, place, names):
        before, self.top_place = self.top_place, self.top_place or place
        if before:
            self.refuse(place, f"toplevel stands twice, first at {place_in_words(before)}", "name one top")
        if not names:
            self.refuse(place, "toplevel has no name", 'write toplevel "NAME";')
        self.top = Mention(self.name(names[0]), names[0].place)
        if names[1:]:
            self.refuse(names[1].place, "toplevel has more than one name",
                        "name one top, and end each statement with ;")

    def gate(self, name, tokens):
        """The kind and the inputs of a gate."""
        first, rest = tokens[0], tokens[1:]
        if first.quoted:
            self.refuse(first.place, f'a name stands where the kind of the gate "{name}" is due',
                        "write and or or before its inputs, and end each statement with ;")
        # An equals sign may stand apart from its figure.
        figure = FIGURE.match(first.text + (keyword(rest[0])[:1] if rest else ""))
        if figure:
            self.refuse(first.place, f'the event "{name}" has the figure {figure.group(1)}', leave(name))
        kind = keyword(first)
        if kind not in KINDS:
            self.refuse_characters(first, KIND_CHARACTER, "take it out")
            self.refuse(first.place, f'the gate "{name}" is of the kind {first.text}',
                        leave(name) if kind == "be" else other_kind(kind, len(rest)))
        return KINDS[kind], tuple(Mention(self.name(token), token.place) for token in rest)

    def name(self, token):
        """The name that a token is."""
        if token.quoted:
            at = unfit_at(token.text)
            if at is not None:
                self.refuse(token.place._replace(column=token.place.column + 1 + at),
                            f"a name has the character {character_in_words(token.text[at])}",
                            "take it out: a name has no control characters")
        else:
            self.refuse_word(token)
        name = in_single_spaces(token.text)
        if not name:
            self.refuse(token.place, "a name is empty", "write the name between the quotes")
        return name

    def refuse_word(self, token):
        """A word that is no name."""
        figure = FIGURE.match(token.text)
        if keyword(token) in RESERVED:
            self.refuse(token.place, f"the word {token.text} stands where a name is due",
                        "end each statement with ;, or put the word in quotes if it is a name")
        if figure:
            self.refuse(token.place, f"the figure {figure.group(1)} stands where a name is due", MOVE)
        self.refuse_characters(token, NAME_CHARACTER, "put a name that has it in quotes, or take it out")

    def refuse_characters(self, token, expected, remedy):
        for at, character in enumerate(token.text):
            if not expected.match(character):
                self.refuse(token.place._replace(column=token.place.column + at),
                            f"the character {character_in_words(character)} is not expected here", remedy)


def leave(name):
    return f'{MOVE}, and leave "{name}"; or nothing here'


def other_kind(kind, inputs):
    """What can be done about a gate that is neither and nor or."""
    votes = VOTES.fullmatch(kind)
    if votes:
        least, total = (votes.group(1) or votes.group(3)).lstrip("0"), (votes.group(2) or str(inputs)).lstrip("0")
        # A vote of more or fewer inputs than are named is a mistake.
        remedy = vote_remedy(least, inputs, "or", "and") if total == str(inputs) or least == "1" else ""
        return f"{ONLY}: {remedy}" if remedy else ONLY
    if kind.startswith("pand"):
        return f"{ONLY}: with and in its place, which leaves the order out, {UPPER_HOLDS}"
    return ONLY
