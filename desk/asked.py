# What is put to a program, a pair of files, with a level, a number of levels or neither, with a book and an hour or
# without, a tree file alone, or a file to be judged by itself, and what the program prints.
import os
import re
import subprocess
import tempfile

from desk.child import Child, status_in_words
from desk.screen import Stop

# The largest number of the input's fields, which have 16 bits, and of its hour, which has 32.
LARGEST = 65535
LAST_HOUR = 4294967295

# The most sets that the cut set printer lists.
MOST_SETS = 100000

# The tree file of one basic event, with the tree number 0.
ONE_EVENT = b"FTF\1\0\0\0\1\0\0\0\0\0\0"


class TwoFiles:
    """A tree file and an opinion sheet, for the mirror program."""

    levels = hour = level = None

    # What the input has before its lengths, and between them and its files.
    levels_field = hour_field = b""

    def __init__(self, tree_name, sheet_name):
        self.tree_name, self.tree = tree_name, read_file("tree file", tree_name)
        self.sheet_name, self.sheet = sheet_name, read_file("opinion sheet", sheet_name)

    def files(self):
        return [("tree file", self.tree_name, self.tree), ("opinion sheet", self.sheet_name, self.sheet)]

    def parts(self):
        """The bytes of the files that the program gets."""
        return [data for _, _, data in self.files()]

    def program_input(self):
        files = self.parts()
        lengths = b"".join(len(data).to_bytes(2, "little") for data in files)
        return self.levels_field + lengths + self.hour_field + b"".join(files)


class Pair(TwoFiles):
    """The two files with a number of levels, for the level printer."""

    def __init__(self, tree_name, sheet_name, levels_word):
        self.levels = read_number("number of levels", levels_word, LARGEST)
        self.levels_field = self.levels.to_bytes(2, "little")
        super().__init__(tree_name, sheet_name)


class HourPair(Pair):
    """A pair with a book of work windows and an hour, for the hour printer."""

    def __init__(self, book_name, hour_word, *pair):
        self.hour = read_number("hour", hour_word, LAST_HOUR)
        self.hour_field = self.hour.to_bytes(4, "little")
        super().__init__(*pair)
        self.book_name, self.book = book_name, read_file("book", book_name)

    def files(self):
        return [*super().files(), ("book", self.book_name, self.book)]


class LevelPair(TwoFiles):
    """The two files with a level k of n, for the node printer."""

    def __init__(self, tree_name, sheet_name, k_word, n_word):
        self.level = read_number("level", k_word, LARGEST), read_number("number of levels", n_word, LARGEST)
        self.levels_field = b"".join(number.to_bytes(2, "little") for number in self.level)
        super().__init__(tree_name, sheet_name)


class LoneFile(TwoFiles):
    """A tree file or a sheet by itself, for the level printer: an accepted file stands in for the other one, so that
    every refusal but 24 is its own."""

    levels, levels_field = 1, b"\1\0"

    def __init__(self, what, name, data):
        self.what, self.name, self.data = what, name, data

    def files(self):
        return [(self.what, self.name, self.data)]

    def parts(self):
        if self.what == "tree file":
            return [self.data, zero_sheet(b"\0\0", 1)]
        return [ONE_EVENT, self.data]


class LoneBook(HourPair):
    """A book with an accepted tree file, for the hour printer: a sheet of zeros stands in for the tree's own."""

    levels, levels_field = 1, b"\1\0"
    hour, hour_field = 0, bytes(4)

    def __init__(self, name, data, tree_name, tree):
        self.book_name, self.book, self.tree_name, self.tree = name, data, tree_name, tree
        events = sum(tree[at] == 0 for at in range(9, 9 + 5 * int.from_bytes(tree[7:9], "little"), 5))
        self.sheet_name, self.sheet = "", zero_sheet(tree[5:7], events)

    def parts(self):
        return [self.tree, self.sheet, self.book]


class TreeFile:
    """A tree file alone, for the cut set printer."""

    levels = level = None

    def __init__(self, name):
        self.name, self.tree = name, read_file("tree file", name)

    def files(self):
        return [("tree file", self.name, self.tree)]

    def program_input(self):
        return self.tree


def zero_sheet(number, events):
    """The sheet of a tree number, as its two bytes, in which each of so many events has four zeros."""
    return b"FTS\1\0" + number + events.to_bytes(2, "little") + bytes(17 + 17 * events)


def read_number(what, word, largest):
    """A number from 0 to the largest that its field can have; the program judges it."""
    if not re.fullmatch("[0-9]+", word):
        raise Stop(2, f"the {what} is a number, not '{word}'")
    digits = word.lstrip("0") or "0"
    if len(digits) > len(str(largest)) or int(digits) > largest:
        raise Stop(2, f"the {what} is at most {largest}, not {word}")
    return int(digits)


def read_file(what, name, longest=LARGEST):
    """The bytes of a file of at most so many, 65,535 where the program's input is to say its length."""
    if not os.path.exists(name):
        raise Stop(2, f"there is no {what} {name}")
    if not os.path.isfile(name):
        raise Stop(2, f"the {what} {name} is not a file")
    try:
        with open(name, "rb") as file:
            data = file.read(longest + 1)
    except OSError as error:
        raise Stop(2, f"the {what} {name} cannot be read: {error.strerror}") from None
    if len(data) > longest:
        raise Stop(2, f"the {what} {name} is longer than {longest} bytes")
    return data


def run(title, program, asked, signals, **more):
    """What a program prints."""
    text = b""
    try:
        with tempfile.TemporaryFile() as given:
            given.write(asked.program_input())
            given.seek(0)
            with Child(signals, [program], stdin=given, **more) as child:
                piece = child.read()
                while piece:
                    text += piece
                    piece = child.read()
                status = child.status()
    except OSError as error:
        raise Stop(3, f"{title} could not be run: {error}") from None
    if status != 0:
        raise Stop(3, f"{title} {status_in_words(status)}")
    return text


def printed_text(title, what, program, asked, signals):
    """The text of the level, the hour or the node printer: levels or nodes, or one line of a refusal."""
    text = run(title, program, asked, signals)
    if not text.startswith((b"tree ", b"refused ", b"input")):
        raise Stop(3, f"{title} gave neither {what} nor a refusal")
    return text


def sets_text(program, tree_file, signals):
    """The cut set printer's text, sets or one line of a refusal, and their count where they are not listed."""
    # What it says on standard error is said by the command, in its own words.
    text = run("the cut set printer", program, tree_file, signals, stderr=subprocess.DEVNULL)
    if text.startswith(b"refused "):
        return text, None
    header, _, lines = text.partition(b"\n")
    matched = re.fullmatch(rb"tree [0-9]+ events [0-9]+ cut sets ([0-9]+)", header)
    if not matched:
        raise Stop(3, "the cut set printer gave neither cut sets nor a refusal")
    count, listed = int(matched.group(1)), lines.count(b"\n")
    if count > MOST_SETS and not lines:
        return text, count
    if listed != count or not text.endswith(b"\n"):
        raise Stop(3, f"the cut set printer counted {count} sets and listed {listed}")
    return text, None


def mirrored(title, program, pair, signals):
    """The mirror program's text, and its two files, or None where it is one line of a refusal."""
    text = run(title, program, pair, signals)
    if text.startswith((b"refused ", b"input")):
        return text, None
    tree, sheet = text[:len(pair.tree)], text[len(pair.tree):]
    if len(sheet) != len(pair.sheet) or (tree[:3], sheet[:3]) != (b"FTF", b"FTS"):
        raise Stop(3, f"{title} gave neither two files of the lengths given nor a refusal")
    return text, (tree, sheet)
