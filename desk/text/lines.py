# The characters of a text file, and the places where they stand.
import bisect
import codecs
import re

from desk.text.faults import Fault, Faulty, Place

LINE_END = "\r\n|\r|\n"


class Lines:
    """Where each line of a text begins."""

    def __init__(self, text):
        self.starts = [0] + [match.end() for match in re.finditer(LINE_END, text)]

    def place(self, at, cell=None):
        line = bisect.bisect_right(self.starts, at)
        return Place(line, at - self.starts[line - 1] + 1, cell)


def decoded(file, data, save_as):
    """The text of a file in UTF-8, with a byte-order mark or without; or the place of the first byte that is not."""
    if data.startswith((codecs.BOM_UTF16_LE, codecs.BOM_UTF16_BE)):
        raise Faulty(Fault(file, Place(1, 1, None), "the file is in UTF-16", save_as))
    if data.startswith(codecs.BOM_UTF8):
        data = data[len(codecs.BOM_UTF8):]
    try:
        return data.decode("utf-8")
    except UnicodeDecodeError as error:
        before = data[:error.start].decode("utf-8")
        found = f"the byte {data[error.start]:02X} is not UTF-8"
        raise Faulty(Fault(file, Lines(before).place(len(before)), found, save_as)) from None
