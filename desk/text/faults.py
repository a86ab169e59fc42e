# What is wrong with a text: its file, the place, what was found there, and what can be done.
import collections

# Lines and columns are counted from 1, columns in characters; a spreadsheet's cell has its name beside them, as B3.
Place = collections.namedtuple("Place", "line column cell")


class Fault(collections.namedtuple("Fault", "file place found remedy")):
    def sentence(self):
        line, column, cell = self.place
        where = f"{self.file}, line {line}, column {column}" + (f" (cell {cell})" if cell else "")
        return f"{where}: {self.found}; {self.remedy}"


class Faulty(Exception):
    """A text with one fault or more, in the order of their places."""

    def __init__(self, *faults):
        super().__init__(*faults)
        self.faults = faults
