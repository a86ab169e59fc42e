# Whether files are of one tree, with its basic events in one order, by the names beside them.
import itertools

from desk.commands.told import WORDS
from desk.screen import Stop, say
from desk.text.names import difference, names_beside, names_path

# The exit status where they are not.
APART = 5


def check_together(files):
    """Ends the command where names say that two accepted files are of different trees or orders of the basic events.

    Each file is given by what it is, its name and its bytes. A line tells of names that are not for the file beside
    them: whether it belongs to one that has names is not known."""
    found = [(name, *names_beside(WORDS[what], name, data)) for what, name, data in files]
    named = [(name, names) for name, names, _ in found if names]
    for (one, names), (other, others) in itertools.combinations(named, 2):
        # Checksums do not end the question: of one number, the trees of two systems may be alike in every byte.
        differing = difference(names, others)
        if differing:
            raise Stop(APART, apart(one, other, *differing))
    for name, _, why_none in found:
        if named and why_none:
            say(f"{why_none}: whether {name} and {named[0][0]} are of one tree and order is not known")


def apart(one, other, thing, first, second):
    return (f"{one} and {other} are of different trees, or of different orders of the basic events: {thing} is {first} "
            f"by {names_path(one)} and {second} by {names_path(other)}; take files that were written together, or "
            "write them again")
