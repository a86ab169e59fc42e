# The mirror of a tree file and its sheet, as two new files.
from desk.asked import TwoFiles, mirrored
from desk.build import MIRROR, up_to_date
from desk.child import Signals
from desk.commands.together import check_together
from desk.commands.told import refused
from desk.new_files import check_apart, check_new, write_all
from desk.screen import Stop, print_text

# The files of a mirror, and how each comes from the one that is mirrored.
MIRRORED = {"mirrored tree file": "AND and OR exchanged", "mirrored opinion sheet": "1 minus each probability"}


def mirror(home, words):
    if len(words) != 4:
        raise Stop(2, "nekbrod mirror takes a tree file, an opinion sheet and two new names; see nekbrod --help")
    pair, names = TwoFiles(*words[:2]), words[2:]
    for what, name in zip(MIRRORED, names):
        check_new(what, name)
    check_apart(*names)
    with Signals() as signals:
        with up_to_date(MIRROR, home, signals) as program:
            text, files = mirrored(MIRROR.title, program, pair, signals)
        signals.check()
        if files:
            check_together(pair.files())
            lines = [f"wrote {name}: the {what}, {how}" for name, (what, how) in zip(names, MIRRORED.items())]
            return write_all(zip(MIRRORED, names, files), lines, signals)
    print_text(text)
    return refused(home, pair, text)
