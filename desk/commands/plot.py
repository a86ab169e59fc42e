# The top event's fuzzy number as a picture.
from desk.child import Signals
from desk.commands.levels import HOUR_OPTIONS, answer, pair_at, read_answer, title_of
from desk.commands.together import check_together
from desk.commands.told import refused
from desk.new_files import check_new, write_all
from desk.screen import Stop, print_text
from desk.shown.holdings import counted
from desk.shown.plot import picture
from desk.words import options_apart


def plot(home, words):
    others, given = options_apart("plot", words, {**HOUR_OPTIONS, "-o": "FILE.svg"})
    if len(others) != 3 or "-o" not in given:
        raise Stop(2, "nekbrod plot takes a tree file, an opinion sheet, a number of levels and -o FILE.svg; "
                   "see nekbrod plot --help")
    name = given["-o"]
    check_new("picture", name)
    asked = pair_at(given, others)
    text = answer(home, asked)
    if not text.startswith(b"tree "):
        print_text(text)
        return refused(home, asked, text)
    check_together(asked.files())
    levels = read_answer(text, asked)
    drawn = picture(levels, title_of(asked)).encode()
    with Signals() as signals:
        line = f"wrote {name}: the picture of tree {levels.number}, {counted(levels.n, 'level')}"
        return write_all([("picture", name, drawn)], [line], signals)
