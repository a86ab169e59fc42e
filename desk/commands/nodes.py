# Every node of a tree at one level, with its name and kind: a table, or CSV.
from desk.asked import LevelPair, printed_text
from desk.build import NODES, up_to_date
from desk.child import Signals
from desk.commands.together import check_together
from desk.commands.told import names_for, refused
from desk.screen import Stop, print_text
from desk.shown.printed import read_nodes
from desk.shown.tables import Shown, nodes_csv, nodes_table
from desk.text.fault_tree import AND, EVENT, OR, held_tree
from desk.words import options_apart

KIND_WORDS = {EVENT: "basic event", AND: "AND", OR: "OR"}


def nodes(home, words):
    others, given = options_apart("nodes", words, {"--csv": None})
    if len(others) != 4:
        raise Stop(2, "nekbrod nodes takes a tree file, an opinion sheet, a level K and a number of levels N; "
                   "see nekbrod nodes --help")
    asked = LevelPair(*others)
    with Signals() as signals:
        with up_to_date(NODES, home, signals) as program:
            text = printed_text(NODES.title, "nodes", program, asked, signals)
        signals.check()
    if not text.startswith(b"tree "):
        print_text(text)
        return refused(home, asked, text)
    check_together(asked.files())
    printed, tree = read_nodes(text), held_tree(asked.tree)
    if (printed.number, printed.k, printed.n, len(printed.ends)) != (tree.number, *asked.level, len(tree.nodes)):
        raise Stop(3, f"{NODES.title} answered another question")
    shown = shown_nodes(asked, tree, printed.ends)
    title = f"tree {printed.number}, level {printed.k} of {printed.n}"
    print_text((nodes_csv(shown) if "--csv" in given else nodes_table(shown, title)).encode())
    return 0


def shown_nodes(asked, tree, ends):
    """Each node with its number, its name where it has one, its kind and its ends."""
    names = names_for("tree", asked.tree_name, asked.tree)
    kinds = [KIND_WORDS[node.kind] for node in tree.nodes]
    named = names.all_nodes() if names else [""] * len(kinds)
    return [Shown(i, name, kind, *both) for i, (name, kind, both) in enumerate(zip(named, kinds, ends))]
