# The help texts: of the command, and of each of its words.

COMMAND = """\
nekbrod: a fault tree with experts' opinions and makers' figures, answered by proved programs

  ./nekbrod                             the shipped example examples/fuel_supply, 10 levels
  ./nekbrod levels TREE SHEET LEVELS    the probability of the top event at each level from LEVELS down to 0
  ./nekbrod TREE SHEET LEVELS           the same
  ./nekbrod levels --windows BOOK --hour H TREE SHEET LEVELS
                                        the same at hour H, with what a book of work windows has out of service then
  ./nekbrod nodes TREE SHEET K N        every node at level K of N
  ./nekbrod plot TREE SHEET LEVELS -o FILE.svg
                                        the levels as a picture
  ./nekbrod cut-sets TREE               the minimal cut sets of a tree file
  ./nekbrod mirror TREE SHEET OUT_TREE OUT_SHEET
                                        what must work: the mirror of a tree file and its sheet, as two new files
  ./nekbrod write TREE.dft SHEET.csv -o FOLDER
                                        a tree's text and a spreadsheet as files for all of these
  ./nekbrod show FILE                   a tree file, a sheet or a book as text
  ./nekbrod check FILE...               whether files are accepted, and what they hold
  ./nekbrod WORD --help                 more about one of these words
  ./nekbrod --help                      this text
  ./nekbrod --version                   the version

The first run of each kind proves and builds its program with the toolchain's command rt; that takes minutes,
and tells its progress on standard error. Later runs ask rt what has changed, and start at once where nothing has.
Where rt is not on the path, or target/ or a crate's out/ cannot be written, what is built is run, and a line says so.
Nothing has to be built for write.

A file that breaks a rule is refused: standard output has one line, 'refused R at P' or 'input', and standard error
says which rule is broken, in which file and where, and what stands there. Records, links, entries, experts and
windows are counted from 0. docs/REFUSALS.md has the rules, docs/FORMATS.md the files, docs/GUIDE.md a first day.

Where names.txt lies beside a tree file and beside its sheet or book, the names are compared. Files of different trees,
or of different orders of the basic events, are not answered; standard error says what differs. A line there tells of a
names.txt that is not for the file beside it, so that nothing can be compared.

Exit status: 0 all that was asked for was printed or written; 1 a file, a text or a level was refused; 2 bad
arguments, such as a new file that exists; 3 a program could not be built or run, or its text or files not be
written; 4 the cut sets were counted, and are too many to be listed; 5 the names say that files are of different trees
or orders; 128 + n ended by the signal n (INT, TERM, HUP or QUIT), with all that it had started.
"""

LEVELS = """\
nekbrod levels TREE SHEET LEVELS [--csv]
nekbrod levels --windows BOOK --hour H TREE SHEET LEVELS [--csv]
nekbrod TREE SHEET LEVELS

All levels of a tree file, an opinion sheet, and a number of levels from 1 to 1000. Standard output has a header, and
then a line for each level k from LEVELS down to 0:
  k, lower end, its mark, upper end, its mark
The ends enclose the probability of the top event, in billionths. An end marked = is exact; one marked ~ is
rounded outward. On a terminal it is a table instead, with probabilities from 0 to 1 and the width of each interval.
--csv prints a header and a row a level, with the words exact and outward for the marks.

A book has up to 256 work windows, each a basic event, a first hour and an end hour. Hours are counted since
commissioning; H is a number from 0 to 4294967295. A window is open at H if its first hour is not after H and its end
hour is after H. Each event in an open window is counted as failed with certainty, all else as the sheet has it.
"""

NODES = """\
nekbrod nodes TREE SHEET K N [--csv]

Every node of a tree file at level K of N, from 0 to N, N from 1 to 1000: its number, its name where names.txt beside
the tree file has it, its kind, the ends of its interval with their marks (= exact, ~ rounded outward), and the
interval's width. The last node is the root. A table, or CSV with the words exact and outward for the marks.
"""

PLOT = """\
nekbrod plot [--windows BOOK --hour H] TREE SHEET LEVELS -o FILE.svg

The top event's fuzzy number as a picture, an outer staircase: from level k up to the next one the band is the
interval of level k, so that the true one lies inside it. Exact ends have a dot. The scale is logarithmic where the
band spans a decade or more. FILE.svg is a new file; any browser shows it.
"""

CUT_SETS = """\
nekbrod cut-sets TREE [--numbers]

The header has the number of minimal cut sets, and each line after it is one: its basic events, by their names in
quotes where names.txt beside the tree file has them, else (or with --numbers) by their numbers, rising. If all of
these fail, the top event fails; fewer of them do not suffice. The tree may have up to 64 basic events. More than
100000 sets are counted, and not listed. The order of the lines is left free.
"""

MIRROR = """\
nekbrod mirror TREE SHEET OUT_TREE OUT_SHEET

The mirror has AND and OR exchanged, and 1 minus each event's probability. The top probability of the two new files is
that of the main engine working: at every level its lower end is 1 minus the upper end of TREE and SHEET, its upper end
1 minus their lower end, each with the mark of the end that it comes from. Mirroring twice gives the tree file's bytes
and every interval back; an entry of opinions comes back as fractions. OUT_TREE and OUT_SHEET are made, and nothing
that exists is overwritten. Standard output has a line for each. Unless both are whole, neither is left.
"""

WRITE = """\
nekbrod write TREE.dft SHEET.csv [WINDOWS.csv] -o FOLDER [--number N] [--order rows|mention]

Writes FOLDER/tree.ftf, sheet.fts, names.txt and, of a book, windows.ftw. FOLDER may be new; no file that exists is
overwritten, and unless all are whole none is left.

TREE.dft is a fault tree as Galileo text (toplevel "T"; "T" and "A" "B";) or as Open-PSA MEF. SHEET.csv is a
spreadsheet with a row for each basic event: its name, and then four figures, three (low, likely, high) or one, or
failures/starts, or a term from each expert, Very Low (VL) to Very High (VH), empty for silence. The experts' names and
scores are the first two rows. WINDOWS.csv has an event, a first hour and an end hour in each row. docs/FORMATS.md has
all of it. What is wrong is told with file, line, column and what can be done; nothing is rounded or left out unseen.

The basic events are numbered in the order of the sheet's rows, or with --order mention in that of their first mention
in the tree's text; one with a statement of its own in it keeps that place.

The tree's number ties a sheet to its tree: N, or what the tree's text says. Where neither says one, it comes from the
tree itself: its gates, its events' names in their order and the top event's name. So a sheet whose rows were put in
another order, or that of another system, is refused by 24. Where a number is said, names.txt alone tells them apart.
"""

SHOW = """\
nekbrod show FILE [--open-psa]

A tree file as Galileo text, or as Open-PSA MEF; an opinion sheet or a book of work windows as CSV. The names are those
of names.txt beside the file, where they are for it; else basic events are e0, e1, .., gates g with their node's number,
and experts E1, E2, .. . Writing the Galileo text and the CSV of a pair again gives the same bytes; it has no tree
number where that comes from the tree itself. Open-PSA has the same tree; names that are no identifiers stand in its
labels.
"""

CHECK = """\
nekbrod check FILE...

For each tree file, opinion sheet and book of work windows a line: what it holds, or the rule that it breaks, with the
place and what stands there. The proved level printer judges them. A tree file and a sheet alone are also judged as a
pair; a book is judged with its tree file, which must be named too. Where all are accepted, the names beside them are
compared, and the status is 5 where these say that files are of different trees or orders.
"""

WORDS = {"levels": LEVELS, "nodes": NODES, "plot": PLOT, "cut-sets": CUT_SETS, "mirror": MIRROR, "write": WRITE,
         "show": SHOW, "check": CHECK}
