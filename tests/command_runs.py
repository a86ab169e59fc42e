# What the tests of the command share: its runs, counted checks, files byte by byte, and copies of the command, where a
# stand-in for rt is on the path.
import hashlib
import os
import pty
import re
import shutil
import signal
import subprocess
import sys
import time

import counted

ROOT = os.path.dirname(os.path.dirname(os.path.realpath(__file__)))
LEVELS = os.path.join(ROOT, "crates/levels/out/levels")
HOUR_LEVELS = os.path.join(ROOT, "crates/hour_levels/out/hour_levels")
CUT_SETS = os.path.join(ROOT, "crates/cut_set_lines/out/cut_set_lines")
MIRROR = os.path.join(ROOT, "crates/mirror_files/out/mirror_files")
NODES = os.path.join(ROOT, "crates/node_lines/out/node_lines")
PROGRAMS = {"levels": LEVELS, "hour_levels": HOUR_LEVELS, "cut_set_lines": CUT_SETS, "mirror_files": MIRROR,
            "node_lines": NODES}
ROAD = [os.path.join(ROOT, "examples/road_trip", name) for name in ("tree.ftf", "sheet.fts")]
FUEL = [os.path.join(ROOT, "examples/fuel_supply", name) for name in ("tree.ftf", "sheet.fts")]
PUMPS = [os.path.join(ROOT, "examples/cooling_pumps", name) for name in ("tree.ftf", "sheet.fts")]
PLAN = os.path.join(ROOT, "examples/cooling_pumps/windows.ftw")
LAST_HOUR = 4294967295
UNIT = 1000000000
NOBODY = 65534
# A run that takes longer than this hangs.
LONGEST = 30

skipped = []


def read(name):
    with open(name, "rb") as file:
        return file.read()


def write(name, data):
    os.makedirs(os.path.dirname(name), exist_ok=True)
    with open(name, "wb") as file:
        file.write(data if isinstance(data, bytes) else data.encode())
    return name


ROAD_LEVELS = read(os.path.join(ROOT, "examples/road_trip/levels-2.txt"))
FUEL_LEVELS = read(os.path.join(ROOT, "examples/fuel_supply/levels-10.txt"))


class Run:
    """A run that has ended: its status, its output, its errors as text."""

    def __init__(self, status, out, errors):
        self.status, self.out, self.errors = status, out, errors.decode("utf-8", "surrogateescape")
        self.lines = self.errors.splitlines()


def hold(name, right, run=None):
    """Counts a check, and shows the run where the check fails."""
    shown = []
    if run and not right:
        shown = [f"status {run.status}", *(f"out: {line}" for line in run.out.decode("latin-1").splitlines()[:5]),
                 *(f"err: {line}" for line in run.lines[:8])]
    counted.hold(name, right, *shown)


def usual_signals():
    for number in (signal.SIGINT, signal.SIGTERM, signal.SIGHUP, signal.SIGQUIT):
        signal.signal(number, signal.SIG_DFL)


def become_nobody():
    usual_signals()
    os.setgroups([])
    os.setgid(NOBODY)
    os.setuid(NOBODY)


def nobody_runs(python):
    try:
        tried = subprocess.run([python, "-c", ""], preexec_fn=become_nobody, cwd="/", stderr=subprocess.DEVNULL)
        return tried.returncode == 0
    except OSError:
        return False


# Root may read and write everything, so that as root some checks are nobody's, where nobody has a python3 to run.
IS_ROOT = os.getuid() == 0
PYTHONS = [os.path.realpath(sys.executable), "/usr/bin/python3"]
FOR_NOBODY = [python for python in PYTHONS if IS_ROOT and nobody_runs(python)]
PYTHON = (FOR_NOBODY or PYTHONS)[0]
CAN_BE_SHUT_OUT = not IS_ROOT or bool(FOR_NOBODY)
SHUT_OUT = {"preexec_fn": become_nobody} if IS_ROOT else {}


def start(words, **more):
    more = {"stdout": subprocess.PIPE, "stderr": subprocess.PIPE, "stdin": subprocess.DEVNULL,
            "preexec_fn": usual_signals, **more}
    return subprocess.Popen(words, **more)


def ended(process):
    try:
        out, errors = process.communicate(timeout=LONGEST)
    except subprocess.TimeoutExpired:
        process.kill()
        out, errors = process.communicate()
        errors = (errors or b"") + b"\nit did not end\n"
    return Run(process.returncode, out or b"", errors or b"")


def run(words, **more):
    return ended(start(words, **more))


def until(condition):
    """Waits for a condition, and answers whether it came."""
    began = time.monotonic()
    while not condition():
        if time.monotonic() - began > LONGEST:
            return False
        time.sleep(0.02)
    return True


def printed(name, ran, text):
    hold(f"{name}: status", ran.status == 0, ran)
    hold(f"{name}: levels", ran.out == text, ran)


def stopped(name, ran, status, words):
    """Nothing printed, and one line of errors that has the words."""
    hold(f"{name}: status", ran.status == status, ran)
    hold(f"{name}: nothing printed", ran.out == b"", ran)
    hold(f"{name}: one line of errors", len(ran.lines) == 1, ran)
    hold(f"{name}: what is wrong", re.search(words, ran.errors, re.M), ran)


def last_of(ran, lines=1):
    """The run without what is said while it builds: its last lines alone."""
    kept = ran.lines[len(ran.lines) - lines:]
    return Run(ran.status, ran.out, "".join(line + "\n" for line in kept).encode("utf-8", "surrogateescape"))


def table_rows():
    """The cells of the page of refusals, by number."""
    rows = {}
    for line in read(os.path.join(ROOT, "docs/REFUSALS.md")).decode().splitlines():
        matched = re.match(r"\| ([0-9]+) \|", line)
        if matched:
            cells = [cell.strip() for cell in line.replace("`", "").split("|")[2:-1]]
            rows.setdefault(int(matched.group(1)), []).append(cells)
    return rows


def two(number):
    return number.to_bytes(2, "little")


def tree(records, links, number=7, count=None, version=1, letters=b"FTF"):
    """A tree file: records are kind, a and b."""
    count = len(records) if count is None else count
    return letters + two(version) + two(number) + two(count) + b"".join(
        bytes([kind]) + two(a) + two(b) for kind, a, b in records) + b"".join(two(link) for link in links)


def sheet(entries, scores=(), number=7, count=None, experts=None, version=1, letters=b"FTS", after=b""):
    """An opinion sheet: entries are four numbers, or a kind and sixteen bytes."""
    count = len(entries) if count is None else count
    experts = len(scores) if experts is None else experts
    all_scores = bytes(scores) + bytes(16 - len(scores) - len(after)) + after
    return letters + two(version) + two(number) + two(count) + bytes([experts]) + all_scores + b"".join(entries)


def four(*numbers):
    return b"\0" + b"".join(number.to_bytes(4, "little") for number in numbers)


def terms(*of_experts, kind=1, last=0):
    return bytes([kind, *of_experts]) + bytes(15 - len(of_experts)) + bytes([last])


def fractions(denominator, *numerators, kind=2, last=0):
    numbers = (denominator, *numerators)
    return bytes([kind]) + b"".join(number.to_bytes(3, "little") for number in numbers) + bytes([last])


def window(event, first, end):
    """A work window of a book."""
    return two(event) + first.to_bytes(4, "little") + end.to_bytes(4, "little")


# Stops the command each time that it has stored a file: it notes how many there are, and waits to be told to go on.
PAUSE = """import os, time
store, stored = os.fsync, []


def fsync(file):
    store(file)
    stored.append(file)
    notes = os.environ["NOTES"]
    open(os.path.join(notes, "stored"), "w").write(str(len(stored)))
    while not os.path.exists(os.path.join(notes, f"on{len(stored)}")):
        time.sleep(0.02)
os.fsync = fsync
"""


CRATES = """# crates
theory:
levels: printer
printer: theory
hour_levels: printer
cut_set_lines: printer
mirror_files: printer
node_lines: printer
other: theory
"""


class Copy:
    """A copy of the command, with its programs where they are built, and a path that has only some tools."""

    def __init__(self, work, name, built=True):
        self.home = os.path.join(work, name)
        self.tools = os.path.join(work, name + " tools")
        self.notes = os.path.join(work, name + " notes")
        self.temporary = os.path.join(work, name + " temporary")
        self.command = os.path.join(self.home, "nekbrod")
        self.target = os.path.join(self.home, "target")
        self.program = self.built()
        for part in ("desk", "examples/fuel_supply"):
            shutil.copytree(os.path.join(ROOT, part), os.path.join(self.home, part),
                            ignore=shutil.ignore_patterns("__pycache__"))
        for part in ("nekbrod", "VERSION", "docs/REFUSALS.md"):
            os.makedirs(os.path.dirname(os.path.join(self.home, part)), exist_ok=True)
            shutil.copy(os.path.join(ROOT, part), os.path.join(self.home, part))
        write(os.path.join(self.home, "crates.txt"), CRATES)
        for crate, program in PROGRAMS.items():
            write(self.source(crate), read(program))
            os.chmod(self.source(crate), 0o755)
            for part in ("stdin", "stdout"):
                case = os.path.join("crates", crate, part)
                write(os.path.join(self.home, case), read(os.path.join(ROOT, case)))
        os.makedirs(self.tools)
        os.makedirs(self.notes)
        # What a command that is killed leaves goes with the tests.
        os.makedirs(self.temporary)
        os.chmod(self.temporary, 0o1777)
        os.symlink(PYTHON, os.path.join(self.tools, "python3"))
        for tool in ("env", "sh", "cp", "mkdir", "rmdir", "rm", "cmp", "sleep", "cat"):
            os.symlink(shutil.which(tool), os.path.join(self.tools, tool))
        if built:
            self.stand_in()
            for crate, program in PROGRAMS.items():
                write(self.built(crate) + ".stamp", read(program))
                os.chmod(write(self.built(crate), read(program)), 0o755)
                write(os.path.join(self.target, "stamp", crate), hashlib.sha256(read(program)).hexdigest())

    def source(self, crate="levels"):
        return os.path.join(self.home, "crates", crate, "src/main.rt")

    def built(self, crate="levels"):
        return os.path.join(self.home, "crates", crate, "out", crate)

    def stand_in(self, begin="", before="", after="", status=0, leaves="cp src/main.rt out/$crate.stamp",
                 wrote="cat stdout"):
        """A stand-in for rt: it notes its call, and goes by content as rt does; its program is its source. It says what
        it does on standard error, and its program answers the stored case."""
        write(os.path.join(self.tools, "rt"), f"""#!/bin/sh
exec 3>&1 >&2
crate=${{PWD##*/}}
echo "$* in $crate" >>'{self.notes}/calls'
mkdir '{self.notes}/busy' || echo two at once >>'{self.notes}/overlap'
{begin}
if cmp -s src/main.rt out/$crate.stamp && [ -e out/$crate ]; then
    echo "rt: nothing has changed since the last proved build, by out/$crate.stamp, so nothing is checked now"
    echo "rt: running out/$crate; to give it other input, run that file yourself"
    {wrote} >&3
    rmdir '{self.notes}/busy'
    exit 0
fi
echo "rt: chose --jobs 2 for theory"
echo "crate theory: modules loaded=1 checked=2"
echo "logic=proved functions=0 sum=0"
mkdir -p out
rm -f out/$crate.stamp
{before}
echo "fn some::function: proved"
echo "crate printer: modules loaded=1 checked=2"
echo "logic=proved functions=1 sum=0"
if [ {status} -eq 0 ]; then cp src/main.rt out/$crate; {leaves}; fi
{after}
echo "crate $crate: modules loaded=1 checked=2"
echo "logic=proved functions=1 sum=0"
{wrote} >&3
rmdir '{self.notes}/busy'
exit {status}
""")
        os.chmod(os.path.join(self.tools, "rt"), 0o755)
        shutil.rmtree(self.notes)
        os.makedirs(self.notes)

    def without_rt(self):
        os.remove(os.path.join(self.tools, "rt"))

    def empty(self):
        for folder in self.target, *(os.path.dirname(self.built(crate)) for crate in PROGRAMS):
            shutil.rmtree(folder, ignore_errors=True)

    def note(self, name):
        try:
            return read(os.path.join(self.notes, name)).decode()
        except FileNotFoundError:
            return ""

    def calls(self):
        return self.note("calls").splitlines()

    def change(self, text, crate="levels"):
        """Other bytes in a program's source, with an old date."""
        source = write(self.source(crate), text)
        os.chmod(source, 0o755)
        os.utime(source, (946684800, 946684800))

    def start(self, *words, env=None, **more):
        env = {"PATH": self.tools, "LC_ALL": "C", "TMPDIR": self.temporary, **(env or {})}
        return start([self.command, *words], env=env, **more)

    def run(self, *words, **more):
        return ended(self.start(*words, **more))


def on_terminal(copy, *words, stream="stderr", **more):
    """A run with a terminal as its standard error, or its standard output, and what the terminal got in its place."""
    ours, theirs = pty.openpty()
    process = copy.start(*words, **{stream: theirs}, **more)
    os.close(theirs)
    text = b""
    while True:
        try:
            piece = os.read(ours, 4096)
        except OSError:
            break
        if not piece:
            break
        text += piece
    os.close(ours)
    ran = ended(process)
    if stream == "stdout":
        return Run(ran.status, text.replace(b"\r\n", b"\n"), ran.errors.encode("utf-8", "surrogateescape"))
    return Run(ran.status, ran.out, text)


def finish(name):
    """The last lines, and the status of the test."""
    for text in skipped:
        print(f"skipped: {text}")
    return counted.finish(name)
