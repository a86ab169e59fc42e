# A program, proved and built where its sources changed, and right on its stored case. What has changed is rt's to say: it
# goes by content.
import collections
import contextlib
import fcntl
import filecmp
import hashlib
import os
import re
import shutil
import subprocess
import tempfile
import time

from desk.child import Child, status_in_words
from desk.screen import Stop, clear, say, show_passing

# A wait of so many seconds is told; another run that proves nothing takes less.
TOLD_AFTER = 1.5

# How many of rt's last lines are shown where it fails.
LAST_LINES = 12

# What rt says where nothing has to be proved, and what it says of its own work.
UNCHANGED = re.compile(r"rt: (nothing has changed since the last proved build|running )")
OWN_WORK = re.compile(r"rt: (chose |note|[a-z_]+: begins with )")
# The last two lines of a crate's check.
CHECKED = re.compile(r"crate ([a-z_]+): modules ")
PROVED = "logic=proved "

# A program: its crate, its name in a sentence, and what does not come where it is not built.
Program = collections.namedtuple("Program", "crate title nothing")
LEVELS = Program("levels", "the level printer", "no level is printed")
HOUR_LEVELS = Program("hour_levels", "the hour printer", "no level is printed")
CUT_SETS = Program("cut_set_lines", "the cut set printer", "no cut set is printed")
NODES = Program("node_lines", "the node printer", "no node is printed")
MIRROR = Program("mirror_files", "the mirror program", "no file is written")


class Desk:
    """The places that building a program needs."""

    def __init__(self, home, program):
        self.home = home
        self.crate, self.title, self.nothing = program
        self.crates = crates_of(os.path.join(home, "crates.txt"), self.crate)
        self.folder = os.path.join(home, "crates", self.crate)
        self.run = f"rt run in crates/{self.crate}"
        self.program = os.path.join(self.folder, "out", self.crate)
        self.target = os.path.join(home, "target")
        # The checksum of the program that was right on its stored case.
        self.stamp = os.path.join(self.target, "stamp", self.crate)
        self.lock = os.path.join(self.target, "nekbrod.lock")
        self.log = os.path.join(self.target, "nekbrod.log")

    def is_built(self):
        return os.path.isfile(self.program) and os.access(self.program, os.X_OK)

    def checksum(self):
        with open(self.program, "rb") as file:
            return hashlib.sha256(file.read()).hexdigest()

    def was_right(self):
        with contextlib.suppress(OSError), open(self.stamp, encoding="ascii", errors="replace") as file:
            return file.read() == self.checksum()
        return False

    def note_right(self):
        if not self.was_right():
            os.makedirs(os.path.dirname(self.stamp), exist_ok=True)
            with open(self.stamp, "w", encoding="ascii") as file:
                file.write(self.checksum())


@contextlib.contextmanager
def up_to_date(program, home, signals):
    """The path of a program that is up to date, for the length of a `with`: nobody builds meanwhile."""
    desk = Desk(home, program)
    rt = shutil.which("rt")
    if rt is None:
        yield as_it_is(desk, "rt is not on the path")
        return
    try:
        check_writable(desk)
        lock = take_lock(desk.lock, signals)
    except OSError as error:
        yield as_it_is(desk, f"{error.filename or desk.lock} cannot be written: {error.strerror}")
        return
    try:
        prove(desk, os.path.abspath(rt), signals, lock)
        yield desk.program
    finally:
        os.close(lock)


def as_it_is(desk, reason):
    """The program that is there, with a line that nobody asked whether it is still that of its sources."""
    if not desk.is_built():
        raise Stop(3, f"{desk.title} is not built, and {reason}")
    if not desk.was_right():
        raise Stop(3, f"{desk.title} was not seen to be right when it was built, and {reason}")
    say(f"{reason}; {desk.title} is run as it is, and may be older than its sources")
    return desk.program


def check_writable(desk):
    """rt writes in each crate's folder out/, and this command in target/."""
    os.makedirs(desk.target, exist_ok=True)
    folders = [desk.target, os.path.dirname(desk.stamp)]
    for crate in desk.crates:
        folder = os.path.join(desk.home, "crates", crate)
        out = os.path.join(folder, "out")
        folders.append(out if os.path.exists(out) else folder)
    for folder in folders:
        if os.path.exists(folder) and not os.access(folder, os.W_OK | os.X_OK):
            raise PermissionError(13, "Permission denied", folder)


def take_lock(name, signals):
    """A lock that lasts as long as this run, or what it started, lives."""
    began, told = time.monotonic(), False
    while True:
        lock = os.open(name, os.O_RDWR | os.O_CREAT, 0o666)
        try:
            while not is_taken(lock):
                if not told and time.monotonic() - began > TOLD_AFTER:
                    say("another run is building or checking a program; waiting for it")
                    told = True
                signals.wait([], 0.1)
            # The folder may have been removed meanwhile, and the file with it.
            if os.path.exists(name) and os.path.samestat(os.fstat(lock), os.stat(name)):
                return lock
        except BaseException:
            os.close(lock)
            raise
        os.close(lock)
        os.makedirs(os.path.dirname(name), exist_ok=True)


def is_taken(lock):
    try:
        fcntl.flock(lock, fcntl.LOCK_EX | fcntl.LOCK_NB)
        return True
    except BlockingIOError:
        return False


def prove(desk, rt, signals, lock):
    report = Report(desk, not desk.is_built())
    stored = os.path.join(desk.folder, "stdout")
    try:
        with open(desk.log, "wb") as log, temporary_folder() as folder:
            wrote = os.path.join(folder, "stdout")
            with open(os.path.join(desk.folder, "stdin"), "rb") as given, open(wrote, "wb") as output, Child(
                    signals, [rt, "run"], kept=(lock,), heard="stderr", cwd=desk.folder,
                    env={**os.environ, "TMPDIR": folder}, stdin=given, stdout=output) as child:
                piece = None
                while piece != b"":
                    piece = child.read(0.5)
                    log.write(piece or b"")
                    report.take(piece or b"")
                status = child.status()
            is_right = status == 0 and filecmp.cmp(wrote, stored, shallow=False)
    except OSError as error:
        raise Stop(3, f"'{desk.run}' could not be run: {error}") from None
    finally:
        clear()
    if status != 0:
        say(f"'{desk.run}' failed: it {status_in_words(status)}. Its last lines:")
        for line in report.last:
            say(f"  {line}")
        raise Stop(3, f"{desk.nothing}; {desk.log} has all that rt said")
    if not desk.is_built():
        raise Stop(3, f"'{desk.run}' left no program at {desk.program}; {desk.log} has all that rt said")
    if not is_right:
        raise Stop(3, f"{desk.title} does not print {stored} for the stdin beside it, so {desk.nothing}")
    desk.note_right()


@contextlib.contextmanager
def temporary_folder():
    """A place for rt's temporary files: a prover that is ended leaves up to some hundred megabytes of them."""
    outer = tempfile.mkdtemp(prefix="nekbrod-")
    try:
        yield outer
    finally:
        shutil.rmtree(outer, ignore_errors=True)


class Report:
    """Says what is proved as it comes, and how far it is."""

    def __init__(self, desk, first):
        self.began = time.monotonic()
        self.crate, self.title, self.crates = desk.crate, desk.title, desk.crates
        self.checked = None
        self.proved = set()
        self.rest = b""
        self.last = collections.deque(maxlen=LAST_LINES)
        self.told = False
        if first:
            self.tell(f"proving and building {desk.title}; the first time this takes minutes")

    def tell(self, text):
        self.told = True
        say(text)

    def take(self, piece):
        *lines, self.rest = (self.rest + piece).split(b"\n")
        for line in lines:
            self.take_line(line.decode("utf-8", "replace"))
        if self.told:
            waiting = [name for name in self.crates if name not in self.proved] or [self.crate]
            seconds = time.monotonic() - self.began
            show_passing(f"{waiting[0]}, {len(self.proved)} of {len(self.crates)} crates proved, {seconds:.0f} s")

    def take_line(self, line):
        if UNCHANGED.match(line) or OWN_WORK.match(line):
            return
        self.last.append(line)
        if line.startswith("rt: "):
            say(line[len("rt: "):])
            return
        if not self.told:
            self.tell(f"proving what has changed since {self.title} was built")
        matched = CHECKED.match(line)
        if matched:
            self.checked = matched.group(1)
        elif line.startswith(PROVED) and self.checked in self.crates:
            self.proved.add(self.checked)
            say(f"{self.checked} proved")


def crates_of(name, program):
    """The crates that a program rests on, and itself, each after those that it rests on, as rt takes them."""
    rests_on = {}
    with contextlib.suppress(OSError), open(name, encoding="utf-8", errors="replace") as file:
        for line in file:
            crate, colon, others = line.split("#")[0].partition(":")
            if colon:
                rests_on[crate.strip()] = others.split()
    wanted, to_see = [], [program]
    while to_see:
        crate = to_see.pop()
        if crate in rests_on and crate not in wanted:
            wanted.append(crate)
            to_see += rests_on[crate]
    ordered, ready = [], [None]
    while ready:
        left = [crate for crate in rests_on if crate in wanted and crate not in ordered]
        ready = [crate for crate in left if not any(other in left for other in rests_on[crate])]
        ordered += ready
    return ordered
