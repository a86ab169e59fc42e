# Programs that the command starts, each in a session of its own, and their end on a signal.
import os
import select
import signal
import subprocess

from desk.screen import Stop

ENDING = (signal.SIGINT, signal.SIGTERM, signal.SIGHUP, signal.SIGQUIT)

# How long a group has to end after TERM before it gets KILL, in seconds.
PATIENCE = 5


class Signals:
    """Notes a signal while children run, so that `wait` stops at it; one that is ignored stays so."""

    def __init__(self):
        self.caught = None

    def __enter__(self):
        self.bell, self.ringer = os.pipe()
        os.set_blocking(self.ringer, False)
        self.before = {}
        for number in ENDING:
            if signal.getsignal(number) != signal.SIG_IGN:
                self.before[number] = signal.signal(number, self.note)
        signal.set_wakeup_fd(self.ringer)
        return self

    def __exit__(self, *_):
        signal.set_wakeup_fd(-1)
        for number, handler in self.before.items():
            signal.signal(number, handler)
        os.close(self.bell)
        os.close(self.ringer)

    def note(self, number, _):
        self.caught = self.caught or number

    def check(self):
        if self.caught:
            raise Stop(128 + self.caught, f"ended by {signal.Signals(self.caught).name}")

    def wait(self, files, seconds):
        """The files of these that can be read, at the latest after so many seconds."""
        self.check()
        ready = select.select([*files, self.bell], [], [], seconds)[0]
        self.check()
        return ready


class Child:
    """A program with its output, or its errors; at the end of a `with` nothing of its group is left."""

    def __init__(self, signals, words, kept=(), heard="stdout", **more):
        self.signals = signals
        # Whatever the program starts holds this pipe's other end, so that it closes with the last of them.
        self.life, held = os.pipe()
        try:
            self.process = subprocess.Popen(
                words, start_new_session=True, pass_fds=(held, *kept), **{heard: subprocess.PIPE}, **more)
        except OSError:
            os.close(self.life)
            raise
        finally:
            os.close(held)
        self.output = getattr(self.process, heard)

    def __enter__(self):
        return self

    def __exit__(self, *_):
        self.end()
        self.output.close()
        os.close(self.life)

    def read(self, seconds=None):
        """Some of what is heard, b'' at its end, None where nothing came in so many seconds."""
        output = self.output.fileno()
        return os.read(output, 65536) if self.signals.wait([output], seconds) else None

    def status(self):
        """Its exit status, once its output has ended; -n where signal n ended it."""
        while self.process.poll() is None:
            self.signals.wait([], 0.01)
        return self.process.returncode

    def gone(self, seconds):
        return bool(select.select([self.life], [], [], seconds)[0])

    def end(self):
        for number in (signal.SIGTERM, signal.SIGKILL):
            if self.gone(0):
                break
            try:
                os.killpg(self.process.pid, number)
            except ProcessLookupError:
                break
            self.gone(PATIENCE)
        self.process.wait()


def status_in_words(status):
    return f"was ended by signal {-status}" if status < 0 else f"ended with status {status}"
