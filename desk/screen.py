# What the command writes: its text to standard output, all else to standard error.
import os
import sys

OUT, ERRORS = 1, 2

# Whether a passing line stands on the terminal, which the next line overwrites.
passing = False


class Stop(Exception):
    """Ends the command with a status, and a line that says why."""

    def __init__(self, status, why):
        super().__init__(why)
        self.status, self.why = status, why


def write(file, data):
    while data:
        data = data[os.write(file, data):]


def write_error(text):
    # A closed or full standard error keeps no level from being printed.
    if sys.stderr is not None:
        try:
            write(ERRORS, text.encode("utf-8", "surrogateescape"))
        except OSError:
            pass


def clear():
    global passing
    if passing:
        write_error("\r\033[K")
        passing = False


def say(text):
    clear()
    write_error(f"nekbrod: {text}\n")


def is_terminal(stream):
    return stream is not None and stream.isatty()


def show_passing(text):
    """A line that the next one overwrites, on a terminal alone."""
    global passing
    if is_terminal(sys.stderr):
        write_error(f"\r\033[Knekbrod: {text}")
        passing = True


def print_text(data):
    """Standard output gets these bytes, all of them."""
    if sys.stdout is None:
        raise Stop(3, "the text could not be written: standard output is closed")
    try:
        write(OUT, data)
    except OSError as error:
        raise Stop(3, f"the text could not be written: {error.strerror}") from None
