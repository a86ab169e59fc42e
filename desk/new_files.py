# Files that the command makes: nothing that exists is touched, and all of them are made whole or none is.
import contextlib
import os
import signal

from desk.screen import Stop, print_text, write


def check_new(what, name, need="a new name"):
    """Nothing has the name, not even a link to nothing, and its folder takes a file."""
    if os.path.lexists(name):
        raise Stop(2, f"{name} exists and is not overwritten: the {what} needs {need}")
    if not os.path.basename(name):
        raise Stop(2, f"the {what} needs a name, not '{name}'")
    folder = os.path.dirname(name) or "."
    if not os.path.isdir(folder):
        raise Stop(2, f"there is no folder {folder} for the {what}")
    if not os.access(folder, os.W_OK | os.X_OK):
        raise Stop(2, f"the folder {folder} cannot be written, where the {what} would go")


def check_apart(one, other):
    """Two names that are free are those of two files."""
    if os.path.realpath(one) == os.path.realpath(other):
        raise Stop(2, f"{one} and {other} name one file, and two are written")


def check_folder(folder, files):
    """A folder in which none of these files is yet, or a name for a new one."""
    if not os.path.isdir(folder):
        check_new("folder", folder.rstrip("/"))
    else:
        for what, name in files:
            check_new(what, os.path.join(folder, name), "another folder")


def write_all(files, lines, signals, folder=None):
    """Makes files, each given by what it is, its name and its bytes, and prints a line for each; the exit status."""
    # A reader that has gone is a failure like a full disk here, so that then too no file is left.
    signal.signal(signal.SIGPIPE, signal.SIG_IGN)
    with made(files, signals, folder):
        print_text("".join(line + "\n" for line in lines).encode("utf-8", "surrogateescape"))
    return 0


@contextlib.contextmanager
def made(files, signals, folder=None):
    """Files that are there, whole, for the length of a `with`, and stay if it ends well; else they are removed.

    So is their folder, where there is none yet."""
    with contextlib.ExitStack() as undo:
        if folder is not None and not os.path.isdir(folder):
            make_folder(undo, folder)
        for what, name, data in files:
            try:
                make(undo, name, data)
            except OSError as error:
                raise Stop(3, f"the {what} {name} could not be written: {error.strerror}") from None
        signals.check()
        yield
        undo.pop_all()


def make(undo, name, data):
    """A file that nobody else made, removed by `undo`; a full disk may be told only when it is asked to store."""
    file = os.open(name, os.O_WRONLY | os.O_CREAT | os.O_EXCL, 0o666)
    undo.callback(remove, name, file)
    write(file, data)
    os.fsync(file)


def make_folder(undo, folder):
    try:
        os.mkdir(folder)
    except OSError as error:
        raise Stop(3, f"the folder {folder} could not be made: {error.strerror}") from None
    undo.callback(remove_folder, folder)


def remove_folder(folder):
    """A folder that has something by now stays."""
    with contextlib.suppress(OSError):
        os.rmdir(folder)


def remove(name, file):
    """Another file that has the name by now stays."""
    with contextlib.suppress(OSError):
        if os.path.samestat(os.fstat(file), os.lstat(name)):
            os.remove(name)
    os.close(file)
