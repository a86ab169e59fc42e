#!/usr/bin/env -S python3 -B
"""Runs every command of docs/GUIDE.md, with the texts that it says to save, and compares what is printed with the page,
and the picture with the one that the page shows.

Prints what is not the same and exits 1, or prints how many commands were run.
"""

import re
import subprocess
import sys
import tempfile
from pathlib import Path

ROOT = Path(__file__).resolve().parent.parent
LEAST_COMMANDS = 17
PICTURE = "standby.svg"


def blocks(page, language):
    return re.findall(rf"^```{language}\n(.*?)^```$", page, re.MULTILINE | re.DOTALL)


def commands(page):
    """Each command of the page, and what it prints."""
    for block in blocks(page, "console"):
        for part in re.split(r"^\$ ", block, flags=re.MULTILINE)[1:]:
            command, _, text = part.partition("\n")
            yield command.split(), text


def texts(page):
    """Each text that the page says to save, by its name."""
    return re.findall(r"[Ss]ave this as `([\w.]+)`:\n\n```\w+\n(.*?)^```$", page, re.MULTILINE | re.DOTALL)


def main():
    page = (ROOT / "docs" / "GUIDE.md").read_text(encoding="utf-8")
    ran = failed = 0
    with tempfile.TemporaryDirectory() as folder:
        Path(folder, "examples").symlink_to(ROOT / "examples")
        for name, text in texts(page):
            Path(folder, name).write_text(text, encoding="utf-8")
        for words, text in commands(page):
            words = [str(ROOT / "nekbrod") if word == "./nekbrod" else word for word in words]
            run = subprocess.run(words, cwd=folder, stdout=subprocess.PIPE, stderr=subprocess.DEVNULL, text=True)
            found = run.stdout
            ran += 1
            if found != text:
                failed += 1
                print(f"{' '.join(words)}: the page has\n{text}and there came\n{found}")
        if Path(folder, PICTURE).read_bytes() != (ROOT / "docs" / PICTURE).read_bytes():
            failed += 1
            print(f"docs/{PICTURE} is another picture than the page's commands make")
    print(f"guide.py: {ran} commands run, {failed} failed")
    return 0 if failed == 0 and LEAST_COMMANDS <= ran else 1


sys.exit(main())
