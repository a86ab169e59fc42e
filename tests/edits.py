#!/usr/bin/env -S python3 -B
"""Looks over every wrong version, crates/*/must-fail/*.edit, before any is tried: each 'old:' text stands exactly once
when its turn comes, differs from its 'new:', and every line is read. `rt ci` takes a text of two lines by its first
alone, and passes with an edit that does not fit. Prints each fault and exits 1, or prints how many there are.
"""

import re
import sys
from pathlib import Path

ROOT = Path(__file__).resolve().parent.parent


def faults_of(edit):
    """What is wrong with a wrong version, line by line."""
    crate, texts = edit.parent.parent, {}
    file = old = None
    pairs = 0
    for number, line in enumerate(edit.read_text(encoding="utf-8").split("\n"), 1):
        word, _, text = line.partition(":")
        text = text[1:] if text.startswith(" ") else text
        if not line.strip() or (line.startswith("#") and old is None):
            continue
        if word == "file" and old is None:
            file = text
            if file not in texts:
                if not (crate / file).is_file():
                    yield f"line {number}: there is no {file}"
                    return
                texts[file] = (crate / file).read_text(encoding="utf-8")
        elif word == "old" and file is not None and old is None:
            old = text
        elif word == "new" and old is not None:
            times = texts[file].count(old) if old else 0
            if times != 1:
                yield f"line {number}: its old text stands {times} times in {file}"
            if old == text:
                yield f"line {number}: old and new are equal"
            texts[file] = texts[file].replace(old, text, 1)
            old, pairs = None, pairs + 1
        else:
            yield f"line {number} is no 'file:', 'old:' or 'new:' in its turn, which are one line each"
    if old is not None or not pairs:
        yield "it has no pair of 'old:' and 'new:'" if not pairs else "its last 'old:' has no 'new:'"


def main():
    edits = sorted(ROOT.glob("crates/*/must-fail/*"))
    faults = [f"{edit.relative_to(ROOT)}: {fault}" for edit in edits for fault in
              (faults_of(edit) if re.fullmatch(r"[a-z0-9_]+\.edit", edit.name) else ["its name is none of an edit"])]
    print("\n".join(faults) or f"{len(edits)} wrong versions looked over")
    return 1 if faults or not edits else 0


sys.exit(main())
