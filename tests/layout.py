#!/usr/bin/env -S python3 -B
"""Holds the crates to their layout, before any is proved: each is listed in crates.txt behind those that it rests on,
every file of Rattle or antt lies in a listed crate and is laid out as rt fmt does it, and each library has a wrong
version. Prints each fault and exits 1, or prints how many files there are.
"""

import concurrent.futures
import shutil
import subprocess
import sys
import tempfile
from pathlib import Path

ROOT = Path(__file__).resolve().parent.parent
# Where a crate's files of either language lie.
HOMES = {".rt": ("src",), ".antt": ("specs", "proofs")}
# What rt, cargo and git make.
MADE = {"out", "target", ".git"}


def listed():
    """The crates of crates.txt in their order, each with what it rests on."""
    lines = (ROOT / "crates.txt").read_text(encoding="utf-8").split("\n")
    rows = [line.split("#")[0].partition(":") for line in lines]
    return {name.split()[0]: rests.split() for name, _, rests in rows if name.strip()}


def list_faults(crates):
    folders = {path.name for path in (ROOT / "crates").iterdir()}
    yield from (f"crates.txt has {name}, which has no folder" for name in crates if name not in folders)
    yield from (f"crates/{name} is not listed in crates.txt" for name in sorted(folders - set(crates)))
    names = list(crates)
    for name, rests in crates.items():
        late = [other for other in rests if other in crates and names.index(other) > names.index(name)]
        yield from (f"crates.txt has {name} before {other}, on which it rests" for other in late)
        folder = ROOT / "crates" / name
        if (folder / "src/lib.rt").is_file() and not list(folder.glob("must-fail/*.edit")):
            yield f"crates/{name} has no wrong version"


def place_faults(crates, files):
    for path in files:
        parts = path.relative_to(ROOT).parts
        if parts[0] != "crates" or parts[1] not in crates or parts[2] not in HOMES[path.suffix]:
            yield f"{path.relative_to(ROOT)} lies in no folder for it of a listed crate"


def layout_faults(crates, files):
    """Each file that rt fmt lays out otherwise, by a copy."""
    with tempfile.TemporaryDirectory() as room:
        shutil.copy(ROOT / "crates.txt", room)
        for path in files:
            copy = Path(room) / path.relative_to(ROOT)
            copy.parent.mkdir(parents=True, exist_ok=True)
            shutil.copy(path, copy)

        def laid(name):
            return subprocess.run(["rt", "fmt"], cwd=Path(room) / "crates" / name, stdout=subprocess.PIPE,
                                  stderr=subprocess.STDOUT, universal_newlines=True, check=False)

        with concurrent.futures.ThreadPoolExecutor(2) as pool:
            for name, ran in zip(crates, pool.map(laid, crates)):
                if ran.returncode:
                    yield f"crates/{name}: rt fmt: {ran.stdout.strip()}"
        for path in files:
            if (Path(room) / path.relative_to(ROOT)).read_bytes() != path.read_bytes():
                yield f"{path.relative_to(ROOT)} is not as rt fmt lays it out"


def main():
    files = [path for suffix in HOMES for path in sorted(ROOT.rglob("*" + suffix))
             if not MADE & set(path.relative_to(ROOT).parts)]
    crates = listed()
    faults = [*list_faults(crates), *place_faults(crates, files)]
    faults += [] if faults else layout_faults(crates, files)
    print("\n".join(faults) or f"{len(files)} files in {len(crates)} crates")
    return 1 if faults or not files else 0


sys.exit(main())
