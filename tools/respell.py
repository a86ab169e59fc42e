#!/usr/bin/env python3
"""Brings the names of definitions and lemmas to Rattle's spelling: words in snake case, types in camel case.

usage: tools/respell.py      at the top of the repository, once, right after /opt/rattle/port/port.py

Turned are the names with a dash that specs/ and proofs/ declare, wherever crates/ has them in code or a comment or a
page has them between backticks. Names of the library keep their dashes, and so do the names in a Proof.antt that stand
for goals. Functions, strings, must-fail edits and file names stay. Comments and pages also get the names that port.py turned in
code alone. It prints each name whose new spelling stood already.
"""

import os
import re
import subprocess
import sys

# A word of antt: all but spaces and the signs that part words.
WORD = re.compile(r"[^\s(){}\[\];,.«»⌜⌝λ`\"]+")
USE = re.compile(r"use ([\w.+'-]+)\.\{([^}]*)\}")
BACKTICKED = re.compile(r"`[^`\n]*`")
# Lemmas of these names are declared here and in the library: a file that takes the library's keeps the dash.
SHARED = {"or-true", "and-false", "or-false"}
# Words of commands and formats, which pages have between backticks too.
COMMAND_WORDS = {"cut-sets", "tree-number"}
SPECIAL = {"Examples-4-5": "Examples4And5", "◌or-else◌": "◌or_else◌"}


def paths(ending):
    for folder, folders, names in os.walk("crates"):
        folders[:] = sorted(f for f in folders if f != "out")
        for name in sorted(names):
            if name.endswith(ending):
                yield os.path.join(folder, name)


def read(path):
    with open(path, encoding="utf-8") as file:
        return file.read()


def parted(line, sign):
    """A line's code and its comment."""
    found = re.search(r"(^|\s)" + sign, line)
    return (line, "") if not found else (line[: found.start()], line[found.start():])


def own_crate(module):
    parts = module.split(".")
    return parts[0] == "Rattle" and len(parts) > 1 and os.path.isdir(os.path.join("crates", parts[1]))


def taken_from_library(code):
    return {word for module, words in USE.findall(code) if not own_crate(module) for word in WORD.findall(words)}


def respelt(name):
    if name in SPECIAL:
        return SPECIAL[name]
    if name[0].isupper():
        return "".join(word[:1].upper() + word[1:] for word in name.split("-"))
    return name.replace("-", "_")


def code_of(text, sign):
    return "\n".join(parted(line, sign)[0] for line in text.split("\n"))


def renamings():
    library, dashed, words = set(), set(), {}
    for path in paths(".antt"):
        code = code_of(read(path), "--")
        library |= taken_from_library(code)
        for word in WORD.findall(code):
            words.setdefault(word, set()).add(path)
            if "-" in word.strip("-") and not path.endswith("/Proof.antt"):
                dashed.add(word)
    for path in paths(".rt"):
        for word in WORD.findall(read(path)):
            words.setdefault(word, set()).add(path)
    new = {word: respelt(word) for word in (dashed - library) | (SHARED & dashed)}
    for word, name in sorted(new.items()):
        if name in words or sum(other == name for other in new.values()) > 1:
            print(f"stood already: {name}, now also for {word}, in {len(words.get(name, ()))} files")
    return new, set(words)


class Told(dict):
    """The names as comments and pages tell them: a dash also goes where only the other spelling stands in code."""

    def __init__(self, new, words):
        super().__init__(new)
        self.words = words | set(new.values())

    def get(self, word, default):
        if word in COMMAND_WORDS or word in self:
            return default if word in COMMAND_WORDS else self[word]
        turned = respelt(word) if "-" in word.strip("-") else word
        return turned if word not in self.words and turned in self.words else default


def turn_words(text, new, generated=False):
    def turn(found):
        before = text[: found.start()]
        if generated and before.endswith("tie."):
            return found.group(0)
        return new.get(found.group(0), found.group(0))

    return WORD.sub(turn, text)


def turn_line(line, sign, new, told, generated):
    code, comment = parted(line, sign)
    pieces = re.split(r"(\"[^\"]*\")", code) if sign == "//" else [code]
    code = "".join(p if p.startswith('"') else turn_words(p, new, generated) for p in pieces)
    return code + BACKTICKED.sub(lambda found: turn_words(found.group(0), told), comment)


def turn_file(path, new, told):
    sign = "//" if path.endswith(".rt") else "--"
    text = read(path)
    kept = SHARED & taken_from_library(code_of(text, sign))
    here = {word: name for word, name in new.items() if word not in kept}
    generated = path.endswith("/Proof.antt")
    write(path, "\n".join(turn_line(line, sign, here, told, generated) for line in text.split("\n")))


def turn_page(path, told):
    write(path, BACKTICKED.sub(lambda found: turn_words(found.group(0), told), read(path)))


def write(path, text):
    if text != read(path):
        with open(path, "w", encoding="utf-8") as file:
            file.write(text)


def main():
    if not os.path.isdir("crates"):
        sys.exit("run it at the top of the repository")
    new, words = renamings()
    told = Told(new, words)
    for ending in (".antt", ".rt"):
        for path in paths(ending):
            turn_file(path, new, told)
    for folder, _, names in os.walk("docs"):
        for name in sorted(names):
            if name.endswith(".md"):
                turn_page(os.path.join(folder, name), told)
    for page in ("README.md", "CONTRIBUTING.md"):
        turn_page(page, told)
    for crate in sorted(os.listdir("crates")):
        subprocess.run(["rt", "fmt"], cwd=os.path.join("crates", crate), check=True, stdout=subprocess.DEVNULL)
    print(f"{len(new)} names turned")


if __name__ == "__main__":
    main()
