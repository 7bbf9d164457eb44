"""Respells the repository's own names, once, after port.py: definitions and lemmas of crates/ go to snake case.

usage: python3 tools/port_names.py [TOP]

A word is written in small letters with `_` between its parts (`leAt` is `le_at`); in a lemma's name the parts between `-` are words each. Names of constants
keep their form (`SLOT-BYTES`): with `_` each would fall together with the constant of src/ that it states. Names of src/ and types keep theirs too.
"""

import os
import re
import sys

NAME = re.compile(r"(?<![A-Za-z0-9_'-])[a-z][A-Za-z0-9_']*(?:-[A-Za-z0-9_']+)*")
NUMBER = re.compile(r"0x[0-9A-Fa-f_]+")
# What falls together with another name after the rule above: the lemma gives way to the definition.
MOVED = {"crates/turns/": {"goes_on": "goes_on-holds"}}
# `getD` is the library's `get_or` today.
WORDS = {"getD": "get_or"}


def snake(name):
    parts = [WORDS.get(part, part) for part in name.split("-")]
    return "-".join(re.sub(r"(?<=[a-z0-9])[A-Z]+", lambda found: "_" + found.group(0).lower(), part) for part in parts)


def respelled(path, text):
    moved = next((names for folder, names in MOVED.items() if path.startswith(folder)), {})
    if path.endswith(".antt"):
        for old, new in moved.items():
            text = re.sub(r"(?<![A-Za-z0-9_'.-])" + old + r"(?![A-Za-z0-9_'.-])", new, text)
    return NAME.sub(lambda found: found.group(0) if NUMBER.match(found.group(0)) else snake(found.group(0)), text)


def main(top):
    changed = 0
    for folder, folders, files in os.walk(os.path.join(top, "crates")):
        folders[:] = [name for name in folders if name != "out"]
        for name in sorted(files):
            if not name.endswith((".antt", ".rt")):
                continue
            path = os.path.join(folder, name)
            with open(path, encoding="utf-8") as file:
                text = file.read()
            new = respelled(os.path.relpath(path, top), text)
            if new != text:
                with open(path, "w", encoding="utf-8") as file:
                    file.write(new)
                changed += 1
    print(f"{changed} files")


if __name__ == "__main__":
    main(sys.argv[1] if len(sys.argv) > 1 else ".")
