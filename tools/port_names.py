#!/usr/bin/env python3
"""Brings the names of this repository's definitions to the library's spelling: words in snake case, a dash only in the name of a lemma.

usage: python3 tools/port_names.py        at the top of the repository, once, after the kit's port.py

It goes by text: each name of tools/port_names.tsv that stands as a whole word in a file of crates/ (.antt, .rt, .edit) becomes the name
beside it. A name without a dash may also be a part of a lemma's name, between dashes.
"""

import os
import re

HERE = os.path.dirname(os.path.abspath(__file__))
TOP = os.path.dirname(HERE)


def table():
    with open(os.path.join(HERE, "port_names.tsv"), encoding="utf-8") as f:
        return dict(line.rstrip("\n").split("\t") for line in f if line.strip())


def turned(text, names):
    plain = {old: new for old, new in names.items() if "-" not in old}
    dashed = {old: new for old, new in names.items() if "-" in old}
    text = re.sub(r"(?<![\w'-])[a-z][\w']*(?:-[\w'₀-₉]+)+(?![\w'-])", lambda m: dashed.get(m.group(0), m.group(0)), text)
    return re.sub(r"(?<![\w'])[a-z][a-zA-Z]*(?![\w'])", lambda m: plain.get(m.group(0), m.group(0)), text)


def files():
    for folder, inner, names in os.walk(os.path.join(TOP, "crates")):
        inner[:] = sorted(d for d in inner if d != "out")
        for name in sorted(names):
            if name.endswith((".antt", ".rt", ".edit")):
                yield os.path.join(folder, name)


def main():
    names = table()
    for path in files():
        with open(path, encoding="utf-8") as f:
            before = f.read()
        after = turned(before, names)
        if after != before:
            with open(path, "w", encoding="utf-8") as f:
                f.write(after)


if __name__ == "__main__":
    main()
