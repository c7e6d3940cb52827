#!/usr/bin/env python3
"""Gives this repository's own definitions and lemmas the spelling of today's Rattle: usage: respell.py, at the top.

Words are joined by '_' in place of '-', and a definition that is a fact begins with a capital. A row of spelling.tsv is
old, a tab, new, and behind a second tab 'field' where the name is a field of a record (only those turn behind a dot, since
what stands there otherwise is a name that the check makes) or the one file in which the name turns. Strings and comments in
words stay as they are, and so do functions of src/: a name with a dash cannot stand in Rust.
"""

import os
import re
import sys

HERE = os.path.dirname(os.path.realpath(__file__))
TOKEN = re.compile(r'"(?:[^"\\\n]|\\.)*"|[^\s(){}.;,@"]+')


def table():
    everywhere, fields, inside = {}, set(), {}
    with open(os.path.join(HERE, "spelling.tsv"), encoding="utf-8") as f:
        for row in f:
            old, new, *where = row.rstrip("\n").split("\t")
            if where and where != ["field"]:
                inside.setdefault(where[0], {})[old] = new
                continue
            everywhere[old] = new
            if where:
                fields.add(old)
    return everywhere, fields, inside


def turned(text, names, fields):
    def one(m):
        old = m[0]
        behind_dot = m.start() > 0 and text[m.start() - 1] == "."
        return old if behind_dot and old not in fields else names.get(old, old)

    return TOKEN.sub(one, text)


def main():
    everywhere, fields, inside = table()
    for folder, dirs, files in os.walk("crates"):
        dirs[:] = [d for d in dirs if d not in ("out", "must-fail")]
        for name in files:
            if not name.endswith((".rt", ".antt")):
                continue
            path = os.path.join(folder, name)
            with open(path, encoding="utf-8") as f:
                old = f.read()
            new = turned(old, everywhere | inside.get(path, {}), fields)
            if new != old:
                with open(path, "w", encoding="utf-8") as f:
                    f.write(new)


if __name__ == "__main__":
    sys.exit(main())
