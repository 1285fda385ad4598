#!/usr/bin/env python3
"""Brings the must-fail edits to today's spelling: each 'old:' and 'new:' text by the words of tools/respell.tsv and what port.py does.

usage: tools/edits.py            names each edit whose text doesn't stand once in its file
       tools/edits.py --write    writes those that it could turn

An edit is judged by `rt must-fail`; this only sees that its text stands.
"""
import glob
import os
import re
import sys

NAME = r'[^\s(){}.;,@"«»]+'
HERE = os.path.dirname(os.path.abspath(__file__))
# what port.py respelled in the definitions that edits speak of
PORTED = {"getD": "get_or", "noLink": "no_link", "′": "'"}


def rows():
    table = dict(PORTED)
    for line in open(os.path.join(HERE, "respell.tsv"), encoding="utf-8"):
        old, new = line.rstrip("\n").split("\t")
        table[old] = new
    return table


def ported():
    """The names that port.py put in snake case, as it listed them."""
    path = os.path.join(HERE, "ported.txt")
    return set(open(path, encoding="utf-8").read().split()) if os.path.exists(path) else set()


def snake(n):
    return re.sub(r"(?<=[a-z0-9])[A-Z]", lambda m: "_" + m[0].lower(), n).replace("-", "_")


def turned(text, table, names):
    text = re.sub(r" \.(?=[a-z0-9])", ".", text)
    # (f x.g) is (f x).g no more than before: a field of a name in brackets alone loses them
    text = re.sub(r"\((\w+\.\w+)\)", r"\1", text)
    text = text.replace("′", "'")

    def word(m):
        w = m[0]
        w = snake(w) if w in names else w
        return table.get(w, w)

    return re.sub(NAME, word, text)


def main(argv):
    table, names = rows(), ported()
    bad = 0
    for edit in sorted(glob.glob("crates/*/must-fail/*.edit")):
        crate = edit.split("/")[1]
        lines = open(edit, encoding="utf-8").read().split("\n")
        path, out, texts, ok = "", [], {}, True
        for i, line in enumerate(lines):
            if line.startswith("file: "):
                path = line[6:].strip()
                out.append(line)
            elif line.startswith("old: "):
                text = texts.setdefault(path, open(f"crates/{crate}/{path}", encoding="utf-8").read())
                old = line[5:]
                if text.count(old) != 1:
                    old = turned(line[5:], table, names) if path.endswith(".antt") else old
                    if text.count(old) != 1:
                        print(f"{edit}: {path}: {text.count(old)} times: {old}")
                        ok, bad = False, bad + 1
                out.append("old: " + old)
            elif line.startswith("new:") and path.endswith(".antt"):
                out.append("new: " + turned(line[5:], table, names))
            else:
                out.append(line)
        if ok and "--write" in argv:
            open(edit, "w", encoding="utf-8").write("\n".join(out))
    print(f"{bad} left")
    return 0


if __name__ == "__main__":
    raise SystemExit(main(sys.argv[1:]))
