#!/usr/bin/env python3
"""Brings the definitions and lemmas of specs/ and proofs/ to today's spelling: snake case, a dash only where it joins two names.

usage: tools/respell.py            in the repository's root, once, right after the kit's port.py
       tools/respell.py --list     prints the table old, tab, new and writes nothing
       tools/respell.py --text F.. turns the code spans of pages, by the table that tools/respell.tsv keeps

It goes by whole words. Rust's own names, strings and modules stay. A name with a capital in front is a type, or a letter of document 01 (W, M, D), and
keeps it. New names that would fall together with another name get the spelling that OTHERWISE gives.
"""
import glob
import os
import re
import sys

NAME = r'[^\s(){}.;,@"«»]+'
TABLE = os.path.join(os.path.dirname(os.path.abspath(__file__)), "respell.tsv")
DECLARED = re.compile(r"(?m)^ *((?:(?:abbrev|unfoldable|pub|data|record|pattern) +)*)(%s(?: %s)*)((?: *\{[^{}]*\})*) :(.*)$" % (NAME, NAME))

# A law whose function now gets its spelling.
OTHERWISE = {n: n + "_lem" for n in ("one_by_one", "cut_small", "in_small", "plain_step", "same_bytes", "in_order")}


def texts():
    for kind in ("specs", "proofs"):
        for f in sorted(glob.glob(f"crates/*/{kind}/*.antt")):
            yield f


def declared():
    """Every name that a file of specs/ or proofs/ itself declares, with whether it is a definition rather than a law."""
    found = {}
    for f in texts():
        for m in DECLARED.finditer(open(f, encoding="utf-8").read()):
            marks, names, _, kind = m.groups()
            if names.startswith("--") or re.search(r"[=λ→∷≡]", names):
                continue
            for n in names.split():
                found[n] = found.get(n, False) or bool(re.search("abbrev|unfoldable|data|record", marks))
    return found


def snake(part):
    if part[:1].isupper() and re.search("[a-z]", part):
        return part
    words = re.sub(r"(?<=[a-z0-9])[A-Z]", lambda m: "_" + m[0].lower(), part)
    return re.sub(r"(?<=[A-Z])(?=[A-Z][a-z])", "_", words)


def respelled(name, known):
    parts = name.split("-")
    if not all(parts):
        return name
    for i in range(1, len(parts)):
        if "-".join(parts[:i]) in known and "-".join(parts[i:]) in known:
            return "_".join(map(snake, parts[:i])) + "-" + "_".join(map(snake, parts[i:]))
    return "_".join(map(snake, parts))


def table():
    names = declared()
    std = set()
    for f in glob.glob("crates/**/*.antt", recursive=True):
        for m in re.finditer(r"use Rattle\.(?:std|core)[\w.]*\.\{([^}]*)\}", open(f, encoding="utf-8").read()):
            std |= {w.strip() for w in m[1].split(",")}
    known = {n for n, is_definition in names.items() if is_definition} | {n for n in std if "-" not in n and "◌" not in n}
    # words of English that are a name somewhere, and join nothing
    known -= set("a all and any at away back below by end for from front given has head here in inner is kept last left let made more next no none not of off "
                 "on once one only or other out own past rest right run same self set some start step the then there to top two under up want with within yes".split())
    # what std declares too keeps its spelling
    plain = {n: n if n in std else OTHERWISE.get(n) or respelled(n, known) for n in names}
    # a law that would have its function's name, or a name of std, ends in _lem
    functions = {new for n, new in plain.items() if "-" not in n}
    return {n: new + "_lem" if "-" in n and new != n and (new in functions or new in std) else new for n, new in sorted(plain.items()) if new != n}


def turn(text, rows, rust):
    quiet = r'"(?:[^"\\\n]|\\.)*"' if rust else r'"[^"\n]*"'
    comment = r"//[^\n]*" if rust else r"(?<![^\s(){}.;,@\"«»])--[^\n]*"

    def words(s):
        return re.sub(NAME, lambda m: rows.get(m[0], m[0]), s)

    def spans(s):
        s = re.sub(r"`[^`\n]*`", lambda m: words(m[0][1:-1]).join("``"), s)
        return re.sub(r"(?<![\w`-])[a-z]+[a-z0-9]*[A-Z]\w*(?![\w`-])", lambda m: rows.get(m[0], m[0]), s)

    out, at = [], 0
    for m in re.finditer(f"({quiet})|({comment})", text):
        out.append(words(text[at : m.start()]))
        out.append(m[0] if m[1] else spans(m[0]))
        at = m.end()
    return "".join(out) + words(text[at:])


def taken(rows):
    """New names that something else already has: a name that a text declares or binds."""
    news = {}
    for old, new in rows.items():
        news.setdefault(new, []).append(old)
    said = [f"{new}: from {', '.join(olds)}" for new, olds in news.items() if len(olds) > 1]
    for f in sorted(glob.glob("crates/*/specs/*.antt") + glob.glob("crates/*/proofs/*.antt") + glob.glob("crates/*/src/*.rt")):
        text = open(f, encoding="utf-8").read()
        text = re.sub(r"(?m)(?<![^\s(){}.;,@\"«»])--.*$|//.*$", "", text)
        have = set(re.findall(NAME, text))
        for new, olds in news.items():
            # in Rust a parameter or a variable would hide it, a function would not
            there = new in have if f.endswith(".antt") else re.search(rf"(?<!fn )\b{re.escape(new)}\b(?!\(|,|}}|;)", text)
            if there and any(o in have for o in olds):
                said.append(f"{new}: {f} has it already, beside {', '.join(o for o in olds if o in have)}")
    return said


def main(argv):
    if argv[:1] == ["--text"]:
        rows = dict(l.rstrip("\n").split("\t") for l in open(TABLE, encoding="utf-8"))
        for f in argv[1:]:
            text = open(f, encoding="utf-8").read()
            new = re.sub(r"`[^`\n]*`", lambda m: re.sub(NAME, lambda w: rows.get(w[0], w[0]), m[0][1:-1]).join("``"), text)
            open(f, "w", encoding="utf-8").write(new)
        return 0
    rows = table()
    if argv[:1] == ["--list"]:
        print("\n".join(f"{a}\t{b}" for a, b in rows.items()))
        print("\n".join("taken: " + l for l in taken(rows)), file=sys.stderr)
        return 0
    for f in glob.glob("crates/**/*.antt", recursive=True) + glob.glob("crates/*/src/*.rt"):
        text = open(f, encoding="utf-8").read()
        new = turn(text, rows, f.endswith(".rt"))
        if new != text:
            open(f, "w", encoding="utf-8").write(new)
    with open(TABLE, "w", encoding="utf-8") as it:
        it.write("".join(f"{a}\t{b}\n" for a, b in rows.items()))
    return 0


if __name__ == "__main__":
    raise SystemExit(main(sys.argv[1:]))
