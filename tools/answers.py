#!/usr/bin/env python3
"""Turns the old proof of a function, proofs/F/Proof.antt, into Invariants.antt and Answers.antt.

usage: tools/answers.py NAMES CRATE..   NAMES is the folder that `rt check --generated NAMES --old-names` wrote in that crate

An answer that is `search rules` alone goes: the check tries it by itself. What it cannot turn stands in the file as it was, for the check to name.
"""
import glob
import json
import os
import re
import sys

NAME = r"[^\s(){}.;,@\"«»]+"


def plain(s):
    return s.removesuffix("_lem").replace("_", "-")


def blocks(text):
    """The declarations of a file: the comment above, the signature's line and what follows it up to the next."""
    found, comment = [], []
    for part in re.split(r"\n\s*\n", text.strip("\n")):
        lines = part.split("\n")
        found.append(lines)
    return found


def place_of(info, old):
    for at in info["places"]:
        if plain(at[0]) == plain(old):
            return at
    return None


def by_name(info, name):
    i = next((i for i, n in enumerate(info["places_by_name"]) if n == name), None)
    return info["places"][i] if i is not None else place_of(info, name)


def paths(text, info, place, var="c"):
    """c.before.before.f.ensures, at a place, is c.f.ensures by f's new name."""
    by = {p[0]: p for p in info["places"]}
    told = {p[0]: t for p, t in zip(info["places"], info["clauses"])}

    def clause(at, behind):
        """`.ensures`, and what stands behind it, by the names that the clauses have now."""
        names = (told.get(at[0]) or {}).get("fields") or []
        m = re.match(r"\.ensures(?:\.(\d+))?(?![\w.-])|\.ensures\.(\d+)(?=\.)", behind)
        if not names or not m:
            return behind
        i = m[1] or m[2]
        if i is None and len(names) > 1:
            return behind
        return ".ensures." + names[int(i or 0)] + behind[m.end():]

    def one(m):
        n, rest, behind = m[1].count(".before"), m[2], m[3]
        at = place
        for _ in range(n):
            at = by.get(at[1]) if at else None
        if at is None:
            return m[0]
        # what the place itself does not bind, an earlier one may
        head = rest
        while at is not None:
            old, new = at[2]
            if old and plain(head) == plain(old):
                return f"{var}.{new}{clause(at, behind)}"
            at = by.get(at[1])
        # a step inside one that the goal does not show
        others = {p[2][1]: p for p in info["places"] if p[2][0] and plain(p[2][0]) == plain(head)}
        if len(others) == 1:
            new, at = others.popitem()
            return f"{var}.{new}{clause(at, behind)}"
        return f"{var}.{head}{behind}"

    return re.sub(rf"(?<![^\s(){{}};,@\"«»]){var}((?:\.before)*)\.({NAME})((?:\.{NAME})*)", one, text)


def invariant(lines, info, loop_new, kind):
    """An invariant's or a measure's clause over the loop's variables, as a function of l."""
    text = "\n".join(lines)
    m = re.match(rf"({NAME})((?: {NAME}| \([^()]*\))*) =(.*)", text, re.S)
    names = m[2].split()
    body = m[3]
    rows = {}
    for v in names:
        if v.endswith("₀"):
            rows[v] = "l.initial." + v[:-1]
        elif v != "_":
            rows[v] = "l." + v

    def word(w):
        return rows.get(w[0], w[0])

    return re.sub(rf"(?<![.\w]){NAME}", word, body)


def turn(folder, crate, info):
    proof = os.path.join(folder, "Proof.antt")
    text = open(proof, encoding="utf-8").read()
    path = folder.split(f"crates/{crate}/proofs/")[1].replace("/", ".")
    needs = info["needs"]
    by_old = {}
    for i, (old, new) in enumerate(needs):
        by_old[plain(old)] = i
    order = []
    head, uses, helpers, answers, invariants = [], [], [], [], []
    for lines in blocks(text):
        at = 0
        while at < len(lines) and lines[at].startswith("--"):
            at += 1
        comment, rest = lines[:at], lines[at:]
        comment = [c for c in comment if not re.match(r"-- src/\S+\.rt:\d+", c)]
        if not rest:
            head += comment
            continue
        if rest[0].startswith("use "):
            head += comment
            for u in rest:
                if not re.search(r"\.(Statement\.\{statement\}|Tie as tie|Lts as lts|Reads as [\w-]+)$", u):
                    uses.append(u)
            continue
        sig = rest[0]
        m = re.match(rf"(?:abbrev )?(?:pub )?({NAME}) : tie\.(\S+)(.*)$", sig)
        if re.match(rf"pub {NAME}[-_]spec : ", sig) and ("tie.close" in text[text.index(sig):] or True):
            if "tie.close" not in "\n".join(rest):
                helpers.append((comment, rest))
            continue
        if m and re.match(r"(invariant|decreases)", m[2]):
            kind = "invariant" if m[2].startswith("invariant") else "decreases"
            invariants.append((comment, m[1], m[2], rest[1:]))
            continue
        if m and m[2].startswith("Need-"):
            order.append((comment, m[1], m[2][5:], rest[1:]))
            continue
        helpers.append((comment, rest))
    out = []
    # ---- invariants
    if invariants:
        inv_out = []
        for comment, name, kind_name, rest in invariants:
            kind = "invariant" if kind_name.startswith("invariant") else "decreases"
            inv_out.append((comment, kind, kind_name[len(kind):], rest))
        out.append(("inv", inv_out))
    made = []
    left = 0
    # an answer that is written right in the list, by its place there
    listed = arguments(open(proof, encoding="utf-8").read())
    listed = [a for a in listed if not re.match("invariant|decreases", a)]
    said = open(proof, encoding="utf-8").read()
    unfolds = re.findall(r"(?m)^pub \S+[-_]spec : .*\n(unfolding .*)$", said)
    for i, a in enumerate(listed):
        m = re.fullmatch(r"\(λ (\S+?)( κs)?\. (.*)\)", a, re.S)
        if m and i < len(needs):
            order.append(([], needs[i][0], i, [*unfolds, f"{needs[i][0]} {m[1]} = {m[3]}"]))
        elif m:
            order.append(([], a, "?", [f"-- {a}"]))
    for comment, name, need, rest in order:
        key = plain(re.sub(r"^overflow-", "", need)) if isinstance(need, str) else None
        i = need if key is None else by_old.get(key, by_old.get(plain(need), by_old.get(plain(name))))
        if i is None:
            j = next((k for k, (o, n) in enumerate(needs) if plain(n) == plain(need)), None)
            i = j
        body = "\n".join(rest)
        if re.fullmatch(rf"{re.escape(name)} (\S+)( κs)? = search rules", body.strip()):
            continue
        if i is None:
            made.append("\n".join(comment + [f"-- WAS {need}", f"{name} : tie.Need-{need}", body]))
            left += 1
            continue
        new = needs[i][1]
        place = by_name(info, info["asked_at"][i][1]) or place_of(info, info["asked_at"][i][0])
        body = re.sub(rf"(?m)^{re.escape(name)} (\S+)(?: κs)? =", lambda m: f"{new} {m[1]} =", body)
        body = paths(body, info, place)
        # a test of `!f(..)` speaks of f's result now
        body = re.sub(r"\((?:Tests\.)?not-(?:true|false) _\s+([^\s()]+)\)", r"\1", body)
        made.append("\n".join(comment + [f"pub {new} : goal.{new}", body]))
    return head, uses, helpers, out, made, left, path


def helper(text, info):
    """A lemma over a place: its record's new name, and its paths."""
    m = re.search(rf"\((\w+) : tie\.({NAME})\)", text)
    at = m and place_of(info, m[2])
    if not at:
        return text
    new = info["places_by_name"][info["places"].index(at)]
    return paths(text.replace(f"tie.{m[2]}", f"goal.{new}"), info, at, m[1])


def arguments(text):
    """The arguments of `tie.spec`, as its proof lists them."""
    m = re.search(r"\(tie\.spec\b(.*)\)\s*$", text.strip(), re.S)
    found, depth, word = [], 0, ""
    for ch in m[1] if m else "":
        if ch.isspace() and depth == 0:
            if word:
                found.append(word)
            word = ""
            continue
        depth += (ch == "(") - (ch == ")")
        word += ch
    return found + ([word] if word else [])


def main(argv):
    names = json.load(open(os.path.join(argv[0], "names.json"), encoding="utf-8"))
    for crate in argv[1:]:
        for proof in sorted(glob.glob(f"crates/{crate}/proofs/**/Proof.antt", recursive=True)):
            folder = os.path.dirname(proof)
            path = folder.split(f"crates/{crate}/proofs/")[1].replace("/", ".")
            info = names.get(f"Rattle-{crate}-proofs.{path}.Lts")
            if info is None:
                print(f"left: {proof}: no names")
                continue
            head, uses, helpers, out, made, left, path = turn(folder, crate, info)
            helped = ["\n".join(c + [helper("\n".join(r), info)]) for c, r in helpers]
            invs = out[0][1] if out else []
            if invs:
                texts = []
                loops = sorted({plain(t) for _, _, t, _ in invs})
                for comment, kind, tail, rest in invs:
                    new = None
                    for (old, now), _ in info["loops"]:
                        if plain(tail.strip("-")) == plain(old):
                            new = now
                    new = new or tail.strip("-")
                    body = invariant(rest, info, new, kind)
                    texts.append("\n".join(comment + [f"abbrev pub {kind}-{new} : goal.{kind}-{new}", f"{kind}-{new} l ={body}"]))
                top = head + uses + [f"use Rattle.{crate}.proofs.{path}.Given as goal"]
                open(f"{folder}/Invariants.antt", "w", encoding="utf-8").write("\n\n".join(["\n".join(top), *helped, *texts]) + "\n")
            if made:
                top = head + uses + [f"use Rattle.{crate}.proofs.{path}.Goals as goal"]
                open(f"{folder}/Answers.antt", "w", encoding="utf-8").write("\n\n".join(["\n".join(top), *helped, *made]) + "\n")
            os.remove(proof)
            if not made and not invs:
                try:
                    os.removedirs(folder)
                except OSError:
                    pass
    return 0


if __name__ == "__main__":
    raise SystemExit(main(sys.argv[1:]))
