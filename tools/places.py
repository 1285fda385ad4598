#!/usr/bin/env python3
"""places.py [COMMIT] [-v]: how many places of each point of docs/DESIGN-PASS.md stand in src/ (at COMMIT, else here). -v prints them."""
import re, subprocess, sys
from collections import Counter

args = [a for a in sys.argv[1:] if a != "-v"]
commit = args[0] if args else None
verbose = "-v" in sys.argv


def run(*a):
    return subprocess.run(a, capture_output=True, text=True, check=True).stdout


def files(end):
    if commit:
        names = run("git", "ls-tree", "-r", "--name-only", commit, "crates").split()
    else:
        names = run("git", "ls-files", "crates").split()
    return sorted(n for n in names if n.endswith(end) and ("/src/" in n if end == ".rt" else True))


def read(name):
    return run("git", "show", f"{commit}:{name}") if commit else open(name).read()


code = []  # (file, line number, text) of each line of code, comments and imports aside
texts = {}
for f in files(".rt"):
    texts[f] = read(f)
    for i, l in enumerate(texts[f].split("\n"), 1):
        if l.strip() and not re.match(r"\s*(//|use |ghost use )", l):
            code.append((f, i, l))

found = {}


def point(name, lines):
    found[name] = lines


def by(rx, where=lambda f: True):
    return [(f, i, l.strip()) for f, i, l in code if where(f) and re.search(rx, l)]


clause = re.compile(r"^\s*(requires|ensures|ghost|≡)")
plain = [(f, i, l) for f, i, l in code if not clause.match(l)]


def in_code(rx):
    return [(f, i, l.strip()) for f, i, l in plain if re.search(rx, l)]


point("1 own enums like Option or Result", by(r"^\s*(Nothing|Granted\(|Refused\(|Odd),?"))
point("1 a number or NONE for none", in_code(r"(==|!=|>=) (NONE|FRESH)\b|\(NONE\)|[:=] NONE\b|return NONE|^\s*NONE$|\bj < 32 \{|s\.n == 0 \{"))
point("1 numbers for kinds and refusals", in_code(r"refusal: |return [1-9];|=> [0-9],|=> NONE,|\bkind [=<>]+ [0-9]|f\[0\] ==|which ==|t\[[A-Z]+\]|l\[(AT|LINE)\]|j\[[A-Z]+\]"))
twins = [
    ("mark_smallmap", "mark_treemap"), ("clear_smallmap", "clear_treemap"), ("smallmap", "treemap"), ("smallbin_at", "treebin_at"),
    ("set_smallbin", "set_treebin"), ("enter_smallbin", "enter_treebin"), ("relink_smallbin", "relink_treebin"),
    ("with_bit", "mark_bin"), ("without_bit", "clear_bin"), ("split_to_dv", "split_to_bin"), ("has", "lacks"), ("entered", "moved"),
    ("copy_links", "links_at"), ("one_number", "two_numbers"), ("number_of", "refusal_of"), ("number", "reason_number"),
    ("value_of", "offset_of"), ("put_record", "put_word"), ("try_record", "try_word"), ("two_mallocs", "two_frees"),
]
defs = [(f, i, m.group(1)) for f, i, l in code if (m := re.match(r"\s*(?:pub )?(?:extern \"C\" )?fn (\w+)", l))]
names = Counter(n for _, _, n in defs)
point("2 twins by name", [(f, i, n) for a, b in twins if names[a] and names[b] for f, i, n in defs if n in (a, b)])
same_body = Counter()
bodies = {}
for f, t in texts.items():
    for m in re.finditer(r"\nfn (\w+)[^{]*?(?:\n\{|\{)\n(.*?)\n\}", "\n" + t, re.S):
        bodies.setdefault(re.sub(r"\s+", " ", m.group(2)), []).append((f, 0, m.group(1)))
point("2 one body in two crates", [x for b, xs in bodies.items() if len(xs) > 1 and len(b) > 60 for x in xs])
point("2 frames written out for each call", in_code(r"if !words_ok\(w\.len\(\)\)|if !ready\(|if !lent_ok\(|let mut r = image_(of|in)\("))
point("3 loops that count by hand", in_code(r"^\s*while "))
point("4 copying, equality, printing by hand", in_code(r"\b(\w+): \1,|write_all\(b\"|say::(text|number)\(|fn (same|copy|wide|one_more|text|number)\("))
req = Counter(re.sub(r"^\s*requires (\w+ )?", "", l).strip() for _, _, l in code if l.strip().startswith("requires"))
point("5 a fact in three contracts or more", [(f, i, l.strip()) for f, i, l in code if l.strip().startswith("requires") and req[re.sub(r"^\s*requires (\w+ )?", "", l).strip()] > 2])
flat = {f: re.sub(r"\(\n\s+", "(", t) for f, t in texts.items()}
pairs = []
for f, t in texts.items():
    for m in re.finditer(r"fn (\w+)(<[^(]*>)?\(([^)]*)\)", t):
        p = re.sub(r"\s+", " ", m.group(3))
        if re.search(r"r: &mut \[u64; 72\],? .*w: &mut \[u64|j: &mut \[u64; 40\]|sizes: &(mut )?\[u64; MARK_WORDS\], .*up: u64|line: &mut \[u8\], r:|out: &mut \[u8\], at: usize|f: &\[u64; 10\], r", p):
            pairs.append((f, t[: m.start()].count("\n") + 1, m.group(1)))
point("5 parameters that travel together", pairs)
point("6 arrays by constant index, a length beside a buffer", in_code(r"\[u64; (40|10|8)\]|out: &mut \[u8\], at: usize|\bheld: usize"))
point("7 switches on a number of which step", in_code(r"which ==|if kind|f\[0\] =="))
answers = files("Answers.antt")
point("8 files of answers", [(f, 0, "") for f in answers])

for name, lines in found.items():
    print(f"{len(lines):5}  {name}")
    if verbose:
        for f, i, l in lines:
            print(f"         {f[7:]}:{i}: {l[:100]}")
