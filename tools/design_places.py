#!/usr/bin/env python3
"""Counts the places of docs/DESIGN-PASS.md in the src/ folders of a tree, and prints them with -v.

    tools/design_places.py [-v] [FOLDER]        FOLDER: a checkout, by default this one
"""
import collections
import pathlib
import re
import sys

verbose = "-v" in sys.argv
words = [w for w in sys.argv[1:] if w != "-v"]
root = pathlib.Path(words[0] if words else pathlib.Path(__file__).resolve().parent.parent)
sources = sorted(p for p in (root / "crates").glob("*/src/*.rt"))

# Point, what is counted, and the line that shows a place of it.
LINES = [
    (1, "an enum of the shape of Option", r"^    None,$"),
    (1, "a number for a refusal or a kind", r"\b(refusal|kind): u64\b"),
    (1, "a flag with a value beside it", r"\b(fit|expanded): bool\b"),
    (1, "a number that says 'none'", r"//.*(, or 0\b|; 0 if|\(0: |\b0 if (the|it|there|that)|if that is 0|node 0 says|answers \"none\"|256 of any|past all nodes|or 0 if)"),
    (1, "a step by its number", r"% 2\b|2 \* \(node as u64\)"),
    (3, "an index counted by hand", r"^\s+[a-z]+ [+-]= 1;$"),
    (3, "a loop by `while`", r"^\s+('\w+: )?while\b"),
    (4, "a struct of zeros written out", r"^\s+(version|length): 0,$|^\s+kind: 0,$"),
    (4, "a struct copied field by field", r"^\s+index: n\.index,$"),
    (4, "tests of one field each, left by `return false`", r"^\s+return false;$"),
    (4, "printing by hand", r"\b(text|number)\(rt, b\""),
    (6, "an array with a length beside it", r"^    (pub )?(len: u64|region_count: u64|count: usize),$|let mut n: usize = 0;"),
    (6, "parallel arrays", r"\b(parents|indices|counts): &(mut )?\[u64; 256\]"),
    (6, "a sorted list searched by hand", r"let mid = "),
    (7, "a flag that says which step to run", r"\bupdating: bool\b"),
]


def functions(text):
    """(name, clauses, body) of each function that has a body."""
    for m in re.finditer(r"^( *)(?:pub(?:\(crate\))? )?fn (\w+)", text, re.M):
        head = text[m.start():]
        start = re.search(r"\{$", head, re.M)
        end = re.search(r"^%s\}$" % m.group(1), head, re.M)
        if start and end and start.start() < end.start():
            facts = re.findall(r"(?:requires|ensures)(?: \w+)? \{ (.*) \}$", head[: start.start()], re.M)
            yield m.group(2), facts, head[start.start(): end.end()]


def shape(body):
    """The body with each name replaced by the number of its first use."""
    seen = {}
    keep = {"if", "else", "while", "for", "in", "let", "mut", "return", "true", "false", "as", "match", "break", "continue"}
    return re.sub(r"[A-Za-z_]\w*|\d+", lambda w: w.group(0) if w.group(0) in keep else "#%d" % seen.setdefault(w.group(0), len(seen)), re.sub(r"//.*", "", body))


def show(point, what, places):
    print("%d  %3d  %s" % (point, len(places), what))
    if verbose:
        for place in places:
            print("          %s" % place)


texts = {p: p.read_text() for p in sources}
for point, what, pattern in LINES[:5]:
    show(point, what, ["%s:%d: %s" % (p.relative_to(root), n, line.strip()) for p, t in texts.items() for n, line in enumerate(t.split("\n"), 1) if re.search(pattern, line)])

shapes, clauses = collections.defaultdict(list), collections.defaultdict(set)
for p, t in texts.items():
    for name, facts, body in functions(t):
        if body.count("\n") > 3:
            shapes[shape(body)].append("%s %s" % (p.relative_to(root), name))
        for fact in facts:
            if "result" not in fact:
                clauses[fact].add("%s %s" % (p.relative_to(root), name))
show(2, "functions of one shape, names apart", [" = ".join(v) for v in shapes.values() if len(v) > 1])

for point, what, pattern in LINES[5:11]:
    show(point, what, ["%s:%d: %s" % (p.relative_to(root), n, line.strip()) for p, t in texts.items() for n, line in enumerate(t.split("\n"), 1) if re.search(pattern, line)])
show(5, "a requires that three functions or more have", ["%s: %s" % (k, ", ".join(sorted(v))) for k, v in clauses.items() if len(v) > 2])
for point, what, pattern in LINES[11:]:
    show(point, what, ["%s:%d: %s" % (p.relative_to(root), n, line.strip()) for p, t in texts.items() for n, line in enumerate(t.split("\n"), 1) if re.search(pattern, line)])
lines = sum(len(p.read_text().split("\n")) - 1 for p in (root / "crates").glob("*/proofs/**/*.antt"))
print("8  %d lines of proofs, %d of src" % (lines, sum(len(t.split("\n")) - 1 for t in texts.values())))
