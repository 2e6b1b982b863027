#!/usr/bin/env python3
"""Brings the names of this repository's own definitions and lemmas to snake case.

Run once at the top of the repository, after the kit's port.py. Types and facts keep their capital, functions of
src/ keep their names, and so do the names that the kit makes for the goals of a proof file.
`respell.py --list` prints what it would rename.
"""
import collections
import glob
import re
import sys

ITEM = re.compile(
    r'^(?:abbrev |unfoldable )?(?:pub )?(?:ruleset )?([^\s(){}:=]+)(?= (?:\{[^=\n]*)?(?:\([^=\n]*)?:)|'
    r'^  +(?:abbrev |unfoldable )?(?:pub )?([a-z][^\s(){}:=]*)(?= :)|^ruleset (?:pub )?([^\s(){}:=]+)', re.M)
TOKEN = re.compile(r"[^\s(){}\[\],.;:«»`\"]+")
KEYWORDS = {'use', 'open', 'mod', 'pub', 'where', 'let', 'in', 'record', 'data', 'unfolding'}


def snake(name):
    name = name.replace('getD', 'get_or').replace('-', '_')
    name = re.sub(r'(?<=[a-z0-9])([A-Z])', lambda m: '_' + m.group(1).lower(), name)
    return name.replace('′', "'")


def is_ours(name):
    return name[0].islower() and name not in KEYWORDS and snake(name) != name


# Names that the kit makes for the goals and members of a cycle, and names of proof records.
MADE = re.compile(r'^(visit|walk)-(add|mul|sub|element|loop|returns|calls|Pre|allowance|walk|visit|count|next)|'
                  r'^(well-formed|returns-\d|loop-(again|holds|less).*|close-order-requires|next-child-requires.*|'
                  r'element-.*|add-next-child|add-result|mul-next-child|mul-out|sub-close-order|'
                  r'count-at-requires|.*-requires-clause-.*)$')
# A lemma whose name is an English word in comments, and that of a field which the kit makes.
WELL_FORMED = re.compile(r'(?m)^(?!\s*--)(.*?)(?<![.\w-])well-formed(?![\w-])')
# A lemma whose name would fall together with that of a definition or function.
LEMMAS = {'child-total', 'fetch-row', 'first-row', 'logged-when', 'moved-above', 'nodes-ok', 'open-child', 'path-row',
          'row-total', 'same-model', 'same-node', 'same-region', 'seek-from', 'sum-up', 'total-moved', 'row-of',
          'dec-lt', 'end-of', 'is-sound', 'next-child', 'open-at', 'same-list', 'rows-below', 'step-open',
          'visit-step', 'close-all', 'with-regions'}


def renames():
    """The old and new names of what specs/ and proofs/ define."""
    found = {}
    for path in sorted(glob.glob('crates/*/specs/*.antt') + glob.glob('crates/*/proofs/**/*.antt', recursive=True)):
        walked = path.count('/') > 3
        for match in ITEM.finditer(open(path).read()):
            name = match.group(1) or match.group(2) or match.group(3)
            if not is_ours(name) or MADE.match(name):
                continue
            line = match.string[match.start():].split('\n', 1)[0]
            if walked and (': tie.' in line or ': goal.' in line or name.endswith('-spec') or 'statement' in line):
                continue
            found.setdefault(name, snake(name) + ('_lem' if name in LEMMAS else ''))
    found.update({name: snake(name) for name in ('allVisits', 'zeroModel')})
    return found


def main():
    table = renames()
    if '--list' in sys.argv:
        for old, new in sorted(table.items()):
            print(old, new)
        return
    falls = collections.Counter(table.values())
    double = [new for new, n in falls.items() if n > 1]
    assert not double, double
    paths = glob.glob('crates/*/specs/*.antt') + glob.glob('crates/*/proofs/**/*.antt', recursive=True)
    for path in paths:
        text = open(path).read()
        new = TOKEN.sub(lambda m: table.get(m.group(0), m.group(0)), text)
        while WELL_FORMED.search(new):
            new = WELL_FORMED.sub(r'\1well_formed', new)
        if new != text:
            open(path, 'w').write(new)
    for path in glob.glob('crates/*/src/**/*.rt', recursive=True):
        text = open(path).read()
        new = clauses(text, table)
        if new != text:
            open(path, 'w').write(new)


def clauses(text, table):
    """The same in the ghost imports and the clauses of a source file."""
    out = []
    for line in text.split('\n'):
        if re.match(r'\s*(ghost use|requires|ensures)\b', line):
            line = TOKEN.sub(lambda m: table.get(m.group(0), m.group(0)), line)
        out.append(line)
    return '\n'.join(out)


main()
