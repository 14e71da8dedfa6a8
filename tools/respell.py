#!/usr/bin/env python3
"""respell.py [ROOT]: brings the names of this repository's definitions and lemmas to today's spelling, once.

A function or a lemma is in snake case, a type in camel case with no dash. The names are those that specs/ and
proofs/ declare, those of record fields and of modules inside a file among them, but not the goals that Rattle names. In src/ and
must-fail/ such a name stands in clauses alone, as no name of a program has a dash or a capital inside.
Prints each new name, and each that falls together with another word of a file in which it comes to stand.
"""
import re
import sys
from pathlib import Path

root = Path(sys.argv[1] if len(sys.argv) > 1 else ".")
WORD = re.compile(r"[A-Za-z_][A-Za-z0-9_'\-]*")
DECLARED = re.compile(r"^(?:(?:pub|abbrev|unfoldable|data|record|ruleset) +)*([A-Za-z_][A-Za-z0-9_'\-]*)(?: +:| +\()")
GOAL = re.compile(r":\s*goal\.")
INNER = re.compile(r"^ +(?:pub )?([A-Za-z_][A-Za-z0-9_'\-]*) :")


# A lemma on what one function gives of another keeps its dash, one that would have its function's name ends in _lem,
# and one that would fall together with a definition has another name.
BY_HAND = {
    "getD-cards": "get_or-cards",
    "length-cards": "length-cards",
    "from1-at": "from1-at",
    "at-changed": "at-changed",
    "from1-changed": "from1-changed",
    "slot-at": "slot_at_lem",
    "bad-name": "bad_refused",
}


def new_name(name):
    if name in BY_HAND:
        return BY_HAND[name]
    words = re.sub(r"-+", "_", name)
    if name[0].isupper():
        return "".join(w[:1].upper() + w[1:] for w in words.split("_"))
    return re.sub(r"(?<=[a-z0-9])([A-Z])", lambda m: "_" + m.group(1).lower(), words)


def antt_files():
    return sorted(p for part in ("specs", "proofs") for p in root.glob(f"crates/*/{part}/**/*.antt"))


def declared():
    names = set()
    for path in antt_files():
        for line in path.read_text().split("\n"):
            found = DECLARED.match(line) or INNER.match(line)
            if found and not GOAL.search(line):
                names.add(found.group(1))
    return names


table = {n: new_name(n) for n in declared() if new_name(n) != n}
for old, new in sorted(table.items()):
    print(f"{old} -> {new}")
texts = antt_files() + sorted(root.glob("crates/*/src/**/*.rt")) + sorted(root.glob("crates/*/must-fail/*.edit"))
for path in texts:
    text = path.read_text()
    words = set(WORD.findall(text))
    for old in sorted(words & table.keys()):
        if path.suffix == ".antt" and table[old] in words:
            print(f"together: {path}: {old} and {table[old]}")
    turned = WORD.sub(lambda m: table.get(m.group(0), m.group(0)), text)
    if turned != text:
        path.write_text(turned)
