#!/usr/bin/env python3
"""Brings the names that this repository defines in specs/ and proofs/ to one spelling.

    tools/respell.py            (once, at the top of the repository; --list prints the renamings and changes nothing)

Types, and definitions whose name has a capital first, are in upper camel case; every other definition, lemma, field
and constructor is in snake case. A lemma whose name would be that of a function of src/ gets `_lem` after it. Names that
the check makes of the code (goals, steps, invariants) and names of the library keep their spelling, and so do the code's own
names; where code cites a name of ours, in a clause or in a comment, it is respelled there too.
"""
import collections
import glob
import re
import sys

TOKEN = re.compile(r"[^\s(){}\[\].;,:λ«»@#\"]+")
# Names that would fall together with another, and one that the kit's script respelled at its definition alone.
APART = {"inHand": "in_hand_count", "stands-in": "stands_in_lem"}
MISSED = {"first-out": "first_out"}
WORDS = ("pub", "abbrev", "unfoldable", "mutual", "data", "record", "infix", "infixl", "infixr")


def depth0(text, mark):
    """The first place of a mark outside of brackets and with spaces around it, or -1."""
    depth = 0
    for i, char in enumerate(text):
        depth += (char in "({[") - (char in ")}]")
        if depth == 0 and text.startswith(f" {mark}", i) and text[i + 1 + len(mark):i + 2 + len(mark)] in ("", " ", "\n"):
            return i
    return -1


def definitions(path):
    """(name, type) of each definition, field and constructor of a file, whatever module or where it stands in."""
    for line in open(path, encoding="utf-8"):
        line = line.split("--", 1)[0].rstrip()
        if not line or line.startswith("use ") or line.startswith("pub use ") or line.lstrip().startswith("|"):
            continue
        words = line.split()
        kinds = []
        while words and words[0] in WORDS:
            kinds.append(words.pop(0))
        if not words:
            continue
        rest = line.lstrip()
        for kind in kinds:
            rest = rest[len(kind):].lstrip()
        colon, equal = depth0(rest, ":"), depth0(rest, "=")
        if colon < 0 or (0 <= equal < colon):
            continue
        for name in TOKEN.findall(re.sub(r"[({].*", "", rest[:colon])):
            yield name, rest[colon + 2:].strip()


def spelled(name):
    if name[0].isupper():
        return "".join(part[:1].upper() + part[1:] for part in name.split("-"))
    name = re.sub(r"(?<=[a-z0-9])([A-Z])", lambda m: "_" + m.group(1).lower(), name)
    return name.replace("-", "_")


def new_name(renamed, text, match):
    """What stands for a token; a step `c.f`, which the check names after the function f, is not the lemma beside it."""
    name = match.group(0)
    if name in renamed and text[:match.start()].endswith("c."):
        return spelled(name)
    return renamed.get(name, name)


def main():
    antt = sorted(glob.glob("crates/*/specs/**/*.antt", recursive=True) + glob.glob("crates/*/proofs/**/*.antt", recursive=True))
    code = sorted(glob.glob("crates/*/src/**/*.rt", recursive=True))
    edits = sorted(glob.glob("crates/*/must-fail/*.edit"))
    functions = collections.defaultdict(set)
    for path in code:
        for name in re.findall(r"\bfn ([a-z_0-9]+)", open(path, encoding="utf-8").read()):
            functions[name].add(path.split("/")[1])
    own = {}
    for path in antt:
        for name, kind in definitions(path):
            if not kind.startswith("goal."):
                own.setdefault(name, set()).add("/proofs/" in path)
    renamed = {}
    for name in sorted(own):
        new = spelled(name)
        if new != name and own[name] == {True} and new in functions:
            new += "_lem"
        new = APART.get(name, new)
        if new != name:
            renamed[name] = new
    renamed.update(MISSED)
    texts = {path: open(path, encoding="utf-8").read() for path in antt + code + edits}
    tokens = collections.Counter(t for text in texts.values() for t in TOKEN.findall(text))
    falls = collections.defaultdict(list)
    for name, new in renamed.items():
        falls[new].append(name)
    for new, names in sorted(falls.items()):
        if len(names) > 1 or new in tokens:
            print("falls together:", new, names, "already there" if new in tokens else "", "function" if new in functions else "")
    if "--list" in sys.argv:
        for name, new in sorted(renamed.items()):
            print(name, new)
        return
    for path, text in texts.items():
        out = TOKEN.sub(lambda m: new_name(renamed, text, m), text)
        if out != text:
            open(path, "w", encoding="utf-8").write(out)
    print(f"renamed {len(renamed)} names")


main()
