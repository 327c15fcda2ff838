#!/usr/bin/env python3
"""Counts the places in src/ that docs/DESIGN-PASS.md speaks of.

    tools/places.py [COMMIT] [-v]

reads crates/*/src of the working tree, or of a commit, and prints for each point how many places it finds; with -v each of
them. It looks at the text alone, so it lists candidates: the page says of each what became of it.
"""
import collections
import glob
import os
import re
import subprocess
import sys
import tempfile

VERBOSE = "-v" in sys.argv
COMMITS = [a for a in sys.argv[1:] if not a.startswith("-")]


def sources(root):
    for path in sorted(glob.glob(os.path.join(root, "crates/*/src/**/*.rt"), recursive=True)):
        yield os.path.relpath(path, root), open(path).read()


def block(text, start):
    """The text of the braces that open at or after start."""
    at = text.index("{", start)
    depth = 0
    for i in range(at, len(text)):
        depth += {"{": 1, "}": -1}.get(text[i], 0)
        if depth == 0:
            return text[at : i + 1]
    return text[at:]


FN = re.compile(r"^( *)(?:pub(?:\(crate\))? )?fn (\w+)", re.M)
CLAUSE = re.compile(r"^ *(requires|ensures)\*? ?(\w*) ?\{ (.*) \}[,;]?$", re.M)


def functions(text):
    """(name, parameters, clauses, body) of each function."""
    found = list(FN.finditer(text))
    for m in found:
        rest = text[m.end() :]
        body_at = re.search(r"^%s\{$|[^,] \{$|\{\}$|;$" % m.group(1), rest, re.M)
        clauses = CLAUSE.findall(rest[: rest.find("\n" + m.group(1) + "{")]) if "\n" + m.group(1) + "{" in rest else []
        head = rest[: rest.index(")")] if ")" in rest else ""
        if body_at is None or body_at.group().endswith(";"):
            yield m.group(2), head, clauses, ""
            continue
        yield m.group(2), head, clauses, block(rest, body_at.start())


def shape(body):
    """A body without its names and numbers."""
    body = re.sub(r"//.*", "", body)
    tokens = re.findall(r"\"[^\"]*\"|\w+|[^\s\w]", body)
    keep = {"if", "else", "for", "in", "while", "loop", "match", "return", "let", "mut", "self", "true", "false", "Ok", "Err", "Some", "None"}
    return " ".join(t if t in keep or not re.match(r"\w|\"", t) else "x" for t in tokens)


def places(root):
    out = collections.OrderedDict((k, []) for k in "1a 1b 1c 1d 2 3a 3b 4a 4b 4c 5a 5b 6 7".split())
    shapes = collections.defaultdict(list)
    facts = collections.defaultdict(set)
    sets = collections.defaultdict(set)
    for path, text in sources(root):
        for m in re.finditer(r"^(?:pub(?:\(crate\))? )?enum (\w+)", text.replace("    enum", "enum"), re.M):
            variants = re.findall(r"^ *(\w+)( ?[({])?", block(text, text.index("enum " + m.group(1)))[1:], re.M)
            variants = [v for v in variants if v[0][0].isupper()]
            if len(variants) in (2, 3) and any(v[1] for v in variants):
                out["1a"].append(f"{path}: enum {m.group(1)}")
        for i, line in enumerate(text.split("\n"), 1):
            here = f"{path}:{i}: {line.strip()}"
            if line.strip().startswith("//"):
                if re.search(r"\b0 (ends|for none|where|if there is none)|one more than", line):
                    out["1d"].append(here)
                continue
            if re.search(r"\b(while|loop)\b", line):
                out["3a"].append(here)
            if re.search(r"\bfor \w+ in [^{]*\.\.", line):
                out["3b"].append(here)
            out["4b"] += [here] * len(re.findall(r"\bas (?:u8|u16|u32|u64|usize)\b", line))
            if "matches!" in line:
                out["4c"].append(here)
        for name, head, clauses, body in functions(text):
            where = f"{path}: {name}"
            if "&mut" in head and re.search(r"fn %s\b[^{;]*-> bool" % name, text):
                out["1b"].append(where)
            if len(re.findall(r"=> (?:\(?\d+)", body)) >= 2:
                out["1c"].append(where)
            if len(re.findall(r"=> (?:format!|\"|String::from_str)", body)) >= 2 or name in ("from", "eq", "cmp", "clone"):
                out["4a"].append(where)
            if len(body) > 60:
                shapes[shape(body)].append(where)
            for kind, _, fact in clauses:
                fact = re.sub(r"\.(old|now|new|entry)\b", "", fact)
                fact = re.sub(r"\bself\.(?=map|visits)", "", fact)
                facts[fact].add(where)
            names = frozenset(re.findall(r"(\w+): [&\w]", head))
            for pair in [(a, b) for a in names for b in names if a < b]:
                sets[pair].add(where)
            arms = re.findall(r"=> (?:self\.|\w+\.)?[a-z_]\w*\([^()]*\)[?]?,", body)
            if len(arms) >= 3:
                out["7"].append(where)
        for m in re.finditer(r"^(?:pub(?:\(crate\))? )?struct (\w+)[^;{]*\{", text, re.M):
            fields = re.findall(r"^ *(?:pub(?:\(crate\))? )?(\w+): (.*),$", block(text, m.start()), re.M)
            lists = [f for f, t in fields if re.match(r"(&'\w+ (mut )?)?\[|Vec<", t)]
            sizes = [f for f, t in fields if t in ("usize", "u16") and f in ("len", "count", "head", "at", "offset", "taken")]
            if len(lists) >= 2 or (lists and sizes):
                out["6"].append(f"{path}: struct {m.group(1)} ({', '.join(lists + sizes)})")
    for group in shapes.values():
        if len(group) > 1:
            out["2"].append(" = ".join(group))
    for fact, where in facts.items():
        if len(where) >= 3:
            out["5a"].append(f"{fact}  in {len(where)} functions")
    for pair, where in sets.items():
        if len(where) >= 4 and "self" not in pair:
            out["5b"].append(f"{' and '.join(pair)}  in {len(where)} functions")
    return out


SAYS = {
    "1a": "enums of two or three cases, some with a value",
    "1b": "functions that write and answer by a bool",
    "1c": "functions that give a number for each case",
    "1d": "comments that tell of a number that stands for none",
    "2": "groups of functions whose bodies differ in names and numbers alone",
    "3a": "while and loop",
    "3b": "for over a range of numbers",
    "4a": "functions that convert, compare or print case by case",
    "4b": "casts by as",
    "4c": "matches! in place of ==",
    "5a": "facts that stand in the contracts of three or more functions",
    "5b": "pairs of parameters that four or more functions have",
    "6": "structs of parallel lists, or of a list with a number beside it",
    "7": "matches of three or more arms that each make a call",
}


def main():
    root = subprocess.run(["git", "rev-parse", "--show-toplevel"], capture_output=True, text=True, check=True).stdout.strip()
    with tempfile.TemporaryDirectory() as work:
        if COMMITS:
            tar = subprocess.run(["git", "-C", root, "archive", COMMITS[0], "crates"], capture_output=True, check=True).stdout
            subprocess.run(["tar", "-x", "-C", work], input=tar, check=True)
            root = work
        for point, found in places(root).items():
            print(f"{point:3} {len(found):4}  {SAYS[point]}")
            if VERBOSE:
                for place in found:
                    print(f"          {place}")


main()
