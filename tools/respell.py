#!/usr/bin/env python3
"""Respells the definitions and lemmas of specs/ and proofs/ in snake case, over all crates.

usage: python3 tools/respell.py [--list]     at the top of the repository; --list prints the names and changes nothing

Types, records' names, constructors and the functions of src/ keep their names. A name of two or more words becomes
snake case; a dash stays only where it joins names of specs/ or of the library (a law about these), and is '_' elsewhere.
Prints each name that falls together with another one.
"""
import collections
import glob
import re
import sys

WORD = r"[A-Za-z0-9_'\-\u0370-\u03ff\u1d00-\u1dbf\u2070-\u209f\u2032]"
HEAD = re.compile(r"^( *)(?:abbrev |unfoldable |pub )*(data|record|ruleset) ([^\s:({]+)")
DEF = re.compile(r"^( *)(?:abbrev |unfoldable |pub )*([^\s:(){}=,]+) : ")
# words of the library whose laws are stated here
LIBRARY = {"take", "drop", "map", "length", "sum", "replicate", "append", "get_or", "set", "refl"}
# what an older library called a word
OLDER = {"getD": "get_or"}


def files():
    for folder in ("specs", "proofs"):
        yield from sorted(glob.glob(f"crates/*/{folder}/**/*.antt", recursive=True))


def defined(path):
    """The names that a file defines: (name, what it is: a type, a definition or a field)."""
    block = None
    with open(path, encoding="utf-8") as f:
        for line in f:
            if line.startswith(("use ", "--")):
                continue
            head = HEAD.match(line)
            if head:
                block = head.group(2), len(head.group(1))
                yield head.group(3), "type"
                continue
            found = DEF.match(line)
            if not found or " : goal." in line:
                continue
            if block and len(found.group(1)) == block[1] + 2:
                yield found.group(2), "field" if block[0] == "record" else "type"
            else:
                block = None
                yield found.group(2), "definition"


def snake(part):
    if part in OLDER:
        return OLDER[part]
    if part[:1].isupper():
        return part
    return re.sub(r"(?<=[a-z0-9])([A-Z])", lambda m: "_" + m.group(1), part).lower()


def respelled(name, kind, known):
    parts = name.split("-")
    joins = "-" if kind == "definition" and all(p in known for p in parts) else "_"
    return joins.join(snake(p) for p in parts)


def main():
    kinds, places = {}, collections.defaultdict(set)
    for path in files():
        for name, kind in defined(path):
            places[name].add(path)
            if kind != "type" and kinds.get(name) != "field":
                kinds[name] = kind
    known = {n for n in places if any("/specs/" in p for p in places[n])} | LIBRARY | set(OLDER)
    turn = {n: respelled(n, kind, known) for n, kind in sorted(kinds.items())}
    turn = {a: b for a, b in turn.items() if a != b}
    made = collections.defaultdict(set)
    for old, new in turn.items():
        made[new].add(old)
    for new, olds in sorted(made.items()):
        others = olds | ({new} if new in places else set())
        if len(others) > 1:
            print(f"together: {', '.join(sorted(others))} -> {new}: {sorted(set().union(*(places[o] for o in others)))}")
    if "--list" in sys.argv[1:]:
        for old, new in sorted(turn.items()):
            print(f"{old} -> {new}")
        return
    token = re.compile(rf"(?<!{WORD}){WORD}+")
    for path in [*files(), *sorted(glob.glob("crates/*/src/**/*.rt", recursive=True))]:
        with open(path, encoding="utf-8") as f:
            text = f.read()
        after = token.sub(lambda m: turn.get(m.group(0), m.group(0)), text)
        if after != text:
            with open(path, "w", encoding="utf-8") as f:
                f.write(after)
            print(f"changed: {path}")


if __name__ == "__main__":
    main()
