"""Lists the places in src/ where an older form of the language may stand, point by point; a row is a place to look at.

usage: python3 tools/forms.py [-v] [FOLDER]     counts a crate and point, with -v each place; FOLDER is the repository
"""

import difflib
import pathlib
import re
import sys

NUMBERS = "u8|u16|u32|u64|u128|usize"

# A point's name, and what a line of it looks like.
LINES = {
    "1 enums of our own": r"^\s*(pub(\(crate\))? )?enum \w+",
    "1 answers taken apart by hand": r"^\s*(let \(?(Ok|Some)\(.*|(Ok|Err|Some|None)(\(\w+\))? => .*|.*\.is_(err|ok)\(\).*)$",
    "3 loops over a range": r"^\s*for \w+ in .*\.\.",
    "3 loops that hand on their index": r"\.enumerate\(\)",
    "3 while loops": r"^\s*while ",
    "3 counters": r"^\s*[\w.]+ (\+=|-=) ",
    "4 bytes put together or copied": r"copy_from_slice|from_be_bytes|to_be_bytes|from_slice",
    "4 functions that print or name": r"^\s*(pub(\(crate\))? )?fn (print\w*|show\w*|text|words_of|number|fault|report)\b",
    "6 inserting by place": r"\.insert\(|partition_point|binary_search",
    "7 chains of tests": r"else if",
    "7 tables and functions as values": r"\bdyn |[:(] ?fn\(|: \[\w+; \d+\] = \[$",
}

# The same for the fields of a struct.
FIELDS = {
    "1 flags in structs": r"^\s*(pub(\(crate\))? )?\w+: (bool|\[bool; .*\]),$",
    "6 a length or count kept in a struct": rf"^\s*(pub(\(crate\))? )?(count|len|length|size|taken|filled|place): ({NUMBERS}),$",
    "6 rows kept in a struct": r"^\s*(pub(\(crate\))? )?\w+: (Vec<.*>|\[.*; \w+\]|&('\w+ )?\[.*\]),$",
}


def sources(root):
    """Every source file of the crates, by crate."""
    for path in sorted(root.glob("crates/*/src/**/*.rt")):
        yield path.relative_to(root / "crates").parts[0], path


def fields(text):
    """Each field of each struct, with its line."""
    for found in re.finditer(r"^(?:pub(?:\(crate\))? )?struct .*\{\n((?:.*\n)*?)\}$", text, re.M):
        first = text.count("\n", 0, found.start(1)) + 1
        for number, line in enumerate(found.group(1).splitlines(), first):
            yield number, line


def functions(text):
    """Name, parameters, clauses and body of each function, with the line where it stands."""
    for found in re.finditer(r"^( *)(?:pub(?:\(crate\))? )?fn (\w+)", text, re.M):
        indent, name = found.group(1), found.group(2)
        end = re.search(rf"^{indent}(?:\}}|.*;)$", text[found.start():], re.M)
        whole = text[found.start(): found.start() + (end.end() if end else 0)]
        head, _, body = whole.partition(f"\n{indent}{{\n")
        if not body and "{\n" in whole:
            head, _, body = whole.partition("{\n")
        yield text.count("\n", 0, found.start()) + 1, name, head, body


def parameters(head):
    """The parameters of a function but self, each with its type."""
    inside = re.search(r"fn \w+(?:<[^(]*>)?\((.*?)\)(?: ->|\s*$|\n\s*(?:requires|ensures))", head, re.S)
    found = re.findall(r"(\w+): ([^,()]+(?:\([^)]*\))?)", inside.group(1) if inside else "")
    return {(name, " ".join(kind.split())) for name, kind in found if name != "self"}


def conjuncts(head):
    """The facts of a function's clauses."""
    for clause in re.findall(r"^\s*(?:requires|ensures)\s*\w*\s*\{ (.*) \}$", head, re.M):
        for part in re.split(r" × ", clause):
            part = part.strip()
            while part.startswith("(") and part.count("(") > part.count(")"):
                part = part[1:]
            while part.endswith(")") and part.count(")") > part.count("("):
                part = part[:-1]
            yield re.sub(r"^\((.*)\)$", r"\1", part)


def tokens(body):
    """A body with names and numbers made alike."""
    body = re.sub(r"//.*", "", body)
    words = re.findall(r"[A-Za-z_]\w*|\d\w*|\S", body)
    keep = {"let", "for", "in", "if", "else", "match", "return", "while", "mut", "Some", "None", "Ok", "Err"}
    return [w if w in keep or not re.match(r"\w", w) else "x" for w in words]


def alike(root):
    """Pairs of functions of which most of the body has one shape."""
    every = []
    for crate, path in sources(root):
        for line, name, _, body in functions(path.read_text()):
            shape = tokens(body)
            if len(shape) >= 20:
                every.append((crate, path, line, name, shape))
    for i, one in enumerate(every):
        for other in every[i + 1:]:
            if min(len(one[4]), len(other[4])) < 0.7 * max(len(one[4]), len(other[4])):
                continue
            ratio = difflib.SequenceMatcher(None, one[4], other[4], autojunk=False).ratio()
            if ratio >= 0.85:
                yield one[0], f"{one[3]} ({one[1].name}:{one[2]}) ~ {other[3]} ({other[0]}/{other[1].name}:{other[2]}) {ratio:.2f}"


def named_alike(root):
    """Functions of one name in several places, and those whose name is another's with an ending."""
    names = {}
    for crate, path in sources(root):
        for line, name, _, _ in functions(path.read_text()):
            names.setdefault(name, []).append((crate, f"{path.name}:{line}"))
    for name, places in sorted(names.items()):
        if len(places) > 1 and name not in ("new", "fmt", "from", "main"):
            yield places[0][0], f"{name} in {', '.join(f'{c}/{p}' for c, p in places)}"
        stem = re.sub(r"(_four|_each|_fours|_rest|_of|_all|\d+)$", "", name)
        if stem != name and stem in names:
            yield places[0][0], f"{name} beside {stem}"


def repeated(root):
    """Facts in the contracts of three or more functions of a crate, and pairs of parameters of three or more."""
    facts, pairs = {}, {}
    for crate, path in sources(root):
        for line, name, head, _ in functions(path.read_text()):
            for fact in set(conjuncts(head)):
                facts.setdefault((crate, fact), set()).add(name)
            given = sorted(parameters(head))
            for i, one in enumerate(given):
                for other in given[i + 1:]:
                    if one[0] not in ("rt", "heap") and other[0] not in ("rt", "heap"):
                        pairs.setdefault((crate, one, other), set()).add(name)
    for (crate, fact), where in sorted(facts.items()):
        if len(where) >= 3:
            yield "5 facts in three or more contracts", crate, f"{fact}   in {', '.join(sorted(where))}"
    for (crate, one, other), where in sorted(pairs.items()):
        if len(where) >= 3:
            yield "5 parameters that travel together", crate, f"{one[0]}, {other[0]}   in {', '.join(sorted(where))}"


def answers(root):
    """How many answers and lemmas the proofs of each crate have."""
    for path in sorted(root.glob("crates/*/proofs/**/*.antt")):
        crate = path.relative_to(root / "crates").parts[0]
        for line in path.read_text().splitlines():
            if re.match(r"(abbrev )?(pub )?\S+ : ", line):
                what = "8 answers" if " : goal." in line else "8 lemmas and definitions of proofs"
                yield what, crate, f"{path.name}: {line}"


def main():
    words = [w for w in sys.argv[1:] if w != "-v"]
    root = pathlib.Path(words[0] if words else ".").resolve()
    rows = []
    for crate, path in sources(root):
        for number, line in enumerate(path.read_text().splitlines(), 1):
            for point, pattern in LINES.items():
                if not line.lstrip().startswith("//") and re.search(pattern, line):
                    rows.append((point, crate, f"{path.name}:{number}: {line.strip()}"))
        for number, line in fields(path.read_text()):
            for point, pattern in FIELDS.items():
                if re.search(pattern, line):
                    rows.append((point, crate, f"{path.name}:{number}: {line.strip()}"))
        for number, name, head, _ in functions(path.read_text()):
            if "-> bool" in head and "&mut" in head:
                rows.append(("1 yes or no of a function that writes", crate, f"{path.name}:{number}: {name}"))
    rows += [("2 bodies of one shape", crate, text) for crate, text in alike(root)]
    rows += [("2 names that stand again", crate, text) for crate, text in named_alike(root)]
    rows += list(repeated(root)) + list(answers(root))
    for point in sorted({row[0] for row in rows}):
        here = [row for row in rows if row[0] == point]
        by_crate = {}
        for _, crate, _ in here:
            by_crate[crate] = by_crate.get(crate, 0) + 1
        print(f"{point}: {len(here)}  (" + ", ".join(f"{c} {n}" for c, n in by_crate.items()) + ")")
        if "-v" in sys.argv and not point.startswith("8"):
            for _, crate, text in here:
                print(f"    {crate}: {text}")


main()
