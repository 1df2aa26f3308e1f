#!/usr/bin/env python3
"""Lists the places in crates/*/src that a design pass looks at, point by point; whether a place is one is read by a person.

Run: tools/places.py [POINT] [ROOT]. POINT is 1 to 8, or nothing for all of them with a count each; ROOT is the top of a checkout.
  1  enums with their variants, functions that answer a bool, fields of type bool, comparisons with a bare number that stands for a kind
  2  functions whose text is the same but for names, types, numbers and constants (at least 25 tokens)
  3  loops over a range or with a condition
  4  impls of Display, From and the comparisons; functions that answer a text; loops and functions that copy or compare
  5  requires clauses that stand in three contracts of a crate or more; three parameters in a row that stand in three functions or more
  6  fixed buffers of which a part is used; a length beside the buffer that it measures; searches in a list
  7  tests of a number that picks a step; function pointers, dyn, closures
  8  proof answers and lines of proofs, by crate
"""
import collections
import pathlib
import re
import sys

ROOT = pathlib.Path(sys.argv[2] if len(sys.argv) > 2 else ".")
FUNCTION = re.compile(r"^( *)(?:pub(?:\(crate\))? )?(?:const )?fn (\w+)")
CLAUSE = re.compile(r"^\s*(requires|ensures)\*? ?(\w*) ?\{ (.*) \}")


def sources():
    for path in sorted(ROOT.glob("crates/*/src/**/*.rt")):
        yield path.relative_to(ROOT), path.read_text().splitlines()


def functions():
    """Each function: file, line, name, its lines."""
    for path, lines in sources():
        i = 0
        while i < len(lines):
            start = FUNCTION.match(lines[i])
            if not start:
                i += 1
                continue
            end = i
            opened = False
            while end + 1 < len(lines):
                line = lines[end]
                if not opened and re.search(r";\s*$", line):
                    break
                if not opened and re.search(r"\{.*\}\s*$", line) and not CLAUSE.match(line):
                    break
                if opened and line == start[1] + "}":
                    break
                opened = opened or bool(re.search(r"\{\s*$", line))
                end += 1
            yield path, i + 1, start[2], lines[i : end + 1]
            i = end + 1


def matching(*patterns):
    for path, lines in sources():
        for number, line in enumerate(lines, 1):
            text = line.split("//")[0]
            if any(re.search(pattern, text) for pattern in patterns) and "ghost use" not in text:
                yield f"{path}:{number}: {line.strip()[:120]}"


def enums():
    yield from matching(r"\benum \w+")
    yield from matching(r"-> bool\b")
    yield from matching(r"^\s*(pub )?\w+: bool,")
    yield from matching(r"\bif \w+ == \d+\b")


def shape(lines):
    text = " ".join(line.split("//")[0] for line in lines if not CLAUSE.match(line))
    tokens = re.findall(r"\w+|[^\w\s]", text)
    names = {}
    out = []
    for token in tokens:
        if re.match(r"(fn|pub|crate|let|mut|if|else|for|in|while|match|return|self|Self|as|impl|where|const)$", token):
            out.append(token)
        elif re.match(r"\w", token):
            out.append(str(names.setdefault(token, len(names))) if token[0].islower() else "N")
        else:
            out.append(token)
    return tokens, " ".join(re.sub(r"^\d+$", "n", token) for token in out)


def twins():
    groups = collections.defaultdict(list)
    for path, number, name, lines in functions():
        tokens, key = shape(lines)
        if len(tokens) >= 25:
            groups[key].append(f"{path}:{number}: {name}")
    for group in groups.values():
        if len(group) > 1:
            yield " | ".join(group)


def facts():
    clauses = collections.defaultdict(list)
    rows = collections.defaultdict(list)
    for path, number, name, lines in functions():
        for line in lines:
            clause = CLAUSE.match(line)
            if clause and clause[1] == "requires":
                clauses[path.parts[1], re.sub(r"\b(old|now|new|entry)\b", "at", clause[3])].append(f"{path}:{number}: {name}")
        head = " ".join(lines).split("{")[0]
        parameters = re.findall(r"(\w+): ([^,()]+)", head)
        for at in range(len(parameters) - 2):
            rows[path.parts[1], tuple(f"{n}: {t.strip()}" for n, t in parameters[at : at + 3])].append(f"{path}:{number}: {name}")
    for (crate, fact), places in clauses.items():
        if len(places) >= 3:
            yield f"{crate}: {{ {fact} }} in {len(places)}: " + " | ".join(places)
    for (crate, row), places in rows.items():
        if len(places) >= 3:
            yield f"{crate}: ({', '.join(row)}) in {len(places)}: " + " | ".join(places)


def proofs():
    for crate in sorted(ROOT.glob("crates/*")):
        files = list(crate.glob("proofs/**/*.antt"))
        lines = sum(len(f.read_text().splitlines()) for f in files)
        answers = sum(len(re.findall(r"^(?:abbrev )?pub ", f.read_text(), re.M)) for f in files if f.name == "Answers.antt")
        yield f"{crate.name}: {answers} answers, {lines} lines of proofs"


POINTS = {
    "1": enums,
    "2": twins,
    "3": lambda: matching(r"\bfor \w+ in .*\.\.", r"\bwhile\b"),
    "4": lambda: matching(
        r"impl.* (fmt::Display|From<|PartialEq|PartialOrd|Ord|TryFrom)", r"-> &'static str", r"fn (copy|same|equal)\w*", r"\|= .*\^"
    ),
    "5": facts,
    "6": lambda: matching(r"\[0; [A-Z_]{2,}\]", r"^\s*(text|count|n|filled|front|schedule): usize,?$", r"\bfn find\b", r"\.find\("),
    "7": lambda: matching(r"\bif \w+ == \d+ \{", r"\bfn\(", r"\bdyn\b", r"\bFn(Mut|Once)?\("),
    "8": proofs,
}

if __name__ == "__main__":
    chosen = sys.argv[1] if len(sys.argv) > 1 else ""
    for point, places in POINTS.items():
        if chosen in ("", point):
            found = list(places())
            print(f"point {point}: {len(found)}")
            print("\n".join("  " + place for place in found))
