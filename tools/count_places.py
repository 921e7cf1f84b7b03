#!/usr/bin/env python3
"""Counts the places of src/ that docs/DESIGN-PASS.md speaks of.

usage: python3 tools/count_places.py [-v] [FOLDER]    FOLDER: a checkout, else this one; -v prints each hit

A hit is a place to look at: the page says of each what was done, or why it stays.
"""
import re
import sys
from collections import defaultdict
from itertools import combinations
from pathlib import Path

VERBOSE = "-v" in sys.argv
FOLDERS = [a for a in sys.argv[1:] if a != "-v"]
ROOT = Path(FOLDERS[0]) if FOLDERS else Path(__file__).resolve().parent.parent

# point, what is looked for, the pattern of a line of code
LINES = [
    (1, "own enums", r"^\s*(pub(\(crate\))? )?enum "),
    (1, "fields that are flags", r"^\s*(pub(\(crate\))? )?\w+: bool,?$"),
    (1, "arms over an Option or a Result", r"(^|[^:\w])(Ok|Err|Some|None)(\([^)]*\))* =>"),
    (1, "Ok, Err, Some or None by an if", r"^\s*return (Err|None|Some|Ok)\b|else \{ (None|Some|Err|Ok)\b"),
    (1, "functions that answer a bool, or a Result in a Result or an Option", r"-> (bool|io::Result<Result|Result<Option)"),
    (1, "refusals and kinds by their numbers", r"const (BROKEN|AGAIN|PIPE|LIMIT|EBADF|EMFILE)\b|\.number\(\)|Mismatch\(255\)|\bshut: u32"),
    (3, "loops", r"^\s*(for|while|loop)\b"),
    (3, "elements by an index that is counted", r"^(?!.*\b(requires|ensures|ghost)\b).*\w\[[a-z_.]*\b(i|place|at|next|count|number|index)\b[^\]]*\]"),
    (4, "impls of Display, Debug and From", r"^impl.* (fmt::Display|fmt::Debug|From<.*>|PartialEq|Clone) for "),
    (4, "casts", r" as (u8|u16|u32|u64|usize|char)\b"),
    (4, "functions that compare, convert or name", r"\bfn (same_|into_|from_|to_|get_type|number|value|name|text|of\b|header_of)"),
    (6, "fields that are arrays", r"^\s+(pub(\(crate\))? )?\w+: \[.*; .*\],$"),
    (6, "fields that are a length or a place in a buffer", r"^\s+(pub(\(crate\))? )?(\w*_?(len|end|head|tail|first|at|place)): (usize|Span),$"),
    (7, "function types and dyn", r"\bfn\(|\bdyn |\bFn(Mut|Once)?\("),
    (7, "enums and matches that choose a step", r"enum (Step|Command)\b|match (name|kind|wanted|command)\b"),
]


def sources():
    for path in sorted((ROOT / "crates").glob("*/src/**/*.rt")):
        yield path, path.read_text().split("\n")


def crate(path):
    return path.relative_to(ROOT / "crates").parts[0]


def show(point, what, hits):
    by_crate = defaultdict(int)
    for where, _ in hits:
        by_crate[crate(where[0])] += 1
    split = ", ".join(f"{c} {n}" for c, n in sorted(by_crate.items()))
    print(f"{point}  {what}: {len(hits)}" + (f" ({split})" if hits else ""))
    if VERBOSE:
        for (path, line), text in hits:
            print(f"     {path.relative_to(ROOT)}:{line}: {text.strip()}")


def functions():
    """Each function with its path, line, head (the text before its body) and body."""
    for path, lines in sources():
        for i, line in enumerate(lines):
            if not re.match(r"\s*(pub(\(crate\))? )?fn \w+", line):
                continue
            indent = len(line) - len(line.lstrip())
            end = i
            while end + 1 < len(lines) and not re.match(r"\s{%d}\}|.*\};$" % indent, lines[end]):
                end += 1
            text = lines[i : end + 1]
            at = next((k for k, t in enumerate(text) if t.strip() == "{" or t.rstrip().endswith(" {")), len(text))
            yield path, i + 1, "\n".join(text[: at + 1]), "\n".join(text[at + 1 :])


def twins():
    """Pairs of functions whose bodies of two lines or more are the same but for names and numbers."""
    shapes = defaultdict(list)
    for path, line, head, body in functions():
        words = re.findall(r"\w+|[^\w\s]", re.sub(r"//.*", "", body))
        if len(words) < 12 or body.count("\n") < 2:
            continue
        shape = " ".join("x" if re.match(r"\w", w) and w not in ("if", "match", "for", "return", "let", "mut") else w for w in words)
        shapes[shape].append((path, line, re.search(r"fn (\w+)", head).group(1)))
    hits = []
    for same in shapes.values():
        for a, b in combinations(same, 2):
            hits.append(((a[0], a[1]), f"fn {a[2]} ~ {b[0].relative_to(ROOT)}:{b[1]} fn {b[2]}"))
    return hits


def together():
    """Pairs of parameters, by name and type, that three functions of a crate or more have in common."""
    users = defaultdict(list)
    for path, line, head, _ in functions():
        args = re.search(r"fn \w+(?:<[^(]*>)?\((.*?)\)(?: ->|\s|$)", head, re.S)
        names = re.findall(r"(\w+): ([^,]+)", args.group(1)) if args else []
        pairs = sorted({f"{n}: {' '.join(t.split())}" for n, t in names})
        for a, b in combinations(pairs, 2):
            users[crate(path), a, b].append((path, line))
    return [(found[0], f"{a}, {b}: {len(found)} functions") for (_, a, b), found in sorted(users.items()) if len(found) >= 3]


def facts():
    """Facts about an argument, by their leading word, that three functions of a file or more require or ensure."""
    users = defaultdict(set)
    for path, line, head, _ in functions():
        for kind, fact in re.findall(r"(requires|ensures)(?: \w+)? \{ \(?(\w+ [\w.]+|[^}]*?[≤<] length [\w.]+)", head):
            fact = re.sub(r"\.(now|old|new)\b", "", fact)
            name = re.match(r"[A-Z]\w+", fact)
            users[path, name.group(0) if name else re.sub(r"^[^≤<]*", ".. ", fact)].add(line)
    return [((path, min(lines)), f"{fact}: {len(lines)} functions") for (path, fact), lines in sorted(users.items()) if len(lines) >= 3 and fact.strip() != ".."]


for point, what, pattern in LINES:
    hits = []
    for path, lines in sources():
        hits += [((path, i), t) for i, t in enumerate(lines, 1) if re.search(pattern, t) and not t.lstrip().startswith("//")]
    show(point, what, hits)
show(2, "functions alike but for names and numbers", twins())
show(5, "parameters that three functions have together", together())
show(5, "facts in the clauses of three functions", facts())
