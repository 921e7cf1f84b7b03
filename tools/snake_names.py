#!/usr/bin/env python3
"""Spells the repository's own definitions and lemmas as today's Rattle does: words in snake case.

usage: tools/snake_names.py [FOLDER]     (FOLDER: the top of a checkout; this one if none is given)

Run once, right after port.py. It collects what the .antt files of crates/ declare (definitions, lemmas, fields and constructors),
turns camel case and dashes of these names into underscores, and writes each use anew, in .antt files and in the clauses of .rt files.
Types and modules keep their capitals; goals, invariants and whatever Rattle names keep their dashes. Comments and strings stay.
It stops before it writes anything where two names would fall together.
"""

import collections
import os
import re
import sys

# a name of the older library that names of ours were built on, and today's
WORDS = {"getD": "get_or"}
# names that would fall together with another of ours
APART = {"block-length": "length_of_block", "fd-count": "fds_counted"}
# an import's other name, and a local one
OTHERS = {"textIn": "text_in", "bodyLength": "length_of_body"}
# the same, for a name that port.py has turned: the files that mean this one
MOVED = [(("crates/wire/specs/Worked.antt", "crates/wire/proofs/Working.antt"), "no_zero", "zero_missing")]
WORD = re.compile(r"[^\s(){}\[\];,.«»:λ'\"]+'*")
TOP = re.compile(r"^(?:(?:abbrev|unfoldable|pub) )*([^\s:]+) : (.*)")
FIELD = re.compile(r"^ +(?:pub )?([^\s:]+) : ")
PROOFS = ("Answers.antt", "Invariants.antt")


def files(root):
    for folder, dirs, names in os.walk(os.path.join(root, "crates")):
        dirs[:] = sorted(d for d in dirs if d != "out")
        for name in sorted(names):
            if name.endswith((".antt", ".rt")):
                yield os.path.join(folder, name)


def read(path):
    with open(path, encoding="utf-8") as f:
        return f.read()


def declared(path, text):
    """The names that a file of definitions or lemmas declares; a goal's name is Rattle's, not ours."""
    for line in text.splitlines():
        top = TOP.match(line)
        if top and not line.startswith(" ") and not (path.endswith(PROOFS) and re.match(r"goal\.|.*→ goal\.", top.group(2))):
            yield top.group(1)
        field = FIELD.match(line)
        if field and not path.endswith(PROOFS):
            yield field.group(1)


def snake(name):
    if name in APART:
        return APART[name]
    for old, new in WORDS.items():
        name = re.sub(r"(?<![a-zA-Z])" + old + r"(?![a-z])", new, name)
    name = re.sub(r"(?<=[a-z0-9])([A-Z])", lambda m: "_" + m.group(1).lower(), name)
    return name.replace("-", "_")


def in_code(line, comment):
    """The parts of a line: (text, whether it is code). Strings and a comment are none."""
    at, code, out = 0, 0, []
    while at < len(line):
        if line[at] == '"':
            end = at + 1
            while end < len(line) and line[end] != '"':
                end += 2 if line[end] == "\\" else 1
            out += [(line[code:at], True), (line[at : end + 1], False)]
            at = code = end + 1
        elif line.startswith(comment, at) and (at == 0 or line[at - 1] in " "):
            out += [(line[code:at], True), (line[at:], False)]
            return out
        else:
            at += 1
    return out + [(line[code:], True)]


def main(argv):
    root = os.path.realpath(argv[0] if argv else os.path.join(os.path.dirname(os.path.realpath(__file__)), ".."))
    texts = {p: read(p) for p in files(root)}
    for names, old, new in MOVED:
        for name in names:
            path = os.path.join(root, name)
            if path in texts:
                texts[path] = re.sub(r"(?<![\w'-])%s(?![\w'-])" % old, new, texts[path])
    own = set()
    for path, text in texts.items():
        if path.endswith(".antt"):
            own.update(declared(path, text))
    turned = {n: snake(n) for n in own if re.match(r"[a-z]", n) and snake(n) != n}
    turned.update(OTHERS)
    together = collections.defaultdict(set)
    for old, new in turned.items():
        together[new].add(old)
    for name in own:
        together[name].add(name)
    bad = [f"{new}: {', '.join(sorted(olds))}" for new, olds in sorted(together.items()) if len(olds) > 1]
    library = re.compile(r"^(?:ghost )?use (?!crate::|Rattle\.(?:%s)\.)[^{;\n]*\{([^}]*)\}" % "|".join(sorted(os.listdir(os.path.join(root, "crates")))), re.M)
    for path, text in texts.items():
        for names in library.findall(text):
            for name in re.split(r",\s*", names):
                if name in turned or name in turned.values():
                    bad.append(f"{name}: the library's in {path}, and ours")
    if bad:
        print("names that fall together:\n  " + "\n  ".join(bad))
        return 1
    for path, text in texts.items():
        comment = "--" if path.endswith(".antt") else "//"
        lines = []
        for line in text.split("\n"):
            lines.append("".join(WORD.sub(lambda m: turned.get(m.group(0), m.group(0)), part) if code else part for part, code in in_code(line, comment)))
        new = "\n".join(lines)
        if new != read(path):
            with open(path, "w", encoding="utf-8") as f:
                f.write(new)
    print(f"{len(turned)} names")
    return 0


if __name__ == "__main__":
    raise SystemExit(main(sys.argv[1:]))
