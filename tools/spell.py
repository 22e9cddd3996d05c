#!/usr/bin/env python3
"""Respells the definitions and lemmas of this repository as the toolchain's library spells its own.

    python3 tools/spell.py [FOLDER]

It is run once, after the toolchain's own script. Functions, lemmas, constructors and fields of specs/ and proofs/ go to snake
case, types to upper camel case. A name of the code in src/, a name that the toolchain makes for a goal, and a string keep their
spelling. Only whole names are replaced, in .rt files those with a dash only in clauses and ghost items. In the documents a name
in backticks is replaced if a definition has its new spelling. It prints each old name with the new one.
"""
import os
import re
import sys

# lemmas that would fall together with the definition that they speak of, by crate
LEMMAS = {
    "scanner": {"gap_by": "gap_by_is", "gap-on": "gap_on_is", "line-end": "line_end_past"},
    "source": {"first_char": "first_char_is"},
    "tokens": {"number-from": "number_from_is"},
}

# names that begin with a function of the library, which has another name now
OWN = {"getD-then": "get_or-then", "getD-within": "get_or-within"}

# a dash joins two names of functions
DASHED = {"length-laid", "length-then", "get_or-then", "get_or-within", "term-drop"}

# names that definitions and lemmas bind
BOUND = {"newComment": "new_comment", "newSpace": "new_space", "lastComment": "last_comment", "lastSpace": "last_space"}

# names of the standards, as they stand there
STANDARD = {"Utf8-1", "Utf8-2", "Utf8-3", "Utf8-4"}

# the goals that the toolchain names
MADE = re.compile(r"^(loop|returns|invariant|decreases|overflow|bounds|in|then|else|if|match)-|-(requires|requires-.*)$")

NAME = re.compile(r"(?<![\w'\-·.«/])[A-Za-z][\w']*(?:-[\w']+)*(?![\w'\-»])")
FIELD = re.compile(r"(?<=[\w'\)»])\.([A-Za-z][\w']*(?:-[\w']+)*)")


def snake(name):
    if name in OWN:
        return OWN[name]
    if name in STANDARD or name in DASHED:
        return name
    if name[0].isupper():
        return "".join(part[0].upper() + part[1:] for part in name.split("-"))
    name = re.sub(r"(?<=[a-z0-9])([A-Z])", lambda m: "_" + m[1].lower(), name)
    return name.replace("-", "_")


def files(root, *endings):
    crates = os.path.join(root, "crates")
    for folder, dirs, names in os.walk(crates):
        built = os.path.dirname(folder) == crates
        dirs[:] = sorted(d for d in dirs if not (built and d == "out"))
        for name in sorted(names):
            if name.endswith(endings):
                yield os.path.join(folder, name)


DEFINED = [
    re.compile(r"^\s*(?:pub )?(?:data|record) (?:pub )?([^\s:({]+)"),
    re.compile(r"^\s*(?:(?:pub|abbrev|unfoldable|ruleset) )*([A-Za-z][\w'-]*)\s*:(?!=)"),
]


def defined(root):
    found = set()
    for path in files(root, ".antt"):
        made = os.path.basename(path) in ("Answers.antt", "Invariants.antt", "Proof.antt")
        with open(path, encoding="utf-8") as f:
            for line in f:
                if line.lstrip().startswith("--") or line.startswith("use "):
                    continue
                for form in DEFINED:
                    m = form.match(line)
                    if m and not (made and MADE.search(m[1])):
                        found.add(m[1])
    return found


def names(root):
    return {name: snake(name) for name in defined(root) if snake(name) != name} | BOUND


def respell(text, table, clauses_only):
    """Whole names of the table; in code only those that no code can have."""

    def swap(m):
        return table.get(m[0], m[0])

    def swap_field(m):
        return "." + table.get(m[1], m[1])

    lines = []
    for line in text.splitlines(keepends=True):
        mark = "//" if clauses_only else "--"
        head, found, note = line.partition(mark)
        if not clauses_only or line.lstrip().startswith("ghost") or "ensures" in head or "requires" in head or "λ" in head:
            head = FIELD.sub(swap_field, NAME.sub(swap, head))
        else:
            head = NAME.sub(lambda m: table.get(m[0], m[0]) if "-" not in m[0] else m[0], head)
        note = NAME.sub(lambda m: table.get(m[0], m[0]) if "-" not in m[0] else m[0], note)
        lines.append(head + found + note)
    return "".join(lines)


def documents(root):
    yield os.path.join(root, "README.md")
    folder = os.path.join(root, "docs")
    for name in sorted(os.listdir(folder)):
        if name.endswith(".md"):
            yield os.path.join(folder, name)


def main():
    root = sys.argv[1] if len(sys.argv) > 1 else "."
    table = names(root)
    for path in files(root, ".antt", ".rt"):
        crate = os.path.relpath(path, os.path.join(root, "crates")).split(os.sep)[0]
        with open(path, encoding="utf-8") as f:
            old = f.read()
        new = old
        if path.endswith(".antt") and os.sep + "proofs" + os.sep in path or crate == "tokens":
            for before, after in LEMMAS.get(crate, {}).items():
                new = re.sub(r"(?<![\w'.-])" + re.escape(before) + r"(?![\w'-])", after, new)
        new = respell(new, table, path.endswith(".rt"))
        if new != old:
            with open(path, "w", encoding="utf-8") as f:
                f.write(new)
    # in the documents every name in camel case whose new spelling is that of a definition
    known = defined(root)
    for path in documents(root):
        with open(path, encoding="utf-8") as f:
            old = f.read()
        new = re.sub(r"`([a-z][\w']*[A-Z][\w']*)`", lambda m: "`" + snake(m[1]) + "`" if snake(m[1]) in known else m[0], old)
        if new != old:
            with open(path, "w", encoding="utf-8") as f:
                f.write(new)
    for old, new in sorted(table.items()):
        print(old, new)


if __name__ == "__main__":
    main()
