#!/usr/bin/env python3
"""Turns the names of this repository's definitions and lemmas to snake case, and those of its facts and types to camel case.

usage: python3 tools/spelling.py [TOP]      once, on files that are spelled with dashes

A name of a file right in specs/ or proofs/ that is not brought in from a library is turned there, and wherever else it stands: in the proofs of functions,
in clauses, and between backquotes in README.md and docs/. Code, strings, comments and names that the toolchain makes stay. It says which names fall together.
"""

import os
import re
import sys

DOTTED = re.compile(r"(?<![\w'·-])[^\W\d][\w']*(?:-[\w']+)+(?![\w'-])")
IMPORT = re.compile(r"^(?:ghost )?use (?!Rattle\.(?:%s)\b)[\w.+«»-]+\.\{([^}]*)\}", re.M)


def turned(name):
    parts = name.split("-")
    if name[0].isupper():
        return "".join(p[0].upper() + p[1:] for p in parts)
    return "_".join(parts)


def crates(top):
    with open(os.path.join(top, "crates.txt"), encoding="utf-8") as f:
        return [line.split(":")[0].split()[0] for line in f if ":" in line and not line.startswith("#")]


def files(top, names):
    for crate in names:
        root = os.path.join(top, "crates", crate)
        for folder, dirs, found in os.walk(root):
            dirs[:] = sorted(d for d in dirs if d != "out")
            for f in sorted(found):
                path = os.path.join(folder, f)
                below = os.path.relpath(path, root).split(os.sep)
                if f.endswith(".antt"):
                    yield path, below[0] == "specs" or (below[0] == "proofs" and len(below) == 2)
                elif f.endswith(".rt"):
                    yield path, False


def code(line):
    """The part of a line before its comment, and the comment."""
    at = re.search(r"(^|\s)--", line)
    return (line[: at.start()], line[at.start() :]) if at else (line, "")


def imported(text, ours):
    names = set()
    pattern = re.compile(IMPORT.pattern % "|".join(ours), re.M)
    for m in pattern.finditer(text):
        names.update(n.strip().split(" as ")[-1] for n in m.group(1).split(","))
    return names


def main():
    top = sys.argv[1] if len(sys.argv) > 1 else "."
    ours = crates(top)
    own = set()
    read = {}
    for path, whole in files(top, ours):
        with open(path, encoding="utf-8") as f:
            read[path] = f.read()
        if whole:
            kept = imported(read[path], ours)
            for line in read[path].splitlines():
                own.update(n for n in DOTTED.findall(code(line)[0]) if n not in kept)
    for path, whole in files(top, ours):
        text = read[path]
        kept = imported(text, ours)
        had = set(re.findall(r"[^\W\d][\w']*", text))
        said = {}

        def turn(m):
            name = m.group(0)
            if name in kept or name not in own:
                return name
            said[name] = turned(name)
            return said[name]

        out = []
        for line in text.splitlines(keepends=True):
            if path.endswith(".rt"):
                clause = re.match(r"\s*(ghost|requires|ensures)\b", line)
                out.append(DOTTED.sub(turn, line) if clause else line)
            else:
                first, rest = code(line)
                out.append(DOTTED.sub(turn, first) + rest)
        news = list(said.values())
        for old, new in sorted(said.items()):
            if new in had or news.count(new) > 1:
                print(f"falls together: {path}: {old} as {new}")
        new_text = "".join(out)
        if new_text != text:
            with open(path, "w", encoding="utf-8") as f:
                f.write(new_text)
    pages = [os.path.join(top, "README.md")] + [
        os.path.join(top, "docs", f) for f in sorted(os.listdir(os.path.join(top, "docs"))) if f.endswith(".md") and not f.startswith("PORT")
    ]
    for path in pages:
        with open(path, encoding="utf-8") as f:
            text = f.read()
        turn_page = lambda m: "`" + turned(m.group(1)) + "`" if m.group(1) in own else m.group(0)
        new_text = re.sub(r"`([^`\s]+)`", turn_page, text)
        if new_text != text:
            with open(path, "w", encoding="utf-8") as f:
                f.write(new_text)


main()
