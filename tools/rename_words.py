#!/usr/bin/env python3
"""Spells this repository's own definitions and lemmas in snake case, facts and types in camel case.

usage: python3 tools/rename_words.py     at the top of the repository, right after the toolchain's port.py

It goes over crates/*/specs and crates/*/proofs and collects the names with a dash that stand there and that no `use` line
takes from the toolchain's library. `laid-after` becomes `laid_after`, `Some-code` becomes `SomeCode`, and a name that tells
of the library's old `getD` tells of `get_or`. Code keeps its names: none of them has a dash. In comments and in Markdown it
turns what stands between backticks. It stops, writing nothing, where two names would fall together.
"""

import os
import re
import sys

NAME = re.compile(r"(?<![\w'*+-])[^\W\d][\w']*(?:-[\w']+)+(?![\w'*+-])")
USE = re.compile(r"use\s+(Rattle\.(?:std|core)|native|mathlib|lib|Prim|borrow)\b[^{;]*\{([^}]*)\}")
WORD = re.compile(r"[^\W\d][\w']*")


def files(top):
    for folder, dirs, names in os.walk(os.path.join(top, "crates")):
        dirs[:] = sorted(d for d in dirs if d != "out")
        yield from (os.path.join(folder, n) for n in sorted(names) if n.endswith((".antt", ".rt", ".edit")))


def split(line, mark):
    """A line's code and its comment."""
    at = 0 if line.lstrip().startswith(mark) else line.find(mark + " ")
    return (line, "") if at < 0 else (line[:at], line[at:])


def code(path, text):
    mark = "--" if path.endswith(".antt") else "//"
    return "\n".join(split(line, mark)[0] for line in text.split("\n"))


def respelled(name):
    parts = ["get_or" if p == "getD" else p for p in name.split("-")]
    if name[0].isupper():
        return "".join(p[0].upper() + p[1:] for p in parts)
    return "_".join(p.lower() if p.isupper() else p for p in parts)


def own_names(texts):
    library, own, words = set(), set(), set()
    for path, text in texts.items():
        plain = code(path, text)
        words |= set(WORD.findall(plain))
        for use in USE.finditer(plain):
            library |= {n.split(" as ")[0].strip() for n in use[2].split(",")}
        if re.search(r"/crates/\w+/(?:specs|proofs)/\w+\.antt$", path):
            own |= set(NAME.findall(plain))
    return own - library, words


def renaming(texts):
    own, words = own_names(texts)
    to = {}
    for name in sorted(own):
        new = respelled(name)
        if new in to.values():
            sys.exit(f"two names fall together in {new}")
        to[name] = new
    for name, new in to.items():
        if new in words:
            print(f"look: {name} is {new} now, as something else is called")
    return to


def turned(path, text, to):
    swap = lambda m: to.get(m[0], m[0])
    ticked = lambda m: NAME.sub(swap, m[0])
    if path.endswith(".md"):
        return re.sub(r"`[^`\n]*`", ticked, text)
    mark = "--" if path.endswith(".antt") else "//"
    lines = []
    for line in text.split("\n"):
        head, tail = split(line, mark)
        lines.append(NAME.sub(swap, head) + re.sub(r"`[^`\n]*`", ticked, tail))
    return "\n".join(lines)


def main():
    top = os.getcwd()
    texts = {p: open(p, encoding="utf-8").read() for p in files(top)}
    to = renaming(texts)
    pages = [os.path.join(top, "README.md")] + [os.path.join(top, "docs", n) for n in sorted(os.listdir(os.path.join(top, "docs"))) if n.endswith(".md")]
    for p in pages:
        texts[p] = open(p, encoding="utf-8").read()
    for path, text in texts.items():
        new = turned(path, text, to)
        if new != text:
            with open(path, "w", encoding="utf-8") as f:
                f.write(new)
    print(f"{len(to)} names respelled")


if __name__ == "__main__":
    main()
