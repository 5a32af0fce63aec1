#!/usr/bin/env python3
"""Brings the repository's own definitions, lemmas, fields and constructors from kebab case to snake case.

usage: python3 tools/snake_case.py      at the top of the repository, once, right after the kit's port.py

A name is the repository's own where a line of specs/ or proofs/ defines it: at the head of a definition, a lemma, a field or a constructor,
behind 'let', or as a typed argument. Names that the kit makes of the source (their definitions have the type goal.NAME) and names of the
kit's library are left alone, and so are strings, comments, and the functions of src/. Where the snake case of a definition is already the
name of a function in src/, the definition gets the name that OTHERWISE has.
"""

import glob
import re

NAME = r"[^\W\d][\w']*(?:-[\w']+)+"
TOKEN = re.compile(r"(?<![\w'-])" + NAME)
HEAD = re.compile(r"\s*(?:abbrev\s+)?(?:pub\s+)?(?:abbrev\s+)?(" + NAME + r")\s*:(?!\s*goal\b)")
LET = re.compile(r"let\s+(" + NAME + r")\s*[=:]")
TYPED = re.compile(r"[({]((?:[\w'-]+\s+)*" + NAME + r"(?:\s+[\w'-]+)*)\s*:")
STRING = re.compile(r'"(?:[^"\\]|\\.)*"')

OTHERWISE = {
    "inverse-at": "inverse_in_table",
    "level-after": "level_past",
    "squared-magnitude": "magnitude_squared",
}


def files():
    return sorted(
        glob.glob("crates/*/specs/**/*.antt", recursive=True)
        + glob.glob("crates/*/proofs/**/*.antt", recursive=True)
        + glob.glob("crates/*/src/**/*.rt", recursive=True)
    )


def parts(path, line):
    """The line's code without what strings hold, and its comment."""
    mark = r"(?:^|\s)--" if path.endswith(".antt") else r"//"
    blank = STRING.sub(lambda m: '"' + "\0" * (len(m[0]) - 2) + '"', line)
    found = re.search(mark, blank)
    end = found.start() if found else len(line)
    return blank[:end], line[:end], line[end:]


def own_names():
    names = set()
    for path in files():
        if not path.endswith(".antt"):
            continue
        for line in open(path, encoding="utf-8"):
            code = parts(path, line)[0]
            head = HEAD.match(code)
            if head:
                names.add(head[1])
            names |= set(LET.findall(code))
            for typed in TYPED.findall(code):
                names |= {word for word in typed.split() if "-" in word}
    return names


def renamed(names, blank, code):
    out, at = [], 0
    for found in TOKEN.finditer(blank):
        if found[0] in names:
            out.append(code[at : found.start()] + names[found[0]])
            at = found.end()
    return "".join(out) + code[at:]


def main():
    names = {name: OTHERWISE.get(name, name.replace("-", "_")) for name in own_names()}
    if len(set(names.values())) != len(names):
        raise SystemExit("two names fall together")
    for path in files():
        text = open(path, encoding="utf-8").read()
        lines = []
        for line in text.splitlines(keepends=True):
            blank, code, comment = parts(path, line)
            lines.append(renamed(names, blank, code) + comment)
        if "".join(lines) != text:
            open(path, "w", encoding="utf-8").write("".join(lines))
    print(len(names), "names")


main()
