#!/usr/bin/env python3
"""Brings the repository's own names to today's spelling, after port.py: a word of a clause, of specs/ and of proofs/ that is in camel case and begins
small is written in snake case (`openUntil`: `open_until`), and a module alias `X·is` or `X·laws` as `XIs` or `XLaws`.

usage: tools/respell.py [FOLDER]     FOLDER is the top of a checkout, by default this one's

It turns .antt and .rt files and must-fail edits below crates/, and the code spans of README.md and docs/. A name of the code (a function, a field,
a constant) is in snake case or begins with a capital already, so none changes. Two names that would fall together stop it before it writes anything.
"""

import os
import re
import sys

WORD = re.compile(r"(?<![\w'·-])[a-z][\w'-]*")
HUMP = re.compile(r"(?<=[a-z0-9])[A-Z]")
ALIAS = re.compile(r"(?<![\w'-])([A-Z]\w*)·(is|laws)(?![\w'-])")
STRING = re.compile(r'"(?:\\.|[^"\\\n])*"')
# A name whose snake case another name of its file has.
OTHER = {"partBy": "part_if_passed"}
# A lemma that has the name to which a definition turns, by the files that cite it.
LEMMAS = {"in_order": ("map-in_order", "wait/proofs/Walks.antt", "wait/proofs/Runs.antt")}
SPAN = re.compile(r"`[^`\n]+`")


def snake(word):
    return OTHER.get(word) or HUMP.sub(lambda m: "_" + m.group(0).lower(), word)


def turned(text):
    """The text with its words respelled, but for its strings."""
    parts, at = [], 0
    for m in STRING.finditer(text):
        parts += [words(text[at : m.start()]), m.group(0)]
        at = m.end()
    return "".join(parts + [words(text[at:])])


def words(text):
    text = ALIAS.sub(lambda m: m.group(1) + m.group(2).capitalize(), text)
    return WORD.sub(lambda m: snake(m.group(0)), text)


def apart(path, text):
    """The text with each lemma of LEMMAS under its other name."""
    for name, (other, *paths) in LEMMAS.items():
        if path.endswith(tuple(paths)):
            text = re.sub(rf"(?<![\w'·-]){name}(?![\w'-])", other, text)
    return text


def files(top):
    for folder, dirs, names in os.walk(os.path.join(top, "crates")):
        dirs[:] = sorted(d for d in dirs if d != "out")
        for name in sorted(names):
            if name.endswith((".antt", ".rt", ".edit")):
                yield os.path.join(folder, name)


def pages(top):
    yield os.path.join(top, "README.md")
    docs = os.path.join(top, "docs")
    for folder, _, names in os.walk(docs):
        for name in sorted(names):
            if name.endswith(".md"):
                yield os.path.join(folder, name)


def declared(text):
    """The names that a file of specs/ or proofs/ declares, at the margin or as members of a record or a type."""
    return set(re.findall(r"(?m)^ *(?:(?:abbrev|unfoldable|pub|data|record) )*([A-Za-z][\w'-]*)(?: [({][^\n]*)? : ", text))


def together(texts):
    """Two declarations of one file that would have one name."""
    for path, text in texts:
        if path.endswith(".antt"):
            seen = {}
            for name in sorted(declared(text)):
                if seen.setdefault(snake(name), name) != name:
                    yield f"{path}: {seen[snake(name)]} and {name}"


def main():
    top = sys.argv[1] if len(sys.argv) > 1 else os.path.join(os.path.dirname(os.path.abspath(__file__)), "..")
    texts = [(p, apart(p, open(p, encoding="utf-8").read())) for p in files(top)]
    meet = list(together(texts))
    if meet:
        print("\n".join(meet), file=sys.stderr)
        return 1
    texts += [(p, open(p, encoding="utf-8").read()) for p in pages(top)]
    for path, text in texts:
        new = SPAN.sub(lambda m: words(m.group(0)), text) if path.endswith(".md") else turned(text)
        with open(path, "w", encoding="utf-8") as f:
            f.write(new)
    return 0


if __name__ == "__main__":
    raise SystemExit(main())
