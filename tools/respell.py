#!/usr/bin/env python3
"""Brings the names of this repository's definitions and lemmas to the spelling of the Rattle that it is proved with: words in snake case.

Types and facts keep their capital, a dash goes on joining two names, and the functions of src/, exported names and strings stay.
Run once, at the top, right behind the kit's own port script. It prints each name that it turned, and stops where two names would fall together.
"""
import os
import re
import sys

IDENT = re.compile(r"[A-Za-z_][A-Za-z0-9_']*")
LOWER_CAMEL = re.compile(r"^[a-z][a-z0-9_]*[A-Z][A-Za-z0-9_']*$")
# A declaration, a field or a constructor of an .antt file, and a name that an import gives.
DECLARED = re.compile(r"^ *(?:(?:abbrev|unfoldable|pub|record|data) )*([^\s:(){}.,;]+) :", re.M)
RENAMED = re.compile(r"\bas ([^\s:(){}.,;]+)")
OURS = re.compile(r"^crates/[^/]+/(?:src|specs|proofs|must-fail)/.*\.(?:rt|antt|edit)$")
# The documents that name definitions; the notes of landings speak of their own time.
DOCUMENTS = ("README.md", "CONTRIBUTING.md", "docs/ARCHITECTURE.md", "docs/DECISIONS.md", "docs/FLIGHT.md", "docs/PROMISES.md", "docs/READING.md", "docs/RULES.md")
# Names of the library, which port.py left as they are.
NOT_OURS = {"ofZ", "toZ"}


def files():
    for folder, dirs, names in os.walk("crates"):
        dirs[:] = sorted(d for d in dirs if d != "out")
        for name in sorted(names):
            path = os.path.join(folder, name)
            if OURS.match(path):
                yield path


def documents():
    return [path for path in DOCUMENTS if os.path.exists(path)]


def snake(word):
    return re.sub(r"(?<=[a-z0-9])(?=[A-Z])", "_", word).lower()


def main():
    texts = {}
    for path in [*files(), *documents()]:
        with open(path, encoding="utf-8", newline="") as file:
            texts[path] = file.read()
    turned = {}
    for path, text in texts.items():
        found = DECLARED.findall(text) if path.endswith(".antt") else []
        for name in found + RENAMED.findall(text):
            for word in IDENT.findall(name):
                if LOWER_CAMEL.match(word) and word not in NOT_OURS:
                    turned[word] = snake(word)
    there = {word for text in texts.values() for word in IDENT.findall(text)}
    together = sorted(f"{old} -> {new}" for old, new in turned.items() if new in there or list(turned.values()).count(new) > 1)
    if together and "--show" in sys.argv:
        print("fall together:", *together, sep="\n  ")
    for path, text in texts.items():
        new = IDENT.sub(lambda m: turned.get(m[0], m[0]), text)
        if new != text and "--show" not in sys.argv:
            with open(path, "w", encoding="utf-8", newline="") as file:
                file.write(new)
    for old in sorted(turned):
        print(old, turned[old])


if __name__ == "__main__":
    main()
