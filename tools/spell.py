#!/usr/bin/env python3
"""Turns this repository's own definitions and lemmas from camel case to snake case, in specs/, proofs/, clauses, edits and documents.

usage: python3 tools/spell.py [ROOT]    once, right after port.py; ROOT is the repository's top (here: .)

Each word that begins small and goes on with a capital is turned: accountInRange is account_in_range. Functions of src/, exported names, strings,
inputs and outputs have no such words. Where the new word stands already as a field, a parameter, a local name or another definition, the
definition gets `_lem` behind it, and the script prints it.
"""

import collections
import os
import re
import sys

CAMEL = re.compile(r"(?<![A-Za-z0-9'])[a-z][a-z0-9]*(?:[A-Z][a-z0-9]*)+")
WORD = re.compile(r"[A-Za-z_][A-Za-z0-9_'\-₀-₉]*")
STRING = re.compile(r"""b'(?:\\.|[^'\\])'|"(?:\\.|[^"\\])*"|//[^\n]*""", re.S)
# words that are not this repository's definitions
OTHERS = {"localStorage", "lumCmax", "readFileSync", "toString"}


def files(root, ends):
    for top in ("crates", "docs", "README.md"):
        place = os.path.join(root, top)
        if os.path.isfile(place):
            yield place
        for folder, dirs, names in os.walk(place):
            dirs[:] = sorted(d for d in dirs if d != "out")
            for name in sorted(names):
                if name.endswith(ends):
                    yield os.path.join(folder, name)


def snake(word):
    return CAMEL.sub(lambda m: re.sub("([A-Z])", lambda k: "_" + k.group(1).lower(), m.group(0)), word)


def read(path):
    with open(path, encoding="utf-8") as f:
        return f.read()


def bare_words(text):
    """Words of a file of antt that are neither fields, nor parts of a path, nor a module's name after `as`."""
    text = re.sub(r"--.*", "", text)
    text = re.sub(r"(?m)^(pub )?use [^{\n]*", "", text)
    return {m.group(0) for m in WORD.finditer(text) if text[m.start() - 1 : m.start()] != "."}


def table(root):
    """Each camel word with what it becomes, and those that would fall together with a word that is there."""
    camel, taken = collections.Counter(), set()
    for path in files(root, (".antt", ".rt")):
        text = read(path)
        if path.endswith(".rt"):
            taken |= set(re.findall(r"\b([a-z_0-9]+):[^:]", STRING.sub("", text)))
            taken |= set(re.findall(r"\blet (?:mut )?([a-z_0-9]+)", text))
            camel.update(m.group(0) for m in WORD.finditer(STRING.sub("", text)) if CAMEL.search(m.group(0)))
        else:
            taken |= bare_words(text)
            camel.update(m.group(0) for m in WORD.finditer(text) if CAMEL.search(m.group(0)))
    new, fell = {}, []
    for word in sorted(camel.keys() - OTHERS):
        new[word] = snake(word)
        if new[word] in taken:
            new[word] += "_lem"
            fell.append(word)
    return new, fell


def turned(text, new):
    return WORD.sub(lambda m: new.get(m.group(0), m.group(0)), text)


def main(root):
    new, fell = table(root)
    for path in files(root, (".antt", ".rt", ".edit", ".md")):
        text = read(path)
        if path.endswith(".rt"):
            parts, at = [], 0
            for m in STRING.finditer(text):
                comment = m.group(0).startswith("//")
                parts += [turned(text[at : m.start()], new), turned(m.group(0), new) if comment else m.group(0)]
                at = m.end()
            to = "".join(parts) + turned(text[at:], new)
        else:
            to = turned(text, new)
        if to != text:
            with open(path, "w", encoding="utf-8") as f:
                f.write(to)
    print(f"spell: {len(new)} words turned; with _lem, since the new word stands there already: {' '.join(sorted(fell)) or 'none'}")


if __name__ == "__main__":
    main(sys.argv[1] if len(sys.argv) > 1 else ".")
