#!/usr/bin/env python3
"""Brings the names that this repository gives in specs/ and proofs/ to today's spelling, once, after port.py.

usage: python3 tools/port_names.py [--list]      at the top of the repository

A dash inside a name becomes an underscore (`letter-of`, `letter_of`); a name that begins with a capital is a fact or a type, and
becomes one word in camel case (`Read-whole`, `ReadWhole`). Names of the library, and names that Rattle makes (goals, steps, the
fields of an answer's `c`, an invariant's `l`), stay. In src/ only contracts and `ghost use` lines are turned, never code or strings;
in must-fail/ the names in the text of the edits; in README.md and docs/ the names between backticks.
With --list nothing is written: the names are printed, old and new, and each that would fall together with another.
"""

import os
import re
import sys

WORD = re.compile(r"[A-Za-zΑ-Ωα-ωℕℤ⊎₀-₉][\w'′ℕℤ⊎*+≤<≡-]*")
SIGNATURE = re.compile(r"^\s*(?:(?:pub|abbrev|unfoldable|data|record|\|)\s+)*([^\s(){}:.,;]+)(?:\s*:|\s+[({])(.*)$")
IMPORT = re.compile(r"^\s*(?:ghost )?use (Rattle\.std|Prim|native|mathlib|lib|denote|logic|memory)[\w.'-]*\.\{([^}]*)\}")
MADE = re.compile(r"^(returns|loop|decreases|invariant|overflow|offset|bounds|slice|index|in|then|else|if)-.*|.*-(requires|preserved|init|smaller)(-\d+)?$")


def sources(folder, *endings):
    for at, folders, files in os.walk(folder):
        folders[:] = sorted(f for f in folders if f not in ("out", ".git", "target"))
        for name in sorted(files):
            if name.endswith(endings):
                yield os.path.join(at, name)


def read(path):
    with open(path, encoding="utf-8") as f:
        return f.read()


def is_answer(path):
    return os.path.basename(path) in ("Answers.antt", "Invariants.antt", "Proof.antt", "Choices.antt")


def turned(name):
    if name[0].isupper():
        return "".join(part[:1].upper() + part[1:] for part in name.split("-"))
    return name.replace("-", "_")


def own_names():
    """The names with a dash that files of specs/ and proofs/ give, without those of goals."""
    names = set()
    for path in sources("crates", ".antt"):
        for line in read(path).split("\n"):
            m = SIGNATURE.match(line)
            if not m or line.lstrip().startswith("--") or not re.match(r"^[A-Za-z][\w'-]*$", m.group(1)):
                continue
            name = m.group(1)
            if "-" in name and not (is_answer(path) and (MADE.match(name) or "goal." in m.group(2))):
                names.add(name)
    return names


def of_library(text):
    names = set()
    for line in text.split("\n"):
        m = IMPORT.match(line)
        if m:
            for item in m.group(2).split(","):
                names.add(item.strip().split(" as ")[-1].strip())
    return names


def turn_line(line, names, library, free):
    """The line with the names turned; with `free`, so are names that only this line gives, as those that a lambda binds."""

    def one(m):
        word = m.group(0)
        before = line[: m.start()]
        if "-" not in word or word in library or word.endswith("-"):
            return word
        if re.search(r"(?<![\w'-])(c|w|l|g|goal|given|need)\.$", before) or "proofs" in before and "." == before[-1:]:
            return word
        if word in names or free and re.match(r"^[a-z][a-z]*(-[a-z]+)+$", word) and before[-1:] != ".":
            return turned(word)
        return word

    return WORD.sub(one, line)


def turn_antt(path, names):
    text = read(path)
    library = of_library(text)
    free = not is_answer(path)
    lines = []
    for line in text.split("\n"):
        if re.match(r"^\s*(ghost )?use ", line):
            if not IMPORT.match(line):
                head, brace, items = line.partition("{")
                lines.append(head + brace + turn_line(items, names, library, False))
            else:
                lines.append(line)
        elif line.lstrip().startswith("--"):
            lines.append(turn_line(line, names, library, False))
        else:
            lines.append(turn_line(line, names, library, free))
    return "\n".join(lines)


def turn_rt(path, names):
    text = read(path)
    library = of_library(text)
    lines = []
    for line in text.split("\n"):
        if re.match(r"^\s*ghost use ", line):
            if not IMPORT.match(line):
                head, brace, items = line.partition("{")
                line = head + brace + turn_line(items, names, library, False)
        elif '"' not in line and not line.lstrip().startswith("//"):
            line = turn_line(line, names, library, False)
        lines.append(line)
    return "\n".join(lines)


def main():
    names = own_names()
    given = {}
    for name in sorted(names):
        given.setdefault(turned(name), []).append(name)
    every = set()
    for path in sources("crates", ".antt", ".rt"):
        every |= set(WORD.findall(read(path)))
    if "--list" in sys.argv:
        for new in sorted(given):
            also = " ALSO THERE" if new in every else ""
            both = " TWICE" if len(given[new]) > 1 else ""
            print(" ".join(given[new]), "->", new + also + both)
        return
    for path in list(sources("crates", ".antt", ".rt", ".edit")):
        text = read(path)
        if path.endswith(".antt"):
            new = turn_antt(path, names)
        else:
            new = turn_rt(path, names)
        if new != text:
            with open(path, "w", encoding="utf-8") as f:
                f.write(new)
    for path in ["README.md"] + list(sources("docs", ".md")):
        text = read(path)
        new = re.sub(r"`([A-Za-z][\w'-]*)`", lambda m: "`" + (turned(m.group(1)) if m.group(1) in names else m.group(1)) + "`", text)
        if new != text:
            with open(path, "w", encoding="utf-8") as f:
                f.write(new)


main()
