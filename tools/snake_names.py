#!/usr/bin/env python3
"""Respells this repository's own names: words and fields in snake case, types in camel case. Run once, at the top, after the kit's port.py.

Names that the libraries or the toolchain make keep their dashes: what is imported from a library, and in the answers of a
function what is not one of this repository's names. It prints two names that would fall together in a file."""

import collections
import os
import re

NAME = re.compile(r"(?<![\w'·-])[A-Za-z_][\w']*(?:-[\w']+)+(?![\w'-])")
WORD = re.compile(r"(?<![\w'·-])[^\W\d][\w']*(?:-[\w']+)*")
GUILLEMETS = re.compile(r"«([^»]+)»")
KEPT = {"data", "record", "open", "ruleset", "pub", "use", "mod", "where", "let", "in", "abbrev"}
CRATES = sorted(os.listdir("crates"))


def files(ending):
    for folder, dirs, names in os.walk("crates"):
        dirs[:] = sorted(d for d in dirs if d != "out")
        for name in sorted(names):
            if name.endswith(ending):
                yield os.path.join(folder, name)


def read(path):
    with open(path, encoding="utf-8") as f:
        return f.read()


def is_of_a_function(path):
    """Whether a proof file belongs to one function: then it speaks of names that the toolchain made."""
    parts = path.split(os.sep)
    return parts[2] == "proofs" and len(parts) > 4


def code(text, comment):
    """The text in pieces, each with whether it is code."""
    at = 0
    for m in re.finditer(r'"(?:[^"\\\n]|\\.)*"|' + re.escape(comment) + r"[^\n]*", text):
        yield text[at : m.start()], True
        yield m[0], False
        at = m.end()
    yield text[at:], True


def respelled(name):
    if name[0].isupper():
        return "".join(p[:1].upper() + p[1:] for p in name.split("-"))
    return name.replace("-", "_")


def imports(text):
    for m in re.finditer(r"^(?:pub |ghost )*use ([\w.·']+?)(?:\.\{([^}]*)\}|\.([\w'-]+))?(?: as ([\w'-]+))?;?$", text, re.M):
        yield m[1], [x.strip() for x in (m[2] or m[3] or "").split(",")]


def from_library(path):
    first = path.split(".")
    return not (first[0] == "Rattle" and len(first) > 1 and first[1] in CRATES)


foreign, own = set(), set()
for path in files(".antt"):
    text = read(path)
    for origin, names in imports(text):
        for name in names:
            word = name.split(" as ")[0].strip()
            if not from_library(origin) or "-" not in word:
                continue
            foreign.add(word)
for path in files(".antt"):
    if is_of_a_function(path):
        continue
    for piece, is_code in code(read(path), "--"):
        if is_code:
            own |= set(NAME.findall(piece))
labels = set()
for path in files(".rt"):
    for piece, is_code in code(read(path), "//"):
        if is_code:
            own |= set(NAME.findall(piece))
            labels |= set(re.findall(r"\bensures\*? (\w+)|\brequires\*? (\w+)", piece) and [a or b for a, b in re.findall(r"\bensures\*? (\w+) \{|\brequires\*? (\w+) \{", piece)])
own -= foreign
by_label = {label.replace("_", "-"): label for label in labels if "_" in label}


def turn(path, comment):
    text = read(path)
    mine = is_of_a_function(path)
    met = collections.defaultdict(set)

    def name(m):
        old = m[0]
        before = m.string[: m.start()]
        if old in foreign or before.endswith("goal.") or re.search(r"^(?:pub |abbrev )*$", before.rsplit("\n", 1)[-1]) and mine:
            return old
        if mine and old in by_label and old not in own:
            return by_label[old]
        if mine and old not in own:
            return old
        if mine and re.search(r"\bc\.$", before):
            return old
        return respelled(old)

    out = []
    for piece, is_code in code(text, comment):
        if is_code:
            for old in set(NAME.findall(piece)) - foreign:
                met[respelled(old)].add(old)
            for old in set(WORD.findall(piece)):
                if "-" not in old:
                    met[old].add(old)
            piece = NAME.sub(name, piece)
            if comment == "//":
                piece = GUILLEMETS.sub(lambda m: m[0] if m[1] in KEPT or m[1].startswith("_") else m[1], piece)
        out.append(piece)
    for new, olds in sorted(met.items()):
        if len(olds) > 1:
            print(f"{path}: {', '.join(sorted(olds))} fall together as {new}")
    new_text = "".join(out)
    if new_text != text:
        with open(path, "w", encoding="utf-8") as f:
            f.write(new_text)


for path in files(".antt"):
    turn(path, "--")
for path in files(".rt"):
    turn(path, "//")
