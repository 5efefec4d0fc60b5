#!/usr/bin/env python3
"""Brings the names of this repository's own definitions and lemmas to today's spelling.

    python3 tools/respell.py        at the top, once, after the kit's port.py

Words are in snake case: lowerCamel names of definitions, fields and constructors, and the names of
lemmas that were joined by dashes. A lemma on a length keeps its dash, since it joins two names. A lemma
whose name would fall together with another name gets `_lem`, a constructor `_kind`. Types keep their capitals and lose a dash.
Names of the code, of the library and of generated goals stay as they are.
"""
import os
import re

WORD = re.compile(r"(?<![0-9])[A-Za-z_][\w'\-]*")
CAMEL = re.compile(r"[a-z][a-z0-9_']*[A-Z][\w']*\Z")
HEAD = re.compile(
    r"^\s*(?:(?:abbrev|unfoldable|pub|data|record|ruleset)\s+)*([^\s(){}:;,.\[\]]+)\s*(?:\(.*\)|\{.*\})?\s*:\s"
)
CONSTRUCTORS = {"hard-fill": "hard_fill_kind", "feathered-fill": "feathered_fill_kind"}
GENERATED = {"Answers.antt", "Invariants.antt", "Proof.antt", "Choices.antt"}


def files(endings):
    for top in ("crates", "docs"):
        for folder, folders, names in os.walk(top):
            folders[:] = [f for f in folders if f != "out"]
            for name in sorted(names):
                if name.endswith(endings):
                    yield os.path.join(folder, name)


def snake(name):
    return re.sub(r"([A-Z])", lambda m: "_" + m.group(1).lower(), name).replace("-", "_")


def own_names():
    words, lemmas = set(), set(CONSTRUCTORS)
    for path in files(".antt"):
        text = open(path, encoding="utf-8").read()
        words.update(WORD.findall(text))
        if os.path.basename(path) in GENERATED:
            continue
        for line in text.split("\n"):
            found = HEAD.match(line)
            if found and "-" in found.group(1) and not line.lstrip().startswith(("--", "use ")):
                lemmas.add(found.group(1))
    return words, lemmas


def table():
    words, lemmas = own_names()
    new = {w: snake(w) for w in words if CAMEL.match(w)}
    for old, name in new.items():
        if name in words:
            print(f"look: {old} falls together with {name}")
    taken = words | set(new.values())
    for old in sorted(lemmas):
        if old.startswith("length-"):
            continue
        if old in CONSTRUCTORS:
            new[old] = CONSTRUCTORS[old]
            continue
        if old[0].isupper():
            new[old] = "".join(part[0].upper() + part[1:] for part in old.split("-"))
            continue
        name = snake(old)
        new[old] = name + "_lem" if name in taken else name
    return new


def main():
    new = table()
    for path in files((".antt", ".rt", ".edit", ".md")):
        text = open(path, encoding="utf-8").read()

        def put(found):
            word = found.group(0)
            if "-" in word and (path.endswith(".md") or text[found.start() - 1 : found.start()] == "."):
                return word
            return new.get(word, word)

        turned = WORD.sub(put, text)
        if turned != text:
            open(path, "w", encoding="utf-8").write(turned)
    for old in sorted(new):
        if new[old].endswith("_lem"):
            print(f"{old} -> {new[old]}")


main()
