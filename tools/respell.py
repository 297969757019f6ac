#!/usr/bin/env python3
"""Brings the names of this repository's definitions and lemmas to snake case, after port.py, once.

usage: tools/respell.py     (at the top of the repository)
A lemma that would get the name of a definition takes `_lem` behind it. Modules, types and facts keep their capitals, and so do the names of src/.
In contracts, must-fail edits and pages the new names stand for the old.
"""
import collections
import glob
import re

TOKEN = re.compile(r"(?<![\w'-])[A-Za-z][\w'-]*")
DEFINES = re.compile(r"\s*(?:(?:unfoldable|abbrev|open|pub|private|ruleset|data|record)\s+)*([a-z][\w'-]*)\s*(?:\(|\{|:)")
OTHER = re.compile(r"\s*(--|(use|unfolding|mod|pub mod|let|in|where|elim)(?![\w'-]))")

# Two lemmas that port.py left with a word of the older library, and the variables of one definition.
OWN = {"get_d_default": "get_or_default", "get_d_zip": "get_or_zip", "fromX": "from_x", "fromY": "from_y", "toY": "to_y"}

# port.py gave these lemmas the name of a definition: in these files the lemma is meant.
LEMMAS = {
    "by_size": ["pixels/proofs/Bytes", "pixels/proofs/Maps", "rows/proofs/ByteLaws", "rows/proofs/LaneLaws", "rows/proofs/WholeLaws", "rows/proofs/slides/slide_whole/Proof",
                "rows/proofs/sweeps/gone/Proof"],
    "fits_by": ["console/proofs/GatherLaws"],
    "row_at": ["copies/proofs/Copying"],
    "row_in": ["runs/proofs/EdgeLaws", "runs/proofs/StrokeLaws"],
    "shift_of": ["rows/proofs/EdgeLaws", "rows/proofs/LaneLaws", "rows/proofs/TraceLaws"],
}


def snake(name):
    return re.sub(r"(?<=[a-z0-9])[A-Z]", lambda m: "_" + m.group(0).lower(), name).replace("-", "_")


def read(path):
    with open(path, encoding="utf-8") as f:
        return f.read()


def names_of(text):
    """Each old name with its new one, and every name that the files define."""
    places, defined = collections.defaultdict(set), set()
    for path in text:
        if not path.endswith(".antt") or path.endswith("/Proof.antt"):
            continue
        for line in text[path].split("\n"):
            m = DEFINES.match(line)
            if m and not OTHER.match(line):
                places[m.group(1)].add(path)
                if "/specs/" in path or re.match(r"(unfoldable|abbrev)\b", line):
                    defined.add(m.group(1))
    values = {snake(n) for n in defined}
    new = {}
    for n in places:
        if n in defined:
            new[n] = snake(n)
        elif snake(n) in values:
            new[n] = snake(n) + "_lem"
        else:
            new[n] = snake(n)
    new |= OWN
    return {n: m for n, m in new.items() if n != m}, set(new.values())


def edited(word, new, known):
    if snake(word) == word:
        return word
    return new.get(word, snake(word) if snake(word) in known else word)


def main():
    sources = sorted(glob.glob("crates/**/*.antt", recursive=True) + glob.glob("crates/**/*.rt", recursive=True))
    text = {p: read(p) for p in sources}
    new, known = names_of(text)
    for path in sources:
        here = {n: m for n, m in new.items() if snake(n) != n} if path.endswith(".rt") else dict(new)
        for name, files in LEMMAS.items():
            if path[len("crates/"):].rsplit(".", 1)[0] in files:
                here[name] = name + "_lem"
        before = text[path]

        def turned(m):
            word = m.group(0)
            behind_dot = m.start() > 0 and before[m.start() - 1] == "."
            return here.get(word, word) if not (behind_dot and snake(word) == word) else word

        text[path] = TOKEN.sub(turned, before)
    for path in sorted(glob.glob("crates/*/must-fail/*.edit")):
        text[path] = TOKEN.sub(lambda m: edited(m.group(0), new, known), read(path))
    for path in ["README.md"] + sorted(glob.glob("docs/**/*.md", recursive=True)):
        def quoted(m):
            word = m.group(1)
            if snake(word) == word:
                return m.group(0)
            return "`" + new.get(word, snake(word) if snake(word) in known else word) + "`"
        text[path] = re.sub(r"`([a-z][\w'-]*)`", quoted, read(path))
    for path, t in text.items():
        with open(path, "w", encoding="utf-8") as f:
            f.write(t)


if __name__ == "__main__":
    main()
