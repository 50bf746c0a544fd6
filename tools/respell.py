#!/usr/bin/env python3
"""Respells this repository's own names of specs/ and proofs/: words in snake case, as Rattle's library spells its own.

usage: python3 tools/respell.py        once, at the top of the repository, after the kit's port.py

A name that a file of specs/ or proofs/ declares (a definition, a lemma, a field, a constructor, a local name) loses its dashes and
gets underscores, and so does a ghost member in mixed case. In the proof of a function the parts of a generated name that come from
the source keep the source's spelling. Names of the library, functions of src/, strings, inputs and outputs stay. Names that fall
together, but for those of TOGETHER, are printed, and nothing is written.
"""

import collections
import glob
import os
import re

TOKEN = re.compile(r"[^\W\d][\w'◌≡≤≢<>∷∙+*/&|^%-]*")
DECLARED = re.compile(r"^\s*(?:let )?(?:pub |abbrev |unfoldable |record |data )*([^\W\d][\w'-]*)(?: (?:\{[^}]*\}|\([^)]*\)))* :(?!=)", re.M)
LET = re.compile(r"\blet ([^\W\d][\w'-]*)\b|[({λ]\s*((?:[^\W\d][\w'-]*\s+)*[^\W\d][\w'-]*) [:.]|λ ((?:[^\W\d][\w'-]*\s+)*[^\W\d][\w'-]*)\.")
IMPORT = re.compile(r"use (?!Rattle\.(?:%s)\.)[\w.'+-]*\.\{([^}]*)\}")
GHOST = re.compile(r"^\s*ghost ([a-z]\w*[A-Z]\w*)\b", re.M)
ALIAS = re.compile(r"\bas ([^\W\d][\w'-]*-[\w'-]*)")
# a lemma's parameter and the ghost member that it stands for; a definition and a field of a struct above it
TOGETHER = {"with_entry", "with_note", "note_of", "note_limit", "low_mark"}
# words that Rattle puts into generated names
MADE = ["in-ok", "in-err", "in-default", "overflow-add", "overflow-sub", "overflow-mul", "overflow-cast", "overflow-step", "type-inv", "offset-bounds", "slice-bounds", "nonzero-div", "nonzero-rem", "from-residual"]


def texts():
    return sorted(f for f in glob.glob("crates/*/**/*", recursive=True) if f.endswith((".antt", ".rt")) and "/out/" not in f)


def is_answer(path):
    """A file of a function's proof: its names are generated."""
    return path.endswith(".antt") and "/proofs/" in path and path.count("/") > 3


def ghost_lines(text):
    """The spans of a source file that are clauses, ghost items or ghost imports."""
    at = 0
    for line in text.splitlines(keepends=True):
        if re.match(r"\s*(ghost|requires|ensures)\b", line):
            yield at, at + len(line)
        at += len(line)


def declared(files):
    crates = "|".join(sorted(os.path.basename(c) for c in glob.glob("crates/*")))
    own, library, ghosts = set(), set(), set()
    for f in files:
        text = open(f, encoding="utf-8").read()
        for m in re.finditer(IMPORT.pattern % crates, text):
            library |= {w.strip().split(" as ")[0].strip() for w in m[1].split(",")}
        if f.endswith(".rt"):
            ghosts |= set(GHOST.findall(text))
            for a, b in ghost_lines(text):
                own |= set(ALIAS.findall(text[a:b]))
            continue
        own |= set(ALIAS.findall(text))
        for m in DECLARED.finditer(text):
            if not re.match(r"\s*goal\.", text[m.end():m.end() + 40]):
                own.add(m[1])
        for m in LET.finditer(text):
            own |= set((m[1] or m[2] or m[3]).split())
    return {w for w in own if "-" in w and w not in library}, library, ghosts


def snake(name):
    return re.sub(r"(?<=[a-z])([A-Z])", lambda m: "_" + m[1].lower(), name).replace("-", "_")


def source_words(files):
    """The identifiers of src/ that have an underscore."""
    words = set()
    for f in files:
        if f.endswith(".rt"):
            words |= {w for w in re.findall(r"\b[a-z][a-z0-9]*(?:_[a-z0-9]+)+\b", open(f, encoding="utf-8").read())}
    return words


def generated(word, words):
    """A generated name with the parts from the source as the source spells them."""
    for made in MADE:
        word = re.sub(rf"(?<![\w]){made}(?![\w])", made.replace("-", "_"), word)
    for w in words:
        if w.replace("_", "-") in word:
            word = re.sub(rf"(?<![\w]){w.replace('_', '-')}(?![\w])", w, word)
    return word


def main():
    files = texts()
    own, library, ghosts = declared(files)
    names = {w: snake(w) for w in own | ghosts}
    taken = collections.defaultdict(set)
    for f in files:
        if f.endswith(".antt"):
            for m in TOKEN.finditer(open(f, encoding="utf-8").read()):
                taken[m[0]].add(f)
    together = [(a, b) for a, b in sorted(names.items()) if "-" in a and any(not is_answer(f) for f in taken[b])]
    back = collections.defaultdict(set)
    for a, b in names.items():
        back[b].add(a)
    together += [(a, b) for b, xs in back.items() if len(xs) > 1 for a in xs]
    together = [(a, b) for a, b in together if b not in TOGETHER]
    for a, b in together:
        print(f"falls together: {a} and {b}: {sorted(taken[b])[:3]}")
    if together:
        return 1
    words = sorted(source_words(files), key=len, reverse=True)

    def turn(text, answer):
        def one(m):
            w = m[0]
            if w in names:
                return names[w]
            return generated(w, words) if answer and "-" in w and w not in library else w

        return TOKEN.sub(one, text)

    for f in files:
        text = open(f, encoding="utf-8").read()
        if f.endswith(".rt"):
            new, at = "", 0
            for a, b in ghost_lines(text):
                new += text[at:a] + turn(text[a:b], False)
                at = b
            new += text[at:]
        else:
            new = turn(text, is_answer(f))
        if new != text:
            open(f, "w", encoding="utf-8").write(new)
    print(f"{len(names)} names")
    return 0


if __name__ == "__main__":
    raise SystemExit(main())
