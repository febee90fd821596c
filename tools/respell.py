#!/usr/bin/env python3
"""Brings this repository's own names to the spelling of today's Rattle: run once, at the top, after the kit's port.py.

    firstBroken, howMany-add, with-above, aView  ->  first_broken, how_many-add, with_above, a_view

Of what specs/ and proofs/ declare, a word that has a capital inside gets underscores, and so does a dash that joins a
plain word; a dash stays where it joins the names of two definitions. A name that would fall together with another of
its file, or with one that a file of it imports, keeps its dash. Names in src/ are only touched in clauses and ghost
items, which no Rust name can be: the table has no word without a dash or an inner capital. Strings stay. In comments,
documents and edits' remarks the words with an inner capital turn, and those in backquotes.
"""

import collections
import glob
import re
import subprocess
import sys

WORD = re.compile(r"[^\s(){}.;,@\"«»]+")
TEXT = re.compile(r'"(?:[^"\\\n]|\\.)*"|(?<![^\s(){}.;,@"«»])--[^\n]*|//[^\n]*', re.S)
FLAGS = r"(?:(?:abbrev|opaque|unfoldable|pub|instance)\s+)*"
DECLARED = (
    re.compile(r"\s*" + FLAGS + r"(?:(?:record|data)\s+)?(" + WORD.pattern + r")(?:\s.*)?\s:(?:\s|$)"),
    re.compile(r"\s*" + FLAGS + r"(?:record|data)\s+(" + WORD.pattern + r")"),
    re.compile(r"\s*" + FLAGS + r"(?:let\s+)?(" + WORD.pattern + r")(?:\s[^=:]*)?\s=(?:\s|$)"),
)
# Words that are names of the library's functions, beside the definitions of this repository.
LIBRARY = set("length append take drop set get map and or sub add mul cond eqb leb ltb min max replicate".split())
# What else stands before a declared name.
KEYWORDS = {"abbrev", "opaque", "unfoldable", "pub", "instance", "record", "data", "let"}
# Where a definition's new name is a lemma's already, the lemma gets another.
OTHERS = {"key_in": "PlaceIn-key_in"}
# Bound variables that are no declarations.
BOUND = {"heldFrom": "held_at_from", "heldTo": "held_at_to", "byReturn": "by_return"}
DOCUMENTS = ["README.md", "CONTRIBUTING.md", "docs/*.md", "docs/notes/*.md"]


def read(path):
    with open(path, encoding="utf-8") as f:
        return f.read()


def files(*patterns):
    found = (p for it in patterns for p in glob.glob(it, recursive=True))
    return sorted(p for p in found if "/out/" not in p)


def without_remarks(text):
    return TEXT.sub(" ", text)


def answers(path):
    """The answers to what Rattle asks, which have Rattle's names."""
    return set(WORD.findall(" ".join([" ".join(it) for it in re.findall(r"tie\.(?:spec\s([^)]*)\)|Need-(\S+))", without_remarks(read(path)))])))


def declared(path):
    text = without_remarks(read(path))
    for line in text.split("\n"):
        several = re.match(r"\s+((?:[a-z]\w*\s+)+[a-z]\w*)\s:\s", line)
        if several:
            yield from (w for w in several[1].split() if w not in KEYWORDS)
        for pattern in DECLARED:
            m = pattern.match(line)
            if m:
                yield m[1]


def snake(word):
    """An inner capital becomes an underscore; a name that begins with a capital is a type's or a fact's and stays."""
    parts = word.split("-")
    low = lambda p: p if p[:1].isupper() else re.sub(r"(?<=[a-z0-9])([A-Z])", lambda m: "_" + m[1].lower(), p)
    return "-".join(low(p) for p in parts)


def dashes(word, names):
    """Keeps a dash where the longest names on both sides of it are definitions, and writes an underscore elsewhere."""
    parts = word.split("-")
    chunks, at = [], 0
    while at < len(parts):
        for end in range(len(parts), at, -1):
            joined = "_".join(parts[at:end])
            if end == at + 1 or joined in names:
                chunks.append((joined, joined in names))
                at = end
                break
    out = chunks[0][0]
    for (_, left), (name, right) in zip(chunks, chunks[1:]):
        out += ("-" if left and right else "_") + name
    return out


def table():
    specs = files("crates/*/specs/**/*.antt")
    proofs = files("crates/*/proofs/**/*.antt")
    asked = set().union(*(answers(p) for p in proofs))
    by_file = {p: set(declared(p)) - asked for p in specs + proofs}
    definitions = {snake(n) for p in specs for n in by_file[p] if "-" not in n} | LIBRARY
    words = {p: set(WORD.findall(without_remarks(read(p)))) for p in specs + proofs}
    rows = dict(BOUND)
    for p in specs + proofs:
        for n in by_file[p]:
            if len(n) < 3 or not re.fullmatch(r"[A-Za-z0-9'_₀-₉-]+", n):
                continue
            new = OTHERS.get(n) or (n.replace("-", "_") if n.endswith("-spec") else dashes(snake(n), definitions))
            if new != n:
                rows[n] = new
    # names that would fall together in one file
    for p in specs + proofs:
        turned = collections.defaultdict(set)
        for w in words[p]:
            turned[rows.get(w, w)].add(w)
        for new, olds in turned.items():
            if len(olds) > 1:
                for w in sorted(olds):
                    if w in rows and not re.search("[a-z][A-Z]", w):
                        print(f"kept: {w}, since {p} has {new} too")
                        del rows[w]
                        break
                else:
                    print(f"look: {p}: {sorted(olds)} would be {new}")
    return rows


def turn_code(text, rows):
    return WORD.sub(lambda m: rows.get(m[0], m[0]), text)


def turn_prose(text, rows):
    """In prose an unquoted dash is English; a capital inside a word is not."""
    text = re.sub(r"`[^`\n]*`", lambda m: re.sub(r"[\w'₀-₉-]+", lambda w: rows.get(w[0], w[0]), m[0]), text)
    return re.sub(r"\b[a-z]+[A-Z][\w'-]*", lambda m: rows.get(m[0], m[0]), text)


def turn(text, rows, prose=True):
    out, at = [], 0
    for m in TEXT.finditer(text):
        out += [turn_code(text[at : m.start()], rows), m[0] if m[0][0] == '"' else turn_prose(m[0], rows)]
        at = m.end()
    return "".join(out + [turn_code(text[at:], rows)])


def turn_edit(text, rows):
    lines = []
    for line in text.split("\n"):
        m = re.match(r"(old:|new:)(.*)", line)
        lines.append(m[1] + turn_code(m[2], rows) if m else turn_prose(line, rows))
    return "\n".join(lines)


def main():
    rows = table()
    changed = 0
    turns = [
        (files("crates/*/src/**/*.rt", "crates/*/specs/**/*.antt", "crates/*/proofs/**/*.antt"), turn),
        (files("crates/*/must-fail/*.edit"), turn_edit),
        (files(*DOCUMENTS), turn_prose),
    ]
    for paths, how in turns:
        for p in paths:
            old = read(p)
            new = how(old, rows)
            if new != old:
                changed += 1
                with open(p, "w", encoding="utf-8") as f:
                    f.write(new)
    for crate in sorted(glob.glob("crates/*/src")):
        subprocess.run(["rt", "fmt"], cwd=crate[: -len("/src")], check=True, stdout=subprocess.DEVNULL)
    for old, new in sorted(rows.items()):
        print(f"{old}\t{new}")
    print(f"respell: {len(rows)} names, {changed} files")
    return 0


if __name__ == "__main__":
    sys.exit(main())
