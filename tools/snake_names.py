#!/usr/bin/env python3
"""Spells the repository's own names of definitions, fields and lemmas in snake case: most-nodes becomes most_nodes.

usage: python3 tools/snake_names.py [--list]      at the top of the repository, once, after the toolchain's own script

It goes by text. A name of ours is a word with a dash that stands in specs/ or in a lemma file (proofs/*.antt) and that no
file imports from a library. It is renamed there, in clauses, in the proofs of functions, in must-fail edits and in the
documents. What the toolchain names with a dash (a goal, a step of a function's proof) is no name of ours and stays, but
where it is spelt like one. --list writes nothing, and prints each new spelling that is taken already.
"""

import collections
import glob
import os
import re
import sys

WORD = re.compile(r"[A-Za-zα-ωΑ-Ω0-9_'ℕℤ₀-₉?-]*[A-Za-zα-ωΑ-Ω0-9_'ℕℤ₀-₉?]-[A-Za-zα-ωΑ-Ω0-9ℕℤ₀-₉][A-Za-zα-ωΑ-Ω0-9_'ℕℤ₀-₉?-]*|[^\W\d][\w'?]*")
USE = re.compile(r"^\s*(?:pub )?(?:ghost )?use ([\w.'+-]+)\.\{([^}]*)\}", re.M)
# Words that only the toolchain's generated modules have, in the proofs by hand of crate arcs.
MADE = re.compile(r"^(take-apart|over-whole|[a-z]+-(variants|declared)|(Known|known|Under|After|Over)-.*)$")


def crates():
    with open("crates.txt") as f:
        return [l.split(":")[0].split()[0] for l in f if ":" in l and not l.startswith("#")]


def below(crate, end):
    for folder, dirs, files in os.walk(os.path.join("crates", crate)):
        dirs[:] = sorted(d for d in dirs if d != "out")
        for f in sorted(files):
            if f.endswith(end):
                yield os.path.join(folder, f)


def is_lemmas(path):
    """A file of specs/ or a lemma file, and not the proof of a function."""
    parts = path.split(os.sep)
    return parts[2] == "specs" or (parts[2] == "proofs" and len(parts) == 4)


def read(path):
    with open(path, encoding="utf-8") as f:
        return f.read()


def bare(text):
    return re.sub(r"--.*", "", text)


def names(all_crates):
    ours, theirs = set(), set()
    for c in all_crates:
        for p in below(c, ".antt"):
            t = bare(read(p))
            for m in USE.finditer(t):
                its = re.match(r"Rattle\.(\w+)", m[1])
                known = {n.strip().split(" as ")[0].strip() for n in m[2].split(",")}
                if not (its and its[1] in all_crates):
                    theirs |= known
            if is_lemmas(p):
                ours |= {w for w in WORD.findall(t) if "-" in w and not MADE.match(w)}
    return {n for n in ours if n not in theirs and not re.fullmatch(r"[0-9-]+", n)}, theirs


def snake(name):
    return name.replace("-", "_")


def turn(text, ours):
    return WORD.sub(lambda m: snake(m[0]) if m[0] in ours else m[0], text)


def turn_quoted(text, ours):
    """A comment: between backticks."""
    return re.sub(r"`[^`]*`", lambda m: turn(m[0], ours), text)


def turn_proof(text, ours):
    """A file of definitions or proofs."""
    return re.sub(r"(--.*)|((?:(?!--).)+)", lambda m: turn_quoted(m[1], ours) if m[1] else turn(m[2], ours), text)


def turn_code(text, ours):
    """A source file: all but its strings."""
    parts = re.compile(r'(b?"(?:[^"\\\n]|\\.)*")|(//.*)|((?:(?!//)[^"\n])+)')
    return parts.sub(lambda m: m[1] or (turn_quoted(m[2], ours) if m[2] else turn(m[3], ours)), text)


def turn_edit(text, ours):
    """A must-fail edit: its pairs of texts."""
    return re.sub(r"(?m)^(old|new): .*", lambda m: turn(m[0], ours), text)


def turn_page(text, ours):
    """A document: between backticks, and in lines of code."""
    lines = []
    for l in text.split("\n"):
        lines.append(turn(l, ours) if l.startswith("    ") else turn_quoted(l, ours))
    return "\n".join(lines)


def main(argv):
    all_crates = crates()
    ours, theirs = names(all_crates)
    if argv == ["--list"]:
        taken = collections.defaultdict(set)
        for c in all_crates:
            for p in list(below(c, ".antt")) + list(below(c, ".rt")):
                there = set(WORD.findall(re.sub(r"--.*|//.*", "", read(p))))
                for n in ours:
                    if n in there and snake(n) in there:
                        taken[n].add(p)
        for n in sorted(taken):
            print(n, *sorted(taken[n]))
        print(len(ours), "names,", len(taken), "taken where they are used; of the library:", sorted(n for n in ours if snake(n) in theirs))
        return 0
    changed = 0
    for c in all_crates:
        for end, how in ((".antt", turn_proof), (".rt", turn_code), (".edit", turn_edit)):
            for p in below(c, end):
                changed += write(p, how, ours)
    for p in ["README.md", *glob.glob("docs/*.md"), *glob.glob("*/README.md")]:
        changed += write(p, turn_page, ours)
    print(changed, "files changed,", len(ours), "names")
    return 0


def write(path, how, ours):
    old = read(path)
    new = how(old, ours)
    if new != old:
        with open(path, "w", encoding="utf-8") as f:
            f.write(new)
    return new != old


if __name__ == "__main__":
    raise SystemExit(main(sys.argv[1:]))
