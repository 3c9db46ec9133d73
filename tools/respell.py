#!/usr/bin/env python3
"""Brings this repository's own names to the spelling of its Rattle: words in snake case, types in camel case.

usage: python3 tools/respell.py        at the top of the repository, after port.py, once

It goes over specs/, proofs/, the ghost parts of src/, and the edits of must-fail/. A name is respelled where the repository declares it, and left in
a file that takes a name of the same spelling from a library. Functions of src/, exported names, strings and comments keep their spelling, and so do
the names that Rattle makes (goals, steps of the code), but for the names of src/ in them, which are spelled as there. It says which names fall together, and then writes nothing; with --even-so it writes all the
same (a definition may have the name of the function that computes it, and a module that of its type).
"""
import collections
import os
import re
import sys

NAME = r"[^\W\d][\w'′]*(?:-[\w'′]+)*"
TOKEN = re.compile(NAME)
DECLARED = re.compile(r"^\s*(?:(?:pub|abbrev|unfoldable|ruleset|data|record) )*(" + NAME + r")(?: \([^)]*\)| \{[^}]*\})* :(?: |$)")
HEAD = re.compile(r"^\s*(?:pub )?(?:data|record|ruleset) (?:pub )?(" + NAME + ")")
USE = re.compile(r"^\s*(?:ghost )?(?:pub )?use (\S+?)\.\{([^}]*)\}", re.M)
GOAL = re.compile(r" : (?:goal|need|given|needs)\.")
# What std has under a new name, as a part of a name of our own.
PARTS = {"getD": "get_or"}
# Names of variables in definitions and lemmas.
VARIABLES = {"hints-after", "nodes-after", "m-after", "none-hinted", "yes-so", "One-op", "of-mark", "hints-between"}
# Names that would fall together with another of the same file.
APART = {"No-value": "HasNoValue", "bit-and": "bit_of_and", "bit-or": "bit_of_or"}


def crates(top):
    return sorted(c for c in os.listdir(os.path.join(top, "crates")) if os.path.isdir(os.path.join(top, "crates", c, "src")))


def files(top):
    for folder, dirs, names in os.walk(os.path.join(top, "crates")):
        dirs[:] = sorted(d for d in dirs if d != "out")
        for n in sorted(names):
            if n.endswith((".antt", ".rt", ".edit")):
                yield os.path.join(folder, n)


def respelled(name):
    if name in APART:
        return APART[name]
    parts = [PARTS.get(p, p) for p in name.replace("′", "'").split("-")]
    if name[0].isupper():
        parts = [q for p in parts for q in p.split("_")]
        return "".join(p[:1].upper() + p[1:] for p in parts)
    return "_".join(parts)


def own_names(top):
    """The names with a dash that the repository declares, but for goals."""
    own = set(VARIABLES)
    for path in files(top):
        if not path.endswith(".antt"):
            continue
        with open(path, encoding="utf-8") as f:
            for line in f:
                if line.lstrip().startswith("--") or GOAL.search(line):
                    continue
                for found in (DECLARED.match(line), HEAD.match(line)):
                    if found and ("-" in found.group(1) or (found.group(1)[0].isupper() and "_" in found.group(1))):
                        own.add(found.group(1))
    return own


def goals_of(text):
    return {m.group(1) for m in re.finditer(r"^(?:abbrev )?(?:pub )?(" + NAME + r") : (?:goal|given)\.", text, re.M)}


def foreign(text, mine):
    """The names that a file takes from a library."""
    out = set()
    for m in USE.finditer(text):
        part = m.group(1).split(".")
        if not (part[0] == "Rattle" and len(part) > 1 and part[1] in mine):
            out |= {re.split(r" as ", n.strip())[-1].strip() for n in m.group(2).split(",")}
    return out


def pieces(path, text):
    """The text as pairs: a piece, and whether its names count."""
    if path.endswith(".antt"):
        mark = re.compile(r"--[^\n]*|\"(?:[^\"\\\n]|\\.)*\"")
    else:
        mark = re.compile(r"//[^\n]*|\"(?:[^\"\\]|\\.)*\"")
    at = 0
    for m in mark.finditer(text):
        if path.endswith(".antt") and m.group(0).startswith("--") and m.start() and not text[m.start() - 1].isspace():
            continue
        yield text[at : m.start()], True
        yield m.group(0), False
        at = m.end()
    yield text[at:], True


def turned(path, text, own, mine):
    skip = foreign(text, mine) | goals_of(text)
    out = []
    used = set()

    def turn(m):
        name = m.group(0)
        before = m.string[: m.start()]
        if name not in own or name in skip:
            return name
        if before.endswith(("goal.", "given.")):
            return name
        used.add(name)
        return respelled(name)

    for piece, counts in pieces(path, text):
        out.append(TOKEN.sub(turn, piece) if counts else piece)
    return "".join(out), used


def source_names(top, crate):
    """The names with an underscore that stand in a crate's src/, the longest first."""
    found = set()
    folder = os.path.join(top, "crates", crate, "src")
    for n in os.listdir(folder):
        if n.endswith(".rt"):
            with open(os.path.join(folder, n), encoding="utf-8") as f:
                for piece, counts in pieces(n, f.read()):
                    if counts:
                        found |= {w for w in re.findall(r"\b[A-Za-z]\w*\b", piece) if "_" in w.strip("_")}
    return sorted(found, key=lambda w: (-len(w), w))


def kept(text, names):
    """The text of an answer, with the names that Rattle makes of names in src/ spelled as there."""
    goals = goals_of(text)

    def turn(m):
        name = m.group(0)
        if "-" not in name or not (m.string[: m.start()].endswith(".") or name in goals):
            return name
        name = re.sub(r"(?<![^\W])in-(default|ok|err)(?![^\W])", r"in_\1", name)
        for w in names + ["from_residual", "way_copy_out"]:
            name = re.sub(r"(?<![^\W])" + re.escape(w.replace("_", "-")) + r"(?![^\W])", w, name)
        return name

    return "".join(TOKEN.sub(turn, piece) if counts else piece for piece, counts in pieces("x.antt", text))


def main():
    top = "."
    mine = crates(top)
    own = own_names(top)
    clash = collections.defaultdict(set)
    new = {}
    sources = {c: source_names(top, c) for c in mine}
    for name in own:
        clash[respelled(name)].add(name)
    bad = [f"{sorted(v)} are all {k}" for k, v in clash.items() if len(v) > 1]
    for path in files(top):
        with open(path, encoding="utf-8") as f:
            text = f.read()
        words = set(TOKEN.findall(text))
        to, used = turned(path, text, own, mine)
        bad += [f"{path}: {n} would be {respelled(n)}, which stands there already" for n in sorted(used) if respelled(n) in words]
        if os.path.basename(path) in ("Answers.antt", "Invariants.antt"):
            to = kept(to, sources[path.split(os.sep)[2]])
        if to != text:
            new[path] = to
    for line in bad:
        print("respell: " + line)
    if bad and "--even-so" not in sys.argv:
        print("respell: nothing is written")
        return 1
    for path, text in new.items():
        with open(path, "w", encoding="utf-8") as f:
            f.write(text)
    print(f"respell: {len(own)} names, {len(new)} files")
    return 0


if __name__ == "__main__":
    raise SystemExit(main())
