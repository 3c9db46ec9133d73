#!/usr/bin/env python3
"""Writes AllByRecursion of std by its own name, where a file called it All: the library's All is another word.

usage: python3 tools/name_all.py        at the top of the repository, after respell.py
"""
import os
import re

ALIAS = re.compile(r"AllByRecursion as All(?![\w'-])")
WORD = re.compile(r"(?<![\w'.-])All(?![\w'-])")

for folder, dirs, names in os.walk("crates"):
    dirs[:] = [d for d in dirs if d != "out"]
    for name in names:
        path = os.path.join(folder, name)
        if not name.endswith((".antt", ".rt")):
            continue
        with open(path, encoding="utf-8") as f:
            text = f.read()
        if not ALIAS.search(text):
            continue
        lines = ALIAS.sub("AllByRecursion", text).split("\n")
        lines = [line if line.lstrip().startswith("--") else WORD.sub("AllByRecursion", line) for line in lines]
        with open(path, "w", encoding="utf-8") as f:
            f.write("\n".join(lines))
