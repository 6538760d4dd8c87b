#!/usr/bin/env python3
"""Writes this repository's own definitions and lemmas in snake case, after port.py has run.

usage: python3 tools/snake_names.py        at the top of the repository, once

A name is one of the repository's own if a file of specs/, or a file of lemmas in proofs/, has its signature. Only names with a dash
change: the dash becomes an underscore, and a type's name loses it. Names that a file takes from the library keep their spelling in that
file, and so do the names of goals, which the toolchain makes. It refuses to run where two names would become one.
"""

import collections
import os
import re
import sys

TYPES = {"Counts-of": "CountsOf"}
# Variables of definitions in specs/.
VARIABLES = {"run-record", "exits-from"}
NAME = r"[A-Za-z][^\s(){}\[\],;.:]*"
SIGNATURE = re.compile(rf"^\s*(?:(?:abbrev|unfoldable|pub|data|record)\s+)*({NAME}(?: {NAME})*)\s*:(?=\s)", re.M)
ALIAS = re.compile(r"^use \S+ as (\S+)$", re.M)
IMPORT = re.compile(r"use ([^\s{}]+)\.\{([^}]*)\}")
TOKEN = re.compile(r"[^\s(){}\[\];,.«»`]+")


def files(end):
    for folder, dirs, names in os.walk("crates"):
        dirs[:] = sorted(d for d in dirs if d not in ("out", "must-fail"))
        for name in sorted(names):
            if name.endswith(end):
                yield os.path.join(folder, name)


def of_a_function(path):
    parts = path.split(os.sep)
    return parts[2] == "proofs" and len(parts) > 4


def own_names():
    own, all_names = set(), set()
    for path in files(".antt"):
        with open(path, encoding="utf-8") as f:
            text = f.read()
        names = {n for line in SIGNATURE.findall(text) for n in line.split()}
        if path.split(os.sep)[2] == "specs":
            names |= set(ALIAS.findall(text)) | VARIABLES
        all_names |= names
        if not of_a_function(path):
            own |= names
    return own, all_names


def spelt(name):
    return TYPES.get(name, name.replace("-", "_"))


def main():
    own, all_names = own_names()
    renamed = {n: spelt(n) for n in own if "-" in n}
    taken = collections.Counter(renamed.values())
    twice = sorted(n for n in taken if taken[n] > 1 or n in all_names)
    if twice:
        sys.exit("these names would fall together: " + " ".join(twice))
    libraries = ("Rattle." + c + "." for c in sorted(os.listdir("crates")))
    libraries = tuple(libraries)
    changed = 0
    for path in list(files(".antt")) + list(files(".rt")):
        with open(path, encoding="utf-8") as f:
            text = f.read()
        foreign = set()
        for module, names in IMPORT.findall(text):
            if not (module + ".").startswith(libraries):
                foreign |= {n.split(" as ")[-1].strip() for n in names.split(",")}
        new = TOKEN.sub(lambda m: renamed.get(m.group(0), m.group(0)) if m.group(0) not in foreign else m.group(0), text)
        if new != text:
            changed += 1
            with open(path, "w", encoding="utf-8") as f:
                f.write(new)
    print(f"{len(renamed)} names, {changed} files")


main()
