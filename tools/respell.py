#!/usr/bin/env python3
"""Brings the repository's own definitions and lemmas to the spelling of today's Rattle: words in snake case, types and modules in camel case.

usage: tools/respell.py [FOLDER]     once, at the top, after the kit's port.py; FOLDER is the repository (.)

A name that specs/ or proofs/ declares, begins with a small letter and has a capital within is written with underscores, part by part where dashes join parts. A part that begins
with a capital names a type and stays. A lemma that would then have a definition's name gets `_lem`. Functions of src/ keep their names: none has a capital within.
"""

import os
import re
import sys

NAME = r"[^\s(){}\[\],;.:λ→≡]+"
DECLARED = re.compile(r"\s*((?:abbrev |unfoldable |pub |data |record |mutual )*)(" + NAME + r"(?:\s+" + NAME + r")*) :(?=\s)")
TOKEN = re.compile(r"(?<![A-Za-z0-9_'-])[A-Za-z_][A-Za-z0-9_'-]*")
ALIAS = re.compile(r" as ([a-z][A-Za-z0-9]*)(?=[,}])")
IN_COMMENTS = ["loadOf", "startOf"]
# lemmas and fields of records that would have a definition's name; those of the second line are also names of functions, which stand behind a dot in a proof
LEMMAS = "adds_one agree_of at_each best_of first_said kept_in laid_out no_room node_in one_by_one one_more three_and_one told_of".split()
LEMMAS_OF_FUNCTIONS = "numbers_fit ring_of settled_at some_up start_fits".split()


def snake(name):
    parts = []
    for part in name.split("-"):
        if re.match("[a-z]", part):
            part = re.sub(r"([a-z0-9])([A-Z])", r"\1_\2", part)
            part = re.sub(r"([A-Z]+)([A-Z][a-z])", r"\1_\2", part).lower()
        parts.append(part)
    return "-".join(parts)


def files(root, ends):
    for folder, dirs, names in os.walk(os.path.join(root, "crates")):
        dirs[:] = sorted(d for d in dirs if d != "out")
        for name in sorted(names):
            if name.endswith(ends):
                yield os.path.join(folder, name)


def read(path):
    with open(path, encoding="utf-8") as f:
        return f.read()


def declared(root):
    for path in files(root, ".antt"):
        for line in read(path).split("\n"):
            m = DECLARED.match(line)
            if m:
                yield from m.group(2).split()
    for path in files(root, (".antt", ".rt")):
        yield from ALIAS.findall(read(path))
    yield from IN_COMMENTS


def main(root):
    new = {n: snake(n) for n in set(declared(root)) if re.match(r"[a-z]", n) and re.search(r"[A-Z]", n)}
    if len(set(new.values())) < len(new):
        sys.exit("respell: two names fall together")
    lemmas = {n: n + "_lem" for n in LEMMAS}
    apart = {n: n + "_lem" for n in LEMMAS_OF_FUNCTIONS}
    count = 0
    for path in files(root, (".antt", ".rt")):
        old = read(path)

        def turned(m):
            t = m.group(0)
            if path.endswith(".antt"):
                if t in lemmas:
                    return lemmas[t]
                if t in apart and old[m.start() - 1 : m.start()] != ".":
                    return apart[t]
            return new.get(t, t)

        text = TOKEN.sub(turned, old)
        if text != old:
            with open(path, "w", encoding="utf-8") as f:
                f.write(text)
            count += 1
    print(f"respell: {len(new)} names, {count} files")


if __name__ == "__main__":
    main(sys.argv[1] if len(sys.argv) > 1 else ".")
