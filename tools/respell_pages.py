#!/usr/bin/env python3
"""Brings the names of definitions and lemmas in the pages to the spelling of today's Rattle.

usage: tools/respell_pages.py OLD NEW [FOLDER]     OLD and NEW are trees of the repository with the same files, before the kit's port.py and after tools/respell.py; FOLDER is
the repository whose pages are turned (.)

What stands at one place of both trees is one name. Names are turned in code spans of README.md, docs/ and model/README.md, but for commands and files of examples/.
"""

import os
import pathlib
import re
import sys

NAME = r"[^\s(){}\[\],;.:λ→≡]+"
DECLARED = re.compile(r"\s*((?:abbrev |unfoldable |pub |mutual |module )*)(" + NAME + r"(?:\s+" + NAME + r")*) :(?=\s)")
TYPE = re.compile(r"\s*(?:pub )?(?:record|data) (\S+)")
TOKEN = re.compile(r"(?<![A-Za-z0-9_'′-])[A-Za-z_][A-Za-z0-9_'′-]*")
SPAN = re.compile(r"(?<!`)`([^`\n]+)`(?!`)")
BLOCK = re.compile(r"(^```.*?^```$)", re.M | re.S)
# No definitions: commands, and a plan of examples/plans by its name in docs/PLANS.md.
OTHER = re.compile(r"(?:examples|bin|tools)/|rt |two-at-once\.plan")


def declared(path):
    for line in path.read_text().split("\n"):
        if not line.lstrip().startswith(("--", "use ", "pub use ")):
            m = TYPE.match(line)
            if m:
                yield m.group(1)
            elif m := DECLARED.match(line):
                yield from m.group(2).split()


def main(old, new, root="."):
    turned = {}
    for path in sorted(pathlib.Path(old, "crates").rglob("*.antt")):
        pairs = zip(declared(path), declared(pathlib.Path(new, os.path.relpath(path, old))), strict=True)
        for one, other in pairs:
            if turned.setdefault(one, other) != other:
                sys.exit(f"{path}: {one} is {turned[one]} elsewhere, and here {other}")
    pages = [pathlib.Path(root, "README.md"), pathlib.Path(root, "model/README.md"), *sorted(pathlib.Path(root, "docs").rglob("*.md"))]
    name = lambda m: turned.get(m.group(0), m.group(0))
    span = lambda m: m.group(0) if OTHER.match(m.string, m.start() + 1) else f"`{TOKEN.sub(name, m.group(1))}`"
    for page in pages:
        parts = [part if part.startswith("```") else SPAN.sub(span, part) for part in BLOCK.split(page.read_text())]
        page.write_text("".join(parts))


main(*sys.argv[1:])
