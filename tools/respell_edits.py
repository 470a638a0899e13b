#!/usr/bin/env python3
"""Brings the must-fail edits of the older kit to today's spelling; the kit's port.py leaves them as they are.

usage: tools/respell_edits.py [FOLDER]     once, at the top, after port.py and tools/respell.py; FOLDER is the repository (.)

Of each `old:` and `new:` line the projections are written tight, the paths with dots and the names as tools/respell.py and port.py have them; a name that an edit imports stands in
the file's line of the Prelude. Then each `old:` text has to stand in its file once; the edits of which one does not are named, and the status is 1.
"""

import os
import re
import sys

sys.path.insert(0, os.path.dirname(os.path.abspath(__file__)))
from respell import files, read, snake  # noqa: E402

KIT = {"getD": "get_or", "negℤ": "neg_ℤ"}
TOKEN = re.compile(r"(?<![\w'.-])[A-Za-z_][\w'-]*|(?<=\.)[A-Za-z_][\w'-]*")
OPERATORS = set("≡ × → + - * / % ^ && || ⊎ ≤ < ≥ > ∷ ++ = : ; , λ -ℤ +ℤ ≤ℤ <ℤ ∙ ↔ in let".split())
ENDING = re.compile(r"-(of|in|at|all|more|none|any|back|on|low|up)$")
IMPORT = re.compile(r"use (?:mathlib|lib|Prim|native)\S*\.\{(.*)\}$")
PRELUDE = re.compile(r"use Rattle\.std\.specs\.Prelude\.\{(.*)\}")
# the call that this edit put into the code brought a goal of its own and a longer path, which the proof file of that time had to follow
CODE_ALONE = "plan_probe/must-fail/p2_added_at_once.edit"


def tight(text):
    """`f x .field` as `(f x).field`, `x .field` as `x.field`."""
    tokens = re.findall(r"\s+|\(|\)|[{}\[\];,]|[^\s(){}\[\];,]+", text)
    at = 0

    def run(inner):
        nonlocal at
        out, call, space = [], [], ""

        def flush():
            out.extend(s + t for s, t in call)
            call.clear()

        while at < len(tokens):
            t = tokens[at]
            if t == ")" and inner:
                break
            at += 1
            if t.isspace():
                space += t
            elif t == "(":
                part, single = run(True)
                closed = at < len(tokens)
                at += closed
                call.append((space, part if single and closed else "(" + part + ")" * closed))
                space = ""
            elif re.match(r"\.[A-Za-z0-9]", t) and space and call:
                first = call[0][0]
                whole = call[0][1] + "".join(s + x for s, x in call[1:])
                call[:] = [(first, (whole if len(call) == 1 else f"({whole})") + t)]
                space = ""
            elif t in OPERATORS or t in "{}[];,)" or t.endswith("."):
                flush()
                out.append(space + t)
                space = ""
            else:
                call.append((space, t))
                space = ""
        single = not out and len(call) == 1 and re.search(r"\.[\w'-]+$", call[0][1]) is not None
        flush()
        return "".join(out) + space, single

    return run(False)[0] if " ." in text else text


def respelled(text, known):
    text = tight(text).replace("·", ".").replace(".specs.specs.", ".specs.").replace(".proofs.proofs.", ".proofs.")
    text = re.sub(r"λ r\. ⌜ r ≡ (.*?) ⌝", r"result ≡ \1", text).replace("negℤ", KIT["negℤ"])

    def word(m):
        t = m.group(0)
        if t in KIT:
            return KIT[t]
        if re.match("[a-z]", t) and re.search("[A-Z]", t):
            return snake(t)
        for u in (ENDING.sub(r"_\1", t), t.replace("-", "_")):
            if t not in known and u in known:
                return u
        return t

    return TOKEN.sub(word, text)


def imports(lines, text):
    """The lines without imports of the older kit's modules, and the names that they bring in besides those of the file's Prelude."""
    rest, names, i = [], [], 0
    while i < len(lines):
        m = IMPORT.match(lines[i][5:])
        if not m:
            rest.append(lines[i])
            i += 1
            continue
        had = m.group(1).split(", ")
        names += [n.replace("_", "◌") if n.startswith("_") else n for n in IMPORT.match(lines[i + 1][5:]).group(1).split(", ") if n not in had]
        i += 2
    there = PRELUDE.search(text).group(1).split(", ") if names else []
    return rest, [n for n in dict.fromkeys(names) if n not in there], there


def main(root):
    known, bad = set(), 0
    for path in files(root, (".antt", ".rt")):
        known |= set(re.findall(r"[A-Za-z_][\w'-]*", read(path)))
    for path in files(root, ".edit"):
        lines = read(path).split("\n")
        if path.endswith(CODE_ALONE):
            lines = [l for l in lines[: [i for i, l in enumerate(lines) if l.startswith("file: proofs")][0]] if not l.startswith("# (")] + [""]
        crate = path.split("/must-fail/")[0]
        texts, out = {}, []
        lines, names, there = imports(lines, read(os.path.join(crate, [l for l in lines if l.startswith("file:")][0][6:].strip())) if any(map(lambda l: IMPORT.match(l[5:]), lines)) else "")
        for line in lines:
            m = re.match(r"(file|old|new): ?(.*)$", line)
            if m and m.group(1) == "file":
                file = os.path.join(crate, m.group(2).strip())
                texts.setdefault(file, read(file))
                out.append(line)
                if names:
                    out += [f"old: use Rattle.std.specs.Prelude.{{{there[0]},", f"new: use Rattle.std.specs.Prelude.{{{', '.join(names + there[:1])},"]
                    names = []
            elif m:
                new = respelled(m.group(2), known)
                if m.group(1) == "old":
                    old = new
                    if texts[file].count(old) != 1:
                        print(f"{path}: stands {texts[file].count(old)} times: {old}")
                        bad += 1
                else:
                    texts[file] = texts[file].replace(old, new, 1)
                out.append(f"{m.group(1)}: {new}")
            else:
                out.append(line)
        with open(path, "w", encoding="utf-8") as f:
            f.write("\n".join(out))
    sys.exit(1 if bad else 0)


main(sys.argv[1] if len(sys.argv) > 1 else ".")
