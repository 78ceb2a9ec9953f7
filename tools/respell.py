#!/usr/bin/env python3
"""Brings the repository's own names in specs/, proofs/, clauses and must-fail edits to the toolchain's spelling.

usage: python3 tools/respell.py        at the top of the repository, once, after port.py
       python3 tools/respell.py --list  prints each name beside its new spelling, and changes nothing

Types and facts are written in upper camel case (Best-cut: BestCut), everything else in snake case (worth-of: worth_of). Names of the
toolchain's library and the names that it makes itself (returns-in-Ok) stay, and so do functions of src/, strings, inputs and outputs.
A definition that would fall together with a function of its own crate gets the ending _lem.
"""

import os
import re
import sys

FIELD = re.compile(r"(?<![A-Za-z0-9_'\-])[A-Za-z][A-Za-z0-9_']*(?:-[A-Za-z0-9_']+)+(?![A-Za-z0-9_'\-])")
ANY = re.compile(r"(?<![A-Za-z0-9_'\-])[A-Za-z][A-Za-z0-9_'\-]*")

# parameters' names, which may be those of a field or a function
LOCAL = {"from-left", "from-below", "with-cut"}


def files(root):
    for folder, dirs, names in os.walk(os.path.join(root, "crates")):
        dirs[:] = sorted(d for d in dirs if d not in ("out", "target"))
        for n in sorted(names):
            if n.endswith((".rt", ".antt", ".edit")):
                yield os.path.join(folder, n)


def kind(path):
    parts = path.split(os.sep)
    at = parts.index("crates") + 2
    if parts[-1].endswith(".rt"):
        return "source"
    if parts[-1].endswith(".edit"):
        return "edit"
    # a file right in specs/ or proofs/ holds definitions or lemmas; one further in holds answers
    return "own" if len(parts) == at + 2 else "answers"


def split_comment(line, path):
    mark = "//" if path.endswith((".rt", ".edit")) else "--"
    at = line.find(mark + " ")
    return (line, "") if at < 0 else (line[:at], line[at:])


def brought(text):
    """The names that a file imports from outside the repository."""
    out = set()
    for m in re.finditer(r"use (Rattle\.std|Prim|native|mathlib|denote|lib)[^{;\n]*\{([^}]*)\}", text):
        out |= {w.strip() for w in m.group(2).split(",")}
    return out


def camel(name):
    return "".join(w[:1].upper() + w[1:] for w in name.split("-"))


def respelt(new, m, code):
    to = new.get(m.group(0), m.group(0))
    # behind a dot stands what the toolchain calls a step: it has the function's own name
    return to[:-4] if to.endswith("_lem") and code[: m.start()].endswith(".") else to


def main():
    root = os.getcwd()
    texts = {p: open(p, encoding="utf-8").read() for p in files(root)}
    library = set().union(*[brought(t) for t in texts.values()])
    own, functions, words = set(), set(), set()
    for p, t in texts.items():
        if kind(p) == "source":
            functions |= {(p.split(os.sep)[p.split(os.sep).index("crates") + 1], f) for f in re.findall(r"\bfn (\w+)", t)}
        for line in t.splitlines():
            code, _ = split_comment(line, p)
            words |= set(ANY.findall(code))
            if kind(p) == "own":
                own |= {w for w in FIELD.findall(code)}
            elif kind(p) == "answers":
                # a lemma beside the answers that cite it; what is said to be a goal is the toolchain's
                own |= {m.group(1) for m in [re.match(r"([A-Za-z][A-Za-z0-9_'\-]*-[A-Za-z0-9_'\-]+) :(?! goal)", code)] if m}
    own -= library
    names = {f for _, f in functions}
    new = {}
    for w in sorted(own):
        to = camel(w) if w[0].isupper() else w.replace("-", "_")
        if to in names and w not in LOCAL:
            to += "_lem"
        new[w] = to
    together = {}
    for w, to in new.items():
        together.setdefault(to, []).append(w)
    bad = [f"{to}: {ws}" for to, ws in together.items() for w in ws[:1] if len(ws) > 1 or (to in words and to not in new and w not in LOCAL)]
    if "--list" in sys.argv:
        for w in sorted(new):
            print(w, new[w])
    if bad:
        print("names that fall together:", *bad, sep="\n  ", file=sys.stderr)
        return 1
    if "--list" in sys.argv:
        return 0
    for p, t in texts.items():
        out = []
        for line in t.split("\n"):
            code, comment = split_comment(line, p)
            code = FIELD.sub(lambda m: respelt(new, m, code), code)
            comment = re.sub(r"`([^`]*)`", lambda m: "`" + FIELD.sub(lambda n: new.get(n.group(0), n.group(0)), m.group(1)) + "`", comment)
            out.append(code + comment)
        if "\n".join(out) != t:
            with open(p, "w", encoding="utf-8") as f:
                f.write("\n".join(out))
    print(f"{len(new)} names")
    return 0


if __name__ == "__main__":
    raise SystemExit(main())
