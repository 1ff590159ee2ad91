#!/usr/bin/env python3
"""Brings the repository's own names of definitions and lemmas to the spelling of today's Rattle: words in snake case.

usage: python3 tools/respell.py [--list]      at the top, once, after the kit's port.py

A name that specs/ or proofs/ declare (`bit-bitsOf`, `asksFor`) turns to snake case wherever .antt files cite it and in the clauses and
`ghost use` lines of .rt files. Names of the kit's library, types, modules, functions of src/, comments and strings keep theirs.
Where a lemma and another name of the same file would fall together, the lemma gets `_law` after its name.
"""
import collections
import os
import re
import sys

WORD = r"[A-Za-zℕℤ_][\w'₀-₉]*(?:-[\w'₀-₉]+)*"
TOKEN = re.compile(r"(?<![\w'₀-₉])" + WORD)
# a number of bytes or bits in hexadecimal is no name
HEX = re.compile(r"x[0-9A-F]+$")


def files(ends):
    for d, dirs, fs in os.walk("crates"):
        dirs[:] = sorted(x for x in dirs if x != "out")
        for f in sorted(fs):
            if f.endswith(ends):
                yield os.path.join(d, f)


def snake(name):
    out = []
    for part in name.split("-"):
        part = re.sub(r"(?<=[a-z0-9'])([A-Z])", lambda m: "_" + m[1].lower(), part) if part[:1].islower() else part
        out.append(part)
    return "_".join(out)


def turns(name):
    return "-" in name or not HEX.match(name) and bool(re.match(r"[a-z][a-z0-9'_]*[A-Z]", name))


def split(line, mark):
    """A line's code and its comment."""
    if mark == "--":
        m = re.search(r"(?:^|\s)--(?:\s|$)", line)
    else:
        m = re.search(r"(?:^|\s)//", line)
    return (line, "") if not m else (line[: m.start()], line[m.start() :])


USE = re.compile(r"(?:^|\n)\s*(?:pub )?(?:ghost )?use ([^{};\n]+?)\.\{([^}]*)\}", re.S)


def own(path, crates):
    p = path.strip().split(".")
    return p[0] == "Rattle" and len(p) > 1 and p[1] in crates


def library(texts, crates):
    names = set()
    for t in texts.values():
        for m in USE.finditer(t):
            if not own(m[1], crates):
                for n in m[2].split(","):
                    a = re.split(r"\s+as\s+", n.strip())
                    names.add(a[0])
    return names


DECL = re.compile(r"^\s*(?:(?:pub|abbrev|unfoldable|opaque|instance|private|irrelevant|erased)\s+)*(" + WORD + r")(?:\s*\{[^}]*\})?\s*:(?!\S)")


def declared(texts):
    names = collections.defaultdict(set)
    for f, t in texts.items():
        if f.endswith(".antt"):
            for line in t.split("\n"):
                code, _ = split(line, "--")
                m = DECL.match(code)
                if m:
                    names[m[1]].add(f)
    return names


def renamed(text, names, mark, kept, walk):
    """The text with new names. In a proof that walks the code (`walk`) what follows a dot is a step's name, and no lemma's."""
    lines = []
    for line in text.split("\n"):
        code, comment = split(line, mark)
        parts = re.split(r'("(?:[^"\\]|\\.)*")', code)
        for i in range(0, len(parts), 2):
            parts[i] = TOKEN.sub(lambda m: m[0] if m[0] in kept or walk and stays(m, names) else names.get(m[0], m[0]), parts[i])
        lines.append("".join(parts) + comment)
    return "\n".join(lines)


def stays(m, names):
    return m.string[: m.start()].endswith(".") and names.get(m[0], "").endswith("_law")


def kept_in(text, crates):
    """What a file brings in from the kit's library."""
    kept = set()
    for m in USE.finditer(text):
        if not own(m[1], crates):
            kept |= {re.split(r"\s+as\s+", n.strip())[-1] for n in m[2].split(",")}
    return kept


def brings(text, name):
    """Whether a file brings in the name by a `use` line."""
    return any(name in re.split(r"[,\s]+", m[2]) for m in USE.finditer(text))


def places(texts):
    """The .antt files in which each name stands outside comments and strings."""
    seen = collections.defaultdict(set)
    for f, t in texts.items():
        if f.endswith(".antt"):
            for line in t.split("\n"):
                for m in TOKEN.finditer(re.sub(r'"(?:[^"\\]|\\.)*"', '""', split(line, "--")[0])):
                    seen[m[0]].add(f)
    return seen


def new_names(texts, crates):
    """Each name and its new one; and for a snake-case lemma that a definition would fall together with, the files in which it gives way."""
    lib, decl, seen = library(texts, crates), declared(texts), places(texts)
    names = {}
    for n in seen:
        local = any(not f.endswith("Proof.antt") for f in seen[n])
        if turns(n) and n not in lib and (n in decl or local):
            names[n] = snake(n)
    way = collections.defaultdict(set)
    for n, v in sorted(names.items()):
        others = ({m for m, w in names.items() if w == v and m != n}) | ({v} if v in seen else set())
        for m in others:
            both = seen[n] & seen[m]
            if both and "-" in n:
                names[n] = v + "_law"
            elif m == v and v not in lib:
                way[v] |= {f for f in both if not f.endswith("Proof.antt") and (f in decl.get(v, ()) or brings(texts[f], v))}
    return names, way


def main():
    crates = set(os.listdir("crates"))
    texts = {f: open(f, encoding="utf-8").read() for f in files((".antt", ".rt"))}
    names, way = new_names(texts, crates)
    if "--list" in sys.argv:
        for n in sorted(names):
            print(n, names[n])
        for n in sorted(way):
            print(n, n + "_law", *sorted(way[n]))
        return
    for f, t in texts.items():
        here = dict(names) | {n: n + "_law" for n in way if f in way[n]}
        if f.endswith(".rt"):
            here = {n: v for n, v in here.items() if turns(n)}
        new = renamed(t, here, "--" if f.endswith(".antt") else "//", kept_in(t, crates), f.endswith("Proof.antt"))
        if new != t:
            with open(f, "w", encoding="utf-8") as out:
                out.write(new)


if __name__ == "__main__":
    main()
