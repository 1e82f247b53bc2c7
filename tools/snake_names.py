#!/usr/bin/env python3
"""Spells the repository's own definitions, lemmas and fields of specs/ and proofs/ in snake case.

usage: python3 tools/snake_names.py [--list]     at the top of the repository, once, after the kit's port.py

A name that the repository declares in specs/ or proofs/ and that has a capital or a dash inside (`indexAfter`, `tag-stays`) becomes
`index_after`, `tag_stays`, wherever it stands in .antt and .rt files. Types, modules, facts (a capital first), names of the library and names that
the check makes keep theirs, and so do functions, fields and constants of src/. --list prints the names, and those that fall together, and writes nothing.
"""
import collections
import glob
import os
import re
import sys

TOKEN = re.compile(r"(?<![0-9A-Za-z_'])[A-Za-z_\u03b1-\u03c9][A-Za-z0-9_'\u2032\u2080-\u2089\u03b1-\u03c9-]*")

# Definitions that had their snake-case name before.
KEPT = {"id_of", "length_of", "end_word", "command_frames", "of_four", "with_outcome"}

# A lemma whose name the kit's script spelled so that it falls together with a definition.
FIRST = {"crates/tally/proofs/TicksCounted.antt": [("more_by", "more_by_lem")]}


def files(pattern):
    return sorted(p for p in glob.glob(pattern, recursive=True) if "/out/" not in p)


def snake(name):
    name = re.sub(r"([a-z0-9])([A-Z]+)(?=[A-Z][a-z]|$|[_'\-0-9\u2080-\u2089])", lambda m: m[1] + "_" + m[2].lower(), name)
    name = re.sub(r"([a-z0-9])([A-Z])", lambda m: m[1] + "_" + m[2].lower(), name)
    return name.replace("-", "_").lower()


def wanted(name):
    return name[0].islower() and (re.search(r"[A-Z]", name) or "-" in name) and not name.endswith("-")


def code(line):
    """The line's code and its comment."""
    at = re.search(r"(^|\s)--(\s|$)", line)
    return (line, "") if not at else (line[: at.start()], line[at.start() :])


def foreign(text):
    """The names that a file imports from outside the repository, and the short names of such modules."""
    names, modules = set(), set()
    for m in re.finditer(r"(?m)^\s*(?:pub )?(?:ghost )?use ([^\s;{]+)(?:\{([^}]*)\})?(?: as ([^\s;]+))?", text):
        path = m[1].rstrip(".")
        own = re.match(r"Rattle\.(\w+)\.(specs|proofs)", path)
        if own and os.path.isdir("crates/" + own[1]):
            if not (re.search(r"\.(Tie|Statement|Goals|Given|contracts)\b", path)):
                continue
        if m[2]:
            for part in m[2].split(","):
                words = part.split()
                if words:
                    names.add(words[-1])
        else:
            modules.add(m[3] or path.split(".")[-1])
    return names, modules


def hand(path):
    return re.search(r"/proofs/.+/[^/]+$", path) is not None


def declared(paths):
    """Names that the files declare, fields, locals and bound variables among them, but for names of goals and their answers."""
    out = collections.defaultdict(set)
    for p in paths:
        text = open(p, encoding="utf-8").read()
        names, _ = foreign(text)
        for line in text.split("\n"):
            line, _ = code(line)
            use = re.match(r"\s*(?:pub )?use Rattle\.(\w+)\.(?:specs|proofs)\.\S+ as (\S+)$", line)
            if use and os.path.isdir("crates/" + use[1]) and wanted(use[2]):
                out[use[2]].add(p)
            if re.match(r"\s*(pub )?use ", line):
                own = re.match(r"\s*(?:pub )?use Rattle\.(\w+)\.", line)
                if own and os.path.isdir("crates/" + own[1]):
                    for w in re.findall(r" as ([^\s,}]+)", line):
                        if wanted(w):
                            out[w].add(p)
                continue
            if not hand(p):
                for w in TOKEN.findall(re.sub(r"\.[A-Za-z][\w'-]*", "", line)):
                    if wanted(w) and w not in names and not re.search(r"^(let|le|lt)-", w):
                        out[w].add(p)
            m = re.match(r"(\s*)(?:(?:abbrev|unfoldable|pub|record|data|module|infixl|infixr|ruleset)\s+)*([A-Za-z][^\s:(){}.,;=]*)\s*[:(]", line)
            if m and wanted(m[2]) and not (hand(p) and not m[1] and ("tie.Need-" in line or "tie." in line or m[2].endswith("-spec"))):
                out[m[2]].add(p)
            m = re.match(r"\s*let\s+([a-z][^\s:(){}.,;=]*)\s", line)
            for b in re.findall(r"[({]((?:[A-Za-z_][^\s:(){}.,;]*\s+)+):", line) + re.findall(r"\u03bb ((?:[A-Za-z_][^\s:(){}.,;]*\s*)+)\.", line):
                for w in b.split():
                    if wanted(w):
                        out[w].add(p)
            for w in re.findall(r"\blet ([a-z][^\s:(){}.,;=]*)", line):
                if wanted(w):
                    out[w].add(p)
    return out


def turned(text, names):
    out_names, out_modules = foreign(text)

    def word(m):
        w = m[0]
        if w not in names or w in out_names:
            return w
        before = m.string[: m.start()]
        at = re.search(r"([A-Za-z_][\w'-]*)\.$", before)
        if at and at[1] in out_modules:
            return w
        use = re.match(r"\s*(?:pub )?(?:ghost )?use ([^\s;{]+)", before)
        if use:
            own = re.match(r"Rattle\.(\w+)\.(specs|proofs)", use[1])
            if not own or not os.path.isdir("crates/" + own[1]) or re.search(r"\.(Tie|Statement|Goals|Given)\b", use[1]):
                return w
        if at and re.search(r"\b(Need|tie)$", before.rstrip(".")):
            return w
        return names[w]

    return "\n".join(TOKEN.sub(word, line) for line in text.split("\n"))


def main():
    paths = files("crates/*/specs/**/*.antt") + files("crates/*/proofs/**/*.antt")
    found = declared(paths)
    names = {n: snake(n) for n in found}
    # A lemma that would have a definition's name gets _lem.
    words = {snake(n) for n in found if re.search("[A-Z]", n)} | KEPT
    names |= {n: s + "_lem" for n, s in names.items() if "-" in n and s in words}
    if "--list" in sys.argv:
        together = collections.defaultdict(set)
        every = set()
        for p in paths:
            every |= set(TOKEN.findall(open(p, encoding="utf-8").read()))
        for n, s in names.items():
            together[s].add(n)
        for s, ns in sorted(together.items()):
            others = set(ns)
            if s in every:
                others.add(s)
            if len(others) > 1:
                print("together:", s, sorted(others), "in", sorted({q.split("/")[1] for n in ns for q in found[n]})[:6])
        print(len(names), "names")
        return
    for p in paths + files("crates/*/src/*.rt"):
        old = text = open(p, encoding="utf-8").read()
        for a, b in FIRST.get(p, []):
            text = re.sub(r"(?<![\w'-])" + a + r"(?![\w'-])", b, text)
        new = turned(text, names)
        if new != old:
            open(p, "w", encoding="utf-8").write(new)


main()
