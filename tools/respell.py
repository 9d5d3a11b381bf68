#!/usr/bin/env python3
"""respell.py: the repository's own definitions and lemmas in the spelling of today's Rattle, once, after port.py.

usage: python3 tools/respell.py [--dry]      at the top of the repository

Words that were written with hyphens or with an inner capital (rows-few, treeBody) get underscores (rows_few, tree_body).
Only names of the repository's own specs/ and lemma files are turned, where they stand there, in ghost lines of src/,
and where the proof of a function cites them. Names of the library, generated names, functions of src/, texts and
must-fail edits keep theirs. Two names that would fall together are told apart in APART.
"""
import collections
import glob
import re
import sys

TOKEN = re.compile(r"(?<![\w'\-])([^\W\d_][\w']*(?:-[\w']+)*)")
USE = re.compile(r"^\s*(?:pub )?(?:ghost )?use ((?:[\w'·+-]+\.)*[\w'·+-]+)(?:\.\{([^}]*)\})?", re.M)
CLAUSE = re.compile(r"\b(?:requires|ensures|ghost)\b[^{};]*\{")
KIT_ROOTS = {"std", "io", "libc", "os", "check", "borrow", "seplogic", "core"}

# Where a lemma's name falls together with that of a definition, of a word of the library or of another name, the lemma
# gets the ending _law: the-matrix, beside theMatrix, is the_matrix_law.
APART = {"no_table": "no_table_law"}


def odd(name):
    return "-" in name or re.match(r"[a-z][\w']*[A-Z]", name) is not None


def respelled(name):
    if name in APART:
        return APART[name]
    name = re.sub(r"(?<=[a-z0-9'])([A-Z]+)", lambda m: "_" + m.group(1), name) if name[0].islower() else name
    name = name.replace("-", "_")
    return name.lower() if name[0].islower() else name


def own_path(path):
    return path.startswith("Rattle.") and path.split(".")[1] in OWN


def code(text):
    """The places of comments, which are left out of the search for declarations."""
    return re.sub(r"(?<![\w'])--[^\n]*", "", text)


# plain names that stand beside one with hyphens in one file
TAKEN = {"bit_and", "bit_or", "row_of", "word_at"}
OWN = {line.split(":")[0].split()[0] for line in open("crates.txt") if line.strip() and not line.startswith("#")}


def theory():
    for p in sorted(glob.glob("crates/*/specs/**/*.antt", recursive=True) + glob.glob("crates/*/proofs/*.antt")):
        yield p


def walks():
    for p in sorted(glob.glob("crates/*/proofs/*/**/*.antt", recursive=True)):
        yield p


def imported(text, own):
    names = set()
    for m in USE.finditer(text):
        if own_path(m.group(1)) == own:
            for x in re.split(r"[,\s]+", m.group(2) or ""):
                if x:
                    names.add(x)
    return names


def main():
    dry = "--dry" in sys.argv
    texts = {p: open(p, encoding="utf-8").read() for p in list(theory()) + list(walks()) + sorted(glob.glob("crates/*/src/**/*.rt", recursive=True))}
    turn = {}
    declared = set()
    for p in theory():
        t = code(texts[p])
        kit = imported(t, False)
        for m in TOKEN.finditer(t):
            x = m.group(1)
            before = t[m.start() - 1:m.start()]
            if odd(x) and x not in kit and before not in (".", "◌"):
                turn.setdefault(x, respelled(x))
                declared.add(x)
    turn.update(APART)
    plain = set()
    for t in texts.values():
        plain.update(m.group(1) for m in TOKEN.finditer(code(t)) if not odd(m.group(1)) and t[m.start() - 1:m.start()] != ".")
    camel = {turn[x] for x in turn if "-" not in x}
    for x in turn:
        if "-" in x and (turn[x] in camel or (turn[x] in plain and turn[x] in TAKEN)):
            turn[x] += "_law"
    # names that fall together within one file
    bad = 0
    for p, text in texts.items():
        if p.endswith(".rt"):
            continue
        t = code(text)
        kit = imported(t, False)
        here = collections.defaultdict(set)
        for m in TOKEN.finditer(t):
            x = m.group(1)
            before = t[m.start() - 1:m.start()]
            if before == ".":
                continue
            here[turn[x] if x in turn and x not in kit else x].add(x)
        for new, olds in here.items():
            if len(olds) > 1:
                bad += 1
                print(f"falls together: {p}: {sorted(olds)} -> {new}")
    # and among the public names of all files
    everywhere = collections.defaultdict(set)
    for x in turn:
        everywhere[turn[x]].add(x)
    for new, olds in sorted(everywhere.items()):
        if len(olds) > 1:
            print(f"same new name: {sorted(olds)} -> {new}")
    print(f"{len(turn)} names to turn, {bad} fall together")
    if dry:
        return

    def apply(text, names):
        def one(m):
            x = m.group(1)
            return names.get(x, x)
        return TOKEN.sub(one, text)

    changed = 0
    for p, text in texts.items():
        if p.endswith(".rt"):
            out, at = [], 0
            # ghost lines: `ghost use ..;` and the braces of clauses
            spans = [m.span() for m in re.finditer(r"^\s*ghost use [^;]*;", text, re.M)]
            for m in CLAUSE.finditer(text):
                depth, i = 1, m.end()
                while depth and i < len(text):
                    depth += {"{": 1, "}": -1}.get(text[i], 0)
                    i += 1
                spans.append((m.end(), i))
            spans.sort()
            for a, b in spans:
                if a < at:
                    continue
                out.append(text[at:a])
                kit = imported(text, False)
                out.append(apply(text[a:b], {x: y for x, y in turn.items() if x not in kit}))
                at = b
            out.append(text[at:])
            new = "".join(out)
        elif p in WALKS:
            t = code(text)
            cited = imported(t, True)
            kit = imported(t, False)
            names = {x: turn[x] for x in cited if x in turn and x not in kit}
            fields = {x: turn[x] for x in FIELDS if x in turn and x not in kit}
            new = apply(text, names)
            # fields of the repository's own records
            new = re.sub(r"(?<=\.)([a-z][\w']*(?:-[\w']+)*)(?![\w'-])", lambda m: fields.get(m.group(1), m.group(1)), new)
            new = re.sub(r"(?<=[{;(,] )([a-z][\w']*(?:-[\w']+)*)(?= =)", lambda m: fields.get(m.group(1), m.group(1)), new)
            new = re.sub(r"(?m)^(\s+)([a-z][\w']*(?:-[\w']+)*)(?= = )", lambda m: m.group(1) + fields.get(m.group(2), m.group(2)), new)
        else:
            kit = imported(code(text), False)
            new = apply(text, {x: y for x, y in turn.items() if x not in kit})
        if new != text:
            changed += 1
            open(p, "w", encoding="utf-8").write(new)
    print(f"{changed} files changed")


WALKS = set(walks())
FIELDS = set()
for _p in theory():
    _t = open(_p, encoding="utf-8").read()
    for _m in re.finditer(r"^(?:pub )?record [^\n]* where\n((?:[ \t]+[^\n]*\n|\n)*)", _t, re.M):
        for _f in re.finditer(r"^\s+(?:pub )?([a-z][\w'-]*)(?: [\w' -]+)? :", _m.group(1), re.M):
            FIELDS.add(_f.group(1))
main()
