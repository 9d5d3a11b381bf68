#!/usr/bin/env python3
"""Counts, by reading the functions and not by lines, what docs/DESIGN-PASS.md counts by grep: python3 tools/recount.py [FOLDER OF CRATES].

Each function of crates/*/src is taken apart into its parameters, its clauses and its body. Listed are: loops with a counter; parameters of 8 bits that stand for a choice;
functions that are the same but for names and numbers; facts that stand in the clauses of three or more functions; parameters that go together in four or more;
fields copied out on a line of their own."""
import collections
import glob
import re
import sys

root = sys.argv[1] if len(sys.argv) > 1 else "crates"
KEYWORDS = set("fn pub let mut if else while for in loop return match true false as impl use ensures requires ghost const static struct enum where self Self Ok Err Some None".split())


def functions(text):
    """Name, parameters, clauses and body of each function, comments taken out."""
    text = re.sub(r"//[^\n]*", "", text)
    for m in re.finditer(r"\bfn (\w+)(<[^(]*>)?\(", text):
        i, depth = m.end(), 1
        while depth:
            depth += {"(": 1, ")": -1}.get(text[i], 0)
            i += 1
        params, j = text[m.end():i - 1], i
        clauses = []
        while True:
            nxt = re.compile(r"\s*(?:->\s*[^{]*?)?\s*(ensures|requires)\s*\w*\s*\{|\s*(?:->\s*[^{;]*)?([{;])", re.S).match(text, j)
            if not nxt or nxt.group(2) == ";":
                body = ""
                break
            k, depth = nxt.end(), 1
            while depth:
                depth += {"{": 1, "}": -1}.get(text[k], 0)
                k += 1
            if nxt.group(1):
                clauses.append((nxt.group(1), " ".join(text[nxt.end():k - 1].split())))
                j = k
            else:
                body = text[nxt.end():k - 1]
                break
        yield m.group(1), [" ".join(p.split()) for p in re.split(r",(?![^<\[(]*[>\])])", params) if p.strip()], clauses, body


def shape(body):
    """The body with each name and number replaced by its order of coming up."""
    seen = {}
    out = []
    for t in re.findall(r"\w+|[^\w\s]", body):
        if re.match(r"\d", t):
            out.append("0")
        elif re.match(r"\w", t) and t not in KEYWORDS:
            out.append(seen.setdefault(t, "v%d" % len(seen)))
        else:
            out.append(t)
    return " ".join(out)


counters, codes, shapes, facts, groups, copies = [], [], collections.defaultdict(list), collections.defaultdict(set), collections.defaultdict(set), []
for path in sorted(glob.glob(root + "/*/src/*.rt")):
    crate = path.split("/")[-3]
    for name, params, clauses, body in functions(open(path).read()):
        place = crate + "::" + name
        for m in re.finditer(r"\b(while|loop)\b", body):
            grown = re.search(r"\b(\w+) (?:\+= 1|-= 1|= \1 \+ 1);", body[m.end():])
            counters.append((place, "counts " + grown.group(1) if grown else "no counter"))
        codes += [(place, p) for p in params if re.search(r": u8$", p) and not re.match(r"(mut )?(b|byte|low|high|x|c)\b", p)]
        if len(body.split()) > 8:
            shapes[shape(body)].append(place)
        for kind, clause in clauses:
            if kind == "requires":
                for fact in clause.split("×"):
                    facts[fact.strip().strip("()")].add(place)
        named = [p for p in params if ":" in p]
        for a in range(len(named)):
            for b in range(a + 1, len(named)):
                groups[(named[a], named[b])].add(place)
        copies += [(place, m.group(0)) for m in re.finditer(r"let \w+ = \w+\.\w+;", body)]


def show(title, rows):
    print("%s: %d" % (title, len(rows)))
    for row in rows:
        print("   ", row)


show("loops that are no `for`", counters)
show("parameters of 8 bits that stand for a choice", codes)
show("functions alike but for names and numbers", [v for v in shapes.values() if len(v) > 1])
show("facts asked for by three functions or more", sorted((f, len(v)) for f, v in facts.items() if len(v) > 2 and len(f) > 8))
show("parameters side by side in four functions or more", sorted((g, len(v)) for g, v in groups.items() if len(v) > 3))
show("fields copied out on a line of their own", copies)
