#!/usr/bin/env python3
"""Counts the places of docs/DESIGN-PASS.md in another way than places.py, by the tokens of each function of crates/*/src and not by lines: shapes.py ROOT [--list]"""
import collections
import itertools
import pathlib
import re
import sys


def plain(t):
    """The source without comments, with each text replaced by an empty one."""
    t = re.sub(r"//[^\n]*", "", t)
    return re.sub(r"b?\"(?:[^\"\\]|\\.)*\"|b?'(?:[^'\\]|\\.)'", '""', t)


def closing(t, i):
    deep = 0
    for k in range(i, len(t)):
        deep += {"{": 1, "(": 1, "[": 1, "}": -1, ")": -1, "]": -1}.get(t[k], 0)
        if deep == 0:
            return k
    return len(t)


def functions(root):
    """Each function's place, parameters, parts of `requires` and body."""
    for p in sorted(pathlib.Path(root, "crates").glob("*/src/**/*.rt")):
        t = plain(p.read_text())
        for m in re.finditer(r"\bfn (\w+)[^(]*(\()", t):
            end = closing(t, m.start(2))
            params = [re.sub(r"\s+", " ", x).strip() for x in re.split(r",(?![^<\[(]*[>\])])", t[m.start(2) + 1 : end])]
            i, asked = end + 1, []
            while t[i] not in "{;":
                c = re.compile(r"(requires|ensures)\*?\s*\w*\s*\{").match(t, i)
                if c:
                    j = closing(t, c.end() - 1)
                    if c[1] == "requires":
                        asked += [re.sub(r"\s+|\.(old|now)\b", "", x) for x in re.split(r"×", t[c.end() : j])]
                    i = j + 1
                else:
                    i += 1
            body = t[i : closing(t, i) + 1] if t[i] == "{" else ""
            yield f"{p.parent.parent.name if p.parent.name == 'src' else p.parts[-3]}::{m[1]}", [x for x in params if ":" in x], [a.strip("()") for a in asked], body


def shape(body):
    """A body with every name and number replaced, so that bodies which differ in these alone are alike."""
    return re.sub(r"\s+", "", re.sub(r"\b(?!let\b|if\b|else\b|match\b|for\b|while\b|return\b|in\b|mut\b|as\b)[A-Za-z_0-9]+\b", "x", body))


def shared(groups, least):
    return {g: fs for g, fs in groups.items() if len(set(fs)) >= least}


def main():
    root, listed = sys.argv[1], "--list" in sys.argv
    fs = list(functions(root))
    text = {str(p): plain(p.read_text()) for p in pathlib.Path(root, "crates").glob("*/src/**/*.rt")}
    together, facts, shapes = (collections.defaultdict(list) for _ in range(3))
    for f, params, asked, body in fs:
        for g in itertools.combinations(sorted(params), 3):
            together[g].append(f)
        for a in asked:
            facts[a].append(f)
        if len(body) > 60:
            shapes[shape(body)].append(f)
    enums = [m for t in text.values() for m in re.finditer(r"\benum (\w+)[^{]*\{([^}]*)\}", t)]
    found = {
        "1 enums with a variant that holds an error": [m[1] for m in enums if re.search(r"\((MdfError|\w*Error)\)", m[2])],
        "1 enums with two variants, one of them bare": [m[1] for m in enums if re.fullmatch(r"\s*(\w+\([^)]*\),\s*\w+,?|\w+,\s*\w+\([^)]*\),?)\s*", m[2])],
        "1 constants of one or two digits": [m[0] for t in text.values() for m in re.finditer(r"\bconst \w+: \w+ = \d{1,2};", t)],
        "1 comparisons with a number of one or two digits above 1": [f"{f}: {m[0]}" for f, _, _, b in fs for m in re.finditer(r"\b\w+ (?:==|!=|<=?|>=?) (?:[2-9]|\d\d)\b|\b(?:[2-9]|\d\d) (?:==|!=|<=?|>=?) \w+", b)],
        "2 functions whose bodies differ in names and numbers alone": [f for g in shared(shapes, 2).values() for f in g],
        "3 loops that are no `for`": [f for f, _, _, b in fs for _ in re.finditer(r"\b(?:while|loop)\b", b)],
        "3 steps of one": [f"{f}: {m[0]}" for f, _, _, b in fs for m in re.finditer(r"\w+(?:\.\w+)* (?:\+= 1|= \w+ \+ 1);", b)],
        "5 parts of `requires` that three functions or more ask": [f"{f}: {a}" for a, g in shared(facts, 3).items() for f in g],
        "5 functions that share three parameters with three or more others": sorted({f for g in shared(together, 4).values() for f in g}),
        "6 functions that take a slice and a count named n, m or k": [f for f, ps, _, _ in fs if any(re.match(r"[nmk]: usize", p) for p in ps) and any("[u" in p for p in ps)],
        "6 functions that take a slice with from and end": [f for f, ps, _, _ in fs if any(re.match(r"(from|start|at): usize", p) for p in ps) and any(re.match(r"(end|to): usize", p) for p in ps)],
    }
    for point, places in found.items():
        print(f"{len(places):5}  {point}")
        if listed:
            print("\n".join(f"       {p}" for p in places))


main()
