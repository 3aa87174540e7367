#!/usr/bin/env python3
"""Spells this repository's own definitions, lemmas and variables of specs/ and proofs/ in snake case, and types in camel case:
`lead-of` becomes `lead_of`, and `Any-lent` `AnyLent`.

usage: python3 tools/respell.py [FOLDER]     in the repository, or over the copy of it in FOLDER; run once, after port.py

Names that a file imports from a library keep their spelling, and so do goals and labels that Rattle makes (`returns-2`,
`loop-init`, what stands behind `tie.`). Comments, strings and the code of src/ stay. A name that would fall together with
another one of its file is printed, and nothing is written.
"""

import os
import re
import sys

NAME = re.compile(r"[^\s(){}\[\].;,@\"`«»]+")
USE = re.compile(r"\buse ([^\s;{]*[^\s;{.])(?:\.\{([^}]*)\})?")
OWN = re.compile(r"Rattle\.(\w+)\.")
LABEL = re.compile(r"(returns|loop)-[\w-]+|(invariant|decreases)-.+|(Need|After|In|At|Then|Else)-.+")


def files(root):
    for folder, dirs, names in os.walk(os.path.join(root, "crates")):
        dirs[:] = sorted(d for d in dirs if d not in ("out", "target", ".git"))
        for name in sorted(names):
            if name.endswith((".antt", ".rt", ".edit")):
                yield os.path.join(folder, name)


def imported(text, crates):
    """The names that a file takes from libraries that are not this repository's."""
    found = set()
    for module, names in USE.findall(text):
        own = OWN.match(module + ".")
        if names and not (own and own[1] in crates):
            found |= {n.split(" as ")[-1].strip() for n in names.split(",")}
    return found


def is_kebab(name):
    return "-" in name.strip("-") and re.search(r"[^\W\d_]", name) and "◌" not in name and not re.match(r"b?'", name)


def respelled(name):
    if re.match(r"[A-Z][a-z]", name):
        return re.sub(r"-(\w)", lambda m: m[1].upper(), name)
    return re.sub(r"(?<=[\w'])-(?=[\w'])", "_", name)


def is_field(text, m):
    """Whether the name stands behind a dot or before `.` or ` =`: a field, a label or a part of a module's path."""
    return text[m.start() - 1 : m.start()] == "." or re.match(r"\.| = ", text[m.end() : m.end() + 3]) is not None


def parts(path, text):
    """The spans of a file's text that are antt: all but comments and strings, and of src/ the ghost imports and the clauses."""
    if path.endswith(".antt"):
        for line in re.finditer(r"(?m)^.*$", text):
            body = line[0]
            cut = re.search(r"(^|\s)--(\s|$)", body)
            end = cut.start() if cut else len(body)
            at = 0
            for quoted in re.finditer(r'"(?:\\.|[^"\\])*"', body[:end]):
                yield line.start() + at, line.start() + quoted.start()
                at = quoted.end()
            yield line.start() + at, line.start() + end
    elif path.endswith(".edit"):
        for line in re.finditer(r"(?m)^(old|new): .*$", text):
            yield line.start() + 5, line.end()
    else:
        for found in re.finditer(r"(?m)^ghost use [^;]*;", text):
            yield found.span()
        for found in re.finditer(r"(?m)^[ ]*(requires|ensures|invariant|ghost(?! use))\b[^\n]*?\{", text):
            depth, at = 1, found.end()
            while depth and at < len(text):
                depth += {"{": 1, "}": -1}.get(text[at], 0)
                at += 1
            yield found.start(), at


def main(root):
    crates = set(os.listdir(os.path.join(root, "crates")))
    clashes, written = [], {}
    for path in files(root):
        with open(path, encoding="utf-8") as it:
            text = it.read()
        theirs = imported(text, crates)
        spans = list(parts(path, text))
        there = {m[0] for a, e in spans for m in NAME.finditer(text, a, e) if not is_field(text, m)}
        new, at = [], 0
        for a, e in spans:
            for m in NAME.finditer(text, a, e):
                name = m[0]
                if not is_kebab(name) or name in theirs or LABEL.fullmatch(name):
                    continue
                if text[max(0, a, m.start() - 4) : m.start()].endswith(("tie.", "goal.")):
                    continue
                spelled = respelled(name)
                if spelled == name:
                    continue
                if spelled in there:
                    clashes.append(f"{path}: {name} and {spelled}")
                new.append(text[at : m.start()] + spelled)
                at = m.end()
        written[path] = "".join(new) + text[at:]
    if clashes:
        print("\n".join(sorted(set(clashes))))
        return 1
    for path, text in written.items():
        with open(path, "w", encoding="utf-8") as it:
            it.write(text)
    return 0


if __name__ == "__main__":
    raise SystemExit(main(sys.argv[1] if len(sys.argv) > 1 else os.path.join(os.path.dirname(os.path.abspath(__file__)), "..")))
