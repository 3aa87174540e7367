#!/usr/bin/env python3
"""Counts the places of docs/DESIGN-PASS.md in crates/*/src and crates/*/proofs at a commit: tools/places.py [COMMIT] [--list POINT]"""
import re
import subprocess
import sys


def git(*args):
    return subprocess.run(["git", *args], check=True, capture_output=True, text=True).stdout


def sources(commit, folder, ending):
    names = git("ls-tree", "-r", "--name-only", commit, "crates").split()
    return {n: git("show", f"{commit}:{n}") for n in names if f"/{folder}/" in n and n.endswith(ending)}


def lines_with(files, pattern):
    return [f"{n}:{i}: {line.strip()}" for n, t in files.items() for i, line in enumerate(t.split("\n"), 1) if re.search(pattern, line)]


def functions(files):
    """Each function's name, parameters and clauses."""
    for n, t in files.items():
        for m in re.finditer(r"^\s*(?:pub(?:\(crate\))? )?(?:extern \"C\" )?fn (\w+)(?:<[^(]*>)?\((.*?)\)(.*?)^\s*\{$", t, re.S | re.M):
            yield n, t[: m.start()].count("\n") + 1, m.group(1), re.sub(r"\s+", " ", m.group(2)), m.group(3)


def with_parameters(src, *wanted):
    return [f"{n}:{i}: {f}" for n, i, f, ps, _ in functions(src) if all(re.search(w, ps) for w in wanted)]


def repeated_facts(src):
    """The functions whose `requires` has a part that three or more functions ask."""
    asked = {}
    for n, i, f, _, clauses in functions(src):
        for c in re.findall(r"requires(?: \w+)? \{ (.*) \}", clauses):
            for part in re.split(r" × ", c):
                asked.setdefault(re.sub(r"\.(old|now)\b", "", part.strip("() ")), []).append(f"{n}:{i}: {f}: {part}")
    return [p for ps in asked.values() if len(ps) > 2 for p in ps]


def main():
    args = [a for a in sys.argv[1:] if not a.startswith("--")]
    shown = args.pop() if "--list" in sys.argv else None
    commit = args[0] if args else "HEAD"
    src = sources(commit, "src", ".rt")
    answers = sources(commit, "proofs", "Answers.antt")
    found = {
        "1a own enums with a variant for a refusal": lines_with(src, r"^\s+Refused\(MdfError\),"),
        "1b other own enums with a variant for nothing": lines_with(src, r"^\s+(None|Nothing|End),"),
        "1c a flag with a value beside it": lines_with(src, r"let mut some = false|want\.number|unfinalized\.number|^pub struct Want "),
        "1d numbers for kinds, entries and programs": lines_with(src, r"^(pub )?const [A-Z_]+: u(8|64) = [0-9]+;"),
        "1e tests of such a number": lines_with(src, r"\b(kind|number|program) (==|!=|<=|<) |[0-9A-Z_]+ (==|<=|<) (kind|number)\b"),
        "2 functions and types that differ in a type, size or constant": lines_with(
            src,
            r"fn (wide|wide_u8|larger|less|zero_words|zero_bytes|saturating_add|saturating_words|list_links|check_links|push_list|check_targets|push_links|record_simple_data_block"
            r"|record_signal_data_block|enter_tx|enter_md|enter_ut|no_\w+|to_next|to_grouped|to_opened|unopened|not_opened|not_entered|without_layout|listing|tree|clear"
            r"|few_\w+|same_bytes|size_at|part_from|part_to|note|trim_start_nuls|trim_end_nuls|walk_channels|walk_channel_groups|walk_data_groups)\b"
            r"|pub fn parse\(|struct (Row|BlockInfo) ",
        ),
        "3 loops that count by hand": lines_with(src, r"^\s*(while|loop)\b"),
        "4 equality, copying and conversion by hand": lines_with(
            src, r"fn (same_\w+|all_zero|copy_bytes|store|words_of|four|low_byte|byte|word|row_word|swap16|below_zero|from_zero|signed16|put_le|put_bool|at_or_zero|read_u\w+|read_i16)\b"
        ),
        "5a parts of `requires` that three or more functions ask": repeated_facts(src),
        "5b a recording, tables and counts of a walk": with_parameters(src, r"\bw: Walk\b"),
        "5c an output and its count": with_parameters(src, r"\bout: &mut \[u8\]", r"\b(at|start): usize"),
        "5d three numbers of a record layout": with_parameters(src, r"record_size: u64", r"invalidation_bytes: u64"),
        "5e the lent buffers of a replayed call": with_parameters(src, r"\bends: Ends", r"\b(entry: Entry|data: &\[u8\])"),
        "6a a text as bytes, from and end": with_parameters(src, r"\b(s|b|file|data): &(mut )?\[u8\]", r"\b(at|from|start|dot): usize, (end|to): usize"),
        "6b a table and its number of rows": with_parameters(src, r"\b(blocks|t): &(mut )?\[u64\], (w: usize, )?n: usize"),
        "6c parallel arrays, sorted lists searched, rows sorted by hand": lines_with(src, r"^const (LENGTHS|WHITE)\b|fn (find_row|sort_rows|sift_down|make_heap|is_white)\b"),
        "7 switches on which step to run": lines_with(src, r"if (kind|number|program) == |if (CG|CN|PREVIEW) <= "),
        "8a answers that end in `search rules`": lines_with(answers, r"\bsearch rules$"),
        "8b steps named by a `let` with its type in an answer": lines_with(answers, r"^\s+let [a-z][\w'-]* : "),
    }
    for point, places in found.items():
        print(f"{len(places):5}  {point}")
        if shown and point.startswith(shown):
            print("\n".join(f"       {p}" for p in places))


main()
