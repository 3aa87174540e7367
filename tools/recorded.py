#!/usr/bin/env python3
"""Writes computed rows that hold the definition against the Rust's answers: a module of antt for each recording.

  recorded.py CRATE ANSWERS AMENDED [FILE..]

FILE.. are recordings; without one, those of recordings/ whose modules crates/CRATE/proofs/Lib.antt lists. ANSWERS is the folder that
the oracle's `--out` wrote for them (NAME.rows, and NAME.text and NAME.tree of an accepted one), AMENDED the one that the amended
oracle's did (tools/amend.py): its answer counts where the Rust panics on a channel's name with a block_len under 24. The modules and
Lib.antt go to crates/CRATE/proofs/. Each row is proved by computation, so a definition that answers otherwise is refused. The links
behind the block rows and the longest path (order 3), which the Rust has not, are those of tools/followed.py. The clear list, which it
has not either, is drawn here from the rows by the text of document 01 and of document 02's order 1, apart from the definition; that of
an unfinalised recording is refusal 16 (order 4), with as much lent as its clear list would need.
"""
import glob
import os
import struct
import sys

import followed
from answers import RUST_ROW, tables

USES = """use mathlib.Core.Path.{◌≡◌, refl}
use mathlib.Core.List.{List, [], ◌∷◌, ◌++◌}
use Prim.Native.Nat.{ℕ}
use lib.ListN.{replicate}
use Rattle.fmt.specs.Text.{ascii}
use Rattle.mdf4.specs.Act.{%s}
use Rattle.mdf4.specs.Answers.{layout_exit, to_text_exit, to_tree_exit, path_exit, clear_list_exit}
use Rattle.mdf4.proofs.Computed.{computed}
use Rattle.mdf4.proofs.Recordings.{%s}

"""


def words(xs):
    return " ∷ ".join([str(x) for x in xs] + ["[]"])


def wrapped(parts, op, width=140):
    """The parts joined by op, over lines."""
    lines, line = [], "   "
    for i, p in enumerate(parts):
        p = p if i == 0 else op + " " + p
        if len(line) + 1 + len(p) > width and line.strip():
            lines.append(line)
            line = "   "
        line += " " + p
    return "\n".join(lines + [line])


def table(xs):
    return wrapped([str(x) for x in xs] + ["[]"], "∷") if xs else "    []"


def quoted(b):
    return 'ascii "%s"' % b.decode().replace("\\", "\\\\").replace('"', '\\"').replace("\n", "\\n")


def content(b, least=4):
    """Bytes as printable texts, runs of zeros and numbers."""
    out, i, rest = [], 0, []

    def flush():
        if rest:
            out.append("(" + words(rest) + ")")
            rest.clear()
    while i < len(b):
        j = i
        while j < len(b) and b[j] == 0:
            j += 1
        if j - i >= least:
            flush()
            out.append("replicate %d 0" % (j - i))
            i = j
            continue
        j = i
        while j < len(b) and (32 <= b[j] < 127 or b[j] == 10 and j > i):
            j += 1
            if b[j - 1] == 10:
                break
        if j - i >= least:
            flush()
            out.append(quoted(b[i:j]))
            i = j
            continue
        rest.append(b[i])
        i += 1
    flush()
    return wrapped(out or ["[]"], "++")


def num(r, a, n):
    return int.from_bytes(r[a:a + n], "little")


def clear_list(r, blocks, links, gaps):
    """Scratch rows and CLR bytes, from the Rust's rows by the text of document 01 and of document 02's order 1."""
    reads, kept = [], []
    for k in range(0, len(blocks), RUST_ROW):
        off, kind, first = blocks[k], blocks[k + 4], blocks[k + 6]
        block_len, links_nr = num(r, off + 8, 8), num(r, off + 16, 8)
        n = {1: 64, 2: 104, 3: 64, 5: 160}.get(kind, 24)
        if kind == 4:
            n = 24 + 8 * links_nr + 32
        elif kind == 6:
            n = 24 + 8 * links_nr + 3
        elif kind in (7, 8):
            n = max(24, block_len)
        elif kind == 11:
            n = 32 + 8 * links_nr
            n += 8 if r[off + 24 + 8 * links_nr] & 1 else 8 * num(r, off + 28 + 8 * links_nr, 4)
        reads.append((off, off + n))
        if kind == 5:
            target, found = links[2 * (first + 2):2 * (first + 2) + 2]
            if found == 1 + num(b"##TX", 0, 4) and target + 24 <= len(r):
                m = max(24, num(r, target + 8, 8))
                reads.append((target, target + (m if target + m <= len(r) else 24)))
    for t, f in zip(links[0::2], links[1::2]):
        if f and r[t:t + 2] == b"##" and t + 24 <= len(r):
            reads.append((t, t + 24))
            kept.append((t, t + num(r, t + 8, 8)))
        elif f:
            reads.append((t, t + 4))
    clear = bytearray(len(r))
    for a, z in zip(gaps[0::2], gaps[1::2]):
        clear[a:z] = b"\1" * (z - a)
    for a, z in reads + kept:
        z = min(z, len(r))
        clear[a:z] = bytes(z - a)
    ranges, i = [], 0
    while i < len(r):
        j = i
        while j < len(r) and clear[j]:
            j += 1
        if j > i:
            ranges.append((i, j))
        i = j + 1
    q = lambda x: struct.pack("<Q", x)
    return len(reads) + len(kept), b"CLR\1\0\0\0\0" + q(len(r)) + q(len(ranges)) + b"".join(q(a) + q(z) for a, z in ranges)


def flag_words(r):
    """The standard and custom unfinalized flags, which document 02's order 4 asks to be 0 before there is a clear list."""
    return num(r, 60, 2), num(r, 62, 2)


def rows_of(base):
    rows = open(base + ".rows", "rb").read()
    return struct.unpack("<%dQ" % (len(rows) // 8), rows)


def module(name, r, answers, amended):
    base, other, whose = os.path.join(answers, name + ".mf4"), os.path.join(amended, name + ".mf4"), "the Rust"
    if rows_of(base)[:2] == (1, 8):    # the number that the oracle has for that panic
        base, whose = other, "the amended Rust"
    w = rows_of(base)
    assert w == rows_of(other), "the amended Rust differs"
    out = "-- %s.mf4, as %s answers it; links behind rows, path and clear list as the scripts draw them.\n" % (name, whose)
    flags = flag_words(r)
    out += USES % (("ok, err, refusal", "lent, counts") if w[0] == 0 else ("err, refusal", "lent"))
    out += "recording : List ℕ\nrecording =\n%s\n\n" % content(r)

    def refused(label, entry, lent, four):
        return "%s : %s (lent %d %d %d %d %d %d) recording\n    ≡ record { answer = err (refusal %d %d %d %d); visited = replicate %d 0; blocks = replicate %d 0;" \
               " links = replicate %d 0; gaps = replicate %d 0; scratch = replicate %d 0; out = replicate %d 0 }\n" \
               "unfolding computed recording\n%s = refl\n\n" % ((label, entry) + lent + four + lent + (label,))
    if w[0] == 1:
        for label, entry in (("layout", "layout_exit"), ("text", "to_text_exit"), ("tree", "to_tree_exit"), ("path", "path_exit 64"),
                             ("clear", "clear_list_exit")):
            out += refused(label, entry, (999, 11665, 999, 999, 999, 9), w[1:5])
        return out.rstrip("\n") + "\n"
    v, b, l, g = w[1:5]
    visited, blocks, links, gaps = tables(w)
    text, tree = open(base + ".text", "rb").read(), open(base + ".tree", "rb").read()
    scratch, clr = clear_list(r, blocks, links, gaps)
    blocks = followed.widened(r, visited, blocks, links)
    out += "".join("%s : List ℕ\n%s =\n%s\n\n" % (n, n, table(x)) for n, x in (("visited", visited), ("links", links), ("gaps", gaps)))

    def exits(tree_mark):
        blocks[11::followed.ROW] = [tree_mark] * b
        return wrapped([str(x) for x in blocks] + ["[]"], "∷")

    def answer(label, entry, scratch_words, out_bytes, tree_mark, shown):
        return "%s : %s (lent %d %d %d %d %d %d) recording\n    ≡ record { answer = ok (counts %d %d %d %d %d); visited = visited; blocks = %s; links = links; gaps = gaps; scratch = replicate %d 0; out =\n%s }\n" \
               "unfolding computed recording visited links gaps %s\n%s = refl\n\n" % (
                   label, entry, v, len(blocks), 2 * l, 2 * g, scratch_words, out_bytes, v, b, l, g, out_bytes, tree_mark, scratch_words, shown, tree_mark, label)
    out += "blocks : List ℕ\nblocks =\n%s\n\n" % exits(0)
    out += answer("layout", "layout_exit", 0, 0, "blocks", "    []")
    out += answer("text", "to_text_exit", 0, len(text), "blocks", content(text, 1))
    if any(flags):
        out += refused("clear", "clear_list_exit", (v, len(blocks), 2 * l, 2 * g, 2 * scratch, len(clr)), (16, 60) + flags)
    else:
        out += answer("clear", "clear_list_exit", 2 * scratch, len(clr), "blocks", table(clr))
    path = max((followed.path(blocks, offset) for offset in blocks[0::followed.ROW]), key=len)
    out += answer("path", "path_exit %d" % path[-1], 0, len(path), "blocks", table(path))
    out += refused("path_short", "path_exit %d" % path[-1], (v, len(blocks), 2 * l, 2 * g, 0, len(path) - 1), (13, 0, len(path) - 1, len(path)))
    out += "marked_blocks : List ℕ\nmarked_blocks =\n%s\n\n" % exits(1)
    out += answer("tree", "to_tree_exit", 0, len(tree), "marked_blocks", content(tree, 1))
    return out.rstrip("\n") + "\n"


def name_of(file):
    return os.path.basename(file)[:-len(".mf4")]


def module_name(file):
    return "".join(x[:1].upper() + x[1:] for x in name_of(file).replace("-", "_").split("_"))


def listed(lib):
    """The recordings whose modules are listed."""
    mods = {line.split()[-1] for line in open(lib) if line.startswith("pub mod ")}
    return [f for f in glob.glob("recordings/*.mf4") if module_name(f) in mods]


def main():
    crate, answers, amended, files = sys.argv[1], sys.argv[2], sys.argv[3], sys.argv[4:]
    folder = os.path.join("crates", crate, "proofs")
    lib = os.path.join(folder, "Lib.antt")
    os.makedirs(folder, exist_ok=True)
    files = sorted(files or listed(lib))
    for f in files:
        with open(os.path.join(folder, module_name(f) + ".antt"), "w") as o:
            o.write(module(name_of(f), open(f, "rb").read(), answers, amended))
    with open(lib, "w") as o:
        o.write("-- Recordings and the Rust's answers, as tools/recorded.py writes them.\n" + "".join("pub mod %s\n" % module_name(f) for f in files))
    print(len(files), "recordings")


if __name__ == "__main__":
    main()
