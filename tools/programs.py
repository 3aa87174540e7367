#!/usr/bin/env python3
"""Writes the recordings that the program `programs` reads, the arguments that name them, and what it has to print.

  programs.py ORACLE

ORACLE is the oracle's program: listings and trees are the Rust's, cut off by document 01's limits of the listing program (a
recording of 65,536 bytes at most, 8,192 words for each table, 65,536 bytes of output). CLR bytes are drawn by the text of document 01
and of document 02's order 1 (tools/recorded.py), and the refusals that the Rust has not are those of document 01 and of document 02's
order 4, worked out here.
"""
import os
import struct
import subprocess
import sys
import tempfile

import deep
import followed
import recorded
import unfinalized
from answers import tables

BYTES, WORDS = 65536, 8192
FOLDER = os.path.join("crates", "programs")


def data_blocks(n):
    """A data list with n data links, each to an empty data block: n + 4 blocks."""
    first = 232 + 24 + 8 * (n + 1) + 16
    blocks = b"".join(deep.block(b"##DT", [], b"") for _ in range(n))
    return deep.head([0, 0, 232, 0]) + deep.block(b"##DL", [0] + [first + 24 * i for i in range(n)], b"\1" + bytes(15)) + blocks


def recordings():
    header = deep.block(b"##HD", [0] * 6, bytes(32))
    ident = deep.head([0] * 4)[:64]
    alone = ident + header
    return {
        "identification_63": ident[:63],
        "identification_alone": ident,
        "longest": alone + bytes(BYTES - len(alone)),
        "too_long": alone + bytes(BYTES + 1 - len(alone)),
        "data_blocks_581": data_blocks(581),
        "data_blocks_582": data_blocks(582),
        "channels_400": deep.channels(400, 0),
        "unfinalized_tree": unfinalized.MADE["unfinalized_tree"][0],
    }


def refused(*four):
    return b"refused %d %d %d %d\n" % four


def printed(recording, rows, text, tree):
    """What the three programs print."""
    if len(recording) > BYTES:
        return [b"too long\n"] * 3
    w = struct.unpack("<%dQ" % (len(rows) // 8), rows)
    if w[0] == 1:
        return [refused(*w[1:5])] * 3
    v, b, l, g = w[1:5]
    lent = WORDS // followed.ROW
    visited, blocks, links, gaps = tables(w)
    if b > lent:
        # 11 comes at the first block of the walk that has no row left; all that is visited here is listed
        return [refused(11, visited[lent], lent, 0)] * 3
    assert v <= WORDS and 2 * l <= WORDS and 2 * g <= WORDS
    scratch, clear = recorded.clear_list(recording, blocks, links, gaps)
    assert 2 * scratch <= WORDS
    made = [x if len(x) <= BYTES else refused(14, 0, BYTES, len(x)) for x in (text, tree, clear)]
    flags = recorded.flag_words(recording)
    return made[:2] + [refused(16, 60, *flags)] if any(flags) else made


def main():
    oracle = sys.argv[1]
    made = recordings()
    os.makedirs(os.path.join(FOLDER, "data"), exist_ok=True)
    with tempfile.TemporaryDirectory() as answers:
        out = b""
        for name, recording in made.items():
            file = os.path.join(FOLDER, "data", name + ".mf4")
            with open(file, "wb") as o:
                o.write(recording)
            subprocess.run([oracle, "--out", answers, file], check=True)
            parts = []
            for end in ("rows", "text", "tree"):
                path = os.path.join(answers, "%s.mf4.%s" % (name, end))
                parts.append(open(path, "rb").read() if os.path.exists(path) else b"")
            out += name.encode() + b".mf4\n" + b"".join(printed(recording, *parts))
    with open(os.path.join(FOLDER, "stdout"), "wb") as o:
        o.write(out)
    with open(os.path.join(FOLDER, "args"), "w") as o:
        o.write("".join(name + ".mf4\n" for name in made))


if __name__ == "__main__":
    main()
