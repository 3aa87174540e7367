#!/usr/bin/env python3
"""Writes the pack of recorded answers that the program `replay` reads from standard input.

  pack.py ORACLE AMENDED NAMES OUT

ORACLE is the oracle's program, AMENDED the amended oracle's (tools/amend.py), and both are asked for the recordings that NAMES lists, a
name a line: the amended answer counts where the Rust panics on a channel's name with a block_len under 24; everywhere else both must
be alike. All of recordings/ are taken, and of each family of other names (all that stands before the first digit) an even sample. A
recording of deep.py with 513 data lists is added; the Rust has no such limit, so its refusal is document 01's. Of one with 512,
deep_lists_512.mf4, the tables alone are kept. Unfinalised recordings have no clear list (document 02, order 4): those that are accepted,
but for those of tools/unfinalized.py and tools/blank.py, are added once more with both words 0. The last two words of a block row, which
the Rust has not, are those of tools/followed.py (order 3).

The pack: for each recording 80 bytes, then its parts. First the ends of the parts as u32, counted from the first part on: recording,
visited words, block words, link words, gap words, listing, tree, CLR bytes, words of the preview's counts; a part that is not compared
is empty. Then as u32 the rows that the clear list needs of its scratch table, as u16 the two words with which refusal 16 answers it in
place of CLR bytes (both 0: it does not), and as u32 the counts' total. Then as u64: 0, and the places at which refusals 10, 11 and 12
come where the table is one row short (0: no row to be short of); or the refusal's number, place, a and b. CLR bytes are drawn from the
rows by the text of document 01 and of document 02's order 1 (tools/recorded.py), and the counts from these ranges and the recording,
since the Rust has neither; those of tools/linked.py, tools/unfinalized.py and tools/blank.py are held against what is worked out
there by hand, and so are the links behind the rows of tools/paths.py.
"""
import collections
import os
import re
import struct
import sys
import tempfile

import blank
import deep
import followed
import linked
import paths
import recorded
import unfinalized
from answers import RUST_ROW, expected, tables, words

LARGEST = 16000


def quads(ws):
    return struct.pack("<%dQ" % len(ws), *ws)


def counts_of(file, clear):
    """What a preview counts: of each range of the CLR bytes, the bytes that are not 0."""
    ends = words(clear[24:])
    return [sum(x != 0 for x in file[a:z]) for a, z in zip(ends[0::2], ends[1::2])]


def record(file, tables, text, tree, clear, counts, scratch, flags, four):
    ends, out = [], b""
    for part in [file] + [quads(t) for t in tables] + [text, tree, clear, quads(counts)]:
        out += part
        ends.append(len(out))
    return struct.pack("<10I2HI4Q", *ends, scratch, *flags, sum(counts), *four) + out


def refused(name, file, four):
    unfinalized.check_refused(name, file, four)
    blank.check_refused(name, file, four)
    paths.check_refused(name, file, four)
    return record(file, [[], [], [], []], b"", b"", b"", [], 0, (0, 0), four)


def accepted(name, file, w, text, tree, count):
    visited, blocks, links, gaps = tables(w)
    rows = dict(zip(blocks[0::RUST_ROW], blocks[7::RUST_ROW]))
    listed = [x for x in visited if x in rows]
    showing = [x for x in listed if rows[x]]
    scratch, clear = recorded.clear_list(file, blocks, links, gaps)
    linked.check(name, file, scratch, clear)
    flags = recorded.flag_words(file)
    if any(flags):
        clear = b""
    unfinalized.check(name, file, flags, scratch, clear)
    counts = counts_of(file, clear)
    blank.check(name, file, scratch, clear, counts)
    blocks = followed.widened(file, visited, blocks, links)
    paths.check(name, file, blocks)
    count["blanked"] += not any(flags)
    count["blanked, bytes changed"] += any(counts)
    count["clear ranges"] += len(counts)
    count["clear ranges not 0"] += sum(n != 0 for n in counts)
    places = [0, visited[-1], listed[-1], showing[-1] if showing else 0]
    return record(file, [visited, blocks, links, gaps], text, tree, clear, counts, scratch, flags, places)


def sample(names):
    families = collections.defaultdict(list)
    for i, n in enumerate(names):
        base = n.rsplit("/", 1)[-1]
        families[re.sub(r"[0-9].*", "", base)].append(i)
    taken = {i for i, n in enumerate(names) if n.startswith("recordings/")}
    for members in families.values():
        k = min(len(members), 6 + len(members) // 70)
        taken.update(members[j * len(members) // k] for j in range(k))
    return taken


def put(o, count, name, parts, changed):
    """Writes a recording with what is expected of it, and counts it; answers whether it is accepted and unfinalised."""
    file, rows, text, tree = parts
    w = words(rows)
    is_unfinalized = w[0] == 0 and any(recorded.flag_words(file))
    count["amended"] += changed
    count["unfinalised"] += is_unfinalized
    if w[0] == 0:
        o.write(accepted(name, file, w, text, tree, count))
        count["accepted"] += 1
        count.update("kind %d" % k for k in set(w[5 + w[1] + 4:5 + w[1] + RUST_ROW * w[2]:RUST_ROW]))
    elif w[0] == 1:
        o.write(refused(name, file, w[1:5]))
        count["refused %d" % w[1]] += 1
    return is_unfinalized


def put_finalized(o, count, oracle, amended, recordings):
    """The same for each of the recordings with both words 0."""
    with tempfile.TemporaryDirectory() as folder:
        made = {"%04d" % i: (unfinalized.finalized(r),) for i, r in enumerate(recordings)}
        linked.write(folder, made)
        names = [os.path.join(folder, name + ".mf4") for name in made]
        for parts, changed in expected(oracle, amended, names):
            put(o, count, "", parts, changed)
            count["finalised copies"] += 1


def main():
    oracle, amended, names, out = sys.argv[1:5]
    names = open(names).read().split()
    taken = sample(names)
    count = collections.Counter()
    again = []
    with open(out, "wb") as o:
        for i, (parts, changed) in enumerate(expected(oracle, amended, names)):
            name = names[i].rsplit("/", 1)[-1].removesuffix(".mf4")
            if name == "deep_lists_512":
                parts[2:] = b"", b""
            elif i not in taken or sum(map(len, parts)) > LARGEST:
                continue
            if put(o, count, name, parts, changed) and name not in unfinalized.MADE | blank.MADE:
                again.append(parts[0])
        put_finalized(o, count, oracle, amended, again)
        o.write(refused("", deep.lists(513), [15, 232 + 56 * 512, 512, 0]))
        count["refused 15"] += 1
    print(", ".join("%s: %d" % x for x in sorted(count.items())))


if __name__ == "__main__":
    main()
