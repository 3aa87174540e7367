#!/usr/bin/env python3
"""Writes unfinalised recordings, and some that are nearly so (document 02, order 4).

  unfinalized.py FOLDER

The u16 at byte 60 and the u16 at byte 62 are the identification's standard and custom flags. What is expected stands beside each
recording, worked out by hand from document 02: pack.py holds it against the oracle's refusal, or against the words, clear ranges and
scratch rows that it draws. Where nothing else is said the recording is `linked_history` of linked.py: bytes before and behind its file
history would be clear.
"""
import sys

import deep
import linked
from deep import q


def flagged(recording, standard, custom):
    """The recording with these two words."""
    return recording[:60] + standard.to_bytes(2, "little") + custom.to_bytes(2, "little") + recording[64:]


def finalized(recording):
    return flagged(recording, 0, 0)


def tree(conversion=0):
    """A data group at 168, a channel group at 232, a channel at 336, its name at 496, data at 528, and eight bytes behind them."""
    group = deep.block(b"##CG", [0, 336, 0, 0, 0, 0], q(0, 4, 0, 4))
    channel = deep.block(b"##CN", [0, 0, 496, 0, conversion, 0, 0, 0], bytes(72))
    blocks = group + channel + deep.block(b"##TX", [], b"Speed\0\0\0") + deep.block(b"##DT", [], bytes(range(16)))
    return deep.head([0, 232, 528, 0]) + blocks + b"\7" * 8


def mark(m):
    return int.from_bytes(m, "little")


HISTORY = linked.history()
L = linked.header({})

# name: recording, the two words, clear ranges (none where a word is not 0: that is 16), scratch rows that a clear list takes
MADE = {
    "unfinalized_standard": (flagged(HISTORY, 1, 0), (1, 0), None, 4),
    "unfinalized_standard_high": (flagged(HISTORY, 0x0100, 0), (256, 0), None, 4),
    "unfinalized_custom": (flagged(HISTORY, 0, 1), (0, 1), None, 4),
    "unfinalized_custom_high": (flagged(HISTORY, 0, 0x8000), (0, 32768), None, 4),
    "unfinalized_both": (flagged(HISTORY, 0x0005, 0x0102), (5, 258), None, 4),
    "unfinalized_all_bits": (flagged(HISTORY, 0xFFFF, 0xFFFF), (65535, 65535), None, 4),
    # document 01's L: no gap, so nothing that could be clear; a row for each of ID and HD
    "unfinalized_no_gap": (flagged(L, 4, 0), (4, 0), None, 2),
    # 7 blocks, two for each of 5 links, the name
    "unfinalized_tree": (flagged(tree(), 0x0021, 0x0300), (33, 768), None, 18),
    # the byte before the words is not looked at
    "unfinalized_byte_59": (HISTORY[:59] + b"\7" + HISTORY[60:], (0, 0), [(168, 176), (232, 248)], 4),
}

# name: recording, the walk's refusal, which comes first
REFUSED = {
    # the identification's 64 bytes alone: the words stand at the file's end
    "unfinalized_alone": (flagged(L, 1, 1)[:64], [1, 64, 168, 64]),
    "unfinalized_wrong_mark": (flagged(linked.header({0: linked.AT}) + HISTORY[168:], 1, 1), [5, 176, mark(b"##DG"), mark(b"##FH")]),
    "unfinalized_conversion": (flagged(tree(conversion=568), 1, 1), [9, 568, 336, 0]),
}


def check(name, recording, words, scratch, clr):
    """Holds the words, scratch rows and CLR bytes of a recording named here against those worked out by hand."""
    assert name not in REFUSED, name
    if name not in MADE:
        return
    made, by_hand, ranges, rows = MADE[name]
    assert made == recording, name
    assert by_hand == words, (name, words)
    assert rows == scratch, (name, scratch)
    assert clr == (b"" if ranges is None else linked.clr_bytes(made, ranges)), name


def check_refused(name, recording, four):
    """Holds the refusal of a recording named here against that worked out by hand."""
    linked.hold_refused(name, recording, four, MADE, REFUSED)


def main():
    linked.write(sys.argv[1], MADE | REFUSED)


if __name__ == "__main__":
    main()
