#!/usr/bin/env python3
"""Writes recordings whose clear bytes are partly 0 (document 02, order 5).

  blank.py FOLDER

Beside each stand its clear ranges, how many bytes of each are not 0, so what a preview counts, and the number of scratch rows, all
worked out by hand from documents 01 and 02; pack.py holds them against what it draws. Blocks that a link leads to are filled with
sevens up to their ends, so that a byte zeroed too many shows.
"""
import sys

import deep
import linked
import unfinalized
from linked import ATTACHMENT, COMMENT, EVENT, HISTORY, header

L = header({})


def kept(mark, size):
    """A block that the header leads to: its extent is never clear."""
    return linked.block(mark, size, size)


def history(before, behind):
    """A file history of 56 bytes at 176, up to 232, with these bytes before and behind it."""
    assert len(before) == 8
    return header({HISTORY: 176}) + before + kept(b"##FH", 56) + behind


def several():
    """Extents of 40 bytes at 176, 224, 264 and 312; the second and the third touch."""
    links = header({HISTORY: 176, ATTACHMENT: 224, EVENT: 264, COMMENT: 312})
    text = deep.block(b"##TX", [], b"sixteen bytes...")
    return links + bytes(8) + kept(b"##FH", 40) + b"\1" * 8 + kept(b"##AT", 40) + kept(b"##EV", 40) + b"\0\0\2\0\3\0\0\4" + text + b"\5"


def between():
    """A file history from 168 to 224 and an attachment from 232 to 272, the file's end: what is clear lies between them."""
    return header({HISTORY: 168, ATTACHMENT: 232}) + kept(b"##FH", 56) + b"\xff" * 8 + kept(b"##AT", 40)


def four_read():
    """A link to 184, where no mark starts with ##: four bytes there are read."""
    return header({EVENT: 184}) + b"\xff" * 16 + b"mark" + b"\xff" * 12


def wrong_mark():
    """The data group link leads to a file history."""
    return header({0: 176}) + history(b"\1" * 8, b"\1" * 16)[168:]


COUNTED = history(b"\1\0\0\0\0\0\0\2", b"\0\3\4\5\0\0\0\0\0\0\0\0\0\0\6\0")

# name: recording, clear ranges, nonzero bytes of each, scratch rows (a row for each of ID and HD, two for a link to a block, one for
# another); None in place of ranges and counts: unfinalised, so 16
MADE = {
    # document 01's L and one byte more
    "blank_byte_0": (L + b"\0", [(168, 169)], [0], 2),
    "blank_byte_1": (L + b"\1", [(168, 169)], [1], 2),
    # more than a byte counts, and each value of a byte
    "blank_300_bytes": (L + b"\xff" * 300, [(168, 468)], [300], 2),
    "blank_each_value": (L + bytes(range(256)), [(168, 424)], [255], 2),
    # first and last byte with zeros between; four bytes with zeros before, between and behind
    "blank_counted": (COUNTED, [(168, 176), (232, 248)], [2, 4], 4),
    # zeros first and last
    "blank_zero_ends": (history(b"\0\1\1\1\1\1\1\0", b""), [(168, 176)], [6], 4),
    # the first byte alone, and the last one, which is the file's last
    "blank_one_each": (history(b"\1" + bytes(7), bytes(7) + b"\1"), [(168, 176), (232, 240)], [1, 1], 4),
    # zeros only, before what is not 0
    "blank_zeros_first": (history(bytes(8), b"\1" * 3), [(168, 176), (232, 235)], [0, 3], 4),
    # the text's row besides, and two for each of four links
    "blank_several": (several(), [(168, 176), (216, 224), (304, 312), (352, 353)], [0, 8, 3, 1], 11),
    "blank_between": (between(), [(224, 232)], [8], 6),
    "blank_four_read": (four_read(), [(168, 184), (188, 200)], [16, 12], 3),
    # a gap, all of it kept: no range, though no byte is 0 behind the block_len
    "blank_no_range": (header({HISTORY: 168}) + kept(b"##FH", 56), [], [], 4),
    "blank_unfinalized": (unfinalized.flagged(COUNTED, 0, 1), None, None, 4),
}

# name: recording, the walk's refusal
REFUSED = {
    "blank_wrong_mark": (wrong_mark(), [5, 176, unfinalized.mark(b"##DG"), unfinalized.mark(b"##FH")]),
}


def check(name, recording, scratch, clr, counts):
    """Holds scratch rows, CLR bytes and counts of a recording named here against those worked out by hand."""
    assert name not in REFUSED, name
    if name not in MADE:
        return
    made, ranges, by_hand, rows = MADE[name]
    assert made == recording, name
    assert rows == scratch, (name, scratch)
    assert clr == (b"" if ranges is None else linked.clr_bytes(made, ranges)), name
    assert counts == (by_hand or []), (name, counts)


def check_refused(name, recording, four):
    """Holds the refusal of a recording named here against that worked out by hand."""
    linked.hold_refused(name, recording, four, MADE, REFUSED)


def main():
    linked.write(sys.argv[1], MADE | REFUSED)


if __name__ == "__main__":
    main()
