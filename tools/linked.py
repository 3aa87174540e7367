#!/usr/bin/env python3
"""Writes recordings whose header leads to blocks that the walk does not enter (document 02, order 1).

  linked.py FOLDER

Each has its clear ranges and the number of scratch rows beside it, worked out by hand from the text of document 01 and of order 1;
pack.py holds them against what it draws from the rows. Where nothing else is said, eight bytes stand behind the header block, then a
block at 176 with 72 bytes left. Filling bytes are 7, so that a byte which is zeroed shows; `linked_blanked` is what a blanker leaves
of `linked_history`.
"""
import os
import sys

import deep
from deep import q

# positions of the header's links, and the target
HISTORY, ATTACHMENT, EVENT, COMMENT = 1, 3, 4, 5
AT = 176


def header(links, block_len=104):
    """The identification and the header block, 168 bytes; links maps a link's position to its target."""
    ident = deep.head([0] * 4)[:64]
    return ident + b"##HD" + bytes(4) + q(block_len, 6) + q(*[links.get(i, 0) for i in range(6)]) + bytes(32)


def block(mark, block_len, size):
    """Bytes that begin as a block does: mark, four bytes, block_len, and as many sevens as the size asks for."""
    return (mark + b"\7" * 4 + q(block_len) + b"\7" * size)[:size]


def history(mark=b"##FH", block_len=56):
    return header({HISTORY: AT}) + b"\7" * 8 + block(mark, block_len, 72)


def left(n):
    """n bytes from the target to the file's end."""
    return history()[:AT + n]


def chain():
    """A file history whose next is another one, at 240: only the first has a link row."""
    first = b"##FH" + bytes(4) + q(56, 2, 240, 0) + b"\7" * 16
    return header({HISTORY: AT}) + b"\7" * 8 + first + b"\7" * 8 + block(b"##FH", 56, 56)


def inside_text():
    """The event link leads into the comment, to 208, where a block of 100 bytes seems to begin."""
    text = b"##TX" + bytes(4) + q(64, 0) + b"12345678" + block(b"##EV", 100, 32)
    return header({COMMENT: AT, EVENT: 208}) + b"\7" * 8 + text + b"\7" * 80


def overlapping():
    """A history of 40 bytes at 176, in it an attachment of 40 bytes at 200."""
    return header({HISTORY: AT, ATTACHMENT: 200}) + b"\7" * 8 + block(b"##FH", 40, 24) + block(b"##AT", 40, 48)


def group(links):
    """A data group at 176 without links of its own."""
    return header(links) + b"\7" * 8 + b"##DG" + bytes(4) + q(64, 4) + bytes(40) + b"\7" * 8


def blanked():
    return header({HISTORY: AT}) + bytes(8) + block(b"##FH", 56, 56) + bytes(16)


BEFORE = (168, 176)

# name: recording, clear ranges, scratch rows (a row for each of ID and HD, two for a link to a block, one for another)
MADE = {
    "linked_history": (history(), [BEFORE, (232, 248)], 4),
    "linked_blanked": (blanked(), [BEFORE, (232, 248)], 4),
    "linked_len_0": (history(block_len=0), [BEFORE, (200, 248)], 4),
    "linked_len_23": (history(block_len=23), [BEFORE, (200, 248)], 4),
    "linked_len_24": (history(block_len=24), [BEFORE, (200, 248)], 4),
    "linked_len_25": (history(block_len=25), [BEFORE, (201, 248)], 4),
    "linked_len_to_end": (history(block_len=72), [BEFORE], 4),
    "linked_len_past_end": (history(block_len=73), [BEFORE], 4),
    "linked_len_large": (history(block_len=1 << 40), [BEFORE], 4),
    "linked_len_sum_2_64": (history(block_len=(1 << 64) - AT), [BEFORE], 4),
    "linked_len_u64_max": (history(block_len=(1 << 64) - 1), [BEFORE], 4),
    # with 24 left the block_len, 56, passes the end; with 3 nothing is read
    "linked_left_24": (left(24), [BEFORE], 4),
    "linked_left_3": (left(3), [(168, 179)], 2),
    "linked_left_4": (left(4), [BEFORE], 3),
    "linked_mark_one": (history(b"#XFH"), [BEFORE, (180, 248)], 3),
    "linked_mark_second": (history(b"X#FH"), [BEFORE, (180, 248)], 3),
    "linked_mark_last": (history(b"XX##"), [BEFORE, (180, 248)], 3),
    "linked_mark_nuls": (history(b"##\0\0"), [BEFORE, (232, 248)], 4),
    "linked_mark_four": (history(b"####"), [BEFORE, (232, 248)], 4),
    # the data group's own row, and two for each of the two links that lead to it
    "linked_listed": (group({0: AT, HISTORY: AT}), [BEFORE, (240, 248)], 7),
    # the header's row ends at 168 whatever its block_len says; a link to it keeps 64 + 136
    "linked_header": (header({EVENT: 64}, 136) + b"\7" * 80, [(200, 248)], 4),
    "linked_twice": (header({HISTORY: AT, ATTACHMENT: AT}) + history()[168:], [BEFORE, (232, 248)], 6),
    "linked_overlapping": (overlapping(), [BEFORE, (240, 248)], 6),
    # the text's row, and two for each of two links; 208 + 100 is 308
    "linked_inside_text": (inside_text(), [BEFORE, (308, 320)], 7),
    "linked_chain": (chain(), [BEFORE, (232, 296)], 4),
}
MADE.update({"linked_left_%d" % n: (left(n), [BEFORE, (180, AT + n)], 3) for n in range(5, 24)})


def clr_bytes(recording, ranges):
    return b"CLR\1\0\0\0\0" + q(len(recording), len(ranges), *[x for r in ranges for x in r])


def check(name, recording, scratch, clr):
    """Holds scratch rows and CLR bytes of a recording named here against those worked out by hand."""
    if name not in MADE:
        return
    made, ranges, rows = MADE[name]
    assert made == recording, name
    assert rows == scratch, (name, scratch)
    assert clr == clr_bytes(made, ranges), name


def write(folder, made):
    """Writes the recordings, each the first of what stands under its name."""
    for name, (recording, *_) in made.items():
        with open(os.path.join(folder, name + ".mf4"), "wb") as o:
            o.write(recording)


def hold_refused(name, recording, four, made, refused):
    """Stops unless a recording of the table `refused` is refused with the four numbers there, and none of `made` is."""
    assert name not in made, name
    if name in refused:
        assert refused[name] == (recording, four), (name, four)


def main():
    write(sys.argv[1], MADE)


# what a blanker leaves of linked_history
assert blanked() == bytes(0 if i in range(*BEFORE) or i >= 232 else x for i, x in enumerate(history()))

if __name__ == "__main__":
    main()
