#!/usr/bin/env python3
"""Writes the smallest recordings at the limits of depth, which are too large to keep.

  deep.py lists N FILE          N data lists, each the data link of the one before: 513 is refused (15), 512 is not
  deep.py channels N FILE       N channels in one group, so a tree of N + 3 levels: 4,094 is refused (15), 4,093 is not
  deep.py again N FILE          the same, and the last channel's component link leads to the header: one line more, already listed
"""
import struct
import sys


def q(*xs):
    return b"".join(struct.pack("<Q", x) for x in xs)


def block(mark, links, body):
    return mark + bytes(4) + q(24 + 8 * len(links) + len(body), len(links), *links) + body


def head(data_group_links):
    ident = b"MDF     4.10    console1" + bytes(4) + struct.pack("<H", 410) + bytes(34)
    return ident + block(b"##HD", [168, 0, 0, 0, 0, 0], bytes(32)) + block(b"##DG", data_group_links, bytes(8))


def lists(n):
    out = head([0, 0, 232, 0])
    for i in range(n):
        out += block(b"##DL", [0, 232 + 56 * (i + 1) if i + 1 < n else 0], b"\1" + bytes(15))
    return out


def channels(n, last):
    out = head([0, 232, 0, 0]) + block(b"##CG", [0, 336, 0, 0, 0, 0], bytes(32))
    for i in range(n):
        end = i + 1 == n
        out += block(b"##CN", [0 if end else 336 + 160 * (i + 1), last if end else 0, 0, 0, 0, 0, 0, 0], bytes(72))
    return out


def main():
    what, n, file = sys.argv[1], int(sys.argv[2]), sys.argv[3]
    made = {"lists": lambda: lists(n), "channels": lambda: channels(n, 0), "again": lambda: channels(n, 64)}[what]()
    with open(file, "wb") as o:
        o.write(made)


if __name__ == "__main__":
    main()
