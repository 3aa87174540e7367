#!/usr/bin/env python3
"""Writes recordings for the links behind block rows and the paths (document 02, order 3), and the calls that the program `paths` makes.

  paths.py recordings FOLDER
  paths.py calls ORACLE AMENDED OUT

Beside each recording stands, worked out by hand, for each row but those of the ID and the header: the block whose link the walk
followed, the link's position, and the path. pack.py and the calls hold them against what tools/followed.py draws.

The calls: for each recording its bytes and the number of its calls, as u32, then the recording, then its calls. A call has 112 bytes:
the offset as u64, as u32 the words lent of the visited, block, link, gap and path table and the words of the path, and the ten words of
the answer as u64; then the words of the path, as u32. Both oracles are asked for the tables, as pack.py does.
"""
import os
import struct
import sys
import tempfile

import answers
import deep
import followed
import linked
from deep import block, head, q
from linked import COMMENT, header

LIST = b"\1" + bytes(15)     # behind a data list's links
U64_MAX = (1 << 64) - 1


def data_group(next=0, group=0, data=0, comment=0):
    """64 bytes."""
    return block(b"##DG", [next, group, data, comment], bytes(8))


def group(next=0, channel=0, name=0, source=0, comment=0):
    """104 bytes."""
    return block(b"##CG", [next, channel, name, source, 0, comment], bytes(32))


def channel(next=0, name=0, source=0, data=0, unit=0, comment=0, kind=0):
    """160 bytes."""
    return block(b"##CN", [next, 0, name, source, 0, data, unit, comment], bytes([kind]) + bytes(71))


def source(*texts):
    """56 bytes with three links."""
    return block(b"##SI", list(texts), bytes(8))


def text():
    """32 bytes."""
    return block(b"##TX", [], b"a text\0\0")


def data_list(next, *data):
    """40 bytes, and 8 for each link."""
    return block(b"##DL", [next, *data], LIST)


def data(mark=b"##DT"):
    """24 bytes."""
    return block(mark, [], b"")


def one_text(header_comment, data_group_comment, group_name, channel_name):
    """A data group at 168, a channel group at 232, a channel at 336, texts at 496 and 528. All links to texts that follow those given lead
    to 496."""
    return (header({0: 168, COMMENT: header_comment}) + data_group(group=232, comment=data_group_comment)
            + group(channel=336, name=group_name, comment=group_name and 496)
            + channel(name=channel_name, unit=496, comment=496) + text() + text())


# the rows of the groups and the channel of one_text
ONE_TEXT = {168: (64, 0, [64, 168]), 232: (168, 1, [64, 168, 232]), 336: (232, 1, [64, 168, 232, 336])}


def chains():
    """Two data groups, at 168 and 232; in the first two channel groups, at 296 and 400, with three channels, at 504, 664 and 824, and one,
    at 984; in the second a channel group, at 1144."""
    return (header({0: 168}) + data_group(next=232, group=296) + data_group(group=1144)
            + group(next=400, channel=504) + group(channel=984)
            + channel(next=664) + channel(next=824) + channel() + channel() + group())


def backwards():
    """Each block stands before the one whose link leads to it: the second channel at 168, the first at 328, the channel group at 488, the
    data group at 592. The second channel's next is the first, so the chain ends there."""
    return header({0: 592}) + channel(next=328) + channel(next=168) + group(channel=328) + data_group(group=488)


def lists():
    """A list at 232 with three data links, to data at 304, a list at 328 and data at 416, and a next list at 440. The list at 328 has data at
    392 and 304 again, and a next list at 528, with data at 584; that at 440 has data at 504, and 392 again."""
    return (head([0, 0, 232, 0]) + data_list(440, 304, 328, 416) + data() + data_list(528, 392, 304) + data() + data()
            + data_list(0, 504, 392) + data() + data_list(0, 584) + data())


def listed_data(first, second):
    """Two data groups, at 168 and 232, with these data links; a list at 296, with data at 352."""
    return header({0: 168}) + data_group(next=232, data=first) + data_group(data=second) + data_list(0, 352) + data()


def inside_id():
    """The header's comment is at 40 and the data group's at 8, both in the identification, where no block stands but 24 bytes do."""
    return header({0: 168, COMMENT: 40}) + data_group(comment=8)


def list_inside_id():
    """The data group's data link leads to 24, in the identification: a list with a next link alone, to data at 232. Its fields behind the
    link reach into the header."""
    made = header({0: 168}) + data_group(data=24) + data()
    return made[:24] + b"##DL" + bytes(4) + q(48, 1, 232) + b"\1" + bytes(7) + made[64:]


def sources():
    """A channel group at 232 with the source at 656, channels at 336 and 496 with that at 712; texts from 768 on. The second source's second
    text is the first's."""
    return (head([0, 232, 0, 0]) + group(channel=336, source=656) + channel(next=496, source=712) + channel(source=712)
            + source(768, 800, 832) + source(864, 800, 896) + text() * 5)


def signal_data(kind):
    """A channel at 336 with its data in the list at 496, which has signal data at 552; the channel's comment is behind it."""
    return (head([0, 232, 0, 0]) + group(channel=336) + channel(data=496, comment=576, kind=kind)
            + data_list(0, 552) + data(b"##SD") + text())


SIGNAL_DATA = {168: (64, 0, [64, 168]), 232: (168, 1, [64, 168, 232]), 336: (232, 1, [64, 168, 232, 336]),
               576: (336, 7, [64, 168, 232, 336, 576])}

# name: recording, for each row: block whose link was followed, its position, path
MADE = {
    # one text with many links to it: the first that is followed counts
    "path_text_of_header": (one_text(496, 496, 496, 496), ONE_TEXT | {496: (64, 5, [64, 496])}),
    "path_text_of_data_group": (one_text(0, 496, 496, 496), ONE_TEXT | {496: (168, 3, [64, 168, 496])}),
    "path_text_of_group": (one_text(0, 0, 496, 496), ONE_TEXT | {496: (232, 2, [64, 168, 232, 496])}),
    "path_text_of_group_comment": (one_text(0, 0, 528, 496), ONE_TEXT | {
        528: (232, 2, [64, 168, 232, 528]), 496: (232, 5, [64, 168, 232, 496])}),
    "path_text_of_channel": (one_text(0, 0, 0, 496), ONE_TEXT | {496: (336, 2, [64, 168, 232, 336, 496])}),
    "path_text_of_unit": (one_text(0, 0, 0, 528), ONE_TEXT | {
        528: (336, 2, [64, 168, 232, 336, 528]), 496: (336, 6, [64, 168, 232, 336, 496])}),
    # what comes next in a chain has its neighbour, not the block that the chain belongs to
    "path_chains": (chains(), {
        168: (64, 0, [64, 168]), 232: (168, 0, [64, 168, 232]), 296: (168, 1, [64, 168, 296]), 400: (296, 0, [64, 168, 296, 400]),
        504: (296, 1, [64, 168, 296, 504]), 664: (504, 0, [64, 168, 296, 504, 664]), 824: (664, 0, [64, 168, 296, 504, 664, 824]),
        984: (400, 1, [64, 168, 296, 400, 984]), 1144: (232, 1, [64, 168, 232, 1144])}),
    "path_backwards": (backwards(), {
        592: (64, 0, [64, 592]), 488: (592, 1, [64, 592, 488]), 328: (488, 1, [64, 592, 488, 328]),
        168: (328, 0, [64, 592, 488, 328, 168])}),
    "path_lists": (lists(), {
        168: (64, 0, [64, 168]), 232: (168, 2, [64, 168, 232]), 304: (232, 1, [64, 168, 232, 304]), 328: (232, 2, [64, 168, 232, 328]),
        392: (328, 1, [64, 168, 232, 328, 392]), 416: (232, 3, [64, 168, 232, 416]), 440: (232, 0, [64, 168, 232, 440]),
        504: (440, 1, [64, 168, 232, 440, 504]), 528: (328, 0, [64, 168, 232, 328, 528]),
        584: (528, 1, [64, 168, 232, 328, 528, 584])}),
    # data that a list and a data group lead to, in both orders
    "path_list_then_group": (listed_data(296, 352), {
        168: (64, 0, [64, 168]), 232: (168, 0, [64, 168, 232]), 296: (168, 2, [64, 168, 296]), 352: (296, 1, [64, 168, 296, 352])}),
    "path_group_then_list": (listed_data(352, 296), {
        168: (64, 0, [64, 168]), 232: (168, 0, [64, 168, 232]), 296: (232, 2, [64, 168, 232, 296]), 352: (168, 2, [64, 168, 352])}),
    # rows before the header's
    "path_inside_id": (inside_id(), {8: (168, 3, [64, 168, 8]), 40: (64, 5, [64, 40]), 168: (64, 0, [64, 168])}),
    "path_list_inside_id": (list_inside_id(), {24: (168, 2, [64, 168, 24]), 168: (64, 0, [64, 168]), 232: (24, 0, [64, 168, 24, 232])}),
    # the comment comes first, so the data group is listed as one, and has no links
    "path_group_as_comment": (header({0: 168, COMMENT: 168}) + data_group(group=232) + group(), {168: (64, 5, [64, 168])}),
    "path_sources": (sources(), {
        168: (64, 0, [64, 168]), 232: (168, 1, [64, 168, 232]), 336: (232, 1, [64, 168, 232, 336]), 496: (336, 0, [64, 168, 232, 336, 496]),
        656: (232, 3, [64, 168, 232, 656]), 712: (336, 3, [64, 168, 232, 336, 712]), 768: (656, 0, [64, 168, 232, 656, 768]),
        800: (656, 1, [64, 168, 232, 656, 800]), 832: (656, 2, [64, 168, 232, 656, 832]),
        864: (712, 0, [64, 168, 232, 336, 712, 864]), 896: (712, 2, [64, 168, 232, 336, 712, 896])}),
    # of a channel of type 1 the data link is followed, of another not
    "path_signal_data": (signal_data(1), SIGNAL_DATA | {
        496: (336, 5, [64, 168, 232, 336, 496]), 552: (496, 1, [64, 168, 232, 336, 496, 552])}),
    "path_no_signal_data": (signal_data(2), SIGNAL_DATA),
}


def check(name, recording, rows):
    """Holds the links behind the rows, 14 words each, of a recording named here and its paths against those worked out by hand."""
    if name not in MADE:
        return
    made, by_hand = MADE[name]
    assert made == recording, name
    want = {0: (0, 0, []), 64: (0, 0, [64])} | by_hand
    drawn = {at: (by, position, followed.path(rows, at)) for at, by, position in zip(*(rows[k::followed.ROW] for k in (0, 12, 13)))}
    assert drawn == want, (name, drawn)


def check_refused(name, recording, four):
    """None of those named here is refused."""
    linked.hold_refused(name, recording, four, MADE, {})


def call(offset, lent, answer, path):
    return struct.pack("<Q6I10Q", offset, *lent, len(path), *answer) + struct.pack("<%dI" % len(path), *path)


def refused(*four):
    return list(four) + [0] * 6


class Calls:
    """The calls for an accepted recording."""

    def __init__(self, recording, w):
        self.recording, self.made = recording, []
        visited, rust, links, gaps = answers.tables(w)
        self.rows = followed.widened(recording, visited, rust, links)
        self.exact = [len(visited), len(self.rows), len(links), len(gaps)]
        self.counts = w[1:5]
        showing = dict(zip(rust[0::answers.RUST_ROW], rust[7::answers.RUST_ROW]))
        listed = [x for x in visited if x in showing]
        # where 10, 11 and 12 come if the table is a row short: the last block marked, listed, listed with links
        self.places = visited[-1], listed[-1], [x for x in listed if showing[x]][-1]

    def add(self, offset, lent, answer, path=()):
        self.made.append(call(offset, lent, answer, path))

    def path(self, offset):
        return followed.path(self.rows, offset)

    def accepts(self, offset, more=0):
        """Lent exactly, or more than that: so many words of the path table, of the others a number that is not one of rows."""
        path = self.path(offset)
        tables = [n + 3 for n in self.exact] if more else self.exact
        self.add(offset, tables + [len(path) + more], [0] * 4 + self.counts + [len(path), 0], path)

    def short(self, offset):
        """The path table a word short, and empty, also with a gap table a word short."""
        n = len(self.path(offset))
        for lent in sorted({max(0, n - 1), 0} if n else ()):
            self.add(offset, self.exact + [lent], refused(13, 0, lent, n))
        self.gaps_short(offset, 0)

    def gaps_short(self, offset, lent):
        gaps = self.counts[3]
        if gaps:
            self.add(offset, self.exact[:3] + [2 * gaps - 1, lent], refused(13, 0, gaps - 1, gaps))

    def walk_short(self, offset, lent):
        """Each table of the walk a word short."""
        for k in range(3):
            tables = [n - (i == k) for i, n in enumerate(self.exact)]
            self.add(offset, tables + [lent], refused(10 + k, self.places[k], self.counts[k] - 1, 0))

    def whole(self):
        """Every row with every length, and offsets that have no row."""
        offsets = self.rows[0::followed.ROW]
        for offset in offsets:
            self.accepts(offset)
            self.accepts(offset, 5)
            self.short(offset)
        inside = [at + 8 for at in offsets if at + 8 not in offsets]
        for offset in inside + [1, 63, 65, len(self.recording), U64_MAX, 1 << 32, (1 << 32) + 64, (1 << 63) + 64]:
            assert self.path(offset) == []
            self.accepts(offset)
        self.accepts(U64_MAX, 5)
        self.gaps_short(U64_MAX, 0)
        self.gaps_short(64, 1)
        for offset in offsets[-1], U64_MAX:
            self.walk_short(offset, 0)
            self.walk_short(offset, 1000)

    def deep(self):
        """Every row, lent exactly, and some with other lengths."""
        offsets = self.rows[0::followed.ROW]
        for offset in offsets:
            self.accepts(offset)
        for offset in offsets[2::128] + offsets[-1:]:
            self.accepts(offset, 5)
            self.short(offset)

    def bytes(self):
        return struct.pack("<2I", len(self.recording), len(self.made)) + self.recording + b"".join(self.made)


def refuses(recording, four):
    """The walk's refusal, whatever is asked for: with an empty path table, and with one that has words."""
    made = [call(offset, [50, 701, 101, 101, lent], refused(*four), []) for offset in (0, 64, 168, U64_MAX) for lent in (0, 7)]
    return struct.pack("<2I", len(recording), len(made)) + recording + b"".join(made), len(made)


# of recordings/, besides those made here: accepted, then refused by the walk
WHOLE = ["L", "each_kind", "comment_inside_id", "conversion_visited", "unfinalized_tree", "seven_links", "short_name_shared"]
REFUSED = ["identification_63", "odd_dl_0_0_0", "blank_wrong_mark", "unfinalized_conversion", "too_short_from_block", "text_address_plus_24"]


def recordings_of(folder):
    """All that calls are made for, as files."""
    linked.write(folder, {"deep_lists_512": (deep.lists(512),)} | MADE)
    return [os.path.join("recordings", name + ".mf4") for name in WHOLE + REFUSED] + [
        os.path.join(folder, name + ".mf4") for name in list(MADE) + ["deep_lists_512"]]


def write_calls(oracle, amended, out):
    number, recordings = 0, 0
    with tempfile.TemporaryDirectory() as folder, open(out, "wb") as o:
        names = recordings_of(folder)
        for file, (parts, _) in zip(names, answers.expected(oracle, amended, names), strict=True):
            name, w = os.path.basename(file)[:-len(".mf4")], answers.words(parts[1])
            assert (w[0] == 1) == (name in REFUSED), name
            recordings += 1
            if w[0] == 1:
                made, n = refuses(parts[0], w[1:5])
                o.write(made)
                number += n
                continue
            calls = Calls(parts[0], w)
            check(name, parts[0], calls.rows)
            calls.deep() if name == "deep_lists_512" else calls.whole()
            o.write(calls.bytes())
            number += len(calls.made)
    print("%d recordings, %d calls" % (recordings, number))


def main():
    if sys.argv[1] == "recordings":
        linked.write(sys.argv[2], MADE)
    else:
        assert sys.argv[1] == "calls"
        write_calls(*sys.argv[2:5])


if __name__ == "__main__":
    main()
