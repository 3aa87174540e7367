"""The link behind each block row (document 02, order 3), for the scripts that write what is expected: the Rust's rows end before these
two words.

It is a walk of its own over the recording's bytes, apart from the code and its definition. Wherever it is used, its order of visits
must be the Rust's visited words, the blocks that it lists the Rust's rows, and each link that it followed a link that the Rust shows
with that target.
"""

from answers import RUST_ROW

ID, HEADER = 0, 64
ROW = RUST_ROW + 2


class Walk:
    """The walk of an accepted recording. `visits`: offsets in the order in which they are marked; `by`: for each listed offset the
    block whose link was followed and the link's position."""

    def __init__(self, recording):
        self.r = recording
        self.visits = [ID, HEADER]
        self.by = {ID: (0, 0), HEADER: (0, 0)}
        self.seen = set(self.visits)
        links = self.links(HEADER, 6)
        self.text(links[5], (HEADER, 5))
        self.chain(links[0], (HEADER, 0), 4, self.data_group)

    def number(self, at, size=8):
        return int.from_bytes(self.r[at:at + size], "little")

    def links(self, block, count):
        return [self.number(block + 24 + 8 * i) for i in range(count)]

    def links_nr(self, block):
        return self.number(block + 16)

    def has(self, at, size):
        return at + size <= len(self.r)

    def enters(self, at):
        """Marks the offset; false for a null link and where it is marked already."""
        if at == 0 or at in self.seen:
            return False
        self.seen.add(at)
        self.visits.append(at)
        return True

    def text(self, at, by):
        if self.enters(at) and self.has(at, 24):
            self.by[at] = by

    def source(self, at, by):
        if self.enters(at):
            self.by[at] = by
            for i, target in enumerate(self.links(at, min(3, self.links_nr(at)))):
                self.text(target, (at, i))

    def region(self, at, by):
        """A data region. Of a list the data links come first, each with all that it leads to, then the next list."""
        left = [(at, by)]
        while left:
            at, by = left.pop()
            if not self.has(at, 4) or not self.enters(at):
                continue
            if self.has(at, 24):
                self.by[at] = by
            if self.r[at:at + 4] == b"##DL":
                links = list(enumerate(self.links(at, self.links_nr(at))))
                left += [(target, (at, i)) for i, target in reversed(links[1:] + links[:1])]

    def chain(self, at, by, count, members):
        """Blocks of one kind with `count` links, of which link 0 leads to the next."""
        while self.enters(at):
            self.by[at] = by
            links = self.links(at, count)
            members(at, links)
            at, by = links[0], (at, 0)

    def data_group(self, at, links):
        self.text(links[3], (at, 3))
        self.chain(links[1], (at, 1), 6, self.channel_group)
        self.region(links[2], (at, 2))

    def channel_group(self, at, links):
        self.text(links[2], (at, 2))
        self.source(links[3], (at, 3))
        self.text(links[5], (at, 5))
        self.chain(links[1], (at, 1), 8, self.channel)

    def channel(self, at, links):
        self.text(links[2], (at, 2))
        self.source(links[3], (at, 3))
        # a conversion is refused where it is entered
        assert links[4] == 0 or links[4] in self.seen
        self.text(links[6], (at, 6))
        self.text(links[7], (at, 7))
        if self.number(at + 88, 1) == 1:
            self.region(links[5], (at, 5))


def widened(recording, visited, blocks, links):
    """The Rust's block rows with both words behind them; stops unless the walk here is the Rust's."""
    walk = Walk(recording)
    assert walk.visits == list(visited), "another order of visits"
    assert sorted(walk.by) == list(blocks[0::RUST_ROW]), "other blocks are listed"
    first = dict(zip(blocks[0::RUST_ROW], blocks[6::RUST_ROW]))
    count = dict(zip(blocks[0::RUST_ROW], blocks[7::RUST_ROW]))
    rows = []
    for k in range(0, len(blocks), RUST_ROW):
        at, (block, position) = blocks[k], walk.by[blocks[k]]
        if at not in (ID, HEADER):
            assert position < count[block] and links[2 * (first[block] + position)] == at, "no such link is shown"
        rows += list(blocks[k:k + RUST_ROW]) + [block, position]
    return rows


def path(rows, offset):
    """The offsets from the header to the block at this one, both included, from rows of 14 words; none for the ID and for an offset that
    no row has."""
    by = dict(zip(rows[0::ROW], rows[12::ROW]))
    if offset == ID or offset not in by:
        return []
    up = [offset]
    while up[-1] != HEADER:
        up.append(by[up[-1]])
    return up[::-1]
