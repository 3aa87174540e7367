"""What both oracles answer for recordings, for the scripts that write what is expected."""
import os
import struct
import subprocess
import tempfile

# Refused, with the number that the oracle has for that panic. Nothing here answers it.
SHORT_NAME = struct.pack("<2Q", 1, 8)


# Words of a block row of the Rust's.
RUST_ROW = 12


def asked(oracle, names):
    """Recording, rows, listing and tree of each name."""
    with tempfile.TemporaryDirectory() as folder:
        listed, pack = os.path.join(folder, "names"), os.path.join(folder, "pack")
        with open(listed, "w") as o:
            o.write("".join(name + "\n" for name in names))
        subprocess.run([oracle, "--pack", pack, "@" + listed], check=True)
        b = open(pack, "rb").read()
    p = 8
    for _ in range(struct.unpack_from("<Q", b)[0]):
        parts = []
        for _ in range(4):
            n = struct.unpack_from("<Q", b, p)[0]
            parts.append(b[p + 8:p + 8 + n])
            p += 8 + n
        yield parts


def expected(oracle, amended, names):
    """Each recording with what is expected of it, and whether that is the amended Rust's answer."""
    for rust, other in zip(asked(oracle, names), asked(amended, names), strict=True):
        if rust[1].startswith(SHORT_NAME):
            assert rust[0] == other[0]
            yield other, True
        else:
            assert rust == other, "the amended Rust differs"
            yield rust, False


def words(b):
    return list(struct.unpack("<%dQ" % (len(b) // 8), b))


def tables(w):
    """Visited words, block rows, link and gap rows of an accepted recording, from the words of its rows."""
    v, b, l, g = w[1:5]
    cut = [5, 5 + v, 5 + v + RUST_ROW * b, 5 + v + RUST_ROW * b + 2 * l, 5 + v + RUST_ROW * b + 2 * l + 2 * g]
    visited, blocks, links, gaps = [list(w[x:y]) for x, y in zip(cut, cut[1:])]
    for k in range(0, RUST_ROW * b, RUST_ROW):
        if blocks[k + 7] == 0:
            blocks[k + 6] = 0    # the first link of a row without links is 0 (docs/DECISIONS.md)
    return visited, blocks, links, gaps
