#!/usr/bin/env python3
"""Makes and builds the amended oracle: the Rust with the lines that document 02's orders change, and no others.

  amend.py ORACLE FOLDER

ORACLE is the oracle's folder, beside which docs/src stands. Both are copied to FOLDER, the lines below are changed in the copy,
and the oracle is built into FOLDER/target. Where the Rust has no answer that an order could keep, what is expected comes
from here: it shares nothing with the code. compare.rs and pack.py see to it that everywhere else both oracles answer alike.
"""
import os
import shutil
import subprocess
import sys

# File, its text, the amended text.
AMENDED = [
    # Order 2: a name with a block_len under 24 is empty. The Rust's range would end before it starts, at which it panics.
    ("docs/src/src/block_layout.rs", "let raw = &data[o + 24..end];", "let raw = &data[o + 24..end.max(o + 24)];"),
    # Another version, so that compare.rs can be linked with both oracles.
    ("oracle/Cargo.toml", 'version = "0.1.0"', 'version = "0.1.0-amended"'),
]


def main():
    oracle, folder = (os.path.abspath(x) for x in sys.argv[1:3])
    for name, source in (("oracle", oracle), ("docs", os.path.join(oracle, "..", "docs"))):
        copy = os.path.join(folder, name)
        shutil.rmtree(copy, ignore_errors=True)
        shutil.copytree(source, copy, ignore=shutil.ignore_patterns("target"), copy_function=shutil.copyfile)
    for file, text, amended in AMENDED:
        path = os.path.join(folder, file)
        whole = open(path).read()
        if whole.count(text) != 1:
            sys.exit("%s: not once in %s" % (text, file))
        open(path, "w").write(whole.replace(text, amended))
    subprocess.run(["sh", "build", os.path.join(folder, "target")], cwd=os.path.join(folder, "oracle"), check=True)


if __name__ == "__main__":
    main()
