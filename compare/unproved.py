#!/usr/bin/env python3
"""Runs the program replay_writes on a list of writes before it is proved.

usage: unproved.py FOLDER LIST [PART]

Makes in FOLDER a repository of its own, the crates copied, and runs `rt try` in its crates/replay_writes on
the cases of LIST, PART at a time (4,000 if not said), since a run may take a minute. The program is compiled
with checks. Fails at the first part that is not right, and prints what the run said.

A LIST named `longs` has lengths of four bytes; the copies of the program and of the crate `replay` are changed
to read these, and the buffers are larger. For it PART is best 12.
"""
import os
import shutil
import struct
import subprocess
import sys

HERE = os.path.dirname(os.path.abspath(__file__))
TOP = os.path.join(HERE, "..")
FORMATS = ["pes", "pec", "dst", "exp", "jef", "vp3"]
PROGRAM = "crates/replay_writes"

# What is another in a program whose lengths have four bytes; room for 2 MB.
LONGER = {
    "replay/src/bytes.rt": [
        (
            "// A number of 16 bits in two",
            "pub fn long(s: &[u8], at: usize) -> usize {\n    word(s, at) + 65536 * word(s, at + 2)\n}\n\n"
            "// A number of 16 bits in two",
        ),
    ],
    "replay/src/lib.rt": [
        ("use bytes::word;", "use bytes::long;"),
        ("[0u8; 2];", "[0u8; 4];"),
        ("word(&head, 0)", "long(&head, 0)"),
    ],
    "replay_writes/src/bytes.rt": [
        ("use replay::bytes::{byte, word};", "use replay::bytes::{byte, long, word};"),
        (", 65536)", ", 2097152)"),
        ("2 <= rest.len()", "4 <= rest.len()"),
        ("part(from_file(case), 2,", "part(from_file(case), 4,"),
        ("word(from_file(case), 0)", "long(from_file(case), 0)"),
    ],
    "replay_writes/src/main.rt": [
        ("let mut case = [0u8; 65536]", "let mut case = [0u8; 2097152]"),
        ("let mut out = [0u8; 65536]", "let mut out = [0u8; 2097152]"),
    ],
}


def cases(path, layout):
    data, at = open(path, "rb").read(), 0
    head = struct.calcsize(layout)
    while at < len(data):
        end = at + head + struct.unpack_from(layout, data, at)[0]
        yield data[at + head], data[at:end]
        at = end


def copied(folder, longer):
    shutil.copytree(os.path.join(TOP, "crates"), os.path.join(folder, "crates"), ignore=shutil.ignore_patterns("out"))
    shutil.copy(os.path.join(TOP, "crates.txt"), folder)
    for name, edits in LONGER.items() if longer else ():
        path = os.path.join(folder, "crates", name)
        text = open(path, encoding="utf-8").read()
        for old, new in edits:
            if old not in text:
                sys.exit("%s: no %r" % (name, old))
            text = text.replace(old, new)
        open(path, "w", encoding="utf-8").write(text)


def run(folder, part):
    counts = [sum(1 for found, _ in part if found == number) for number in range(len(FORMATS))]
    right = "".join("%s: %d right, 0 wrong\n" % pair for pair in zip(FORMATS + ["other"], counts + [0]))
    with open(os.path.join(folder, PROGRAM, "data", "writes"), "wb") as out:
        out.writelines(case for _, case in part)
    command = ["rt", "try", "--data", "writes=data/writes"]
    tried = subprocess.run(command, cwd=os.path.join(folder, PROGRAM), capture_output=True, text=True)
    if tried.returncode != 0 or tried.stdout != right:
        sys.exit(tried.stdout + tried.stderr)
    return counts


def main():
    if len(sys.argv) not in (3, 4):
        sys.exit(__doc__)
    folder, path = sys.argv[1], sys.argv[2]
    size = int(sys.argv[3]) if len(sys.argv) == 4 else 4000
    longer = os.path.basename(path) == "longs"
    copied(folder, longer)
    totals = [0] * len(FORMATS)
    everything = list(cases(path, "<I" if longer else "<H"))
    for at in range(0, len(everything), size):
        counts = run(folder, everything[at : at + size])
        totals = [one + other for one, other in zip(totals, counts)]
        print("right:", ", ".join("%s %d" % pair for pair in zip(FORMATS, totals)), flush=True)


main()
