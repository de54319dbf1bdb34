#!/usr/bin/env python3
"""Spells the repository's own words as today's Rattle does. usage: python3 tools/respell.py [FOLDER]

Run once, after port.py. In specs/ and proofs/ and in the clauses of src/: a definition, lemma or variable written as `placesOf` becomes `places_of`, and
the fields of records and the constructors of data in their dashed form, as `place-cells`, become `place_cells`. A dash between the parts of a
lemma's name stays. A lemma that would get its definition's name ends in `_lem`. Types and modules keep their capitals, and so do the functions
of src/. The pages, the edits and the comparison cite the same words and are turned too. Names that fall together are printed, and then nothing
is written.
"""

import collections
import glob
import os
import re
import sys

WORD = re.compile(r"[^\s(){}.;,@\"«»`\[\]\\|<>=:]+")
CAMEL = re.compile(r"(?<=[a-z0-9'])[A-Z]")
HUMP = re.compile(r"[a-z][^\s]*[a-z0-9'][A-Z]")
DECLARED = re.compile(r"(?m)^( *)((?:abbrev |pub |unfoldable |data |record )*)([^\s(){}.;,@\"«»|=]+)((?: [({][^\n]*?[)}])*) :(?=\s)")
# Lemmas whose definition would have their name, each with its new name.
LEMMAS = {
    name: name.replace("-", "_") + "_lem"
    for name in "entry_in found_in runs_by plain_step no_room by_cases step_in read_at front_of as_read fits_told too_many "
    "jef-nearest pec-change pes-start dst-cuts the-file pec-sewing design-text".split()
}
# A definition and a field that would have one name.
OTHERS = {
    "commandCount": "command_count_of",
    "pointCount": "point_count_of",
    "threadByteCount": "thread_byte_count_of",
    "blockCells": "block_cells_of",
    # The name of a tactic.
    "firstOf": "first_record_of",
    "step-x": "x_step",
    "step-y": "y_step",
}


def texts(folder, *patterns):
    found = set()
    for pattern in patterns:
        found.update(glob.glob(os.path.join(folder, pattern), recursive=True))
    return sorted(p for p in found if "/out/" not in p and "/target/" not in p and os.path.isfile(p))


def read(path):
    with open(path, encoding="utf-8") as f:
        return f.read()


def snake(name):
    return CAMEL.sub(lambda m: "_" + m[0].lower(), name)


def members(text):
    """The fields and constructors that a file's records and data declare."""
    found, depth = set(), None
    for line in text.splitlines():
        inner = len(line) - len(line.lstrip())
        if depth is not None and line.strip() and inner <= depth:
            depth = None
        if depth is not None:
            m = DECLARED.match(line)
            if m and not line.lstrip().startswith("--"):
                found.add(m[3])
        if re.match(r" *(?:pub )?(?:data|record)\b.*\bwhere$", line):
            depth = inner
    return found


def renamings(folder):
    own = {os.path.basename(os.path.dirname(p)) for p in glob.glob(os.path.join(folder, "crates/*/src"))}
    antt = texts(folder, "crates/*/specs/*.antt", "crates/*/proofs/**/*.antt")
    code = texts(folder, "crates/*/src/**/*.rt")
    taken, fields, words = set(), set(), collections.Counter()
    for path in antt + code:
        text = read(path)
        for m in re.finditer(r"use ([\w.·]+?)\.\{([^}]*)\}", text):
            parts = m[1].split(".")
            if not (parts[0] == "Rattle" and len(parts) > 1 and parts[1] in own):
                taken.update(m[2].replace(",", " ").replace(" as ", " ").split())
        if path.endswith(".antt"):
            words.update(WORD.findall(text))
            if re.search(r"/(specs|proofs)/[^/]*$", path):
                fields |= members(text)
        else:
            words.update(w for w in WORD.findall(text) if HUMP.match(w))
    new = {w: snake(w) for w in words if HUMP.match(w) and w not in taken}
    new.update({w: snake(w).replace("-", "_") for w in fields if "-" in w and w not in taken})
    new.update(LEMMAS)
    new.update(OTHERS)
    return {old: name for old, name in new.items() if old != name}, words


def main(folder):
    new, words = renamings(folder)
    met = collections.defaultdict(set)
    for old, name in new.items():
        met[name].add(old)
    together = {name: olds for name, olds in met.items() if len(olds) > 1}
    if together:
        print("fall together:", together)
        return 1
    for old, name in sorted(new.items()):
        if words[name] and name not in new:
            print(f"look: {old} becomes {name}, which some text has already")
    turned = texts(
        folder, "crates/*/specs/**/*.antt", "crates/*/proofs/**/*.antt", "crates/*/src/**/*.rt", "crates/*/must-fail/*.edit",
        "README.md", "CHANGELOG.md", "docs/**/*.md", "compare/**/*.rs", "compare/**/*.md", "compare/**/*.py", "compare/**/*.sh",
    )
    # What port.py turned already, which the pages still have in the older spelling.
    spelled = set(words) | set(new.values())
    count = 0
    for path in turned:
        if os.path.basename(path) == "PORT.md":
            continue
        text = read(path)
        code = path.endswith((".antt", ".edit"))

        def one(m):
            w = m[0]
            if not code and HUMP.match(w) and w not in new and snake(w) in spelled:
                return snake(w)
            return new[w] if w in new and (code or HUMP.match(w)) else w

        out = WORD.sub(one, text)
        if out != text:
            count += 1
            with open(path, "w", encoding="utf-8") as f:
                f.write(out)
    print(f"{len(new)} words, {count} files")
    return 0


if __name__ == "__main__":
    raise SystemExit(main(sys.argv[1] if len(sys.argv) > 1 else "."))
