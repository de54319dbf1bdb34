#!/usr/bin/env python3
"""Computes the definitions of crates/rules on cases of the oracle's fixed lists.

usage: definitions.py FOLDER [WRITES [READS [SEED]]]

Makes in FOLDER a repository of its own: the crate rules, its definitions copied without their theorems,
and a crate `computed` whose equations say what the oracle answered, each proved by computing. WRITES cases
of each format and READS of each extension are drawn (10 each if not said). Then:
cd FOLDER/crates/computed && rt check. A definition that differs from the Rust is refused there. Lists of
more than 8 threads are left out: the choice of their entries takes more steps than the prover gives a
declaration.
"""
import glob
import os
import random
import re
import shutil
import struct
import sys

HERE = os.path.dirname(os.path.abspath(__file__))
RULES = os.path.join(HERE, "..", "crates", "rules")
FORMATS = ["Pes", "Pec", "Dst", "Exp", "Jef", "Vp3"]
LISTS = {"reads": "../crates/replay_reads/data/reads", "writes": "../crates/replay_writes/data/writes"}
LONG = 1 << 30
REFUSALS = {1: "UnknownExtension", 3: "BadOpening", 4: "FileTooShort", 5: "StartBelowZero", 12: "OutOfRange"}


def cases(name):
    data, at = open(os.path.join(HERE, LISTS[name]), "rb").read(), 0
    while at < len(data):
        length = struct.unpack_from("<H", data, at)[0]
        yield data[at + 2 : at + 2 + length]
        at += 2 + length


def unpacked(packed):
    out, at = bytearray(), 0
    while at < len(packed):
        n = packed[at]
        if n < 128:
            out += packed[at + 1 : at + 2 + n]
            at += 2 + n
        else:
            out += packed[at + 1 : at + 2] * (257 - n)
            at += 2
    return bytes(out)


class Case:
    """The bytes of a case, taken from the front."""

    def __init__(self, data):
        self.data, self.at = data, 0

    def take(self, layout):
        values = struct.unpack_from("<" + layout, self.data, self.at)
        self.at += struct.calcsize("<" + layout)
        return values if len(values) > 1 else values[0]

    def text(self, layout):
        n = self.take(layout)
        self.at += n
        return self.data[self.at - n : self.at]


def terms(items):
    return "(" + " ∷ ".join(list(items) + ["[]"]) + ")"


def numbers(values):
    return terms(str(v) for v in values)


def integers(values):
    return terms("(pos %d)" % v if v >= 0 else "(negsuc %d)" % (-v - 1) for v in values)


def written(data):
    c = Case(data)
    fmt, name = FORMATS[c.take("B")], c.text("B")
    cmds = [c.take("hhB") for _ in range(c.take("H"))]
    threads = b"".join(bytes(c.take("BBB")) for _ in range(c.take("B")))
    c.take("H")
    file = unpacked(c.data[c.at :])
    slices = "%s %s %s" % (integers(x for x, _, _ in cmds), integers(y for _, y, _ in cmds), numbers(k for _, _, k in cmds))
    claims = ["file_of %s %s (commands %s) %s ≡ %s" % (fmt, numbers(name), slices, numbers(threads), numbers(file))]
    claims.append("list_verdict %s %s %s ≡ Ok tt" % (fmt, slices, numbers(threads)))
    return fmt, len(file) if len(threads) <= 24 else LONG, claims


def read(data):
    c = Case(data)
    ext, file, refusal = c.text("B"), c.text("H"), c.take("B")
    verdict = "Err " + REFUSALS[refusal] if refusal else "Ok tt"
    claims = ["file_verdict (extension_of %s) %s ≡ %s" % (numbers(ext), numbers(file), verdict)]
    if not refusal:
        label, cuts, places, runs, blocks = c.text("B"), c.take("H"), [], [], []
        for _ in range(c.take("H")):
            number, r, g, b, count = c.take("HBBBH")
            blocks += [number, 65536 * r + 256 * g + b, count]
            for _ in range(count):
                runs.append(c.take("H"))
                places += [v for _ in range(runs[-1]) for v in c.take("ii")]
        fmt = ext.decode().lower().capitalize()
        answers = (("label_of", numbers(label)), ("places_of", integers(places)), ("runs_of", numbers(runs)), ("blocks_of", numbers(blocks)))
        answers += (("cuts_of", str(cuts)),)
        claims += ["%s %s %s ≡ %s" % (what, fmt, numbers(file), answer) for what, answer in answers]
    return ext.lower(), len(file), claims


def drawn(made, count, longest):
    by = {}
    for key, size, claims in made:
        if size < longest:
            by.setdefault(key, []).append(claims)
    return [claims for group in by.values() for claims in random.sample(group, min(count, len(group)))]


def main():
    if len(sys.argv) < 2:
        sys.exit(__doc__)
    folder = sys.argv[1]
    writes, reads, seed = [int(v) for v in (sys.argv[2:] + ["10", "10", "1"][len(sys.argv) - 2 :])]
    random.seed(seed)
    picked = drawn(map(written, cases("writes")), writes, 1500) + drawn(map(read, cases("reads")), reads, 800)
    uses, names = [], []
    for path in sorted(glob.glob(os.path.join(RULES, "specs", "*.antt"))):
        module = os.path.basename(path)[:-5]
        found = re.findall(r"(?m)^ *unfoldable pub (\S+)", open(path, encoding="utf-8").read())
        if found:
            # A name that another module has too comes in under one of its own.
            own = [name if name not in names else name + module for name in found]
            shown = [name if name == as_ else "%s as %s" % (name, as_) for name, as_ in zip(found, own)]
            uses.append("use Rattle.rules.specs.%s.{%s}" % (module, ", ".join(shown)))
            names += own
    ieee = ["add", "sub", "mul", "div", "neg", "lt", "of_int", "of_bits", "round", "to_bits"]
    uses += ["use Rattle.std.specs.Prelude.{◌≡◌, refl, [], ◌∷◌, pos, negsuc, Ok, Err}", "use Rattle.std.specs.Float.Ieee.{%s}" % ", ".join(ieee)]
    for kind, variants in (("Format", FORMATS), ("Refusal", sorted(REFUSALS.values()))):
        uses.append("use Rattle.rules.specs.declared.%s.TheVariants.{%s}" % (kind, ", ".join(variants)))
    lines = []
    for i, claim in enumerate(c for claims in picked for c in claims):
        lines.append("e%d : %s\nunfolding %s\ne%d = refl\n" % (i, claim, " ".join(names + ieee), i))
    proofs = os.path.join(folder, "crates", "computed", "proofs")
    os.makedirs(proofs)
    os.makedirs(os.path.join(folder, "crates", "computed", "src"))
    for part in ("src", "specs"):
        shutil.copytree(os.path.join(RULES, part), os.path.join(folder, "crates", "rules", part))
    for path, text in (
        (os.path.join(folder, "crates.txt"), "rules:\ncomputed: rules\n"),
        (os.path.join(folder, "crates", "computed", "src", "lib.rt"), "// There is no code here.\n#![tactic(auto)]\n"),
        (os.path.join(proofs, "Lib.antt"), "pub mod Cases\n"),
        (os.path.join(proofs, "Cases.antt"), "\n".join(uses) + "\n\n" + "\n".join(lines)),
    ):
        with open(path, "w", encoding="utf-8") as out:
            out.write(text)
    print("%d cases, %d equations in %s" % (len(picked), len(lines), folder))


main()
