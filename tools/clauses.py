#!/usr/bin/env python3
"""Writes what a reference holds as today's Rattle does. usage: python3 tools/clauses.py [FOLDER]

Run after respell.py. In the clauses of src/, `was x` becomes `x.now` of a `&` and `x.old` of a `&mut`, and `left x` becomes `x.new`. The
abbreviations `was` and `left` stay in crate rules for the definitions that take a buffer as a call is passed it, which is a `MutBor` now. A
second run changes nothing.
"""

import glob
import os
import re
import sys

FN = re.compile(r"\bfn\s+\w+(?:<[^>]*>)?\s*\(")
USED = re.compile(r"\(?\b(was|left) ([a-z_]\w*)\b(\))?")


def read(path):
    with open(path, encoding="utf-8") as f:
        return f.read()


def kinds(parameters):
    """The parameters that are references, each with whether it is a `&mut`."""
    found = {}
    for m in re.finditer(r"(\w+)\s*:\s*&\s*(?:'\w+\s*)?(mut\b)?", parameters):
        found[m[1]] = bool(m[2])
    m = re.search(r"&\s*(?:'\w+\s*)?(mut\s+)?self\b", parameters)
    if m:
        found["self"] = bool(m[1])
    return found


def turned(text, references):
    def one(m):
        word, name = m[1], m[2]
        if name not in references:
            return m[0]
        now = (".old" if word == "was" else ".new") if references[name] else ".now"
        opens, closes = m[0].startswith("("), m[3] == ")"
        inner = name + now
        return inner if opens and closes else ("(" if opens else "") + inner + (")" if closes else "")

    return USED.sub(one, text)


def main(folder):
    for path in sorted(glob.glob(os.path.join(folder, "crates/*/src/**/*.rt"), recursive=True)):
        text = read(path)
        out, last = [], 0
        for m in FN.finditer(text):
            depth, at = 1, m.end()
            while depth:
                depth += {"(": 1, ")": -1}.get(text[at], 0)
                at += 1
            references = kinds(text[m.end() : at - 1])
            # The clauses end where the body begins: at a brace that opens a line of its own, or at the first that no clause opens.
            end = at
            while True:
                c = re.match(r"(?:[^{;\[]|\[[^\]]*\])*?\b(?:requires|ensures)\*?\s*(?:\w+\s*)?\{", text[end:], re.S)
                if not c or "fn " in c[0]:
                    break
                depth, end = 1, end + c.end()
                while depth:
                    depth += {"{": 1, "}": -1}.get(text[end], 0)
                    end += 1
            out += [text[last:at], turned(text[at:end], references)]
            last = end
        new = "".join(out) + text[last:]
        uses = re.compile(r"(ghost use Rattle\.rules\.specs\.Promises\.\{)([^}]*)\};\n")
        body = uses.sub("", new)

        def kept(m):
            names = [n.strip() for n in m[2].split(",")]
            names = [n for n in names if n not in ("was", "left") or re.search(rf"\b{n} [a-z(]", re.sub(r"//.*", "", body))]
            return m[1] + ", ".join(names) + "};\n" if names else ""

        new = uses.sub(kept, new)
        if new != text:
            with open(path, "w", encoding="utf-8") as f:
                f.write(new)
    specs = sorted(glob.glob(os.path.join(folder, "crates/*/specs/*.antt")))
    for path in specs:
        text = read(path)
        new = text.replace("Both (Bor A) (Bor A)", "Both (MutBor A) (MutBor A)")
        new = new.replace("Both (Bor (List A)) (Bor (List A))", "Both (MutBor (List A)) (MutBor (List A))")
        new = new.replace("Both (Bor (List ℕ)) (Bor (List ℕ))", "Both (MutBor (List ℕ)) (MutBor (List ℕ))")
        new = new.replace("Both (Bor A) X", "Both (MutBor A) X").replace("Both X (Bor A)", "Both X (MutBor A)")
        new = new.replace("ℕ → Bor (List ℤ) → Bor (List ℕ) → Bor (List ℕ) → Type 0", "ℕ → MutBor (List ℤ) → MutBor (List ℕ) → MutBor (List ℕ) → Type 0")
        if new != text:
            bor = re.search(r"(?<![\w.{])Bor \(", new)
            new = new.replace("use Rattle.std.specs.Borrow.{Bor}", "use Rattle.std.specs.Borrow.{Bor, MutBor}" if bor else "use Rattle.std.specs.Borrow.{MutBor}")
            with open(path, "w", encoding="utf-8") as f:
                f.write(new)
    return 0


if __name__ == "__main__":
    raise SystemExit(main(sys.argv[1] if len(sys.argv) > 1 else "."))
