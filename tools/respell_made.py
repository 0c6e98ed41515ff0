#!/usr/bin/env python3
"""Respells, in proof files, the names that the toolchain makes of names of the source: those keep their spelling now, and only a dash joins the
parts. `returns-then-not-is-good-byte` is `returns-then-not-is_good_byte`. Run once, behind respell.py."""
import os
import re
import sys

from respell import TOKEN, files, parts

STD = """as_slice as_bytes as_str is_some is_none is_ok is_err is_empty split_at split_first split_last strip_prefix strip_suffix extend_from_slice
saturating_sub saturating_add from_residual copy_from_slice starts_with ends_with to_vec with_capacity as_mut_slice wrapping_add checked_add
overflow_add overflow_sub overflow_mul overflow_step overflow_cast slice_bounds offset_bounds invariant_of in_default in_err in_ok nonzero_div
nonzero_rem same_bytes type_inv""".split()


def main():
    root = sys.argv[1] if len(sys.argv) > 1 else "."
    names, foreign = set(STD), set()
    for p in files(root, (".rt",)):
        text = open(p, encoding="utf-8").read()
        code = "".join(x if c else " " for c, x in parts(text, True))
        names.update(re.findall(r"\b[A-Za-z][A-Za-z0-9]*(?:_[A-Za-z0-9]+)+\b", code))
    for p in files(root, (".antt",)):
        text = open(p, encoding="utf-8").read()
        for m in re.finditer(r"use\s+([\w.'+·\-]+)\.\{([^}]*)\}", text):
            if ".Goals" in m.group(1) or ".Given" in m.group(1):
                continue
            foreign.update(i.strip().split(" as ")[0].strip() for i in m.group(2).split(","))
    kebab = {n.replace("_", "-"): n for n in names}
    order = sorted(kebab, key=len, reverse=True)
    pat = re.compile(r"(?<![^\-])(" + "|".join(re.escape(k) for k in order) + r")(?![^\-])")
    done = {}

    def turn(m):
        t = m.group(0)
        if "-" not in t or t in foreign:
            return t
        new = pat.sub(lambda k: kebab[k.group(0)], t)
        if new != t:
            done[t] = new
        return new

    for p in files(root, (".antt",)):
        if "/proofs/" not in p or os.path.basename(p) not in ("Answers.antt", "Invariants.antt", "Choices.antt"):
            continue
        text = open(p, encoding="utf-8").read()
        new = "".join(TOKEN.sub(turn, x) if c else x for c, x in parts(text, False))
        if new != text:
            open(p, "w", encoding="utf-8").write(new)
    for t in sorted(done):
        print(t, "->", done[t])
    print(len(done), "made names respelled")


if __name__ == "__main__":
    main()
