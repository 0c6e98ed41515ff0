#!/usr/bin/env python3
"""Calls the library's `AllByRecursion` by its name, where the port's script imports it as `All`: the library has another word of that name, and the
gate refuses the alias. And gives back their own spelling to a few names that the script took for the library's. Run once, behind respell_made.py."""
import sys

from respell import TOKEN, files, parts

ALIAS = "AllByRecursion as All"

NAMES = {"Goes_on": "GoesOn", "SomeOf": "some_of", "in_List": "in_list", "plain_Row": "plain_row"}


def main():
    root = sys.argv[1] if len(sys.argv) > 1 else "."
    changed = 0
    for p in files(root, (".antt", ".rt")):
        text = open(p, encoding="utf-8").read()
        words = dict(NAMES)
        if ALIAS in text:
            words["All"] = "AllByRecursion"
        out = []
        for is_code, x in parts(text.replace(ALIAS, "AllByRecursion"), p.endswith(".rt")):
            out.append(TOKEN.sub(lambda m: words.get(m.group(0), m.group(0)), x) if is_code else x)
        if "".join(out) != text:
            open(p, "w", encoding="utf-8").write("".join(out))
            changed += 1
    print(changed, "files")


if __name__ == "__main__":
    main()
