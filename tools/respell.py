#!/usr/bin/env python3
"""Respells the names that this repository's specs and proofs define: functions, lemmas, fields and constructors in snake case, types in upper
camel case, a prime as an apostrophe. Run once, at the top, behind the toolchain's own port script. Names that the toolchain makes (goals, steps)
and names of its library keep their spelling, as do functions of src/, texts and comments. Prints what falls together."""
import collections
import os
import re
import sys

TOKEN = re.compile(r'[^\s(){}\[\];,."@|]+')
WORD = re.compile(r"^[^\W\d_]")


def files(root, ends):
    for folder, dirs, names in os.walk(os.path.join(root, "crates")):
        dirs[:] = sorted(d for d in dirs if d not in ("out",))
        for n in sorted(names):
            if n.endswith(ends):
                yield os.path.join(folder, n)


def parts(text, rt):
    """Pieces (is_code, piece): comments and texts are no code."""
    mark = "//" if rt else "--"
    out, i, n, start = [], 0, len(text), 0
    while i < n:
        c = text[i]
        if text.startswith(mark, i) and (rt or i == 0 or text[i - 1] in " \n"):
            j = text.find("\n", i)
            j = n if j < 0 else j
        elif c == '"':
            j = i + 1
            while j < n and text[j] != '"':
                j += 2 if text[j] == "\\" else 1
            j += 1
        elif rt and c == "'" and re.match(r"'(\\.|[^'\\])'", text[i:i + 4]):
            j = i + re.match(r"'(\\.|[^'\\])'", text[i:i + 4]).end()
        else:
            i += 1
            continue
        out.append((True, text[start:i]))
        out.append((False, text[i:j]))
        i = start = j
    out.append((True, text[start:]))
    return out


def spelled(name):
    if name[0].isupper():
        return "".join(w[:1].upper() + w[1:] for w in re.split(r"-", name)).replace("′", "'")
    return name.replace("-", "_").replace("′", "'")


HEAD = re.compile(r"^\s*(?:(?:abbrev|unfoldable|pub|data|record|module|macro|opaque)\s+)*([^\s(){};,.\"]+)(?=\s*[:({]|\s+[^=→]*:)")
MADE = re.compile(r":\s*(?:goal|need|given)\.")


def main():
    root = sys.argv[1] if len(sys.argv) > 1 else "."
    own, made, foreign, seen = set(), set(), collections.Counter(), set()
    for p in files(root, (".antt", ".rt")):
        text = open(p, encoding="utf-8").read()
        rt = p.endswith(".rt")
        code = "".join(x if is_code else " " for is_code, x in parts(text, rt))
        for m in re.finditer(r"use\s+([\w.'+·\-]+)\.\{([^}]*)\}", code):
            ours = re.match(r"Rattle\.(\w+)\.", m.group(1))
            ours = ours and os.path.isdir(os.path.join(root, "crates", ours.group(1)))
            for item in m.group(2).split(","):
                item = item.strip().split(" as ")[0].strip()
                if item and not ours:
                    foreign[item] += 1
        if rt:
            for m in re.finditer(r"\bas\s+([\w\-]*-[\w\-]*)", code):
                own.add(m.group(1))
            continue
        for line in code.split("\n"):
            m = HEAD.match(line)
            if m and "-" in m.group(1).strip("-"):
                (made if MADE.search(line) else own).add(m.group(1))
            for m in re.finditer(r"[({]\s*((?:[^\s(){};,.:]+\s+)+):", line):
                own.update(t for t in m.group(1).split() if "-" in t)
            for m in re.finditer(r"\blet\s+([^\s(){};,.:]+)\s*[:=]", line):
                own.update(t for t in m.group(1).split() if "-" in t)
            for m in re.finditer(r"\bpub\s+([^\s(){};,.:]+)\s*:", line):
                own.update(t for t in m.group(1).split() if "-" in t)
            for m in re.finditer(r"λ\s+((?:[^\s(){};,.:]+\s+)*[^\s(){};,.:]+)\s*\.", line):
                own.update(t for t in m.group(1).split() if "-" in t)
            for m in re.finditer(r"\bas\s+([^\s(){};,.:]+)", line):
                own.update(t for t in m.group(1).split() if "-" in t)
    own = {o for o in own if WORD.match(o) and len(o) > 2 and "->" not in o}
    both = sorted(o for o in own if o in made or o in foreign)
    own -= set(both)
    turned = {o: spelled(o) for o in own}
    back = collections.defaultdict(set)
    every = set()
    changed = 0
    for p in files(root, (".antt", ".rt")):
        text = open(p, encoding="utf-8").read()
        rt = p.endswith(".rt")
        out = []
        for is_code, x in parts(text, rt):
            if is_code:
                every.update(TOKEN.findall(x))
                x = TOKEN.sub(lambda m: turned.get(m.group(0), m.group(0).replace("′", "'")), x)
            out.append(x)
        new = "".join(out)
        if new != text:
            open(p, "w", encoding="utf-8").write(new)
            changed += 1
    for o in own:
        back[turned[o]].add(o)
    for n in sorted(back):
        if len(back[n]) > 1 or n in every:
            print("falls together:", n, "of", ", ".join(sorted(back[n])), "(a name already)" if n in every else "")
    for b in both:
        print("kept, since the toolchain has it or makes it:", b)
    left = sorted(t for t in every if "-" in t.strip("-") and t not in own and WORD.match(t))
    print(len(own), "names respelled in", changed, "files;", len(left), "other names with a dash, which are not ours")


if __name__ == "__main__":
    main()
