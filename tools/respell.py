#!/usr/bin/env python3
"""Brings this repository's own definitions and lemmas to the spelling of today's Rattle, after the kit's port.py.

usage: tools/respell.py             rewrites specs/, proofs/ and the clauses of src/ in place, and says which names fall together
       tools/respell.py --list      prints old and new names, one pair a line
       tools/respell.py --pages F   rewrites names in backquotes in README.md, docs/ and oracle/, by the pairs in the file F, as --list gave
                                    them before the first run

Words go from camelCase to snake_case. A dash stays where it joins two names, as in `length-map`; elsewhere in a lemma's name it becomes `_`.
Names of the library, of src/, of types and modules, and those that Rattle makes for a function's proof stay.
"""

import os
import re
import sys

TOP = os.path.dirname(os.path.dirname(os.path.realpath(__file__)))
SPLIT = re.compile(r"([\s(){}\[\],;.@⌜⌝\"`]+)")
USE = re.compile(r"^\s*(?:pub )?(?:ghost )?use ([^{}\n]*?)\.\{([^}]*)\}", re.M)
DEFINED = re.compile(r"^[ ]*(?:(?:abbrev|unfoldable|pub|package) )*([^\s(){}:.,;]+) :(?: |$)", re.M)
GOAL = re.compile(r"^(?:(?:abbrev|unfoldable|pub) )*([^\s(){}:.,;]+) : (?:tie|goal)\.", re.M)
# words of the library, beside this repository's own, that a dash joins
LIBRARY = set("length map take drop set append reverse get_or sum replicate filter concat any all not cond eqb ltb max min add sub mul div mod".split())


def texts(*endings):
    for folder, dirs, files in os.walk(os.path.join(TOP, "crates")):
        dirs[:] = sorted(d for d in dirs if d not in ("out", "must-fail"))
        for f in sorted(files):
            if f.endswith(endings):
                yield os.path.join(folder, f)


def read(path):
    with open(path, encoding="utf-8") as h:
        return h.read()


def snake(word):
    word = re.sub(r"(?<=[a-z0-9])([A-Z])", lambda m: "_" + m.group(1).lower(), word)
    return re.sub(r"(?<=[A-Z])([A-Z])", lambda m: "_" + m.group(1).lower(), word)


def own_crates():
    return {d for d in os.listdir(os.path.join(TOP, "crates"))}


def foreign(all_texts):
    """Names that come from the library: imported from a module that is not this repository's."""
    own, names = own_crates(), set()
    for t in all_texts:
        for module, items in USE.findall(t):
            parts = module.split(".")
            if parts[0] == "Rattle" and parts[1] in own:
                continue
            for item in items.split(","):
                names |= set(item.split())
    return names


def defined(path, t):
    """Names that a file of specs/ or proofs/ defines, without a function's goals."""
    inner = os.path.relpath(path, TOP).split(os.sep)[2:]
    names = set(DEFINED.findall(t))
    if inner[0] == "proofs" and len(inner) > 2:
        names -= set(GOAL.findall(t))
        names = {n for n in names if not re.search(rf"^(?:abbrev )?(?:pub )?{re.escape(n)} : (?:\([^)]*\) → )*(?:tie|goal)\.{re.escape(n)}\b", t, re.M)}
    return names


def respelled(name, words):
    """The new spelling of a hyphenated or camelCase name."""
    if name[0].isupper():
        return name
    parts = [snake(p) for p in name.split("-")]
    if len(parts) == 1 or "" in parts:
        return snake(name) if "" not in parts else name
    best = {0: []}
    for end in range(1, len(parts) + 1):
        for begin in range(end):
            word = "_".join(parts[begin:end])
            if begin in best and word in words and (end not in best or len(best[end]) > len(best[begin]) + 1):
                best[end] = best[begin] + [word]
    whole = best.get(len(parts))
    return "-".join(whole) if whole and len(whole) > 1 else "_".join(parts)


def renaming():
    files = {p: read(p) for p in texts(".antt")}
    sources = [read(p) for p in texts(".rt")]
    library = foreign(list(files.values()) + sources)
    words, names = set(LIBRARY), set()
    for p, t in files.items():
        here = {n for n in defined(p, t) if n not in library and not n.startswith("◌") and "◌" not in n}
        names |= here
        if "/specs/" in p:
            words |= {snake(n) for n in here if "-" not in n}
        # variables and fields in camelCase
        names |= {w for w in SPLIT.split(t) if re.fullmatch(r"[a-z][A-Za-z0-9'₀-₉]*[A-Z][A-Za-z0-9'₀-₉]*", w) and w not in library}
    old = {n for n in names if re.match(r"[a-z]", n)}
    pairs = {n: respelled(n, words) for n in sorted(old)}
    # a lemma that would have its function's name, or that of a word of the library
    taken = {new for n, new in pairs.items() if "-" not in n} | library
    pairs = {n: new + "_lem" if "-" in n and new in taken else new for n, new in pairs.items()}
    return {n: new for n, new in pairs.items() if new != n}, files


def clauses(text):
    """The spans of a source that are clauses, ghost items or `ghost use` lines."""
    spans = []
    for m in re.finditer(r"^\s*ghost use [^;]*;", text, re.M):
        spans.append(m.span())
    for m in re.finditer(r"\b(?:requires|ensures|ghost)\*?(?: [a-z_0-9]+)?:? *(?:= *)?\{", text):
        depth, i = 1, m.end()
        while depth and i < len(text):
            depth += {"{": 1, "}": -1}.get(text[i], 0)
            i += 1
        spans.append((m.end(), i - 1))
    return sorted(spans)


def turn(text, pairs):
    return "".join(pairs.get(w, w) for w in SPLIT.split(text))


def pages():
    """README.md, the pages of docs/ but that of the port itself, and the sources of oracle/."""
    yield os.path.join(TOP, "README.md")
    for top, ending in (("docs", ".md"), ("oracle", ".rs")):
        for folder, dirs, files in os.walk(os.path.join(TOP, top)):
            dirs[:] = sorted(d for d in dirs if d != "target")
            yield from (os.path.join(folder, f) for f in sorted(files) if f.endswith(ending) and f != "PORT.md")


def main(argv):
    if argv[:1] == ["--pages"] and len(argv) == 2:
        pairs = dict(line.split() for line in read(argv[1]).splitlines() if line.count(" ") == 1)
        for p in pages():
            t = read(p)
            new = re.sub(r"(?<!`)`[^`\n]+`(?!`)", lambda m: turn(m.group(), pairs), t)
            if new != t:
                with open(p, "w", encoding="utf-8") as h:
                    h.write(new)
        return 0
    pairs, files = renaming()
    if argv == ["--list"]:
        for old, new in pairs.items():
            print(old, new)
        return 0
    seen = {}
    for name, new in pairs.items():
        if new in seen:
            print(f"falls together: {name} and {seen[new]} become {new}")
        seen[new] = name
    for p, t in files.items():
        there = set(SPLIT.split(t))
        for name, new in pairs.items():
            if name in there and re.search(rf"(?<![\w.'-]){re.escape(new)}(?![\w'-])", t) and new not in pairs:
                print(f"falls together: {name} becomes {new}, which stands already in {os.path.relpath(p, TOP)}")
    for p, t in files.items():
        new = turn(t, pairs)
        if new != t:
            with open(p, "w", encoding="utf-8") as h:
                h.write(new)
    for p in texts(".rt"):
        t = read(p)
        out, at = [], 0
        for a, b in clauses(t):
            if a < at:
                continue
            out += [t[at:a], turn(t[a:b], pairs)]
            at = b
        new = "".join(out) + t[at:]
        if new != t:
            with open(p, "w", encoding="utf-8") as h:
                h.write(new)
    return 0


sys.exit(main(sys.argv[1:]))
