#!/usr/bin/env python3
"""Counts the places in crates/*/src that docs/DESIGN-PASS.md goes through, point by point.

    tools/design_places.py [COMMIT] [-v]

of a commit, or of the files as they stand; with -v each place is printed.
"""
import re
import subprocess
import sys

POINTS = [
    ("1 variants of own enums that stand for none or for a refusal",
     r"^ +(No|Nothing|Nobody|Lone|Unknown|Refused\(u32\)|Number\(u32\)),$"),
    ("1 flags beside a value", r"^ +(pub )?(ok|passed|failed): bool,"),
    ("1 functions that answer a refusal's number", r"^ *(pub )?fn \w*refusal\w*\([^)]*\) -> u32"),
    ("1 functions that answer a number beside a count", r"^ *(pub )?fn (?!hasplight_).*\) -> (Answer|Verdict)\b"),
    ("1 numbers of refusals", r"^ *(return ([1-9]|1[0-3]);$|number: [1-9])|Reply::Number\(|Verdict::Refused\("),
    ("1 values that stand for none, by their comments",
     r"// .*(, or 0\b|and 0 where|and 10 where|0 where|, or n\.|and 0 behind|count is 0 where)"),
    ("2 functions that make an array", r"^ *(pub )?fn \w+\([^)&]*\) -> \[[^\]]*\]"),
    ("2 copies and readers of numbers", r"^ *(pub )?fn (copy\w*|read_floats|read_words|number_all)\("),
    ("2 the point tests of floats and of bytes",
     r"^ *(pub )?fn (off_grid|refusal|point_at|way_to|walk|ask)\(.*(bytes|coords): &\[(u8|f32)\], (convex|i)"),
    ("2 pairs of programs' functions", r"^ *(pub )?fn (cut_large|merge_large|front|words|text|number)\("),
    ("3 loops by while", r"^ *('\w+: )?while "),
    ("4 equality, order and conversions by hand",
     r"^ *(pub )?fn (same|same_key|is_ccw|is_cw|is_open|either|both|differ|any_of|wide\w*|narrow|place|larger|smaller|least|capped|"
     r"at_most|one_if|one_unless|one_more|radicand)\("),
    ("4 printing by hand", r"\b(text|number|counted)\(&?rt, "),
    ("5 clauses that coordinates or a point are on the grid",
     r"requires .*(off_grid [^≡]*≡ false|on_grid_pt \w+ ≡ true|on_grid \w+ ≡ true)"),
    ("5 clauses that some arrays belong together",
     r"(requires|ensures) .*\{ (Outlined|Lie|Stands|Sized|Known|Readable|AtCorner|Tree|Stripped|Flat)\b"),
    ("5 text and the place where it ends, as parameters", r"out: &mut \[u8\], at: usize"),
    ("6 arrays of a fixed size as parameters", r"\w+: &(mut )?\[(bool|u8|u16|u32|u64|f32); "),
    ("7 flags that choose a step", r"convex: bool"),
]


def files(commit):
    if commit is None:
        names = subprocess.run(["git", "ls-files", "crates/*/src/*.rt"], capture_output=True, text=True, check=True).stdout.split()
        return [(n, open(n).read()) for n in names]
    names = subprocess.run(["git", "ls-tree", "-r", "--name-only", commit, "crates"], capture_output=True, text=True, check=True).stdout.split()
    names = [n for n in names if re.fullmatch(r"crates/\w+/src/\w+\.rt", n)]
    return [(n, subprocess.run(["git", "show", f"{commit}:{n}"], capture_output=True, text=True, check=True).stdout) for n in names]


def main():
    words = [w for w in sys.argv[1:] if w != "-v"]
    texts = files(words[0] if words else None)
    for name, pattern in POINTS:
        found = [(n, i + 1, line) for n, t in texts for i, line in enumerate(t.split("\n")) if re.search(pattern, line)]
        print(f"{len(found):4} {name}")
        if "-v" in sys.argv:
            for n, i, line in found:
                print(f"       {n}:{i}: {line.strip()}")


main()
