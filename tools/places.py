#!/usr/bin/env python3
"""Places in crates/*/src that docs/DESIGN-PASS.md counts, by its points.

    python3 tools/places.py [COMMIT] [--list POINT]

Without a commit it reads the work tree. A place is a line; POINT is one of the names below.
"""
import collections
import pathlib
import re
import subprocess
import sys

ROOT = pathlib.Path(__file__).resolve().parent.parent

PATTERNS = [
    # 1
    ("1 enum", r"^(?:pub )?enum \w+"),
    ("1 refusal as a number", r"fn \w*(?:refusal|refused|enter\w*)\(.*-> (?!.*Result)(?!.*usize)|^    pub code: u64|^pub const REFUSED_"),
    ("1 number for none", r"^\s+(?:return )?16;?$|-> Decimal|-> Field|-> Item\b"),
    # 2
    ("2 name with a width", r"^\s*(?:pub )?(?:fn|struct) \w*?_?(?:128|256)\b"),
    ("2 two of one name", None),
    # 3
    ("3 while", r"^\s*(?:'\w+: )?while (?!let )"),
    ("3 while let", r"^\s*while let "),
    ("3 for or chain", r"^\s*(?:'\w+: )?for \w|\.(?:all|any|sum|map|fold|position)\("),
    # 4
    ("4 equality, order, copy by hand", r"fn (?:equals|less|smaller|copy|clear|equal_at|zeros|holds|put_bytes)\("),
    ("4 as", r" as (?:u8|u64|usize)\b"),
    # 5
    ("5 clause in three or more functions", None),
    ("5 record and index side by side", r"rec: &(?:mut )?(?:\[u64\]|Record)(?:, |,\n\s+)index: &"),
    # 6
    ("6 table and how many", r"(?:table|crew|holders|ws|work): &(?:mut )?(?:\[u64\]|Record|Table128|Holders|Work), (?:at: usize, )?(?:n|c|m|count): usize"),
    ("6 array", r"= \[0u?\d*; "),
    # 7
    ("7 choice of a step", r"if kind == |match name \{|match read_call"),
]


def sources(commit):
    if commit:
        names = subprocess.run(["git", "ls-tree", "-r", "--name-only", commit, "crates"], cwd=ROOT, capture_output=True, text=True, check=True).stdout.split()
        for name in sorted(n for n in names if re.match(r"crates/\w+/src/.*\.rt$", n)):
            yield name, subprocess.run(["git", "show", commit + ":" + name], cwd=ROOT, capture_output=True, text=True, check=True).stdout
    else:
        for path in sorted((ROOT / "crates").glob("*/src/**/*.rt")):
            yield str(path.relative_to(ROOT)), path.read_text(encoding="utf-8")


def functions_of_one_name(texts):
    """A function outside an impl that stands in several modules under one name, main and the calls' own names left out."""
    where = collections.defaultdict(list)
    for name, text in texts:
        for number, line in enumerate(text.split("\n"), 1):
            m = re.match(r"^(?:pub )?fn (\w+)", line)
            if m and m.group(1) != "main" and not m.group(1).startswith("panel_"):
                where[m.group(1)].append("%s:%d: %s" % (name, number, line.strip()))
    return [p for ps in where.values() if len(ps) > 1 for p in ps]


def repeated_clauses(texts):
    """A `requires` whose fact stands in three functions or more."""
    where = collections.defaultdict(list)
    for name, text in texts:
        for number, line in enumerate(text.split("\n"), 1):
            m = re.match(r"^\s+requires (?:\w+ )?\{ (.*) \}$", line)
            if m:
                where[m.group(1).replace(".old", ".now")].append("%s:%d: %s" % (name, number, line.strip()))
    return [p for ps in where.values() if len(ps) >= 3 for p in ps]


def places(commit):
    texts = list(sources(commit))
    for point, pattern in PATTERNS:
        if point.startswith("2 two"):
            yield point, functions_of_one_name(texts)
        elif point.startswith("5 clause"):
            yield point, repeated_clauses(texts)
        else:
            rx = re.compile(pattern, re.M)
            found = []
            for name, text in texts:
                for m in rx.finditer(text):
                    number = text.count("\n", 0, m.start()) + 1
                    line = text[text.rfind("\n", 0, m.start()) + 1 :].split("\n", 1)[0]
                    if not line.lstrip().startswith("//") and not line.lstrip().startswith("ghost"):
                        found.append("%s:%d: %s" % (name, number, line.strip()))
            yield point, found


def main():
    args = sys.argv[1:]
    show = None
    if "--list" in args:
        i = args.index("--list")
        show = args[i + 1]
        del args[i : i + 2]
    for point, found in places(args[0] if args else None):
        print("%4d  %s" % (len(found), point))
        if show and point.startswith(show):
            for place in found:
                print("      " + place)


main()
