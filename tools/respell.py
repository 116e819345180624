#!/usr/bin/env python3
"""Brings the names of definitions and lemmas to today's spelling, once, after the toolchain's own port script.

usage: python3 tools/respell.py            at the top of the repository

Types, records and facts keep their camel case. Every other name of specs/, proofs/ and of a clause is in snake case; a dash is left
only where it joins two names, as in `length-put_at`, and a plain word is added with `_`, as in `subset_antisym`. Names of src/, and
names that the toolchain makes for goals, stay. It prints names that fall together, and writes the list of what it renamed.
"""

import collections
import glob
import re
import sys

TOKEN = re.compile(r"--[^\n]*|\"(?:[^\"\\]|\\.)*\"|[^\s(){}.;,@\"«»\[\]\\]+")
TOP = re.compile(r"^(abbrev |unfoldable )?(pub )?(data |record )?([^\s:(){}]+)((?: [({][^:]*)?) : (.*)$")
INNER = re.compile(r"^ +(?:pub )?([^\s:(){}=,]+) : ")
LOWER_CAMEL = re.compile(r"^[a-z][A-Za-z0-9_']*[A-Z]")
# words that are names in the library, so that a dash beside one of them stays
STD = set(
    "length take drop append map zero suc true false nil cons if then else not and or all any none get get_or set So min max index"
    " sum ones filter reverse replicate zip last head tail iff refl sym trans".split()
) - set("iff refl sym trans last head tail index set get".split())
SYMBOL = re.compile(r"^[^A-Za-z0-9_]+$")


def sources():
    return sorted(glob.glob("crates/*/specs/**/*.antt", recursive=True) + glob.glob("crates/*/proofs/**/*.antt", recursive=True))


def is_walk(path):
    return path.endswith("/Proof.antt")


def snake(word):
    """`roleRowsOf` as `role_rows_of`; a word that begins with a capital, or has none, stays."""
    if not LOWER_CAMEL.match(word):
        return word
    return re.sub(r"(?<=[a-z0-9])([A-Z])", lambda m: "_" + m.group(1).lower(), word)


def declared():
    """The names that specs/ and proofs/ declare: those of definitions, of lemmas, and of fields and constructors."""
    definitions, lemmas, fields = set(), set(), set()
    for path in sources():
        if is_walk(path):
            continue
        with open(path, encoding="utf-8") as f:
            for line in f:
                if line.startswith(("use ", "pub use ", "open ", "--", "mod ", "pub mod ")):
                    continue
                m = TOP.match(line)
                if m:
                    kind = definitions if m.group(1) or m.group(3) else lemmas
                    kind.add(m.group(4))
                    continue
                m = INNER.match(line)
                if m and "λ" not in line.split(" : ")[0]:
                    fields.add(m.group(1))
    return definitions, lemmas, fields


def joined(name, names):
    """The parts of a dashed name: a dash stays between two names, and a plain word is added with `_`."""
    parts = [snake(it) for it in name.split("-")]
    known = [bool(SYMBOL.match(it)) or it in names or it.rstrip("'") in names for it in parts]
    out = parts[0]
    for i in range(1, len(parts)):
        symbol = bool(SYMBOL.match(parts[i])) or bool(SYMBOL.match(parts[i - 1]))
        out += ("-" if known[i] and known[i - 1] or symbol else "_") + parts[i]
    return out


def words_of(paths):
    """Every word that stands in these files, as it is spelled now and as it will be."""
    words = set()
    for path in paths:
        with open(path, encoding="utf-8") as f:
            words |= {m.group(0) for m in TOKEN.finditer(f.read())}
    return {it for it in words if "-" not in it} | {snake(it) for it in words if "-" not in it}


def table():
    """Old and new names. A lemma that would have the name of a definition gets `_lem`."""
    definitions, lemmas, fields = declared()
    names = {snake(it) for it in definitions if "-" not in it and len(it) > 1} | STD
    taken = words_of(sources())
    camel = {snake(it) for it in definitions if it != snake(it)}
    renamed = {}
    for it in definitions | lemmas:
        if "-" in it:
            new = joined(it, names)
            renamed[it] = new + "_lem" if new != it and new in taken else new
    for it in fields:
        if "-" in it and it not in renamed:
            new = "_".join(snake(p) for p in it.split("-"))
            renamed[it] = new + "_lem" if new in camel | definitions else new
    for it in (lemmas | fields) & camel:
        renamed[it] = it + "_lem"
    return {a: b for a, b in renamed.items() if a != b}


def respelled(text, renamed, seen):
    def one(m):
        it = m.group(0)
        if it.startswith(("--", '"')):
            return it
        # behind a dot a name is a field, a function of src/ or a step of a proof, and no lemma
        new = renamed.get(it)
        if new is not None and m.start() and text[m.start() - 1] == ".":
            new = re.sub("_lem$", "", new) if "-" in it else None
        if new is None:
            # an operator by its name, as ◌orElse◌, and any other word in camel case
            new = "◌".join(snake(p) for p in it.split("◌")) if "-" not in it else it
        if new != it:
            seen[it] = new
        return new

    return TOKEN.sub(one, text)


CLAUSE = re.compile(r"^(\s*)(requires|ensures|ghost)\b.*$", re.M)


def in_clauses(text, renamed, seen):
    """A .rt file: only ghost imports and clauses, which are of one line each."""
    return CLAUSE.sub(lambda m: respelled(m.group(0), renamed, seen), text)


def comments(text, seen):
    """Names that comments cite between backquotes."""
    return re.sub(r"`([^`\s]+)`", lambda m: "`" + seen.get(m.group(1), m.group(1)) + "`", text)


def main():
    renamed, seen = table(), {}
    new = {}
    paths = sources() + sorted(glob.glob("crates/*/src/**/*.rt", recursive=True))
    before = collections.defaultdict(set)
    for path in paths:
        with open(path, encoding="utf-8") as f:
            text = f.read()
        change = respelled if path.endswith(".antt") else in_clauses
        here = {}
        new[path] = text, change(text, renamed, here)
        seen.update(here)
        old = {m.group(0) for m in TOKEN.finditer(text)}
        for a, b in here.items():
            if b in old:
                print(f"falls together: {a} with {b} in {path}", file=sys.stderr)
            for c, d in here.items():
                if b == d and a < c:
                    print(f"falls together: {a} and {c} as {b} in {path}", file=sys.stderr)
    for path, (text, changed) in new.items():
        changed = comments(changed, seen)
        if changed != text:
            with open(path, "w", encoding="utf-8") as f:
                f.write(changed)
    for a, b in sorted(seen.items()):
        print(f"{a}\t{b}")


if __name__ == "__main__":
    main()
