#!/usr/bin/env python3
"""pretty.py CREW [DRAWING] < what the lister printed: the same roles for a person.

Which persons a role has, which permissions by axis and action, and from which roles it inherits, as an indented tree: the roles that nobody
inherits from first, and under each the roles that it inherits from. A role that stands under several others is written out once.
Where a file CREW with the ending .names is there, persons, axes and actions have the names in it (lines `person,0,name`, `axis,0,name`,
`action,0,name`). Where DRAWING is given and Graphviz's `dot` is installed, a drawing is written to it.
"""
import shutil
import subprocess
import sys
from pathlib import Path

from listing import Names, Unreadable, items, read_names, read_roles


def fail(words):
    sys.exit("pretty: " + words)


def draw(roles, names, path):
    """The drawing, where Graphviz is installed."""
    if shutil.which("dot") is None:
        print("No drawing: Graphviz is not installed (there is no `dot`).")
        return
    lines = ["digraph roles {", "  node [shape=box];"]
    for k, (_, direct, members, juniors) in roles.items():
        persons = [names.persons(members)] if members else []
        label = "\\n".join(["role %d" % k] + persons + names.rights(direct)).replace('"', "'")
        lines.append('  %d [label="%s"];' % (k, label))
        lines += ["  %d -> %d;" % (k, j) for j in items(juniors)]
    made = subprocess.run(["dot", "-Tsvg", "-o", path], input="\n".join(lines + ["}", ""]), text=True)
    if made.returncode:
        fail("dot could not make the drawing")
    print("Drawing: " + path)


def main():
    if len(sys.argv) not in (2, 3):
        sys.exit("usage: pretty.py CREW [DRAWING] < what the lister printed")
    try:
        names = Names(read_names(Path(sys.argv[1]).with_suffix(".names")))
        quality, roles = read_roles(sys.stdin.read())
    except Unreadable as why:
        fail(str(why))
    shown = set()

    def show(k, depth):
        _, direct, members, juniors = roles[k]
        margin = "    " * depth
        print("%srole %d%s" % (margin, k, " (shown above)" if k in shown else ""))
        if k in shown:
            return
        shown.add(k)
        print("%s  persons: %s" % (margin, names.persons(members) or "none but by the roles above"))
        if direct:
            print("%s  may: %s" % (margin, "; ".join(names.rights(direct))))
        if juniors:
            print("%s  inherits from:" % margin)
            for j in items(juniors):
                show(j, depth + 1)

    print("%d roles, quality %d" % (len(roles), quality))
    below = {j for _, _, _, juniors in roles.values() for j in items(juniors)}
    for k in roles:
        if k not in below:
            print()
            show(k, 0)
    if len(sys.argv) == 3:
        print()
        draw(roles, names, sys.argv[2])


if __name__ == "__main__":
    main()
