#!/usr/bin/env python3
"""sheet.py CREW PAGE [OLD] < what the lister printed: the roles on one page (HTML) for a person to read and print.

For each role who holds it, its rights by axis and action, the roles below it and whether it can be struck now; for each person the roles and
rights; the hierarchy as a drawing; with OLD, an earlier listing of the same crew, what changed since. Names are those of the file beside
CREW with the ending .names, as in pretty.py. Where the crew, the names or a listing can't be read, or a listing is not of this crew, it
says so in one line, and there is no PAGE, not even an older one.
"""
import os
import sys
from pathlib import Path

from building import read_crew, read_listing
from listing import Names, Unreadable, read_names, read_roles, read_text
from page import make_page

KINDS = ("person", "axis", "action")


def within(what, read, *given):
    """What is read, or why not, beginning with what it was."""
    try:
        return read(*given)
    except Unreadable as why:
        raise Unreadable("%s: %s" % (what, why))


def read_known_names(path):
    """The names. A kind that is none of the three is a slip of the pen, and someone would miss a name."""
    names = read_names(path)
    for kind, number in names:
        if kind not in KINDS:
            raise Unreadable("%s: %s,%d: a name is of a person, an axis or an action" % (path, kind, number))
    return Names(names)


def make(crew_path, printed, old_path):
    """The page, from the crew text, the names beside it and what the lister printed."""
    read_roles(printed)  # a refusal is said as such, whatever the crew text is
    crew = within(crew_path, read_crew, read_text(crew_path, "ascii"))
    names = read_known_names(crew_path.with_suffix(".names"))
    building = within("what the lister printed", read_listing, crew, names, printed)
    old = within("the earlier listing", read_listing, crew, names, read_text(old_path, "ascii")) if old_path else None
    return make_page(crew_path.name, building, names, old)


def write(path, text):
    """Written beside and then renamed, so that no one finds half a page."""
    part = path.with_name(path.name + ".part")
    try:
        part.write_text(text, encoding="utf-8", errors="replace")  # a file's name may be no text
        os.replace(part, path)
    finally:
        part.unlink(missing_ok=True)


def main():
    if len(sys.argv) not in (3, 4) or not sys.argv[2].endswith(".html"):
        sys.exit("usage: sheet.py CREW PAGE.html [OLD] < what the lister printed")
    crew, page, *old = map(Path, sys.argv[1:])
    if page.resolve() in [path.resolve() for path in (crew, *old)]:
        sys.exit("sheet: no page: %s is what it would be made from" % page)
    try:
        page.unlink(missing_ok=True)
        write(page, make(crew, sys.stdin.buffer.read().decode("ascii", "replace"), old[0] if old else None))
    except Unreadable as why:
        sys.exit("sheet: no page: %s" % why)
    except OSError as why:
        sys.exit("sheet: no page: can't write %s: %s" % (page, why.strerror))
    print("Page: %s" % page)


if __name__ == "__main__":
    main()
