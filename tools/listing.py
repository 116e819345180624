"""What the lister prints, and the names beside a crew text, as pretty.py and sheet.py read them.

A set is a whole number whose bit i says whether item i is in it.
"""
import re

REFUSALS = {2: "the number of persons is not 1 to 128, or that of permissions is not 1 to 256",
            3: "a row has a permission that the crew list does not have",
            4: "the crew list gives more than 128 candidate roles",
            10: "the text is not in the form of a crew text, or is longer than 16,384 bytes"}
ACTIONS = 8  # permission 8a + i is action i on axis a


class Unreadable(Exception):
    """Why there is nothing to show, in one line."""


def items(s):
    return [i for i in range(s.bit_length()) if s >> i & 1]


def read_names(path):
    """The names in this file by kind and number (lines `person,0,name`, `axis,0,name`, `action,0,name`); none where there is no file."""
    names = {}
    for line in read_text(path, "utf-8-sig").splitlines() if path.is_file() else ():  # some editors put a mark first
        kind, number, name = (line.split(",", 2) + ["", ""])[:3]
        if not re.fullmatch("[0-9]{1,9}", number) or not name:
            raise Unreadable("%s: can't read the line %r" % (path, line))
        names[kind, int(number)] = name
    return names


def read_text(path, encoding):
    """The text of a file, its line ends as they stand."""
    try:
        return path.read_bytes().decode(encoding)
    except OSError as error:
        raise Unreadable("can't read %s: %s" % (path, error.strerror))
    except UnicodeDecodeError:
        raise Unreadable("can't read %s: it is not text in %s" % (path, "ASCII" if encoding == "ascii" else "UTF-8"))


def read_roles(printed):
    """The quality, and for each role number: permissions, direct permissions, direct members, immediate juniors."""
    lines = printed.splitlines()
    refused = re.fullmatch("refused,([0-9]{1,9})", lines[0]) if lines else None
    if refused:
        number = int(refused[1])
        raise Unreadable("no roles: refused with %d: %s" % (number, REFUSALS.get(number, "not a number that the lister prints")))
    head = re.fullmatch("roles,([0-9]{1,9}),([0-9]{1,9})", lines[0]) if lines else None
    rows = [re.fullmatch("([0-9]{1,9}),([0-9a-f]+),([0-9a-f]+),([0-9a-f]+),([0-9a-f]+)", line) for line in lines[1:]]
    if not head or not all(rows) or len(rows) != int(head[1]):
        raise Unreadable("can't read what the lister printed")
    return int(head[2]), {int(row[1]): tuple(int(field, 16) for field in row.groups()[1:]) for row in rows}


class Names:
    """Persons, axes and actions by name, or by number where they have none."""

    def __init__(self, names):
        self.names = names

    def name(self, kind, number):
        return self.names.get((kind, number), "%s %d" % (kind, number))

    def person(self, u):
        return self.name("person", u)

    def axis(self, a):
        return self.name("axis", a)

    def action(self, i):
        return self.name("action", i)

    def persons(self, s):
        return ", ".join(map(self.person, items(s)))

    def rights(self, s):
        """Permissions by axis and action, one text to an axis."""
        axes = {}
        for p in items(s):
            axes.setdefault(p // ACTIONS, []).append(self.action(p % ACTIONS))
        return ["%s: %s" % (self.axis(a), ", ".join(actions)) for a, actions in axes.items()]
