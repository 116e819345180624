"""A crew list and the roles that stand over it, for the sheet: document 01's candidates and building, computed from the crew text.

Nothing here comes from the crates or from the tests' model: the sheet holds what the lister printed to what is computed here, and
tests/test_sheet.py holds the page to the model. A set is a whole number whose bit i says whether item i is in it.
"""
import re
from functools import reduce
from operator import or_

from listing import Unreadable, items, read_roles

MOST_USERS, MOST_PERMISSIONS, MOST_ROLES = 128, 256, 128
FIELDS = ("number", "permissions", "direct permissions", "direct members", "immediate juniors")


def union(sets):
    return reduce(or_, sets, 0)


def collect(numbers):
    """The set of these items."""
    return union(1 << i for i in numbers)


def size(s):
    return bin(s).count("1")


def digits(count):
    """How many hexadecimal digits a set of so many items has."""
    return (count + 3) // 4


# ---- the crew list ----------------------------------------------------------------------------------------------

class Crew:
    """n users, m permissions, the users' rows, and the sets of the candidate roles."""

    def __init__(self, m, rows):
        self.n, self.m, self.rows = len(rows), m, rows
        self.sets = candidates(rows)


def candidates(rows):
    """The nonempty intersections of one or more rows, by growing value: in each round those with one row more."""
    found, fresh = set(), set(rows) - {0}
    while fresh:
        found |= fresh
        if len(found) > MOST_ROLES:
            raise Unreadable("it gives more than %d candidate roles, and no listing is of such a crew" % MOST_ROLES)
        fresh = {s & row for s in fresh for row in rows} - found - {0}
    return sorted(found)


def read_crew(text):
    """The crew list of a crew text."""
    lines = text.split("\n")
    head = re.fullmatch("crew,([1-9][0-9]{0,2}),([1-9][0-9]{0,2})", lines[0])
    if not head or int(head[1]) > MOST_USERS or int(head[2]) > MOST_PERMISSIONS:
        raise Unreadable("its first line is not `crew,n,m` with 1 to %d persons and 1 to %d permissions" % (MOST_USERS, MOST_PERMISSIONS))
    n, m = int(head[1]), int(head[2])
    if len(lines) != n + 2 or lines[-1]:
        raise Unreadable("it is not one line for each of its %d persons after the first" % n)
    return Crew(m, [read_row(u, m, line) for u, line in enumerate(lines[1:-1])])


def read_row(u, m, line):
    row = re.fullmatch("%d,([0-9a-f]{%d})" % (u, digits(m)), line)
    if not row or int(row[1], 16) >> m:
        raise Unreadable("line %d is not person %d and a row of %d permissions" % (u + 2, u, m))
    return int(row[1], 16)


# ---- the building -----------------------------------------------------------------------------------------------

class Building:
    """The building of the standing roles. What a role has is found by its number k: the set S(k), the users of A(k), the roles above
    and below it, and its row: direct permissions, direct members, immediate juniors."""

    def __init__(self, crew, roles):
        self.crew, self.roles = crew, roles
        self.sets = {k: crew.sets[k] for k in roles}
        self.users = {k: collect(u for u, row in enumerate(crew.rows) if s & row == s) for k, s in self.sets.items()}
        self.below = {k: collect(j for j in roles if j != k and self.sets[j] | s == s) for k, s in self.sets.items()}
        self.above = {j: collect(k for k in roles if self.below[k] >> j & 1) for j in roles}
        self.direct = {k: s & ~union(self.sets[j] for j in items(self.below[k])) for k, s in self.sets.items()}
        self.members = {k: users & ~union(self.users[j] for j in items(self.above[k])) for k, users in self.users.items()}
        self.juniors = {k: below & ~union(self.below[j] for j in items(below)) for k, below in self.below.items()}
        self.of_user = [collect(k for k in roles if self.users[k] >> u & 1) for u in range(crew.n)]
        self.own = [collect(k for k in roles if self.members[k] >> u & 1) for u in range(crew.n)]
        self.once = [once(self.sets[k] for k in items(held)) for held in self.of_user]

    def counts(self):
        """What quality adds up: roles, direct members, direct permissions, links."""
        return [len(self.roles)] + [sum(map(size, part.values())) for part in (self.members, self.direct, self.juniors)]

    def quality(self):
        """With the lister's weights, 1 each."""
        return sum(self.counts())

    def rights(self, u):
        """What a user may: by the direct roles' own permissions, and in all."""
        own = items(self.own[u])
        return union(self.direct[k] for k in own), union(self.sets[k] for k in own)

    def sole(self, k):
        """The grants that no other standing role covers: the permissions of each user who has such. Where there are none, k can be struck."""
        return {u: self.sets[k] & self.once[u] for u in items(self.users[k]) if self.sets[k] & self.once[u]}

    def bare(self):
        """The grants that no standing role covers at all."""
        rows = enumerate(self.crew.rows)
        left = {u: row & ~union(self.sets[k] for k in items(self.of_user[u])) for u, row in rows}
        return {u: s for u, s in left.items() if s}

    def listing(self):
        """What the lister prints of it."""
        crew = self.crew
        wide = [digits(count) for count in (crew.m, crew.m, crew.n, len(crew.sets))]
        lines = ["roles,%d,%d" % (len(self.roles), self.quality())]
        for k in self.roles:
            row = (self.sets[k], self.direct[k], self.members[k], self.juniors[k])
            lines.append(",".join([str(k)] + ["%0*x" % field for field in zip(wide, row)]))
        return "".join(line + "\n" for line in lines)


def once(sets):
    """The items that exactly one of these sets has."""
    some = more = 0
    for s in sets:
        more |= some & s
        some |= s
    return some & ~more


# ---- a listing of a crew ----------------------------------------------------------------------------------------

def read_listing(crew, names, printed):
    """The building that a listing shows; it must be the listing of these roles over this crew to the last byte."""
    roles = sorted(read_roles(printed)[1])
    lines = printed.splitlines()
    if len(lines) != len(roles) + 1:
        foreign("it has a role twice")
    if roles and roles[-1] >= len(crew.sets):
        foreign("it has a role %d, and the crew gives %d candidates, numbered from 0" % (roles[-1], len(crew.sets)))
    building = Building(crew, roles)
    right = building.listing()
    pairs = list(enumerate(zip(lines, right.splitlines()), 1))
    for number, (line, expected) in pairs[1:] + pairs[:1]:  # the head last: its quality is wrong where any row is
        if line != expected:
            foreign("line %d: %s" % (number, difference(line.split(","), expected.split(","))))
    if printed != right:
        foreign("its lines are not each ended by byte 10")
    for u, s in building.bare().items():
        foreign("no role gives %s the right to %s" % (names.person(u), names.rights(s)[0]))
    return building


def difference(fields, expected):
    """The first field that differs, of a role's line or of the head."""
    words = FIELDS if len(expected) == len(FIELDS) else ("first word", "number of roles", "quality")
    return next("%s %s should be %s" % parts for parts in zip(words, fields, expected) if parts[1] != parts[2])


def foreign(words):
    raise Unreadable("not a listing of this crew: " + words)
