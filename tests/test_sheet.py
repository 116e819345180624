"""Checks of the sheet (tools/sheet.py): pages are read back and held to the model and to the crew list, cell by cell; and where there is
nothing to show, there is a line that says why, and no page.

The listings come from tests/model.py, so no lister has to be built. `python3 tests/test_sheet.py` prints one line and exits 1 on a failure.
"""
import random
import re
import subprocess
import sys
import tempfile
from html.parser import HTMLParser
from pathlib import Path

import model as M
from crews import departments

ROOT = Path(__file__).resolve().parent.parent
sys.path.insert(0, str(ROOT / "tools"))

import sheet  # the tools are no package: they are found where the line above says
from building import read_crew, read_listing
from listing import Names, Unreadable

TOUR = ROOT / "examples/tour.crew"
ONES = (1, 1, 1, 1)
SIGNS = {"": "", "●": "direct", "○": "inherited"}
passed, failures = 0, []


def check(name, got, expected=True):
    global passed
    if got == expected:
        passed += 1
    else:
        failures.append("%s: got %s, expected %s" % (name, str(got)[:300], str(expected)[:300]))


# ---- reading a page ---------------------------------------------------------------------------------------------

class Element:
    """An element of a page, its parts in their order, and the elements within it: a stretch of all elements of the page."""

    def __init__(self, tag, attributes, everything):
        self.tag, self.attributes, self.parts = tag, attributes, []
        self.everything, self.start, self.end = everything, len(everything), None
        everything.append(self)

    def __getitem__(self, name):
        return self.attributes[name]

    def within(self):
        return self.everything[self.start:self.end]

    def all(self, tag, *names):
        """The elements within it with this tag and these attributes."""
        return [e for e in self.within() if e.tag == tag and all(name in e.attributes for name in names)]

    def one(self, tag, *names):
        found = self.all(tag, *names)
        check("one %s %s" % (tag, names), len(found), 1)
        return found[0]

    def text(self):
        return "".join(part if isinstance(part, str) else part.text() for part in self.parts)

    def set(self, name):
        """The set of the numbers in an attribute."""
        return M.collect(map(int, self[name].split()))


class Reader(HTMLParser):
    """A page as elements; every element but meta must be closed in its turn."""

    def __init__(self, page):
        super().__init__()
        self.everything = []
        self.open = [Element("page", {}, self.everything)]
        self.well_formed = True
        self.feed(page)
        self.close()
        self.well_formed &= len(self.open) == 1

    def handle_starttag(self, tag, attributes):
        element = Element(tag, dict(attributes), self.everything)
        self.open[-1].parts.append(element)
        self.open.append(element)
        if tag == "meta":
            self.handle_endtag(tag)

    def handle_endtag(self, tag):
        element = self.open.pop()
        element.end = len(self.everything)
        self.well_formed &= element.tag == tag

    def handle_data(self, data):
        self.open[-1].parts.append(data)


# ---- what should be on it ---------------------------------------------------------------------------------------

class Case:
    """A crew list with its names and standing set, and what the model says of them."""

    def __init__(self, n, m, rows, standing=None, names=None):
        self.n, self.m, self.rows, self.names = n, m, rows, names or {}
        self.crew = M.crew_of(n, m, rows)
        self.standing = M.everything(self.crew) if standing is None else standing
        self.roles = M.items(self.standing)
        self.direct, self.members, self.juniors = zip(*M.building(self.crew, self.standing)) if self.crew.c else ((), (), ())
        self.own = [M.collect(k for k in self.roles if self.members[k] >> u & 1) for u in range(n)]
        self.strikable = M.strikable_roles(self.crew, self.standing)

    def name(self, kind, number):
        return self.names.get((kind, number), "%s %d" % (kind, number))

    def person(self, u):
        return self.name("person", u)

    def persons(self, s):
        return ", ".join(map(self.person, M.items(s))) or "none"

    def rights(self, s):
        """Axes with their actions, as a reader would say them."""
        axes = sorted({p // 8 for p in M.items(s)})
        return "; ".join("%s: %s" % (self.name("axis", a), ", ".join(self.name("action", i) for i in range(8) if s >> 8 * a + i & 1)) for a in axes)

    def listing(self):
        """What the lister would print of this state."""
        lines = ["roles,%d,%d" % (len(self.roles), M.quality_of(self.crew, self.standing, ONES))]
        for k in self.roles:
            sets = ((self.crew.sets[k], self.m), (self.direct[k], self.m), (self.members[k], self.n), (self.juniors[k], self.crew.c))
            lines.append(",".join([str(k)] + [M.hexadecimal(*s) for s in sets]))
        return "".join(line + "\n" for line in lines)

    def crew_text(self):
        return M.crew_text(self.n, self.m, self.rows).decode("ascii")

    def only(self, k):
        """The grants that only role k covers, as the set of permissions of each user who has some."""
        others = M.less(self.standing, 1 << k)
        grants = [(u, p) for u, p in self.crew.grants_of(k) if not self.crew.covering(u, p) & others]
        return {u: M.collect(p for v, p in grants if v == u) for u in {u for u, _ in grants}}


def roles_text(s):
    return ", ".join("role %d" % k for k in M.items(s)) or "none"


# ---- a page held to its case ------------------------------------------------------------------------------------

def check_page(name, case, page):
    reader = Reader(page)
    root = reader.open[0]
    check(name + ": each element closed in its turn", reader.well_formed)
    check_alone(name, root, page)
    check_counts(name, case, root)
    sections = {section["id"]: section for section in root.all("section")}
    check_roles(name + ": roles", case, sections["roles"])
    check_persons(name + ": persons", case, sections["persons"])
    check_rights(name + ": who may", case, sections["rights"])
    check_strikes(name + ": strikes", case, sections["strikes"])
    check_drawing(name + ": drawing", case, sections["hierarchy"])
    return sections


def check_alone(name, root, page):
    """Nothing from elsewhere, no script, and no link to what is not on the page."""
    elements = root.within()
    fetching = {"script", "link", "img", "iframe", "object", "use", "image", "form"}
    check(name + ": no script, nothing fetched", {e.tag for e in elements} & fetching, set())
    check(name + ": no handlers", [a for e in elements for a in e.attributes if a.startswith("on") or a in ("src", "srcset", "style")], [])
    style = root.one("style").text()
    check(name + ": the style fetches nothing", "url(" in style or "@import" in style, False)
    ids = [e["id"] for e in elements if "id" in e.attributes]
    check(name + ": ids once", len(ids), len(set(ids)))
    check(name + ": links lead somewhere", {e["href"] for e in root.all("a")} - {"#" + i for i in ids}, set())
    check(name + ": an A4 page", "size: A4" in style)


def check_counts(name, case, root):
    shown = {e["data-count"]: e.text() for e in root.all("b", "data-count")}
    counts = M.counts(case.crew, case.standing)
    words = ("roles", "direct members", "direct permissions", "links")
    expected = dict(zip(words, map(str, counts)), quality=str(sum(counts)))
    check(name + ": quality and counts", shown, expected)
    said = "%d persons, %d permissions. Quality %d: the sum of %d roles, %d direct members, %d direct permissions, %d links."
    check(name + ": the same in words", root.one("header").all("p")[0].text().startswith(said % (case.n, case.m, sum(counts), *counts)))


def check_grid(name, case, table, direct, whole, axes):
    """A line for each of these axes, and in it each permission with its sign; in a column each, under the actions' names."""
    head, *lines = table.all("tr")
    columns = range(min(8, case.m))
    check(name + " caption", table.one("caption").text(), "Rights: %d, direct ones: %d" % (M.size(whole), M.size(direct)))
    check(name + " actions", [e.text() for e in head.all("th")], [case.name("action", i) for i in columns])
    got = [(line.parts[0].text(), [(cell.attributes.get("data-permission"), SIGNS.get(cell.text(), "?"), cell.attributes.get("class", ""))
                                   for cell in line.parts[1:]]) for line in lines]
    check(name + " cells", got, [(case.name("axis", a), [cell_of(case.m, direct, whole, 8 * a + i) for i in columns]) for a in axes])


def cell_of(m, direct, whole, p):
    """A cell's permission, sign and class; the last axis may lack permissions."""
    if p >= m:
        return None, "", "no"
    sign = "direct" if direct >> p & 1 else "inherited" if whole >> p & 1 else ""
    return str(p), sign, sign


def check_roles(name, case, section):
    cards = section.all("article")
    check(name, [int(card["data-role"]) for card in cards], case.roles)
    for card in cards:
        k = int(card["data-role"])
        at = "%s: %d" % (name, k)
        held = case.crew.users[k]
        direct, inherited = card.one("dd", "data-direct"), card.one("dd", "data-inherited")
        check(at + " direct members", (direct.set("data-direct"), direct.text()), (case.members[k], case.persons(case.members[k])))
        others = M.less(held, case.members[k])
        through = ", ".join("%s (%s)" % (case.person(u), roles_text(case.own[u] & case.crew.above[k])) for u in M.items(others)) or "none"
        check(at + " by inheritance", (inherited.set("data-inherited"), inherited.text()), (others, through))
        below = card.one("dd", "data-juniors")
        further = M.less(case.crew.below[k] & case.standing, case.juniors[k])
        words = roles_text(case.juniors[k]) + ("; further down " + roles_text(further) if further else "")
        check(at + " below", (below.set("data-juniors"), below.set("data-further"), below.text()), (case.juniors[k], further, words))
        check_grid(at, case, card.one("table"), case.direct[k], case.crew.sets[k], sorted({p // 8 for p in M.items(case.crew.sets[k])}))
        check_verdict(at, case, card, k)


def check_verdict(name, case, card, k):
    """Can it be struck? If not, every grant that only it covers, by names."""
    only = case.only(k)
    verdict, = [e for e in card.within() if "data-strikable" in e.attributes]
    check(name + " strikable", verdict["data-strikable"] == "yes", bool(case.strikable >> k & 1))
    check(name + " in words", verdict.text().startswith("Can't be struck now." if only else "Can be struck now."))
    told = {}
    for group in verdict.all("li"):
        users, s = group.set("data-users"), group.set("data-permissions")
        told.update((u, s) for u in M.items(users))
        check(name + " lost by names", group.text(), "%s: %s" % (case.persons(users), case.rights(s)))
    check(name + " lost", told, only)


def check_persons(name, case, section):
    cards = section.all("article")
    check(name, [int(card["data-user"]) for card in cards], list(range(case.n)))
    for u, card in enumerate(cards):
        at = "%s: %d" % (name, u)
        number = " person %d" % u if ("person", u) in case.names else ""
        check(at + " name", card.one("h3").text(), case.person(u) + number)
        direct, inherited = card.one("dd", "data-direct"), card.one("dd", "data-inherited")
        others = M.less(case.crew.of_user[u] & case.standing, case.own[u])
        check(at + " direct roles", (direct.set("data-direct"), direct.text()), (case.own[u], roles_text(case.own[u])))
        check(at + " by inheritance", (inherited.set("data-inherited"), inherited.text()), (others, roles_text(others)))
        own = 0
        for k in M.items(case.own[u]):
            own |= case.direct[k]
        check_grid(at, case, card.one("table"), own, case.rows[u], range((case.m + 7) // 8))


def check_rights(name, case, section):
    """For each permission everyone who has it and nobody else, each once, with the own roles that have it; and who gives it."""
    lines = section.all("tr", "data-permission")
    check(name, [int(line["data-permission"]) for line in lines], list(range(case.m)))
    check(name + " axes", [e.text() for e in section.all("h3")], [case.name("axis", a) for a in range((case.m + 7) // 8)])
    for p, line in enumerate(lines):
        action, who, by = (e.text() for e in line.parts)
        with_it = M.collect(k for k in case.roles if case.crew.sets[k] >> p & 1)
        through = [case.own[u] & with_it if case.rows[u] >> p & 1 else 0 for u in range(case.n)]
        groups = ["%s (%s)" % (case.persons(M.collect(u for u in range(case.n) if through[u] == s)), roles_text(s))
                  for s in dict.fromkeys(through) if s]
        giving = M.collect(k for k in case.roles if case.direct[k] >> p & 1)
        check("%s: %d" % (name, p), (action, who, by), (case.name("action", p % 8), "; ".join(groups) or "nobody", roles_text(giving)))


def check_strikes(name, case, section):
    told, = [e for e in section.within() if "data-strikable" in e.attributes]
    check(name, told.set("data-strikable"), case.strikable)
    words = ["role %d (direct members: %s; direct rights: %s)" % (k, case.persons(case.members[k]), case.rights(case.direct[k]) or "none")
             for k in M.items(case.strikable)]
    check(name + " in words", [e.text() for e in told.all("li")] or told.text(), words or "None.")


def check_drawing(name, case, section):
    """A box for each role, none over another; a line for each link, from the senior's foot down to the junior's top."""
    boxes = {int(e["data-role"]): [float(e[a]) for a in ("x", "y", "width", "height")] for e in section.all("rect", "data-role")}
    check(name + " boxes", sorted(boxes), case.roles)
    places = sorted(boxes.values(), key=lambda box: (box[1], box[0]))
    check(name + " apart", all(a[1] + a[3] < b[1] or a[1] == b[1] and a[0] + a[2] < b[0] for a, b in zip(places, places[1:])))
    lines = {(int(e["data-senior"]), int(e["data-junior"])): e["d"] for e in section.all("path")}
    check(name + " links", set(lines), {(k, j) for k in case.roles for j in M.items(case.juniors[k])})
    wrong = []
    for (k, j), line in lines.items():
        start, end = ([box[0] + box[2] / 2, box[1] + box[3] * foot] for box, foot in ((boxes[k], 1), (boxes[j], 0)))
        numbers = [float(number) for number in re.findall(r"-?[0-9.]+", line)]
        if start[1] >= end[1] or max(abs(a - b) for a, b in zip(numbers[:2] + numbers[-2:], start + end)) > 0.2:
            wrong.append((k, j))
    check(name + " ends of lines", wrong, [])
    for box in section.all("a"):
        number, who = (e.text() for e in box.all("text"))
        k = int(box.one("rect")["data-role"])
        check("%s: %d in words" % (name, k), (number, box["href"]), ("role %d" % k, "#role-%d" % k))
        check("%s: %d members" % (name, k), short_for(case, case.members[k], who), True)
    check(name + " dashed", M.collect(int(e["data-role"]) for e in section.all("rect", "data-role") if e["class"] == "free"), case.strikable)


def short_for(case, members, who):
    """Is this the first member's name, cut where it is too long, and how many more there are?"""
    if not members:
        return who == "no direct member"
    first, *others = M.items(members)
    more = " +%d" % len(others) if others else ""
    start, cut, end = who.partition("…")
    return (case.person(first).startswith(start) and end == more and len(who) < 20) if cut else who == case.person(first) + more


# ---- pages ------------------------------------------------------------------------------------------------------

class Desk:
    """A folder with a crew text, names and an older page, where sheets are made: by the program, or by its function alone, which is faster."""

    def __init__(self, folder):
        self.crew, self.names, self.page, self.old = (folder / name for name in ("a.crew", "a.names", "a.html", "old.txt"))

    def put(self, crew, names=""):
        self.crew.write_text(crew, encoding="ascii", newline="")
        self.names.write_text(names, encoding="utf-8")

    def run(self, listing, *old):
        self.page.write_text("an older page", encoding="utf-8")
        given = [sys.executable, ROOT / "tools/sheet.py", self.crew, self.page, *old]
        return subprocess.run(given, input=listing.encode("utf-8"), capture_output=True, check=False)

    def made(self, name, listing, *old):
        """The page that the program makes."""
        ran = self.run(listing, *old)
        check(name + ": made", (ran.returncode, ran.stderr, ran.stdout.decode()), (0, b"", "Page: %s\n" % self.page))
        return self.page.read_text(encoding="utf-8")

    def computed(self, _, listing, *old):
        """The page that the program would make."""
        return sheet.make(self.crew, listing, old[0] if old else None)

    def refused(self, name, words, listing, *old):
        """The program says one line that has these words, and leaves no page, old or new or half."""
        ran = self.run(listing, *old)
        said = ran.stderr.decode()
        check(name + ": refused", (ran.returncode, ran.stdout, said.count("\n"), said.startswith("sheet: no page: ")), (1, b"", 1, True))
        check(name + ": says why", words in said or said)
        check(name + ": no page", [path.name for path in self.page.parent.glob("a.html*")], [])

    def unreadable(self, name, words, listing, *old):
        """What the program would say is one line with these words."""
        why = reason(sheet.make, self.crew, listing, old[0] if old else None) or ""
        check(name + ": says why", words in why and "\n" not in why or why)


def reason(read, *given):
    """Why it can't be read, or None."""
    try:
        read(*given)
    except Unreadable as why:
        return str(why)
    return None


def names_text(names):
    return "".join("%s,%d,%s\n" % (*key, name) for key, name in names.items())


def show(desk, name, case, make=Desk.computed):
    desk.put(case.crew_text(), names_text(case.names))
    return check_page(name, case, make(desk, name, case.listing()))


def tour():
    code, n, m, words = M.read_crew(TOUR.read_bytes(), [0] * M.BUFFER)
    names = [line.split(",", 2) for line in TOUR.with_suffix(".names").read_text(encoding="utf-8").splitlines()]
    record = M.review(M.eliminate(M.fresh(n, m, [M.from_words(words[4 * u:4 * u + 4]) for u in range(n)]), ONES, 1, 1)[-1], ONES)[-1]
    rows, standing = M.read_out(record)[2:]
    case = Case(n, m, rows, standing, {(kind, int(number)): name for kind, number, name in names})
    check("the tour's listing", case.listing().encode("ascii"), M.lister(TOUR.read_bytes()))
    return case


def the_tour(desk):
    """The tour, and the questions that a flyman asks of it, answered by hand from examples/README.md: only the fitter has everything, so
    only he may bypass, and his is the last candidate."""
    case = tour()
    sections = show(desk, "tour", case, Desk.made)
    bypass = sections["rights"].all("tr", "data-permission")[8 * 4 + 7]
    check("who may bypass the flying harness", [e.text() for e in bypass.parts], ["bypass", "fitter (role 24)", "role 24"])
    lost = [e.text() for e in sections["roles"].all("li") if "flying harness: limits" in e.text()]
    check("the flying supervisor's limits", lost, ["flying supervisor: flying harness: limits"])


def the_largest(desk):
    """128 persons and 256 permissions, with some roles struck so that others' rights moved, and some that can still be struck."""
    n, m, rows = departments()
    crew = M.crew_of(n, m, rows)
    standing = M.everything(crew)
    for k in range(0, crew.c, 2):
        standing -= M.strikable(crew, standing, k) << k
    case = Case(n, m, rows, standing)
    check("some of the largest can be struck and some not", 0 < M.size(case.strikable) < len(case.roles) < crew.c)
    show(desk, "128 x 256", case, Desk.made)


NASTY = ['<b>"Al" & \'Bo\'</b>', "</td></table><script>alert(1)</script>", "&lt;&amp;", "a,b;c: d", "Zoë “the” <fly>", "x" * 60, "%s%d%%", "\\",
         "' onclick='x"]


def names_that_bite(desk):
    """Names that are markup, and a crew whose last axis lacks actions."""
    rows = [0x7ff, 0x0f1, 0x703, 0x402, 0, 0x3ff, 0x0f1]
    rng = random.Random(4)
    names = {("person", u): NASTY[u] for u in range(7)}
    names.update({("axis", a): name for a, name in enumerate(rng.sample(NASTY, 2))})
    names.update({("action", i): name for i, name in enumerate(rng.sample(NASTY, 8))})
    show(desk, "names with markup", Case(7, 11, rows, None, names))


def small_ones(desk):
    show(desk, "no role at all", Case(3, 3, [0, 0, 0]))
    show(desk, "one of each", Case(1, 1, [1]))
    show(desk, "01's rows", Case(3, 3, [3, 6, 7]))
    show(desk, "01's rows, listed", Case(3, 3, [3, 6, 7], 0b0110))
    show(desk, "two roles of one's own, one of them above", Case(4, 3, [1, 3, 4, 7], 0b0111))
    show(desk, "a fan", Case(*M.antichain(40, 60)))


# ---- what changed -----------------------------------------------------------------------------------------------

def with_old(desk, name, case, standing, make=Desk.computed):
    """The part of the page on what changed since another standing set."""
    old = Case(case.n, case.m, case.rows, standing, case.names)
    desk.put(case.crew_text(), names_text(case.names))
    desk.old.write_text(old.listing(), encoding="ascii")
    return old, check_page(name, case, make(desk, name, case.listing(), desk.old))["changes"]


def role_changes(case, old, k):
    """What became direct and what ceased to be, each in words; nothing of a role that is as before."""
    def parts(part, before, now, show_set):
        for sign, s in (("-", M.less(before[k], now[k])), ("+", M.less(now[k], before[k]))):
            if s:
                yield sign + part, show_set(s)
    return (list(parts("direct", old.direct, case.direct, case.rights)) + list(parts("members", old.members, case.members, case.persons))
            + list(parts("juniors", old.juniors, case.juniors, roles_text)))


def check_changes(name, case, old, section):
    for word, roles, state in (("gone", M.less(old.standing, case.standing), old), ("come", M.less(case.standing, old.standing), case)):
        lines = section.all("li", "data-" + word)
        check("%s: %s" % (name, word), [e.text() for e in lines], [
            "role %d: direct members: %s; roles below: %s; rights: %s"
            % (k, state.persons(state.members[k]), roles_text(state.juniors[k]), state.rights(case.crew.sets[k])) for k in M.items(roles)])
    got = {int(e["data-role"]): [(part["data-change"], part.text().split(": ", 1)[1]) for part in e.all("li", "data-change")]
           for e in section.all("li", "data-role")}
    both = M.items(old.standing & case.standing)
    check(name + ": altered", got, {k: role_changes(case, old, k) for k in both if role_changes(case, old, k)})
    counts = [[e.text() for e in line.parts] for line in section.one("table").one("tbody").all("tr")]
    expected = zip(("roles", "direct members", "direct permissions", "links"), M.counts(old.crew, old.standing), M.counts(case.crew, case.standing))
    qualities = ["quality"] + [str(M.quality_of(state.crew, state.standing, ONES)) for state in (old, case)]
    check(name + ": counts", counts, [list(map(str, row)) for row in expected] + [qualities])


def what_changed(desk):
    case = tour()
    fresh = Case(case.n, case.m, case.rows, None, case.names)
    small = [Case(3, 3, [3, 6, 7], standing) for standing in (0b0111, 0b1110)]
    seen = set()
    for name, now, before, make in (("since mining", case, fresh, Desk.made), ("back to all", fresh, case, Desk.computed),
                                    ("one for another", small[0], small[1], Desk.computed)):
        old, section = with_old(desk, name, now, before.standing, make)
        check_changes(name, now, old, section)
        seen |= {e["data-change"] for e in section.all("li", "data-change")}
    check("every kind of change was seen", seen, {sign + part for sign in "+-" for part in ("direct", "members", "juniors")})
    old, section = with_old(desk, "nothing", case, case.standing)
    check("nothing changed", ("Nothing changed" in section.text(), section.all("ul")), (True, []))
    check("no changes without OLD", "changes" in show(desk, "no OLD", case), False)


# ---- what is refused --------------------------------------------------------------------------------------------

def refusals(desk):
    """By the program: what a user meets."""
    case = tour()
    good, text = case.listing(), case.crew_text()
    desk.put(text, names_text(case.names))
    desk.refused("refused", "no roles: refused with 4: the crew list gives more than 128", "refused,4\n")
    desk.refused("a foreign listing", "not a listing of this crew: line 1: quality 97 should be 98", good.replace(",98\n", ",97\n"))
    desk.old.write_text(Case(3, 3, [3, 6, 7]).listing(), encoding="ascii")
    desk.refused("an OLD of another crew", "the earlier listing: not a listing of this crew", good, desk.old)
    desk.names.write_bytes(b"person,3,\xff\n")
    desk.refused("names not in UTF-8", "it is not text in UTF-8", good)
    ran = subprocess.run([sys.executable, ROOT / "tools/sheet.py", desk.crew, desk.crew], input=b"", capture_output=True, check=False)
    check("a page that is none", (ran.returncode, ran.stderr.startswith(b"usage: "), desk.crew.is_file()), (1, True, True))
    crew = desk.crew.with_suffix(".html")
    crew.write_text(text, encoding="ascii")
    ran = subprocess.run([sys.executable, ROOT / "tools/sheet.py", crew, crew], input=good.encode(), capture_output=True, check=False)
    check("a page over its own crew text", (ran.returncode, b"made from" in ran.stderr, crew.read_text(encoding="ascii")), (1, True, text))


def unreadable(desk):
    case = tour()
    good, text = case.listing(), case.crew_text()
    desk.put(text, names_text(case.names))
    for number, words in ((2, "the number of persons"), (3, "a row has a permission"), (10, "not in the form"), (7, "not a number that")):
        desk.unreadable("refused,%d" % number, words, "refused,%d\n" % number)
    desk.unreadable("nothing printed", "can't read what the lister printed", "")
    desk.unreadable("a listing cut short", "can't read what the lister printed", good[:-40])
    desk.unreadable("a foreign letter", "can't read what the lister printed", good.replace("roles", "rôles"))
    desk.unreadable("no such OLD", "nowhere.txt", good, desk.old.with_name("nowhere.txt"))
    desk.old.write_text(good, encoding="ascii", newline="\r\n")
    desk.unreadable("an OLD with other ends of lines", "the earlier listing: not a listing of this crew: its lines", good, desk.old)
    desk.old.write_text("refused,4\n", encoding="ascii")
    desk.unreadable("a refused OLD", "the earlier listing: no roles: refused with 4", good, desk.old)
    for name, names in (("number", "person,x,Al\n"), ("name", "person,3\n"), ("kind", "persn,3,Al\n"), ("empty line", "person,3,Al\n\n")):
        desk.put(text, names)
        desk.unreadable("names: " + name, "a.names: ", good)
    desk.put(text.replace("\n3,", "\n4,"))
    desk.unreadable("a damaged crew text", "a.crew: line 5 is not person 3", good)
    for name, start, end in (("a mark", "\ufeff", "\n"), ("other ends of lines", "", "\r\n"), ("a letter", "é", "\n")):
        desk.crew.write_text(start + text, encoding="utf-8", newline=end)
        desk.unreadable("a crew text with " + name, "a.crew: it", good)
    desk.crew.unlink()
    desk.unreadable("no crew text", "can't read", good)


def crew_texts(_):
    """Each crew text that 01's form excludes; what is read is what the model reads."""
    good = tour().crew_text()
    check("rows read", read_crew(good).rows, tour().rows)
    for name, text in (("empty", ""), ("head", good.replace("crew,12,40", "crew,012,40")), ("limits", "crew,129,1\n"), ("no persons", "crew,0,3\n"),
                       ("wide", "crew,1,257\n0," + "0" * 65 + "\n"), ("CR", good.replace("\n", "\r\n")), ("more", good + "\n"),
                       ("a letter more", good + "x"), ("short", good[:-12]), ("no end", good[:-1]), ("letters", good.replace("ff", "FF", 1)),
                       ("digits", good.replace("\n8,0", "\n8,")), ("order", good.replace("\n8,", "\n9,")), ("bit at m", "crew,1,3\n0,8\n"),
                       ("too many", M.crew_text(*M.lacking_one(8)).decode("ascii"))):
        check("crew text: " + name, reason(read_crew, text) is not None)


def other_digit(character):
    return "1" if character == "0" else "0"


def foreign_listings(_):
    """Every listing that is not of the crew: each digit changed, lines left out, doubled or swapped, and a standing set that leaves a grant bare."""
    case = tour()
    good = case.listing()
    crew = read_crew(case.crew_text())

    def judged(listing):
        return reason(read_listing, crew, Names(case.names), listing)

    check("the listing itself", judged(good), None)
    lines = good.splitlines(keepends=True)
    head = "roles,%d,%s" % (len(lines) - 2, lines[0].split(",")[2])
    bare = Case(case.n, case.m, case.rows, M.less(case.standing, 1 << 20), case.names).listing()
    taken = [good[:i] + other_digit(good[i]) + good[i + 1:] for i in range(len("roles,"), len(good)) if good[i] not in ",\n"]
    check("each digit counts", [i for i, listing in enumerate(taken) if judged(listing) is None], [])
    for name, listing, words in (
            ("a role left out", head + "".join(lines[1:4] + lines[5:]), "not a listing of this crew"),
            ("a role twice", "".join(lines[:4] + lines[3:4] + lines[5:]), "a role twice"),
            ("two lines swapped", "".join(lines[:3] + lines[4:2:-1] + lines[5:]), "line 4: number 9 should be 5"),
            ("a role too high", good.replace("\n24,", "\n25,"), "the crew gives 25 candidates"),
            ("a digit too many", good.replace("\n24,", "\n24,0"), "line 15: permissions 0ff"),
            ("no last end", good[:-1], "byte 10"), ("CR", good.replace("\n", "\r\n"), "byte 10"), ("a line more", good + "\n", "can't read"),
            ("quality", good.replace(",98\n", ",97\n"), "line 1: quality 97 should be 98"),
            ("another crew", Case(*M.lacking_one(6)).listing(), "not a listing of this crew"),
            ("bare", bare, "no role gives flying supervisor the right to flying harness: limits")):
        check("foreign: " + name, words in (judged(listing) or "") or judged(listing))


def main():
    with tempfile.TemporaryDirectory() as folder:
        for part in (the_tour, the_largest, names_that_bite, small_ones, what_changed, refusals, unreadable, crew_texts, foreign_listings):
            try:
                part(Desk(Path(folder)))
            except Exception as error:  # a page without what is asked for, or none: one failure, and the other parts still run
                check(part.__name__, repr(error), "no error")
    for failure in failures[:20]:
        print(failure)
    print("test_sheet: %d checks, %d failed" % (passed + len(failures), len(failures)))
    sys.exit(1 if failures else 0)


if __name__ == "__main__":
    main()
