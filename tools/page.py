"""The sheet as one page of HTML: every table and list of it, from a building and the names. What is shown is explained on the page itself.

Attributes data-.. say whose a table or a list is, in numbers, for those who read the page by program.
"""
from html import escape
from pathlib import Path

from building import collect, size
from changes import changes
from drawing import drawing
from listing import ACTIONS, Names, items

STYLE = Path(__file__).with_name("sheet.css")
DIRECT, INHERITED = "●", "○"

FRAME = """<!DOCTYPE html>
<html lang="en">
<head>
<meta charset="utf-8">
<meta name="viewport" content="width=device-width, initial-scale=1">
<meta http-equiv="Content-Security-Policy" content="default-src 'none'; style-src 'unsafe-inline'">
<title>%(title)s</title>
<style>
%(style)s</style>
</head>
<body>
<header>
<h1>%(title)s</h1>
%(summary)s
</header>
<main>
%(sections)s
</main>
</body>
</html>
"""


class Page:
    """What all parts of the page are made from; names are escaped here, once."""

    def __init__(self, building, names):
        self.building, self.crew = building, building.crew
        self.names = Names({key: escape(name) for key, name in names.names.items()})

    def person(self, u):
        return '<a href="#person-%d">%s</a>' % (u, self.names.person(u))

    def persons(self, s):
        return ", ".join(map(self.person, items(s))) or "none"

    def role(self, k):
        """A role by its number, leading to its card where it stands."""
        return '<a href="#role-%d">role %d</a>' % (k, k) if k in self.building.sets else "role %d" % k

    def roles(self, s):
        return ", ".join(map(self.role, items(s))) or "none"

    def rights(self, s):
        return "; ".join(self.names.rights(s)) or "none"


def make_page(crew_name, building, names, old):
    """The whole page; old is the building of an earlier listing, or None."""
    page = Page(building, names)
    title = "Roles of the crew in " + escape(crew_name)
    parts = [("changes", "What changed since the earlier listing", changes(page, old))] if old else []
    parts += [("strikes", "Which roles could be struck now", strikes(page)),
              ("rights", "Who may do what, and through which role", who_may(page)),
              ("hierarchy", "The roles in levels", hierarchy(page, names)),
              ("roles", "Role by role", legend("the role") + cards(role_card(page, k) for k in building.roles)),
              ("persons", "Person by person", legend("a direct role of the person") + cards(person_card(page, u) for u in range(page.crew.n)))]
    links = " ".join('<a href="#%s">%s</a>' % part[:2] for part in parts)
    sections = "\n".join('<section id="%s">\n<h2>%s</h2>\n%s\n</section>' % part for part in parts)
    return FRAME % {"title": title, "style": STYLE.read_text(encoding="utf-8"), "sections": sections,
                    "summary": summary(page) + "\n<nav>%s</nav>" % links}


def numbers(s):
    """A set for an attribute."""
    return " ".join(map(str, items(s)))


def summary(page):
    counts = zip(("roles", "direct members", "direct permissions", "links"), page.building.counts())
    return ('<p>%d persons, %d permissions. Quality <b data-count="quality">%d</b>: the sum of %s. A smaller one is a simpler hierarchy.</p>'
            % (page.crew.n, page.crew.m, page.building.quality(),
               ", ".join('<b data-count="%s">%d</b> %s' % (word, count, word) for word, count in counts)))


def cards(made):
    return '<div class="cards">\n%s\n</div>' % ("\n".join(made) or "<p>None.</p>")


def legend(role):
    return ('<p class="legend"><b class="direct">%s</b> direct: %s gives the right itself. <b class="inherited">%s</b> inherited: '
            'a role below it gives the right. An empty field: no right.</p>\n' % (DIRECT, role, INHERITED))


# ---- strikes ----------------------------------------------------------------------------------------------------

def strikes(page):
    building = page.building
    free = collect(k for k in building.roles if not building.sole(k))
    said = ("<p>A role can be struck when other standing roles give the same rights to the same persons, so that nobody loses one. "
            "The others can't be struck now: their cards say what would be lost.</p>")
    if not free:
        return said + '<p data-strikable=""><strong>None.</strong></p>'
    each = ["<li><strong>%s</strong> (direct members: %s; direct rights: %s)</li>"
            % (page.role(k), page.persons(building.members[k]), page.rights(building.direct[k])) for k in items(free)]
    alone = "<p>Each of these by itself: when one is struck, another may become the only one that gives a right. Then make the sheet again.</p>"
    return said + '<ul data-strikable="%s">%s</ul>' % (numbers(free), "".join(each)) + (alone if each[1:] else "")


def verdict(page, k):
    """Whether the role can be struck now; if not, the grants that only it covers, persons with the same ones together."""
    lost = {}
    for u, s in page.building.sole(k).items():
        lost[s] = lost.get(s, 0) | 1 << u
    if not lost:
        return '<p class="free" data-strikable="yes"><strong>Can be struck now.</strong> Other roles give all that it gives.</p>'
    groups = ['<li data-users="%s" data-permissions="%s"><b>%s</b>: %s</li>'
              % (numbers(users), numbers(s), page.persons(users), page.rights(s)) for s, users in lost.items()]
    return '<div class="kept" data-strikable="no"><strong>Can\'t be struck now.</strong> Only this role gives:<ul>%s</ul></div>' % "".join(groups)


# ---- who may ----------------------------------------------------------------------------------------------------

def who_may(page):
    said = "<p>In brackets stands the direct role of the persons through which they have the right; in the last column the roles that give it directly.</p>"
    return said + cards(axis_card(page, a) for a in axes(page.crew.m))


def axes(m):
    return range(-(-m // ACTIONS))


def axis_card(page, a):
    permissions = range(a * ACTIONS, min((a + 1) * ACTIONS, page.crew.m))
    return ('<article class="card"><h3>%s</h3>\n<table class="may"><thead><tr><th scope="col">action</th><th scope="col">who may</th>'
            '<th scope="col">given by</th></tr></thead><tbody>\n%s\n</tbody></table></article>'
            % (page.names.axis(a), "\n".join(permission_row(page, p) for p in permissions)))


def permission_row(page, p):
    """One right: who has it, those with the same own roles together, and the roles that give it directly. Persons are no links here: of
    128 with 256 permissions each there would be too many."""
    building, groups = page.building, {}
    with_it = collect(k for k in building.roles if building.sets[k] >> p & 1)
    for u, own in enumerate(building.own):
        groups[own & with_it] = groups.get(own & with_it, 0) | 1 << u
    who = ["%s (%s)" % (page.names.persons(users), page.roles(through)) for through, users in groups.items() if through]
    by = collect(k for k in building.roles if building.direct[k] >> p & 1)
    return ('<tr data-permission="%d"><th scope="row">%s</th><td>%s</td><td>%s</td></tr>'
            % (p, page.names.action(p % ACTIONS), "; ".join(who) or "nobody", page.roles(by)))


# ---- the hierarchy, roles and persons ---------------------------------------------------------------------------

def hierarchy(page, names):
    said = ("<p>A line leads from a role down to one from which it inherits rights; its members hold that role too. "
            "A dashed box could be struck now. <span>Slide the drawing sideways where it is wider than the screen.</span></p>")
    return said + '<div class="drawing" role="region" aria-label="drawing" tabindex="0">%s</div>' % drawing(page.building, names)


def grid(page, whose, caption, direct, whole, shown):
    """Rights by axis and action; direct and inherited ones have each their sign."""
    crew = page.crew
    columns = range(min(ACTIONS, crew.m))

    def field(p):
        if p >= crew.m:
            return '<td class="no"></td>'
        if not whole >> p & 1:
            return '<td data-permission="%d"></td>' % p
        sign, word = (DIRECT, "direct") if direct >> p & 1 else (INHERITED, "inherited")
        return '<td data-permission="%d" class="%s">%s</td>' % (p, word, sign)

    head = "".join('<th scope="col"><span>%s</span></th>' % page.names.action(i) for i in columns)
    rows = "\n".join('<tr><th scope="row">%s</th>%s</tr>' % (page.names.axis(a), "".join(field(a * ACTIONS + i) for i in columns)) for a in shown)
    return ('<table class="grid" %s><caption>%s</caption><thead><tr><td></td>%s</tr></thead><tbody>\n%s\n</tbody></table>'
            % (whose, caption, head, rows))


def facts(pairs):
    return "<dl>%s</dl>" % "".join("<div><dt>%s</dt><dd%s>%s</dd></div>" % pair for pair in pairs)


def role_card(page, k):
    """A role; its grid has the axes on which it has a right."""
    building, s = page.building, page.building.sets[k]
    direct, inherited = building.members[k], building.users[k] & ~building.members[k]
    further = building.below[k] & ~building.juniors[k]
    below = page.roles(building.juniors[k]) + ("; further down " + page.roles(further) if further else "")
    by = ["%s (%s)" % (page.person(u), page.roles(building.own[u] & building.above[k])) for u in items(inherited)]
    shown = [a for a in axes(page.crew.m) if s >> a * ACTIONS & (1 << ACTIONS) - 1]
    rest = len(axes(page.crew.m)) - len(shown)
    others = "axis" if rest == 1 else "%d axes" % rest
    return "\n".join([
        '<article class="card" id="role-%d" data-role="%d"><h3>Role %d</h3>' % (k, k, k),
        verdict(page, k),
        facts([("Direct members", ' data-direct="%s"' % numbers(direct), page.persons(direct)),
               ("Members by inheritance", ' data-inherited="%s"' % numbers(inherited), ", ".join(by) or "none"),
               ("Roles below", ' data-juniors="%s" data-further="%s"' % (numbers(building.juniors[k]), numbers(further)), below)]),
        grid(page, 'data-role="%d"' % k, "Rights: %d, direct ones: %d" % (size(s), size(building.direct[k])), building.direct[k], s, shown),
        '<p class="rest">No right on the other %s.</p></article>' % others if rest else "</article>"])


def person_card(page, u):
    """A person, with the whole grid."""
    building = page.building
    direct, whole = building.rights(u)
    own, further = building.own[u], building.of_user[u] & ~building.own[u]
    number = " <small>person %d</small>" % u if ("person", u) in page.names.names else ""
    return "\n".join([
        '<article class="card" id="person-%d" data-user="%d"><h3>%s%s</h3>' % (u, u, page.names.person(u), number),
        facts([("Direct roles", ' data-direct="%s"' % numbers(own), page.roles(own)),
               ("Roles by inheritance", ' data-inherited="%s"' % numbers(further), page.roles(further))]),
        grid(page, 'data-user="%d"' % u, "Rights: %d, direct ones: %d" % (size(whole), size(direct)), direct, whole, axes(page.crew.m)),
        "</article>"])
