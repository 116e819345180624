"""What changed between two listings of one crew, as a part of the sheet.

Both are of the same candidates, so a role is the same role in both where its number is: its permissions and the persons who hold it
are then the same too, and what can change is which of them are direct, and its links.
"""

SAME = "<p>What each person may do is the same before and now, since both listings are of this crew. Roles and the ways to the rights changed.</p>"


def changes(page, old):
    """What changed since the earlier listing, whose building is old."""
    new = page.building
    gone = [k for k in old.roles if k not in new.sets]
    come = [k for k in new.roles if k not in old.sets]
    if not gone and not come:  # the building follows from the roles that stand
        return '<p data-changes="0"><strong>Nothing changed:</strong> the same roles stand, with the same members, rights and links.</p>'
    altered = [item for item in (role_changes(page, old, k) for k in new.roles if k in old.sets) if item]
    return "\n".join(['<div data-changes="%d">' % (len(gone) + len(come)), SAME, counted(old, new),
                      listed("Roles gone", [whole_role(page, old, k, "gone") for k in gone]),
                      listed("Roles come", [whole_role(page, new, k, "come") for k in come]),
                      listed("Roles that stay, with changes", altered), "</div>"])


def counted(old, new):
    words = ("roles", "direct members", "direct permissions", "links", "quality")
    rows = zip(words, old.counts() + [old.quality()], new.counts() + [new.quality()])
    return ('<table class="counts"><thead><tr><td></td><th scope="col">before</th><th scope="col">now</th></tr></thead><tbody>%s</tbody></table>'
            % "".join('<tr><th scope="row">%s</th><td>%d</td><td>%d</td></tr>' % row for row in rows))


def listed(title, each):
    return "<h3>%s</h3>\n" % title + ("<ul>\n%s\n</ul>" % "\n".join(each) if each else "<p>None.</p>")


def whole_role(page, building, k, change):
    """A role that is gone, as it was, or has come."""
    return ('<li data-%s="%d"><strong>%s</strong>: direct members: %s; roles below: %s; rights: %s</li>'
            % (change, k, page.role(k), page.persons(building.members[k]), page.roles(building.juniors[k]), page.rights(building.sets[k])))


def role_changes(page, old, k):
    """What became direct or ceased to be, of a role that stands in both; nothing where nothing did."""
    parts = [part_changes(getattr(old, part)[k], getattr(page.building, part)[k], part, show, ceased, began) for part, show, ceased, began in (
        ("direct", page.rights, "rights that were direct, now inherited", "rights that were inherited, now direct"),
        ("members", page.persons, "persons who were direct members, now by inheritance", "persons who were members by inheritance, now direct"),
        ("juniors", page.roles, "links gone", "links come"))]
    return '<li data-role="%d"><strong>%s</strong><ul>%s</ul></li>' % (k, page.role(k), "".join(parts)) if any(parts) else ""


def part_changes(before, now, part, show, ceased, began):
    """What ceased and what began, each in a line."""
    both = ("-", ceased, before & ~now), ("+", began, now & ~before)
    return "".join('<li data-change="%s%s">%s: %s</li>' % (sign, part, words, show(s)) for sign, words, s in both if s)
