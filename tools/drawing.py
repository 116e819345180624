"""The hierarchy as a drawing (SVG): roles in levels, seniors above, a line for each link.

A level may have a hundred roles, so it is cut into rows that fit a page. A link that passes rows on its way goes down a lane between
their boxes; all links to one junior share its lanes, so that a row has at most one lane for each junior.
"""
from collections import defaultdict, namedtuple
from html import escape

from listing import items

ROW = 6  # boxes side by side
BOX, LANE, GAP = 124, 6, 12  # the width of a box, of a lane, and the space beside them
HEIGHT, MARGIN, LABEL = 38, 10, 62  # of a box; around the drawing; for the levels' numbers on its left
LONGEST = 18  # letters of a name that fit a box
TURNS = 12

Place = namedtuple("Place", "row role lane")  # the box of a role in a row, or a lane on the way down to that role


def drawing(building, names):
    """The drawing; each box leads to the role's card."""
    seniors = {j: [k for k in building.roles if building.juniors[k] >> j & 1] for j in building.roles}
    levels = find_levels(building.roles, seniors)
    rows = cut_levels(levels)
    routes = lay_lanes(rows, seniors)
    x, y = settle(rows, routes), heights(rows, routes)
    width = max((at + (wide(place) + GAP) / 2 for place, at in x.items()), default=LABEL)
    height = y[-1] + MARGIN
    parts = bands(levels, y, width) + [link(route, x, y) for route in routes]
    parts += [box(building, names, place, x[place], y[place.row]) for row in rows for place in row if not place.lane]
    return ('<svg viewBox="0 0 %d %d" width="%d" height="%d" role="group" aria-label="The hierarchy: seniors above, juniors below">\n%s\n</svg>'
            % (width, height, width, height, "\n".join(parts)))


# ---- levels, rows and lanes -------------------------------------------------------------------------------------

def find_levels(roles, seniors):
    """A role's level is the length of the longest chain down to it; in a level, roles stand in the order of their seniors."""
    level, place, levels = {}, {}, []
    for k in sorted(roles, reverse=True):  # a senior has a higher number
        level[k] = max((level[s] + 1 for s in seniors[k]), default=0)
    for number in range(max(level.values(), default=-1) + 1):
        own = [k for k in roles if level[k] == number]
        own.sort(key=lambda k: mean([place[s] for s in seniors[k]], 0))
        place.update((k, i / len(own)) for i, k in enumerate(own))
        levels.append(own)
    return levels


def rows_for(level):
    return -(-len(level) // ROW)


def cut_levels(levels):
    """Each level in rows of about the same length."""
    rows = []
    for level in levels:
        length = -(-len(level) // rows_for(level))
        for start in range(0, len(level), length):
            rows.append([Place(len(rows), k, False) for k in level[start:start + length]])
    return rows


def lay_lanes(rows, seniors):
    """For each link the places on its way, from senior to junior, one to a row; lanes join the rows that they pass."""
    box_of = {place.role: place for row in rows for place in row}
    routes = []
    for j, above in seniors.items():
        end = box_of[j]
        first = min((box_of[k].row for k in above), default=end.row) + 1
        lanes = [Place(row, j, True) for row in range(first, end.row)]
        for lane in lanes:
            rows[lane.row].append(lane)
        routes += [[box_of[k]] + [lane for lane in lanes if lane.row > box_of[k].row] + [end] for k in above]
    return routes


def steps(routes):
    """The pairs of places in adjoining rows that a line joins, each once: links to one junior share lanes."""
    return {step for route in routes for step in zip(route, route[1:])}


# ---- where each place stands ------------------------------------------------------------------------------------

def mean(numbers, otherwise):
    return sum(numbers) / len(numbers) if numbers else otherwise


def settle(rows, routes):
    """The centre of each place. Rows are gone through down and up again, and each place goes to the mean of those that it is joined to in
    the row before; a row is put in that order."""
    joined = defaultdict(list), defaultdict(list)
    for upper, lower in sorted(steps(routes)):
        joined[0][lower].append(upper)
        joined[1][upper].append(lower)
    room = max((sum(wide(place) + GAP for place in row) for row in rows), default=0)
    x = {place: LABEL + room / 2 for row in rows for place in row}
    for turn in range(TURNS):
        for row in reversed(rows) if turn % 2 else rows:
            wanted = {place: mean([x[other] for other in joined[turn % 2][place]], x[place]) for place in row}
            row.sort(key=wanted.get)
            x.update(spread(row, wanted, room))
    return x


def wide(place):
    return LANE if place.lane else BOX


def spread(row, wanted, room):
    """Centres as near to those wanted as the row's order, its widths and the room allow: places that would overlap become a block, which
    stands at the mean of what its places want."""
    offsets, blocks, end = [], [], LABEL
    for place in row:
        offsets.append(end + (wide(place) + GAP) / 2)
        end += wide(place) + GAP
        blocks.append((wanted[place] - offsets[-1], 1))
        while len(blocks) > 1 and blocks[-2][0] / blocks[-2][1] >= blocks[-1][0] / blocks[-1][1]:
            last, before = blocks.pop(), blocks.pop()
            blocks.append((before[0] + last[0], before[1] + last[1]))
    most = LABEL + room - end  # so far can the row be moved to the right
    starts = [min(max(total / count, 0), most) for total, count in blocks for _ in range(count)]
    return {place: start + offset for place, start, offset in zip(row, starts, offsets)}


def heights(rows, routes):
    """The top of each row, and the foot of the last; the more lines pass between two rows, the more space they have."""
    passing = [0] * len(rows)
    for upper, _ in steps(routes):
        passing[upper.row] += 1
    y = [MARGIN]
    for count in passing:
        y.append(y[-1] + HEIGHT + 18 + min(2 * count, 60))
    return y


# ---- the parts of the drawing -----------------------------------------------------------------------------------

def bands(levels, y, width):
    """A stripe with its number behind each level."""
    parts, row = [], 0
    for number, level in enumerate(levels, 1):
        after = row + rows_for(level)
        parts.append('<rect class="band%d" x="0" y="%d" width="%d" height="%d"/><text class="level" x="6" y="%d">level %d</text>'
                     % (number % 2, y[row] - 8, width, y[after] - y[row], y[row] + HEIGHT / 2 + 4, number))
        row = after
    return parts


def link(route, x, y):
    """One line from the foot of the senior's box to the top of the junior's, straight down in lanes."""
    line = "M%.1f %d" % (x[route[0]], y[route[0].row] + HEIGHT)
    for upper, lower in zip(route, route[1:]):
        top = y[lower.row]
        half = (y[upper.row] + HEIGHT + top) / 2
        line += "C%.1f %.1f %.1f %.1f %.1f %d" % (x[upper], half, x[lower], half, x[lower], top)
        line += "v%d" % HEIGHT if lower.lane else ""
    return '<path d="%s" data-senior="%d" data-junior="%d"/>' % (line, route[0].role, route[-1].role)


def box(building, names, place, x, y):
    """A role by its number and direct members."""
    k = place.role
    return ('<a href="#role-%d"><rect class="%s" x="%.1f" y="%d" width="%d" height="%d" rx="4" data-role="%d"/>'
            '<text x="%.1f" y="%d">role %d</text><text class="who" x="%.1f" y="%d">%s</text></a>'
            % (k, "kept" if building.sole(k) else "free", x - BOX / 2, y, BOX, HEIGHT, k, x, y + 16, k, x, y + 31, escape(who(building, names, k))))


def who(building, names, k):
    """The direct members as far as the box has space."""
    members = items(building.members[k])
    if not members:
        return "no direct member"
    more = " +%d" % (len(members) - 1) if members[1:] else ""
    first = names.person(members[0])
    return (first if len(first + more) <= LONGEST else first[:LONGEST - 1 - len(more)] + "…") + more
