"""Crew lists for tests and timings. Each function gives n, m and the rows; bit p of a row is permission p."""


def lacking_one(n, m=None):
    """User i lacks only permission i. With m = n there are 2^n - 2 candidates, with m above n one more."""
    m = n if m is None else m
    return n, m, [2 ** m - 1 - 2 ** i for i in range(n)]


def _lacking_blocks(blocks):
    """All 256 permissions without some of the first seven blocks of 32; blocks has a bit for each that is lacking."""
    return 2 ** 256 - 1 - sum((2 ** 32 - 1) << 32 * i for i in range(7) if blocks >> i & 1)


def full_table():
    """128 users on 256 permissions with exactly 128 candidates, mined from eight rows that sixteen users hold each:
    seven lack one block, one lacks none, and every choice of lacking blocks is an intersection of them."""
    return 128, 256, [_lacking_blocks((1 << (u % 8)) & 127) for u in range(128)]


def full_table_own():
    """The same 128 candidates, each one the row of one user."""
    return 128, 256, [_lacking_blocks(blocks) for blocks in range(128)]


def nested_chain(n, m):
    """Each row lies within the next and the last has all; n candidates when n is at most m."""
    return n, m, [2 ** ((u + 1) * m // n) - 1 for u in range(n)]


def antichain(n, m):
    """No row within another: each user holds permission 0 and one of their own. For 1 < n < m: n + 1 candidates."""
    return n, m, [1 | 1 << m - 1 - u for u in range(n)]


def random_rows(rng, n, m, share):
    """Each permission is held with the given chance; there may be more than 128 candidates."""
    return n, m, [sum(1 << p for p in range(m) if rng.random() < share) for _ in range(n)]


def random_sparse(rng, n, m):
    return random_rows(rng, n, m, min(0.5, 2.5 / m))


def random_dense(rng, n, m):
    return random_rows(rng, n, m, 0.8)


def duplicate_rows(rng, n, m, kinds=3):
    """Only so many different rows."""
    pool = [rng.randrange(2 ** m) for _ in range(kinds)]
    return n, m, [rng.choice(pool) for _ in range(n)]


def wide(rng, m, n=12, kinds=6):
    """Unions of a few scattered sets, so that candidates differ in high and low words and share either."""
    pool = [sum(1 << p for p in range(m) if rng.random() < 0.15) | 1 << m - 1 - rng.randrange(min(m, 3))
            for _ in range(kinds)]
    rows = []
    for _ in range(n):
        row = 0
        for s in rng.sample(pool, rng.randrange(1, 4)):
            row |= s
        rows.append(row)
    return n, m, rows


def nested_groups(rng, n, m, groups=3):
    """Each user holds the first so many permissions of one or two of these groups, which share the permissions out:
    chains of roles, and the meets of two of them."""
    groups = min(groups, m)
    rows = []
    for _ in range(n):
        row = 0
        for g in rng.sample(range(groups), min(groups, rng.randrange(1, 3))):
            own = range(g, m, groups)
            row |= sum(1 << p for p in own[:rng.randrange(1, len(own) + 1)])
        rows.append(row)
    return n, m, rows


def departments():
    """128 users on 256 permissions, as in a large house: eight departments of sixteen users and four axes, with five ranks; the last two users of
    a department stand in for the next. One user has everything, and one has a few actions on every axis."""
    rows = []
    for u in range(128):
        department, place = divmod(u, 16)
        rank = (0x01, 0x03, 0x07, 0x0f, 0x3f)[min(place // 3, 4)]
        own = sum(rank << 8 * axis for axis in range(4)) << 32 * department
        next_one = 0x03030303 << 32 * ((department + 1) % 8) if place > 13 else 0
        rows.append(own | next_one)
    rows[0], rows[48] = 2 ** 256 - 1, sum(0x67 << 8 * axis for axis in range(32))
    return 128, 256, rows
