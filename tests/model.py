"""The role panel as document 01 defines it, and document 02 where a request has landed, written out in plain Python.

Slow and literal on purpose: the expected output of every test program comes from here, so each function stands
for a sentence of document 01, or of 02 where that is said, given beside it in single quotes.
A set is a whole number whose bit i says whether item i is in it; sets then compare as document 01 numbers them.
A call gives back its number first (0 is acceptance), then its results, then the lent buffer as it leaves it.
"""
import random
import re
from functools import lru_cache

from crews import (antichain, duplicate_rows, full_table, full_table_own, lacking_one, nested_chain, random_dense,
                   random_rows, random_sparse, wide)

# 'The record is lent as 2,056 words of 64 bits', and where its parts start
LENGTH = 2056
CREW, SETS, PERMISSIONS, MEMBERS, JUNIORS = 8, 520, 1032, 1544, 1800
MOST_USERS, MOST_PERMISSIONS, MOST_ROLES = 128, 256, 128
BUFFER, LONGEST_TEXT = 512, 16384
LONGEST_WRITTEN = 8735  # bytes of the crew text of 128 users and 256 permissions; no record has a longer one


# ---- sets -----------------------------------------------------------------------------------------------------

def collect(members):
    """The set of these items."""
    return sum(1 << i for i in set(members))


def items(s):
    """The items of a set, growing."""
    return [i for i in range(s.bit_length()) if s >> i & 1]


def size(s):
    """The number of items in a set."""
    return bin(s).count("1")


def within(a, b):
    return a & b == a


def properly_within(a, b):
    return within(a, b) and a != b


def less(a, b):
    """The items of a that are not in b."""
    return a & ~b


def to_words(s, count):
    """'A set is held with item i as bit i mod 64 of its word i / 64, bit 0 lowest.'"""
    return [s >> 64 * i & 2 ** 64 - 1 for i in range(count)]


def from_words(words):
    return sum(w << 64 * i for i, w in enumerate(words))


# ---- mining and the building ----------------------------------------------------------------------------------

def candidates(rows, most=MOST_ROLES):
    """'All nonempty intersections of one or more persons' crew rows, each distinct set once, numbered by growing
    value'. None when there are more than `most`, 128; fewer rows never give more, so it may stop there."""
    found = set()
    for row in rows:
        found |= {row} | {row & other for other in found}
        found.discard(0)  # an empty intersection stays empty whatever joins it
        if len(found) > most:
            return None
    return sorted(found)


class Crew:
    """A crew list that can be mined, and what follows from it whatever stands."""

    def __init__(self, n, m, rows):
        self.n, self.m, self.rows = n, m, list(rows)
        self.sets = candidates(rows)
        self.c = len(self.sets)
        roles = range(self.c)
        # 'A(k) is the set of persons whose crew row contains S(k).'
        self.users = [collect(u for u in range(n) if within(s, rows[u])) for s in self.sets]
        # 'Role k is senior to j [..] when S(k) properly contains S(j)', over all candidates
        self.below = [collect(j for j in roles if properly_within(self.sets[j], self.sets[k])) for k in roles]
        self.above = [collect(j for j in roles if properly_within(self.sets[k], self.sets[j])) for k in roles]
        self.of_user = [collect(k for k in roles if self.users[k] >> u & 1) for u in range(n)]
        self.of_permission = [collect(k for k in roles if self.sets[k] >> p & 1) for p in range(m)]

    def covering(self, u, p):
        """The candidates k that cover the grant: 'u is in A(k) and p in S(k)'."""
        return self.of_user[u] & self.of_permission[p]

    def grants(self):
        """'Each crew grant (u, p), p in the crew row of u'."""
        return ((u, p) for u in range(self.n) for p in items(self.rows[u]))

    def grants_of(self, k):
        """The crew grants that role k covers."""
        return ((u, p) for u in items(self.users[k]) for p in items(self.sets[k] & self.rows[u]))


@lru_cache(maxsize=256)
def _crew(n, m, rows):
    return None if candidates(rows) is None else Crew(n, m, rows)


def crew_of(n, m, rows):
    """The crew list, or None when it has more than 128 candidates. Kept, since calls come back to the same list."""
    return _crew(n, m, tuple(rows))


def everything(crew):
    """'Fresh from mining, R is all candidates.'"""
    return 2 ** crew.c - 1


def building(crew, standing):
    """The building of R: direct permissions, direct members and immediate juniors of each candidate."""
    rows = []
    for k in range(crew.c):
        if not standing >> k & 1:  # 'Roles outside R have zero rows.'
            rows.append((0, 0, 0))
            continue
        juniors = crew.below[k] & standing
        seniors = crew.above[k] & standing
        # 'immediately senior when no third role of R lies strictly between': one below k and above j
        immediate = collect(j for j in items(juniors) if not juniors & crew.above[j])
        permissions = crew.sets[k]
        for j in items(juniors):  # 'S(k) less the sets of all its juniors'
            permissions = less(permissions, crew.sets[j])
        members = crew.users[k]
        for j in items(seniors):  # 'A(k) less A of all its seniors'
            members = less(members, crew.users[j])
        rows.append((permissions, members, immediate))
    return rows


def build(n, m, rows, standing):
    """'Building afresh from a crew list and R' gives these words; the list has at most 128 candidates."""
    crew = crew_of(n, m, rows)
    words = [0] * LENGTH
    words[0], words[1], words[2] = n, m, crew.c
    words[4:6] = to_words(standing, 2)
    for u in range(n):
        words[CREW + 4 * u:CREW + 4 * u + 4] = to_words(rows[u], 4)
    for k, (permissions, members, juniors) in enumerate(building(crew, standing)):
        words[SETS + 4 * k:SETS + 4 * k + 4] = to_words(crew.sets[k], 4)
        words[PERMISSIONS + 4 * k:PERMISSIONS + 4 * k + 4] = to_words(permissions, 4)
        words[MEMBERS + 2 * k:MEMBERS + 2 * k + 2] = to_words(members, 2)
        words[JUNIORS + 2 * k:JUNIORS + 2 * k + 2] = to_words(juniors, 2)
    return words


def in_limits(n, m):
    return 1 <= n <= MOST_USERS and 1 <= m <= MOST_PERMISSIONS


def read_out(words):
    """The crew list and R that a record holds; its header is known to keep the limits."""
    n, m = words[0], words[1]
    rows = [from_words(words[CREW + 4 * u:CREW + 4 * u + 4]) for u in range(n)]
    return n, m, rows, from_words(words[4:6])


def sound(words):
    """'A record is sound when its header and crew rows keep the limits, [..]'; no loop runs by an unjudged header."""
    if len(words) != LENGTH or not in_limits(words[0], words[1]):
        return False
    n, m, rows, standing = read_out(words)
    if any(row >> m for row in rows):
        return False
    crew = crew_of(n, m, rows)
    if crew is None or standing >> crew.c:
        return False
    if list(words) != build(n, m, rows, standing):
        return False
    return all(crew.covering(u, p) & standing for u, p in crew.grants())  # 'each crew grant [..] is covered'


# ---- the plain machine ----------------------------------------------------------------------------------------

def counts(crew, standing):
    """Roles, direct members, direct permissions and links, 'counted over the building'."""
    rows = building(crew, standing)
    return (size(standing),
            sum(size(members) for _, members, _ in rows),
            sum(size(permissions) for permissions, _, _ in rows),
            sum(size(juniors) for _, _, juniors in rows))


def quality_of(crew, standing, weights):
    """'q = w1·(roles) + w2·(direct members) + w3·(direct permissions) + w4·(links)'."""
    return sum(w * number for w, number in zip(weights, counts(crew, standing)))


def strikable(crew, standing, k):
    """'k stands and each grant covered by k is covered by another standing role'; k itself is left out."""
    others = less(standing, 1 << k)
    return bool(standing >> k & 1) and all(crew.covering(u, p) & others for u, p in crew.grants_of(k))


def strikable_roles(crew, standing):
    return collect(k for k in items(standing) if strikable(crew, standing, k))


def redundancy(crew, able, k):
    """'The least, over the grants that k covers, of the number of strikable standing roles covering that grant';
    able is the set of these roles."""
    return min(size(crew.covering(u, p) & able) for u, p in crew.grants_of(k))


def eliminated(crew, standing, weights, a, b):
    """The step Eliminate: the number struck, the number taken up, and R after it."""
    worklist = items(strikable_roles(crew, standing))
    struck = taken = 0
    struck_in_pass_before = True  # the first pass needs only a worklist
    while worklist and struck_in_pass_before:
        struck_in_pass_before = False
        # 'It orders the worklist from the state at its start: larger redundancy first, ties by lower number.'
        able = strikable_roles(crew, standing)
        for k in sorted(worklist, key=lambda role: (-redundancy(crew, able, role), role)):
            taken += 1
            if not strikable(crew, standing, k):
                worklist.remove(k)
                continue
            after = less(standing, 1 << k)
            # 'it is struck and leaves when b·q' < a·q, and otherwise stays'
            if b * quality_of(crew, after, weights) < a * quality_of(crew, standing, weights):
                standing = after
                worklist.remove(k)
                struck += 1
                struck_in_pass_before = True
    return struck, taken, standing


def reviewed(crew, standing, weights):
    """The step Review: the number restored, the number taken up, and R after it."""
    restored = taken = 0
    restored_in_pass = True
    while restored_in_pass:  # 'passes repeat until one restores nothing'
        restored_in_pass = False
        for k in items(less(everything(crew), standing)):
            taken += 1
            after = standing | 1 << k
            if quality_of(crew, after, weights) < quality_of(crew, standing, weights):
                standing = after
                restored += 1
                restored_in_pass = True
    return restored, taken, standing


def weights_in_range(weights):
    return len(weights) == 4 and all(0 <= w <= 1000 for w in weights)


def tolerance_in_range(a, b):
    return 1 <= b <= 1000 and b <= a <= 2 * b


def step(crew, standing, call):
    """The plain machine on its state. A call is ("strike", k), ("restore", k), ("eliminate", weights, a, b) or
    ("review", weights); the answer is the number, the results and R. 'A refused call leaves the state as found.'"""
    kind, numbers = call[0], call[1:]
    if kind in ("strike", "restore"):
        k, = numbers
        if k >= crew.c:
            return 6, (), standing
        if (kind == "strike") != bool(standing >> k & 1):
            return 7, (), standing
        if kind == "restore":
            return 0, (), standing | 1 << k
        if not strikable(crew, standing, k):
            return 8, (), standing
        return 0, (), less(standing, 1 << k)
    if not weights_in_range(numbers[0]) or kind == "eliminate" and not tolerance_in_range(*numbers[1:]):
        return 9, (0, 0), standing
    changed, taken, after = (eliminated if kind == "eliminate" else reviewed)(crew, standing, *numbers)
    return 0, (changed, taken), after


# ---- the calls on a lent record -------------------------------------------------------------------------------

def mine(n, m, crew_words, record):
    """Number, candidates, record. 'Mining writes the whole record, with all candidates standing; its answer is c.'"""
    record = list(record)
    if len(record) != LENGTH:
        return 1, 0, record
    if not in_limits(n, m):
        return 2, 0, record
    if len(crew_words) != 4 * n:
        return 3, 0, record
    rows = [from_words(crew_words[4 * u:4 * u + 4]) for u in range(n)]
    if any(row >> m for row in rows):
        return 3, 0, record
    crew = crew_of(n, m, rows)
    if crew is None:
        return 4, 0, record
    return 0, crew.c, build(n, m, rows, everything(crew))


def refusal(record):
    """What every call on a mined record asks first: 1, then 5."""
    return 1 if len(record) != LENGTH else 0 if sound(record) else 5


def edit(record, call):
    """An editing call: what the machine answers, and the record built afresh from the state it leaves."""
    record = list(record)
    code = refusal(record)
    if code:
        return (code, *(() if call[0] in ("strike", "restore") else (0, 0)), record)
    n, m, rows, standing = read_out(record)
    code, results, after = step(crew_of(n, m, rows), standing, call)
    return (code, *results, record if code else build(n, m, rows, after))


def strike(record, k):
    """Number, record."""
    return edit(record, ("strike", k))


def restore(record, k):
    """Number, record."""
    return edit(record, ("restore", k))


def eliminate(record, weights, a, b):
    """Number, struck, taken up, record."""
    return edit(record, ("eliminate", tuple(weights), a, b))


def review(record, weights):
    """Number, restored, taken up, record."""
    return edit(record, ("review", tuple(weights)))


def quality(record, weights):
    """Number, q, record."""
    record = list(record)
    code = refusal(record) or (0 if weights_in_range(weights) else 9)
    if code:
        return code, 0, record
    n, m, rows, standing = read_out(record)
    return 0, quality_of(crew_of(n, m, rows), standing, weights), record


def row_of(words, k):
    """A role's row as the record holds it: direct permissions, direct members, immediate juniors."""
    return (from_words(words[PERMISSIONS + 4 * k:PERMISSIONS + 4 * k + 4]),
            from_words(words[MEMBERS + 2 * k:MEMBERS + 2 * k + 2]),
            from_words(words[JUNIORS + 2 * k:JUNIORS + 2 * k + 2]))


def may(record, u, p):
    """Number, 0 or 1, record. 'Does some role have u as direct member and, by zero or more links downward, reach a
    role with p direct?' Walked in the record's rows, without a look at the crew list."""
    record = list(record)
    code = refusal(record) or (0 if u < record[0] and p < record[1] else 6)
    if code:
        return code, 0, record
    waiting = [k for k in range(record[2]) if row_of(record, k)[1] >> u & 1]
    reached = set()
    while waiting:
        k = waiting.pop()
        if k not in reached:
            reached.add(k)
            waiting += items(row_of(record, k)[2])
    return 0, int(any(row_of(record, k)[0] >> p & 1 for k in reached)), record


# ---- crew text, lister and handback ---------------------------------------------------------------------------

DECIMAL = rb"(0|[1-9][0-9]{0,2})"  # 'one to three digits and no leading zero; zero is the one digit 0'


def digits(count):
    """'exactly m/4 digits rounded up'."""
    return (count + 3) // 4


def hexadecimal(s, count):
    return format(s, "0%dx" % digits(count))


def crew_text(n, m, rows):
    """'First `crew,n,m`, then n lines `u,h` with u rising from 0, h the crew row in hexadecimal': the one text that the
    reader takes for this crew list."""
    lines = ["crew,%d,%d" % (n, m)] + ["%d,%s" % (u, hexadecimal(rows[u], m)) for u in range(n)]
    return "".join(line + "\n" for line in lines).encode("ascii")


def read_line(text, start):
    """The line from start without its byte 10, and where the next one starts; None when byte 10 is missing."""
    end = text.find(b"\n", start)
    return None if end < 0 else (text[start:end], end + 1)


def read_crew(text, buffer):
    """Number, n, m, buffer. The buffer, then the length, then the lines from the front; 'the first fault counts'."""
    text, buffer = bytes(text), list(buffer)

    def refused(code):
        return code, 0, 0, buffer

    if len(buffer) != BUFFER:
        return refused(3)
    if len(text) > LONGEST_TEXT:
        return refused(10)
    line = read_line(text, 0)
    header = line and re.fullmatch(rb"crew," + DECIMAL + rb"," + DECIMAL, line[0])
    if not header:
        return refused(10)
    n, m = int(header[1]), int(header[2])
    if not in_limits(n, m):
        return refused(2)
    words = []
    for u in range(n):
        line = read_line(text, line[1])
        row = line and re.fullmatch(DECIMAL + rb",([0-9a-f]{%d})" % digits(m), line[0])
        if not row or int(row[1]) != u:
            return refused(10)
        if int(row[2], 16) >> m:
            return refused(3)
        words += to_words(int(row[2], 16), 4)
    if line[1] != len(text):
        return refused(10)
    return 0, n, m, words + [0] * (BUFFER - len(words))


def write_crew(record, buffer):
    """Number, length, buffer, which is a list of bytes. Document 02, job 1: 'a writer from a sound record to the crew
    text', so 1 and 5 come first; 'Refused: 11, the lent buffer is shorter than the text; after 5.'"""
    buffer = list(buffer)
    code = refusal(record)
    if code:
        return code, 0, buffer
    n, m, rows, _ = read_out(record)
    text = list(crew_text(n, m, rows))
    if len(buffer) < len(text):
        return 11, 0, buffer
    # 'Its answer is the length written; bytes beyond it are untouched.'
    return 0, len(text), text + buffer[len(text):]


def mined_text(text):
    """A crew text read and mined: the number of the first refusal, or 0, and the record."""
    code, n, m, words = read_crew(text, [0] * BUFFER)
    record = [0] * LENGTH
    if not code:
        code, _, record = mine(n, m, words[:4 * n], record)
    return code, record


def refused_line(code):
    """'A refusal prints `refused,` and its number.'"""
    return b"refused,%d\n" % code


def handback(text):
    """What the program `handback` prints for this standard input: 'the crew list out of a rack in the form it went in'
    (document 02, job 1), by the three calls that a rack would make; or the first refusal."""
    code, record = mined_text(text)
    if not code:
        code, length, buffer = write_crew(record, [0] * LONGEST_WRITTEN)
    return refused_line(code) if code else bytes(buffer[:length])


def lister(text):
    """What the role lister prints for this standard input."""
    code, record = mined_text(text)
    if code:
        return refused_line(code)
    n, m, c = record[:3]
    ones = (1, 1, 1, 1)
    record = eliminate(record, ones, 1, 1)[-1]
    record = review(record, ones)[-1]
    standing = items(from_words(record[4:6]))
    lines = ["roles,%d,%d" % (len(standing), quality(record, ones)[1])]
    for k in standing:
        permissions, members, juniors = row_of(record, k)
        s = from_words(record[SETS + 4 * k:SETS + 4 * k + 4])
        lines.append("%d,%s,%s,%s,%s" % (k, hexadecimal(s, m), hexadecimal(permissions, m),
                                         hexadecimal(members, n), hexadecimal(juniors, c)))
    return "".join(line + "\n" for line in lines).encode("ascii")


# ---- crew lists (the makers are in crews.py) ------------------------------------------------------------------

def crew_words(rows):
    """The rows as mining is lent them."""
    return [w for row in rows for w in to_words(row, 4)]


def fresh(n, m, rows):
    """The record as mining leaves it; the list has at most 128 candidates."""
    code, _, record = mine(n, m, crew_words(rows), [0] * LENGTH)
    assert code == 0, code
    return record


def mineable(make, seed, *numbers):
    """The first list of this random maker, from this seed on, that has at most 128 candidates."""
    rng = random.Random(seed)
    while True:
        n, m, rows = make(rng, *numbers)
        if candidates(rows) is not None:
            return n, m, rows
