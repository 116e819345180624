"""Search for guards: small crew lists with calls on which the right machine and a wrong one answer differently.

The machine here is a second one, written apart from model.py over Python's own sets, with a switch for each wrong
reading; the empty switch is the right machine. Crew lists are small (candidates are taken from all groups of users).
`python3 tests/find_guards.py [seconds [seed [word]]]` prints the smallest guard it finds for each wrong reading (with
the word in its name), once for tolerance 1/1 and once for any. Redundancy over the worklist is rare: give it some
minutes and its own run. What was found and kept is in guards.py.
"""
import random
import sys
import time
from itertools import combinations, combinations_with_replacement, product

AT_EQUAL = "struck at b*q' = a*q"
TIES_HIGH = "ties by higher number"
ALL_STANDING = "redundancy over all standing roles"
OVER_WORKLIST = "redundancy over the worklist"
ORDERED_ANEW = "ordered anew inside a pass"
REVIEW_EQUAL = "restored at q' = q"
OWN_COVER = "a role covers its own grants in the strike test"
OWN_DROPPED = "users' own sets dropped from the candidates"
TWO_BELOW = "a member left direct two links below"
LINK_KEPT = "the link that skips a restored role is kept"
WORKLIST_ANEW = "worklist begun anew in each pass"
ONE_PASS = "elimination in one pass"
START_QUALITY = "q stays that of the start"
LOWEST_QUALITY = "q is the lowest stood in, as request 6 will have it"
REVIEW_ONCE = "review in one pass"
WRONG = [AT_EQUAL, TIES_HIGH, ALL_STANDING, OVER_WORKLIST, ORDERED_ANEW, REVIEW_EQUAL, OWN_COVER, OWN_DROPPED,
         TWO_BELOW, LINK_KEPT, WORKLIST_ANEW, ONE_PASS, START_QUALITY, LOWEST_QUALITY,
         REVIEW_ONCE]


def number(items):
    return sum(2 ** i for i in items)


def kept(function):
    """Remember the answers for this crew list: the search asks for the same standing sets again and again."""
    def asked(self, *question):
        key = (function.__name__,) + question
        if key not in self.memory:
            self.memory[key] = function(self, *question)
        return self.memory[key]
    return asked


class Machine:
    def __init__(self, m, rows, wrong=""):
        self.wrong, self.memory = wrong, {}
        self.rows = [frozenset(p for p in range(m) if row >> p & 1) for row in rows]
        groups = [group for count in range(1, len(rows) + 1) for group in combinations(self.rows, count)]
        if wrong == OWN_DROPPED:  # figure 1 of 003 meets different rows only, and loses the rows themselves
            different = sorted(set(self.rows), key=number)
            groups = [group for count in range(2, len(different) + 1) for group in combinations(different, count)]
        meets = {frozenset.intersection(*group) for group in groups} - {frozenset()}
        self.sets = sorted(meets, key=number)
        self.roles = frozenset(range(len(self.sets)))
        self.users = [frozenset(u for u, row in enumerate(self.rows) if s <= row) for s in self.sets]
        self.covers = [frozenset(product(self.users[k], self.sets[k])) for k in self.roles]
        self.start()

    def start(self):
        self.standing = self.roles
        self.extra = frozenset()  # links that only the machine with LINK_KEPT holds on to

    @kept
    def links(self, standing):
        pairs = {(k, j) for k in standing for j in standing if self.sets[j] < self.sets[k]}
        return frozenset((k, j) for k, j in pairs if not any((k, i) in pairs and (i, j) in pairs for i in standing))

    @kept
    def members(self, standing):
        direct = {}
        for k in sorted(standing, reverse=True):  # a role's seniors have higher numbers
            direct[k] = self.users[k]
            for s in standing:
                if self.sets[k] < self.sets[s]:
                    if self.wrong != TWO_BELOW:
                        direct[k] = direct[k] - self.users[s]
                    elif (s, k) in self.links(standing):  # takes away only who is direct one link above
                        direct[k] = direct[k] - direct[s]
        return sum(map(len, direct.values()))

    @kept
    def permissions(self, standing):
        return sum(len(self.sets[k].difference(*(self.sets[j] for j in standing if self.sets[j] < self.sets[k])))
                   for k in standing)

    def quality(self, state, weights):
        standing, extra = state
        parts = (len(standing), self.members(standing), self.permissions(standing),
                 len(self.links(standing) | extra))
        return sum(w * part for w, part in zip(weights, parts))

    @kept
    def strikable(self, standing, k):
        others = standing if self.wrong == OWN_COVER else standing - {k}
        return k in standing and self.covers[k] <= frozenset().union(*(self.covers[j] for j in others))

    @kept
    def redundancy(self, counted, k):
        return min(sum(grant in self.covers[j] for j in counted) for grant in self.covers[k])

    def without(self, state, k):
        standing, extra = state
        return standing - {k}, frozenset(link for link in extra if k not in link)

    def joined(self, state, k):
        standing, extra = state
        if self.wrong == LINK_KEPT:
            extra = (extra | self.links(standing)) - self.links(standing | {k})
        return standing | {k}, extra

    def eliminate(self, state, weights, a, b):
        struck = taken = 0
        worklist = {k for k in state[0] if self.strikable(state[0], k)}
        start = lowest = self.quality(state, weights)
        again = True
        while worklist and again:
            again = False
            if self.wrong == WORKLIST_ANEW:
                worklist = {k for k in state[0] if self.strikable(state[0], k)}
            waiting, order = set(worklist), None
            while waiting:
                if order is None or self.wrong == ORDERED_ANEW:
                    counted = frozenset(k for k in state[0] if self.strikable(state[0], k))
                    if self.wrong == ALL_STANDING:
                        counted = state[0]
                    if self.wrong == OVER_WORKLIST:
                        counted = frozenset(worklist)
                    order = {k: (-self.redundancy(counted, k), -k if self.wrong == TIES_HIGH else k) for k in waiting}
                k = min(waiting, key=order.get)
                waiting.remove(k)
                taken += 1
                if not self.strikable(state[0], k):
                    worklist.remove(k)
                    continue
                after = self.without(state, k)
                q = {START_QUALITY: start, LOWEST_QUALITY: lowest}.get(self.wrong, self.quality(state, weights))
                gain = a * q - b * self.quality(after, weights)
                if gain > 0 or self.wrong == AT_EQUAL and gain == 0:
                    state = after
                    lowest = min(lowest, self.quality(state, weights))
                    worklist.remove(k)
                    struck += 1
                    again = self.wrong != ONE_PASS
        return (0, struck, taken), state

    def review(self, state, weights):
        restored = taken = 0
        again = True
        while again:
            again = False
            for k in sorted(self.roles - state[0]):
                taken += 1
                after = self.joined(state, k)
                gain = self.quality(state, weights) - self.quality(after, weights)
                if gain > 0 or self.wrong == REVIEW_EQUAL and gain == 0:
                    state = after
                    restored += 1
                    again = self.wrong != REVIEW_ONCE
        return (0, restored, taken), state

    def call(self, kind, *numbers):
        state = self.standing, self.extra
        if kind == "mine":
            answer = (0, len(self.roles))
        elif kind == "quality":
            answer = (0, self.quality(state, *numbers))
        elif kind == "eliminate":
            answer, state = self.eliminate(state, *numbers)
        elif kind == "review":
            answer, state = self.review(state, *numbers)
        else:
            k = numbers[0]
            if k not in self.roles:
                answer = (6,)
            elif (k in self.standing) != (kind == "strike"):
                answer = (7,)
            elif kind == "strike" and not self.strikable(self.standing, k):
                answer = (8,)
            else:
                answer = (0,)
                state = (self.without if kind == "strike" else self.joined)(state, k)
        self.standing, self.extra = state
        return answer

    def run(self, calls):
        """Every answer, and the standing set at the end as a number."""
        self.start()
        return [self.call(*call) for call in calls], number(self.standing)


def scripts(machine, wrong, rng, weights, a, b):
    """Lists of calls that could tell this wrong machine; machine is the right one."""
    eliminate, review = ("eliminate", weights, a, b), ("review", weights)
    able = [k for k in sorted(machine.roles) if machine.strikable(machine.roles, k)]
    if wrong in (REVIEW_EQUAL, REVIEW_ONCE):
        for count in range(1, min(4, len(able)) + 1):
            strikes = [("strike", k) for k in rng.sample(able, count)]
            if all(answer == (0,) for answer in machine.run(strikes)[0]):
                yield strikes + [review]
        yield [eliminate, review]
    elif wrong == LINK_KEPT:
        for k in able:
            yield [("strike", k), ("restore", k), ("quality", weights)]
    else:
        yield [eliminate]


def cost(m, rows, c, calls):
    """Fewer users, permissions and candidates first, then fewer calls and smaller numbers."""
    flat = [x for call in calls for part in call[1:] for x in (part if isinstance(part, tuple) else (part,))]
    return len(rows) + m + c, c, len(calls), sum(flat), sum(rows)


TOLERANCES = [(2, 1), (3, 2), (4, 3), (5, 4), (6, 5), (9, 8), (11, 10)]


def differ(m, rows, wrong, calls):
    return Machine(m, rows).run(calls) != Machine(m, rows, wrong).run(calls)


def smaller(m, rows, wrong, calls):
    """Drop users, permissions and single grants, and lower weights, as long as the two machines still differ."""
    def simpler():
        for u in range(len(rows)):
            if len(rows) > 1:
                yield m, rows[:u] + rows[u + 1:], calls
        for p in range(m):
            if m > 1:
                yield m - 1, [row & 2 ** p - 1 | row >> p + 1 << p for row in rows], calls
        for u in range(len(rows)):
            for p in range(m):
                if rows[u] >> p & 1:
                    yield m, rows[:u] + [rows[u] - 2 ** p] + rows[u + 1:], calls
        for i in range(4):
            yield m, rows, [tuple(tuple(max(0, w - (i == j)) for j, w in enumerate(part))
                                  if isinstance(part, tuple) else part for part in call) for call in calls]
    again = True
    while again:
        again = False
        before = cost(m, rows, len(Machine(m, rows).roles), calls)
        for new_m, new_rows, new_calls in simpler():
            if not any(new_rows):
                continue
            if (cost(new_m, new_rows, len(Machine(new_m, new_rows).roles), new_calls) < before
                    and differ(new_m, new_rows, wrong, new_calls)):
                m, rows, calls, again = new_m, new_rows, new_calls, True
                break
    return m, rows, calls


def small_lists(most):
    """All crew lists of nonempty rows that use every permission, smallest n + m first."""
    for total in range(2, most + 1):
        for n in range(1, total):
            m = total - n
            if n <= 6 and m <= 6:
                for rows in combinations_with_replacement(range(1, 2 ** m), n):
                    if number(set(p for row in rows for p in range(m) if row >> p & 1)) == 2 ** m - 1:
                        yield m, list(rows)


def search(wrongs, seconds, seed, most_small=7):
    rng = random.Random(seed)
    best = {}

    def offer(wrong, m, rows, calls):
        size = cost(m, rows, len(Machine(m, rows).roles), calls)
        a_b = {call[2:] for call in calls if call[0] == "eliminate"}
        for group in ("1/1", "any") if a_b <= {(1, 1)} else ("any",):
            if (wrong, group) not in best or size < best[wrong, group][0]:
                best[wrong, group] = size, m, rows, calls

    def attempt(m, rows, chosen, tries):
        right = Machine(m, rows)
        if len(right.roles) > 40:
            return
        machines = {wrong: Machine(m, rows, wrong) for wrong in chosen}
        for _ in range(tries):
            weights = tuple(rng.choice((0, 0, 1, 1, 2, 3, 4, 5)) for _ in range(4))
            a, b = rng.choice(TOLERANCES) if rng.random() < 0.5 else (1, 1)
            for wrong in chosen:
                for calls in scripts(right, wrong, rng, weights, a, b):
                    if right.run(calls) != machines[wrong].run(calls):
                        offer(wrong, *smaller(m, rows, wrong, calls))

    end = time.time() + seconds / 3
    for m, rows in small_lists(most_small):
        if time.time() > end:
            break
        attempt(m, rows, [w for w in wrongs if (w, "1/1") not in best or len(rows) + m <= 5], 20)
    end = time.time() + seconds * 2 / 3
    while time.time() < end:
        n, m = rng.randrange(2, 7), rng.randrange(2, 7)
        share = rng.choice((0.3, 0.5, 0.7))
        rows = [number(p for p in range(m) if rng.random() < share) or 1 for _ in range(n)]
        hard = [w for w in wrongs if best.get((w, "1/1"), [(99,)])[0][0] > 7]
        attempt(m, rows, hard, 12)
    return best


def main():
    seconds = float(sys.argv[1]) if len(sys.argv) > 1 else 60
    seed = int(sys.argv[2]) if len(sys.argv) > 2 else 1
    wrongs = [wrong for wrong in WRONG if len(sys.argv) <= 3 or sys.argv[3] in wrong]
    best = search(wrongs, seconds, seed)
    for wrong in wrongs:
        for group in ("1/1", "any"):
            if (wrong, group) not in best:
                print("%s, %s: none found" % (wrong, group))
                continue
            size, m, rows, calls = best[wrong, group]
            print("%s, %s: m=%d rows=%s c=%d calls=%s right=%s wrong=%s" % (
                wrong, group, m, rows, len(Machine(m, rows).roles), calls,
                Machine(m, rows).run(calls), Machine(m, rows, wrong).run(calls)))


if __name__ == "__main__":
    main()
