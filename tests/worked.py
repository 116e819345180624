"""The scripts of the programs `test_worked` and `test_written`: the cases of document 01, run in their order, and those of request 1 of 02, with a
title before each."""
import random

import model
from script import MOST_BYTES, Script

FAR = 2 ** 63
FOUR = 1 + 2 ** 64 + 2 ** 128 + 2 ** 192  # permissions 0, 64, 128 and 192
ONES = (1, 1, 1, 1)
ONE, EQUAL, EMPTY, SMALL = (1, 1, [1]), (2, 3, [5, 5]), (3, 4, [0, 0, 0]), (3, 3, [3, 6, 7])


def lacking(n):
    return n, n, [2 ** n - 1 - 2 ** i for i in range(n)]


def wide_lists():
    """Three lists of six rows: the first four have the highest permission, the others lie within them."""
    rng = random.Random("wide rows")
    lists = {}
    for m in (65, 129, 256):
        kinds = [rng.getrandbits(m) | 1 << (m - 1) for _ in range(4)]
        rows = [kinds[i] if i < 4 else kinds[i % 4] & (kinds[(i + 1) % 4] | rng.getrandbits(m)) for i in range(6)]
        lists[m] = 6, m, rows
    return lists


WIDE = wide_lists()
# every choice of lacking permissions among the first seven, and one person who lacks none: exactly 128 candidates
MOST = 8, 8, [255 - 2 ** i for i in range(7)] + [255]
FULL = 128, 256, [FOUR] * 128


class Cases(Script):
    """What the cases have in common."""

    def mined(self, title, crew_list):
        n, m, rows = crew_list
        self.title(title)
        self.mine(n, m, model.crew_words(rows))

    def each_weight(self):
        """Each count by itself, all together, and the greatest weights."""
        for weights in ((1, 0, 0, 0), (0, 1, 0, 0), (0, 0, 1, 0), (0, 0, 0, 1), ONES, (1000,) * 4):
            self.quality(weights)

    def everyone(self, n, m):
        for u in range(n):
            for p in range(m):
                self.may(u, p)

    def both(self):
        """Quality and may."""
        self.quality(ONES)
        self.may(0, 0)

    def written(self, *other):
        """The crew text into as many bytes as it has, into one too few, and into these counts."""
        n, m, rows, _ = model.read_out(self.record)
        length = len(model.crew_text(n, m, rows))
        for count in (length, length - 1, *other):
            self.write(count)

    def changed(self, place, *values, ask=None):
        """The word at a place changed to each of these values, and put back each time; `ask` is what is asked meanwhile, if not both."""
        for value in values:
            kept = self.record[place]
            self.put(place, value)
            (ask or self.both)()
            self.put(place, kept)

    def turned(self, bit, *places):
        """The same bit turned in the word at each of these places, and turned back."""
        for place in places:
            self.changed(place, self.record[place] ^ 1 << bit)

    def become(self, record):
        """The record word by word made into this one."""
        for place, value in enumerate(record):
            if self.record[place] != value:
                self.put(place, value)

    def edited(self):
        """Each call that edits, once."""
        self.strike(0)
        self.restore(0)
        self.eliminate(ONES, 1, 1)
        self.review(ONES)


def mining(cases):
    """The cases of document 01, lists at its limits and lists wider than a word. The record is not cleared between them, so that a refusal shows
    that it was left as it was."""
    for title, crew_list in (("One person, row 1", ONE), ("Two equal rows", EQUAL), ("All rows empty", EMPTY), ("Rows 3, 6, 7", SMALL),
                             ("7 persons, m = 7, person i lacking only permission i", lacking(7)), ("8 and 8 likewise", lacking(8)),
                             ("n = 128, m = 256", FULL), ("n = 129", (129, 256, [FOUR] * 129)), ("n = 0", (0, 3, [])),
                             ("m = 256, the last permission", (2, 256, [2 ** 255, 2 ** 255 + 1])), ("m = 257", (2, 257, [1, 2])),
                             ("m = 0", (1, 0, [0])), ("Row 8 with m = 3", (1, 3, [8]))):
        cases.mined(title, crew_list)
    cases.title("Three crew words")
    cases.mine(1, 3, [7, 0, 0])
    for title, crew_list in (("A bit at m = 64", (2, 64, [2 ** 63, 2 ** 64])), ("A bit at m = 65", (2, 65, [2 ** 64, 2 ** 65])),
                             ("Rows of two words", WIDE[65]), ("Rows of three words", WIDE[129]), ("Rows of four words", WIDE[256])):
        cases.mined(title, crew_list)
    for length in (model.LENGTH - 1, model.LENGTH + 1, 0):
        cases.lend(length)
        cases.mined("A record of %d words" % length, ONE)
    cases.lend(model.LENGTH)


def asking(cases):
    """Quality by each count and at the limits of a weight; may for all of a list, and at the limits of u and p."""
    for title, crew_list in (("One person: quality and rights", ONE), ("Two equal rows: quality and rights", EQUAL),
                             ("All rows empty: quality and rights", EMPTY), ("Rows 3, 6, 7: quality and rights", SMALL)):
        cases.mined(title, crew_list)
        cases.each_weight()
        cases.everyone(*crew_list[:2])
    cases.title("Weights and persons past the limits")
    for weights in ((0, 0, 0, 0), (2, 3, 5, 7), (1001, 0, 0, 0), (0, 1001, 0, 0), (0, 0, 1001, 0), (0, 0, 0, 1001), (FAR, 1, 1, 1),
                    (1, 1, 1, 2 ** 64 - 1)):
        cases.quality(weights)
    for u, p in ((2, 2), (3, 2), (2, 3), (3, 3), (FAR, 0), (0, FAR), (2 ** 32, 0), (0, 2 ** 64 - 1)):
        cases.may(u, p)
    for title, crew_list in (("126 candidates: quality and rights", lacking(7)), ("128 candidates: quality and rights", MOST),
                             ("Rows of two words: quality and rights", WIDE[65]), ("Rows of three words: quality and rights", WIDE[129])):
        cases.mined(title, crew_list)
        cases.each_weight()
        cases.everyone(*crew_list[:2])
    cases.mined("n = 128, m = 256: quality, the last person and the last permission", FULL)
    cases.each_weight()
    for u, p in ((127, 192), (127, 255), (0, 64), (0, 63), (128, 0), (0, 256)):
        cases.may(u, p)


def damaging(cases):
    """One word of a record changed, in each region and at each limit of the header."""
    cases.mined("Rows 3, 6, 7 with one word changed", SMALL)
    cases.both()
    cases.changed(0, 0, 1, 2, 4, 128, 129, 2 ** 32 + 3, FAR, FAR + 3, 2 ** 64 - 1)
    cases.changed(1, 0, 1, 2, 4, 256, 257, 2 ** 32 + 3, FAR, FAR + 3, 2 ** 64 - 1)
    cases.changed(2, 0, 3, 5, 128, 2 ** 32 + 4, FAR)
    cases.turned(0, 3, 4, 5, 6, 7, 9, 16, 20, 516, 520, 536, 1028, 1044, 1048, 1540, 1544, 1552, 1798, 1800, 1808, 2054)
    cases.turned(63, 3, 4, 5, 6, 7, 11, 19, 23, 519, 523, 1031, 1035, 1543, 1545, 1799, 1801, 2055)
    cases.turned(3, 4, 8)
    cases.turned(4, 4)
    cases.turned(2, 8, 532, 1550)
    cases.turned(1, 1032, 1806)
    cases.title("5 before 6 and 9")
    cases.put(7, 1)
    cases.quality((1001, 0, 0, 0))
    cases.may(3, 3)
    cases.put(7, 0)
    cases.both()
    cases.mined("126 candidates with one word changed: c, and the roles at c and above", lacking(7))
    cases.changed(2, 125, 127)
    for bit in (61, 62, 63):
        cases.turned(bit, 5)
    cases.turned(0, 1024)
    cases.both()
    cases.mined("128 candidates with one word changed: c, and the last role's set and row", MOST)
    cases.changed(2, 127, 129)
    cases.turned(0, 1028, 1540, 1798)
    cases.turned(63, 5)
    cases.turned(62, 2055)
    cases.both()
    cases.mined("n = 128, m = 256 with one word changed", FULL)
    cases.changed(0, 127, 129)
    cases.changed(1, 192, 193, 257)
    cases.turned(0, 519)
    cases.turned(63, 1545)
    cases.mined("Rows of three words with one word changed: permission 128 is the last", WIDE[129])
    cases.changed(1, 128, 130)
    cases.turned(0, 10, 11, 522, 1034)
    cases.turned(1, 10)
    cases.mined("All rows empty with one word changed: only the limits decide, and there is no role", EMPTY)
    cases.changed(0, 0, 1, 128, 129)
    cases.changed(1, 0, 1, 256, 257)
    cases.changed(2, 1)
    cases.turned(0, 4, 8, 1544)
    cases.both()


def lengths(cases):
    """A sound record of which too little is lent, or a word too much: 1 comes before the other refusals."""
    cases.mined("Rows 3, 6, 7, too little lent, or a word too much", SMALL)
    for length in (model.LENGTH, model.LENGTH - 1, 0, model.LENGTH + 1):
        cases.lend(length)
        cases.both()
    cases.quality((1001, 0, 0, 0))
    cases.may(3, 3)
    cases.lend(model.LENGTH)


def standing_sets(cases):
    """Rows 3, 6, 7 built afresh with other standing sets; the last three leave a grant bare, which is 5."""
    n, m, rows = SMALL
    cases.mined("Rows 3, 6, 7 with other standing sets", SMALL)
    for standing in ({1, 2, 3}, {1, 2}, {0, 1, 2}, {0, 2, 3}, {3}, set()):
        cases.title("Standing: " + (" ".join(map(str, sorted(standing))) or "none"))
        cases.become(model.build(n, m, rows, model.collect(standing)))
        cases.quality(ONES)
        cases.everyone(n, m)


def editing(cases):
    """The calls that edit: the rehearsal list, the limits of what they take, other lists, and records that do not fit."""
    cases.mined("Rows 3, 6, 7: strike 0, then 3, and back in the other order", SMALL)
    cases.strike(0)
    cases.quality(ONES)
    cases.strike(3)
    cases.quality(ONES)
    cases.restore(3)
    cases.restore(0)
    cases.quality(ONES)
    cases.title("Refused: 8, 7, 6")
    cases.strike(1)
    cases.restore(0)
    cases.strike(4)
    cases.restore(4)
    for k in (0, 0, FAR):
        cases.strike(k)
    cases.restore(2 ** 32)
    cases.strike(128)
    cases.restore(0)
    cases.title("Eliminate 1/1, and review after that")
    cases.eliminate(ONES, 1, 1)
    cases.review(ONES)
    cases.mined("Rows 3, 6, 7: weights and tolerances at and past their limits", SMALL)
    for w, a, b in ((1, 0, 1), (1, 3, 1), (1, 0, 0), (1, 1001, 1001), (1001, 1, 1), (1, 2001, 1000), (1, 1, FAR)):
        cases.eliminate((w, 1, 1, 1), a, b)
    cases.review((1, 1001, 1, 1))
    cases.eliminate(ONES, 2000, 1000)
    cases.review((1, 1000, 1, 1))
    cases.mined("One person, row 1: strike 0 is 8", ONE)
    cases.strike(0)
    cases.mined("All rows empty: nothing to strike", EMPTY)
    cases.strike(0)
    cases.eliminate(ONES, 1, 1)
    cases.review(ONES)
    cases.mined("126 candidates", lacking(7))
    cases.strike(0)
    cases.strike(125)
    cases.eliminate(ONES, 1, 1)
    cases.review((1, 0, 1, 1))
    cases.quality(ONES)
    cases.mined("A record of zeros", ONE)
    cases.become([0] * model.LENGTH)
    cases.edited()
    cases.lend(model.LENGTH + 1)
    cases.put(model.LENGTH, 0)
    cases.edited()
    cases.lend(model.LENGTH)


def reading(cases):
    """The reader's limits of n and m, a digit with a bit at m, and each fault of form once."""
    everyone = b"".join(b"%d,%d\n" % (u, u < 127) for u in range(128))
    limits = [b"crew,128,1\n" + everyone, b"crew,129,1\n", b"crew,0,1\n", b"crew,1,256\n0,8" + b"0" * 62 + b"1\n", b"crew,1,257\n", b"crew,1,0\n",
              b"crew,1,3\n0,7\n", b"crew,1,3\n0,8\n", b"crew,3,3\n0,3\n1,6\n2,7\n", b"crew,2,5\n0,1f\n1,20\n"]
    headers = [b"", b"Crew,1,3\n0,7\n", b"crew;1,3\n0,7\n", b"crew,,3\n0,7\n", b"crew,01,3\n0,7\n", b"crew,1000,3\n0,7\n", b"crew,1;3\n0,7\n",
               b"crew,1,3 \n0,7\n", b"crew,1,3", b"crew,0,3;"]
    rows = [b"crew,1,3\n", b"crew,1,3\n1,7\n", b"crew,1,3\n00,7\n", b"crew,1,3\n0;7\n", b"crew,1,4\n0,A\n", b"crew,1,3\n0,\n",
            b"crew,1,3\n0,07\n", b"crew,1,3\n0,7", b"crew,1,3\n0,7;", b"crew,1,3\n0,7\n\n", b"crew,1,3\n0,8;"]
    for title, texts in (("Crew texts: n and m at and past their limits, row digit 8 with m = 3", limits), ("Crew texts: faults of the header", headers),
                         ("Crew texts: faults of a row, and bytes after the last", rows)):
        cases.title(title)
        for text in texts:
            cases.read(text)
    cases.title("A buffer of 511 words, before the text is looked at")
    cases.read(b"crew,1,0\n", model.BUFFER - 1)


def writing(cases):
    """Document 02's request 1: lent bytes that are just enough, too few and more; what stands makes no difference; 1 before 5 before 11; the
    longest text; and where decimals and sets get a digit more."""
    cases.mined("Rows 3, 6, 7, written back", SMALL)
    cases.written(0, 1, 22, 64, model.LONGEST_WRITTEN, MOST_BYTES)
    cases.title("The same text after strikes, restorations, elimination and review")
    for edit in (lambda: cases.strike(0), lambda: cases.strike(3), lambda: cases.restore(3), lambda: cases.restore(0),
                 lambda: cases.eliminate(ONES, 1, 1), lambda: cases.review(ONES), lambda: cases.strike(1)):
        edit()
        cases.written()
    cases.title("One word changed to another list that is sound: a user more, more permissions")
    cases.changed(0, 4, 11, 128, ask=cases.written)
    cases.changed(1, 4, 5, 256, ask=cases.written)

    def ask():
        for count in (20, 64):
            cases.write(count)

    cases.title("One word changed: 5 before 11")
    cases.changed(0, 0, 2, 129, FAR + 3, ask=ask)
    cases.changed(1, 0, 2, 257, FAR + 3, ask=ask)
    cases.changed(2, 3, 5, ask=ask)
    for bit, place in ((0, 3), (0, 4), (63, 7), (2, 8), (0, 9), (63, 519), (0, 520), (1, 1036), (0, 1546), (63, 2055)):
        cases.changed(place, cases.record[place] ^ 1 << bit, ask=ask)
    cases.title("Too little of the record lent, or a word too much: 1 before 5 and 11")
    for value in (0, 1):
        cases.put(3, value)
        for length in (model.LENGTH - 1, model.LENGTH + 1, 0, model.LENGTH):
            cases.lend(length)
            ask()
    cases.put(3, 0)
    cases.written()
    cases.mined("n = 128, m = 256, written back", (128, 256, [WIDE[256][2][u % 6] for u in range(128)]))
    cases.written(0, MOST_BYTES)
    cases.mined("All rows empty, written back", EMPTY)
    cases.written()
    for n in (9, 10, 11, 100, 101):
        cases.mined("n = %d, written back" % n, (n, 3, [(5 * u + 3) % 8 for u in range(n)]))
        cases.written(MOST_BYTES)
    for m in (1, 4, 5, 64, 65, 128, 129, 256):
        # the last permission by itself and with the first, and every digit
        rows = [1 << m - 1, 1 << m - 1 | 1] + [int(every * 4, 16) % 2 ** m for every in ("0123456789abcdef", "fedcba9876543210")]
        cases.mined("m = %d, written back" % m, (4, m, rows))
        cases.written(300)


def run(*parts):
    cases = Cases()
    for part in parts:
        part(cases)
    return cases


def files():
    """Of `test_worked`."""
    return run(mining, asking, damaging, lengths, standing_sets, editing, reading).files()


def written():
    """The first part of `test_written`, as a script to go on with."""
    return run(writing)
