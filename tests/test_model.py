"""Checks of the model: the cases of document 01, of the requests of 02 and of the readings, typed from the papers; the
guards; and laws of document 01 on random crew lists, held against brute force and against the second machine of
find_guards.py.

`python3 tests/test_model.py` prints one line and exits 1 on a failure.
"""
import random
import re
import sys
from functools import reduce
from itertools import combinations
from operator import and_
from pathlib import Path

import crews
import model as M
from find_guards import WRONG, Machine
from guards import GUARDS
from script import MOST_BYTES, START, digest, mixed
from vectors import damaged_texts

ONES = (1, 1, 1, 1)
EMPTY = [0] * 2056
BIG = 2 ** 64 - 1
passed, failures = 0, []


def check(name, got, expected=True):
    global passed
    if got == expected:
        passed += 1
    else:
        failures.append("%s: got %s, expected %s" % (name, str(got)[:200], str(expected)[:200]))


def mined(m, rows):
    return M.fresh(len(rows), m, rows)


def refused(name, answer, code, lent):
    """The number, zeros beside it, and the buffer as lent."""
    check(name, (answer[0], any(answer[1:-1]), answer[-1] == list(lent)), (code, False, True))


# ---- the starred table of document 01 -------------------------------------------------------------------------

def starred_table():
    code, c, record = M.mine(3, 3, [3, 0, 0, 0, 6, 0, 0, 0, 7, 0, 0, 0], EMPTY)
    check("mined", (code, c), (0, 4))
    check("S", [record[520 + 4 * k] for k in range(4)], [2, 3, 6, 7])
    check("q", M.quality(record, ONES)[:2], (0, 14))
    check("immediate juniors", [record[1800 + 2 * k] for k in range(4)], [0, 1, 1, 6])
    check("direct permissions", [record[1032 + 4 * k] for k in range(4)], [2, 1, 4, 0])
    check("direct members", [record[1544 + 2 * k] for k in range(4)], [0, 1, 2, 4])
    words = {0: 3, 1: 3, 2: 4, 4: 15, 8: 3, 12: 6, 16: 7, 520: 2, 524: 3, 528: 6, 532: 7, 1032: 2, 1036: 1, 1040: 4,
             1546: 1, 1548: 2, 1550: 4, 1802: 1, 1804: 1, 1806: 6}
    check("whole record", record, [words.get(i, 0) for i in range(2056)])
    code, after = M.strike(record, 0)
    check("strike 0", (code, M.quality(after, ONES)[1], after[4], after[1036], after[1040]), (0, 12, 14, 3, 6))
    code, after = M.strike(after, 3)
    check("strike 0, then 3", (code, M.quality(after, ONES)[1], after[4]), (0, 10, 6))
    refused("strike 1", M.strike(record, 1), 8, record)
    refused("restore 0 when fresh", M.restore(record, 0), 7, record)
    refused("strike 4", M.strike(record, 4), 6, record)
    refused("strike 0 twice", M.strike(M.strike(record, 0)[1], 0), 7, M.strike(record, 0)[1])
    code, struck, taken, after = M.eliminate(record, ONES, 1, 1)
    check("eliminate 1/1", (code, struck, taken, after[4]), (0, 2, 2, 6))
    code, restored, taken, last = M.review(after, ONES)
    check("review after that", (code, restored, taken, last == after), (0, 0, 2, True))


# ---- the cases without a star ---------------------------------------------------------------------------------

def unstarred_cases():
    one = mined(1, [1])
    refused("one person, strike 0", M.strike(one, 0), 8, one)
    check("two equal rows", M.mine(2, 3, M.crew_words([5, 5]), EMPTY)[:2], (0, 1))
    code, c, none = M.mine(3, 3, [0] * 12, EMPTY)
    check("all rows empty", (code, c, M.quality(none, ONES)[1], M.sound(none)), (0, 0, 0, True))
    refused("strike 0 of none", M.strike(none, 0), 6, none)
    check("eliminate none", M.eliminate(none, ONES, 1, 1)[:3], (0, 0, 0))
    check("review none", M.review(none, ONES)[:3], (0, 0, 0))
    for n, count in ((7, 126), (8, 254)):
        rows = M.lacking_one(n)[2]
        meets = {reduce(and_, chosen) for size in range(1, n + 1) for chosen in combinations(rows, size)}
        check("%d lacking one, as defined" % n, len(meets - {0}), count)
        check("%d lacking one, counted" % n, len(M.candidates(rows, 1000)), count)
    check("7 lacking one", M.mine(7, 7, M.crew_words(M.lacking_one(7)[2]), EMPTY)[:2], (0, 126))
    refused("8 lacking one", M.mine(8, 8, M.crew_words(M.lacking_one(8)[2]), EMPTY), 4, EMPTY)
    check("n = 128", M.mine(128, 3, M.crew_words([1] * 128), EMPTY)[:2], (0, 1))
    refused("n = 129", M.mine(129, 3, M.crew_words([1] * 129), EMPTY), 2, EMPTY)
    check("m = 256", M.mine(1, 256, [0, 0, 0, 2 ** 63], EMPTY)[:2], (0, 1))
    refused("m = 257", M.mine(1, 257, [0, 0, 0, 2 ** 63], EMPTY), 2, EMPTY)
    refused("row 8 with m = 3", M.mine(1, 3, [8, 0, 0, 0], EMPTY), 3, EMPTY)
    check("all weights 0", M.eliminate(mined(3, [3, 6, 7]), (0, 0, 0, 0), 2, 1)[:3], (0, 0, 2))


# ---- refusals, in the order of each call ----------------------------------------------------------------------

def refusals():
    junk = [BIG] * 2056
    short = [7] * 2055
    refused("mine: 1 before 2", M.mine(0, 0, [], short), 1, short)
    refused("mine: 2 before 3", M.mine(0, 3, [9], junk), 2, junk)
    refused("mine: n = 2^63", M.mine(2 ** 63, 3, [], junk), 2, junk)
    refused("mine: n = 2^62", M.mine(2 ** 62, 3, [], junk), 2, junk)
    refused("mine: m = 0", M.mine(1, 0, [0] * 4, junk), 2, junk)
    refused("mine: crew words not 4n", M.mine(2, 3, [1] + [0] * 6, junk), 3, junk)
    refused("mine: too many crew words", M.mine(2, 3, [1] + [0] * 8, junk), 3, junk)
    refused("mine: bit m", M.mine(2, 64, [0] * 5 + [1] + [0] * 2, junk), 3, junk)
    n, m, rows = M.lacking_one(8)
    refused("mine: 3 before 4", M.mine(n, m, M.crew_words(rows[:7] + [256]), junk), 3, junk)
    refused("mine: 4", M.mine(n, m, M.crew_words(rows), junk), 4, junk)
    check("mining doesn't look at old contents", M.mine(3, 3, M.crew_words([3, 6, 7]), junk)[2], mined(3, [3, 6, 7]))

    calls = [lambda r: M.strike(r, BIG), lambda r: M.restore(r, BIG), lambda r: M.eliminate(r, (1001, 0, 0, 0), 0, 0),
             lambda r: M.review(r, (0, 0, 0, BIG)), lambda r: M.quality(r, (0, 1001, 0, 0)),
             lambda r: M.may(r, BIG, BIG)]
    fresh = mined(3, [3, 6, 7])
    for number, (call, then) in enumerate(zip(calls, (6, 6, 9, 9, 9, 6))):
        for lent in (short, [0] * 2057, []):
            refused("call %d: 1" % number, call(lent), 1, lent)
        for lent in (junk, [2 ** 63] + [0] * 2055, EMPTY):
            refused("call %d: 5" % number, call(lent), 5, lent)
        refused("call %d: then its own" % number, call(fresh), then, fresh)
    for u, p, code in ((2, 2, 0), (3, 0, 6), (0, 3, 6), (BIG, 0, 6)):
        check("may %d %d" % (u, p), M.may(fresh, u, p)[0], code)

    top = (1000, 1000, 1000, 1000)
    check("weights of 1,000", M.quality(fresh, top)[:2], (0, 14000))
    for a, b, code in ((1, 1, 0), (2, 1, 0), (1000, 1000, 0), (2000, 1000, 0), (0, 0, 9), (1, 0, 9), (0, 1, 9),
                       (3, 1, 9), (2001, 1000, 9), (999, 1000, 9), (1001, 1001, 9), (BIG, 2 ** 63, 9),
                       (2 ** 63, 2 ** 63, 9)):
        check("tolerance %d/%d" % (a, b), M.eliminate(fresh, top, a, b)[0], code)
    for i in range(4):
        over = tuple(1001 if i == j else 0 for j in range(4))
        refused("eliminate weight", M.eliminate(fresh, over, 1, 1), 9, fresh)
        refused("review weight", M.review(fresh, over), 9, fresh)
        refused("quality weight", M.quality(fresh, over), 9, fresh)


def soundness():
    fresh = mined(3, [3, 6, 7])
    check("sound", M.sound(fresh))
    for i in range(2, 2056):
        for bit in (0, 1, 2, 40, 63):
            check("word %d changed" % i, M.sound(fresh[:i] + [fresh[i] ^ 1 << bit] + fresh[i + 1:]), False)
    # 'n and m are not tied to what mining was given': more users with empty rows, more permissions
    check("n", [n for n in list(range(140)) + [2 ** 63, BIG] if M.sound([n] + fresh[1:])], list(range(3, 129)))
    check("m", [m for m in list(range(270)) + [2 ** 63, BIG] if M.sound(fresh[:1] + [m] + fresh[2:])],
          list(range(3, 257)))
    n, m, rows = M.lacking_one(8)
    words = [n, m] + [0] * 6 + M.crew_words(rows) + [0] * 2016
    check("over 128 candidates is 5", M.strike(words, 0)[0], 5)
    bare = M.build(3, 3, [3, 6, 7], 0b1101)
    check("a grant left bare is 5", M.review(bare, ONES)[0], 5)


# ---- crew text and lister -------------------------------------------------------------------------------------

def reader():
    good = b"crew,3,3\n0,3\n1,6\n2,7\n"
    check("sample", M.read_crew(good, [5] * 512), (0, 3, 3, [3, 0, 0, 0, 6, 0, 0, 0, 7] + [0] * 503))
    check("writer", M.crew_text(3, 3, [3, 6, 7]), good)
    check("digits of m = 65", M.crew_text(1, 65, [2 ** 64 + 2 ** 63 + 10]), b"crew,1,65\n0,1800000000000000a\n")
    refused("buffer before all", M.read_crew(b"x" * 20000, [1] * 511), 3, [1] * 511)
    refused("buffer too long", M.read_crew(good, [1] * 513), 3, [1] * 513)
    rows128 = b"".join(b"%d,0\n" % u for u in range(128))
    rows129 = rows128 + b"128,0\n"
    wide = b"f" * 64
    cases = [
        (b"", 10), (b"\n", 10), (b"crew", 10), (b"crew,1,1", 10), (b"crew,1,1\n", 10),
        (b"crew,128,3\n" + rows128, 0), (b"crew,129,3\n" + rows129, 2), (b"crew,129,3\n", 2), (b"crew,129,3", 10),
        (b"crew,1,256\n0," + wide + b"\n", 0), (b"crew,1,257\n0,1" + wide + b"\n", 2), (b"crew,1,999\n", 2),
        (b"crew,1,3\n0,8\n", 3), (b"crew,1,3\n0,7\n", 0), (b"crew,1,3\n0,8", 10), (b"crew,1,3\n0,08\n", 10),
        (b"crew,1000,3\n", 10), (b"crew,0,3\n", 2), (b"crew,3,0\n", 2), (b"crew,00,3\n", 10),
        (b"crew,01,3\n0,1\n", 10), (b"crew,,3\n", 10), (b"crew, 3,3\n", 10), (b"Crew,1,1\n0,1\n", 10),
        (b"crew,0,01\n", 10), (b"crew,1,3,\n0,1\n", 10), (b"crew,0,1000\n", 10), (b"crew,1,3\n0,7\n\n", 10),
        (b"crew,1,3\n0,7\n1,7\n", 10), (b"crew,1,3\n0,7\nx", 10), (b"crew,2,3\n0,7\n", 10),
        (b"crew,2,3\n0,7\n0,7\n", 10), (b"crew,2,3\n0,7\n2,7\n", 10), (b"crew,1,3\n1,7\n", 10),
        (b"crew,2,3\n0,7\n01,7\n", 10), (b"crew,1,3\n00,7\n", 10), (b"crew,1,3\n,7\n", 10), (b"crew,1,3\n0;7\n", 10),
        (b"crew,1,3\r\n0,7\r\n", 10), (b"crew,1,3\n0,7\r\n", 10), (b"crew,1,4\n0,F\n", 10), (b"crew,1,4\n0,g\n", 10),
        (b"crew,1,5\n0,7\n", 10), (b"crew,1,5\n0,007\n", 10), (b"crew,1,5\n0,1f\n", 0), (b"crew,1,5\n0,20\n", 3),
        (b"crew,1,3\n\n0,7\n", 10), (b"\ncrew,1,3\n0,7\n", 10), (b"crew,1,3\n0,\n", 10), (b"crew,1,3\n0\n", 10),
        (b"crew,1,3\n1,8\n", 10),
        (b"crew,6,3\n0,1\n1,1\n2,8\n3,1\n4,1\nfive\n", 3), (b"crew,6,3\n0,1\n1,1\ntwo\n3,1\n4,1\n5,8\n", 10),
        (b"crew,2,3\n0,8\n1,1\nmore", 3), (b"crew,1,3\n0,8\n1,1\n", 3), (b"crew,129,257\nx", 2),
        (b"crew,1,3\n0,\xb2\n", 10), (b"crew,\xb3,3\n", 10), (b"crew,1,3\n0,7\0", 10), (b"crew,-1,3\n", 10),
        (b"crew,+1,3\n", 10), (b"crew,1,3\n0,7\n" + b"\n" * 16371, 10), (b"crew,129,3\n" + b"x" * 16373, 2),
        (b"crew,129,3\n" + b"x" * 16374, 10), (b"x" * 16385, 10),
    ]
    lent = list(range(512))
    for text, code in cases:
        answer = M.read_crew(text, lent)
        if code:
            refused("read %r" % text[:40], answer, code, lent)
        else:
            check("read %r" % text[:40], answer[0], 0)
    rng = random.Random(3)
    for _ in range(300):
        n, m = rng.choice((1, 2, 9, 10, 11, 128)), rng.choice((1, 3, 4, 5, 63, 64, 65, 255, 256))
        n, m, rows = M.random_rows(rng, n, m, 0.5)
        text = M.crew_text(n, m, rows)
        check("there and back", M.read_crew(text, lent), (0, n, m, M.crew_words(rows) + [0] * (512 - 4 * n)))
        # a text is either the one that the writer gives or refused
        i = rng.randrange(len(text))
        new = rng.choice((b"", bytes([rng.choice(b"0123456789abcdefFcrew,\n\r g")])))
        bent = text[:i] + new + text[i + rng.randrange(2):]
        code, n, m, words = M.read_crew(bent, lent)
        if code == 0:
            check("only one text", M.crew_text(n, m, [M.from_words(words[4 * u:4 * u + 4]) for u in range(n)]), bent)
        else:
            check("bent text", (code in (2, 3, 10), words == lent), (True, True))
    longest = M.crew_text(128, 256, [2 ** 256 - 1] * 128)
    check("the longest good text", (len(longest) <= 16384, M.read_crew(longest, lent)[0]), (True, 0))


def every_list():
    """A list of each kind that crews.py makes, at the borders of the decimals' and the sets' digits, and random ones; each has at most 128
    candidates."""
    rng = random.Random(11)
    lists = [(3, 3, [3, 6, 7]), (1, 1, [0]), (1, 1, [1]), (1, 256, [2 ** 256 - 1]), (3, 4, [0, 0, 0]), crews.lacking_one(7), crews.lacking_one(6, 70),
             crews.full_table(), crews.full_table_own(), crews.nested_chain(128, 256), crews.antichain(127, 256), crews.departments(),
             crews.nested_groups(rng, 12, 90)]
    lists += [crews.duplicate_rows(rng, n, m) for n in (1, 9, 10, 11, 99, 100, 101, 128) for m in (1, 3, 4, 5, 9, 63, 64, 65, 127, 128, 129, 255, 256)]
    lists += [M.mineable(M.random_sparse, seed, n, 40) for seed, n in enumerate((2, 7, 13, 24))]
    lists += [M.mineable(M.random_dense, seed, n, 11) for seed, n in enumerate((2, 4, 6))]
    lists += [M.mineable(M.wide, seed, m) for seed, m in enumerate((65, 130, 200, 256))]
    return lists


def writer():
    """Document 02, job 1."""
    sample = b"crew,3,3\n0,3\n1,6\n2,7\n"
    fresh = mined(3, [3, 6, 7])
    kept = list(fresh)
    check("written", M.write_crew(fresh, [7] * 30), (0, 21, list(sample) + [7] * 9))
    check("exactly long enough", M.write_crew(fresh, range(21)), (0, 21, list(sample)))
    for count in (20, 1, 0):
        refused("into %d bytes" % count, M.write_crew(fresh, range(count)), 11, range(count))
    check("the record is only read", fresh, kept)
    for m, row, text in ((1, 1, b"0,1"), (4, 9, b"0,9"), (5, 10, b"0,0a"), (9, 256, b"0,100"), (64, 2 ** 63, b"0,8" + b"0" * 15),
                         (65, 2 ** 63, b"0,08" + b"0" * 15), (256, 171, b"0," + b"0" * 62 + b"ab")):
        written = M.write_crew(mined(m, [row]), [0] * 80)
        check("the row of m = %d" % m, bytes(written[2][:written[1]]), b"crew,1,%d\n%s\n" % (m, text))

    short, unsound = fresh[:-1], fresh[:7] + [1] + fresh[8:]
    for count in (0, 20, 21, 30):
        refused("1 before 5 and 11", M.write_crew([9] * 2055, [7] * count), 1, [7] * count)
        refused("1 before 11", M.write_crew(short, [7] * count), 1, [7] * count)
        refused("5 before 11", M.write_crew(unsound, [7] * count), 5, [7] * count)
    for header in ([0], [129], [2 ** 63], [3, 257], [3, 2 ** 63]):
        refused("a header past its limits", M.write_crew(header + fresh[len(header):], [7] * 30), 5, [7] * 30)
    # sound records that no mining left: a user more with an empty row, more permissions
    check("n = 4", M.write_crew([4] + fresh[1:], [0] * 25)[2], list(b"crew,4,3\n0,3\n1,6\n2,7\n3,0\n"))
    check("m = 5", M.write_crew([3, 5] + fresh[2:], [0] * 24)[2], list(b"crew,3,5\n0,03\n1,06\n2,07\n"))

    after = fresh
    for call in ((M.strike, 0), (M.strike, 3), (M.restore, 0), (M.eliminate, ONES, 1, 1), (M.review, ONES)):
        *answer, after = call[0](after, *call[1:])
        check("accepted", answer[0], 0)
        check("what stands makes no difference", bytes(M.write_crew(after, [0] * 21)[2]), sample)

    # the longest text: 13 bytes, and a line of 3 + 64 for ten users, of 4 + 64 for ninety and of 5 + 64 for the rest
    check("counted by hand", 13 + 10 * 67 + 90 * 68 + 28 * 69, 8735)
    check("the longest", max((len(M.crew_text(n, m, [0] * n)), n, m) for n in (1, 9, 10, 11, 99, 100, 101, 127, 128) for m in range(1, 257)), (8735, 128, 256))
    check("in the model", M.LONGEST_WRITTEN, 8735)
    full = mined(256, [2 ** 255] * 128)
    check("8,735 bytes", M.write_crew(full, [7] * 8735)[:2], (0, 8735))
    refused("8,734 bytes", M.write_crew(full, [7] * 8734), 11, [7] * 8734)

    for n, m, rows in every_list():
        text = M.crew_text(n, m, rows)
        record = M.fresh(n, m, rows)
        for count in (len(text), len(text) + 5, M.LONGEST_WRITTEN + 1):
            code, length, written = M.write_crew(record, [7] * count)
            check("text, then untouched", (code, length, bytes(written)), (0, len(text), text + b"\7" * (count - len(text))))
        refused("one byte short", M.write_crew(record, [7] * (len(text) - 1)), 11, [7] * (len(text) - 1))
        # 'Reading its output and mining gives the same n, m and crew rows'
        code, n2, m2, words = M.read_crew(bytes(written[:length]), EMPTY[:512])
        check("read back", (code, n2, m2, words), (0, n, m, M.crew_words(rows) + [0] * (512 - 4 * n)))
        check("mined again", M.mine(n2, m2, words[:4 * n2], EMPTY)[2], record)
        # of a record that was edited too
        k = next((k for k in range(record[2]) if M.strikable(M.crew_of(n, m, rows), M.everything(M.crew_of(n, m, rows)), k)), None)
        if k is not None:
            check("after a strike", M.write_crew(M.strike(record, k)[1], [0] * len(text)), (0, len(text), list(text)))


def handing_back():
    """Document 02, job 1: 'every text that the reader accepts and whose list has at most 128 candidates comes back byte for byte'."""
    tour = (Path(__file__).resolve().parent.parent / "examples/tour.crew").read_bytes()
    for text in (tour, b"crew,3,3\n0,3\n1,6\n2,7\n", b"crew,1,1\n0,0\n", *(M.crew_text(*crew_list) for crew_list in every_list())):
        check("comes back", M.handback(text), text)
    for text, code in ((b"", 10), (b"crew", 10), (b"crew,0,3\n", 2), (b"crew,1,257\n", 2), (b"crew,1,3\n0,8\n", 3), (M.crew_text(*M.lacking_one(8)), 4),
                       (tour[:-1], 10), (tour + b"\n", 10), (b"crew,0,3\n" + b"0" * 16375, 2), (b"crew,0,3\n" + b"0" * 16376, 10)):
        check("refused %r" % text[:20], M.handback(text), b"refused,%d\n" % code)
    for text in damaged_texts():
        code = M.read_crew(text, EMPTY[:512])[0]
        check("damaged %r" % text[:40], M.handback(text), b"refused,%d\n" % code if code else text)
    rng = random.Random(12)
    for _ in range(200):  # one byte of a good text altered: refused, or another text that comes back
        text = bytearray(M.crew_text(*crews.duplicate_rows(rng, rng.choice((1, 3, 11)), rng.choice((1, 4, 7, 65)))))
        text[rng.randrange(len(text))] = rng.choice(b"0123456789abcdef,\n ")
        code = M.mined_text(bytes(text))[0]
        check("bent text", M.handback(bytes(text)), b"refused,%d\n" % code if code else bytes(text))


def lister():
    check("the sample of document 01", M.lister(b"crew,3,3\n0,3\n1,6\n2,7\n"), b"roles,2,10\n1,3,3,5,0\n2,6,6,6,0\n")
    check("all rows empty", M.lister(b"crew,2,5\n0,00\n1,00\n"), b"roles,0,0\n")
    check("one person", M.lister(b"crew,1,5\n0,1f\n"), b"roles,1,7\n0,1f,1f,1,0\n")
    # rows 1, 3, 1f on m = 5: a chain, nothing strikable; q = 3 roles + 3 members + 5 permissions + 2 links
    check("a chain", M.lister(b"crew,3,5\n0,01\n1,03\n2,1f\n"), b"roles,3,13\n0,01,01,1,0\n1,03,02,2,1\n2,1f,1c,4,2\n")
    check("form", M.lister(b"crew"), b"refused,10\n")
    check("limits", M.lister(b"crew,0,3\n"), b"refused,2\n")
    check("bits", M.lister(b"crew,1,3\n0,8\n"), b"refused,3\n")
    check("candidates", M.lister(M.crew_text(*M.lacking_one(8))), b"refused,4\n")
    check("byte 16,385", M.lister(b"x" * 16385), b"refused,10\n")
    # 126 candidates need 32 digits for the juniors, however few stand
    printed = M.lister(M.crew_text(*M.lacking_one(7))).split(b"\n")
    check("digits by c", {tuple(map(len, line.split(b",")[1:])) for line in printed[1:-1]}, {(2, 2, 2, 32)})
    check("last byte 10", printed[-1], b"")


# ---- lists at the word borders, with the records that follow from their shape -----------------------------------

def proved_listings():
    """The listings that crates/listing/proofs/Sample.antt computes from the definition: texts and what is printed, as lists of bytes."""
    source = (Path(__file__).resolve().parent.parent / "crates/listing/proofs/Sample.antt").read_text(encoding="utf-8")
    lists = {name: bytes(map(int, re.findall(r"\d+", body))) for name, body in re.findall(r"^(\w+) =\n((?:    .*\n)+)", source, re.M) if "∷" in body}
    names = re.findall(r": listing (\w+) ≡ (\w+)", source)
    check("two listings are proved", len(names), 2)
    for text, printed in names:
        check("proved listing of " + text, M.lister(lists[text]), lists[printed])
    code, n, m, words = M.read_crew(lists["digits_text"], [0] * M.BUFFER)
    code, c, record = M.mine(n, m, words[:4 * n], EMPTY)
    check("three numbers of digits", [(count + 3) // 4 for count in (n, m, c)], [2, 3, 4])
    code, struck, _, record = M.eliminate(record, ONES, 1, 1)
    check("struck, then restored", (struck, M.review(record, ONES)[1]), (7, 1))


def word_borders():
    n, m, rows = M.nested_chain(128, 256)
    record = mined(m, rows)
    want = [128, 256, 128, 0, BIG, BIG, 0, 0] + [0] * 2048
    for k in range(128):
        for i in range(2 * k + 2):
            want[8 + 4 * k + i // 64] |= 1 << i % 64
            want[520 + 4 * k + i // 64] |= 1 << i % 64
        want[1032 + 4 * k + 2 * k // 64] = 3 << 2 * k % 64
        want[1544 + 2 * k + k // 64] = 1 << k % 64
        if k:
            want[1800 + 2 * k + (k - 1) // 64] = 1 << (k - 1) % 64
    check("chain of 128", record, want)
    check("chain sound", M.sound(record))
    check("chain: nothing strikable", M.eliminate(record, ONES, 2, 1)[:3], (0, 0, 0))
    check("chain quality", M.quality(record, (1, 10, 100, 1000))[1], 128 + 1280 + 25600 + 127000)

    n, m, rows = M.antichain(127, 256)
    record = mined(m, rows[::-1])
    want = [127, 256, 128, 0, BIG, BIG, 0, 0] + [0] * 2048
    want[520] = want[1032] = 1
    for u in range(127):
        p, k = 256 - 127 + u, u + 1
        for place in (8 + 4 * u, 520 + 4 * k):
            want[place] = 1
            want[place + p // 64] |= 1 << p % 64
        want[1032 + 4 * k + p // 64] = 1 << p % 64
        want[1544 + 2 * k + u // 64] = 1 << u % 64
        want[1800 + 2 * k] = 1
    check("fan of 127", record, want)
    after = M.strike(record, 0)[1]
    for k in range(1, 128):
        want[1032 + 4 * k] |= 1
        want[1800 + 2 * k] = 0
    want[1032], want[4] = 0, BIG - 1
    check("fan without its junior", after, want)

    check("full table", [len(M.candidates(make()[2])) for make in (M.full_table, M.full_table_own)], [128, 128])
    check("full table's shape", [M.full_table()[:2], len(M.full_table()[2])], [(128, 256), 128])
    # the order by number goes by the highest word first
    for m, high, low in ((65, 64, 63), (129, 128, 127), (256, 192, 191), (256, 255, 0)):
        check("order by number", mined(m, [1 << high, 1 << low])[520:528], M.crew_words([1 << low, 1 << high]))
    for n in range(1, 8):
        check("lacking one of n + 1", len(M.candidates(M.lacking_one(n, n + 1)[2])), 2 ** n - 1)
    rng = random.Random(5)
    for m in (65, 129, 256):
        for make in (lambda: M.mineable(M.wide, rng.random(), m), lambda: M.duplicate_rows(rng, 128, m),
                     lambda: M.mineable(M.random_sparse, rng.random(), 12, m)):
            laws(*make(), rng, 3)


# ---- guards ---------------------------------------------------------------------------------------------------

def replay(m, rows, calls):
    """The answers of the record calls, and the standing set at the end."""
    answers, record = [], EMPTY
    for call in [("mine",)] + calls:
        if call[0] == "mine":
            answer = M.mine(len(rows), m, M.crew_words(rows), record)
        else:
            answer = getattr(M, call[0])(record, *call[1:])
        answers.append(answer[:-1])
        record = answer[-1]
    return answers[1:], M.from_words(record[4:6])


def guards():
    for g in GUARDS:
        name = "guard %s, rows %s" % (g["wrong"], g["rows"])
        check(name, replay(g["m"], g["rows"], g["calls"]), g["right"])
        check(name + ", c", len(M.candidates(g["rows"])), g["c"])
        check(name + ", second machine", Machine(g["m"], g["rows"]).run(g["calls"]), g["right"])
        check(name + ", wrong machine", Machine(g["m"], g["rows"], g["wrong"]).run(g["calls"]), g["mistaken"])
        check(name + ", they differ", g["right"] != g["mistaken"])
    check("each wrong reading has a guard", sorted({g["wrong"] for g in GUARDS}), sorted(WRONG))


# ---- laws on random lists -------------------------------------------------------------------------------------

def rows_of(record):
    return [M.row_of(record, k) for k in range(record[2])]


def chain_between(links, k, j):
    """Is there a chain of these links from k to j?"""
    reached, waiting = set(), [k]
    while waiting:
        at = waiting.pop()
        for senior, junior in links:
            if senior == at and junior not in reached:
                reached.add(junior)
                waiting.append(junior)
    return j in reached


def some(things, most):
    """All of them where they are few, else some, to keep the run short."""
    return things if len(things) <= most else random.Random(1).sample(things, most // 2)


def state_laws(record, crew_rows):
    """What holds of every sound record."""
    n, m, rows, standing = M.read_out(record)
    crew = M.crew_of(n, m, rows)
    check("crew rows kept", rows, crew_rows)
    check("sound", M.sound(record))
    check("built afresh", record, M.build(n, m, rows, standing))
    links = {(k, j) for k, row in enumerate(rows_of(record)) for j in M.items(row[2])}
    check("a link leads to a lower number, so no circle", all(k > j for k, j in links))
    if crew.c <= 40:
        check("no chain could replace a link", not any(chain_between(links - {link}, *link) for link in links))
        check("seniority is a chain of links", all(
            chain_between(links, k, j) == (crew.sets[j] != crew.sets[k] and crew.sets[j] & ~crew.sets[k] == 0)
            for k in M.items(standing) for j in M.items(standing)))
    for u, p in some([(u, p) for u in range(n) for p in range(m)], 36):
        check("may is the crew list's grant", M.may(record, u, p), (0, rows[u] >> p & 1, record))
    for k in some(range(crew.c), 36):
        without = M.build(n, m, rows, standing & ~(1 << k))
        check("strikable", M.strikable(crew, standing, k), bool(standing >> k & 1) and M.sound(without))


def change_laws(before, after, k):
    """What a strike or restoration of k may alter: bit k of the standing set, the row of k, and the rows of its
    immediate seniors and juniors in the building in which it stands."""
    stands = before if M.from_words(before[4:6]) >> k & 1 else after
    rows = rows_of(stands)
    near = {k} | set(M.items(rows[k][2])) | {s for s, row in enumerate(rows) if row[2] >> k & 1}
    places = {4 + k // 64}
    for j in near:
        places |= set(range(1032 + 4 * j, 1036 + 4 * j)) | set(range(1544 + 2 * j, 1546 + 2 * j))
        places |= set(range(1800 + 2 * j, 1802 + 2 * j))
    check("only these words", {i for i in range(2056) if before[i] != after[i]} <= places)
    check("only bit k", M.from_words(before[4:6]) ^ M.from_words(after[4:6]), 1 << k)


def laws(n, m, rows, rng, length):
    """A random list of calls from a fresh record, with the laws after each."""
    record = mined(m, rows)
    crew = M.crew_of(n, m, rows)
    c = crew.c
    check("numbered by growing value", all(a < b for a, b in zip(crew.sets, crew.sets[1:])))
    check("a row that is not empty is a candidate", set(rows) - {0} <= set(crew.sets))
    second = Machine(m, rows) if n <= 6 else None
    if n <= 6:
        meets = set()
        for count in range(1, n + 1):
            for group in combinations(rows, count):
                meet = 2 ** 256 - 1
                for row in group:
                    meet &= row
                meets.add(meet)
        check("candidates", crew.sets, sorted(meets - {0}))
    state_laws(record, rows)
    for _ in range(length):
        kind = rng.choice(("strike", "strike", "restore", "eliminate", "review"))
        weights = tuple(rng.choice((0, 1, 1, 2, 3, 1000)) for _ in range(4))
        b = rng.choice((1, 2, 3, 10, 20, 1000))
        a = rng.choice((b, b, b + b // 10, rng.randrange(b, 2 * b + 1)))
        call = {"strike": ("strike", rng.randrange(c + 1)), "restore": ("restore", rng.randrange(c + 1)),
                "eliminate": ("eliminate", weights, a, b), "review": ("review", weights)}[kind]
        answer = getattr(M, kind)(record, *call[1:])
        after, standing = answer[-1], M.from_words(answer[-1][4:6])
        if second:
            check("second machine", (answer[:-1], M.items(standing)), (second.call(*call), sorted(second.standing)))
            check("quality of the second machine", M.quality(after, weights)[1],
                  second.quality((second.standing, second.extra), weights))
        if answer[0]:
            check("refused", after, record)
        elif kind in ("strike", "restore"):
            change_laws(record, after, call[1])
        elif kind == "eliminate":
            check("at most c(c + 1)/2", answer[2] <= c * (c + 1) // 2)
            check("when elimination ends", all(
                not M.strikable(crew, standing, k)
                or b * M.quality_of(crew, standing & ~(1 << k), weights) >= a * M.quality_of(crew, standing, weights)
                for k in M.items(standing)))
        else:
            check("when a review ends", all(
                M.quality_of(crew, standing | 1 << k, weights) >= M.quality_of(crew, standing, weights)
                for k in range(c)))
        record = after
        state_laws(record, rows)


def random_lists():
    rng = random.Random(7)
    for _ in range(140):
        n, m = rng.randrange(1, 7), rng.randrange(1, 7)
        rows = [M.collect(p for p in range(m) if rng.random() < rng.choice((0.2, 0.5, 0.8))) for _ in range(n)]
        laws(n, m, rows, rng, 5)
    # more candidates: over 64 roles, so that the second word of role sets is used
    laws(*M.lacking_one(7), rng, 2)


# ---- the digest that test programs print -----------------------------------------------------------------------

def digests():
    """Mixing loses nothing, as 64 bits keep their 64 dimensions; and a bit turned at one place of a record, of the words beyond it, or of a text, is not
    undone by another bit at another place, however far apart they are."""
    basis = []
    for bit in range(64):
        left = mixed(1 << bit)
        for vector in basis:
            left = min(left, left ^ vector)
        basis.append(left)
    check("mixing is linear", all(mixed(a ^ b) == mixed(a) ^ mixed(b) for a, b in ((3, 6), (BIG, 1 << 63), (7 << 40, 9 << 13))))
    check("mixing loses nothing", all(basis))
    apart = True
    for bit in range(64):
        d = 1 << bit
        for _ in range(MOST_BYTES):
            d = mixed(d)
            apart &= d & d - 1 != 0
    check("two bits are never lost", apart)
    check("{1} and {64} apart", digest([2, 0]) != digest([0, 1]))
    check("zeros are mixed in", digest([0, 0, 0]), mixed(mixed(mixed(START))))
    d, lengths = START, set()
    for _ in range(MOST_BYTES + 1):
        lengths.add(d)
        d = mixed(d)
    check("zeros count", len(lengths), MOST_BYTES + 1)


if __name__ == "__main__":
    for part in (starred_table, unstarred_cases, refusals, soundness, reader, writer, handing_back, lister, proved_listings, word_borders, guards,
                 random_lists, digests):
        part()
    for failure in failures[:20]:
        print(failure)
    print("test_model: %d checks, %d failed" % (passed + len(failures), len(failures)))
    sys.exit(1 if failures else 0)
