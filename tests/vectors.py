"""Writes every stdin, data and stdout file of the test programs, and what the example in C prints. The same files come
out each time.

`python3 tests/vectors.py` writes them all; `python3 tests/vectors.py --check` makes them again in memory and fails,
naming the file, on the first that differs. A new test program is one function below, with its crate's name on it.
"""
import random
import sys
from pathlib import Path

import crews
import example
import guards
import model
import worked
from script import MOST_BYTES, Script, case

ROOT = Path(__file__).resolve().parent.parent
TARGETS = {}


def target(crate):
    """Register a function for a crate: it is handed a random source of its own, so that targets do not disturb each
    other, and gives the files as {name within the crate: bytes}."""
    def register(function):
        TARGETS[crate] = function
        return function
    return register


def generate():
    """All files, as {path from the root: bytes}."""
    files = {Path("examples/panel.out"): example.output()}
    for crate, function in TARGETS.items():
        for name, content in function(random.Random("vectors of " + function.__name__)).items():
            files[Path("crates") / crate / name] = content
    return files


@target("test_sets")
def set_cases(rng):
    """The set library at the word borders, straight from Python's sets. Fields: contains(A, i), count(A), count(B),
    lowest(A), highest(B), is_proper_subset(A, B), less(A, B); A is {i}, B all up to i, both cut at the width."""
    lines = []
    for width in (128, 256):
        for i in (0, 63, 64, 127, 128, 255):
            a = {j for j in {i} if j < width}
            b = {j for j in range(i + 1) if j < width}
            fields = [int(i in a), len(a), len(b), min(a, default="-"), max(b, default="-"), int(a < b),
                      int(sum(2 ** j for j in a) < sum(2 ** j for j in b))]
            lines.append("width %d %d: %s\n" % (width, i, " ".join(map(str, fields))))
    lines.append("apart: %d\n" % (not (set(range(200)) - set(range(100))) & set(range(100))))
    return {"stdout": "".join(lines).encode("ascii")}


def damaged_texts():
    """Every fault of form and of limits once, each beside the reader's reason for it, and the borders that pass."""
    rows3 = b"0,3\n1,6\n2,7\n"
    return [
        b"", b"\n", b"crew", b"crew,", b"crew,3", b"crew,3,3", b"crew,3,3\n",               # no whole header, no rows
        b"Crew,3,3\n" + rows3, b"crew;3,3\n" + rows3, b" crew,3,3\n" + rows3,              # another first word
        b"crew,,3\n" + rows3, b"crew, 3,3\n" + rows3, b"crew,3,\n" + rows3,                # no decimal
        b"crew,03,3\n" + rows3, b"crew,3,03\n" + rows3, b"crew,00,3\n", b"crew,0,01\n",   # a leading zero
        b"crew,1000,3\n", b"crew,3,1000\n", b"crew,+3,3\n" + rows3, b"crew,a,3\n",        # four digits, other bytes
        b"crew,3;3\n" + rows3, b"crew,3,3,\n" + rows3, b"crew,3,3 \n" + rows3,             # parted or ended otherwise
        b"crew,3,3\r\n" + rows3, b"crew,3,3\n0,3\r\n1,6\n2,7\n",                          # a byte 13
        b"crew,0,3\n", b"crew,129,3\n", b"crew,129,3", b"crew,3,0\n", b"crew,3,257\n", b"crew,3,257", b"crew,999,999\n",
        b"crew,3,3\n0,3\n1,6\n", b"crew,3,3\n0,3\n1,6\n2,7", b"crew,3,3\n" + rows3 + b"3,0\n",  # a row too few or too many
        b"crew,3,3\n\n" + rows3, b"crew,3,3\n" + rows3 + b"\n", b"crew,3,3\n" + rows3 + b"\0",
        b"crew,3,3\n0,3\n2,6\n2,7\n", b"crew,3,3\n0,3\n0,6\n2,7\n", b"crew,3,3\n1,3\n1,6\n2,7\n",  # another number
        b"crew,3,3\n00,3\n1,6\n2,7\n", b"crew,3,3\n,3\n1,6\n2,7\n", b"crew,3,3\n0;3\n1,6\n2,7\n",
        b"crew,1,3\n0,\n", b"crew,1,3\n0,03\n", b"crew,1,5\n0,3\n", b"crew,1,5\n0,003\n",     # other counts of digits
        b"crew,1,4\n0,A\n", b"crew,1,4\n0,a\n", b"crew,1,4\n0,g\n", b"crew,1,4\n0,/\n", b"crew,1,4\n0,:\n", b"crew,1,4\n0,`\n",
        b"crew,1,3\n0,8\n", b"crew,1,3\n0,7\n", b"crew,1,1\n0,2\n", b"crew,1,2\n0,4\n", b"crew,1,4\n0,f\n", b"crew,1,5\n0,20\n", b"crew,1,5\n0,1f\n",
        b"crew,3,3\n0,3\n1,8\n2,x\n", b"crew,3,3\n0,3\n1,x\n2,8\n", b"crew,1,3\n0,8", b"crew,1,3\n0,8\n0",  # the first fault counts
    ]


@target("test_text")
def text_cases(rng):
    """The crew reader on good and damaged texts. A case on standard input: the lengths of the text and of the buffer,
    whose words are all 7, in four hexadecimal digits each, then the text."""
    lists = [(3, 3, [3, 6, 7]), (1, 1, [0]), (1, 1, [1]), (1, 256, [2 ** 256 - 1]), (1, 255, [2 ** 254]),
             crews.nested_chain(128, 7), crews.full_table()]
    for n, m in ((1, 64), (2, 65), (5, 127), (4, 128), (3, 129), (10, 11), (11, 9), (100, 3), (101, 1), (6, 192), (6, 193), (2, 250)):
        lists.append(crews.random_rows(rng, n, m, 0.5))
    good = [model.crew_text(n, m, rows) for n, m, rows in lists]
    cases = [(text, 512) for text in good + damaged_texts()]
    n, m, rows = crews.random_rows(rng, 129, 3, 0.5)
    cases.append((model.crew_text(n, m, rows), 512))
    short = good[0]
    for size in (16384, 16385):
        cases.append(((b"crew,0,3\n" + b"0" * size)[:size], 512))
    cases += [(short, words) for words in (0, 1, 511, 513, 600)] + [(b"", 0), (b"crew,0,3\n", 511)]
    for _ in range(60):  # one byte altered, left out, put in, or all after it cut off
        text = bytearray(good[rng.choice((0, 1, 2, 7, 8, 12))])
        at = rng.randrange(len(text))
        kind = rng.randrange(4)
        if kind == 0:
            text[at] = rng.choice(b"0123456789abcdefABCF,;\n\r \0crew")
        elif kind == 1:
            del text[at]
        elif kind == 2:
            text.insert(at, rng.choice(b"0123456789abcdef,\n "))
        else:
            del text[at:]
        cases.append((bytes(text), 512))
    stdin, lines = [], []
    for text, words in cases:
        stdin.append(b"%04x,%04x\n%s" % (len(text), words, text))
        code, n, m, buffer = model.read_crew(text, [7] * words)
        lines.append(case("read", [], [code, n, m], buffer))
    stdin = b"".join(stdin)
    assert len(stdin) <= 65536 and len(cases) >= 100
    return {"stdin": stdin, "stdout": "".join(lines).encode("ascii")}


@target("test_worked")
def worked_cases(rng):
    """The cases of document 01, lists at its limits, damaged records and crew texts."""
    return worked.files()


def replay_crews(rng):
    """Crew lists to strike and restore on: small ones of every kind, and some at the limits of 01."""
    makers = [lambda: crews.random_sparse(rng, rng.randrange(2, 25), rng.randrange(3, 40)),
              lambda: crews.random_dense(rng, rng.randrange(2, 7), rng.randrange(3, 12)),
              lambda: crews.nested_chain(rng.randrange(1, 20), rng.randrange(1, 70)),
              lambda: crews.nested_groups(rng, rng.randrange(3, 14), rng.randrange(4, 90)),
              lambda: crews.duplicate_rows(rng, rng.randrange(3, 12), rng.randrange(2, 9)),
              lambda: crews.duplicate_rows(rng, rng.randrange(3, 12), rng.randrange(65, 257), 5),
              lambda: crews.wide(rng, rng.randrange(65, 257), rng.randrange(4, 10), 4),
              lambda: crews.random_sparse(rng, rng.randrange(4, 16), rng.randrange(65, 257)),
              lambda: crews.antichain(rng.randrange(2, 30), rng.randrange(31, 130)),
              lambda: crews.lacking_one(rng.randrange(3, 6), rng.randrange(6, 80))]
    lists = [(3, 3, [3, 6, 7]), (1, 1, [1]), (2, 3, [5, 5]), (3, 4, [0, 0, 0]), (3, 3, [3, 5, 6])]
    lists += [make() for make in makers for _ in range(30)]
    lists += [crews.lacking_one(7), crews.lacking_one(6, 70), crews.nested_chain(128, 256), crews.full_table(), crews.full_table_own()]
    rng.shuffle(lists)
    return lists


def damage_of(rng, record):
    """A place of the record and another word for it."""
    n, m, c = record[0], record[1], record[2]
    place, value = rng.choice([
        (0, rng.choice((0, n + 1, 129, 2 ** 63))), (1, rng.choice((0, 257, 2 ** 63, 1))), (2, rng.choice((c + 1, 129, 2 ** 64 - 1))),
        (rng.choice((3, 6, 7)), rng.getrandbits(64) | 1), (rng.choice((4, 5)), None), (rng.randrange(model.CREW, model.CREW + 4 * n), None),
        (rng.randrange(model.SETS, model.SETS + 4 * c + 1), None), (rng.randrange(model.PERMISSIONS, model.PERMISSIONS + 4 * c + 1), None),
        (rng.randrange(model.MEMBERS, model.MEMBERS + 2 * c + 1), None), (rng.randrange(model.JUNIORS, min(model.LENGTH, model.JUNIORS + 2 * c + 1)), None),
        (rng.randrange(model.LENGTH), None), (model.LENGTH - 1, 1)])
    return place, record[place] ^ 1 << rng.randrange(64) if value is None else value


def weights_of(rng):
    """Four weights, now and then one of them too large."""
    weights = list(rng.choice(((0, 0, 0, 0), (1, 1, 1, 1), (1, 1, 1, 1), (1000, 1000, 1000, 1000), (1, 0, 0, 0), (0, 1, 0, 0), (0, 0, 1, 0), (0, 0, 0, 1),
                               [rng.choice((0, 1, 1, 2, 3, 7, 1000)) for _ in range(4)], [rng.randrange(1001) for _ in range(4)])))
    if rng.random() < 0.04:
        weights[rng.randrange(4)] = rng.choice((1001, 2 ** 32, 2 ** 63, 2 ** 64 - 1))
    return weights


def bytes_for(rng, n, m):
    """How many bytes are lent for the crew text of n users and m permissions: as many as it has, one less, a few more, all that a script can, or none."""
    length = len(model.crew_text(n, m, [0] * n))
    return rng.choice((length, length, length - 1, length + rng.randrange(1, 65), MOST_BYTES, 0))


FALSE_TOLERANCES = [(0, 0), (1, 0), (0, 1), (3, 1), (2, 3), (5, 2), (999, 1000), (2001, 1000), (1001, 1001), (2002, 1001), (2 ** 63, 2 ** 63),
                    (2 ** 64 - 1, 2 ** 63), (2 ** 64 - 1, 2 ** 64 - 1), (2 ** 64 - 1, 1), (1, 2 ** 64 - 1)]


def tolerance_of(rng):
    """a and b, mostly 1/1, now and then outside the range."""
    if rng.random() < 0.04:
        return rng.choice(FALSE_TOLERANCES)
    b = rng.randrange(1, 1001)
    return rng.choice(((1, 1), (1, 1), (1, 1), (3, 2), (2, 1), (4, 3), (9, 8), (1000, 999), (1001, 1000), (2000, 1000), (1000, 1000), (b, b), (b + b // 8, b),
                       (rng.randrange(b, 2 * b + 1), b)))


def guard_lists(script):
    """The lists that tell the right machine from a wrong one, call by call."""
    for guard in guards.GUARDS:
        for kind, *numbers in guard["calls"] if guard["calls"][0][0] == "mine" else [("mine",), *guard["calls"]]:
            if kind == "mine":
                script.mine(len(guard["rows"]), guard["m"], model.crew_words(guard["rows"]))
            else:
                getattr(script, kind)(*numbers)


def refused_weights(script):
    """Rows 3, 5, 6, fresh: each way to be refused with 9, on a record that a call before it has changed; then 5 before 9."""
    ones = [1, 1, 1, 1]
    script.mine(3, 3, model.crew_words([3, 5, 6]))
    script.strike(0)
    for i in range(4):
        for value in (1001, 2 ** 63, 2 ** 64 - 1):
            weights = ones[:i] + [value] + ones[i + 1:]
            script.eliminate(weights, 1, 1)
            script.review(weights)
            script.quality(weights)
    for a, b in FALSE_TOLERANCES:
        script.eliminate(ones, a, b)
        script.eliminate([1001, 1, 1, 1], a, b)
    script.put(7, 1)
    for weights in (ones, [1001, 1, 1, 1]):
        script.eliminate(weights, 1, 1)
        script.eliminate(weights, 3, 1)
        script.review(weights)
    script.put(7, 0)
    for a, b in ((1, 1), (2, 1), (1000, 1000), (2000, 1000)):
        script.eliminate([0, 0, 0, 0], a, b)
        script.review([0, 0, 0, 0])
    script.eliminate([1000, 1000, 1000, 1000], 2000, 1000)
    script.review([1000, 1000, 1000, 1000])


def worst_lists(script, rng, written):
    """7 users who each lack one of 7 permissions, by several weights and tolerances; 128 candidates with m = 256, of 8 users and of 128. Reviews
    follow on what an elimination with other weights left, and on single restorations."""
    ones = (1, 1, 1, 1)
    words = model.crew_words(crews.lacking_one(7)[2])
    for weights, a, b in ((ones, 1, 1), ((1000, 1000, 1000, 1000), 2, 1), ((0, 1, 3, 0), 1000, 999)):
        script.mine(7, 7, words)
        script.eliminate(weights, a, b)
        script.review(ones)
        standing = model.from_words(script.record[4:6])
        for k in rng.sample(model.items(model.less(2 ** 126 - 1, standing)), min(10, 126 - model.size(standing))):
            script.restore(k)
        script.eliminate(ones, 1, 1)
        script.review((1, 2, 3, 1))
    for n, m, rows in ((8, 256, crews.full_table()[2][:8]), crews.full_table_own()):
        script.mine(n, m, model.crew_words(rows))
        script.eliminate(ones, 1, 1)
        script.review(ones)
        if written:
            script.write(len(model.crew_text(n, m, rows)))
    n, m, rows = crews.nested_chain(128, 256)
    script.mine(n, m, model.crew_words(rows))
    script.eliminate(ones, 2, 1)
    script.review(ones)
    if written:
        script.write(model.LONGEST_WRITTEN)
        script.write(model.LONGEST_WRITTEN - 1)


def other_lengths(script, written):
    """Records that are a word short, a word long, and empty: every call is refused with 1, before anything else."""
    words = model.crew_words([3, 6, 7])
    script.mine(3, 3, words)
    for count in (model.LENGTH - 1, model.LENGTH + 1, 0, 1):
        script.lend(count)
        script.mine(3, 3, words)
        script.mine(0, 3, words)
        script.strike(0)
        script.strike(9)
        script.restore(0)
        script.eliminate([1, 1, 1, 1], 1, 1)
        script.eliminate([1001, 1, 1, 1], 0, 0)
        script.review([1, 1, 1, 1])
        script.quality([1001, 1, 1, 1])
        script.may(0, 0)
        script.may(9, 9)
        if written:
            script.write(21)
            script.write(0)
        script.serve(3, 3, words, [("strike", 0)])
    script.lend(model.LENGTH)
    script.strike(0)


def served_lists(script, rng):
    """Whole lists in one go, as condition 3 speaks of them: those of guards.py, random ones, those that can't be read, and refused crews."""
    for guard in guards.GUARDS:
        calls = [call for call in guard["calls"] if call[0] in ("strike", "restore", "eliminate", "review")]
        script.serve(len(guard["rows"]), guard["m"], model.crew_words(guard["rows"]), calls)
    for _ in range(40):
        n, m, rows = crews.random_sparse(rng, rng.randrange(2, 12), rng.randrange(3, 70)) if rng.random() < 0.5 else crews.random_dense(rng, rng.randrange(2, 6), rng.randrange(3, 10))
        crew = model.crew_of(n, m, rows)
        calls = []
        for _ in range(rng.randrange(0, 25)):
            k = rng.randrange((crew.c if crew else 4) + 1)
            calls.append(rng.choice((("strike", k), ("strike", k), ("restore", k), ("restore", k), ("eliminate", weights_of(rng), *tolerance_of(rng)), ("review", weights_of(rng)))))
        script.serve(n, m, model.crew_words(rows), calls)
    words, calls = model.crew_words([3, 6, 7]), [("strike", 0), ("restore", 0)]
    for answers in (0, 3, 5, 7, 9):
        script.serve(3, 3, words, calls, answers)
    for kind in (4, 5, 2 ** 63, 2 ** 64 - 1):
        script.serve(3, 3, words, calls, kinds=[0, kind])
    script.serve(0, 3, [], calls)
    script.serve(1, 3, [8, 0, 0, 0], calls)
    script.serve(8, 8, model.crew_words(crews.lacking_one(8)[2]), calls)
    script.serve(3, 3, words, [])


def replayed(script, rng, writes=None):
    """The script of `test_replay`, put to this one; where there is a source `writes`, which moves no other call, the writer is called in between."""

    def write(often):
        if writes and writes.random() < often:
            script.write(bytes_for(writes, crew.n, crew.m))

    def role(wanted, standing=None):
        """A role of this set, strikable where R is given and a few of them show one; now and then any number."""
        if rng.random() < 0.07:
            return rng.choice((script.record[2], script.record[2] + 1, 128, 2 ** 63, 2 ** 64 - 1))
        some = rng.sample(model.items(wanted), min(5, model.size(wanted)))
        able = [k for k in some if standing is not None and model.strikable(crew, standing, k)]
        return rng.choice(able or some or [rng.randrange(script.record[2] + 1)])

    def edit_or_ask():
        standing = model.from_words(script.record[4:6]) & model.everything(crew)
        absent = model.less(model.everything(crew), standing)
        kind = rng.random()
        if kind < 0.28:
            script.strike(role(standing, standing))
        elif kind < 0.36:
            script.strike(role(standing))
        elif kind < 0.39:
            script.strike(role(absent))
        elif kind < 0.62 and not absent and rng.random() < 0.7:
            script.strike(role(standing, standing))
        elif kind < 0.62:
            script.restore(role(absent))
        elif kind < 0.65:
            script.restore(role(standing))
        elif kind < 0.74:
            script.eliminate(weights_of(rng), *tolerance_of(rng))
        elif kind < 0.85:
            script.review(weights_of(rng))
        elif kind < 0.92:
            script.quality(weights_of(rng))
        else:
            u, p = rng.choice((rng.randrange(crew.n), crew.n - 1)), rng.choice((rng.randrange(crew.m), crew.m - 1))
            script.may(u if rng.random() < 0.95 else crew.n, p if rng.random() < 0.95 else rng.choice((crew.m, 2 ** 64 - 1)))

    script.mine(8, 8, model.crew_words(crews.lacking_one(8)[2]))
    for n, m, rows in replay_crews(rng):
        script.mine(n, m, model.crew_words(rows))
        crew = model.crew_of(n, m, rows)
        if crew is None:
            continue
        if crew.c < 64 and rng.random() < 0.5:
            script.eliminate(weights_of(rng), *tolerance_of(rng))
        for turn in range(rng.randrange(8, 17) if crew.c < 10 or n > 8 else rng.randrange(20, 50)):  # where roles cross, long lists
            if crew.c > 126:
                script.strike(role(2 ** crew.c - 1))
            else:
                edit_or_ask()
            if rng.random() < 0.1:
                place, value = damage_of(rng, script.record)
                kept = script.record[place]
                script.put(place, value)
                rng.choice((lambda: script.strike(rng.randrange(crew.c + 1)), lambda: script.restore(rng.randrange(crew.c + 1)),
                            lambda: script.eliminate(weights_of(rng), *tolerance_of(rng)), lambda: script.review(weights_of(rng)),
                            lambda: script.quality([1, 1, 1, 1]), lambda: script.may(0, 0)))()
                write(0.2)
                script.put(place, kept)
            write(0.04)
            if rng.random() < 0.02:
                n2, m2, words = rng.choice(((0, 3, []), (129, 3, [1, 0, 0, 0] * 129), (1, 257, [1, 0, 0, 0]), (1, 3, [8, 0, 0, 0]), (2, 3, [1, 0, 0, 0])))
                script.mine(n2, m2, words)
    guard_lists(script)
    refused_weights(script)
    worst_lists(script, rng, bool(writes))
    other_lengths(script, bool(writes))
    served_lists(script, rng)
    script.stdin += ["s 000000000000000g\n", "s %016x\n" % 0]
    script.lines.append("unreadable\n")
    assert script.calls >= 2000
    return script.files()


@target("test_replay")
def replay(rng):
    """Lists of strikes, restorations, eliminations and reviews, good and refused, with the two calls that read and damaged records in between; then
    the lists of guards.py, the worst ones, records of other lengths, and lists served in one go. The last line but one can't be read, so the strike after it is not made."""
    return replayed(Script(), rng)


@target("test_written")
def written(rng):
    """The cases of request 1, and then the script of `test_replay` once more, with lists written back in between."""
    return replayed(worked.written(), random.Random("vectors of replay"), random.Random("lists written back"))


def crew_texts(rng):
    """Crew texts of every kind and at the limits of 01, and damaged ones."""
    lists = [(3, 3, [3, 6, 7]), (1, 1, [0]), (1, 1, [1]), (2, 3, [5, 5]), (3, 4, [0, 0, 0]), (1, 256, [2 ** 256 - 1]), (2, 255, [2 ** 254, 1]),
             (2, 3, [3, 5]), (2, 5, [15, 23]), (4, 7, [55, 124, 78, 103]), crews.lacking_one(7), crews.lacking_one(8), crews.lacking_one(6, 70), crews.nested_chain(128, 256), crews.full_table(),
             crews.antichain(30, 130), crews.random_rows(rng, 129, 3, 0.5)]
    lists += [crews.random_sparse(rng, rng.randrange(2, 25), rng.randrange(3, 60)) for _ in range(14)]
    lists += [crews.random_dense(rng, rng.randrange(2, 7), rng.randrange(3, 12)) for _ in range(14)]
    lists += [crews.nested_groups(rng, rng.randrange(3, 14), rng.randrange(4, 90)) for _ in range(8)]
    lists += [crews.duplicate_rows(rng, rng.randrange(3, 12), rng.randrange(2, 9)) for _ in range(4)]
    lists += [crews.wide(rng, rng.randrange(65, 257), rng.randrange(4, 9), 4) for _ in range(4)]
    good = [model.crew_text(n, m, rows) for n, m, rows in lists]
    texts = good + damaged_texts()
    # 2 for n, and then 10 for the length, which comes before it: who reads 16,384 bytes of both would answer 2 twice
    texts += [(b"crew,0,3\n" + b"0" * size)[:size] for size in (16384, 16385)]
    for _ in range(30):  # one byte altered, or all after it cut off
        text = bytearray(rng.choice(good[:9]))
        at = rng.randrange(len(text))
        if rng.random() < 0.8:
            text[at] = rng.choice(b"0123456789abcdef,\n ")
        else:
            del text[at:]
        texts.append(bytes(text))
    assert len(texts) >= 100
    return texts


def by_number(texts, answers):
    """The texts as files, and the line of each file's name before what is answered to it."""
    files = {"data/%03d" % number: text for number, text in enumerate(texts)}
    files["stdout"] = b"".join(b"%03d\n%s" % (number, answer) for number, answer in enumerate(answers))
    return files


@target("test_listing")
def listing_cases(rng):
    """What the lister prints for crew texts of every kind and at the limits of 01, and for damaged ones."""
    texts = crew_texts(rng)
    lines = [model.lister(text) for text in texts]
    assert {b"refused,%d\n" % code for code in (2, 3, 4, 10)} == {line for line in lines if line.startswith(b"refused")}
    return by_number(texts, lines)


@target("test_handback")
def handback_cases(rng):
    """What `handback` prints for the texts of `test_listing`."""
    texts = crew_texts(random.Random("vectors of listing_cases"))
    backs = [model.handback(text) for text in texts]
    # 02, job 1: 'every text that the reader accepts and whose list has at most 128 candidates comes back byte for byte'
    lines = [model.lister(text) for text in texts]
    assert all(back == (line if line.startswith(b"refused") else text) for text, line, back in zip(texts, lines, backs))
    return by_number(texts, backs)


@target("lister")
def lister(rng):
    """Document 01's own sample, as it is printed there."""
    text, printed = b"crew,3,3\n0,3\n1,6\n2,7\n", b"roles,2,10\n1,3,3,5,0\n2,6,6,6,0\n"
    assert model.lister(text) == printed
    return {"stdin": text, "stdout": printed}


@target("handback")
def handback(rng):
    """The crew of examples/, which comes back as it is."""
    text = (ROOT / "examples" / "tour.crew").read_bytes()
    assert model.handback(text) == text
    return {"stdin": text, "stdout": model.handback(text)}


def main():
    checking = sys.argv[1:] == ["--check"]
    if sys.argv[1:] and not checking:
        sys.exit("usage: vectors.py [--check]")
    files = generate()
    for file in (ROOT / "crates").glob("*/data/*"):
        if file.relative_to(ROOT) not in files:
            sys.exit("%s is not one that tests/vectors.py makes" % file.relative_to(ROOT))
    for path, content in files.items():
        file = ROOT / path
        if not checking:
            file.parent.mkdir(parents=True, exist_ok=True)
            file.write_bytes(content)
        elif not file.is_file() or file.read_bytes() != content:
            sys.exit("%s differs from what tests/vectors.py makes" % path)


if __name__ == "__main__":
    main()
