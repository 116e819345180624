"""What examples/panel.c prints: the same calls, made on the model."""
import model

ONES = [1, 1, 1, 1]
TEXT = b"crew,3,3\n0,3\n1,6\n2,7\n"


def roles(when, record):
    """The quality, and the standing roles as the record has them; all sets of this list fit their first words."""
    yield "%s: quality %d" % (when, model.quality(record, ONES)[1])
    for k in model.items(model.read_out(record)[3]):
        yield ("  role %d: permissions %x, direct permissions %x, direct members %x, immediate juniors %x"
               % (k, record[model.SETS + 4 * k], *model.row_of(record, k)))


def rights(record):
    n, m = model.read_out(record)[:2]
    for u in range(n):
        yield "user %d may:" % u + "".join(" %d" % p for p in range(m) if model.may(record, u, p)[1])


def lines():
    _, n, m, words = model.read_crew(TEXT, [0] * model.BUFFER)
    _, c, record = model.mine(n, m, words[:4 * n], [0] * model.LENGTH)
    yield "mined: %d candidates of %d users and %d permissions" % (c, n, m)
    yield from roles("all candidates stand", record)
    yield from rights(record)
    yield "strike 1: %d" % model.strike(record, 1)[0]
    yield "restore 0: %d" % model.restore(record, 0)[0]
    yield "strike 4: %d" % model.strike(record, 4)[0]
    record = model.strike(record, 0)[1]
    yield from roles("0 struck", record)
    record = model.restore(record, 0)[1]
    yield from roles("0 restored", record)
    _, struck, taken, record = model.eliminate(record, ONES, 1, 1)
    yield "eliminate: struck %d, taken up %d" % (struck, taken)
    _, restored, taken, record = model.review(record, ONES)
    yield "review: restored %d, taken up %d" % (restored, taken)
    yield from roles("eliminated and reviewed", record)
    yield from rights(record)
    _, length, written = model.write_crew(record, [0] * model.LONGEST_WRITTEN)
    yield "written back: %d bytes" % length
    yield from bytes(written[:length]).decode("ascii").splitlines()
    record[3] = 1
    yield "word 3 damaged: %d" % model.quality(record, ONES)[0]


def output():
    return "".join(line + "\n" for line in lines()).encode("ascii")
