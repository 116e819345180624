"""Scripts for the library `test_script`, which the programs `test_worked` and `test_replay` run, each made beside what the model answers to it."""
import model

START = 0x9e3779b97f4a7c15
MOST_BYTES = 9000  # that a crew text can be written to


def mixed(d):
    """One step of the digest: d moved up by 13, down by 7 and up by 17, each added to what it was moved from."""
    d ^= d << 13 & 2 ** 64 - 1
    d ^= d >> 7
    return d ^ d << 17 & 2 ** 64 - 1


def digest(words):
    """Of words, as the test programs print it."""
    d = START
    for word in words:
        d = mixed(d ^ word)
    return d


def case(name, numbers, answers, words):
    """The line that is printed for a call."""
    return " ".join([name, *map(str, numbers)]) + ":" + "".join(" %d" % answer for answer in answers) + " %016x\n" % digest(words)


class Script:
    """The record goes from command to command; `beyond` are the program's words that are not lent."""

    def __init__(self):
        self.record, self.beyond = [0xaaaaaaaaaaaaaaaa] * model.LENGTH, [0xaaaaaaaaaaaaaaaa]
        self.stdin, self.lines, self.calls = [], [], 0

    def line(self, name, numbers):
        self.stdin.append(name + "".join(" %016x" % number for number in numbers) + "\n")

    def title(self, text):
        self.stdin.append("t" + text + "\n")
        self.lines.append(text + "\n")

    def lend(self, count):
        words = self.record + self.beyond
        self.record, self.beyond = words[:count], words[count:]
        self.line("w", [count])

    def call(self, byte, name, numbers, answer):
        *answer, self.record = answer
        self.line(byte, numbers)
        self.lines.append(case(name, numbers, answer, self.record))
        self.calls += 1

    def mine(self, n, m, words):
        code, candidates, self.record = model.mine(n, m, words, self.record)
        self.line("m", [n, m, len(words), *words])
        self.lines.append(case("mine", [n, m], [code, candidates], self.record))
        self.calls += 1

    def strike(self, k):
        self.call("s", "strike", [k], model.strike(self.record, k))

    def restore(self, k):
        self.call("r", "restore", [k], model.restore(self.record, k))

    def eliminate(self, weights, a, b):
        self.call("e", "eliminate", [*weights, a, b], model.eliminate(self.record, weights, a, b))

    def review(self, weights):
        self.call("v", "review", weights, model.review(self.record, weights))

    def quality(self, weights):
        self.call("q", "quality", weights, model.quality(self.record, weights))

    def may(self, u, p):
        self.call("a", "may", [u, p], model.may(self.record, u, p))

    def read(self, text, length=model.BUFFER):
        """A crew text into this many words, which are all 7."""
        code, n, m, words = model.read_crew(text, [7] * length)
        self.line("c", [len(text), length])
        self.stdin.append(text.decode("ascii"))
        self.lines.append(case("read", [], [code, n, m], words))
        self.calls += 1

    def write(self, count):
        """The record's crew text into this many bytes, which are all 7. The digest takes each byte as a word."""
        assert count <= MOST_BYTES, count
        code, length, text = model.write_crew(self.record, [7] * count)
        self.line("b", [count])
        self.lines.append(case("write", [count], [code, length], text))
        self.calls += 1

    def serve(self, n, m, words, calls, answers=None, kinds=None):
        """A list of calls [(kind, numbers ..)] in one go: seven words to a call and three to an answer. `answers` may be another count of these,
        and `kinds` other kinds than the calls have, neither of which can be read."""
        names = ["strike", "restore", "eliminate", "review"]
        encoded = []
        for i, (kind, *numbers) in enumerate(calls):
            flat = [x for number in numbers for x in (number if isinstance(number, (list, tuple)) else [number])]
            encoded += ([kinds[i] if kinds else names.index(kind), *flat] + [i] * 6)[:7]  # words that a kind does not name are not looked at
        count = 3 * len(calls) if answers is None else answers
        out, told = [7] * count, ("list unreadable", [])
        if count == 3 * len(calls) and not kinds:
            code, candidates, record = model.mine(n, m, words, self.record)
            told = ("list refused", [code]) if code else ("list mined", [candidates])
            for i, (kind, *numbers) in enumerate([] if code else calls):
                *answer, record = getattr(model, kind)(record, *numbers)
                out[3 * i:3 * i + 3] = (answer + [0, 0])[:3]
            self.record = record
        self.line("l", [n, m, len(words), len(encoded), count, *words, *encoded])
        self.lines.append(case(*told, out, self.record))
        self.calls += 1

    def put(self, place, value):
        """A word of the record altered, or put back."""
        self.record[place] = value
        self.line("d", [place, value])
        self.lines.append(case("word", [place, value], [], self.record))

    def files(self):
        return {"stdin": "".join(self.stdin).encode("ascii"), "stdout": "".join(self.lines).encode("ascii")}
