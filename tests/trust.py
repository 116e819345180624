"""Holds docs/TRUST.md to the promises of the outside calls; every difference is one line, and the exit is 1.

From the contracts of the exported functions and of `serve` it follows each name to its definition, and from there to
the names that the definition cites, until all are found. The page has to list just these: the definitions by file, and
the names of the toolchain's libraries that they rest on. `--write` puts the lists into the page. Each exported function
has the contract of `panel`'s function of its name, word for word; what an answer's words are, a struct of C on the one
side and a `Result` on the other, each side defines for itself, so the names of both are followed.
"""
import re
import sys
from pathlib import Path

ROOT = Path(__file__).resolve().parent.parent
PAGE = ROOT / "docs" / "TRUST.md"
SOURCES = ("crates/panel_c/src/lib.rt", "crates/panel/src/list.rt")
BEHIND = "crates/panel/src/exports.rt"
BEGIN, END = "<!-- from tests/trust.py: begin -->", "<!-- from tests/trust.py: end -->"
TOKEN = re.compile(r"\[\]|[^\s(){}\[\],;]+")


class Unknown(Exception):
    """A name or a file that can't be followed."""


def imports(text):
    """The imported names, {name: module}, and the modules that have another name, {name: module}."""
    names, modules = {}, {}
    for line in re.findall(r"(?m)^(?:pub )?(?:ghost )?use (.+?);?$", text):
        listed = re.fullmatch(r"(\S+)\.\{(.*)\}", line)
        other = re.fullmatch(r"(\S+) as (\S+)", line)
        if listed:
            names.update({name.strip(): listed[1] for name in listed[2].split(",")})
        elif other:
            modules[other[2]] = other[1]
    return names, modules


def words(text):
    """The names that a text uses: what is quoted, commented or a field is none. Of `x.f` it has `x` too, whose field f may be."""
    text = re.sub(r"(?m)--.*$|//.*$", "", text)
    found = set()
    for token in TOKEN.findall(text):
        if not token.startswith("."):
            found |= {token.rstrip("."), token.split(".")[0]}
    return found


def uses(name, found):
    """Whether a name is among the words: of a name with places, as `◌and◌`, its first part."""
    return name in found or ("◌" in name and [part for part in name.split("◌") if part][0] in found)


class Module:
    """A file of definitions: where each starts, its text and how many lines that has."""

    def __init__(self, path):
        self.path, self.found = path, {}
        text = path.read_text(encoding="utf-8")
        self.names, self.modules = imports(text)
        current = None
        for line in text.splitlines():
            head = re.match(r"(?:unfoldable |abbrev )?pub (?:record |data )?([^\s:({]+)", line)
            if head and head[1] != "mod" and not line.startswith((" ", "pub use")):
                current = head[1]
                self.found[current] = []
            elif re.match(r"(use|pub use|infix[lr]?|pub mod) ", line):
                current = None
            if current and line.strip() and not line.lstrip().startswith("--"):
                self.found[current].append(line)
        self.parents = {case: name for name, lines in self.found.items() if re.search(r"\bdata\b", lines[0])
                        for case in re.findall(r"(?m)^  (\w+) :", "\n".join(lines))}


class Walk:
    """Follows names: `reached` is {file: {name}}, `kit` {module: {name}}, `structs` {file: {name}}."""

    def __init__(self):
        self.files, self.reached, self.kit, self.structs = {}, {}, {}, {}

    def module(self, path):
        if path not in self.files:
            self.files[path] = Module(path)
        return self.files[path]

    def struct(self, crate, name):
        """A struct or an enum of the code, whose record the toolchain declares."""
        for path in sorted((ROOT / "crates" / crate / "src").glob("*.rt")):
            if re.search(r"(?m)^(pub )?(struct|enum) %s\b" % name, path.read_text(encoding="utf-8")):
                self.structs.setdefault(path, set()).add(name)
                return
        raise Unknown("no struct or enum %s in the crate %s" % (name, crate))

    def follow(self, module, name):
        root, crate, *path = module.split(".")
        if root != "Rattle" or not (ROOT / "crates" / crate).is_dir():
            self.kit.setdefault(module, set()).add(name)
            return
        if path[:1] != ["specs"] or len(path) < 2:
            raise Unknown("%s of %s is no definition: a promise must not rest on it" % (name, module))
        path = path[1:]
        if path[0] == "declared":
            self.struct(crate, next(part for part in path[1:] if part[0].isupper()))
            return
        file = ROOT / "crates" / crate / "specs" / (path[0] + ".antt")
        target = self.module(file)
        name = path[1] if len(path) > 1 else target.parents.get(name, name)
        if name not in target.found:
            raise Unknown("%s is not defined in %s" % (name, file.relative_to(ROOT)))
        if name not in self.reached.setdefault(file, set()):
            self.reached[file].add(name)
            self.text("\n".join(target.found[name]), target)

    def text(self, text, module, local=True):
        """Follows all names that a text in a module uses."""
        found = words(text)
        if local:
            for name in list(module.found):
                if uses(name, found) and name not in self.reached[module.path]:
                    self.follow("Rattle.%s.specs.%s" % (module.path.parts[-3], module.path.stem), name)
        for name, source in module.names.items():
            if uses(name, found):
                self.follow(source, name)
        for short, source in module.modules.items():
            for token in found:
                if token.startswith(short + "."):
                    self.follow(source, token[len(short) + 1:])


def contracts(text):
    """The contracts of the public functions: those that are exported, and `serve`."""
    for match in re.finditer(r'(?m)^pub (?:extern "C" )?fn (\w+)', text):
        head = text[match.start():text.index("\n{", match.start())]
        yield match[1], "\n".join(line for line in head.splitlines() if re.match(r"\s+(requires|ensures)", line))


def collect():
    walk, calls = Walk(), []
    behind = dict(contracts((ROOT / BEHIND).read_text(encoding="utf-8")))
    for source in (*SOURCES, BEHIND):
        text = (ROOT / source).read_text(encoding="utf-8")
        used = imports(text)
        for name, contract in contracts(text):
            if "requires" in contract:
                raise Unknown("%s has a requires" % name)
            if name != "serve" and contract != behind.get(name):
                raise Unknown("%s is exported with another contract than it has in %s" % (name, BEHIND))
            if source != BEHIND:
                calls.append(name)
            found = words(contract)
            for cited, module in used[0].items():
                if uses(cited, found):
                    walk.follow(module, cited)
    return walk, calls


def in_order(paths):
    """The files from the ground up: crates as crates.txt lists them, and a crate's files as its root does."""
    crates = re.findall(r"(?m)^(\w+)(?: staticlib)?:", (ROOT / "crates.txt").read_text(encoding="utf-8"))

    def place(path):
        listed = re.findall(r"(?m)^pub mod (\w+)", (path.parent / "Lib.antt").read_text(encoding="utf-8"))
        return crates.index(path.parts[-3]), listed.index(path.stem)

    return sorted(paths, key=place)


def page(walk, calls):
    """The lists, as they stand in the page."""
    lines, total = ["Calls: " + ", ".join("`%s`" % call for call in calls) + ".", "",
                    "| file | lines | definitions |", "|---|---|---|"], 0
    for path in in_order(walk.reached):
        module = walk.files[path]
        names = [name for name in module.found if name in walk.reached[path]]
        count = sum(len(module.found[name]) for name in names)
        total += count
        lines.append("| `%s` | %d | %s |" % (path.relative_to(ROOT / "crates"), count, ", ".join("`%s`" % name for name in names)))
    lines += ["", "%d lines in %d files, without comments and imports." % (total, len(walk.reached)), "",
              "Structs and enums of the code that they speak of: "
              + "; ".join("`%s`: %s" % (path.relative_to(ROOT / "crates"), ", ".join("`%s`" % name for name in sorted(names)))
                          for path, names in sorted(walk.structs.items())) + ".", "",
              "| of the toolchain | names |", "|---|---|"]
    for module in sorted(walk.kit):
        lines.append("| `%s` | %s |" % (module, ", ".join("`%s`" % name for name in sorted(walk.kit[module]))))
    return lines


def main():
    try:
        made = page(*collect())
    except Unknown as problem:
        sys.exit("trust: %s" % problem)
    text = PAGE.read_text(encoding="utf-8")
    if text.count(BEGIN) != 1 or text.count(END) != 1:
        sys.exit("trust: %s has no place for the lists" % PAGE.relative_to(ROOT))
    before, rest = text.split(BEGIN)
    stands, after = rest.split(END)
    if sys.argv[1:] == ["--write"]:
        PAGE.write_text(before + BEGIN + "\n" + "\n".join(made) + "\n" + END + after, encoding="utf-8")
        return
    there = stands.strip("\n").split("\n")
    for line in there:
        if line not in made:
            print("trust: the page says, and the promises do not: " + line)
    for line in made:
        if line not in there:
            print("trust: the promises reach, and the page does not say: " + line)
    if there != made:
        sys.exit("trust: docs/TRUST.md does not list what the promises rest on (python3 tests/trust.py --write)")
    print("trust: %d files of definitions" % sum(line.startswith("| `") and "specs/" in line for line in made))


main()
