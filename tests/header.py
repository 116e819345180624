"""Holds include/rolepanel.h to the sources; every difference is one line, and the exit is 1.

Compared, by reading both: the calls, their parameters (name, kind, order), their answers and the fields of these, and
every constant; what the header has beside these has to be FRAME. Then a C and a C++ compiler are asked, without running
anything: the header alone has to be clean, and each call has to have the type, each answer the size and the places,
that the crate gives them. The memory budget is measured by `make host-test` (host/tests/budget.rs), so only that it is
there for each call is seen to here.
"""
import re
import shutil
import subprocess
import sys
from pathlib import Path

ROOT = Path(__file__).resolve().parent.parent
HEADER = ROOT / "include" / "rolepanel.h"
COMPILERS = (("gcc", ["-x", "c", "-std=c11"], "install GCC"), ("g++", ["-x", "c++", "-std=c++11"], "install GCC for C++"))
STRICT = ["-Wall", "-Wextra", "-pedantic", "-Werror", "-fsyntax-only"]

# the C types that a Rattle type passes as; of a slice, the pointer, and then its length
NUMBER = {"u64": ["uint64_t"]}
SLICES = {"&[u64]": ["const uint64_t *", "size_t"], "&mut [u64]": ["uint64_t *", "size_t"],
          "&[u8]": ["const uint8_t *", "size_t"], "&mut [u8]": ["uint8_t *", "size_t"]}

# the header's names for constants of the crates: file, name
LAYOUT, REFUSALS = "crates/tables/src/layout.rt", "crates/refusals/src/lib.rt"
READER, WRITER = "crates/text_crew/src/lib.rt", "crates/text_write/src/lib.rt"
CONSTANTS = {"PANEL_RECORD_WORDS": (LAYOUT, "LENGTH"), "PANEL_AT_STANDING": (LAYOUT, "STANDING"),
             "PANEL_AT_CREW": (LAYOUT, "CREW"), "PANEL_AT_SETS": (LAYOUT, "SETS"),
             "PANEL_AT_PERMISSIONS": (LAYOUT, "PERMISSIONS"), "PANEL_AT_MEMBERS": (LAYOUT, "MEMBERS"),
             "PANEL_AT_JUNIORS": (LAYOUT, "JUNIORS"), "PANEL_ROWS_WORDS": (READER, "BUFFER"),
             "PANEL_TEXT_BYTES": (READER, "LONGEST"), "PANEL_CREW_BYTES": (WRITER, "LONGEST_WRITTEN")}

# where no constant of the code has a name for it, the definition gives it: acceptance, and the words before the sets
CLAIM, RECORD = "crates/model/specs/Claim.antt", "crates/model/specs/Record.antt"
NUMBERS = {"PANEL_AT_N": "st.users", "PANEL_AT_M": "st.permissions", "PANEL_AT_C": "candidate_count (roles_of st)"}

# who else says the version
CHANGES, INSTALLED = "CHANGELOG.md", "rolepanel.pc.in"

# the header without calls, answers, constants and comments
FRAME = """
#ifndef ROLEPANEL_H
#define ROLEPANEL_H
#include <stddef.h>
#include <stdint.h>
static inline uint64_t panel_has(const uint64_t *set, uint64_t i) {
return set[i / 64] >> (i % 64) & 1;
}
#ifdef __cplusplus
extern "C" {
#endif
#ifdef __cplusplus
}
#endif
#endif
"""


def c_name(struct):
    """MineAnswer is struct panel_mine_answer in C."""
    return "panel" + re.sub("[A-Z]", lambda capital: "_" + capital[0].lower(), struct)


def pairs(text, separator=","):
    """The pieces `name: type` of a list."""
    return [tuple(part.strip() for part in piece.split(":")) for piece in text.split(separator) if piece.strip()]


def parameters(text):
    """The C parameters, as (type, name), of a Rattle parameter list."""
    found = []
    for name, kind in pairs(text):
        if kind in SLICES:
            pointer, length = SLICES[kind]
            found += [(pointer, name), (length, name + "_len")]
        else:
            found += [(NUMBER[kind][0], name)]
    return found


def exported(sources):
    """The exported calls, {name: (answer, parameters)}, and the answers' fields, {name: [(type, name)]}."""
    calls, structs = {}, {}
    for source in sources:
        text = re.sub(r"//[^\n]*", "", source.read_text(encoding="utf-8"))
        for name, body in re.findall(r"#\[repr\(C\)\](?:\s*#\[derive\([^\n]*\)\])?\s*pub struct (\w+)\s*{(.*?)}", text, re.S):
            structs[c_name(name)] = [(NUMBER[kind][0], field.removeprefix("pub").strip()) for field, kind in pairs(body)]
        for name, body, answer in re.findall(
                r"#\[unsafe\(no_mangle\)\]\s*pub extern \"C\" fn (\w+)\s*\((.*?)\)\s*->\s*(\w+)", text, re.S):
            calls[name] = (c_name(answer), parameters(body))
        if text.count("no_mangle") != sum(name in calls for name in re.findall(r"extern \"C\" fn (\w+)", text)):
            sys.exit("tests/header.py: an exported call in %s is not understood" % source.relative_to(ROOT))
    answers = {answer for answer, _ in calls.values()}
    return calls, {name: fields for name, fields in structs.items() if name in answers}


def first(pattern, file):
    """What the pattern's brackets have in a file, the first time that it is met."""
    match = re.search(pattern, (ROOT / file).read_text(encoding="utf-8"))
    if not match:
        sys.exit("tests/header.py: %s has no %s" % (file, pattern))
    return match[1]


def sourced():
    """The constants that the sources give, as (name in the header, value, where)."""
    for name, (file, constant) in CONSTANTS.items():
        yield name, first(r"const %s: (?:usize|u64) = (\d+);" % constant, file), "%s of %s" % (constant, file)
    for variant in first(r"(?s)pub enum Refusal {\n(.*?)\n}", REFUSALS).split("\n"):
        if variant.strip() and not variant.strip().startswith("//"):
            match = re.fullmatch(r"    (\w+) = (\d+),", variant)
            if not match:
                sys.exit("tests/header.py: a refusal in %s is not understood: %s" % (REFUSALS, variant.strip()))
            yield "PANEL_REFUSED_" + match[1].upper(), match[2], "Refusal::%s of %s" % (match[1], REFUSALS)
    yield "PANEL_ACCEPTED", first(r"Accepted ws call = .* ≡ (\d+)\n", CLAIM), "Accepted of " + CLAIM
    words = [word.strip() for word in first(r"header_word st i =\s+get_or\s+\((.*)\)\s+i 0\n", RECORD).split("∷")]
    for name, word in NUMBERS.items():
        yield name, str(words.index(word)) if word in words else "nowhere", "header_word of " + RECORD
    newest = first(r"(?m)^## (\d+\.\d+\.\d+)$", CHANGES)
    for part, number in zip(("MAJOR", "MINOR", "PATCH"), newest.split(".")):
        yield "PANEL_VERSION_" + part, number, "the newest entry of " + CHANGES
    yield "PANEL_VERSION", '"%s"' % newest, "the newest entry of " + CHANGES
    yield "PANEL_VERSION", '"%s"' % first(r"(?m)^Version: (.*)$", INSTALLED), INSTALLED


def stack_names(calls):
    """The constants of the calls' stacks: PANEL_STACK_MINE of panel_mine."""
    return [name.upper().replace("PANEL_", "PANEL_STACK_", 1) for name in calls]


def typed(piece):
    """(type, name) of a C parameter or field."""
    kind, star, name = re.fullmatch(r"\s*((?:const )?\w+)\s*(\*?)\s*(\w+)\s*", piece).groups()
    return kind + (" *" if star else ""), name


def declared():
    """Calls and structs of the header, as those exported; its constants, {name: value}; and the lines of the rest."""
    rest = re.sub(r"/\*.*?\*/", "", HEADER.read_text(encoding="utf-8"), flags=re.S)

    def taken(pattern):
        nonlocal rest
        found, rest = re.findall(pattern, rest), re.sub(pattern, "", rest)
        return found

    calls = {name: (answer, [typed(piece) for piece in body.split(",")])
             for answer, name, body in taken(r"struct (\w+) (\w+)\(([^()]*)\);")}
    structs = {name: [typed(piece) for piece in body.split(";") if piece.strip()]
               for name, body in taken(r"struct (\w+) {([^{}]*)};")}
    constants = dict(taken(r'(?m)^#define (\w+) (\d+|"[^"\n]*") *$'))
    return calls, structs, constants, [line.strip() for line in rest.splitlines() if line.strip()]


def told(typed_names):
    return "(" + ", ".join(kind + ("" if kind.endswith("*") else " ") + name for kind, name in typed_names) + ")"


def differences(crate, header):
    for kind, ours, theirs in zip(("call", "struct"), crate, header):
        for name in sorted(ours.keys() | theirs.keys()):
            if name not in theirs:
                yield "%s %s is exported and not in the header" % (kind, name)
            elif name not in ours:
                yield "%s %s is in the header and not exported" % (kind, name)
            elif kind == "call" and ours[name][0] != theirs[name][0]:
                yield "%s answers %s, in the header %s" % (name, ours[name][0], theirs[name][0])
            else:
                a, b = (ours[name][1], theirs[name][1]) if kind == "call" else (ours[name], theirs[name])
                if a != b:
                    yield "%s has %s, in the header %s" % (name, told(a), told(b))


def constant_differences(ours, stacks, theirs):
    """Those of the constants: each that the header has is compared, or is one of the memory budget."""
    for name, value, where in ours:
        if theirs.get(name) != value:
            yield "%s is %s by %s, in the header %s" % (name, value, where, theirs.get(name, "it is missing"))
    budget = ["PANEL_CODE_BYTES", "PANEL_STACK_ANY", *stacks]
    missing = [name for name in budget if not theirs.get(name, "").isdigit()]
    for name in missing:
        yield "%s is no number of bytes in the header" % name
    if not missing and int(theirs["PANEL_STACK_ANY"]) != max(int(theirs[name]) for name in stacks):
        yield "PANEL_STACK_ANY is not the largest of the calls' stacks"
    for name in theirs.keys() - {name for name, _, _ in ours} - set(budget):
        yield "%s is in the header, and nothing here gives its value" % name


def frame_differences(lines):
    frame = FRAME.split("\n")[1:-1]
    if lines != frame:
        at = next((i for i, (ours, theirs) in enumerate(zip(frame, lines)) if ours != theirs), min(len(frame), len(lines)))
        yield "the header has a line that is compared with nothing, or lacks one: %s" % (lines[at:] + frame[at:])[0]


def demanded(calls, structs):
    """A source that a compiler takes only if the header gives the calls and answers these types, sizes and places."""
    demand = "PANEL_CHECK(%s, %s);"
    lines = ['#include "%s"' % HEADER.name, "#ifdef __cplusplus",
             "#define PANEL_CHECK(what, name) static_assert(what, name)", "#else",
             "#define PANEL_CHECK(what, name) _Static_assert(what, name)", "#endif"]
    for name, fields in structs.items():
        lines.append(demand % ("sizeof(struct %s) == %d" % (name, 8 * len(fields)), '"%s: size"' % name))
        for place, (_, field) in enumerate(fields):
            lines.append(demand % ("offsetof(struct %s, %s) == %d" % (name, field, 8 * place),
                                   '"%s: place of %s"' % (name, field)))
    for name, (answer, typed_names) in calls.items():
        kinds = ", ".join(kind for kind, _ in typed_names)
        lines.append("extern struct %s (*const checked_%s)(%s);" % (answer, name, kinds))
        lines.append("struct %s (*const checked_%s)(%s) = %s;" % (answer, name, kinds, name))
    return "\n".join(lines) + "\n"


def compiled(compiler, words, what, source):
    """The first complaint of a compiler, if it has any; without a source it is asked about the header alone."""
    if source is None:
        run = subprocess.run([compiler, *words, *STRICT, str(HEADER)], capture_output=True, text=True)
    else:
        run = subprocess.run([compiler, *words, *STRICT, "-I", str(HEADER.parent), "-"], input=source,
                             capture_output=True, text=True)
    if run.returncode:
        complaints = [line for line in run.stderr.splitlines() if "error" in line] or run.stderr.splitlines() or ["?"]
        yield "%s on %s: %s" % (compiler, what, complaints[0].replace(str(ROOT) + "/", ""))


def main():
    for compiler, _, remedy in COMPILERS:
        if shutil.which(compiler) is None:
            sys.exit("tests/header.py: %s is missing: %s" % (compiler, remedy))
    sources = [source for name in ("panel_c", "call_*", "text_crew") for source in sorted((ROOT / "crates").glob(name + "/src/*.rt"))]
    crate = exported(sources)
    *header, constants, rest = declared()
    faults = list(differences(crate, header))
    faults += constant_differences(list(sourced()), stack_names(crate[0]), constants)
    faults += frame_differences(rest)
    for compiler, words, _ in COMPILERS if not faults else ():
        faults += compiled(compiler, words, "include/" + HEADER.name, None)
        faults += compiled(compiler, words, "the calls' types", demanded(*crate))
    for fault in faults:
        print("tests/header.py: " + fault, file=sys.stderr)
    if faults:
        sys.exit(1)
    print("header: %d calls and %d answers as exported, %d constants" % (len(crate[0]), len(crate[1]), len(constants)))


main()
