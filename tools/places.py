#!/usr/bin/env python3
"""Lists the places in crates/*/src that docs/DESIGN-PASS.md counts, point by point: tools/places.py [POINT..] [--top FOLDER].

Each rule goes by text, so that a place may be listed that is none: the page says of each that stays why it does."""
import re
import sys
from collections import defaultdict
from pathlib import Path

arguments = sys.argv[1:]
top = Path(__file__).resolve().parent.parent
if "--top" in arguments:
    at = arguments.index("--top")
    top = Path(arguments[at + 1])
    del arguments[at : at + 2]
wanted = set(arguments)

files = sorted((top / "crates").glob("*/src/**/*.rt"))
lines = [(str(f.relative_to(top / "crates")), n, line) for f in files for n, line in enumerate(f.read_text().splitlines(), 1)]
code = [(f, n, line) for f, n, line in lines if not line.strip().startswith(("//", "ghost use"))]


def section(point, title, places):
    """Prints a rule's places; the number in front is what the page's table has."""
    if wanted and point.split(".")[0] not in wanted:
        return
    print(f"{point} {title}: {len(places)}")
    for place in places:
        print(f"    {place}")


def matching(pattern):
    rule = re.compile(pattern)
    return [f"{f}:{n}: {line.strip()}" for f, n, line in code if rule.search(line)]


def functions():
    """Each function: its file, line, name, signature with clauses, and body."""
    for f in files:
        text = "\n".join("" if line.strip().startswith("//") else line for line in f.read_text().splitlines())
        for head in re.finditer(r"^( *)(?:pub(?:\(crate\))? )?(?:extern \"C\" )?fn (\w+)", text, re.M):
            body = re.compile(rf"^{head[1]}\{{\n(.*?)^{head[1]}\}}$", re.M | re.S).search(text, head.start())
            line = text[: head.start()].count("\n") + 1
            if body:
                yield str(f.relative_to(top / "crates")), line, head[2], text[head.start() : body.start()], body[1]


every = list(functions())

section("1.a", "enums of the shape of Option or Result", matching(r"^    (No[A-Z]\w*|Malformed),$"))
section("1.b", "fields that say whether the other fields count", matching(r"^ +(pub )?(refusal|passed|wrote|failed|started|going|feeding): (u32|bool),"))
section("1.c", "refusals and kinds as numbers", matching(r"return \d+;$|refuse\(\d+\)|refused\((before, )?\d+\)|refusal: u32[,)]|as isize|=> -1,|const NOT_\w+: u32"))
section("1.d", "tests of such a number", matching(r"(refusal|number) [!=]= 0"))

# Functions of one shape: alike once names, numbers and texts are taken out.
shapes = defaultdict(list)
for f, n, name, signature, body in every:
    bare = re.sub(r'b?"[^"]*"|\b0x[0-9a-f_]+\b|\b\d[\d_]*\b|\b[A-Za-z_]\w*\b', "_", body)
    bare = re.sub(r"\s+", "", bare)
    if len(bare) > 25:
        shapes[bare].append(f"{f}:{n} {name}")
section("2", "functions of one shape", [" = ".join(group) for group in shapes.values() if len(group) > 1])

section("3", "loops that count by hand", matching(r"^\s+(while|loop)\b"))
section("4.a", "library functions under names of their own", matching(r"fn (same|bit|wide|shorter|excess|room|first_round|word_at|put_word|clear|fitting)\b"))
section("4.b", "free functions of std::num for methods", matching(r"std::num::\w+\("))
section("4.c", "conversions under names of their own", matching(r"fn (number|of_number|verb_of|number_of|is_digit|nibble|digit_of)\("))

facts = defaultdict(list)
for f, n, name, signature, body in every:
    for clause in re.findall(r"requires(?: \w+)? \{ (.*?) \}", signature):
        for fact in re.split(r" × ", clause):
            facts[(f.split("/")[0], fact.strip("()"))].append(f"{n} {name}")
section("5.a", "facts that three or more functions of a crate require", [f"{c}: {fact}: {', '.join(w)}" for (c, fact), w in facts.items() if len(w) > 2])
pairs = [
    f"{f}:{n} {name}"
    for f, n, name, signature, body in every
    if re.search(r"(text|out|line): &mut \[u8\]", signature) and re.search(r"\b(at|from|held): usize", signature)
    or re.search(r"session: Session|first: Session", signature) and "line: &mut" in signature
]
section("5.b", "functions that take a buffer and a place in it, or a script and its line", pairs)
section("6", "buffers with a length beside them, parallel arrays", matching(r"^ +(pub )?\w+: (\[\w+; \d+\]|&'?\w* ?mut \[u8; \d+\]),|held: usize|size: usize|next: usize"))
section("7", "flags that choose a step", [f"{f}:{n} {name}" for f, n, name, signature, body in every if re.search(r"\w+: bool[,)]", signature.split("ensures")[0])])

if not wanted or "8" in wanted:
    proofs = sorted((top / "crates").glob("*/proofs/**/*.antt"))
    count = lambda name: sum(len(f.read_text().splitlines()) for f in proofs if (f.name in ("Answers.antt", "Invariants.antt")) == name)
    answers = sum(len(re.findall(r"^pub .* : goal\.", f.read_text(), re.M)) for f in proofs)
    print(f"8 answers and invariants: {answers} in {count(True)} lines; laws: {count(False)} lines")
