#!/usr/bin/env python3
"""Brings the names of this repository's own definitions and lemmas to the spelling of today's Rattle.

usage: tools/respell.py [--write]      at the top of the repository, once, right after the kit's port.py; without --write it only lists the names

A word in camel case goes to snake case: bytesFrom to bytes_from. A dash stays where it joins two names, and is an underscore where it joins plain words.
The names are those that crates/*/specs and crates/*/proofs define. Names of functions in src/, of goals and of the library are left as they are.
"""
import collections
import os
import re
import sys

# Names that would fall together with another: a lemma named as its function gets _lem. Where the two never meet in a file, both are spelled alike.
BY_HAND = {
    "is_digit": "is_digit_lem", "isDigit": "is_digit", "longest-line": "longest_line_lem", "longestLine": "longest_line", "most_bytes": "most_bytes_lem", "mostBytes": "most_bytes",
    "on-ticket": "on_ticket_lem", "onTicket": "on_ticket", "in-front": "in_front_lem", "inFront": "in_front", "with-field": "with_field", "withField": "with_field",
    "isOpen": "is_open", "after-digits": "after_digits", "xor-few": "xor_few_lem", "bit-xor": "bit-xor", "and-then": "and-then",
}
OWN = {c for c in os.listdir("crates") if os.path.isdir(os.path.join("crates", c, "src"))}
LETTER = r"[^\W_]"
NAME = r"[^\W\d][\w']*(?:-[\w'∷+*]+)*"
TOKEN = re.compile(rf"(?<![\w'\-]){NAME}(?![\w'])")
MARKS = r"(?:pub |private |abbrev |unfoldable )*"
DEFINES = re.compile(rf"^\s*{MARKS}((?:{NAME} )*{NAME}) :(?!=)")
DATA = re.compile(rf"^\s*(?:pub )?(?:record|data|ruleset) ({NAME})")
GOAL = re.compile(r":\s*(?:\{M : Type 1\} → )?(?:tie\.|statement\b)")
USES = re.compile(r"^\s*(?:ghost )?(?:pub )?use ([^\s{;]+?)\.?(?:\{([^}]*)\}|(?: as ([\w'-]+)))?;?\s*$", re.M)
LAYOUT = re.compile(r"^\s*(?:--|//)")


def files(ending):
    for folder, dirs, names in os.walk("crates"):
        dirs[:] = sorted(d for d in dirs if d != "out")
        for name in sorted(names):
            if name.endswith(ending):
                yield os.path.join(folder, name)


def read(path):
    with open(path, encoding="utf-8") as f:
        return f.read()


def snake(word):
    """A word in camel case, in snake case. Words that begin with a capital are types, and stay."""
    if not re.match(r"[a-z]", word) or "_" in word and re.search(r"_[A-Z]", word):
        return word
    word = re.sub(r"(?<=[a-z0-9'])([A-Z]+)(?=[A-Z][a-z])", r"_\1_", word)
    word = re.sub(r"(?<=[a-z0-9'])([A-Z])", r"_\1", word)
    return word.lower() if re.search(r"[A-Z]", word) else word


def survey():
    defined, borrowed, spoken = set(), set(), collections.Counter()
    for path in files((".antt", ".rt")):
        text = read(path)
        for use in USES.finditer(text):
            mine = use.group(1).startswith("Rattle.") and use.group(1).split(".")[1] in OWN
            for name in (use.group(2) or "").split(","):
                if not mine:
                    borrowed.add(name.strip().split(" as ")[0])
        if path.endswith(".antt"):
            for line in text.split("\n"):
                if LAYOUT.match(line):
                    continue
                m = DEFINES.match(line)
                if m and not GOAL.search(line):
                    defined.update(m.group(1).split())
                m = DATA.match(line)
                if m:
                    defined.add(m.group(1))
        spoken.update(TOKEN.findall(text))
    return defined, borrowed, spoken


def code_names():
    """Names that src/ declares: functions, parameters, fields, constants."""
    names = set()
    for path in files(".rt"):
        text = "\n".join(l for l in read(path).split("\n") if not LAYOUT.match(l))
        names.update(re.findall(r"\bfn (\w+)", text))
        names.update(re.findall(r"\b(\w+): ", text))
        names.update(re.findall(r"\blet (?:mut )?(\w+)", text))
        names.update(re.findall(r"\bmod (\w+)", text))
    return names


def joined(name, known):
    """The name with an underscore for each dash that does not join two names."""
    parts = name.split("-")
    out = parts[0]
    for k in range(1, len(parts)):
        before = any("_".join(parts[a:k]) in known or "-".join(parts[a:k]) in known for a in range(k))
        after = any("_".join(parts[k:b]) in known or "-".join(parts[k:b]) in known for b in range(k + 1, len(parts) + 1))
        out += ("-" if before and after else "_") + parts[k]
    return out


def table():
    defined, borrowed, spoken = survey()
    code = code_names()
    known = {snake(n) for n in defined if "-" not in n} | {n for n in borrowed if n and "-" not in n} | code
    turned, kept = {}, []
    for name in sorted(defined):
        if name in BY_HAND:
            turned[name] = BY_HAND[name]
            continue
        if name in borrowed or not re.match(r"[a-z]", name):
            continue
        new = joined("-".join(snake(p) for p in name.split("-")), known)
        if new == name:
            continue
        if (spoken[new] or new in turned.values()) and not ("-" not in name and new in code and new not in defined):
            kept.append((name, new))
            continue
        turned[name] = new
    return turned, kept, code


def turn(text, turned):
    """The text with its names turned. Behind a dot, and in code, is_digit is a function's name."""

    def one(m):
        name = m.group(0)
        if name in ("is_digit", "most_bytes") and text[: m.start()].endswith((".", "fn ")):
            return name
        return turned.get(name, name)

    return TOKEN.sub(one, text)


def main():
    turned, kept, code = table()
    if "--write" not in sys.argv:
        for name, new in sorted(turned.items()):
            print(name, new, "(a name of src/ too)" if new in code else "")
        for name, new in kept:
            print("kept:", name, "would be", new)
        return
    for path in files((".antt", ".rt", ".edit")):
        text = read(path)
        if path.endswith(".antt"):
            new = turn(text, turned)
        else:
            # A dash is a minus sign in code.
            turned = {a: b for a, b in turned.items() if a not in ("is_digit", "most_bytes")}
            plain = {a: b for a, b in turned.items() if "-" not in a}
            new = "\n".join(turn(l, turned if re.match(r"\s*(//|ghost|requires|ensures|file:|(old|new): \s*(//|ghost|requires|ensures|pub |abbrev|unfoldable))", l) else plain) for l in text.split("\n"))
        if new != text:
            with open(path, "w", encoding="utf-8") as f:
                f.write(new)


if __name__ == "__main__":
    main()
