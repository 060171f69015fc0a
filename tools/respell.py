#!/usr/bin/env python3
"""Brings the repository's own definitions and lemmas to the library's spelling: words in snake case, types and modules in camel case.

usage: python3 tools/respell.py [--list]        at the top of the repository, once, after the kit's port.py

It reads which names specs/*.antt and proofs/*.antt of each crate declare. `firstFailure` becomes `first_failure`. In the name of a lemma a dash
stays where it joins two names, as in `length-words`, and becomes `_` beside a plain word, as in `packs_all_of`. A type keeps its capital. Names
that Rattle makes, functions of src/, exported names, strings, inputs and outputs are not touched. Whole words of the code turn, in .antt files and
in the clauses of .rt files; in pages, what stands between backquotes. --list prints the rows and writes nothing.
"""

import glob
import re
import sys

WORD = re.compile(r"[^\s(){}.;,@\"«»`]+")
DECLARED = re.compile(r"^\s*(?:(?:unfoldable|abbrev)\s+)?(?:pub\s+)?(?:(?:data|record|ruleset)\s+)?([^\s(){}.;,@\"«»:]+)\s*(?:\([^)]*\)\s*|\{[^}]*\}\s*)*:\s")
# Words of the library that lemmas are named after.
LIBRARY = set("length take drop append set sets map replicate get_or cond reverse all get".split())
# A name that would fall together with another's gets a word more.
BY_HAND = {"noRecord": "blank_record", "words-of": "words_of_lem"}
# What is no declaration of its own.
PARAMETERS = {"codesAt": "codes_at", "leftOver": "left_over"}


def snake(word):
    return re.sub(r"(?<=[a-z0-9])([A-Z])", lambda m: "_" + m[1].lower(), word)


def declared():
    """The names that the crates' definitions and lemmas have, with those of the record that is theirs."""
    names = {}
    for path in sorted(glob.glob("crates/*/specs/*.antt") + glob.glob("crates/*/proofs/*.antt")):
        with open(path, encoding="utf-8") as f:
            for line in f.read().split("\n"):
                found = DECLARED.match(line)
                if found:
                    names.setdefault(found[1], "/specs/" in path)
    return names


def is_type(name):
    return name[0].isupper()


def part(word):
    return word if is_type(word) else snake(word)


def rows():
    names = declared()
    known = {part(n) for n in names if "-" not in n} | LIBRARY
    out = {}
    for name in names:
        if is_type(name) and "-" not in name:
            continue
        parts = [part(p) for p in name.split("-")]
        new = parts[0]
        for i, p in enumerate(parts[1:], 1):
            joins = i == 1 and parts[0] in known and "_".join(parts[1:]) in known
            new += ("-" if joins else "_") + p
        out[name] = BY_HAND.get(name, new)
    # A lemma that would get the name of what it is about gets `_lem`.
    for name in [n for n in out if "-" in n]:
        if any(out[name] == out[other] for other in out if other != name):
            out[name] += "_lem"
    return {a: b for a, b in out.items() if a != b} | PARAMETERS


def turn(text, table):
    return WORD.sub(lambda m: table.get(m[0], m[0]), text)


def antt(text, table):
    lines = []
    for line in text.split("\n"):
        at = re.search(r"(?:^|(?<=\s))--(?=\s|$)", line)
        code, rest = (line[: at.start()], line[at.start() :]) if at else (line, "")
        rest = re.sub(r"`[^`]*`", lambda m: turn(m[0], table), rest)
        lines.append(turn(code, table) + rest)
    return "\n".join(lines)


# A clause, and a line of imports for clauses.
CLAUSE = re.compile(r"\b(?:requires|ensures)\s*\*?\s*(?:\w+\s*)?\{|\bghost use\b")


def rust(text, table):
    out, at = [], 0
    while True:
        found = CLAUSE.search(text, at)
        if not found:
            return "".join(out) + text[at:]
        end, depth = found.end(), 1
        if found[0].startswith("ghost"):
            end = text.index(";", end)
        else:
            while depth:
                depth += (text[end] == "{") - (text[end] == "}")
                end += 1
        out.append(text[at : found.start()] + turn(text[found.start() : end], table))
        at = end


def page(text, table):
    return re.sub(r"`[^`\n]+`", lambda m: turn(m[0], table), text)


def main():
    table = rows()
    if "--list" in sys.argv:
        print("\n".join(f"{a}\t{b}" for a, b in sorted(table.items())))
        return
    for pattern, how in (("crates/*/specs/**/*.antt", antt), ("crates/*/proofs/**/*.antt", antt), ("crates/*/src/**/*.rt", rust), ("README.md", page), ("docs/**/*.md", page)):
        for path in sorted(glob.glob(pattern, recursive=True)):
            with open(path, encoding="utf-8", newline="") as f:
                old = f.read()
            new = how(old, table)
            if new != old:
                with open(path, "w", encoding="utf-8", newline="") as f:
                    f.write(new)


if __name__ == "__main__":
    main()
