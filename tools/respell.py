#!/usr/bin/env python3
"""Spells the names that specs/ and the files right below proofs/ declare as words in snake case: `numberFrom` is `number_from`, `least-bound` is `least_bound`.

usage: tools/respell.py [FOLDER]     below FOLDER (the repository): crates/, README.md and docs/, in place; a second run changes nothing

Functions, types and constants of src/ keep their names. A name that would meet another one is written out in APART.
"""

import collections
import os
import re
import sys

WORD = re.compile(r'[^\s(){}.;,@"«»`]+')
DECLARED = re.compile(r"(?m)^ *(?:(?:unfoldable|abbrev|pub|mutual|infixl?|infixr) +)*([^\s(){}.;,:]+)(?: \{[^{}\n]*\})* +:(?= |$)")
SPAN = re.compile(r"`[^`\n]+`")
# Lemmas whose plain spelling a field has.
APART = {"child-count": "child_count_lem", "hold-count": "hold_count_lem"}
# Lemmas in snake case whose name a definition gets.
LEMMAS = ("child_fits", "end_after", "is_name", "last_entry", "no_digit", "no_name", "own_line")


def snake(name):
    """A word in snake case; a part that begins with a capital is a type or a fact and keeps it."""
    parts = name.split("-")
    parts = [p if p[:1].isupper() else re.sub(r"(?<=[a-z0-9₀-₉'])[A-Z]", lambda m: "_" + m[0].lower(), p) for p in parts]
    return "_".join(parts)


def texts(top, kinds):
    for folder, dirs, files in os.walk(os.path.join(top, "crates")):
        dirs[:] = sorted(d for d in dirs if d not in ("out", "target", ".git"))
        for f in sorted(files):
            if f.endswith(kinds):
                yield os.path.join(folder, f)


def of_function(path):
    """Whether a file is a function's proof, below proofs/F/."""
    return bool(re.search(r"/proofs/.+/[^/]+$", path))


def read(path):
    with open(path, encoding="utf-8") as f:
        return f.read()


def table(top):
    names = set()
    for p in texts(top, ".antt"):
        if of_function(p):
            continue
        names |= {m[1] for m in DECLARED.finditer(read(p))}
    turned = {}
    for n in names:
        if snake(n) != n and re.fullmatch(r"[A-Za-z][\w'₀-₉-]*", n):
            turned[n] = snake(n)
    # a lemma that would have its function's name gets _lem
    functions = {new for old, new in turned.items() if "-" not in old} | (names - turned.keys())
    for old, new in turned.items():
        if "-" in old and new in functions:
            turned[old] = new + "_lem"
    turned.update((old, new) for old, new in APART.items() if old in names)
    return turned, names


def met(top, turned, names):
    """The names that fall together: two that get one spelling, or one that gets a spelling that its files have already."""
    by = collections.defaultdict(set)
    for old, new in turned.items():
        by[new].add(old)
    for new, olds in sorted(by.items()):
        if len(olds) > 1:
            yield f"{new}: {', '.join(sorted(olds))}"
        if new in names:
            yield f"{new}: declared beside {', '.join(sorted(olds))}"
    for p in texts(top, (".antt", ".rt")):
        words = set(re.findall(r"[^\s(){}.;,@\"«»`:&\[\]]+", read(p)))
        for old in words & turned.keys():
            if turned[old] in words:
                yield f"{os.path.relpath(p, top)}: has {old} and {turned[old]}"


def turn_lemmas(path, text):
    """The lemmas of LEMMAS, in a file that declares or imports them."""
    for name in LEMMAS:
        word = re.compile(r"(?<![\w'.-])" + name + r"(?![\w'-])")
        declared = re.search(r"(?m)^ *(?:pub +)?" + name + r" :", text)
        imported = re.search(r"(?m)^use [^{\n]*\.proofs\.[A-Z][^{\n]*\{[^}]*(?<![\w'-])" + name + r"(?![\w'-])", text)
        if path.endswith(".antt") and (declared or imported):
            text = word.sub(name + "_lem", text)
    return text


def turn(text, turned):
    return WORD.sub(lambda m: turned.get(m[0], m[0]), text)


def turn_code(text, turned, mark):
    """Code whole, and of a comment its code spans."""
    out = []
    for line in text.split("\n"):
        code, at, said = line.partition(mark)
        said = SPAN.sub(lambda m: turn(m[0], turned), said)
        out.append(turn(code, turned) + at + said)
    return "\n".join(out)


def main():
    top = sys.argv[1] if len(sys.argv) > 1 else "."
    turned, names = table(top)
    if not turned:
        print("respell: nothing to turn")
        return
    for line in met(top, turned, names):
        print("meets:", line)
    changed = 0
    files = [(p, "//" if p.endswith(".rt") else "--") for p in texts(top, (".rt", ".antt"))] + [(p, None) for p in texts(top, ".edit")]
    pages = [os.path.join(top, "README.md")] + sorted(os.path.join(top, "docs", f) for f in os.listdir(os.path.join(top, "docs")) if f.endswith(".md"))
    for p, mark in files + [(p, "`") for p in pages]:
        old = read(p)
        if mark is None:
            new = turn(old, turned)
        elif mark == "`":
            new = SPAN.sub(lambda m: turn(m[0], turned), old)
        else:
            new = turn_code(turn_lemmas(p, old), turned, mark)
        if new != old:
            changed += 1
            with open(p, "w", encoding="utf-8") as f:
                f.write(new)
    print(f"respell: {len(turned)} names, {changed} files changed")


if __name__ == "__main__":
    main()
