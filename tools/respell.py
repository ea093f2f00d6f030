#!/usr/bin/env python3
"""Respells this repository's own definitions and lemmas as Rattle spells words: snake case, a dash only between two words' names.

usage: python3 tools/respell.py [--list]    at the top, once, right after port.py

A name that would fall together with another gets `_lem` behind it. Functions of src/, strings, inputs and outputs keep their names.
"""
import glob
import os
import re
import sys

DECL = re.compile(r"^(?:  )?(?:private )?(?:(?:pub|abbrev|unfoldable) )*([a-z][^\s:(){}.]*)(?: \{ℓ\})? :(?![=:])", re.M)
BLOCK = re.compile(r"^(?:pub )?record [^\n]* where\n((?:(?:  [^\n]*)?\n)*)", re.M)
TOKEN = re.compile(r"(?<![A-Za-z0-9_'′·\-])[a-z][A-Za-z0-9_'′]*(?:-[A-Za-z0-9_'′]+)*(?![A-Za-z0-9_'′·\-])")
# words of the library that own names are put together with
WORDS = {"length", "map", "append", "drop", "take", "get_or", "replicate", "set", "cond", "eqb", "leb", "ltb", "not", "mod", "div", "min"}


def snake(word):
    return re.sub(r"(?<=[a-z0-9])([A-Z])", lambda m: "_" + m.group(1).lower(), word)


def sources():
    for c in sorted(glob.glob("crates/*")):
        yield from sorted(glob.glob(c + "/specs/*.antt")) + sorted(glob.glob(c + "/proofs/*.antt"))


def declared():
    names, defs, fields = {}, set(), set()
    for f in sources():
        text = open(f).read()
        for block in BLOCK.finditer(text):
            fields |= {m.group(1) for m in DECL.finditer(block.group(1))}
        for m in DECL.finditer(text):
            name = m.group(1)
            names.setdefault(name, set()).add(f)
            if re.match(r"(?:  )?(?:(?:pub|abbrev|unfoldable) )*(?:abbrev|unfoldable)", m.group(0)):
                defs.add(snake(name))
    return names, defs, fields


def respelled(name, words):
    parts = [snake(p) for p in name.split("-")]
    if len(parts) == 1:
        return parts[0]
    units, i = [], 0
    while i < len(parts):
        for j in range(len(parts), i, -1):
            if "_".join(parts[i:j]) in words:
                units.append(("_".join(parts[i:j]), True))
                i = j
                break
        else:
            units.append((parts[i], False))
            i += 1
    out = units[0][0]
    for (_, left), (word, right) in zip(units, units[1:]):
        out += ("-" if left and right else "_") + word
    return out


def renames():
    names, defs, fields = declared()
    words = defs | WORDS
    new = {n: respelled(n, words) for n in names}
    taken = {}
    for n in sorted(new, key=lambda n: ("-" in n, n)):
        to = new[n]
        while to in taken:
            to += "_lem"
        taken[to] = n
        new[n] = to
    return {n: to for n, to in new.items() if n != to}, fields


def in_path(text, at, end):
    """Whether the name from `at` to `end`, which a dot precedes, ends a path of modules."""
    start = at
    if text[end : end + 1] == ".":
        return False
    while start > 0 and re.match(r"[A-Za-z0-9_'.·\-]", text[start - 1]):
        start -= 1
    return text[start:at].startswith("Rattle.")


def turned(text, new, fields, plain, proof):
    """The text with every name in its new spelling; `plain` says whether a place is prose, where only a camel case name is one.
    Outside a proof a name in snake case may be a function of src/, and stays."""

    def one(m):
        name = m.group(0)
        if name not in new:
            return name
        if not proof and name == snake(name) and "-" not in name:
            return name
        if m.start() and text[m.start() - 1] == "." and name not in fields and not in_path(text, m.start(), m.end()):
            return name
        if plain(m.start()) and "-" in name:
            return name
        return new[name]

    return TOKEN.sub(one, text)


def prose_of(path, text):
    """Which places of a file are prose."""
    spans = []
    mark = {"antt": r"--.*", "rt": r"//.*", "edit": r"^#.*", "sh": r"^#.*"}.get(path.rsplit(".", 1)[-1])
    if mark:
        for m in re.finditer(mark, text, re.M):
            # a name between backticks is no prose
            at = m.start()
            for k, piece in enumerate(m.group(0).split("`")):
                if k % 2 == 0:
                    spans.append((at, at + len(piece)))
                at += len(piece) + 1
    else:
        at = 0
        for k, piece in enumerate(text.split("`")):
            if k % 2 == 0:
                spans.append((at, at + len(piece)))
            at += len(piece) + 1
    spans.sort()
    import bisect

    starts = [s for s, _ in spans]

    def plain(i):
        k = bisect.bisect_right(starts, i) - 1
        return k >= 0 and i < spans[k][1]

    return plain


def main():
    if os.path.exists("docs/PORT.md") and "--list" not in sys.argv:
        sys.exit("respell: docs/PORT.md stands, so it ran here already; run again it would change names that are right")
    new, fields = renames()
    if "--list" in sys.argv:
        for n in sorted(new):
            print(n, new[n])
        return
    files = sorted(glob.glob("crates/*/specs/**/*.antt", recursive=True) + glob.glob("crates/*/proofs/**/*.antt", recursive=True))
    files += sorted(glob.glob("crates/*/src/**/*.rt", recursive=True) + glob.glob("crates/*/must-fail/*.edit"))
    files += sorted(["README.md", *glob.glob("docs/*.md"), *glob.glob("docs/changes/*.md")])
    for f in files:
        text = open(f, encoding="utf-8").read()
        plain = prose_of(f, text)
        # a name that stood in this file before a rename to it: to be looked at
        had = {m.group(0) for m in TOKEN.finditer(text)}
        fall = sorted(n for n in had if n in new and new[n] in had)
        out = turned(text, new, fields, plain, f.endswith(".antt"))
        if fall:
            print("look:", f, ", ".join(f"{n} -> {new[n]}" for n in fall))
        if out != text:
            open(f, "w", encoding="utf-8").write(out)
    print(f"respelled {len(new)} names")


if __name__ == "__main__":
    main()
