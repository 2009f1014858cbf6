#!/usr/bin/env python3
"""Brings the repository's own definitions and lemmas to snake case: valuesAt becomes values_at, sumTo-abs sum_to-abs.

usage: python3 tools/port_names.py            at the top of the repository, once, after the kit's port.py
       python3 tools/port_names.py --list     which names turn, and which of them would fall together with another

Only a part of a name that begins with a small letter turns (the parts are joined by a dash or a dot), so types, modules and
the names that Rattle makes of them stay. Of src/ it turns only what is antt: contracts, their imports, and names in comments;
Rust's own names there are in snake case or begin with a capital, and strings stay. A prime that is no apostrophe becomes one.
"""

import os
import re
import sys

PART = re.compile(r"(?<![A-Za-z0-9_'\u2032])([a-z][A-Za-z0-9_'\u2032]*)")
# Lemmas that would fall together with a definition of the new name; they are cited bare, never behind a dot.
LEMMAS = ("each_within", "count_at", "items_at", "start_is", "too_short", "turned_down", "part_in", "start_left")
LEMMA = re.compile(r"(?<![A-Za-z0-9_'.-])(" + "|".join(LEMMAS) + r")(?![A-Za-z0-9_'-])")
STRING = re.compile(r'"(?:[^"\\]|\\.)*"')


def snake(word):
    """One part: an underscore before each capital that begins a word, and small letters."""
    word = re.sub(r"([a-z0-9])([A-Z])", r"\1_\2", word)
    word = re.sub(r"([A-Z])([A-Z][a-z])", r"\1_\2", word)
    return word.lower()


def turn(text):
    def one(m):
        w = m.group(1).replace("\u2032", "'")
        return snake(w) if re.search(r"[A-Z]", w) else w

    return PART.sub(one, text).replace("\u2032", "'")


def turn_source(text):
    """A line at a time; what stands in a Rust string stays."""
    out = []
    for line in text.split("\n"):
        at, new = 0, ""
        for m in STRING.finditer(line):
            new += turn(line[at : m.start()]) + m.group(0)
            at = m.end()
        out.append(new + turn(line[at:]))
    return "\n".join(out)


def files():
    for folder, dirs, names in os.walk("crates"):
        dirs[:] = sorted(d for d in dirs if d != "out")
        for f in sorted(names):
            if f.endswith((".rt", ".antt")):
                yield os.path.join(folder, f)


def words(text):
    return set(PART.findall(text))


def main(argv):
    if not os.path.isdir("crates"):
        sys.exit("run it at the top of the repository")
    texts = {p: open(p, encoding="utf-8").read() for p in files()}
    if argv == ["--list"]:
        every = set().union(*map(words, texts.values()))
        turned = {w: turn(w) for w in every if turn(w) != w}
        seen = {}
        for w, new in sorted(turned.items()):
            seen.setdefault(new, []).append(w)
        for new, olds in sorted(seen.items()):
            together = olds + ([new] if new in every else [])
            print(new, "<-", *olds, "  FALL TOGETHER" if len(together) > 1 else "")
        return
    if argv:
        sys.exit(__doc__)
    changed = 0
    for p, text in texts.items():
        new = turn_source(text) if p.endswith(".rt") else turn(LEMMA.sub(r"\1_lem", text))
        if new != text:
            changed += 1
            with open(p, "w", encoding="utf-8") as f:
                f.write(new)
    print(f"port_names: {changed} files of {len(texts)} turned")


if __name__ == "__main__":
    main(sys.argv[1:])
