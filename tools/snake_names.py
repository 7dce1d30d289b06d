#!/usr/bin/env python3
"""Respells the repository's own definitions, lemmas and fields: words are joined by `_`, as in `is_write`.

usage: python3 tools/snake_names.py [--dry]        at the top, once, after the kit's own script

A dash stays where a fact's name stands in front or behind, as in `All-weaker`, and in the names that the check makes
(`loop-i-preserved`, `returns-in-Some`). It prints each name that changes, and marks those whose new spelling is a word of the
repository already: look at each of these.
"""

import os
import re
import sys

WORD = re.compile(r"[A-Za-z_ℕ][\w'ℕ]*(?:-[\w'ℕ]+)*")
DECLARED = re.compile(
    r"^\s*(?:(?:abbrev|unfoldable|pub|data|record|private)\s+)*([A-Za-z][\w']*(?:-[\w']+)+)(?:\s+(?:\{[^}]*\}|\([^()]*\)))*\s*:(?!=)\s*(.*)$"
)


def files():
    for folder, dirs, names in os.walk("crates"):
        dirs[:] = sorted(d for d in dirs if d not in ("out", ".git"))
        for name in sorted(names):
            if name.endswith((".antt", ".rt", ".edit")):
                yield os.path.join(folder, name)


def respelled(name):
    name = name.replace("getD", "get_or")
    parts = name.split("-")
    out = parts[0]
    for left, right in zip(parts, parts[1:]):
        fact = left[0].isupper() or right[0].isupper()
        out += ("-" if fact else "_") + right
    return out


def main():
    texts = {}
    for path in files():
        with open(path, encoding="utf-8") as f:
            texts[path] = f.read()
    own, words = set(), set()
    for path, text in texts.items():
        words.update(WORD.findall(text))
        if path.endswith(".antt"):
            for line in text.split("\n"):
                m = DECLARED.match(line)
                if m and not re.match(r"(goal|given|need|Goals|Given)\.", m[2]):
                    own.add(m[1])
    changes = {n: respelled(n) for n in sorted(own) if respelled(n) != n}
    together = [n for n in changes if changes[n] in words]
    made = {}
    for n, to in changes.items():
        made.setdefault(to, []).append(n)
    together += [n for ns in made.values() if len(ns) > 1 for n in ns]
    for n, to in changes.items():
        print(n, to, "FALLS TOGETHER" if n in together else "")
    if "--dry" in sys.argv:
        return 0
    for path, text in texts.items():
        new = WORD.sub(lambda m: changes.get(m[0], m[0]), text)
        if new != text:
            with open(path, "w", encoding="utf-8") as f:
                f.write(new)
    return 0


sys.exit(main())
