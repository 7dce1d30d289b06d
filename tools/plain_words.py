#!/usr/bin/env python3
"""Writes `AllByRecursion` out where it was imported under the name of another word of the library, `All`.

usage: python3 tools/plain_words.py        at the top, once, after tools/goal_names.py
"""

import os
import re

for top, dirs, names in os.walk("crates"):
    dirs[:] = sorted(d for d in dirs if d not in ("out", ".git"))
    for name in sorted(names):
        path = os.path.join(top, name)
        if not name.endswith((".antt", ".rt")):
            continue
        with open(path, encoding="utf-8") as f:
            text = f.read()
        if "AllByRecursion as All" not in text:
            continue
        lines = text.replace("AllByRecursion as All", "AllByRecursion").split("\n")
        new = [line if line.lstrip().startswith("--") else re.sub(r"(?<![\w.'-])All(?![\w'-])", "AllByRecursion", line) for line in lines]
        print(path)
        with open(path, "w", encoding="utf-8") as f:
            f.write("\n".join(new))
