#!/usr/bin/env python3
"""Respells the names that the check makes, where proof files cite them: names of the source keep their underscores
(`in_ok-settle_reach`), and the check's own words have theirs (`overflow_add-at`).

usage: python3 tools/goal_names.py [CRATE ..]        at the top, once, after tools/snake_names.py
"""

import os
import re
import sys

TOKEN = re.compile(r"[A-Za-z_][\w']*(?:-[\w']+)+")
SOURCE = re.compile(r"[A-Za-z][A-Za-z0-9]*(?:_[A-Za-z0-9]+)+")
KIT = [
    "overflow_add", "overflow_sub", "overflow_mul", "overflow_cast", "overflow_step", "overflow_shl", "overflow_shr",
    "slice_bounds", "offset_bounds", "nonzero_div", "nonzero_rem", "in_ok", "in_err", "in_default", "invariant_of",
    "type_inv", "unwrap_or", "split_at", "as_slice", "split_whitespace", "split_once", "from_residual",
]


def files(folder, ends):
    for top, dirs, names in os.walk(folder):
        dirs[:] = sorted(d for d in dirs if d not in ("out", ".git"))
        for name in sorted(names):
            if name.endswith(ends):
                yield os.path.join(top, name)


def read(path):
    with open(path, encoding="utf-8") as f:
        return f.read()


def main():
    names = set(KIT)
    for crate in os.listdir("crates"):
        for path in files(os.path.join("crates", crate, "src"), (".rt",)):
            names.update(SOURCE.findall(read(path)))
    dashed = {n.replace("_", "-"): n for n in names}
    longest = max(n.count("-") for n in dashed) + 1

    def respelled(m):
        parts, out, i = m[0].split("-"), [], 0
        while i < len(parts):
            for k in range(min(longest, len(parts) - i), 1, -1):
                n = dashed.get("-".join(parts[i : i + k]))
                if n:
                    out.append(n)
                    i += k
                    break
            else:
                out.append(parts[i])
                i += 1
        return "-".join(out)

    for crate in sys.argv[1:] or sorted(os.listdir("crates")):
        for path in files(os.path.join("crates", crate, "proofs"), (".antt",)):
            lines = read(path).split("\n")
            new = [line if line.lstrip().startswith("--") else TOKEN.sub(respelled, line) for line in lines]
            if new != lines:
                print(path)
                with open(path, "w", encoding="utf-8") as f:
                    f.write("\n".join(new))


main()
