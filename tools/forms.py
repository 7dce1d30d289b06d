#!/usr/bin/env python3
"""Counts forms of code in crates/*/src, which docs/DESIGN-PASS.md speaks of: for each point the lines that a pattern finds.

usage: python3 tools/forms.py [-l] [TREE]        -l also prints the lines; TREE is the top of a checkout, else the current folder

Crates of tests (`*_tests`) are left out. A line that is only a comment, an import or a clause is not code, but for clauses (point 5).
Answers and lines of proofs (point 8) are counted in crates/*/proofs.
"""

import glob
import os
import re
import sys
from collections import Counter

SIGNATURE = re.compile(r"^\s*(?:pub(?:\([a-z]+\))? )?(?:extern \"C\" )?fn \w+")

# point, what it finds, pattern of a line of code
PATTERNS = [
    (1, "an enum of the repository", r"^\s*(pub(\([a-z]+\))? )?enum "),
    (1, "a number that stands for none, or a constant for one", r"\b(255|NO_WAY|UNUSED|NO_READER|OPEN)\b|_ => 0\b"),
    (1, "a value made from a number by hand", r"fn from_number"),
    (3, "a `for` over a range of numbers", r"^\s*for (?!.*(\.iter\(|zip\(|u8\.\.\))).* in .*\.\."),
    (3, "another loop", r"^\s*(for\b(?!.*\.\.)|for .*(\.iter\(|zip\(|u8\.\.\))|while\b|loop\b)"),
    (3, "a counter counted by hand", r"^\s*\w+ \+= (1|STEP_SIZE);|= \w+\.saturating_add\(1\)"),
    (4, "an impl of a comparison or a copy by hand", r"^impl .*\b(PartialEq|Eq|PartialOrd|Ord|Clone|Copy) for"),
    (4, "a bool turned to a number by hand", r"\{ 1 \} else \{ 0 \}"),
    (4, "a refusal wrapped by hand", r"Refused::plain\("),
    (4, "an arm that hands on what it was given", r"Ok\((\w+)\) => Ok\(\1\)|Some\((\w+)\) => Some\(\2\)|None => (None|Ok\(None\))|Err\(\w+\) => Err|Ok\((\w+)\) => \4\b"),
    (4, "`None` returned by hand", r"^\s*return None;|\} else \{ None \}|^\s*None$"),
    (6, "an array of fixed length", r"\[[^\[\]=]+; [0-9A-Z_]+\]"),
    (7, "a closure, or a function that takes one", r"\|[\w&, :()]*\| |\bFn(Mut|Once)?\("),
]


def code_lines(tree):
    for path in sorted(glob.glob(os.path.join(tree, "crates/*/src/**/*.rt"), recursive=True)):
        name = os.path.relpath(path, tree)
        if "_tests/" in name:
            continue
        with open(path, encoding="utf-8") as f:
            for number, line in enumerate(f.read().split("\n"), 1):
                yield name, number, line


def is_code(line):
    return not re.match(r"^\s*(//|ghost |use |pub use |requires|ensures|#)", line)


def signatures(lines):
    """Each function's signature on one line, with its place."""
    for i, (name, number, line) in enumerate(lines):
        if SIGNATURE.match(line):
            text = line.strip()
            for _, _, more in lines[i + 1 : i + 16]:
                if re.search(r"[{;]\s*$", text) or re.match(r"^\s*(requires|ensures|\{)", more):
                    break
                text += " " + more.strip()
            yield name, number, text


def main():
    args = [a for a in sys.argv[1:] if a != "-l"]
    tree = args[0] if args else "."
    lines = list(code_lines(tree))
    code = [x for x in lines if is_code(x[2])]
    found = []
    for point, what, pattern in PATTERNS:
        found.append((point, what, [x for x in code if re.search(pattern, x[2])]))
    flags = [x for x in signatures(lines) if re.search(r"&mut ", x[2]) and re.search(r"-> (bool|usize|u8)\b", x[2])]
    found.append((1, "a flag or a count answered beside what is written", flags))
    plain = [(n, k, t.strip()) for n, k, t in code if len(t.strip()) >= 24 and not SIGNATURE.match(t)]
    often = Counter(t for _, _, t in plain)
    found.append((2, "a line of 24 letters or more that stands elsewhere too", [x for x in plain if often[x[2]] > 1]))
    clauses = [(n, k, t.strip()) for n, k, t in lines if re.match(r"^\s*(requires|ensures)\b", t)]
    often = Counter(t for _, _, t in clauses)
    found.append((5, "a clause that stands three times or more", [x for x in clauses if often[x[2]] > 2]))
    many = [x for x in signatures(lines) if x[2].count(": ") > 4]
    found.append((5, "a function of five parameters or more", many))
    for point, what, places in sorted(found, key=lambda x: x[0]):
        print(f"{point}  {len(places):4}  {what}")
        if "-l" in sys.argv:
            for name, number, text in places:
                print(f"         {name}:{number}: {text.strip()}")
    answers = total = 0
    for path in glob.glob(os.path.join(tree, "crates/*/proofs/**/*.antt"), recursive=True):
        with open(path, encoding="utf-8") as f:
            text = f.read().split("\n")
        total += len(text)
        if path.endswith("Answers.antt"):
            answers += sum(1 for t in text if re.match(r"^[^\s-].* : goal\.", t))
    print(f"8  {answers:4}  answers to goals\n8  {total:4}  lines of proofs")


main()
