#!/usr/bin/env python3
"""specs/ hold definitions only: no declaration there, a field of a record aside, ends in an equation or an inequality."""
import os, re, sys
sys.dont_write_bytecode = True
sys.path.insert(0, os.path.join(os.path.dirname(__file__), "..", "support"))
from repository import end, files, read, uncommented

DECLARED = re.compile(r"^ *(?:(?:pattern|unfoldable|abbrev|pub) )*(\S+)(?: \{[^{}]*\})? :((?: .*)?)$")
BLOCK = re.compile(r"^ *(?:pub )?(record|data)\b.*\bwhere$")


def indent(line):
    return len(line) - len(line.lstrip(" "))


def declarations(lines):
    """Name and type of each declaration, a type of several lines as one; the fields and cases of a type are left out."""
    at = 0
    while at < len(lines):
        line, depth, at = lines[at], indent(lines[at]), at + 1
        inside = lambda: at < len(lines) and (not lines[at] or indent(lines[at]) > depth)
        if BLOCK.match(line):
            while inside():
                at += 1
        elif DECLARED.match(line):
            text = line
            while inside() and lines[at]:
                text, at = text + " " + lines[at].strip(), at + 1
            yield DECLARED.match(text).groups()


def conclusion(kind):
    """What follows the last arrow outside brackets."""
    depth, start = 0, 0
    for i, c in enumerate(kind):
        depth += (c in "({") - (c in ")}")
        if c == "→" and depth == 0:
            start = i + 1
    return kind[start:]


problems = []
for path in files(".antt", under="crates"):
    if path.split(os.sep)[2] == "specs":
        for name, kind in declarations(uncommented(read(path), "--")):
            if re.search(r"[≡≤<≥>≢]", conclusion(kind)):
                problems.append("%s: %s is a lemma, and belongs in proofs/" % (path, name))
end(problems)
