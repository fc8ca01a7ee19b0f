#!/usr/bin/env python3
"""No line of the repository speaks of the machine that it was written on, or of how it was written."""
import os, re, sys
sys.dont_write_bytecode = True
sys.path.insert(0, os.path.join(os.path.dirname(__file__), "..", "support"))
from repository import end, files, read

PATHS = re.compile(r"(?<![\w.)\]}])/(work|opt|home|root|tmp|usr|etc|var|mnt)/")
WORDS = re.compile(r"\.\./share[d]|\b(sessi[o]n|prototyp[e])s?\b", re.I)

problems = []
for path in files():
    try:
        lines = read(path).split("\n")
    except UnicodeDecodeError:
        continue
    for number, line in enumerate(lines, 1):
        shebang = number == 1 and line.startswith("#!")
        if not shebang and (PATHS.search(line) or WORDS.search(line)):
            problems.append("%s:%d: %s" % (path, number, line.strip()))
end(problems)
