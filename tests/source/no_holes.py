#!/usr/bin/env python3
"""Nothing is left open or assumed: no hole in a specification or a proof, no axiom, neither antt's own nor one declared, no C function declared."""
import os, re, sys
sys.dont_write_bytecode = True
sys.path.insert(0, os.path.join(os.path.dirname(__file__), "..", "support"))
from repository import end, files, read, uncommented, word

HOLE = re.compile(r"(?:^|[\s({=])\?[\w-]*(?=$|[\s)},;])")
AXIOMS = [word("lem"), word("ac"), re.compile(r"Prim\.Axiom"), re.compile(r"^\s*(?:pub )?axiom\b")]
FOREIGN = re.compile(r'^\s*(?:unsafe\s+)?extern\s+"C"\s*\{')

problems = []
for path in files(".antt", under="crates"):
    for number, line in enumerate(uncommented(read(path), "--"), 1):
        if HOLE.search(line):
            problems.append("%s:%d: a hole" % (path, number))
        if any(axiom.search(line) for axiom in AXIOMS):
            problems.append("%s:%d: an axiom" % (path, number))
for path in files(".rt", under="crates"):
    for number, line in enumerate(uncommented(read(path), "//"), 1):
        if FOREIGN.search(line):
            problems.append("%s:%d: a C function whose contract is assumed" % (path, number))
end(problems)
