#!/usr/bin/env python3
"""docs/STATEMENTS.md is what the source promises now. The test fails too where a service's contract, or a law that
docs/TRACEABILITY.md names, is not found, and where a word in backquotes there names nothing."""
import difflib, os, sys
sys.dont_write_bytecode = True
sys.path.insert(0, os.path.join(os.path.dirname(__file__), "..", "support"))
import statements
from declared import Fault
from repository import ROOT, end, read

try:
    wanted = statements.written().split("\n")
except Fault as fault:
    end([fault])
there = os.path.isfile(os.path.join(ROOT, statements.DOCUMENT))
have = read(statements.DOCUMENT).split("\n") if there else []
moved = list(difflib.unified_diff(have, wanted, statements.DOCUMENT, "the source", lineterm="", n=2))
end(moved + ["%s is not up to date: run tests/support/statements.py" % statements.DOCUMENT] if moved else [])
