#!/usr/bin/env python3
"""Every must-fail edit fits: it changes src/ or specs/, each text that it replaces is in its file exactly once, and the new
text differs. Every crate that holds a service has at least two edits."""
import glob, os, sys
sys.dont_write_bytecode = True
sys.path.insert(0, os.path.join(os.path.dirname(__file__), "..", "support"))
from repository import ROOT, crates, end, read, services


def faults(crate, edit):
    file, old, pairs = "", "", 0
    for line in read(edit).split("\n"):
        if line.startswith("file: "):
            file = line[len("file: "):]
            if not file.startswith(("src/", "specs/")) or not os.path.isfile(os.path.join(ROOT, "crates", crate, file)):
                yield "no file of src/ or specs/: %s" % file
                return
        elif line.startswith("old: "):
            old = line[len("old: "):]
        elif line.startswith("new:"):
            pairs += 1
            times = read(os.path.join("crates", crate, file)).count(old) if file and old else 0
            if times != 1:
                yield "%d times in %s: %s" % (times, file, old)
            if line[len("new: "):] == old:
                yield "changes nothing: %s" % old
    if not pairs:
        yield "no pair of 'old:' and 'new:'"


problems, listed = [], crates()
for crate in listed:
    edits = sorted(glob.glob(os.path.join(ROOT, "crates", crate, "must-fail", "*.edit")))
    for edit in edits:
        problems += ["%s: %s" % (os.path.relpath(edit, ROOT), fault) for fault in faults(crate, edit)]
    if len(edits) < 2 and any(crate == c for c, _ in services()):
        problems.append("crates/%s holds a service and has %d must-fail edits, not two" % (crate, len(edits)))
end(problems)
