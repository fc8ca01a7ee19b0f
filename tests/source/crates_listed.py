#!/usr/bin/env python3
"""Every crate folder is listed and every listed crate has a folder; a crate knows only those listed above it. The documents
keep up: docs/ARCHITECTURE.md has exactly the listed crates in its table, and the picture in README.md has them all."""
import os, re, sys
sys.dont_write_bytecode = True
sys.path.insert(0, os.path.join(os.path.dirname(__file__), "..", "support"))
from repository import ROOT, crates, end, read

listed = crates()
folders = {f for f in os.listdir(os.path.join(ROOT, "crates")) if os.path.isdir(os.path.join(ROOT, "crates", f))}
problems = ["crates/%s is not in crates.txt" % f for f in sorted(folders - set(listed))]
problems += ["crates.txt lists %s, and there is no crates/%s" % (f, f) for f in listed if f not in folders]
above = set()
for name, deps in listed.items():
    problems += ["crates.txt: %s depends on %s, which is listed below it" % (name, d) for d in deps if d in listed and d not in above]
    above.add(name)
table = re.findall(r"^\| `(\w+)` \|", read("docs/ARCHITECTURE.md"), re.M)
problems += ["docs/ARCHITECTURE.md has no %s in its table" % c for c in listed if c not in table]
problems += ["docs/ARCHITECTURE.md has %s in its table, and crates.txt does not list it" % c for c in table if c not in listed]
picture = read("README.md").partition("## The crates\n")[2].split("```")[1]
problems += ["README.md: the picture lacks %s" % c for c in listed if not re.search(r"(?<!\w)%s(?!\w)" % c, picture)]
end(problems)
