#!/usr/bin/env python3
"""rt ci tried every must-fail edit, and refused each because a fact fails: its line in target/ci.log says what failed first. Where
what fails is only that a proof file names what the edit took away, or that a proof no longer fits the code, the edit only changed
the code's shape, and shows nothing. An edit of a definition must leave it one: what is first refused is a law about it, because
what the law says is false, and not because its proof no longer fits."""
import glob, os, re, sys
sys.dont_write_bytecode = True
sys.path.insert(0, os.path.join(os.path.dirname(__file__), "..", "support"))
from repository import ROOT, end, read

LOG = os.path.join("target", "ci.log")
TRIED = re.compile(r"^rt: must-fail (\w+)/([\w.-]+)\.edit: (.*)$", re.M)
REFUSED = re.compile(r"refused, as it must be(?: \((only .*?)\))?: (?:note: )?(\S+): (.*)")
# (of a goal that is gone; what rt ci shows of a complaint is cut short, and may not come to what is missing)
UNFIT = re.compile(r"that can be named from here|has no field|was not admitted|is not in scope|`(?:goal|Given|Goals)\.")
# a complaint that is cut before it says what fails
UNTOLD = re.compile(r"error: `[^`]*(?:`:? ?`?[\w.]*)?")
UNFIT_LAW = re.compile(r"is not in scope|no occurrence of")

problems = []
said = {}
if os.path.isfile(os.path.join(ROOT, LOG)):
    said = {(crate, label): text for crate, label, text in TRIED.findall(read(LOG))}
for edit in sorted(glob.glob(os.path.join(ROOT, "crates", "*", "must-fail", "*.edit"))):
    name = edit.split(os.sep)[-3], os.path.basename(edit)[: -len(".edit")]
    told = REFUSED.match(said.get(name, ""))
    if not told:
        problems.append("%s/%s: %s" % (*name, said.get(name, "not tried, %s does not tell of it" % LOG)))
        continue
    only, place, what = told[1] or "", told[2], told[3]
    if "names what the edit took away" in only or UNFIT.search(what) or UNTOLD.fullmatch(what):
        problems.append("%s/%s: no fact of the edited code is what first fails: %s: %s" % (*name, place, what))
    elif "file: specs/" in read(edit) and (place.startswith("specs/") or UNFIT_LAW.search(what)):
        problems.append("%s/%s: no law is what first fails: %s: %s" % (*name, place, what))
end(problems)
