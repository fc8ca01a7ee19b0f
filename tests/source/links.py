#!/usr/bin/env python3
"""What the documents and comments point at is there: the file and heading of every link; what stands in backquotes, be it a
path of the repository, a function as `CRATE::NAME` or a must-fail edit as `CRATE/LABEL`; and every 'proofs/FILE.antt: NAME' of
a comment, with NAME declared in that file. docs/TRACEABILITY.md names every must-fail edit."""
import os, re, sys
sys.dont_write_bytecode = True
sys.path.insert(0, os.path.join(os.path.dirname(__file__), "..", "support"))
from repository import ROOT, crates, end, files, read

LINK = re.compile(r"\[[^\]]*\]\(([^)\s]+)\)")
QUOTED = re.compile(r"`((?:crates|docs|tests|bench|include|examples)/[\w./-]*)`")
FUNCTION = re.compile(r"`(%s)::(\w+)[`(<]" % "|".join(crates()))
EDIT = re.compile(r"`((?:%s)/\w+)`" % "|".join(crates()))
LAW = re.compile(r"\b((?:specs|proofs)/[\w/]+\.antt)(?:: ([\w'!-]+))?")


def there(path):
    return os.path.exists(os.path.join(ROOT, path))


def headings(path):
    """The anchors of a document's headings."""
    text = re.sub(r"^```.*?^```", "", read(path), flags=re.M | re.S)
    return {re.sub(r"[^\w -]", "", h.lower()).strip().replace(" ", "-") for h in re.findall(r"^#+ (.*)", text, re.M)}


def defines(crate, name):
    """The crate's source has the function or the type."""
    source = "".join(read(path) for path in files(".rt", under=os.path.join("crates", crate, "src")))
    return re.search(r"\b(?:fn|struct|enum) %s\b" % name, source)


problems = []
for path in files(".md"):
    folder = os.path.dirname(path)
    for target in LINK.findall(read(path)):
        if re.match(r"\w+:", target):
            continue
        name, _, anchor = target.partition("#")
        file = os.path.normpath(os.path.join(folder, name)) if name else path
        if not there(file):
            problems.append("%s: no file for the link %s" % (path, target))
        elif anchor and anchor not in headings(file):
            problems.append("%s: no heading for the link %s" % (path, target))
    problems += ["%s: no %s" % (path, p) for p in QUOTED.findall(read(path)) if not there(p)]
    problems += ["%s: no function or type %s::%s" % (path, c, f) for c, f in FUNCTION.findall(read(path)) if not defines(c, f)]
    edits = ["crates/%s/must-fail/%s.edit" % tuple(e.split("/")) for e in EDIT.findall(read(path))]
    problems += ["%s: no %s" % (path, e) for e in edits if not there(e)]
for path in files(".antt", ".rt", under="crates"):
    crate = os.sep.join(path.split(os.sep)[:2])
    mark = "--" if path.endswith(".antt") else "//"
    for line in read(path).split("\n"):
        for file, name in LAW.findall(line.partition(mark)[2]):
            file = os.path.join(crate, file)
            if not there(file):
                problems.append("%s: no %s" % (path, file))
            elif name and not re.search(r"^ *(?:(?:pattern|unfoldable|abbrev|pub) )*%s(?: \{[^{}]*\})? :" % re.escape(name), read(file), re.M):
                problems.append("%s: %s declares no %s" % (path, file, name))
traced = EDIT.findall(read("docs/TRACEABILITY.md"))
for path in files(".edit", under="crates"):
    edit = path.replace("crates/", "").replace("/must-fail/", "/")[: -len(".edit")]
    if edit not in traced:
        problems.append("docs/TRACEABILITY.md does not name %s" % edit)
end(problems)
