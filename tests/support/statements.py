#!/usr/bin/env python3
"""Writes docs/STATEMENTS.md from the source: run it after a change of what is promised. tests/source/statements.py compares."""
import os
import re
import sys

sys.dont_write_bytecode = True
sys.path.insert(0, os.path.dirname(os.path.abspath(__file__)))
from declared import Fault, borrowed, cited, items, paths, reached
from repository import ROOT, crates, read, services

DOCUMENT = "docs/STATEMENTS.md"
TRACED = "docs/TRACEABILITY.md"
WORD = re.compile(r"`([^\W\d][^\s`/:]*)`")
PLACED = re.compile(r"((?:`[^\s`]+`(?:, | and )?)+) in `(crates/\w+/(?:src|specs|proofs)/\w+\.\w+)`")

HEAD = """# Statements

All that is promised, as the source states it: the contract of every service, the contract of every function that C can call, and
every theorem and law that [TRACEABILITY.md](TRACEABILITY.md) names, in its order. Under each stand the definitions that it cites,
with their files, and at the end the text of every definition that any of them rests on. Proofs are not shown: the gate checks
them.

How to read it. In a contract, `result` is what the function returns, and a clause may have a name before its brace. `x.now` is what
a slice or record that is lent to be read holds; of one that is lent with `mut`, `x.old` is what it holds as the call begins and
`x.new` what it holds as the call returns. A parameter by value stands for itself. A law that stands in a `module` holds for all that
the module's head names. Most of the notation is told at the head of [Sets.antt](../crates/model/specs/Sets.antt). Beside that, `P ↔ Q`
says that each of the two follows from the other, `P ⊎ Q` that one of them holds; `Unit` always holds and `⊥` never. `map f l` has f of
each element of l, `replicate n x` is x n times, and `Bor` is a slice as it is lent: `r.ref_ptr.0` and `r.ref_ptr.1` are the block of
memory that it points into, and where.

This file is written from the source by `tests/support/statements.py`, and a test of the gate fails where the two differ. So for
every change the diff of this file is the list of the promises that moved: run the script, and read the diff.
"""


def every(folder):
    """All that the crates declare in their src/, specs/ or proofs/."""
    return [item for crate in crates() for path in paths(crate, folder) for item in items(path)]


def the_services():
    """The functions of tests/services.txt, in its order."""
    for crate, name in services():
        found = [i for path in paths(crate, "src") for i in items(path) if i.kind == "fn" and i.name == name]
        if len(found) != 1:
            raise Fault("tests/services.txt: crates/%s has %d functions %s" % (crate, len(found), name))
        yield found[0]


def the_laws():
    """The laws that the document names, in the order in which it first does so. A word in backquotes names a law if a file of a
    crate's proofs/ declares it `pub`. Where that is not the only thing of this name, the document says which it means, as in
    NAME in FILE. A word that names nothing is an error."""
    text, laws, others = read(TRACED), {}, {}
    for item in every("proofs"):
        if item.public:
            laws.setdefault(item.name, []).append(item)
    for item in every("src") + every("specs"):
        others.setdefault(item.name, set()).add(item.path)
    known = set(others) | set(crates()) | {"requires", "ensures"}
    known |= {os.path.basename(path)[: -len(".antt")] for crate in crates() for path in paths(crate, "specs")}
    meant = {(name, path) for names, path in PLACED.findall(text) for name in WORD.findall(names)}
    found = []
    for name in dict.fromkeys(WORD.findall(text)):
        here, placed = laws.get(name, []), {path for meant_name, path in meant if meant_name == name}
        if placed - others.get(name, set()) - {item.path for item in here} or not here and name not in known:
            raise Fault("%s: %s is not declared %s" % (TRACED, name, "in " + " or ".join(placed) if placed else "anywhere"))
        if not placed and len(here) + (name in known) > 1:
            raise Fault("%s: %s is declared more than once; say which is meant, as in NAME in FILE" % (TRACED, name))
        found += [item for item in here if not placed or item.path in placed]
    return found


def link(path):
    return "[%s](../%s)" % (path.replace("crates/", ""), path)


def fenced(lines):
    return "```\n%s\n```\n" % "\n".join(lines)


def shown(item):
    """A statement, with the heads of the modules that it stands in, and what it cites."""
    if not item.comment:
        raise Fault("%s: %s has no comment" % (item.path, item.name))
    by_file = {}
    for i in cited(item):
        by_file.setdefault(i.path, []).append("`%s`" % i.name)
    files = ["- %s in %s\n" % (", ".join(names), link(path)) for path, names in by_file.items()]
    heads = [line for head in item.enclosing for line in head]
    return "%s\nIt cites\n\n%s" % (fenced(heads + item.comment + item.statement), "".join(files) or "- nothing of this repository\n")


def whole(path, wanted):
    """The wanted declarations of a file, each whole, in the modules and groups that they stand in."""
    lines, open_heads = [], ()
    for item in items(path):
        if item in wanted:
            lines += [""] * bool(lines)
            common = os.path.commonprefix([open_heads, item.enclosing])
            for head in item.enclosing[len(common) :]:
                lines += head
            open_heads = item.enclosing
            lines += item.comment + item.statement + item.body
    return "### %s\n\n%s" % (link(path), fenced(lines))


def libraries(statements, wanted):
    """The names of the toolchain's libraries in all that is shown, by their modules."""
    found = {pair for item in statements for pair in borrowed(item)} | {pair for item in wanted for pair in borrowed(item, whole=True)}
    modules = sorted({module for module, _ in found})
    names = lambda module: ", ".join("`%s`" % name for m, name in sorted(found) if m == module)
    lines = ["- `%s`: %s\n" % (module, names(module)) for module in modules]
    return "### Of the toolchain's libraries\n\n%s" % "".join(lines)


def written():
    """The document."""
    named, laws = list(the_services()), the_laws()
    exported = [i for i in every("src") if i.exported]
    groups = [
        ("Services", named, lambda i: "%s::%s" % (i.path.split(os.sep)[1], i.name)),
        ("The boundary to C", exported, lambda i: i.name),
        ("Theorems and laws", laws, lambda i: i.name),
    ]
    parts = [HEAD]
    for title, group, name in groups:
        parts.append("## %s\n" % title)
        parts += ["### %s\n\n*%s*\n\n%s" % (name(i), link(i.path), shown(i)) for i in group]
    statements = named + exported + laws
    wanted = set(reached(statements))
    parts.append("## Definitions\n")
    order = [path for crate in crates() for folder in ("src", "specs", "proofs") for path in paths(crate, folder)]
    parts += [whole(path, wanted) for path in order if any(i.path == path for i in wanted)]
    return "\n".join(parts + [libraries(statements, wanted)])


if __name__ == "__main__":
    try:
        text = written()
    except Fault as fault:
        sys.exit(str(fault))
    with open(os.path.join(ROOT, DOCUMENT), "w", encoding="utf-8") as file:
        file.write(text)
