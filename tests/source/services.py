#!/usr/bin/env python3
"""Every service, the functions of tests/services.txt and all that is exported to C, takes any input and settles its outcome: it
is public and has no `requires`, and its `ensures` settle the reply and what is left in each `&mut` parameter.

A clause of an `ensures` settles a value if it gives it outright by a definition of a specs/ folder: it equates the value with one
(result ≡ DEFINITION ..) or lends it to one as an argument of its own (DEFINITION .. result ..), and speaks of an outcome nowhere else.
Every parameter occurs in such a clause: a contract that ignores one does not settle the outcome. The rules are first tried on
small contracts that break them (BROKEN); each must be refused."""
import os, re, sys
sys.dont_write_bytecode = True
sys.path.insert(0, os.path.join(os.path.dirname(__file__), "..", "support"))
import declared, statements
from repository import end, uncommented

ENSURES = re.compile(r"^ +ensures(?: \w+)? \{([^{}]*)\}$", re.M)
CLAUSE = re.compile(r"^ +(?:requires|ensures)\b", re.M)
RESULT = "result"
# the definitions that turn what a service returns into C's reply, which lose nothing: `told` by the law told_once in
# crates/model/proofs/Refusals.antt, the others by a count or a table beside it; and those of a page, each of which tells a part of it, the
# reply or the cursor at exit
READINGS = {"told", "told_making", "told_counting", "told_read", "told_index", "opened"}
HALVES = {"told_page": ("reply", "page"), "cursor_after": ("cursor", "page"), "told_quick": ("reply", "quick"), "cursor_after_quick": ("cursor", "quick")}


def term(text):
    """A text as nested lists, a list for what stands in brackets; a field behind something is a list of the two."""
    open_lists = [[]]
    for piece in re.findall(r"[()]|\.[^\s().]+|[^\s().]+", text):
        if piece == "(":
            open_lists.append([])
        elif piece == ")":
            inner = open_lists.pop()
            open_lists[-1].append(inner[0] if len(inner) == 1 else inner)
        elif piece.startswith("."):
            open_lists[-1].append([open_lists[-1].pop(), piece])
        else:
            open_lists[-1].append(piece)
    return open_lists[0]


def words(part):
    return [w for p in part for w in words(p)] if isinstance(part, list) else [part]


def split(parts, mark):
    """The parts before, between and behind marks."""
    at = [i for i, p in enumerate(parts) if p == mark]
    return [parts[a + 1 : b] for a, b in zip([-1] + at, at + [len(parts)])]


def clauses(parts):
    """What an `ensures` says, one by one."""
    if len(parts) == 1 and isinstance(parts[0], list):
        return clauses(parts[0])
    some = split(parts, "×")
    return [parts] if len(some) == 1 else [c for p in some for c in clauses(p)]


class Contract:
    def __init__(self, lines, definitions, fields):
        """A function's signature and clauses, the definitions of specs/ that its file uses, and the fields of what it returns."""
        self.text, self.definitions, self.fields = "\n".join(uncommented("\n".join(lines), "//")), definitions, fields
        self.ensures = ENSURES.findall(self.text)
        self.parameters, self.returned = declared.signature(lines)

    def outcome(self, part):
        """The name and the field of the outcome that a part is: the result, or a parameter at exit. None for any other part."""
        if isinstance(part, list) and len(part) == 2 and part[1] == ".new" and part[0] in self.parameters:
            return part[0], None
        if isinstance(part, list) and len(part) == 2 and part[0] == RESULT and part[1].startswith("."):
            return RESULT, part[1][1:]
        if isinstance(part, list) and part[-1] == RESULT and not any(map(self.speaks, part[:-1])):
            if part[0] in READINGS:
                return RESULT, None
            if part[0] in HALVES:
                return RESULT, HALVES[part[0]]
        return (RESULT, None) if part == RESULT else None

    def speaks(self, part):
        return bool({RESULT, ".new", ".exit"} & set(words(part)))

    def settled(self, clause):
        """The outcomes that a clause settles."""
        sides = split(clause, "≡")
        if len(sides) == 2:
            for one, other in sides, sides[::-1]:
                value = self.outcome(one[0] if len(one) == 1 else one)
                if value and not self.speaks(other) and self.definitions & set(words(other)):
                    return [value]
        elif len(sides) == 1 and isinstance(clause[0], str) and clause[0] in self.definitions:
            spoken = [p for p in clause[1:] if self.speaks(p)]
            if all(self.outcome(p) for p in spoken):
                return [self.outcome(p) for p in spoken]
        return []

    def faults(self):
        if re.search(r"^\s+requires\b", self.text, re.M):
            yield "has a `requires`"
        if not self.ensures or len(self.ensures) != len(CLAUSE.findall(self.text)):
            yield "has no `ensures`, or a clause that cannot be read"
            return
        settling = [(c, self.settled(c)) for text in self.ensures for c in clauses(term(text))]
        values = {value for _, some in settling for value in some}
        parts = {(RESULT, f) for f in self.fields}
        pages = [{(RESULT, half) for half in HALVES.values() if half[1] == page} for page in ("page", "quick")]
        if self.returned and (RESULT, None) not in values and not any(some and some <= values for some in [parts] + pages):
            yield "has no clause that gives its reply by a definition of specs/"
        for name, kind in self.parameters.items():
            if re.match(r"&('\w+ )?mut\b", kind) and (name, None) not in values:
                yield "has no clause that gives %s at exit by a definition of specs/" % name
            if not any(name in words(c) for c, some in settling if some):
                yield "settles its outcome without a word of %s" % name


def contract(item):
    names = declared.scope(item.path)[0]
    definitions = {name for name, i in names.items() if i.path.split(os.sep)[2] == "specs"}
    returned = declared.signature(item.statement)[1]
    fields = [f for t in declared.types(returned, item.path) for f in re.findall(r"^ +pub (\w+):", "\n".join(t.statement), re.M)]
    return Contract(item.statement, definitions, fields)


# Parameters, and what each `ensures` says: none settles the outcome.
BROKEN = [
    ("tree: &[u16]", "result ≡ result"),
    ("tree: &[u16]", "result.number ≡ result.number"),
    ("tree: &[u16]", "result ≡ verdict []"),
    ("tree: &[u16]", "result.number ≡ (verdict (tree_checks tree.now)).number"),
    ("tree: &[u16]", "result ≡ length tree.now"),
    ("tree: &[u16]", "verdict (tree_checks tree.now) ≡ verdict (tree_checks tree.now)"),
    ("tree: &[u16]", "(result ≡ result) × (verdict (tree_checks tree.now) ≡ verdict (tree_checks tree.now))"),
    ("tree: &[u16]", "result ≡ result", "verdict (tree_checks tree.now) ≡ verdict (tree_checks tree.now)"),
    ("tree: &[u16]", "result ≡ reply result.number (length tree.now)"),
    ("tree: &[u16]", "result.number ≤ length (tree_checks tree.now)"),
    ("tree: &[u16], columns: usize", "result ≡ verdict (tree_checks tree.now)"),
    ("from: &[u8], to: &mut [u8]", "result ≡ image_reply from.now to.old"),
    ("from: &[u8], to: &mut [u8]", "ImageLeaves from.now to.old result to.old"),
    ("from: &[u8], to: &mut [u8]", "ImageLeaves from.now to.new result (length to.new)"),
    ("from: &[u8], to: &mut [u8]", "(result ≡ image_reply from.now to.old) × (to.new ≡ to.new)"),
    ("from: &[u8], to: &mut [u8]", "result ≡ image_reply from.now to.old", "to.new ≡ to.new"),
    ("from: &[u8], to: &mut [u8]", "ImageLeaves to.old result to.new"),
    ("tree: &[u16]", "length result ≡ verdict (tree_checks tree.now)"),
    ("tree: &[u16]", "told result ≡ verdict (told result)"),
    ("from: &[u8], to: &mut [u8]", "ImageLeaves from.now to.old (told_counting result to.new) to.new"),
    ("from: &[u8], to: &mut [u8]", "ImageLeaves from.now to.old (told_page result) to.new"),
    ("from: &[u8], to: &mut [u8]", "ImageLeaves from.now to.old (cursor_after from.now result) to.new"),
    ("from: &[u8], to: &mut [u8]", "ImageLeaves from.now to.old (told_page result) (cursor_after_quick from.now result) to.new"),
    ("from: &[u8], to: &mut [u8]", "ImageLeaves from.now to.old result to.exit"),
]
SOUND = [
    ("tree: &[u16]", "result ≡ verdict (tree_checks tree.now)"),
    ("from: &[u8], to: &mut [u8]", "ImageLeaves from.now to.old result to.new"),
    ("tree: &[u16]", "told result ≡ verdict (tree_checks tree.now)"),
    ("from: &[u8], to: &mut [u8]", "ImageLeaves from.now to.old (told_page result) (cursor_after from.now result) to.new"),
    ("from: &[u8], to: &mut [u8]", "ImageLeaves from.now to.old result.number result.place to.new"),
    ("from: &[u8], to: &mut [u8]", "result ≡ image_reply from.now to.old", "to.new ≡ reply\n        from.now\n        to.old"),
]
NAMES = {"verdict", "tree_checks", "reply", "image_reply", "ImageLeaves"}


def tried(parameters, *says):
    names = ["", " second"]
    lines = ["pub fn f(%s) -> Reply" % parameters] + ["    ensures%s { %s }" % pair for pair in zip(names, says)]
    return list(Contract("\n".join(lines).split("\n"), NAMES, ["number", "place"]).faults())


problems = ["the rules let this pass: %s" % (c,) for c in BROKEN if not tried(*c)]
problems += ["the rules refuse this: %s: %s" % (c, ", ".join(tried(*c))) for c in SOUND if tried(*c)]
try:
    exported = [i for i in statements.every("src") if i.exported]
    for item in dict.fromkeys(list(statements.the_services()) + exported):
        name = "%s::%s" % (item.path.split(os.sep)[1], item.name)
        problems += ["%s %s" % (name, fault) for fault in contract(item).faults()]
        problems += ["%s is not public" % name] * (not item.public)
except declared.Fault as fault:
    problems.append(str(fault))
end(problems)
