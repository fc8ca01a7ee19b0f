#!/usr/bin/env python3
"""No product finds a place in a relation table: the row's start is carried along by adding n (document 02, §2).

From every service that is lent bytes to write, the calls are followed to all writers, and in these to the places that they
write at; tests/support/places.py says what a writer, a place and a bound are. The rules:

1. A writer has no product, be it a shift to the left. It calls nothing that cannot be read, does not call itself, and no call
   hands it a table.
2. A place is not read from memory, and a function that is called for it only adds and subtracts: numbers, and each local that
   it has no more than once. In a loop the same holds of a bound.
3. Every loop of a writer writes, and writes at each place that grows in it; and no place is added to itself. What is added up
   otherwise is a product too.

What finds the nodes of a row is called for no place, and may multiply; so may what finds n. A form that cannot be followed is
refused. Every service is held to the rules unless its contract says that its bytes are no table (NO_TABLE), so that a new one
cannot be forgotten.

The test tries itself on copies of the source. Those with a product put in must be refused, for the function that has it: in
every writer; at every place, in the ways of SLIPS; at the places of a new service, which are marked by hand, in the ways of
MORE_SLIPS too. Those with a product put in where it does no harm must pass."""
import os, re, sys
sys.dont_write_bytecode = True
sys.path.insert(0, os.path.join(os.path.dirname(__file__), "..", "support"))
from bodies import KEYWORDS, LOOPS, Source, names
from declared import Fault, cited, reached
from places import Writer, returns_table, writes_bytes
from repository import end, services

TABLE = "pairs_bytes"  # the definition of a relation table's bytes
NO_TABLE = {"PieceLeaves"}  # the definition by which a contract says that the bytes are the lines that the program prints
OPERAND = re.compile(r"[\w)\]'\"]$")
SUM = {"+", "-", "+=", "-=", "=", "(", ")", ",", ";", ":", "&", "*", "let", "mut", "as", "return"}


def offered(source):
    """The functions of tests/services.txt and those that C can call."""
    listed = set(services(source.read))
    found = [f for f in source.functions.values() if f.item.exported or (f.crate, f.item.name) in listed]
    missing = listed - {(f.crate, f.item.name) for f in found}
    if missing:
        raise Fault("tests/services.txt: there is no %s" % ", ".join("%s::%s" % service for service in missing))
    return found


def may_write_table(function):
    """Whether a service gives bytes, and its contract leaves it open that they are a relation table."""
    return (writes_bytes(function) or returns_table(function)) and not NO_TABLE & {item.name for item in cited(function.item)}


def products(function):
    """The products in a body. A `*` with no operand before it is none."""
    for i, token in enumerate(function.tokens):
        before = function.tokens[i - 1] if i else ""
        if token == "<<" or token == "*" and OPERAND.search(before) and before not in KEYWORDS:
            yield "has a product: %s" % function.text((max(i - 3, 0), i + 4))


def repeated(tokens, span):
    """The locals that a span reads more than once."""
    return ["adds %s to itself" % n for n in dict.fromkeys(names(tokens, span)) if names(tokens, span).count(n) > 1]


def unfit(source, function, span):
    """How a place of a writer breaks rule 2."""
    if "[" in function.tokens[slice(*span)]:
        yield "is read from memory"
    yield from repeated(function.tokens, span)
    yield from called_for(source, function, span, ())


def called_for(source, function, span, above):
    """How what is called for a place breaks rule 2."""
    for call in function.calls_in(span):
        called = source.called(function, call.name)
        if not called or called in above:
            yield "calls %s, which %s" % (call.name, "calls itself" if called else "cannot be read")
            continue
        tokens, whole = called.tokens, (0, len(called.tokens))
        wrong = list(products(called)) + repeated(tokens, whole)
        wrong += ["has '%s'" % t for t in tokens if t not in SUM and (t in KEYWORDS or not re.match(r"\w", t))]
        wrong += called_for(source, called, whole, above + (called,))
        yield from ("calls %s, which %s" % (called.name, fault) for fault in wrong)


def faults(writer):
    """How a writer breaks the rules."""
    function, tokens = writer.function, writer.tokens
    if writer.calls_itself:
        yield "calls itself"
        return
    yield from products(function)
    for call in function.calls:
        called = writer.source.called(function, call.name)
        if not called:
            yield "calls %s, which cannot be read" % call.name
        elif returns_table(called):
            yield "is handed a table by %s" % called.name
    for span, _ in writer.places:
        for fault in unfit(writer.source, function, span):
            yield "finds the place '%s', which %s" % (function.text(span), fault)
    for grown in writer.growth:
        own = [n for n in names(tokens, grown.span) if n in writer.grows_with(grown.local)]
        if len(own) + grown.statement.adds > 1:
            yield "adds the place '%s' to itself" % grown.local
        if not writer.is_written(grown):
            yield "adds up the place '%s' in a loop that does not write at it" % grown.local
    for loop in writer.idle_loops():
        yield "has a loop that writes nothing: %s" % function.text(loop.span)


def writers(source):
    """The services that may write a table, each with all writers from it on."""
    return [Writer(source, service).every() for service in offered(source) if may_write_table(service)]


def problems(source):
    """What is wrong with the source, each with the function that has it."""
    try:
        some = writers(source)
        found = ["%s %s" % (w.function.name, fault) for service in some for w in service for fault in faults(w)]
        found += ["%s writes at no place" % s[0].function.name for s in some if not any(w.ends for w in s if not w.calls_itself)]
        return list(dict.fromkeys(found))
    except Fault as fault:
        return [str(fault)]


# Ways to put a product in at a place %s: what comes before its statement, what comes in its place, and the new functions that
# these call, as crate, signature and body, or no crate for the file that has the place.
ONE, TWO, LENT = "slip(x: usize) -> usize", "slip_more(x: usize) -> usize", "slip_in(x: &mut usize)"
TWICE = [("", ONE, "x * 2")]
ADDED_UP = "let mut sum = 0; let mut turn = 0; while turn < %s { sum += by; turn += 1; }"
SLIPS = {
    "a product": ("", "(%s) * 2", []),
    "a shift": ("", "((%s) << 8)", []),
    "a product by another name": ("let slip = (%s) * 2;", "slip", []),
    "a helper": ("", "slip(%s)", TWICE),
    "a helper's helper": ("", "slip(%s)", [("", ONE, "1 + slip_more(x)"), ("", TWO, "x * 2")]),
    "a helper of another crate": ("", "model::slip(%s)", [("model", ONE, "x * 2")]),
    "a function of the toolchain": ("", "std::num::wrapping_mul_usize(%s, 2)", []),
    "a sum": (ADDED_UP, "sum", []),
}
MORE_SLIPS = {
    "a method": ("", "(%s).wrapping_mul(2)", []),
    "a helper by another name": ("let start: usize = slip(%s); let mut other = 0; other = start;", "other", TWICE),
    "a helper in a field": ("let start = Start { at: slip(%s) };", "start.at", TWICE),
    "a helper stored in a field": ("let mut start = Start { at: 0 }; start.at = slip(%s);", "start.at", TWICE),
    "a helper in a branch": ("let mut start = 0; if x == 0 { start = slip(%s); }", "start", TWICE),
    "a helper that is lent the place": ("let mut slip = %s; slip_in(&mut slip);", "slip", [("", LENT, "*x += *x * 2;")]),
    "an alias of the place": ("let mut slip = %s; let p = &mut slip; slip_in(p);", "slip", [("", LENT, "*x *= 2;")]),
    "a helper that shifts": ("", "slip(%s)", [("", ONE, "x << 8")]),
    "a helper that doubles": ("", "slip(%s)", [("", ONE, "x + x")]),
    "a helper that adds by cases": ("", "slip(%s)", [("", ONE, "if x == 0 { return 0; } 2 + x")]),
    "a helper that adds up": ("", "slip(%s)", [("", ONE, ADDED_UP.replace("%s", "x") + " sum")]),
    "a helper that calls itself": ("", "slip(%s)", [("", ONE, "2 + slip(x - 1)")]),
    "a table of row starts": ("", "starts[%s]", []),
    "a helper that reads a table": ("", "slip(%s)", [("", ONE, "STARTS[x]")]),
    "the length of a part": ("let part = slip_in(%s);", "part.len()", [("", "slip_in(x: usize) -> &[u8]", "&STARTS[..x * 2]")]),
    "a doubling": ("let start = (%s) + 1; let slip = start + start;", "slip", []),
    "a doubling that goes on": ("let mut slip = %s; slip += slip;", "slip", []),
    "a sum that goes on": (ADDED_UP.replace("let mut sum = 0; ", ""), "sum", []),
    "a sum beside a write": (ADDED_UP.replace("sum +=", "other[turn] = 0; sum +="), "sum", []),
    "a sum by two names": (ADDED_UP.replace("sum += by", "other[turn] = 0; let more = sum + by; sum = more"), "sum", []),
    "a count": (ADDED_UP.replace("sum += by", "for more in 0..by { sum += 1; }"), "sum", []),
    "a value that is not read": ("let start = if x == 0 { 0 } else { %s } * 2;", "start", []),
}
SOUND = {
    "a helper that adds": ("", "slip(%s)", [("", ONE, "let mut y = x + 1; y - slip_more(2)"), ("", TWO, "(x as u8) + 1 as u8")]),
}
WITHIN = "let slip = 2 * 2;", "let slip = std::num::wrapping_mul_usize(2, 2);"  # products that are no place
# A new service, sound as it stands, with places of every sort marked by « and », bounds by ‹ and ›. What finds n multiplies.
SERVICE = """fn added(nodes: usize, table: &mut [u8])
{
    let n = added_count(nodes);
    for turn in 0..1 {
        added_table(table, n);
    }
}

fn added_count(nodes: usize) -> usize
{
    wide(2) * nodes
}

fn added_table(table: &mut [u8], n: usize)
{
    let mut at = «0»;
    let mut x = 0;
    while x < ‹n› {
        added_row(table, «at», ‹n›);
        at += «n»;
        x += 1;
    }
}

fn added_row(table: &mut [u8], at: usize, n: usize)
{
    added_cells(&mut table[«at»..], ‹n›);
}

fn added_cells(row: &mut [u8], n: usize)
{
    let first = «0»;
    for y in first..‹n› {
        if y == «9» {
            return;
        }
        row[«y»] = 1;
    }
}
"""
USED = "\nuse model::wide;\n\n"
SERVICES = {
    "terminal": {"crates/terminal/src/lib.rt": USED + '#[unsafe(no_mangle)]\npub extern "C" ' + SERVICE},
    "images": {"crates/images/src/lib.rt": USED + "pub " + SERVICE, "tests/services.txt": "images added\n"},
}


def copy(source, function, tokens, helpers=()):
    """A copy of the source with another body for one function, and with new functions."""
    lines, start = source.read(function.path).split("\n"), function.item.code_at
    stop = start + len(function.item.code)
    texts = {function.path: "\n".join(lines[:start] + ["    " + " ".join(tokens)] + lines[stop:])}
    for crate, signature, body in helpers:
        path = "crates/%s/src/lib.rt" % crate if crate else function.path
        texts[path] = texts.get(path, source.read(path)) + "\npub fn %s\n{\n    %s\n}\n" % (signature, body)
    return Source({**source.changed, **texts})


def with_first(source, function, statement):
    """A copy with a new first statement in one function."""
    return copy(source, function, [statement] + function.tokens)


def at_places(source, function, places, slips):
    """Copies with a slip at a place, and with what only looks like one. At the head of a loop there is no statement before, and a
    place that a call is lent has its slips in the call."""
    for (start, stop), s in places:
        for what, (before, instead, helpers) in {**slips, **SOUND}.items():
            tokens, text, at = function.tokens, function.text((start, stop)), s.span[0]
            if not (before and s.first in LOOPS or "mut" in tokens[start:stop]):
                before, instead = before.replace("%s", text), instead.replace("%s", text)
                new = copy(source, function, tokens[:at] + [before] + tokens[at:start] + [instead] + tokens[stop:], helpers)
                yield "%s at '%s' of %s" % (what, text, function.name), function if what in slips else None, new


def marked(function, marks):
    """The spans between two marks, as they are in the body without any marks."""
    tokens = function.tokens
    at = [i - sum(t in "«»‹›" for t in tokens[:i]) for i, token in enumerate(tokens) if token in marks]
    return list(zip(at[::2], at[1::2]))


def new_services(source):
    """Copies with a new service, one that C can call and one that is listed, sound and with slips."""
    for crate, more in SERVICES.items():
        shown = Source({path: source.read(path) + text for path, text in more.items()})
        new = Source({path: re.sub("[«»‹›]", "", text) for path, text in shown.changed.items()})
        yield "a new service in %s" % crate, None, new
        for function in (f for f in new.functions.values() if "::added" in f.name):
            for marks, slips in ("«»", {**SLIPS, **MORE_SLIPS} if crate == "images" else SLIPS), ("‹›", SLIPS):
                spans = marked(shown.functions[function.name], marks)
                places = [(span, s) for span in spans for s in function.statements if s.holds(span)]
                yield from at_places(new, function, places, slips)


def trials(source):
    """Copies of the source: what each has, the function for which it is refused or None where it is sound, and the copy."""
    places, for_places, others = {}, {}, {}
    for w in (w for service in writers(source) for w in service):
        places.setdefault(w.function, {}).update({(span, s.span): (span, s) for span, s in w.places})
        for call in w.function.calls:
            for_place = any(start <= call.span[0] < stop for (start, stop), _ in w.places)
            (for_places if for_place else others)[source.called(w.function, call.name)] = w.function
    for function, some in places.items():
        for slip in WITHIN + ("%s(%s);" % (function.item.name, ", ".join(function.parameters)),):
            yield "'%s' in %s" % (slip, function.name), function, with_first(source, function, slip)
        yield from at_places(source, function, some.values(), SLIPS)
    for called, function in for_places.items():
        yield "a product in %s, called for a place" % called.name, function, with_first(source, called, WITHIN[0])
    for called in others:
        if called not in places and called not in for_places:
            yield "a product in %s, called for no place" % called.name, None, with_first(source, called, WITHIN[0])
    yield from new_services(source)


source = Source()
found = problems(source)
tables = [f for f in offered(source) if any(item.name == TABLE for item in reached([f.item]))]
found += ["%s writes a relation table, and is not held to the rules" % f.name for f in tables if not may_write_table(f)]
found += ["no service writes a relation table"] * (not tables)
for what, function, changed in trials(source) if not found else ():
    told = problems(changed)
    if function and not any(p.startswith(function.name + " ") for p in told):
        found.append("the test lets %s pass%s" % (what, "".join("; it says that " + p for p in told)))
    elif not function and told:
        found.append("the test refuses %s: %s" % (what, "; ".join(told)))
end(found)
