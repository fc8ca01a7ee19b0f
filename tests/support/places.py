"""Where functions write the bytes that they are lent.

A *writer* is a function that is lent bytes to write. A *place* is an index that it writes at, an end of a part that it lends, the
beginning of one that it fills, what it hands another writer that makes a place of it, and what one of these is compared with; and for
each local that is read there, what it starts from and what it grows by. A *bound* is an end of a loop or of a part that is filled, and
what is handed to another writer that makes a bound of it; and the value of each local that is read there, or in what a place grows
by."""
import collections
import functools
import re

from bodies import LOOPS, closing, names, split
from declared import Fault, types

COMPARES = {"<", ">", "<=", ">=", "==", "!="}
ENDS = COMPARES | {"&", "|", "&&", "||", "..", "..="}

# what gives a local a value: the span of the value, the locals that it is made from, and the statement
Given = collections.namedtuple("Given", "local span reads statement")


@functools.lru_cache(None)
def spelt(kind, path):
    """A type with all that its parts stand for."""
    for t in types(kind, path):
        text = "\n".join(t.statement)
        if t.kind == "type":
            kind = re.sub(r"(\w+::)*\b%s\b" % t.name, re.search(r"= (.*);", text)[1], kind)
        elif not kind.startswith(text):
            kind += "\n" + spelt(text, t.path)
    return kind


@functools.lru_cache(None)
def lends(kind, path):
    """Whether a parameter's type lends something to write. A reference to a part of what is only lent to read is none."""
    return bool(re.search(r"\bmut (?!&)", spelt(kind, path)))


def writes_bytes(function):
    """Whether a function is lent bytes to write."""
    lent = [spelt(kind, function.path) for kind in function.parameters.values() if lends(kind, function.path)]
    return any(re.search(r"\[(u8|i8|bool)\b", kind) for kind in lent)


def returns_table(function):
    """Whether a function returns more bytes than a row has."""
    return any(int(n) > 256 for n in re.findall(r"\[(?:u8|i8|bool); (\d+)\]", spelt(function.result, function.path)))


def closed(reads):
    """For each local all that it is made from, from what it is made from at once."""
    for _ in reads:
        reads = {local: some.union(*(reads.get(n, ()) for n in some)) for local, some in reads.items()}
    return reads


class Writer:
    """A writer as it is called, in so many loops, with the writers that it calls."""

    def __init__(self, source, function, loops=0, above=()):
        self.source, self.function, self.tokens, self.loops = source, function, function.tokens, loops
        self.calls_itself, self.below, self.places, self.growth = function in above, [], [], []
        self.finds, self.steps, self.bounds = set(), set(), set()  # locals of places, of what these grow by, and of other bounds
        if not self.calls_itself:
            made = [(call, s) for s in function.statements for call in function.calls_in(s.span)]
            self.calls = [(call, s, source.called(function, call.name)) for call, s in made]
            for call, s, called in self.calls:
                if called and writes_bytes(called):
                    self.below.append((call, s, Writer(source, called, loops + len(s.loops), above + (function,))))
            self.given = [given for s in function.statements for given in self.gives(s)]
            reads = {g.local: set().union(*(h.reads for h in self.given if h.local == g.local)) for g in self.given}
            self.made_from = closed(reads)
            self.find_places()

    def gives(self, s):
        """The locals that a statement gives a value, by itself or by a call that may write them."""
        if s.target:
            value = split(self.tokens, s.value, {"..", "..="})[0] if s.first == "for" else s.value
            yield Given(s.target, value, set(names(self.tokens, value) + [s.target] * s.adds), s)
        for call, _, called in (c for c in self.calls if c[1] is s and c[2]):
            for span, kind in zip(call.lent, called.parameters.values()):
                if lends(kind, called.path):
                    yield from (Given(local, call.span, set(names(self.tokens, call.span)), s) for local in self.lent(span))

    def lent(self, span):
        """The locals that are lent to be written."""
        if self.tokens[span[0] : span[0] + 2] == ["&", "mut"]:
            return self.tokens[span[0] + 2 : span[0] + 3]
        return names(self.tokens, span)

    def grows_with(self, local):
        """The locals that are made from a local and that it is made from, if it is made from itself."""
        some = self.made_from.get(local, set())
        return {n for n in some if local in self.made_from.get(n, ())} if local in some else set()

    def written_at(self):
        """The indices that are written at, the ends of the parts that are lent, and where those begin that are filled, as spans with
        their statements."""
        for s in self.function.statements:
            if s.index:
                yield s.index, s
            for i in (i for i in range(*s.span) if self.tokens[i : i + 2] == ["&", "mut"]):
                end = closing(self.tokens, i + 3) + 1 if self.tokens[i + 3] == "[" else i + 3
                if (i, end) not in [span for call, t, _ in self.calls if t is s for span in call.lent]:
                    raise Fault("%s has '%s', which cannot be followed" % (self.function.name, self.function.text(s.span)))
                yield from ((span, s) for span in split(self.tokens, (i + 4, end - 1), ENDS))
            yield from ((part[0], s) for part in self.filled(s))
        yield from self.handed(lambda writer: writer.finds)

    def filled(self, s):
        """The parts that a statement fills, each as the spans of its ends."""
        for i in (i for i in range(*s.span) if self.tokens[i : i + 2] == [".", "fill"]):
            start = next((a for a in range(s.span[0], i) if self.tokens[a] == "[" and closing(self.tokens, a) == i - 1), None)
            ends = split(self.tokens, (start + 1, i - 1), ENDS) if start is not None else []
            if len(ends) != 2:
                raise Fault("%s has '%s', which cannot be followed" % (self.function.name, self.function.text(s.span)))
            yield ends

    def handed(self, locals_of):
        """What is handed to writers for some of their locals."""
        for call, s, writer in self.below:
            lent = zip(call.lent, writer.function.parameters)
            yield from ((span, s) for span, name in lent if name in locals_of(writer))

    def compared(self):
        """What places are compared with, by the conditions of branches."""
        for s in self.function.statements:
            for part in split(self.tokens, s.value, ENDS - COMPARES) if s.first in ("if", "else") else ():
                sides = split(self.tokens, part, COMPARES)
                plain = [set(self.tokens[slice(*side)]) for side in sides]
                if any(some & self.finds and "[" not in some for some in plain):
                    yield from ((side, s) for side in sides)

    def bounding(self):
        """The ends of loops and of the parts that are filled, and what writers make bounds of."""
        for s in self.function.statements:
            yield from ((part[1], s) for part in self.filled(s))
            yield from ((span, s) for span in split(self.tokens, s.value, ENDS) if s.first in LOOPS)
        yield from self.handed(lambda writer: writer.bounds | writer.steps)

    def followed(self, spans, found, starts_only):
        """Spans with those of the values of the locals that they read, which are found."""
        left, every = list(spans), []
        while left:
            every.append(left.pop())
            for local in set(names(self.tokens, every[-1][0])) - found:
                found.add(local)
                given = [g for g in self.given if g.local == local and not (starts_only and g.reads & self.grows_with(local))]
                left += [(g.span, g.statement) for g in given if g.span[0] < g.span[1]]
        return every

    def find_places(self):
        """The places, and the bounds in loops, as spans with their statements; and how places grow."""
        self.ends = list(self.written_at())
        places = self.followed(self.ends, self.finds, True)
        places += self.followed(list(self.compared()), self.finds, True)
        growth = [g for g in self.given if g.reads & self.grows_with(g.local)]
        grown = [(g.span, g.statement) for g in growth if g.local in self.finds]
        bounds = self.followed(grown, self.steps, False) + self.followed(list(self.bounding()), self.bounds, False)
        self.growth = [g for g in growth if g.local in self.finds | self.steps | self.bounds]
        self.places = list(dict.fromkeys(places + grown + [(span, s) for span, s in bounds if self.loops or s.loops]))

    def is_written(self, grown):
        """Whether the loop in which a place grows, or what a place grows by, writes at it."""
        group, loops = self.grows_with(grown.local), grown.statement.loops
        made_from = lambda span: {m for n in names(self.tokens, span) for m in {n} | self.made_from.get(n, set())}
        written = not loops or any(loops[-1] in s.loops and made_from(span) & group for span, s in self.ends)
        return written or grown.local not in self.finds | self.steps

    def idle_loops(self):
        """The heads of the loops that write nothing."""
        heads = [s for s in self.function.statements if s.first in LOOPS]
        writing = {loop for _, s in self.ends for loop in s.loops} | {loop for _, s, _ in self.below for loop in s.loops}
        return [head for head in heads if head.span[0] not in writing]

    def every(self):
        """The writer and all that are called from it on."""
        return [self] + [w for _, _, writer in self.below for w in writer.every()]
