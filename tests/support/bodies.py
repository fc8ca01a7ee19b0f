"""The bodies of functions, as far as a test of the source follows them: statements, calls, the locals that are read, and which
function a call means. A body is a list of tokens, and a part of it a span, the places where it begins and ends. Few forms are
read, those in which the engine is written; any other is a Fault, so that nothing is passed over."""
import functools
import os
import re

from declared import Fault, coded, signature
from repository import crates, files, read

TOKEN = re.compile(
    r"""//[^\n]*|b"(?:\\.|[^"\\])*"|b'(?:\\.|[^'\\])+'|'\w+|\w+(?:::\w+)*"""
    r"""|<<=|>>=|\.\.=|<<|>>|[-+*/%&|^!=<>]=|->|=>|&&|\|\||\.\.|\S"""
)
NAME = re.compile(r"[a-z_]\w*")
TYPE = re.compile(r"(?:\w+::)*[A-Z]\w*")
USE = re.compile(r"^(?:pub )?use ((?:\w+::)+)(?:(\w+)|\{([\w, ]*)\});", re.M)
OPENING, CLOSING = "([{", ")]}"
LOOPS = {"while", "for", "loop"}
BLOCKS = LOOPS | {"if", "else"}
WORDS = {"as", "true", "false", "mut"}  # keywords that a value may have
LEAVES = {"return", "break", "continue"}
CONVERSION = re.compile(r"(?:u8|u16|u64|usize|(?:Image|Index|Made|Page|Quick|Read)?Reply)::from")  # a number or a result in another type: read as such, and no call
METHODS = {"len", "fill"}  # the methods that are read: of a slice its length, and a part of it written over
KEYWORDS = BLOCKS | WORDS | LEAVES | {"let", "in", "match", "use", "fn", "const"}


def closing(tokens, at):
    """Where the bracket closes that opens at a place."""
    depth = 0
    for i in range(at, len(tokens)):
        depth += (tokens[i] in OPENING) - (tokens[i] in CLOSING)
        if depth == 0:
            return i


def split(tokens, span, marks):
    """The spans between marks that stand in no bracket of the span."""
    found, start, depth = [], span[0], 0
    for i in range(*span):
        depth += (tokens[i] in OPENING) - (tokens[i] in CLOSING)
        if depth == 0 and tokens[i] in marks:
            found.append((start, i))
            start = i + 1
    return [s for s in found + [(start, span[1])] if s[0] < s[1]]


def names(tokens, span):
    """The locals that a span reads, as often as it does. A type, a function, a field and its label are none."""
    found = []
    for i in range(*span):
        before, behind = tokens[max(i - 2, 0) : i], tokens[i + 1 : i + 2]
        other = before[-1:] in (["."], ["as"], ["let"]) or before == ["let", "mut"] or behind in (["("], [":"])
        if NAME.fullmatch(tokens[i]) and tokens[i] not in KEYWORDS and not other:
            found.append(tokens[i])
    return found


def branches(tokens):
    """A body in which each `match` that is a statement reads as the branches that its arms are. What the patterns bind is a local
    whose value is what is matched."""
    for i, token in enumerate(tokens):
        if token == "match" and (i == 0 or tokens[i - 1] in "{;}"):
            head = next(j for j in range(i, len(tokens)) if tokens[j] == "{")
            end, at, new = closing(tokens, head), head + 1, []
            while at < end:
                arrow = next(j for j in range(at, end) if tokens[j] == "=>")
                block = tokens[arrow + 1] == "{"
                stop = closing(tokens, arrow + 1) if block else split(tokens, (arrow + 1, end), ",")[0][1]
                opens = ["else", "if", "true"] if new else ["if"] + tokens[i + 1 : head]
                bound = [n for n in tokens[at:arrow] if NAME.fullmatch(n) and n not in KEYWORDS and n != "_"]
                given = [t for n in dict.fromkeys(bound) for t in ["let", n, "="] + tokens[i + 1 : head] + [";"]]
                new += opens + ["{"] + given + tokens[arrow + 1 + block : stop] + ["}"]
                at = stop + block + (tokens[stop + block : stop + block + 1] == [","]) + (not block and stop < end and tokens[stop] != ",")
            return tokens[:i] + branches(new) + branches(tokens[end + 1 :])
    return tokens


class Call:
    """A call of a function: its name as written, the span of the call, and those of what it is lent."""

    def __init__(self, tokens, at):
        self.name, self.span = tokens[at], (at, closing(tokens, at + 1) + 1)
        self.lent = split(tokens, (at + 2, self.span[1] - 1), ",")


def calls(tokens):
    """The calls in a body."""
    found = []
    for i, token in enumerate(tokens):
        before, behind = tokens[i - 1] if i else "", tokens[i + 1 : i + 2]
        is_macro = before == "!" and NAME.fullmatch(tokens[i - 2])
        if token == "(" and (before in (")", "]") or is_macro) or token == ":" == before:
            raise Fault("'%s'" % " ".join(tokens[max(i - 3, 0) : i + 2]))
        if behind == ["("] and NAME.fullmatch(token.split("::")[-1]) and token not in KEYWORDS and not CONVERSION.fullmatch(token):
            if before != ".":
                found.append(Call(tokens, i))
            elif token not in METHODS:
                raise Fault("the method %s" % token)
    return found


class Statement:
    """A statement, or the head of one that has blocks, and the loops of the body around it, a loop's head being in its loop. It
    may give a local a value, or add to it, or write at an index."""

    def __init__(self, tokens, span, loops):
        start, end = self.span = span
        self.first, self.target, self.index, self.adds, self.value = tokens[start], None, None, False, span
        self.loops = loops + (start,) if self.first in LOOPS else loops
        if self.first == "let":
            at = start + 1 + (tokens[start + 1] == "mut")
            self.target, left = tokens[at], split(tokens, span, "=")[0][1]
            known = NAME.fullmatch(self.target) and tokens[at + 1 : at + 2] in (["="], [":"]) and left < end
            self.value = left + 1, end
        elif self.first == "for":
            known, self.target, self.value = tokens[start + 2] == "in", tokens[start + 1], (start + 3, end)
        elif self.first in BLOCKS | LEAVES:
            known, self.value = True, (start + 1 + (tokens[start : start + 2] == ["else", "if"]), end)
        else:
            known = self.first not in KEYWORDS - WORDS and self.assigned(tokens)
        if not known or set(tokens[slice(*self.value)]) & (KEYWORDS - WORDS):
            raise Fault("'%s'" % " ".join(tokens[start:end]))

    def assigned(self, tokens):
        """Reads an assignment or a value; whether it is known what is assigned."""
        (start, left), end = split(tokens, self.span, {"=", "+=", "-="})[0], self.span[1]
        if left == end:
            return not any(re.fullmatch(r"[-+*/%&|^<>]+=", t) and t not in ("<=", ">=") for t in tokens[start:end])
        self.value, self.adds = (left + 1, end), tokens[left] != "="
        if tokens[start + 1] == "[" and closing(tokens, start + 1) == left - 1:
            self.index = start + 2, left - 1
        elif left == start + 1:
            self.target = tokens[start]
        return bool(NAME.fullmatch(tokens[start]) and (self.index or self.target))

    def holds(self, span):
        return self.span[0] <= span[0] and span[1] <= self.span[1]


def statements(tokens):
    """The statements of a body in their order. A brace opens a block behind a head, and behind the name of a type its fields."""
    found, blocks, start, depth, loops = [], [], 0, 0, ()
    for i, token in enumerate(tokens + [";"]):
        opens_block = token == "{" and depth == 0 and tokens[start] in BLOCKS
        if token in OPENING and not opens_block:
            if token == "{" and not TYPE.fullmatch(tokens[i - 1]):
                raise Fault("'%s'" % " ".join(tokens[start : i + 2]))
            depth += 1
        elif depth:
            depth -= token in CLOSING
        elif token in "{;}":
            if start < i:
                found.append(Statement(tokens, (start, i), loops))
                if (found[-1].first in BLOCKS) != opens_block:
                    raise Fault("'%s'" % " ".join(tokens[start : i + 1]))
            if token == "{":
                blocks.append(loops)
                loops = found[-1].loops
            elif token == "}":
                loops = blocks.pop()
            start = i + 1
    return found


class Function:
    """A function of a crate's source: its name from the crate on, its parameters and result, and its body."""

    def __init__(self, crate, module, item):
        self.crate, self.module, self.item, self.path = crate, module, item, item.path
        self.name = "::".join((crate,) + module + (item.name,))
        self.parameters, self.result = signature(item.statement)
        self.tokens = branches([t for t in TOKEN.findall("\n".join(item.code)) if not t.startswith("//")])

    @functools.cached_property
    def statements(self):
        return self.read(statements, self.tokens)

    @functools.cached_property
    def calls(self):
        return self.read(calls, self.tokens)

    def calls_in(self, span):
        return [call for call in self.calls if span[0] <= call.span[0] < span[1]]

    def read(self, how, *what):
        try:
            return how(*what)
        except Fault as fault:
            raise Fault("%s has %s, which cannot be followed" % (self.name, fault))

    def text(self, span):
        return " ".join(self.tokens[slice(*span)])


@functools.lru_cache(None)
def functions(path, text):
    """The functions of a source file that reads so."""
    parts = path[: -len(".rt")].split(os.sep)
    module = tuple(part for part in parts[3:] if part not in ("lib", "main"))
    return [Function(parts[1], module, item) for item in coded(path, text.split("\n")) if item.kind == "fn"]


@functools.lru_cache(None)
def used(text):
    """What the names that a source file uses stand for, as the parts of a path."""
    found = {}
    for path, one, several in USE.findall(text):
        for name in re.findall(r"\w+", one + several) if " as " not in several else ():
            found[name] = path.split("::")[:-1] + [name]
    return found


kept = functools.lru_cache(None)(read)
every_file = functools.lru_cache(None)(lambda: [p for c in crates() for p in files(".rt", under=os.path.join("crates", c, "src"))])


class Source:
    """The source of all crates, or a copy of it in which some files read otherwise."""

    def __init__(self, changed=None):
        self.changed = changed or {}
        self.functions = {f.name: f for path in every_file() for f in functions(path, self.read(path))}

    def read(self, path):
        return self.changed[path] if path in self.changed else kept(path)

    def called(self, function, name):
        """The function that is called in another by a name, or None where it cannot be read."""
        parts = name.split("::")
        parts = used(self.read(function.path)).get(parts[0], parts[:1]) + parts[1:]
        own = (function.crate,) + function.module
        bases = {"crate": own[:1], "self": own, "super": own[:-1]}
        near = bases[parts[0]] + tuple(parts[1:]) if parts[0] in bases else own + tuple(parts)
        return self.functions.get("::".join(near)) or self.functions.get("::".join(parts))
