"""What the source declares, read from its text: the definitions and laws of specs/ and proofs/, the functions and types of src/,
and which of these a text cites. It relies on the layout that rt fmt gives, and ends with a Fault at a line that it cannot read
or a name that it cannot find, so that nothing is passed over."""
import functools
import os
import re

from repository import ROOT, crates, files, read, uncommented

NAMED = re.compile(r"(?:(?:pattern|unfoldable|abbrev) )*(pub )?(?:(record|data) (\S+)|(\S+)(?: \{[^{}]*\})? :(?: |$))")
CASE = re.compile(r"^ +(\S+) : ", re.M)
IMPORT = re.compile(r"^(?:ghost |pub )?use ([\w.']+?)(?:\.\{([^}]*)\}| as (\S+?))?;?$", re.M)
MODULE = re.compile(r"Rattle\.(\w+)\.(specs|proofs)\.(.+)")
ITEM = re.compile(r'(pub )?(?:extern "C" )?(fn|struct|enum|type|const) (\w+)')
EXPORTED = re.compile(r'\bextern "C" fn\b|^ *#\[.*\b(?:no_mangle|export_name)\b')
WORD = re.compile(r"[^\s(){};,]+")
CLAUSE = re.compile(r"^    (requires|ensures)\b", re.M)
TYPE = re.compile(r"(?:\b(\w+)::)?\b([A-Z]\w*)")
SIGNATURE = re.compile(r"\bfn \w+(?:<(?:->|<[^<>]*>|[^<>])*>)?\((.*?)\)(?: -> ([^{]*?))?\s*(?=ghost\b|requires\b|ensures\b|where\b|$)", re.S)
USED = re.compile(r"^(?:pub )?use (\w+)::(?:\w+::)*(?:(\w+)|\{([\w, \n]*)\});", re.M)
OF_STD = {"Result", "Option", "Ok", "Err", "Some", "None", "Self"}
UNTYPED = re.compile(r'^#\[.*|^ +[A-Z]\w*|"C"', re.M)  # an attribute, the name of a case, the name of a calling convention


class Fault(Exception):
    """Something that the source, or a document about it, names and does not have, or a line that cannot be read."""


class Item:
    """A declaration: the comment right above it; its statement, which is the type of a definition or law, the signature and the
    contract of a function, and all of a record or a type; its body, or the code of a function; and the heads of the modules that
    it stands in. All are lines as the file has them."""

    def __init__(self, path, name, kind, public, comment, statement, enclosing=(), exported=False):
        self.path, self.name, self.kind, self.public = path, name, kind, public
        self.comment, self.statement, self.body = comment, statement, []
        self.enclosing, self.exported, self.code, self.code_at = enclosing, exported, [], 0
        self.cases = CASE.findall("\n".join(statement)) if kind == "data" else []


def block(lines, at):
    """A line with those below it that are indented deeper, and where the next line begins."""
    depth = lambda line: len(line) - len(line.lstrip(" "))
    end = at + 1
    while end < len(lines) and (not lines[end] or depth(lines[end]) > depth(lines[at])):
        end += 1
    last = end
    while not lines[last - 1]:
        last -= 1
    return lines[at:last], end


def defined(path, lines, enclosing=()):
    """The declarations of an .antt file, or of a module in it."""
    found, comment, at = [], [], 0
    while at < len(lines):
        text = lines[at].strip()
        if not text or text.startswith("--"):
            comment, at = comment + [lines[at]] if text else [], at + 1
            continue
        part, at = block(lines, at)
        named = NAMED.match(text)
        if text.startswith("module ") or text.endswith("mutual"):
            head = next(i for i, line in enumerate(part, 1) if line.endswith((" where", "mutual")))
            found += defined(path, part[head:], enclosing + (tuple(comment + part[:head]),))
        elif named:
            name = named[3] or named[4]
            found.append(Item(path, name, named[2] or "definition", bool(named[1]), comment, part, enclosing))
        elif found and (text.split()[0] == found[-1].name or text in "})"):
            found[-1].body += part
        elif not text.startswith(("use ", "pub use ", "pub mod ", "unfolding ")):
            raise Fault("%s: cannot read the line '%s'" % (path, text))
        comment = []
    return found


def coded(path, lines):
    """The functions and types at the top level of a source file. The body of a function opens on the first line that is not
    indented and ends in a brace."""
    found, comment, marks = [], [], []
    for at, line in enumerate(lines):
        named = ITEM.match(line)
        if EXPORTED.search(line) and not line.startswith(("#[", "//")) and not named:
            raise Fault("%s: exported, and not by a function at the top level: '%s'" % (path, line.strip()))
        if line.startswith("//"):
            comment.append(line)
        elif line.startswith("#["):
            marks.append(line)
        else:
            if named and named[2] == "fn":
                body = next(i for i in range(at, len(lines)) if lines[i].endswith("{") and lines[i][0] != " ")
                head = marks + lines[at:body] + [lines[body][:-1].rstrip()] * (lines[body] != "{")
                exported = any(EXPORTED.search(text) for text in head)
                found.append(Item(path, named[3], "fn", bool(named[1]), comment, head, exported=exported))
                found[-1].code, found[-1].code_at = lines[body + 1 : lines.index("}", body)], body + 1
            elif named:
                end = next(i for i in range(at, len(lines)) if lines[i].endswith((";", "}")) and lines[i][0] != " ")
                found.append(Item(path, named[3], named[2], bool(named[1]), comment, marks + lines[at : end + 1]))
            comment, marks = [], []
    return found


def signature(statement):
    """The parameters of a function with their types, and the type of its result, or an empty text where it has none."""
    found = SIGNATURE.search("\n".join(uncommented("\n".join(statement), "//")))
    return dict(re.findall(r"(\w+): ([^,]+)", found[1])), found[2] or ""


@functools.lru_cache(None)
def items(path):
    """All that a file declares, in its order."""
    return (coded if path.endswith(".rt") else defined)(path, read(path).split("\n"))


@functools.lru_cache(None)
def paths(crate, folder):
    """The files of a crate's src/, specs/ or proofs/, these two in the order in which Lib.antt has them; the proofs of single
    functions, in folders of proofs/, are left out."""
    under = os.path.join("crates", crate, folder)
    if folder == "src":
        return files(".rt", under=under)
    lib = os.path.join(under, "Lib.antt")
    listed = re.findall(r"^pub mod (\S+)$", read(lib), re.M) if os.path.isfile(os.path.join(ROOT, lib)) else []
    return [os.path.join(under, name + ".antt") for name in listed]


def the(path, name):
    """What a file declares by a name, be it the name of a case."""
    found = [item for item in items(path) if name == item.name or name in item.cases]
    if len(found) != 1:
        raise Fault("%s declares %s %s" % (path, "no" if not found else "more than one", name))
    return found[0]


def the_type(crate, name):
    """The struct, enum or other type of a crate's source."""
    found = [i for path in paths(crate, "src") for i in items(path) if i.name == name and i.kind != "fn"]
    if len(found) != 1:
        raise Fault("crates/%s/src declares %s type %s" % (crate, "no" if not found else "more than one", name))
    return found[0]


@functools.lru_cache(None)
def homes(path):
    """The crates of which a source file uses types by their names alone."""
    found = {}
    for crate, one, several in USED.findall(read(path)):
        found.update({name: crate for name in re.findall(r"\w+", one + several) if crate in crates()})
    return found


def types(text, path):
    """The types of the source that a signature or a type of a file names, with or without the crate or module before them."""
    own, used = path.split(os.sep)[1], homes(path)
    named = [(before, name) for before, name in TYPE.findall(UNTYPED.sub("", text)) if name not in OF_STD]
    return [the_type(before if before in crates() else used.get(name, own), name) for before, name in named]


def is_ours(module):
    """Whether a module is one of the repository's, and none of the toolchain's."""
    found = re.match(r"Rattle\.(\w+)\b", module)
    return bool(found) and found[1] in crates()


def listed_names(listed):
    """The names that an import lists, each with what the file calls it."""
    for one in (part.split() for part in listed.split(",")):
        if len(one) not in (0, 1, 3) or one[1:2] not in ([], ["as"]):
            raise Fault("cannot read the import '%s'" % " ".join(one))
        if one:
            yield one[0], one[-1]


def imported(module, name):
    """What a name of a module of the repository stands for. A type of the source is declared in `declared`."""
    found = MODULE.fullmatch(module)
    if not found:
        raise Fault("cannot read the module %s" % module)
    crate, folder, (file, *rest) = found[1], found[2], found[3].split(".")
    if file == "declared":
        return the_type(crate, [part for part in rest if part != "TheVariants"][-1])
    return the("crates/%s/%s/%s.antt" % (crate, folder, file), name)


@functools.lru_cache(None)
def scope(path):
    """What the names of a file stand for: its own, and those of other files of the repository that it uses; and the modules
    that it uses by another name."""
    names, modules = {}, {}
    for module, listed, alias in IMPORT.findall(read(path)):
        if not is_ours(module):
            continue
        if not listed:
            modules[alias or module.split(".")[-1]] = module
        for name, here in listed_names(listed):
            names[here] = imported(module, name)
    for item in items(path) if path.endswith(".antt") else []:
        names.update({name: item for name in [item.name] + item.cases})
    return names, modules


def spoken(text, path):
    """What the words of a definition, a law or a contract stand for, where the repository declares it."""
    names, modules = scope(path)
    for word in WORD.findall(text):
        word = word.rstrip(".")
        alias, _, rest = word.partition(".")
        if word in names:
            yield names[word]
        elif alias in modules and rest:
            yield imported(modules[alias], rest.split(".")[0])
        elif alias in names:
            yield names[alias]  # and its field
        elif is_ours(word):
            yield imported(*word.rsplit(".", 1))


def said(item, whole):
    """The text of a statement, or with its body of the whole declaration, without comments."""
    lines = [line for head in item.enclosing for line in head] + item.statement + item.body * whole
    return "\n".join(uncommented("\n".join(lines), "--" if item.path.endswith(".antt") else "//"))


def borrowed(item, whole=False):
    """The names of the toolchain's libraries in a statement or a whole declaration, each with its module."""
    words = {part for word in WORD.findall(said(item, whole)) for part in (word, word.partition(".")[0])}
    for module, listed, alias in IMPORT.findall(read(item.path)):
        for name, here in listed_names(listed):
            if not is_ours(module) and {here, here.strip("◌")} & words:
                yield module, name


def cited(item, whole=False):
    """What a statement, or with its body the whole declaration, cites: each once, in the order of first mention."""
    text = re.sub(r"\b(requires|ensures) \w+ \{", r"\1 {", said(item, whole))  # a clause's name is no word of it
    if item.path.endswith(".antt"):
        found = spoken(text, item.path)
    else:
        clauses = CLAUSE.search(text)
        end = clauses.start() if clauses else len(text)
        found = types(text[:end], item.path) + list(spoken(text[end:], item.path))
    return [i for i in dict.fromkeys(found) if i is not item]


def reached(statements):
    """All that statements cite, and what that cites in turn."""
    found, left = {}, [i for s in statements for i in cited(s)]
    while left:
        item = left.pop()
        if item not in found:
            found[item] = True
            left += cited(item, whole=True)
    return list(found)
