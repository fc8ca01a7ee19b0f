#!/usr/bin/env python3
"""Respells the repository's own definitions and lemmas in snake case, as today's Rattle spells words: respell.py, once, after port.py.

It goes by what the files directly below a crate's specs/ and proofs/ declare: a name of two or more humps (`treeChecks`) or with a
dash (`any-intro`) becomes `tree_checks`, `any_intro`. Functions of src/, strings, goals and what the kit declares keep their names:
a word that a file imports from the kit stays in that file, and a file of a function's proof (proofs/F/) turns only what it imports
from a crate of the repository, and fields. Where two names would fall together, the lemma gets `_lem` behind it. In a comment a
name with a dash turns only behind the name of its file, since it may be plain English. `--check` writes nothing."""
import os
import re
import sys

ROOT = os.path.dirname(os.path.dirname(os.path.abspath(__file__)))
WORD = re.compile(r"[^\s(){}.;,@\"«»`]+")
DECLARED = re.compile(r"^ *(?:(?:pub|abbrev|unfoldable) )*([^\s:(){}.,;@\"«»`]+)(?: \{[^{}\n]*\})* : ", re.M)
RECORD = re.compile(r"^ *(?:pub )?record ")
USE = re.compile(r"\buse ([^\s;{]+)(\{[^}]*\})?(?: as (\S+))?")
OF_KIT = re.compile(r"(?<![\w.])(?:Prim|native|mathlib|lib|borrow|denote|logic|Rattle\.std)(?:\.\w+)*\.$")
TEXT = re.compile(r'("(?:\\.|[^"\\])*")')


def snake(name):
    name = re.sub(r"(?<=[a-z0-9])[A-Z]", lambda m: "_" + m[0].lower(), name.replace("getD", "get_or"))
    return name.replace("-", "_")


def files(*ends):
    for folder, dirs, names in os.walk(os.path.join(ROOT, "crates")):
        dirs[:] = sorted(d for d in dirs if d != "out")
        for name in sorted(names):
            if name.endswith(ends):
                yield os.path.join(folder, name)


def is_layer(path):
    """A file directly below specs/ or proofs/."""
    return os.path.basename(os.path.dirname(path)) in ("specs", "proofs") and path.endswith(".antt")


def read(path):
    with open(path, encoding="utf-8") as f:
        return f.read()


def code(text):
    return re.sub(r"--[^\n]*", "", text)


def declared(text):
    return [n for n in DECLARED.findall(code(text)) if re.fullmatch(r"[a-z][\w'!₀-₉-]*", n)]


def fields(layers):
    """The names of the fields of records."""
    found = set()
    for text in layers.values():
        inside = False
        for line in code(text).splitlines():
            if RECORD.match(line):
                inside = True
            elif inside and line.startswith(" "):
                found.update(declared(line))
            elif line.strip():
                inside = False
    return found


def table(layers):
    """Old to new; and for each file, the names that make room for a definition's new name."""
    names = {n for text in layers.values() for n in declared(text)}
    rows = {n: snake(n) for n in sorted(names) if snake(n) != n}
    words = {path: set(WORD.findall(code(text))) for path, text in layers.items()}
    humps = {new for old, new in rows.items() if "-" not in old}
    for old, new in list(rows.items()):
        if "-" in old and (new in humps or any(old in w and new in w for w in words.values())):
            rows[old] = new + "_lem"
    room = {}
    for path, w in words.items():
        for old, new in rows.items():
            if old in w and new in w:
                room.setdefault(path, {})[new] = new + "_lem"
    return rows, room


def imports(text):
    """The words that a file imports, from the repository and from the kit."""
    own, kit = set(), set()
    for path, items, alias in USE.findall(text):
        steps = path.strip(".").split(".")
        words = [w for w in WORD.findall(items) if w != "as"] if items else [alias or steps[-1]]
        mine = steps[0] == "Rattle" and len(steps) > 1 and os.path.isdir(os.path.join(ROOT, "crates", steps[1]))
        (own if mine else kit).update(words)
    return own, kit


class Turner:
    def __init__(self, path, text, rows, room, held):
        own, kit = imports(text)
        self.rows, self.room = rows, room.get(path, {})
        self.free = {n for n in rows if n not in kit}
        self.held = {n for n in held if n in rows}
        if path.endswith(".antt") and not is_layer(path):
            self.free &= own
        elif path.endswith(".antt"):
            self.held = self.free
        else:
            self.held |= self.free
        self.mark = "--" if path.endswith(".antt") else "//"

    def name(self, word, behind, before_equals):
        core, tail = re.fullmatch(r"(.*?)([:?]*)", word).groups()
        if core in (self.held if behind else self.free) or (before_equals and core in self.held):
            return self.rows[core] + tail
        if core in self.room:
            return self.room[core] + tail
        return word

    def code(self, text):
        def word(m):
            if OF_KIT.search(text, 0, m.start()):
                return m[0]
            return self.name(m[0], text[m.start() - 1:m.start()] == ".", text[m.end():m.end() + 3] == " = ")

        return WORD.sub(word, text)

    def prose(self, text):
        def word(m):
            w = re.fullmatch(r"(.*?)([:?']*)", m[0])
            if w[1] not in self.rows or ("-" in w[1] and not re.search(r"antt: [^()]*$", text[:m.start()])):
                return m[0]
            return self.rows[w[1]] + w[2]

        return WORD.sub(word, text)

    def line(self, line):
        at = re.search(r"(?<![^\s(])" + self.mark, line)
        head, tail = (line[:at.start()], line[at.start():]) if at else (line, "")
        parts = TEXT.split(head)
        return "".join(self.code(p) if i % 2 == 0 else p for i, p in enumerate(parts)) + self.prose(tail)


def main(check):
    layers = {path: read(path) for path in files(".antt") if is_layer(path)}
    rows, room = table(layers)
    held = fields(layers)
    for old, new in rows.items():
        if new != snake(old) or check:
            print(old, new)
    for path, names in room.items():
        print(os.path.relpath(path, ROOT), *("%s %s" % row for row in names.items()))
    for path in files(".antt", ".rt", ".edit"):
        text = read(path)
        turner = Turner(path, text, rows, room, held)
        new = "\n".join(turner.line(line) for line in text.split("\n"))
        if new != text and not check:
            with open(path, "w", encoding="utf-8") as f:
                f.write(new)
    print(len(rows), "names respelled")


main("--check" in sys.argv)
