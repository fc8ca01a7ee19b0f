#!/usr/bin/env python3
"""Counts the places of the points of docs/DESIGN-PASS.md in the code, crates/*/src. Usage: tools/design_places.py [-l] [COMMIT]
With a commit it reads the files as they stood there; with -l it prints each place too."""
import re
import subprocess
import sys

args = [a for a in sys.argv[1:] if a != "-l"]
LIST = "-l" in sys.argv[1:]


def git(*command):
    return subprocess.run(("git",) + command, capture_output=True, text=True, check=True).stdout


def files():
    if args:
        paths = [p for p in git("ls-tree", "-r", "--name-only", args[0], "crates").split("\n")]
        return {p: git("show", args[0] + ":" + p) for p in paths if re.fullmatch(r"crates/\w+/src/.*\.rt", p)}
    paths = git("ls-files", "--cached", "--others", "--exclude-standard", "crates").split("\n")
    return {p: open(p, encoding="utf-8").read() for p in paths if re.fullmatch(r"crates/\w+/src/.*\.rt", p)}


def code(text):
    """The lines without their comments."""
    return [re.sub(r"//.*", "", line) for line in text.split("\n")]


def lines(pattern):
    def find(path, text):
        return [(n, line.strip()) for n, line in enumerate(code(text), 1) if re.search(pattern, line)]
    return find


def loops(counted):
    """`while` loops that count a variable by hand, or the others."""
    def find(path, text):
        rows, found = code(text), []
        for n, line in enumerate(rows):
            start = re.match(r"(\s*)(?:while\b(.*)|loop\b)", line)
            if not start:
                continue
            end = next(m for m in range(n + 1, len(rows)) if re.match(re.escape(start[1]) + r"\}", rows[m]))
            body = "\n".join(rows[n + 1:end])
            names = set(re.findall(r"\b[a-z_]\w*\b", start[2] or ""))
            steps = set(re.findall(r"\b(\w+) [+-]= 1;", body)) | {a for a, b in re.findall(r"\b(\w+) = (\w+) [+-] 1;", body) if a == b}
            down = re.search(r"let (\w+) = (\w+) - 1;", body)
            by_hand = bool(names & steps) or bool(down and down[2] in names and re.search(r"\b%s = %s;" % (down[2], down[1]), body))
            if by_hand == counted:
                found.append((n + 1, line.strip()))
        return found
    return find


def fields(kind):
    """Fields of a type in structs, which a value may stand beside."""
    def find(path, text):
        found, inside = [], False
        for n, line in enumerate(code(text), 1):
            if re.match(r"\s*(pub )?struct \w+.*\{", line):
                inside = True
            elif inside and line.strip() == "}":
                inside = False
            elif inside and re.search(r": %s,$" % kind, line):
                found.append((n, line.strip()))
        return found
    return find


def parameters(least):
    """Functions with so many parameters or more."""
    def find(path, text):
        flat = "\n".join(code(text))
        found = []
        for m in re.finditer(r"\bfn (\w+)(?:<[^(]*>)?\(([^)]*(?:\([^)]*\)[^)]*)*)\)", flat):
            count = len([p for p in re.sub(r"<[^<>]*>|\([^()]*\)|\[[^\[\]]*\]", "", m[2]).split(",") if p.strip()])
            if count >= least:
                found.append((flat[:m.start()].count("\n") + 1, "%s: %d parameters" % (m[1], count)))
        return found
    return find


NUMBER = r"\b(k|kind|f\.kind|t|inner|h|check|op|a|axis|number|fault) (==|!=|<|<=) \(?\d+\b|\b\d+ (<|<=) (k|kind|inner|a|h)\b"
POINTS = [
    ("1a enums of the repository", lines(r"^\s*(pub )?enum \w+")),
    ("1b flags in structs", fields("bool")),
    ("1c refusals by their numbers", lines(r"\breply_at\(\s*$|\breply_at\(\d|\.number [!=]= 0")),
    ("1d kinds and the like by their numbers", lines(NUMBER)),
    ("2 small functions that several crates had", lines(r"\bfn (choose|pick|larger|greater|lower|less|left|raised|wide|byte|low_bit|one_if|same|put_row|put_step|close|close_gaps)\b")),
    ("3a loops that count by hand", loops(True)),
    ("3b other while loops and loops", loops(False)),
    ("3c for loops, iterators and library methods over many", lines(r"^\s*for \w|\.(any|all|position|find|zip|enumerate|rev|iter|iter_mut|chunks|chunks_exact|chunks_exact_mut|copy_from_slice|fill)\(|\bfrom_fn\(|\blowest\(")),
    ("4 casts and conversions by hand", lines(r" as (u8|u16|u32|u64|usize)\b|\bmodel::wide\(|\bwords::wide\(|\bwide\(|\bsets::byte\(")),
    ("5 functions of seven parameters or more", parameters(7)),
    ("6 lengths and flags beside buffers lent to be filled", lines(r"\bcount: &mut usize\b|\bcounts: &\[u8\]|\boperands: &mut \[u16\]|\bdepth: usize\b")),
    ("7 switches handed on", lines(r"\b(op|check|which|closed|turned|whole|path): (u8|usize|bool)\b")),
]

texts = files()
for name, find in POINTS:
    found = [(path, n, what) for path, text in sorted(texts.items()) for n, what in find(path, text)]
    print("%4d  %s" % (len(found), name))
    if LIST:
        for path, n, what in found:
            print("      %s:%d: %s" % (path, n, what))
