"""What the tests share: the files of the repository, its crates, the program, and how a test ends."""
import os
import re
import subprocess
import sys

ROOT = os.path.dirname(os.path.dirname(os.path.dirname(os.path.abspath(__file__))))
PROGRAM = os.path.join(ROOT, "crates", "picklist", "out", "picklist")


def files(*suffixes, under=""):
    """The paths, from the root, of all files with one of these suffixes; of all files where none is given."""
    found = []
    for folder, folders, names in os.walk(os.path.join(ROOT, under)):
        folders[:] = [f for f in folders if f not in (".git", "target", "out", "__pycache__")]
        found += [os.path.relpath(os.path.join(folder, n), ROOT) for n in names if not suffixes or n.endswith(suffixes)]
    return sorted(found)


def read(path):
    with open(os.path.join(ROOT, path), encoding="utf-8") as f:
        return f.read()


def uncommented(text, mark):
    """The text without its line comments, line for line."""
    return [line.split(mark, 1)[0].rstrip() for line in text.split("\n")]


def crates():
    """The crates of crates.txt in its order, each with its dependencies. What stands behind a name says what kind of crate it is."""
    listed = {}
    for line in uncommented(read("crates.txt"), "#"):
        if line:
            head, deps = line.split(":", 1)
            listed[head.split()[0]] = deps.split()
    return listed


def services(read=read):
    """The lines of tests/services.txt: crate and function."""
    for line in uncommented(read("tests/services.txt"), "#"):
        words = line.split()
        if words:
            yield words[0], words[1]


def word(name):
    """A pattern for an identifier on its own; those of specs and proofs may hold primes."""
    return re.compile(r"(?<![\w'])%s(?![\w'])" % re.escape(name))


def build_program():
    """Has rt build the program where rt ci has not left it; what is proved already is not proved again."""
    if not os.access(PROGRAM, os.X_OK):
        folder = os.path.join(ROOT, "crates", "picklist")
        subprocess.run(["rt", "run"], cwd=folder, stdin=subprocess.DEVNULL, stdout=subprocess.DEVNULL)
    if not os.access(PROGRAM, os.X_OK):
        end(["the program is not built: %s" % os.path.relpath(PROGRAM, ROOT)])


def end(problems):
    """Ends a test: prints what is wrong, and fails if anything is."""
    for problem in problems:
        print(problem)
    sys.exit(1 if problems else 0)
