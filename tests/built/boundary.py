#!/usr/bin/env python3
"""The static library is built, and the programs tests/boundary*.c and tests/boundary.rs are linked with it and run: they call
every function of include/geznauri.h, accepted and refused. The header is compiled as C++ too, on its own. What the header says of
the archive is so: the symbols that it defines and needs, and its size. The example program prints what examples/README.md shows."""
import os, re, subprocess, sys
sys.dont_write_bytecode = True
sys.path.insert(0, os.path.join(os.path.dirname(__file__), "..", "support"))
from repository import ROOT, end, read

OUT = os.path.join("target", "boundary")
LIBRARY = os.path.join("target", "staticlib", "libterminal.a")
C = ["cc", "-std=c11", "-Wall", "-Wextra", "-Werror", "-O2", "-pthread", "-I", "include"]


def fails(*command):
    """Whether a command fails; what it prints is shown."""
    try:
        return subprocess.run(command, cwd=ROOT, stdin=subprocess.DEVNULL).returncode != 0
    except OSError as error:
        print(error, flush=True)
        return True


def printed(*command):
    """The lines that a command prints, as words."""
    run = subprocess.run(command, cwd=ROOT, stdin=subprocess.DEVNULL, stdout=subprocess.PIPE, check=True)
    return [line.split() for line in run.stdout.decode().split("\n")]


def archive():
    """What the header says of the archive and is not so."""
    header = read("include/geznauri.h")
    prose, code = re.sub(r"\s*\n \*\s*", " ", header), re.sub(r"/\*.*?\*/", "", header, flags=re.S)
    needs = set(re.search(r"needs \w+ functions of the C library[^:]*: ([\w, ]+)\.", prose)[1].split(", "))
    most = 1024 * int(re.search(r"less than (\d+) KiB of code and constants, and has no variables", prose)[1])
    defined = {words[-1] for words in printed("nm", "-g", "--defined-only", LIBRARY) if len(words) == 3}
    needed = {words[-1] for words in printed("nm", "-u", LIBRARY) if len(words) == 2} - defined
    if defined != set(re.findall(r"\b(gz_\w+)\(", code)):
        yield "the archive defines %s" % ", ".join(sorted(defined))
    if needed != needs:
        yield "the archive needs %s" % ", ".join(sorted(needed))
    text, data, bss = map(int, printed("size", "-t", LIBRARY)[-2][:3])
    if text >= most or data or bss:
        yield "the archive has %d bytes of code and constants, and %d of variables" % (text, data + bss)


def example():
    """What examples/README.md shows of the example program and is not so."""
    program = os.path.join(OUT, "typed")
    if fails(*C, os.path.join("examples", "typed.c"), LIBRARY, "-o", program):
        yield "examples/typed.c does not compile"
        return
    shown = re.findall(r"^    \$ target/typed '(.*)'\n((?:    [^$\n].*\n)+)", read("examples/README.md"), re.M)
    if not shown:
        yield "examples/README.md shows no query"
    for query, lines in shown:
        run = subprocess.run([os.path.join(ROOT, program), query], stdin=subprocess.DEVNULL, stdout=subprocess.PIPE)
        if run.stdout.decode() != re.sub("^    ", "", lines, flags=re.M):
            yield "examples/typed.c prints otherwise than examples/README.md shows for %s" % query


problems = []
os.makedirs(os.path.join(ROOT, OUT), exist_ok=True)
if fails("./build"):
    end(["./build failed"])
for source in "boundary.c", "boundary_stack.c", "boundary.rs":
    program = os.path.join(OUT, source.replace(".", "_"))
    path = os.path.join("tests", source)
    if source.endswith(".c"):
        compiler = C + [path, LIBRARY, "-o", program]
    else:
        compiler = ["rustc", "--edition", "2021", "-D", "warnings", "-L", "native=target/staticlib", path, "-o", program]
    if fails(*compiler):
        problems.append("%s does not compile" % path)
    elif fails(os.path.join(ROOT, program)):
        problems.append("%s fails" % path)
if fails("cc", "-x", "c++", "-Wall", "-Wextra", "-Werror", "-fsyntax-only", "include/geznauri.h"):
    problems.append("include/geznauri.h is no C++")
problems += ["%s, and include/geznauri.h says otherwise" % fault for fault in archive()]
problems += example()
end(problems)
