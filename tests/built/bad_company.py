#!/usr/bin/env python3
"""The program in bad company, through ./picklist: outputs that fail, are full, take a part, are slow or
lose their reader, and inputs that fail or are slow. Each run is held to its status and to what it wrote: all of it with
status 0 and 1, with 2 the beginning, and nothing where a read failed. And the script: its arguments, and where it stands."""
import fcntl, itertools, os, resource, select, signal, socket, subprocess, sys, tempfile, time
sys.dont_write_bytecode = True
HERE = os.path.dirname(os.path.abspath(__file__))
sys.path[:0] = [os.path.join(HERE, "..", "support"), os.path.join(HERE, "..", "..", "examples")]
import make
from repository import PROGRAM, ROOT, build_program, end

SCRIPT = os.path.join(ROOT, "picklist")
FULL = os.path.join(os.sep, "dev", "full")
LIMIT = 300  # seconds, after which a run counts as one that hangs
PAGE = 4096  # bytes of the smallest pipe
SET_PIPE_SIZE = 1031
FAILED = b"picklist: a read or a write failed\n"
problems = []

# Every row of two variables over 256 nodes: 65,536 lines, far more than a pipe holds.
LONG = make.job([65535, 1] + [0, 1] * 255, [0, 0, 0, 65535], 2)
LINES = b"".join(b"%d %d\n" % row for row in itertools.product(range(256), repeat=2)) + b"end 65536\n"
SHORT, ROWS = make.job(*make.JOBS["warehouse"]), b"1 2\n1 3\n4 5\nend 3\n"
REFUSED, REFUSAL = LONG[:-1] + b"\0", b"refused 2 0\n"


def expect(name, result, status, wanted, complaint=None):
    """Holds a run's status, output and complaints to what is due: with status 2, the output's beginning and one line, that a
    read or a write failed if nothing else is told; otherwise all of the output and no complaint."""
    got, written, errors = result
    if got != status:
        problems.append("%s: status %s and not %d" % (name, got, status))
    if written != (wanted[: len(written)] if status == 2 else wanted):
        problems.append("%s: wrote %d bytes, not the %d due: .. %r" % (name, len(written), len(wanted), written[-60:]))
    due = b"" if status < 2 else FAILED if complaint is None else complaint
    if (due not in errors) or errors.count(b"\n") != (status == 2):
        problems.append("%s: complains %r" % (name, errors))


def start(arguments=(), shell="", script=SCRIPT, **streams):
    """The script with these arguments, streams, and redirections of the shell."""
    streams.setdefault("stderr", subprocess.PIPE)
    return subprocess.Popen(["sh", "-c", 'exec "$@" ' + shell, "sh", script, *arguments], start_new_session=True, **streams)


def finish(run, file=None, written=b""):
    """The status of a run, its standard output, or what was taken of it already, and its standard error."""
    try:
        out, errors = run.communicate(file, timeout=LIMIT)
    except subprocess.TimeoutExpired:
        os.killpg(run.pid, signal.SIGKILL)
        return "that it hangs", written, b""
    return run.returncode, out or written, errors


def ran(*arguments, file=None, **options):
    """The script's result on these bytes."""
    if file is not None:
        options["stdin"] = subprocess.PIPE
    return finish(start(arguments, stdout=subprocess.PIPE, **options), file)


def kept(folder, name, contents, mode=0o644):
    """A file of a folder, and its path."""
    path = os.path.join(folder, name)
    os.makedirs(os.path.dirname(path), exist_ok=True)
    with open(path, "wb") as file:
        file.write(contents)
    os.chmod(path, mode)
    return path


# ---- outputs


def statuses():
    expect("a list", ran(file=LONG), 0, LINES)
    expect("a short list", ran(file=SHORT), 0, ROWS)
    expect("a refused job", ran(file=REFUSED), 1, REFUSAL)
    expect("no bytes", ran(file=b""), 1, b"refused 1 0\n")


def failing_outputs(folder):
    for name, file in ("a list", LONG), ("a short list", SHORT), ("a refused job", REFUSED):
        path = kept(folder, "job", file)
        with open(FULL, "wb") as full, open(path, "rb") as unwritable:
            expect("a full device, %s" % name, finish(start([path], stdout=full)), 2, b"")
            expect("an output open for reading, %s" % name, finish(start([path], stdout=unwritable)), 2, b"")
        expect("a closed output, %s" % name, finish(start([path], ">&-")), 2, b"", b"output is closed")


def limited_outputs(folder):
    """A limit on the size of files: of the output, exactly so many bytes arrive."""
    for name, file, wanted, whole in ("a list", LONG, LINES, 0), ("a refused job", REFUSED, REFUSAL, 1):
        path = kept(folder, "job", file)
        for size in 0, 1, 1000, 100001, len(wanted) - 1, len(wanted):
            with tempfile.TemporaryFile() as out:
                limit = lambda: resource.setrlimit(resource.RLIMIT_FSIZE, (size, size))
                status, _, errors = finish(start([path], stdout=out, preexec_fn=limit))
                out.seek(0)
                written, due = out.read(), wanted[:size]
            limited = "%s, files of at most %d bytes" % (name, size)
            expect(limited, (status, written, errors), whole if due == wanted else 2, due)
            if len(written) != len(due):
                problems.append("%s: wrote %d" % (limited, len(written)))


def pipe(waits):
    """A pipe that holds one page. Its writing end waits for room, or says that there is none now."""
    out, into = os.pipe()
    fcntl.fcntl(into, SET_PIPE_SIZE, PAGE)
    os.set_blocking(into, waits)
    return out, into


def filled(into, run):
    """Waits until a pipe has no more room, or what writes to it has ended."""
    full = select.poll()
    full.register(into, select.POLLOUT)
    last = time.monotonic() + LIMIT
    while full.poll(0) and run.poll() is None and time.monotonic() < last:
        time.sleep(0.01)


def taken(out, sizes, most=None):
    """What comes out of a pipe in reads of these sizes: all of it, or so many bytes."""
    text = b""
    for size in sizes:
        if not select.select([out], [], [], LIMIT)[0]:
            return text
        piece = os.read(out, size if most is None else min(size, most - len(text)))
        text += piece
        if not piece or len(text) == most:
            return text


WAITS = {True: "a pipe that waits", False: "a pipe that does not wait"}
READERS = [([1 << 16], False), ([1, 2, 3, 5, 7, 11, 13, 997], False), ([1 << 16], True), ([4095, 1, 4097, 333], True)]


def slow_readers(path):
    """Every byte arrives, in order, whether the reader begins at once or once the pipe is full, and in pieces of any size."""
    for waits, (sizes, late) in itertools.product(WAITS, READERS):
        out, into = pipe(waits)
        run = start([path], stdout=into)
        if late:
            filled(into, run)
        os.close(into)
        written = taken(out, itertools.cycle(sizes))
        os.close(out)
        name = "%s, read in pieces of %s%s" % (WAITS[waits], sizes, ", once it is full" if late else "")
        expect(name, finish(run, written=written), 0, LINES)


def leaving_readers(path):
    """A reader that takes some bytes and closes the pipe."""
    for waits, most in itertools.product(WAITS, [0, 1, 5000, 200000]):
        out, into = pipe(waits)
        if most == 0:
            os.close(out)
        run = start([path], stdout=into)
        os.close(into)
        written = b""
        if most:
            written = taken(out, itertools.repeat(777), most)
            os.close(out)
        expect("%s, whose reader leaves after %d bytes" % (WAITS[waits], most), finish(run, written=written), 2, LINES)


def picky_output(path):
    """A socket that takes no message as long as a page of rows, but would take the last line: nothing goes after a gap."""
    ours, theirs = socket.socketpair(socket.AF_UNIX, socket.SOCK_DGRAM)
    theirs.setsockopt(socket.SOL_SOCKET, socket.SO_SNDBUF, 1)
    status, _, errors = finish(start([path], stdout=theirs))
    theirs.close()
    written = ours.recv(1 << 16, socket.MSG_DONTWAIT) if select.select([ours], [], [], 0)[0] else b""
    expect("an output that takes no long piece", (status, written, errors), 2, LINES)


# ---- inputs


def broken(file):
    """An input that gives a file's bytes, and then an error instead of its end: its sender leaves with mail unread."""
    ours, theirs = socket.socketpair()
    theirs.sendall(file)
    ours.sendall(b"unread")
    theirs.close()
    return ours


def failing_inputs(folder):
    """A read that fails is no job file: nothing is printed, whatever came before."""
    for file in b"", SHORT[:50], SHORT, LONG + bytes(4096 - len(LONG)):
        with broken(file) as stdin:
            expect("an input that fails after %d bytes" % len(file), ran(stdin=stdin), 2, b"")
    with open(kept(folder, "job", SHORT), "ab") as stdin:
        expect("an input open for writing", ran(stdin=stdin), 2, b"")
    expect("a folder", ran(shell="<.", cwd=folder), 2, b"")
    expect("a closed input", ran(shell="<&-"), 2, b"", b"input is closed")
    expect("a closed input and a closed output", finish(start([], "<&- >&-")), 2, b"", b"output is closed")
    status, written, _ = ran(shell="<&- 2>&-")
    if (status, written) != (2, b""):
        problems.append("a closed input and nowhere to complain: status %s, wrote %r" % (status, written))


def slow_inputs():
    """A pipe that says that nothing is there yet, with a job that comes in pieces."""
    for file, step, status, wanted in (SHORT, 1, 0, ROWS), (LONG, 100, 0, LINES), (REFUSED, 333, 1, REFUSAL):
        out, into = os.pipe()
        os.set_blocking(out, False)
        run = start(stdin=out, stdout=subprocess.PIPE)
        for at in range(0, len(file), step):
            time.sleep(0.002)
            os.write(into, file[at : at + step])
        os.close(into)
        os.close(out)
        expect("an input that does not wait, %d bytes at a time" % step, finish(run), status, wanted)


# ---- the program and the script


def told():
    """The program tells its status on descriptor 3, where it has an argument; where it has none it writes nothing there."""
    for file, printed, status in (SHORT, ROWS, b"0\n"), (REFUSED, REFUSAL, b"1\n"):
        for words, due in ([], b""), (["tell"], status):
            command = ["sh", "-c", 'exec "$@" 3>&1 >&2', "sh", PROGRAM, *words]
            run = subprocess.run(command, input=file, stdout=subprocess.PIPE, stderr=subprocess.PIPE, timeout=LIMIT)
            if (run.stdout, run.stderr) != (due, printed):
                problems.append("the program, with the arguments %s: told %r, printed %r" % (words, run.stdout, run.stderr))


def arguments(folder):
    job, usage = kept(folder, "a job * of.ours", SHORT), b"usage: "
    kept(folder, "-x", SHORT)
    for name, words, status, wanted, complaint in [
        ("a file", [job], 0, ROWS, b""),
        ("a file of this folder", [os.path.basename(job)], 0, ROWS, b""),
        ("a file behind --", ["--", "-x"], 0, ROWS, b""),
        ("a file that begins with a dash", ["./-x"], 0, ROWS, b""),
        ("a refused file", [kept(folder, "refused", REFUSED)], 1, REFUSAL, b""),
        ("a missing file", [job + ".not"], 2, b"", b".not"),
        ("an empty name", [""], 2, b"", b""),
        ("a folder for a file", [folder], 2, b"", FAILED),
        ("two files", [job, job], 2, b"", usage),
        ("two files behind --", ["--", job, job], 2, b"", usage),
        ("an unknown option", ["-x"], 2, b"", usage),
        ("another unknown option", ["--list", job], 2, b"", usage),
    ]:
        expect(name, ran(*words, file=LONG, cwd=folder), status, wanted, complaint)
    expect("a file, and a closed input", ran(job, shell="<&-"), 0, ROWS)
    status, written, errors = ran("--help")
    if status != 0 or errors or not written.startswith(usage) or b"Status" not in written:
        problems.append("--help: status %s, printed %r, complained %r" % (status, written, errors))
    status, _, errors = finish(start(["--help"], stdout=open(FULL, "wb")))
    if status != 2:
        problems.append("--help to a full device: status %s" % status)


def places(folder):
    """From other folders, and through symbolic links."""
    os.symlink(SCRIPT, os.path.join(folder, "link"))
    os.makedirs(os.path.join(folder, "deep"))
    os.symlink(os.path.join("..", "link"), os.path.join(folder, "deep", "picklist"))
    for script, cwd in ("./link", folder), ("deep/picklist", folder), (SCRIPT, os.sep):
        expect("%s" % script, ran(file=SHORT, script=script, cwd=cwd), 0, ROWS)


def other_programs(folder):
    """A copy of the script beside programs that tell no status, and beside none, where the program is first to be built."""
    script, program = kept(folder, "picklist", open(SCRIPT, "rb").read(), 0o755), os.path.relpath(PROGRAM, ROOT)
    env = dict(os.environ, PATH=os.path.join(folder, "tools") + os.pathsep + os.environ["PATH"], BUILT=PROGRAM)

    def attempt(name, status, wanted, complaint):
        got, written, errors = ran(file=SHORT, script=script, env=env, cwd=os.sep)
        if (got, written) != (status, wanted) or not errors.endswith(complaint):
            problems.append("a program that %s: status %s, wrote %r, complained %r" % (name, got, written, errors))

    for name, text in ("dies", "kill -9 $$"), ("tells nothing", ""), ("tells 00", "echo 00 >&3"), ("tells 3", "echo 3 >&3"):
        kept(folder, program, b"#!/bin/sh\necho 1 2\n%s\n" % text.encode(), 0o755)
        attempt(name, 2, b"1 2\n", b"the program did not run to its end\n")
    os.remove(os.path.join(folder, program))
    kept(folder, os.path.join("tools", "rt"), b"#!/bin/sh\necho not proved\nexit 1\n", 0o755)
    attempt("cannot be built", 2, b"", b"the program could not be built\n")
    kept(folder, os.path.join("tools", "rt"), b'#!/bin/sh\necho "$@" >&2\ncp "$BUILT" out\n', 0o755)
    attempt("is first built", 0, ROWS, b"run\n")


build_program()
statuses()
told()
slow_inputs()
for test in failing_outputs, limited_outputs, failing_inputs, arguments, places, other_programs:
    with tempfile.TemporaryDirectory() as folder:
        test(folder)
with tempfile.TemporaryDirectory() as folder:
    job = kept(folder, "job", LONG)
    slow_readers(job)
    leaving_readers(job)
    picky_output(job)
end(problems)
