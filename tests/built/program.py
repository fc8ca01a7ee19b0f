#!/usr/bin/env python3
"""The program, run on the examples and on a table of jobs of both forms, sound and damaged, and held to every byte
that it should print. What a damaged job is refused with is worked out by hand; the answers of a sound one come from the separate
evaluator of tests/support, or are told by a formula."""
import itertools, os, random, subprocess, sys
sys.dont_write_bytecode = True
HERE = os.path.dirname(os.path.abspath(__file__))
sys.path[:0] = [os.path.join(HERE, "..", "support"), os.path.join(HERE, "..", "..", "examples")]
import make, reference
from repository import PROGRAM, ROOT, build_program, end

EXAMPLES = os.path.join(ROOT, "examples")
problems = []


def printed(file, command=PROGRAM):
    """What the program prints for a file."""
    return subprocess.run([command], input=file, stdout=subprocess.PIPE, timeout=300).stdout


def compare(name, got, wanted):
    if got != wanted:
        problems.append("%s: printed %r and not %r" % (name, got[:200], wanted[:200]))


def refused(number, place=0):
    return b"refused %d %d\n" % (number, place)


def listed(rows):
    """The lines of some rows."""
    rows = list(rows)
    lines = [" ".join(map(str, row)) for row in rows] + ["end %d" % len(rows)]
    return "".join(line + "\n" for line in lines).encode()


def answers(tree, query, columns):
    """The answers of a query, by the separate evaluator."""
    tree = reference.Tree(tree)
    return [row for row in itertools.product(range(tree.n), repeat=columns) if any(reference.relation(tree, query, row))]


def changed(numbers, at, *new):
    """A table with other numbers from a place on."""
    return numbers[:at] + list(new) + numbers[at + len(new) :]


def entry(e, *fields):
    """The query of the teaching warehouse with another entry e."""
    return changed(QUERY, 4 * e, *fields)


def steps(*some):
    """axis::test[. is $k]/axis::test[. is $k].., of the axis, the test and the k of each step."""
    table = []
    for axis, test, k in some:
        at = len(table) // 4
        table += [0, axis, 0, test, 12, k, 0, 0, 5, at, at + 1, 0] + [1, at - 1, at + 2, 0] * (at > 0)
    return table


def upwards(axis, test):
    """.[. is $0]/axis::test[. is $1]"""
    return steps((0, 65534, 0), (axis, test, 1))


TREE, QUERY, _ = make.JOBS["warehouse"]
ROWS = listed([(1, 2), (1, 3), (4, 5)])
T, Q = make.packed(TREE), make.packed(QUERY)
WHOLE = make.job(TREE, QUERY, 2)


def file(body, tree_start, tree_count, query_start, query_count, columns=2, magic=20564, party=None):
    """A file of any bytes and the trailer that says where its parts start; a start may lie before the file. With a party the trailer
    has one number more, and the other magic number."""
    last = [magic] if party is None else [party, 20565]
    size = len(body) + 10 + 2 * len(last)
    return body + make.packed([size - tree_start, tree_count, size - query_start, query_count, columns] + last)


def sized(size):
    """The warehouse's job with ignored bytes between its parts and the trailer, so that the file has this size."""
    return file(T + Q + bytes(size - 92), 0, 12, 24, 28)


# The same with three numbers a node, all common, for a party.
COMMON = make.shared(TREE, [0] * 6)
C = make.packed(COMMON)
SHARED = make.job(COMMON, QUERY, 2, 2)


def shared_sized(size):
    return file(C + Q + bytes(size - 106), 0, 18, 36, 28, party=2)


# Files and their parts: 1 to 4, and all the places where a part may lie.
FILES = [
    ("no bytes", b"", refused(1)),
    ("11 bytes", WHOLE[-11:], refused(1)),
    ("12 bytes, two empty parts before the trailer", file(b"", 0, 0, 0, 0), refused(5)),
    ("4,096 bytes", sized(4096), ROWS),
    ("4,097 bytes", sized(4097), refused(1)),
    ("far too long", bytes(1 << 20), refused(1)),
    ("a magic number two too high, and a part before the file", file(T + Q, -1, 12, 24, 28, magic=20566), refused(2)),
    ("a magic number one too low, and a part before the file", file(T + Q, -1, 12, 24, 28, magic=20563), refused(2)),
    ("a magic number with its bytes swapped", WHOLE[:-2] + WHOLE[-1:] + WHOLE[-2:-1], refused(2)),
    ("a magic number that is not the last number", WHOLE + b"\0", refused(2)),
    ("the tree a byte before the file", file(T + Q, -1, 12, 24, 28), refused(3, 0)),
    ("the query a byte before the file", file(T + Q, 0, 12, -1, 28), refused(3, 1)),
    ("both before the file", file(T + Q, -1, 12, -1, 28), refused(3, 0)),
    ("an empty tree before the file", file(T + Q, -1, 0, 24, 28), refused(3, 0)),
    ("the tree a byte into the trailer", file(Q + T, 57, 12, 0, 28), refused(3, 0)),
    ("the query a number into the trailer", file(T + Q, 0, 12, 24, 29), refused(3, 1)),
    ("the largest distance and count", file(T + Q, 92 - 65535, 65535, 24, 28), refused(3, 0)),
    ("the largest count", file(T + Q, 0, 12, 24, 65535), refused(3, 1)),
    ("an empty tree inside the trailer", file(T + Q, 81, 0, 24, 28), refused(3, 0)),
    ("an empty query inside the trailer", file(T + Q, 0, 12, 90, 0), refused(3, 1)),
    ("an empty query at the end of the file", file(T + Q, 0, 12, 92, 0), refused(3, 1)),
    ("an empty query at the trailer's start", file(T + Q, 0, 12, 80, 0), refused(8)),
    ("an overlap by one byte, the tree first", file(T[:-1] + Q, 0, 12, 23, 28), refused(4)),
    ("an overlap by one byte, the query first", file(Q[:-1] + T, 55, 12, 0, 28), refused(4)),
    ("both parts the same", file(T + Q, 0, 12, 0, 12), refused(4)),
    ("the query inside the tree, both unsound", file(bytes(24), 0, 12, 8, 4), refused(4)),
    ("an empty query inside the tree", file(T, 0, 12, 11, 0), refused(8)),
    ("an empty tree inside the query", file(Q, 11, 0, 0, 28), refused(5)),
    ("the query first", file(Q + T, 56, 12, 0, 28), ROWS),
    ("odd offsets", file(b"\7" + T + Q + b"\7", 1, 12, 25, 28), ROWS),
    ("ignored bytes everywhere", file(b"\1\2\3" + Q + b"\4\5\6\7" + T + b"\xff" * 9, 63, 12, 3, 28), ROWS),
    ("a number before the older trailer, which is no party", file(T + Q + make.packed([3]), 0, 12, 24, 28), ROWS),
]

# The same of files with a party: a trailer of 14 bytes, and no part may end inside it.
FILES += [
    ("the newer magic number alone", make.packed([20565]), refused(1)),
    ("11 bytes with the newer magic number", SHARED[-11:], refused(1)),
    ("12 bytes with the newer magic number", SHARED[-12:], refused(1)),
    ("12 bytes that would have two empty parts", file(b"", 0, 0, 0, 0, magic=20565), refused(1)),
    ("13 bytes with the newer magic number", SHARED[-13:], refused(1)),
    ("13 bytes that would have two empty parts", file(b"\0", 0, 0, 0, 0, magic=20565), refused(1)),
    ("14 bytes, two empty parts before the trailer", file(b"", 0, 0, 0, 0, party=1), refused(5)),
    ("14 bytes, two empty parts and no such party", file(b"", 0, 0, 0, 0, party=0), refused(5)),
    ("14 bytes, the last of a job", SHARED[-14:], refused(3, 0)),
    ("the older magic number in 12 of 14 bytes", SHARED[-14:-2] + make.packed([20564]), refused(3, 0)),
    ("a party", SHARED, ROWS),
    ("4,096 bytes and a party", shared_sized(4096), ROWS),
    ("4,097 bytes and a party", shared_sized(4097), refused(1)),
    ("the newer magic number with its bytes swapped", SHARED[:-2] + SHARED[-1:] + SHARED[-2:-1], refused(2)),
    ("the newer magic number two too high", SHARED[:-2] + make.packed([20567]), refused(2)),
    ("the newer magic number that is not the last number", SHARED + b"\0", refused(2)),
    ("a party behind the newer magic number", SHARED[:-4] + make.packed([20565, 2]), refused(2)),
    ("the tree a byte before the file, with a party", file(C + Q, -1, 18, 36, 28, party=1), refused(3, 0)),
    ("the query a byte before the file, with a party", file(C + Q, 0, 18, -1, 28, party=1), refused(3, 1)),
    ("the tree a byte into the longer trailer", file(Q + C, 57, 18, 0, 28, party=1), refused(3, 0)),
    ("the tree a number into the longer trailer, where the older begins", file(Q + C, 58, 18, 0, 28, party=1), refused(3, 0)),
    ("the query a byte into the longer trailer", file(C + Q, 0, 18, 37, 28, party=1), refused(3, 1)),
    ("the query a number into the longer trailer", file(C + Q, 0, 18, 36, 29, party=1), refused(3, 1)),
    ("the largest distance and count, with a party", file(C + Q, 106 - 65535, 65535, 36, 28, party=1), refused(3, 0)),
    ("an empty query at the longer trailer's start", file(C + Q, 0, 18, 92, 0, party=1), refused(8)),
    ("an empty query a byte into it", file(C + Q, 0, 18, 93, 0, party=1), refused(3, 1)),
    ("an empty query where the older trailer begins", file(C + Q, 0, 18, 94, 0, party=1), refused(3, 1)),
    ("an empty tree where the older trailer begins", file(C + Q, 94, 0, 36, 28, party=1), refused(3, 0)),
    ("an overlap by one byte, the shared tree first", file(C[:-1] + Q, 0, 18, 35, 28, party=1), refused(4)),
    ("an overlap by one byte, the query first, with a party", file(Q[:-1] + C, 55, 18, 0, 28, party=1), refused(4)),
    ("an overlap, an unsound tree and no such party", file(bytes(36), 0, 18, 8, 4, party=9), refused(4)),
    ("the query first, with a party", file(Q + C, 56, 18, 0, 28, party=2), ROWS),
    ("odd offsets, with a party", file(b"\7" + C + Q + b"\7", 1, 18, 37, 28, party=1), ROWS),
    ("ignored bytes everywhere, with a party", file(b"\1\2\3" + Q + b"\4\5\6\7" + C + b"\xff" * 9, 63, 18, 3, 28, party=2), ROWS),
]

# The tree, the query and the number of variables: 5 to 15.
CHAIN = [65535, 1] + [n for k in range(256) for n in (k, 1)]
STAR, DOT = [0, 0, 0, 65535], [0, 0, 0, 65534]
BELOW = [0, 1, 0, 65535, 12, 0, 0, 0, 5, 1, 2, 0, 1, 0, 3, 0, 7, 4, 0, 0]
DOCUMENT = [65535, 65534, 0, 1, 1, 2, 2, 3, 2, 3, 1, 2, 5, 3]
UNIONS = STAR + [n for k in range(32) for n in (STAR + [2, 2 * k, 2 * k + 1, 0])]
TABLES = [
    ("an empty tree", [], QUERY, 2, refused(5)),
    ("a tree of odd length", TREE[:-1], QUERY, 2, refused(5)),
    ("257 nodes", CHAIN, STAR, 1, refused(5)),
    ("256 nodes", CHAIN[:-2], STAR, 1, listed((x,) for x in range(256))),
    ("a root with a parent", changed(TREE, 0, 0), QUERY, 2, refused(6, 0)),
    ("a node that is its own parent", changed(TREE, 2, 1), QUERY, 2, refused(6, 1)),
    ("a parent off the path", changed(TREE, 10, 2), QUERY, 2, refused(6, 5)),
    ("two bad parents and a bad tag before them", changed(changed(TREE, 3, 65535, 5), 10, 2), QUERY, 2, refused(6, 2)),
    ("a tag of 65534 past node 0", changed(TREE, 7, 65534), QUERY, 2, refused(7, 3)),
    ("a second document node", changed(DOCUMENT, 3, 65534), QUERY, 2, refused(7, 1)),
    ("a document node and a tag of 65535", changed(DOCUMENT, 13, 65535), QUERY, 2, refused(7, 6)),
    ("a tag of 65535 and a query of no entry", changed(TREE, 1, 65535), [], 2, refused(7, 0)),
    ("a tag of 65533", changed(TREE, 1, 65533), QUERY, 2, ROWS),
    ("a tag of 65534 at node 0", changed(TREE, 1, 65534), QUERY, 2, ROWS),
    ("an empty query", TREE, [], 2, refused(8)),
    ("a query of no whole entries", TREE, QUERY[:-1], 2, refused(8)),
    ("65 entries", TREE, UNIONS, 1, refused(8)),
    ("64 entries", TREE, UNIONS[:-8] + [7, 62, 0, 0], 1, listed((x,) for x in range(6))),
    ("no variable", TREE, STAR, 0, refused(9)),
    ("four variables and a bad kind", TREE, entry(0, 15, 0, 0, 0), 4, refused(9)),
    ("a kind of 15", TREE, entry(3, 15, 0, 0, 0), 2, refused(10, 3)),
    ("an axis of 13 before a kind of 15", TREE, changed(entry(0, 0, 13, 0, 2), 12, 15), 2, refused(10, 3)),
    ("an axis of 13", TREE, entry(0, 0, 13, 0, 2), 2, refused(11, 0)),
    ("the query's filter as a star with a right field", TREE, entry(2, 13, 0, 1, 0), 2, refused(11, 2)),
    ("the query's filter as a same with a tag field", TREE, entry(2, 14, 0, 0, 1), 2, refused(11, 2)),
    ("a right field of a star", TREE, STAR + [13, 0, 1, 0], 1, refused(11, 1)),
    ("a tag field of a star", TREE, STAR + [13, 0, 0, 65534], 1, refused(11, 1)),
    ("a tag field of a same", TREE, STAR + STAR + STAR + [14, 0, 1, 65535, 5, 2, 3, 0], 1, refused(11, 3)),
    ("a composition's tag of 65534", TREE, entry(6, 1, 2, 5, 65534), 2, refused(11, 6)),
    ("an axis of 13 with node()", TREE, entry(3, 0, 13, 0, 65534), 2, refused(11, 3)),
    ("a variable that is not there", TREE, QUERY, 1, refused(11, 4)),
    ("a right field of a step", TREE, entry(3, 0, 1, 1, 3), 2, refused(11, 3)),
    ("a right field of a variable", TREE, entry(1, 12, 0, 1, 0), 2, refused(11, 1)),
    ("a tag field of a composition", TREE, entry(6, 1, 2, 5, 1), 2, refused(11, 6)),
    ("its own operand", TREE, entry(2, 5, 0, 2, 0), 2, refused(12, 2)),
    ("a later operand", TREE, entry(2, 5, 3, 1, 0), 2, refused(12, 2)),
    ("a star of itself", TREE, STAR + [13, 1, 0, 0], 1, refused(12, 1)),
    ("a later path of a same", TREE, STAR + [14, 0, 2, 0] + STAR + [5, 2, 1, 0], 1, refused(12, 1)),
    ("a path for a node expression", TREE, entry(5, 5, 3, 0, 0), 2, refused(13, 5)),
    ("a node expression for a path", TREE, entry(6, 1, 1, 5, 0), 2, refused(13, 6)),
    ("the query's filter as a star of `is`", TREE, entry(2, 13, 1, 0, 0), 2, refused(13, 2)),
    ("the query's filter as a same with `is`", TREE, entry(2, 14, 0, 1, 0), 2, refused(13, 2)),
    ("a star of a node expression", TREE, [12, 0, 0, 0, 13, 0, 0, 0], 1, refused(13, 1)),
    ("a same of a node expression and a path", TREE, STAR + [12, 0, 0, 0, 14, 1, 0, 0], 1, refused(13, 2)),
    ("a same of a path and a node expression", TREE, STAR + [12, 0, 0, 0, 14, 0, 1, 0], 1, refused(13, 2)),
    ("a star for a node expression", TREE, STAR + STAR + [13, 1, 0, 0, 5, 0, 2, 0], 1, refused(13, 3)),
    ("a same for a path", TREE, STAR + STAR + STAR + [14, 1, 2, 0, 1, 0, 3, 0], 1, refused(13, 4)),
    ("a path that a same has twice", TREE, STAR + STAR + [14, 1, 1, 0, 5, 0, 2, 0], 1, refused(14, 1)),
    ("an operand used twice, and one never", TREE, entry(6, 1, 2, 2, 0), 2, refused(14, 2)),
    ("an operand never used", TREE, STAR + STAR, 1, refused(14, 0)),
    ("a node expression for the query", TREE, [12, 0, 0, 0], 1, refused(15, 0)),
    ("a node expression for the query, last of two", TREE, STAR + [8, 0, 0, 0], 1, refused(15, 1)),
    ("a same for the query", TREE, STAR + STAR + [14, 0, 1, 0], 1, refused(15, 2)),
]

# Shared tables: two firms in one hall, each of their jobs by hand, and 5 to 8 of tables with owners and a party. CHAIN has 257 nodes.
FIRMS, OWNERS = make.TWO_FIRMS, make.OWNERS
ONE, TWO = listed([(1, 2), (3, 4), (3, 5)]), listed([(1, 2), (3, 4), (5, 6), (5, 7)])
LONGEST = make.shared(CHAIN, [0] * 257)
NOTHING_SEEN = make.shared(make.FIRMS, [0, 1, 0, 1, 1, 0, 1, 2, 1, 1, 2, 2])


def owner(node, number, table=FIRMS):
    return changed(table, 3 * node + 2, number)


PARTIES = [
    ("firm 1", FIRMS, QUERY, 2, 1, ONE),
    ("firm 2", FIRMS, QUERY, 2, 2, TWO),
    ("every node of firm 1", FIRMS, STAR + [12, 0, 0, 0, 5, 0, 1, 0], 1, 1, listed((x,) for x in range(7))),
    ("every node of firm 2", FIRMS, STAR + [12, 0, 0, 0, 5, 0, 1, 0], 1, 2, listed((x,) for x in range(8))),
    ("a hall that is empty to firm 2", NOTHING_SEEN, STAR + [12, 0, 0, 0, 5, 0, 1, 0], 1, 2, listed([(0,)])),
    ("all but two pallets are firm 1's", NOTHING_SEEN, QUERY, 2, 1, listed([(1, 2), (1, 3), (4, 5), (6, 7)])),
    ("no nodes", [], QUERY, 2, 1, refused(5)),
    ("one number", FIRMS[:1], QUERY, 2, 1, refused(5)),
    ("two numbers, as an older job's one node", FIRMS[:2], QUERY, 2, 1, refused(5)),
    ("a third of a node too many", FIRMS + [0], QUERY, 2, 1, refused(5)),
    ("two thirds of a node too many", FIRMS + [0, 3], QUERY, 2, 2, refused(5)),
    ("256 nodes and a party", LONGEST[:768], STAR, 1, 2, listed((x,) for x in range(256))),
    ("255 nodes and a party", LONGEST[:765], STAR, 1, 1, listed((x,) for x in range(255))),
    ("256 nodes and a number more", LONGEST[:769], STAR, 1, 1, refused(5)),
    ("256 nodes and two numbers more", LONGEST[:770], STAR, 1, 1, refused(5)),
    ("257 nodes and a party", LONGEST, STAR, 1, 1, refused(5)),
    ("512 numbers", LONGEST[:512], STAR, 1, 1, refused(5)),
    ("171 nodes and a party", LONGEST[:513], STAR, 1, 1, listed((x,) for x in range(171))),
    ("172 nodes and a party, which are 516 numbers", LONGEST[:516], STAR, 1, 1, listed((x,) for x in range(172))),
    ("a shared table of twice as many numbers as fit", (2 * LONGEST)[:1536], STAR, 1, 1, refused(5)),
    ("an older tree under the newer magic number", TREE, QUERY, 2, 1, refused(6, 1)),
    ("a root with a parent, and no such party", changed(FIRMS, 0, 0), QUERY, 2, 0, refused(6, 0)),
    ("a hidden node with a bad parent", changed(FIRMS, 33, 8), QUERY, 2, 1, refused(6, 11)),
    ("a hidden node with a bad tag", changed(FIRMS, 34, 65534), QUERY, 2, 1, refused(7, 11)),
    ("a bad tag behind a bad owner", changed(owner(1, 3), 34, 65535), QUERY, 2, 9, refused(7, 11)),
    ("an owner of 3", owner(5, 3), QUERY, 2, 1, refused(30, 5)),
    ("an owner of 3, seen by nobody", owner(11, 3), QUERY, 2, 1, refused(30, 11)),
    ("two bad owners", owner(11, 65535, owner(3, 256)), QUERY, 2, 2, refused(30, 3)),
    ("a hall of firm 1", owner(0, 1), QUERY, 2, 1, refused(30, 0)),
    ("a hall of firm 2", owner(0, 2), QUERY, 2, 2, refused(30, 0)),
    ("a bad owner and no such party", owner(11, 3), QUERY, 2, 3, refused(30, 11)),
    ("party 0", FIRMS, QUERY, 2, 0, refused(31)),
    ("party 3", FIRMS, QUERY, 2, 3, refused(31)),
    ("party 257", FIRMS, QUERY, 2, 257, refused(31)),
    ("party 65535, and a query of no entry", FIRMS, [], 2, 65535, refused(31)),
    ("party 0, and no variable", FIRMS, QUERY, 0, 0, refused(31)),
    ("a party and a query of no entry", FIRMS, [], 2, 1, refused(8)),
    ("a party and no variable", FIRMS, QUERY, 0, 2, refused(9)),
    ("a party and a kind of 15", FIRMS, entry(3, 15, 0, 0, 0), 2, 2, refused(10, 3)),
    ("a party and a node expression for the query", FIRMS, [12, 0, 0, 0], 1, 1, refused(15, 0)),
    ("a document node and a party", changed(FIRMS, 1, 65534), STAR + [12, 0, 0, 0, 5, 0, 1, 0], 1, 1, listed((x,) for x in range(1, 7))),
    ("a hidden document node", changed(FIRMS, 10, 65534), QUERY, 2, 1, refused(7, 3)),
]

# Older jobs keep the older limits, whatever three numbers a node would make of them.
TABLES += [
    ("an older tree of 9 numbers", TREE[:9], QUERY, 2, refused(5)),
    ("an older tree of 513 numbers", CHAIN[:513], STAR, 1, refused(5)),
    ("an older tree of 600 numbers", (2 * CHAIN)[:600], STAR, 1, refused(5)),
    ("an older tree of 768 numbers", (2 * CHAIN)[:768], STAR, 1, refused(5)),
    ("an older tree of 1,800 numbers", (4 * CHAIN)[:1800], STAR, 1, refused(5)),
    ("three numbers a node under the older magic number", COMMON, QUERY, 2, refused(6, 2)),
]

# The star and node(): the teaching warehouse below a document node, and without one. Each row by hand.
PARENTS = [(2, 1), (3, 2), (4, 2), (5, 1), (6, 5)]
TESTS = [
    ("bays with pallets", DOCUMENT, QUERY, 2, [(2, 3), (2, 4), (5, 6)]),
    ("self::*[. is $0]", DOCUMENT, STAR + [12, 0, 0, 0, 5, 0, 1, 0], 1, [(x,) for x in range(1, 7)]),
    (".[. is $0]", DOCUMENT, DOT + [12, 0, 0, 0, 5, 0, 1, 0], 1, [(x,) for x in range(7)]),
    (".[. is $0]/parent::*[. is $1]", DOCUMENT, upwards(2, 65535), 2, PARENTS),
    (".[. is $0]/..[. is $1]", DOCUMENT, upwards(2, 65534), 2, [(1, 0)] + PARENTS),
    (".[. is $0]/ancestor-or-self::*[. is $1]", DOCUMENT[:6], upwards(12, 65535), 2, [(1, 1), (2, 1), (2, 2)]),
    (".[. is $0]/ancestor-or-self::node()[. is $1]", DOCUMENT[:4], upwards(12, 65534), 2, [(0, 0), (1, 0), (1, 1)]),
    ("//child::*[. is $0]", DOCUMENT, [0, 11, 0, 65534] + BELOW, 1, [(x,) for x in range(1, 7)]),
    ("/descendant-or-self::*/child::*[. is $0]", DOCUMENT, [0, 11, 0, 65535] + BELOW, 1, [(x,) for x in range(2, 7)]),
    ("self::* in a document node alone", [65535, 65534], STAR, 1, []),
    (". in a document node alone", [65535, 65534], DOT, 1, [(0,)]),
    ("ancestor-or-self::node() with no document node", TREE, entry(3, 0, 12, 0, 65534), 2, [(1, 0), (1, 1), (4, 0), (4, 4)]),
]


def starred(*path):
    """.[. is $0]/(P)*[. is $1], of the entries of P, which stand first."""
    at = len(path) // 4
    return [*path, 13, at - 1, 0, 0] + DOT + [12, 0, 0, 0, 5, at + 1, at + 2, 0, 12, 1, 0, 0, 5, at, at + 4, 0, 1, at + 3, at + 5, 0]


# The star of a path, and same. Each row by hand.
EACH = [(x, x) for x in range(7)]
GRANDCHILD = [0, 1, 0, 2, 0, 1, 0, 3, 1, 0, 1, 0]  # child::2/child::3
TESTS += [
    ("(child::*)* in one node", [65535, 1], starred(0, 1, 0, 65535), 2, [(0, 0)]),
    ("(child::*)*", TREE, starred(0, 1, 0, 65535), 2,
     [(0, y) for y in range(6)] + [(1, 1), (1, 2), (1, 3), (2, 2), (3, 3), (4, 4), (4, 5), (5, 5)]),
    ("(child::*)* below a document node", DOCUMENT, starred(0, 1, 0, 65535), 2,
     [(0, y) for y in range(7)] + [(1, y) for y in range(1, 7)] + [(2, 2), (2, 3), (2, 4), (3, 3), (4, 4), (5, 5), (5, 6), (6, 6)]),
    ("(parent::*)*, which does not reach a document node", DOCUMENT, starred(0, 2, 0, 65535), 2,
     sorted(EACH + PARENTS + [(3, 1), (4, 1), (6, 1)])),
    ("(child::3)*", TREE, starred(0, 1, 0, 3), 2, sorted(EACH[:6] + [(1, 2), (1, 3), (4, 5)])),
    ("(right::*)*", TREE, starred(0, 3, 0, 65535), 2, sorted(EACH[:6] + [(1, 4), (2, 3)])),
    ("(child::9)*, which leads nowhere", TREE, starred(0, 1, 0, 9), 2, EACH[:6]),
    ("((right::*)* union child::*)*", TREE, starred(0, 3, 0, 65535, 13, 0, 0, 0, 0, 1, 0, 65535, 2, 1, 2, 0), 2,
     [(0, y) for y in range(6)] + [(1, y) for y in range(1, 6)] + [(2, 2), (2, 3), (3, 3), (4, 4), (4, 5), (5, 5)]),
    ("/(child::*[. is $0])*/self::2, a variable under a star", TREE,
     [0, 1, 0, 65535, 12, 0, 0, 0, 5, 0, 1, 0, 13, 2, 0, 0, 0, 0, 0, 2, 1, 3, 4, 0, 7, 5, 0, 0], 1, [(1,), (4,)]),
    ("/(child::*[. is $0 or . is $1])*/self::3, two under a star", TREE,
     [0, 1, 0, 65535, 12, 0, 0, 0, 12, 1, 0, 0, 11, 1, 2, 0, 5, 0, 3, 0, 13, 4, 0, 0, 0, 0, 0, 3, 1, 5, 6, 0, 7, 7, 0, 0], 2,
     [(1, 2), (1, 3), (2, 1), (3, 1), (4, 5), (5, 4)]),
    ("$0[child::2/child::3 same descendant::3]", TREE, GRANDCHILD + [0, 5, 0, 3, 14, 2, 3, 0, 6, 0, 0, 0, 5, 5, 4, 0], 1, [(0,)]),
    ("$0[child::* same descendant::3]", TREE, [0, 1, 0, 65535, 0, 5, 0, 3, 14, 0, 1, 0, 6, 0, 0, 0, 5, 3, 2, 0], 1, [(1,), (4,)]),
    ("$0[not(child::* same descendant::3)]", TREE,
     [0, 1, 0, 65535, 0, 5, 0, 3, 14, 0, 1, 0, 9, 2, 0, 0, 6, 0, 0, 0, 5, 4, 3, 0], 1, [(0,), (2,), (3,), (5,)]),
    (".[child::2/child::3 same $0], a variable under a same", TREE, GRANDCHILD + [6, 0, 0, 0, 14, 2, 3, 0] + DOT + [5, 5, 4, 0], 1,
     [(2,), (3,), (5,)]),
    (".[. is $0][child::3 same $1], the bays with their pallets", TREE,
     [0, 1, 0, 3, 6, 1, 0, 0, 14, 0, 1, 0] + DOT + [12, 0, 0, 0, 5, 3, 4, 0, 5, 5, 2, 0], 2, [(1, 2), (1, 3), (4, 5)]),
]

# Answers of more than one page, and of whole pages: every row, those whose last variable is the one node with the tag 9, or
# those of self::*[. is $0]/ancestor::*[. is $1].
NINE = [65535, 9] + [n for k in range(31) for n in (0, 1)]
ABOVE = steps((0, 65535, 0), (6, 65535, 1))
LONG = [
    ("two variables, 256 nodes", CHAIN[:-2], STAR, 2, itertools.product(range(256), repeat=2)),
    ("three variables, 40 nodes", CHAIN[:80], STAR, 3, itertools.product(range(40), repeat=3)),
    ("three variables, one page of 1,024 rows", NINE, [0, 0, 0, 9, 12, 2, 0, 0, 5, 0, 1, 0], 3, itertools.product(range(32), range(32), [0])),
    ("two variables, a node and one above it", CHAIN[:-2], ABOVE, 2, ((x, y) for x in range(256) for y in range(x))),
    ("three variables, the third anywhere", CHAIN[:80], ABOVE, 3, ((x, y, z) for x in range(40) for y in range(x) for z in range(40))),
    ("two variables, a node and one down to which children lead", CHAIN[:80], starred(0, 1, 0, 65535), 2,
     ((x, y) for x in range(40) for y in range(x, 40))),
    ("one node", [65535, 1], STAR, 3, [(0, 0, 0)]),
    ("no row", TREE, [0, 0, 0, 9], 2, []),
]

# Three variables over 7 nodes, by the separate evaluator: queries that keep the rule of quick pages, and then queries that break it.
THREE = [
    ("child::2[. is $0]/child::3[. is $1]/..[. is $2]", True, steps((1, 2, 0), (1, 3, 1), (2, 65534, 2))),
    (".[. is $2]/following::*[. is $0]/ancestor::node()[. is $1]", True, steps((0, 65534, 2), (7, 65535, 0), (6, 65534, 1))),
    ("child::2[. is $1] union $0/child::3[. is $2]", True,
     [0, 1, 0, 2, 12, 1, 0, 0, 5, 0, 1, 0, 6, 0, 0, 0, 0, 1, 0, 3, 12, 2, 0, 0, 5, 4, 5, 0, 1, 3, 6, 0, 2, 2, 7, 0]),
    (".[. is $0 or . is $1]/child::*[. is $2]", True,
     [0, 0, 0, 65534, 12, 0, 0, 0, 12, 1, 0, 0, 11, 1, 2, 0, 5, 0, 3, 0, 0, 1, 0, 65535, 12, 2, 0, 0, 5, 5, 6, 0, 1, 4, 7, 0]),
    ("(descendant::* except child::2)[. is $1]/$0[. is $2]", True,
     [0, 5, 0, 65535, 0, 1, 0, 2, 4, 0, 1, 0, 12, 1, 0, 0, 5, 2, 3, 0, 6, 0, 0, 0, 12, 2, 0, 0, 5, 5, 6, 0, 1, 4, 7, 0]),
    (".[. is $0]/(child::*)*[. is $1]/$2[parent::1]", True,
     starred(0, 1, 0, 65535) + [6, 2, 0, 0, 0, 2, 0, 1, 8, 9, 0, 0, 5, 8, 10, 0, 1, 7, 11, 0]),
    (".[child::2/child::3 same descendant::3][. is $0]/$1/..[. is $2]", True,
     GRANDCHILD + [0, 5, 0, 3, 14, 2, 3, 0] + DOT + [5, 5, 4, 0, 12, 0, 0, 0, 5, 6, 7, 0, 6, 1, 0, 0, 1, 8, 9, 0, 0, 2, 0, 65534,
                                                     12, 2, 0, 0, 5, 11, 12, 0, 1, 10, 13, 0]),
    ("child::*[. is $0]/child::*[. is $1]/..[. is $0]", False, steps((1, 65535, 0), (1, 65535, 1), (2, 65534, 0))),
    ("self::1/(child::*[. is $0 or . is $1])*/self::3[. is $2]", False,
     [0, 0, 0, 1, 0, 1, 0, 65535, 12, 0, 0, 0, 12, 1, 0, 0, 11, 2, 3, 0, 5, 1, 4, 0, 13, 5, 0, 0, 1, 0, 6, 0, 0, 0, 0, 3, 12, 2, 0, 0,
      5, 8, 9, 0, 1, 7, 10, 0]),
    (".[child::*/$0 same descendant::*[. is $1]]/child::*[. is $2]", False,
     [0, 1, 0, 65535, 6, 0, 0, 0, 1, 0, 1, 0, 0, 5, 0, 65535, 12, 1, 0, 0, 5, 3, 4, 0, 14, 2, 5, 0] + DOT
     + [5, 7, 6, 0, 0, 1, 0, 65535, 12, 2, 0, 0, 5, 9, 10, 0, 1, 8, 11, 0]),
    (".[. is $0]/child::*[. is $1 and not(. is $2)]", False,
     [0, 0, 0, 65534, 12, 0, 0, 0, 5, 0, 1, 0, 0, 1, 0, 65535, 12, 1, 0, 0, 12, 2, 0, 0, 9, 5, 0, 0, 10, 4, 6, 0, 5, 3, 7, 0, 1, 2, 8, 0]),
    ("(descendant::2 except $2)[. is $0]/child::3[. is $1]", False,
     [0, 5, 0, 2, 6, 2, 0, 0, 4, 0, 1, 0, 12, 0, 0, 0, 5, 2, 3, 0, 0, 1, 0, 3, 12, 1, 0, 0, 5, 5, 6, 0, 1, 4, 7, 0]),
    ("$0[. is $1]/..[. is $0 or . is $2]", False,
     [6, 0, 0, 0, 12, 1, 0, 0, 5, 0, 1, 0, 0, 2, 0, 65534, 12, 0, 0, 0, 12, 2, 0, 0, 11, 4, 5, 0, 5, 3, 6, 0, 1, 2, 7, 0]),
]

# As many nodes as a tree may have, in five aisles of five bays of nine pallets. The query keeps the rule of quick pages; where it did
# not, 16,777,216 rows would be tried, and the program would be silent for half a minute.
PLACES = make.table((make.HALL,) + 5 * (make.aisle(*5 * ["p" * 9]),))
PALLETS = [y for y in range(256) if PLACES[2 * y + 1] == make.PALLET]
LONG.append(("three variables, 256 nodes", PLACES, make.PLACES, 3, [(PLACES[2 * PLACES[2 * y]], PLACES[2 * y], y) for y in PALLETS]))


def random_tree(source):
    """In every other tree node 0 is a document node."""
    table, path = [65535, source.choice([source.randrange(4), 65534])], [0]
    for node in range(1, source.randint(1, 8)):
        del path[source.randint(1, len(path)) :]
        table += [path[-1], source.randrange(4)]
        path.append(node)
    return table


def random_query(source, columns):
    """A path of every kind, operands first, in the order that comes. Of such paths most have no pair whatever the variables
    are, or one for all that they can be; so three of four are filtered for each variable, as P[. is $1]/child::*[. is $0]."""
    table = []

    def add(*fields):
        table.extend(fields)
        return len(table) // 4 - 1

    def step():
        return add(0, source.randrange(13), 0, source.choice([0, 1, 2, 3, 65534, 65534, 65535, 65535, 65535, 65535]))

    def path(depth):
        kind = source.choice([0, 1, 2, 3, 4, 5, 6, 7, 13]) if depth else source.choice([0, 0, 0, 6])
        if kind == 0:
            return step()
        if kind < 5:
            return add(kind, path(depth - 1), path(depth - 1), 0)
        if kind == 5:
            return add(5, path(depth - 1), test(depth - 1), 0)
        return add(6, source.randrange(columns), 0, 0) if kind == 6 else add(kind, path(depth - 1), 0, 0)

    def test(depth):
        kind = source.choice([8, 9, 10, 11, 12, 14]) if depth else 12
        if kind == 8:
            return add(8, path(depth - 1), 0, 0)
        if kind == 14:
            return add(14, path(depth - 1), path(depth - 1), 0)
        if kind == 9:
            return add(9, test(depth - 1), 0, 0)
        return add(kind, test(depth - 1), test(depth - 1), 0) if kind < 12 else add(12, source.randrange(columns), 0, 0)

    def about(k):
        """`. is $k`; less often its negation, or that joined with another expression."""
        own, form = add(12, k, 0, 0), source.randrange(6)
        if form == 0:
            return add(9, own, 0, 0)
        return add(9 + form, own, test(1), 0) if form < 3 else own

    whole = path(source.randrange(5))
    if source.randrange(4):
        for i, k in enumerate(source.sample(range(columns), columns)):
            whole = add(1, whole, step(), 0) if i else whole
            whole = add(5, whole, about(k), 0)
    return table


def random_file(source, tree, query, columns, party=None):
    """The parts in either order, with ignored bytes around them."""
    first, second = (tree, query) if source.random() < 0.5 else (query, tree)
    gaps = [source.randbytes(source.randrange(6)) for _ in range(3)]
    body = gaps[0] + make.packed(first) + gaps[1] + make.packed(second) + gaps[2]
    starts = len(gaps[0]), len(gaps[0]) + 2 * len(first) + len(gaps[1])
    at = starts if first is tree else starts[::-1]
    return file(body, at[0], len(tree), at[1], len(query), columns, party=party)


def random_list(source, keeps):
    """A tree, a query that keeps the rule of quick pages or one that breaks it, its number of variables and its answers; made anew, up
    to eleven times, while they have no gaps."""
    for _ in range(12):
        tree, columns = random_tree(source), source.randint(1, 3)
        query = random_query(source, columns)
        while keeps != (reference.breaking(query) is None):
            query = random_query(source, columns)
        rows = answers(tree, query, columns)
        if 0 < len(rows) < (len(tree) // 2) ** columns:
            break
    return tree, query, columns, rows


def leaves_out(tree, query, columns, rows):
    """Whether a query's star leaves out the document node of a tree: with node() for every star there would be other answers."""
    widened = [n for e in range(0, len(query), 4) for n in query[e : e + 3] + [65534 if query[e + 3] == 65535 else query[e + 3]]]
    return tree[1] == 65534 and answers(tree, widened, columns) != rows


def random_jobs(count):
    """Random jobs, whose queries keep the rule of quick pages in turn or break it. Of their lists at least three in four have gaps,
    neither no row nor every row, and the queries of these have every kind and every axis; in at least one of twenty jobs a star leaves
    out a document node."""
    source, empty, full, kinds, axes, left_out = random.Random(2024), 0, 0, set(), set(), 0
    for job in range(count):
        tree, query, columns, rows = random_list(source, job % 2 == 0)
        compare("random job %d" % job, printed(random_file(source, tree, query, columns)), listed(rows))
        left_out += leaves_out(tree, query, columns, rows)
        empty += not rows
        full += len(rows) == (len(tree) // 2) ** columns
        if 0 < len(rows) < (len(tree) // 2) ** columns:
            kinds.update(query[0::4])
            axes.update(axis for kind, axis in zip(query[0::4], query[1::4]) if kind == 0)
    if 4 * (empty + full) > count:
        problems.append("of %d random lists %d have no row and %d every row: too few have gaps" % (count, empty, full))
    if 20 * left_out < count:
        problems.append("of %d random jobs only %d have a star that leaves out a document node" % (count, left_out))
    if len(kinds) < 15 or len(axes) < 13:
        problems.append("the random lists with gaps have only the kinds %s and the axes %s" % (sorted(kinds), sorted(axes)))


def shared_jobs(count):
    """Random jobs with a party, over trees whose nodes have owners by chance. At least in every second job the party sees some nodes below
    the root and not others, and at least every second list has gaps."""
    source, parted, gaps = random.Random(20565), 0, 0
    for job in range(count):
        party, tree, columns = 1 + job % 2, random_tree(source), source.randint(1, 3)
        for _ in range(source.randrange(5)):  # some nodes more, below any node of the last path
            path = [len(tree) // 2 - 1]
            while path[-1]:
                path.append(tree[2 * path[-1]])
            tree += [source.choice(path), source.randrange(4)]
        n = len(tree) // 2
        table = make.shared(tree, [0] + [source.choice([0, 0, party, 3 - party]) for _ in range(n - 1)])
        seen = reference.seen(table, party)
        for _ in range(12):  # until the list has gaps
            query = random_query(source, columns)
            rows = answers(seen, query, columns)
            if 0 < len(rows) < (len(seen) // 2) ** columns:
                break
        compare("random job %d with a party" % job, printed(random_file(source, table, query, columns, party)), listed(rows))
        parted += 2 < len(seen) < len(tree)
        gaps += 0 < len(rows) < (len(seen) // 2) ** columns
    if 2 * parted < count or 2 * gaps < count:
        problems.append("of %d random jobs with a party only %d show it some nodes, and %d have lists with gaps" % (count, parted, gaps))


REFUSED = {"refused": refused(6, 1), "firm-three": refused(31), "third-owner": refused(30, 10)}


def examples():
    """The examples are what their script makes, and print what stands beside them, by ./picklist too."""
    for name, parts in make.JOBS.items():
        tree, query, columns = parts[:3]
        tree = reference.seen(tree, parts[3]) if len(parts) == 4 and name not in REFUSED else tree
        with open(os.path.join(EXAMPLES, name + ".job"), "rb") as job, open(os.path.join(EXAMPLES, name + ".out"), "rb") as out:
            job, out = job.read(), out.read()
        compare("make.py, %s" % name, make.job(*parts), job)
        compare("the example %s" % name, printed(job), out)
        compare("./picklist on the example %s" % name, printed(job, os.path.join(ROOT, "picklist")), out)
        compare("the evaluator on %s" % name, REFUSED[name] if name in REFUSED else listed(answers(tree, query, columns)), out)
    made = {name + suffix for name in make.JOBS for suffix in (".job", ".out")} | {"make.py", "README.md", "typed.c"}
    if set(os.listdir(EXAMPLES)) != made:
        problems.append("examples/ has other files than make.py's jobs, typed.c and README.md")


def fed(file, step, closes=True):
    """What the program prints where its input comes in small writes, on a pipe that is closed behind them or stays open."""
    run = subprocess.Popen([PROGRAM], stdin=subprocess.PIPE, stdout=subprocess.PIPE, bufsize=0)
    for at in range(0, len(file), step):
        run.stdin.write(file[at : at + step])
    if closes:
        run.stdin.close()
    text = run.stdout.read()
    run.stdin.close()
    run.wait(timeout=300)
    return text


def inputs():
    for step in 1, 7, 91:
        compare("a pipe, %d bytes at a time" % step, fed(WHOLE, step), ROWS)
    compare("a pipe of 4,096 bytes, 5 at a time", fed(sized(4096), 5), ROWS)
    compare("a pipe of 4,096 bytes with a party, 3 at a time", fed(shared_sized(4096), 3), ROWS)
    compare("a pipe of 4,097 bytes that stays open", fed(sized(4097), 1000, closes=False), refused(1))
    closed = subprocess.run(["sh", "-c", 'exec "$0" <&-', PROGRAM], stdout=subprocess.PIPE, timeout=300)
    compare("a closed input", closed.stdout, b"")
    folder = subprocess.run(["sh", "-c", 'exec "$0" <.', PROGRAM], stdout=subprocess.PIPE, timeout=300)
    compare("an input that cannot be read", folder.stdout, b"")


build_program()
for name, bytes_of, wanted in FILES:
    compare(name, printed(bytes_of), wanted)
for name, tree, query, columns, wanted in TABLES:
    compare(name, printed(make.job(tree, query, columns)), wanted)
for name, tree, query, columns, party, wanted in PARTIES:
    compare(name, printed(make.job(tree, query, columns, party)), wanted)
for name, tree, query, columns, rows in TESTS + LONG:
    compare(name, printed(make.job(tree, query, columns)), listed(rows))
for name, keeps, query in THREE:
    compare(name, printed(make.job(DOCUMENT, query, 3)), listed(answers(DOCUMENT, query, 3)))
    if keeps != (reference.breaking(query) is None):
        problems.append("%s: the rule of quick pages is %s" % (name, "broken" if keeps else "kept"))
examples()
inputs()
random_jobs(200)
shared_jobs(200)
end(problems)
