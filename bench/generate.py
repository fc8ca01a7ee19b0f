#!/usr/bin/env python3
"""Writes what the benchmark runs on to a folder: tree.xml, and tables.h with the same tree as a table, the queries as text
and as tables, and the nodes that each query reaches from each node, worked out by tests/support/reference.py; searches for
descendants with a tag, as queries; queries whose pairs are all asked for; the first queries once more, turned round; and the tree's
index and the list of its tags. The tree stands there once more as a shared table, with all nodes common, and once with half of its
nodes hidden from party 1. Queries with variables stand there with all their answers.

    generate.py [--different] FOLDER [NODES [SEED]]

256 nodes and seed 1 where nothing is told; element names are t1 to t8 or, where asked, all different.

    generate.py --nested [--chain] FOLDER

Of the same tree, or of a chain of 256 nodes: tree.xml, nested.h with queries that nest, at several depths, and their pairs in bits, and
nested.txt with those that XPath 2.0 has words for and what they reach from the root."""
import os, random, sys
sys.dont_write_bytecode = True
sys.path.insert(0, os.path.join(os.path.dirname(__file__), "..", "tests", "support"))
from reference import Tree, breaking, image, relation, seen, words

AXES = ("self child parent right left descendant ancestor following preceding following-sibling preceding-sibling "
        "descendant-or-self ancestor-or-self").split()


# Query tables, put together from the inside out: an expression is the list of its entries, the last one itself.

def join(kind, *operands):
    entries, last = [], []
    for operand in operands:
        shift = len(entries)
        entries += [(k, l + shift * (k in LEFT), r + shift * (k in RIGHT), t) for k, l, r, t in operand]
        last.append(len(entries) - 1)
    return entries + [(kind, last[0], last[1] if len(last) > 1 else 0, 0)]


LEFT = (1, 2, 3, 4, 5, 7, 8, 9, 10, 11, 13, 14)
RIGHT = (1, 2, 3, 4, 5, 10, 11, 14)


def step(axis, tag=65535):
    return [(0, AXES.index(axis), 0, tag)]


def path(*steps):
    """Steps one after another, grouped leftwards."""
    whole = steps[0]
    for s in steps[1:]:
        whole = join(1, whole, s)
    return whole


def only(p, test):
    return join(5, p, test)


def root(p):
    return join(7, p)


def some(p):
    return join(8, p)


def no(test):
    return join(9, test)


def both(a, b):
    return join(10, a, b)


def either(a, b):
    return join(11, a, b)


def union(a, b):
    return join(2, a, b)


def intersect(a, b):
    return join(3, a, b)


def without(a, b):
    return join(4, a, b)


def star(p):
    return join(13, p)


def same(a, b):
    return join(14, a, b)


def variable(k):
    return [(6, k, 0, 0)]


def at(k):
    return [(12, k, 0, 0)]


ANY, ANY_NODE = step("descendant-or-self"), step("descendant-or-self", 65534)
DOT = step("self", 65534)
ALIKE, NO_WORDS = "alike", None


def meet(a, b):
    """In XPath 1.0: two paths lead to one node."""
    return "count(%s | %s) < count(%s) + count(%s)" % (a, b, a, b)


# What is timed: a query, how XPath 1.0 writes it, which has neither intersect nor except, star nor same, and its entries.
QUERIES = [
    ("descendant::t2[child::t3 and not(following-sibling::*)]", ALIKE,
     only(step("descendant", 2), both(some(step("child", 3)), no(some(step("following-sibling")))))),
    ("/descendant-or-self::*/child::t3/following::t2", ALIKE,
     root(path(ANY, step("child", 3), step("following", 2)))),
    ("/descendant-or-self::node()/child::t3/following::t2", ALIKE,
     root(path(ANY_NODE, step("child", 3), step("following", 2)))),
    ("/descendant-or-self::*/child::t2/preceding::t3", ALIKE,
     root(path(ANY, step("child", 2), step("preceding", 3)))),
    ("child::*/descendant::*", ALIKE,
     path(step("child"), step("descendant"))),
    ("descendant::t2[child::t3]/child::t3", ALIKE,
     path(only(step("descendant", 2), some(step("child", 3))), step("child", 3))),
    ("descendant::*[self::t1 or self::t2][descendant::t3[not(child::*)]]", ALIKE,
     only(only(step("descendant"), either(some(step("self", 1)), some(step("self", 2)))),
          some(only(step("descendant", 3), no(some(step("child"))))))),
    ("/descendant-or-self::*/child::t5[not(ancestor::t6)]/following-sibling::t1", ALIKE,
     root(path(ANY, only(step("child", 5), no(some(step("ancestor", 6)))), step("following-sibling", 1)))),
    ("(child::*)*", "descendant-or-self::node()",
     star(step("child"))),
    ("descendant::*[child::* same descendant::t3]", "descendant::*[%s]" % meet("child::*", "descendant::t3"),
     only(step("descendant"), same(step("child"), step("descendant", 3)))),
]


# The same for all pairs.
RELATIONS = [
    ("child::*/descendant::t2/following::*/child::t3", ALIKE,
     path(step("child"), step("descendant", 2), step("following"), step("child", 3))),
    (".//child::t6[child::*]//child::t5", ALIKE,
     path(DOT, ANY_NODE, only(step("child", 6), some(step("child"))), ANY_NODE, step("child", 5))),
    ("descendant::* intersect following::t2/preceding::* except child::*", NO_WORDS,
     without(intersect(step("descendant"), path(step("following", 2), step("preceding"))), step("child"))),
    ("child::*/(descendant::* intersect child::*/(descendant::* except child::t2))", NO_WORDS,
     path(step("child"), intersect(step("descendant"), path(step("child"), without(step("descendant"), step("child", 2)))))),
    ("(child::* union following-sibling::*)/descendant::t2", "(child::* | following-sibling::*)/descendant::t2",
     path(union(step("child"), step("following-sibling")), step("descendant", 2))),
    ("(following::* union preceding::*)/following::*", "(following::* | preceding::*)/following::*",
     path(union(step("following"), step("preceding")), step("following"))),
    ("(descendant::t2/following::*)[child::t3 or not(left::*)]", "(descendant::t2/following::*)[child::t3 or not(preceding-sibling::*)]",
     only(path(step("descendant", 2), step("following")), either(some(step("child", 3)), no(some(step("left")))))),
    ("(child::*)*", "descendant-or-self::node()",
     star(step("child"))),
    ("(child::* union right::*)*", "(self::node() | following-sibling::*)/descendant-or-self::node()",
     star(union(step("child"), step("right")))),
    (".[child::* same descendant::t3]", "self::node()[%s]" % meet("child::*", "descendant::t3"),
     only(DOT, same(step("child"), step("descendant", 3)))),
] + [(axis + "::*", {"right": "following-sibling::*[1]", "left": "preceding-sibling::*[1]"}.get(axis, ALIKE), step(axis)) for axis in AXES]


# A query turned round, in XPath 1.0: the run that the definition of document 02 gives, kind by kind. With elements alone the star is
# node(); it also leaves out the node above the root element. The star of a path has words only where one axis says the same.

def written(entries, e):
    """An entry as XPath 1.0."""
    kind, left, right, tag = entries[e]
    if kind == 0:
        return "%s::%s" % (AXES[left], "*" if tag > 65533 else "t%d" % tag)
    operands = [written(entries, operand) for operand in (left, right)[: 1 + (kind in RIGHT)]]
    if kind == 14:
        return meet(*operands)
    return {1: "%s/%s", 5: "%s[%s]", 8: "%s", 9: "not(%s)", 10: "%s and %s", 11: "%s or %s"}[kind] % tuple(operands)


def turned(entries, e):
    """The steps of an entry, turned round."""
    kind, left, right, tag = entries[e]
    if kind == 0:
        converse = left and left - 1 + left % 2 * 2
        return [written(step("self", tag), 0), AXES[converse] + "::*"]
    if kind == 1:
        return turned(entries, right) + turned(entries, left)
    if kind == 5:
        return ["self::*[%s]" % written(entries, right)] + turned(entries, left)
    if kind == 7:
        return turned(entries, left) + ["self::*[not(parent::*)]", "descendant-or-self::*"]
    assert entries == star(step("child"))
    return ["ancestor-or-self::*"]


# Queries that nest: how a level is written and made of the one below it, which is Q there, the levels in turn; the one below the first;
# and whether XPath 2.0 has words for it, which has neither star nor same.
UP_OR_DOWN = union(step("ancestor"), step("descendant"))
IN_FILTER = ("descendant-or-self::*[Q] intersect descendant-or-self::*", lambda q: intersect(only(ANY, some(q)), ANY))
LESS = ("(descendant-or-self::*/Q) except child::*", lambda q: without(path(ANY, q), step("child")))
AGAIN = ("(child::*/Q)*", lambda q: star(path(step("child"), q)))
DOS, SELF = ("descendant-or-self::*", ANY), (".", DOT)
SHAPES = [
    ([("(descendant-or-self::*/Q) intersect descendant-or-self::*", lambda q: intersect(path(ANY, q), ANY))], DOS, True),
    ([IN_FILTER], DOS, True),
    ([LESS], DOS, True),
    ([("(Q/(ancestor::* union descendant::*)) except .", lambda q: without(path(q, UP_OR_DOWN), DOT))], DOS, True),
    ([("(child::*[Q/self::t2])*", lambda q: star(only(step("child"), some(path(q, step("self", 2))))))], DOS, False),
    ([AGAIN], SELF, False),
    ([("(Q/(ancestor::* union descendant::*))*", lambda q: star(path(q, UP_OR_DOWN)))], DOS, False),
    ([(".[Q same .]", lambda q: only(DOT, same(q, DOT)))], DOS, False),
    ([IN_FILTER, LESS, AGAIN, ("descendant-or-self::*[Q same child::*]", lambda q: only(ANY, same(q, step("child"))))], DOS, False),
]
MOST_ENTRIES, DEEPEST = 64, 15


def nested(levels, below, depth):
    """A query of some depth, as text and as entries."""
    text, entries = below
    for k in range(depth):
        pattern, made = levels[k % len(levels)]
        text, entries = pattern.replace("Q", "(%s)" % text if k else text), made(entries)
    return text, entries


def depths(levels, below):
    """1, 2, 4, 8, and 15 or as deep as the most entries allow."""
    return [1, 2, 4, 8, max(d for d in range(9, DEEPEST + 1) if len(nested(levels, below, d)[1]) <= MOST_ENTRIES)]


def search(start, tag):
    """The descendants of a node that have a tag."""
    return "descendant::t%d" % tag, ALIKE, step("descendant", tag), start


def searches(table):
    """Where names occur often: two of them from the root, from its child with the most descendants, and from a node with few.
    Where all are different: an early node, one in the middle and the last, from the root."""
    n, parents, tags = len(table) // 2, table[::2], table[1::2]
    if len(set(tags)) == n:
        return [search(0, tags[x]) for x in (1, n // 2, n - 1)]
    size = [1] * n
    for x in range(n - 1, 0, -1):
        size[parents[x]] += size[x]
    most = max((x for x in range(1, n) if parents[x] == 0), key=lambda x: size[x])
    few = min(range(1, n), key=lambda x: abs(size[x] - 12))
    return [search(start, tag) for start in (0, most, few) for tag in (2, 3)]


# Parts of queries with variables that no variable decides.
NESTED_FILTER = ("descendant-or-self::*[descendant::t3[not(child::*)]/following::t2[child::t5[preceding::t6]]]",
                 only(ANY, some(path(only(step("descendant", 3), no(some(step("child")))),
                                     only(step("following", 2), some(only(step("child", 5), some(step("preceding", 6)))))))))
LONG_RUN = ("following::t2/preceding::t3/ancestor::*/following-sibling::t5/descendant::t1/preceding::t4",
            [step("following", 2), step("preceding", 3), step("ancestor"), step("following-sibling", 5), step("descendant", 1),
             step("preceding", 4)])
SAME_BEFORE = ("descendant::*[child::* same descendant::t3]", only(step("descendant"), same(step("child"), step("descendant", 3))))


def turn(tree, ours, theirs, entries):
    """A query to be turned round: its steps so in XPath 1.0, and to begin with the lowest node that it reaches."""
    reached = image(relation(tree, flat(entries)), 1)
    return ours, "/".join(turned(entries, len(entries) - 1)), entries, (reached & -reached).bit_length() - 1


def lists(tree):
    """Queries with variables: each as text and as entries, the number of variables, and all answers, which are read off the tree."""
    nodes, parent, tag, below = range(tree.n), tree.parent, tree.tag, tree.axes[AXES.index("descendant")]
    pairs = [(x, y) for x in nodes for y in nodes if y and parent[y] == x]
    first = [(x, y) for x, y in pairs if tag[x] == 2 and y == x + 1]
    grandchild = ("(child::*[. is $0]/child::* intersect $1)",
                  intersect(path(only(step("child"), at(0)), step("child")), variable(1)))
    child = ("$0/child::* intersect $1", intersect(path(variable(0), step("child")), variable(1)))

    def reached(entries, start):
        return image(relation(tree, flat(entries)), start)

    def among(bits):
        return [(x, y) for x, y in pairs if x and bits >> parent[x] & 1]

    leads = relation(tree, flat(path(*LONG_RUN[1])))
    return [("self::t9", step("self", 9), k, []) for k in (1, 2, 3)] + [
        ("$0/child::t9 intersect $1 intersect $2",
         intersect(intersect(path(variable(0), step("child", 9)), variable(1)), variable(2)), 3, []),
        (*child, 2, pairs),
        ("descendant-or-self::t2[. is $1][not(child::*[. is $0])]/descendant::t3[. is $0]",
         path(only(only(step("descendant-or-self", 2), at(1)), no(some(only(step("child"), at(0))))), only(step("descendant", 3), at(0))),
         2, [(x, y) for x in nodes for y in nodes if tag[x] == 3 and tag[y] == 2 and below[y] >> x & 1 and parent[x] != y]),
        ("$0/self::t2/child::* intersect $1 except $0/child::*/right::*",
         without(intersect(path(variable(0), step("self", 2), step("child")), variable(1)),
                 path(variable(0), step("child"), step("right"))), 2, first),
        ("$1/self::t2/child::* intersect $0 except $1/child::*/right::*",
         without(intersect(path(variable(1), step("self", 2), step("child")), variable(0)),
                 path(variable(1), step("child"), step("right"))), 2, sorted((y, x) for x, y in first)),
        ("/%s/%s" % (NESTED_FILTER[0], grandchild[0]), root(path(NESTED_FILTER[1], grandchild[1])), 2,
         among(reached(NESTED_FILTER[1], 1))),
        ("%s/%s" % (SAME_BEFORE[0], grandchild[0]), path(SAME_BEFORE[1], grandchild[1]), 2, among(reached(SAME_BEFORE[1], tree.all))),
        ("(%s)/%s" % (child[0], LONG_RUN[0]), path(child[1], *LONG_RUN[1]), 2, [(x, y) for x, y in pairs if leads[y]]),
    ]


def index(tags):
    """The index of a tree, and the list of its tags, from their definition."""
    n = len(tags)
    later = [[y for y in range(x + 1, n) if tags[y] == tags[x]] for x in range(n)]
    return [some[0] if some else 65535 for some in later], [k for t in sorted(set(tags)) for k in (t, tags.index(t), tags.count(t))]


def chain_table(n):
    """Each node below the one before it; the last alone has another name."""
    return [number for k in range(n) for number in (k - 1 if k else 65535, 2 if k == n - 1 else 1)]


def tree_table(n, seed):
    """A tree of n nodes: each hangs below the node before it or, climbing by chance, below an ancestor of that node."""
    chance = random.Random(seed)
    table = [65535, 1]
    for k in range(1, n):
        p = k - 1
        while p != 0 and chance.random() < 0.55:
            p = table[2 * p]
        table += [p, 1 + int(8 * chance.random())]
    return table


def all_different(table):
    """The same tree with another name for each node, in any order."""
    names = list(range(1, len(table) // 2 + 1))
    random.Random(1).shuffle(names)
    return [number for pair in zip(table[::2], names) for number in pair]


def shared(table, owners):
    """The tree as a shared table."""
    return [number for x, owner in enumerate(owners) for number in (table[2 * x], table[2 * x + 1], owner)]


def halved(table):
    """The owners that hide half of the nodes from party 1: subtrees of party 2 here and there, as many as it takes. The other nodes are
    common in turn and party 1's own."""
    n, chance = len(table) // 2, random.Random(2)
    below = [{x} for x in range(n)]
    for x in range(n - 1, 0, -1):
        below[table[2 * x]] |= below[x]
    owners, hidden = [x % 2 for x in range(n)], set()
    owners[0] = 0
    for x in chance.sample(range(1, n), n - 1):
        if len(hidden | below[x]) <= n // 2:
            owners[x] = 2
            hidden |= below[x]
    return owners


def xml(table):
    n, text, open_nodes = len(table) // 2, [], []
    for k in range(n):
        while open_nodes and open_nodes[-1] != table[2 * k]:
            text.append("</t%d>" % table[2 * open_nodes.pop() + 1])
        text.append("<t%d>" % table[2 * k + 1])
        open_nodes.append(k)
    return "".join(text + ["</t%d>" % table[2 * k + 1] for k in reversed(open_nodes)])


def array(kind, name, numbers):
    return "static const %s %s[] = {%s};\n" % (kind, name, ", ".join(map(str, numbers)))


def flat(entries):
    return [number for entry in entries for number in entry]


def query_array(name, tree, queries, back=False):
    """An array of queries, each with its start, and the tables that it names; where asked, with the nodes that reach each node."""
    text, rows, n = "", [], tree.n
    for k, (ours, theirs, entries, start) in enumerate(queries):
        xpath = '"%s"' % (ours if theirs is ALIKE else theirs) if theirs else "NULL"
        numbers = flat(entries)
        pairs = relation(tree, numbers)
        reached = [pairs[y] >> x & 1 if back else pairs[x] >> y & 1 for x in range(n) for y in range(n)]
        text += array("uint16_t", "%s_table%d" % (name, k), numbers) + array("uint8_t", "%s_reached%d" % (name, k), reached)
        rows.append('    {"%s", %s, %s_table%d, %d, %s_reached%d, %d},\n' % (ours, xpath, name, k, len(numbers), name, k, start))
    return text + "static const struct query %s[] = {\n%s};\n" % (name, "".join(rows))


def list_array(tree):
    """An array of the queries with variables. But for the first they break the rule of quick pages."""
    text, rows = "", []
    for k, (written, entries, columns, due) in enumerate(lists(tree)):
        numbers = flat(entries)
        assert (breaking(numbers) is None) == (written == "self::t9")
        text += array("uint16_t", "answers_table%d" % k, numbers) + array("uint16_t", "answers_due%d" % k, flat(due) or [0])
        rows.append('    {"%s", answers_table%d, %d, %d, answers_due%d, %d},\n' % (written, k, len(numbers), columns, k, len(due)))
    return text + "static const struct answers answers[] = {\n%s};\n" % "".join(rows)


def nested_files(table):
    """The header of queries that nest, and the lines of those that XPath 2.0 has words for: the shape's number, the depth, the text, and
    for each node 1 if the query reaches it from the root."""
    tree, text, rows, lines = Tree(table), "#define NODES %d\n" % (len(table) // 2), [], []
    text += array("uint16_t", "shared", shared(table, [0] * tree.n))
    for shape, (levels, below, words_for_it) in enumerate(SHAPES):
        title = "`%s`" % levels[0][0] if len(levels) == 1 else "the four in turn"
        for depth in depths(levels, below):
            written, entries = nested(levels, below, depth)
            numbers, name = flat(entries), "%d_%d" % (shape, depth)
            pairs = relation(tree, numbers)
            text += array("uint16_t", "table" + name, numbers) + array("uint64_t", "due" + name, map("%dU".__mod__, words(pairs)))
            rows.append('    {%d, "%s", %d, "%s", table%s, %d, due%s},\n' % (shape, title, depth, written, name, len(numbers), name))
            if words_for_it:
                lines.append("%d\t%d\t%s\t%s\n" % (shape, depth, written, "".join(str(pairs[0] >> y & 1) for y in range(tree.n))))
    return text + "static const struct nest nests[] = {\n%s};\n" % "".join(rows), "".join(lines)


def header(table):
    tree, (due_next, due_tags) = Tree(table), index(table[1::2])
    text = "#define NODES %d\n" % tree.n + array("uint16_t", "tree", table) + array("uint16_t", "shared", shared(table, [0] * tree.n))
    half = shared(table, halved(table))
    text += array("uint16_t", "halved", half) + array("uint16_t", "due_seen", seen(half, 1))
    text += array("uint16_t", "due_next", due_next) + array("uint16_t", "due_tags", due_tags)
    text += query_array("queries", tree, [(*query, 0) for query in QUERIES]) + query_array("searches", tree, searches(table))
    text += query_array("whole", tree, [(*query, 0) for query in RELATIONS]) + list_array(tree)
    return text + query_array("turns", tree, [turn(tree, *query) for query in QUERIES], True)


def write(name, text):
    with open(os.path.join(folder, name), "w") as f:
        f.write(text)


flags = [argument for argument in sys.argv[1:] if argument.startswith("--")]
folder, *numbers = [argument for argument in sys.argv[1:] if argument not in flags]
numbers = list(map(int, numbers + ["256", "1"][len(numbers) :]))
table = chain_table(numbers[0]) if "--chain" in flags else tree_table(*numbers)
if "--different" in flags:
    table = all_different(table)
os.makedirs(folder, exist_ok=True)
write("tree.xml", xml(table))
if "--nested" in flags:
    text, lines = nested_files(table)
    write("nested.h", text)
    write("nested.txt", lines)
else:
    write("tables.h", header(table))
