"""Core XPath over tree tables and query tables, written apart from the engine: each kind of entry as a relation, straight
from its definition. A relation among n nodes is a list of n whole numbers; bit y of number x says that (x, y) is a pair."""

DOCUMENT = 65534  # the tag of a document node, which only node 0 may have
ANY_NODE, STAR = 65534, 65535  # the name tests that are no tags: `node()`, and the star


def nodes_of(bits):
    """The nodes of a set, lowest first."""
    return [k for k in range(bits.bit_length()) if bits >> k & 1]


def converse(r):
    return [sum(1 << x for x in range(len(r)) if r[x] >> y & 1) for y in range(len(r))]


def composed(p, q):
    rows = []
    for row in p:
        union = 0
        for z in nodes_of(row):
            union |= q[z]
        rows.append(union)
    return rows


def closed(r):
    """The star of a relation: from x to x, and to all that is reached from x by its pairs, one after the other."""
    rows = []
    for x in range(len(r)):
        reached = fresh = 1 << x
        while fresh:
            fresh = image(r, fresh) & ~reached
            reached |= fresh
        rows.append(reached)
    return rows


class Tree:
    def __init__(self, table):
        self.parent, self.tag = table[0::2], table[1::2]
        self.n = n = len(self.tag)
        self.all = (1 << n) - 1
        own = [1 << x for x in range(n)]
        child, below, sibling, right = ([0] * n for _ in range(4))
        for y in range(1, n):
            child[self.parent[y]] |= 1 << y
            x = y
            while x:
                x = self.parent[x]
                below[x] |= 1 << y
            before = [x for x in range(1, y) if self.parent[x] == self.parent[y]]
            for x in before:
                sibling[x] |= 1 << y
            if before:
                right[before[-1]] |= 1 << y
        following = [sum(1 << y for y in range(x + 1, n) if not below[x] >> y & 1) for x in range(n)]
        with_self = [a | b for a, b in zip(own, below)]
        self.axes = [own]
        for odd in child, right, below, following, sibling, with_self:
            self.axes += [odd, converse(odd)]

    def passing(self, test):
        """The nodes that pass a name test: all by `node()`, all but a document node by the star, and by a tag those that have it."""
        if test == ANY_NODE:
            return self.all
        return sum(1 << y for y in range(self.n) if (self.tag[y] != DOCUMENT if test == STAR else self.tag[y] == test))


def seen(table, party):
    """The tree table, two numbers a node, of what a party sees of a shared table: the nodes that are common or its own, and so is
    each node above them. They are renumbered without gaps."""
    parents, tags, owners = table[0::3], table[1::3], table[2::3]

    def shown(x):
        return owners[x] in (0, party) and (x == 0 or shown(parents[x]))

    nodes = [x for x in range(len(tags)) if shown(x)]
    return [number for x in nodes for number in (nodes.index(parents[x]) if x else parents[x], tags[x])]


def evaluated(tree, query, assignment):
    """Every entry of a query table: a relation for a path, a set for a node expression."""
    n, values = tree.n, []
    for e in range(0, len(query), 4):
        kind, left, right, tag = query[e : e + 4]
        a = values[left] if left < len(values) else None
        b = values[right] if right < len(values) else None
        if kind == 0:
            passing = tree.passing(tag)
            value = [row & passing for row in tree.axes[left]]
        elif kind == 1:
            value = composed(a, b)
        elif kind == 2:
            value = [p | q for p, q in zip(a, b)]
        elif kind == 3:
            value = [p & q for p, q in zip(a, b)]
        elif kind == 4:
            value = [p & ~q for p, q in zip(a, b)]
        elif kind == 5:
            value = [p & b for p in a]
        elif kind == 6:
            value = [1 << assignment[left]] * n
        elif kind == 7:
            value = [a[0]] * n
        elif kind == 8:
            value = sum(1 << x for x in range(n) if a[x])
        elif kind == 9:
            value = tree.all & ~a
        elif kind == 10:
            value = a & b
        elif kind == 11:
            value = a | b
        elif kind == 12:
            value = 1 << assignment[left]
        elif kind == 13:
            value = closed(a)
        else:
            value = sum(1 << x for x in range(n) if a[x] & b[x])
        values.append(value)
    return values


def relation(tree, query, assignment=()):
    """The pairs of the whole query."""
    return evaluated(tree, query, assignment)[-1]


def breaking(query):
    """The lowest entry of a query table that breaks the rule of quick pages: a variable stands in both operands of a composition, a
    filter or an `and`, or under an intersect, an except, a `not`, a star of a path or a `same`. None where the query keeps the rule."""
    under = []  # of each entry, the variables under it
    for e in range(0, len(query), 4):
        kind, left, right, _ = query[e : e + 4]
        a = under[left] if kind not in (0, 6, 12) else {left} if kind else set()
        b = under[right] if kind in (1, 2, 3, 4, 5, 10, 11, 14) else set()
        if kind in (1, 5, 10) and a & b or kind in (3, 4, 9, 13, 14) and a | b:
            return e // 4
        under.append(a | b)
    return None


def evaluations(n, a, b):
    """The evaluations that a quick page makes to find the row b after the row a, or as the first of all where a is None; or that there
    is none, where b is None."""
    if a is None:
        return 1 + sum(y + 1 for y in b or ())
    if b is None:
        return sum(n - 1 - x for x in a)
    j = next(i for i in range(len(a)) if a[i] != b[i])
    return b[j] - a[j] + sum(n - 1 - x + y + 1 for x, y in zip(a[j + 1 :], b[j + 1 :]))


def words(pairs):
    """A relation in bits: four words of 64 bits for each node, the lowest first."""
    return [row >> 64 * k & (1 << 64) - 1 for row in pairs for k in range(4)]


def image(pairs, start):
    """The set that a set reaches by a relation."""
    reached = 0
    for x in nodes_of(start):
        reached |= pairs[x]
    return reached
