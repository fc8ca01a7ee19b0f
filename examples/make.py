#!/usr/bin/env python3
"""Makes the job files of this folder. They are kept beside it, so nobody needs to run it; it is here to be read."""
import os
import struct

ROOT_PARENT, ANY = 65535, 65535
HALL, BAY, PALLET, AISLE, DAMAGE, CONTAINER = 1, 2, 3, 4, 5, 6

# axes
SELF, CHILD, PARENT, DESCENDANT, FOLLOWING_SIBLING = 0, 1, 2, 5, 9

# kinds of entries
STEP, COMPOSE, UNION, INTERSECT, EXCEPT, FILTER, SOME, IS, STAR, SAME = 0, 1, 2, 3, 4, 5, 8, 12, 13, 14


def packed(numbers):
    """Numbers as bytes: little-endian, 16 bits each."""
    return struct.pack("<%dH" % len(numbers), *numbers)


def job(tree, query, columns, party=None):
    """A job file: the tree, the query, and the trailer, whose distances count back from the end of the file. With a party the tree has
    three numbers a node, and the trailer one number more."""
    last = [20564] if party is None else [party, 20565]
    query_distance = 2 * (5 + len(last) + len(query))
    tree_distance = query_distance + 2 * len(tree)
    trailer = [tree_distance, len(tree), query_distance, len(query), columns] + last
    return packed(tree) + packed(query) + packed(trailer)


def table(shape):
    """The tree table of (tag, child, child, ..), numbered in document order."""
    numbers = []

    def add(node, parent):
        me = len(numbers) // 2
        numbers.extend([parent, node[0]])
        for child in node[1:]:
            add(child, me)

    add(shape, ROOT_PARENT)
    return numbers


def shared(tree, owners):
    """A shared table: a tree table with an owner for each node, 0 where it is common."""
    return [number for node, owner in enumerate(owners) for number in (tree[2 * node], tree[2 * node + 1], owner)]


def entries(*rows):
    """The query table of its entries: kind, left, right, tag."""
    return [number for row in rows for number in row]


# The teaching warehouse: a bay with two pallets, and a bay with one.
TEACHING = table((HALL, (BAY, (PALLET,), (PALLET,)), (BAY, (PALLET,))))

# descendant::bay[. is $0]/child::pallet[. is $1]
BAYS_AND_PALLETS = entries(
    (STEP, DESCENDANT, 0, BAY),
    (IS, 0, 0, 0),
    (FILTER, 0, 1, 0),
    (STEP, CHILD, 0, PALLET),
    (IS, 1, 0, 0),
    (FILTER, 3, 4, 0),
    (COMPOSE, 2, 5, 0),
)

# child::bay[. is $0] union descendant::pallet[. is $1]: in either branch one variable plays no part, and takes every node
EITHER = entries(
    (STEP, CHILD, 0, BAY),
    (IS, 0, 0, 0),
    (FILTER, 0, 1, 0),
    (STEP, DESCENDANT, 0, PALLET),
    (IS, 1, 0, 0),
    (FILTER, 3, 4, 0),
    (UNION, 2, 5, 0),
)


def aisle(*bays):
    """An aisle; each bay is a word with a letter a pallet, `d` for a damaged one and `p` for a sound one."""
    pallet = {"p": (PALLET,), "d": (PALLET, (DAMAGE,))}
    return (AISLE,) + tuple((BAY,) + tuple(pallet[letter] for letter in bay) for bay in bays)


# Three aisles: 39 nodes.
AISLES = table((HALL, aisle("ppd", "p", "dd", ""), aisle("pdp", "dpp"), aisle("pppp", "d", "pd")))

# descendant::bay[. is $0]/((child::pallet except child::pallet[child::damage]) intersect
# child::pallet[following-sibling::pallet])[. is $1]: the sound pallets that have another pallet to their right
SOUND_AND_NOT_LAST = entries(
    (STEP, DESCENDANT, 0, BAY),
    (IS, 0, 0, 0),
    (FILTER, 0, 1, 0),
    (STEP, CHILD, 0, PALLET),
    (STEP, CHILD, 0, PALLET),
    (STEP, CHILD, 0, DAMAGE),
    (SOME, 5, 0, 0),
    (FILTER, 4, 6, 0),
    (EXCEPT, 3, 7, 0),
    (STEP, CHILD, 0, PALLET),
    (STEP, FOLLOWING_SIBLING, 0, PALLET),
    (SOME, 10, 0, 0),
    (FILTER, 9, 11, 0),
    (INTERSECT, 8, 12, 0),
    (IS, 1, 0, 0),
    (FILTER, 13, 14, 0),
    (COMPOSE, 2, 15, 0),
)

# child::aisle[. is $0]/child::bay[. is $1]/child::pallet[. is $2]: the place of each pallet
PLACES = entries(
    (STEP, CHILD, 0, AISLE),
    (IS, 0, 0, 0),
    (FILTER, 0, 1, 0),
    (STEP, CHILD, 0, BAY),
    (IS, 1, 0, 0),
    (FILTER, 3, 4, 0),
    (COMPOSE, 2, 5, 0),
    (STEP, CHILD, 0, PALLET),
    (IS, 2, 0, 0),
    (FILTER, 7, 8, 0),
    (COMPOSE, 6, 9, 0),
)

# Two aisles: 13 nodes.
SMALL = table((HALL, aisle("pd", "p"), aisle("dp")))

# Pallets that stand on pallets, and pallets in containers, which stand on a pallet or in a bay: 13 nodes.
#   0 hall   1 bay   2, 3 on 2, 4 on 3   5, container 6 on 5, 7 in 6   8 bay   container 9, 10 in 9   11, 12 on 11
STACKS = table((
    HALL,
    (BAY, (PALLET, (PALLET, (PALLET,))), (PALLET, (CONTAINER, (PALLET,)))),
    (BAY, (CONTAINER, (PALLET,)), (PALLET, (PALLET,))),
))

# descendant::bay[. is $0]/child::pallet/(child::pallet)*[. is $1]: down through pallets only
THROUGH_PALLETS = entries(
    (STEP, DESCENDANT, 0, BAY),
    (IS, 0, 0, 0),
    (FILTER, 0, 1, 0),
    (STEP, CHILD, 0, PALLET),
    (COMPOSE, 2, 3, 0),
    (STEP, CHILD, 0, PALLET),
    (STAR, 5, 0, 0),
    (IS, 1, 0, 0),
    (FILTER, 6, 7, 0),
    (COMPOSE, 4, 8, 0),
)

# descendant::bay[child::pallet same descendant::container/parent::*][. is $0]: a pallet of the bay carries a container
CARRIES_CONTAINER = entries(
    (STEP, DESCENDANT, 0, BAY),
    (STEP, CHILD, 0, PALLET),
    (STEP, DESCENDANT, 0, CONTAINER),
    (STEP, PARENT, 0, ANY),
    (COMPOSE, 2, 3, 0),
    (SAME, 1, 4, 0),
    (FILTER, 0, 5, 0),
    (IS, 0, 0, 0),
    (FILTER, 6, 7, 0),
)

# Node 1 says that it is its own parent.
OWN_PARENT = [ROOT_PARENT, HALL, 1, BAY, 1, PALLET]

# Two firms in one hall. Bays 1 and 9 are common and the two between them a firm's each; a bay has pallets of either firm and common ones.
# Below bay 4, which is firm 2's, even a common pallet is hidden from firm 1.
#   0 hall   1 bay, 2 of 1, 3 of 2   4 bay of 2, 5   6 bay of 1, 7 of 1, 8   9 bay, 10 of 2, 11 of 2
FIRMS = table((HALL, (BAY, (PALLET,), (PALLET,)), (BAY, (PALLET,)), (BAY, (PALLET,), (PALLET,)), (BAY, (PALLET,), (PALLET,))))
OWNERS = [0, 0, 1, 2, 2, 0, 1, 1, 0, 0, 2, 2]
TWO_FIRMS = shared(FIRMS, OWNERS)

# Pallet 10 is said to be a third firm's.
THIRD_OWNER = shared(FIRMS, OWNERS[:10] + [3, 2])

# Each job by its name: tree, query, number of variables and, where the tree is shared, party.
JOBS = {
    "warehouse": (TEACHING, BAYS_AND_PALLETS, 2),
    "either": (TEACHING, EITHER, 2),
    "refused": (OWN_PARENT, BAYS_AND_PALLETS, 2),
    "aisles": (AISLES, SOUND_AND_NOT_LAST, 2),
    "places": (SMALL, PLACES, 3),
    "stacks": (STACKS, THROUGH_PALLETS, 2),
    "carriers": (STACKS, CARRIES_CONTAINER, 1),
    "firm-one": (TWO_FIRMS, BAYS_AND_PALLETS, 2, 1),
    "firm-two": (TWO_FIRMS, BAYS_AND_PALLETS, 2, 2),
    "firm-three": (TWO_FIRMS, BAYS_AND_PALLETS, 2, 3),
    "third-owner": (THIRD_OWNER, BAYS_AND_PALLETS, 2, 1),
}

if __name__ == "__main__":
    folder = os.path.dirname(os.path.abspath(__file__))
    for name, parts in JOBS.items():
        with open(os.path.join(folder, name + ".job"), "wb") as file:
            file.write(job(*parts))
