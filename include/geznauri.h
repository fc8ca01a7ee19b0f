/*
 * Geznauri: queries over small trees, for C.
 *
 * The engine answers Core XPath queries with intersect, except, stars of paths and node variables over trees of up to 256 nodes. Trees and
 * queries are lent to it as tables of 16-bit numbers, and gz_read makes the table of a query that is typed. gz_reverse makes the table of a
 * query turned round, which has the same pairs, swapped. Two parties may share one tree table: each sees its own nodes and the common ones,
 * as a tree by themselves, and a call is made for one of the two. gz_index makes the index of a tree, by which gz_descendants finds the
 * descendants with a tag. All pairs of a query are given a byte a pair by gz_pairs, and a bit a pair by gz_pairs_bits. The answers of a
 * query with variables are given a page at a time by gz_page, and by gz_quick_page with far fewer evaluations where the query keeps a rule.
 * This page describes them, every function, and every reply.
 *
 * To link: `./build` writes target/staticlib/libterminal.a, for x86-64 Linux.
 *
 *     cc -I include program.c target/staticlib/libterminal.a
 *
 * The archive defines the functions of section 12 and no other global symbol. It needs two functions of the C library, which
 * compilers call of their own accord: memcpy, memset. It has less than 116 KiB of code and constants, and has no variables.
 *
 * Contents:  1 For every call   2 Tree table and parties   3 Query table   4 Node sets and relations   5 Answers, pages, cursors
 *            6 Name tables   7 Typed queries   8 Reversed queries   9 Indexes   10 Numbers of refusal   11 Types   12 Functions
 *
 *
 * 1  FOR EVERY CALL
 *
 * Any contents are taken: every number and byte that is lent may hold any value. Each function checks all that it is lent, in
 * every call (of an index, what it reads); what it cannot take it refuses by number and place (section 10). A refused call writes
 * nothing, but for gz_name, which then hands back an empty part. There are no errors of any other kind: every call returns, sets no
 * errno, takes no memory from the heap and makes no system call.
 *
 * Slices. A pointer and a length behind it are one slice. The length is in elements, not in bytes. The pointer is valid and
 * aligned for that many elements; where the length is 0 it is neither read nor written through, and may be NULL. A const
 * slice is only read, a slice without const is the buffer of the result. The pointers `cursor` and `name` are never NULL.
 *
 * Aliasing. Slices that are only read may overlap one another. What a call writes (buffer, cursor, name) shares no memory
 * with anything else that is lent to the same call. Nobody else writes what a call is lent while it runs.
 *
 * Threads. No function keeps anything between calls, and there is no global state: calls may run at the same time on any
 * number of threads, with the same tables too, so long as each has its own buffers and cursor.
 *
 * Stack. gz_check_tree, gz_check_query and gz_name take less than 1 KiB; gz_seen, gz_index, gz_descendants, gz_pack, gz_unpack and gz_read,
 * however deep its text nests, take less than 4 KiB. gz_reverse takes less than 32 KiB for every query; the worst shape that was measured,
 * of 64 levels, takes 4,768 bytes. gz_pairs_bits takes less than 56 KiB for every query, so that its stack and a relation of 256 nodes in
 * bits, 8 KiB, take less than the 64 KiB of one in bytes; the worst shape that was measured takes 46,024 bytes, a run of steps, however it
 * is grouped, less than 18 KiB, and a step less than 6 KiB. gz_pairs takes 8 KiB more, less than 64 KiB for every query. The others take
 * less than 70 KiB for every query in which intersects, excepts, stars and sames nest (gz_forwards says when), and for the others by their
 * levels (section 3): of one level gz_forwards and gz_backwards take less than 9 KiB, gz_quick_page 13 and gz_page 14, and all less than 4
 * KiB for each further level; gz_page may take so much for a query that nests too, since what its variables decide need not nest. There are
 * 64 levels at most, so that no call takes 266 KiB. Every call that is told a party keeps the seen tree on its stack, 1 KiB of these.
 *
 * Everything is counted from 0. Numbers of tables are in the machine's own byte order.
 *
 *
 * 2  TREE TABLE AND PARTIES
 *
 * Three numbers a node: its parent, its tag, its owner. Node k has the numbers from 3 k on; a table has 1 to 256 nodes, so that tree_len
 * is three times their number. Nodes are numbered in document order: node 0 is the root, with parent 65535, and the parent of each later
 * node k is node k - 1 or an ancestor of node k - 1. Siblings stand in number order. Tags are 0 to 65533; node 0 may have the tag
 * 65534, which makes it a document node, the node above the top element that desktop tools expect. The owner is 0 for a node that is
 * common, and 1 or 2 for one that is a party's; node 0 is common.
 *
 * The tree of all examples here, a hall (tag 1) with two bays (tag 2) that hold pallets (tag 3), all common:
 *
 *     0 hall                        uint16_t tree[] = {65535, 1, 0,  0, 2, 0,  1, 3, 0,  1, 3, 0,  0, 2, 0,  4, 3, 0};
 *     |-- 1 bay
 *     |   |-- 2 pallet
 *     |   `-- 3 pallet
 *     `-- 4 bay
 *         `-- 5 pallet
 *
 * A call that is lent a tree table is told the party, 1 or 2, straight behind it; gz_check_tree alone has none. A party sees a node if the
 * node's owner is 0 or the party itself and the node's parent, which node 0 alone lacks, is seen: what is below a hidden node is hidden
 * too, whoever owns it. The seen nodes, renumbered without gaps in the order of the table, are the seen tree, and n is how many they are,
 * 1 to 256. Such a call speaks of that tree alone: all node numbers that it is lent and that it replies, the places of sets, relations and
 * indexes, and n everywhere below are the seen tree's. Where all nodes are common, either party sees them all, under their own numbers.
 *
 * A hall of three bays that two parties share. The hall, bay 1 and pallet 7 are common; party 1 has pallet 2 and bay 6, and party 2 has
 * pallet 3, bay 4 and pallet 5:
 *
 *     0 hall                   party 1 sees        party 2 sees        uint16_t shared[] = {65535, 1, 0,  0, 2, 0,  1, 3, 1,
 *     |-- 1 bay                0 hall              0 hall                                   1, 3, 2,  0, 2, 2,  4, 3, 2,
 *     |   |-- 2 pallet of 1    |-- 1 bay           |-- 1 bay                                0, 2, 1,  6, 3, 0};
 *     |   `-- 3 pallet of 2    |   `-- 2 pallet    |   `-- 2 pallet
 *     |-- 4 bay of 2           `-- 3 bay           `-- 3 bay
 *     |   `-- 5 pallet of 2        `-- 4 pallet        `-- 4 pallet
 *     `-- 6 bay of 1
 *         `-- 7 pallet
 *
 * Both see a tree of five nodes, and have the same replies to every call; for party 2, node 4 is the pallet that the table has at 5.
 * gz_seen writes the seen tree: two numbers a node, parent and tag. A caller that needs the table's own numbers counts the seen nodes.
 *
 * What a party does not see cannot be told from its replies: two tables that are both accepted and show the party the same tree, lent with
 * all else alike, give it the same replies, and the same bytes in every buffer and cursor. Refusals of the shared table itself (5, 6, 7 and
 * 30) are the exception: they look at all of it, hidden nodes too, and their places are numbers of the table. All other refusals judge by
 * the seen tree. Time can tell more: a call looks at every node of the table.
 *
 *
 * 3  QUERY TABLE
 *
 * Four numbers an entry: kind, left, right, tag. Entry e has the numbers from 4 e on; there are 1 to 64 entries, so that
 * query_len is four times their number. The last entry is the query. Beside the table a call is told the number of
 * variables, `columns`, 0 to 3; variables are numbered from 0, and an assignment gives each one node.
 *
 * An entry is a path (kinds 0 to 7, and 13), a set of pairs (x, y) of nodes, read 'from x to y'; or a node expression (kinds 8 to
 * 12, and 14), which holds at a node x or does not. 'path' and 'expr' below are operands: numbers of earlier entries of that sort.
 * Every entry but the last is an operand exactly once. A field with a dash must be 0.
 *
 * Levels of nesting: an entry without operands (kinds 0, 6 and 12) has one level, and every other entry has one level more than
 * the operand that has the most. A query has the levels of its last entry.
 *
 *     kind                left       right   tag     meaning
 *      0  step            axis       -       test    y is on the axis from x, and y passes the test
 *      1  compose         path       path    -       for some z, (x, z) is in left and (z, y) is in right
 *      2  union           path       path    -       (x, y) is in left or in right
 *      3  intersect       path       path    -       (x, y) is in left and in right
 *      4  except          path       path    -       (x, y) is in left and not in right
 *      5  filter          path       expr    -       (x, y) is in left, and right holds at y
 *      6  variable        variable   -       -       y is the variable's node; x is any node
 *      7  from the root   path       -       -       (0, y) is in left; x is any node
 *      8  some            path       -       -       left has a pair (x, y), for at least one y
 *      9  not             expr       -       -       left does not hold at x
 *     10  and             expr       expr    -       left and right hold at x
 *     11  or              expr       expr    -       left or right holds at x
 *     12  is              variable   -       -       x is the variable's node
 *     13  star of a path  path       -       -       y is x, or is reached from x by pairs of left, one after the other
 *     14  same            path       path    -       for some y, (x, y) is in left and in right
 *
 * A step's test is a tag, 0 to 65533, which passes the nodes with that tag; or 65534, node(), which passes every node; or 65535,
 * the star, which passes every node but a document node.
 *
 *     axis                     y is on it from x if
 *      0  self                 y is x
 *      1  child                x is y's parent
 *      2  parent               y is x's parent
 *      3  right                y is the next sibling after x
 *      4  left                 y is the next sibling before x
 *      5  descendant           x is reached from y by one or more steps to the parent
 *      6  ancestor             y is reached from x by one or more steps to the parent
 *      7  following            y is later than x and no descendant of x
 *      8  preceding            y is earlier than x and no ancestor of x
 *      9  following-sibling    y is a later child of x's parent
 *     10  preceding-sibling    y is an earlier child of x's parent
 *     11  descendant-or-self   y is x or a descendant of x
 *     12  ancestor-or-self     y is x or an ancestor of x
 *
 * descendant::2[. is $0]/child::3[. is $1], the bays with their pallets, has two variables:
 *
 *     uint16_t query[] = {
 *         0, 5, 0, 2,      entry 0   descendant::2
 *         12, 0, 0, 0,     entry 1   . is $0
 *         5, 0, 1, 0,      entry 2   entry 0 filtered by entry 1
 *         0, 1, 0, 3,      entry 3   child::3
 *         12, 1, 0, 0,     entry 4   . is $1
 *         5, 3, 4, 0,      entry 5   entry 3 filtered by entry 4
 *         1, 2, 5, 0,      entry 6   entry 2 composed with entry 5
 *     };
 *
 *
 * 4  NODE SETS AND RELATIONS
 *
 * A node set is n bytes: byte k is 1 if node k is in the set, else 0. The forward image of a set has y exactly if some x of
 * the set has the pair (x, y); the backward image has x exactly if some y of the set has the pair (x, y). The relation table
 * is n * n bytes: the byte at x * n + y is 1 if (x, y) is a pair, else 0. A result takes the first n or n * n bytes of its
 * buffer, and the bytes behind keep what they held. With an image comes its count, the number of nodes in it.
 *
 * The relation in bits is 4 n words of 64 bits, four a row, the lowest word and the lowest bit first: the pair (x, y) is bit y % 64
 * of word 4 x + y / 64. Bits at and beyond n are 0. For 256 nodes it has 8 KiB where the bytes have 64. As a result it takes the
 * first 4 n words of its buffer, and the words behind keep what they held. gz_pack and gz_unpack turn either form into the other, and
 * nothing is lost.
 *
 *     child::* in the tree of section 2        uint64_t words[] = {0x12, 0, 0, 0,    from node 0 to 1 and 4
 *                                                                  0x0c, 0, 0, 0,    from node 1 to 2 and 3
 *                                                                  0,    0, 0, 0,
 *                                                                  0,    0, 0, 0,
 *                                                                  0x20, 0, 0, 0,    from node 4 to 5
 *                                                                  0,    0, 0, 0};
 *
 *
 * 5  ANSWERS, PAGES, CURSORS
 *
 * A row is one node for each variable. It is an answer if, under it as the assignment, the query has a pair from any start.
 * The answers are listed once each, by node number, the first variable weighing most; a variable that plays no part where
 * the query holds takes every node there. The bays with their pallets have the answers (1, 2), (1, 3), (4, 5).
 *
 * gz_page reads them a page at a time. The caller keeps a cursor, all zero to begin with, and lends it to every call. The
 * call writes the first answers after the cursor's row (from the first answer on where the cursor is fresh), as many as the
 * buffer has whole room for, and moves the cursor to the last row written. A caller that goes on until `more` is false has
 * read every answer once, in order, if each accepted call was lent the same tree, party, query and columns; refused calls between
 * do no harm. A caller may also set the cursor: begun to 1, and its first `columns` numbers to any nodes, answer or not.
 *
 *     gz_cursor cursor = {0};
 *     uint16_t rows[64];
 *     gz_page_reply page;
 *     do {
 *         page = gz_page(tree, 18, 1, query, 28, 2, &cursor, rows, 64);
 *         for (size_t i = 0; i < page.count; i++)
 *             printf("bay %u, pallet %u\n", rows[2 * i], rows[2 * i + 1]);
 *     } while (page.more);
 *
 * gz_page tries one row after the other, an evaluation for each, of what the variables decide of the query; what is before and behind
 * that is evaluated once a call for all rows. Where a row is no answer, and all of its numbers from some variable on are 0, it begins a
 * block, of the rows that have the same numbers before that variable. The largest block is looked at first: one evaluation of the query,
 * with the later variables standing for any node, tells whether it may be left out; it is made where no later variable stands under a not
 * or right of an except. So a query that holds nowhere is told after two evaluations, whatever its variables, if none of them stands
 * there.
 *
 * gz_quick_page finds a row variable by variable: it gives a variable one node after the other, while the variables behind it stand for any
 * node, and one evaluation tells whether an answer begins so. That is exact for the queries that keep this rule, and it refuses the others
 * (29), which gz_page takes:
 *
 *     no variable stands in both operands of a compose, of a filter, or of an and;
 *     no variable stands under an intersect, an except, a not, a star of a path, or a same.
 *
 * A variable may stand in both operands of a union or of an or, and intersect, except, not, stars and same may stand where no variable is
 * under them. The bays with their pallets keep the rule; .[. is $0]/self::2[. is $0], $0 intersect self::2, self::2[not(. is $0)],
 * (child::2[. is $0])* and .[child::3 same $0] do not.
 *
 * Rows, cursor, count and more are those of gz_page, whatever the cursor and the buffer, so that calls of either may follow calls of the
 * other over one cursor. Beside them stands how many evaluations of the query were made. A call finds the first answer, or the first
 * after the cursor's row, and after each row that it writes the next one, or that there is none, which tells more. With (a0, a1, ..) and
 * (b0, b1, ..) for rows, one node for each variable, this takes
 *
 *     to find                                    evaluations
 *     (b0, b1, ..), the first answer             1, and bi + 1 for each variable i; 1 where there is no answer
 *     (b0, b1, ..) after (a0, a1, ..)            bj - aj for the first variable j in which they differ, and n - 1 - ai and bi + 1 for
 *                                                each variable i behind it
 *     that none comes after (a0, a1, ..)         n - 1 - ai for each variable i
 *
 * Each is at most 6 n, so that a call takes at most 6 n (count + 1). The bays with their pallets, two rows a call, take 18 evaluations
 * for (1, 2), (1, 3) and that there is more, 12 for (4, 5) and that there is none, and 1 where the cursor is at (4, 5).
 *
 *
 * 6  NAME TABLES
 *
 * Tags may have names. Two tables of bytes are lent, the house's and the site's, each a run of names with nothing between
 * them: a length byte, 1 to 32, then that many bytes. An empty table has no names. Tags count through the house's names
 * first, then through the site's. Names are handed back as parts of the tables, not copied, and do not end in a zero byte.
 *
 *
 * 7  TYPED QUERIES
 *
 * gz_read makes the query table of a text of 1 to 1,024 bytes. The text is a Path of this grammar: what is quoted stands for
 * itself, byte for byte, [ x ] is x or nothing, and { x } is x any number of times, also none.
 *
 *     Path         = Intersection { " union " Intersection }
 *     Intersection = Run { ( " intersect " | " except " ) Run }
 *     Run          = [ "/" | "//" ] Step { ( "/" | "//" ) Step }
 *     Step         = Primary { "[" Test "]" }
 *     Primary      = axis "::" ( "*" | "node()" | name ) | "." | ".." | "$0" | "$1" | "$2" | "(" Path ")" [ "*" ]
 *     Test         = Conjunction { " or " Conjunction }
 *     Conjunction  = Unit { " and " Unit }
 *     Unit         = Path | Path " same " Path | "not(" Test ")" | ". is $0" | ". is $1" | ". is $2" | "(" Test ")"
 *     axis         = an axis of section 3, written out
 *     name         = one or more ASCII letters, digits, "-" and "_"
 *
 * What is repeated groups leftwards, and a bracket that holds a whole Path is a Path, so that a text has one reading at most.
 * Word operators, same and `is` among them, have one space on each side, and there is no other space.
 *
 *     typed           stands for                                                       kind
 *     axis::name      a step, with the lowest tag that has the name                     0
 *     axis::*         a step with the star                                              0
 *     axis::node()    a step with node(); without the brackets node is a name           0
 *     .   ..          self::node() and parent::node()                                   0
 *     a/b             a composed with b                                                 1
 *     a//b            a, descendant-or-self::node() and b, composed leftwards           1
 *     union, intersect, except                                                          2, 3, 4
 *     a[t]            a filtered by t                                                   5
 *     $0              variable 0                                                        6
 *     /a   //a        from the root: the whole run behind it, and the run that has      7
 *                     descendant-or-self::node() before its first step
 *     a as a Unit     some                                                              8
 *     not(t), and, or, . is $0                                                          9, 10, 11, 12
 *     (a)*            the star of a: the bracket is due                                 13
 *     a same b        same: a and b lead to one node                                    14
 *     (a)   (t)       what it holds: a bracket makes no entry
 *
 * An entry stands behind its operands, and the left operand's entries stand before the right's. The number of variables is one
 * more than the highest behind a $, or 0. Names are looked up in the name tables of section 6, byte for byte, house before site,
 * among the tags up to 65533; a name of more than 32 bytes has no tag.
 *
 * With the house's names store, hall, bay and the site's name pallet, descendant::bay[. is $0]/child::pallet[. is $1] is read as
 * the table of section 3, with two variables. Some refusals:
 *
 *     child::bay[child::pallet      24 at 24, the length: the text is not finished
 *     child::bay or self::*         24 at 11: the space may begin union, intersect or except, but or joins tests
 *     child::bay/ child::pallet     24 at 11: no space stands beside a slash
 *     .[(child::bay or .)*]         24 at 19: a star stands behind a bracket that holds a path, and this one holds a test
 *     child::shelf                  25 at 7: no tag has the name
 *
 *
 * 8  REVERSED QUERIES
 *
 * gz_reverse makes the query table of a query turned round. On every tree and under every assignment the reversed query has the pair (y, x)
 * exactly if the query has (x, y). So with the same columns gz_forwards over it replies and writes what gz_backwards does over the query,
 * and the reverse, and the answers are the query's own. It is also made so that it keeps the rule of section 5 exactly if the query does,
 * which is tried and not proved: gz_quick_page takes both or neither. The parts of the query are reversed, the innermost first. With a' for
 * a reversed:
 *
 *     kind                typed          reversed                                                                    entries
 *      0  step            axis::test     self::test/converse::node()                                                 3
 *      1  compose         a/b            b'/a'                                                                       a', b' and 1
 *      2  union           a union b      a' union b'                                                                 a', b' and 1
 *      3  intersect       a intersect b  a' intersect b'                                                             a', b' and 1
 *      4  except          a except b     a' except b'                                                                a', b' and 1
 *      5  filter          a[t]           self::node()[t]/a'                                                          a', t and 3
 *      6  variable        $0             self::node()[. is $0]/ancestor-or-self::node()/descendant-or-self::node()   7
 *      7  from the root   /a             a'/self::node()[not(parent::node())]/descendant-or-self::node()             a' and 8
 *     13  star of a path  (a)*           (a')*                                                                       a' and 1
 *
 * Runs group leftwards, and a reversed operand is one step of them, as if it stood in brackets. A node expression t is copied: the paths
 * in it are not reversed. Child and parent are each other's converse, and so are right and left, descendant and ancestor, following and
 * preceding, following-sibling and preceding-sibling, descendant-or-self and ancestor-or-self; self is its own. Entries stand as those of
 * a typed query, in whatever order the lent table has them.
 *
 * child::2[child::3], the bays that hold a pallet, becomes self::node()[child::3]/(self::2/parent::node()):
 *
 *     uint16_t reversed[] = {
 *         0, 0, 0, 65534,  entry 0   self::node()
 *         0, 1, 0, 3,      entry 1   child::3
 *         8, 1, 0, 0,      entry 2   some of entry 1
 *         5, 0, 2, 0,      entry 3   entry 0 filtered by entry 2
 *         0, 0, 0, 2,      entry 4   self::2
 *         0, 2, 0, 65534,  entry 5   parent::node()
 *         1, 4, 5, 0,      entry 6   entry 4 composed with entry 5
 *         1, 3, 6, 0,      entry 7   entry 3 composed with entry 6
 *     };
 *
 * The nodes from which the query of section 3 reaches a set, by the query turned round; made.count is 60, 15 entries:
 *
 *     uint16_t out[256];
 *     gz_made_reply made = gz_reverse(query, 28, 2, out, 256);
 *     gz_forwards(tree, 18, 1, out, made.count, 2, nodes, 2, from, 6, to, 6);
 *
 * A reversed query has more entries than the query, and the call is refused (26) if they are more than 64. k steps composed, 2 k - 1
 * entries, become 4 k - 1: 16 steps can be reversed, into 63 entries, and 17 cannot. It also has more levels (section 3), so that a call
 * over it may take more stack than one over the query (section 1): a step has 2 where it had 1, a variable 4. A query that is reversed
 * twice has its own pairs again, but not its own entries: child::3 becomes self::3/parent::node(), and that becomes
 * (self::node()/child::node())/(self::3/self::node()).
 *
 *
 * 9  INDEXES
 *
 * The index of a seen tree is n numbers: for each node the next later node that has the same tag, or 65535 where there is none. Beside
 * it stands the list of the tags: three numbers for each tag that some node has, by rising tag: the tag, the first node that has
 * it, and how many nodes have it. The counts add up to n. There are at most 256 tags, so that a list has at most 768 numbers.
 *
 *     uint16_t next[] = {65535, 4, 3, 5, 65535, 65535};
 *     uint16_t tags[] = {1, 0, 1,  2, 1, 2,  3, 2, 3};        1 hall, from node 0; 2 bays, from node 1; 3 pallets, from node 2
 *
 * gz_index makes both, for one party: an index is of what that party sees. The caller keeps them beside the tree, and makes them anew
 * where the tree changes.
 *
 * gz_descendants finds the descendants of a node, `start`, that have a tag, by a chain of nodes. The chain begins at the tree's
 * first node after start that has the tag, and goes on from each node to the one that the index has for it. It stops at 65535, or
 * at the first node that is no descendant of start; the nodes before that are the answer. With the tree's own index they are all
 * descendants of start that have the tag. 65535 is no star here: no node has it as its tag, so that nothing is found. Nor is 65534
 * node() here: it is the tag of a document node, which stands in the list of the tags like others and is no descendant.
 *
 * Any index may be lent. A number of it is looked at where the chain reads it, at each node of the answer and nowhere else, and
 * is refused if it is neither 65535 nor a later node with the tag. An index that is wrong where the chain does not read it is
 * not refused; nor is one that leaves out nodes: the answer is then short of them, but never has a node that is no descendant of
 * start with the tag.
 *
 *     descendants of     tag     chain           answer
 *     0                  3       2, 3, 5         {2, 3, 5}
 *     1                  3       2, 3            {2, 3}         node 5 is no descendant of node 1
 *     4                  3       5               {5}
 *     0                  1                       {}             no node after node 0 has tag 1
 *
 *
 * 10  NUMBERS OF REFUSAL
 *
 * A reply has number 0 and place 0 if the call is accepted. Else number says what is wrong and place where. Checks are made
 * in the order of the numbers, each over all that it looks at before the next begins; the first that fails is the reply, at
 * the lowest place that is at fault. But 30 and 31, of the shared table and the party, come straight after 7, in every function; and five
 * functions have another order: gz_read 21, 23, 24, 25, 26, 20, gz_reverse 8 to 15, 26, 20, gz_descendants 5, 6, 7, 30, 31, 36, 27, 20,
 * gz_unpack 5, 18, 28, 20, and gz_quick_page, which has 29 between 15 and 17. Each function makes the checks that its description in
 * section 12 names. n is that of the seen tree, and so are nodes that are lent; the places of 6, 7 and 30 are nodes of the shared table.
 *
 *      number   refused because                                                             place
 *       5       the tree table is empty, its length no multiple of three, or longer than    0
 *               768 numbers; n is told and is not 1 to 256
 *       6       node 0's parent is not 65535, or a later node's is neither the node         the node
 *               before it nor an ancestor of that node
 *       7       a node's tag is 65535, or it is 65534 and the node is not node 0            the node
 *      30       a node's owner is above 2, or node 0's is not 0                             the node
 *      31       the party is not 1 or 2                                                     0
 *       8       the query table is empty, its length no multiple of four, or longer         0
 *               than 256 numbers
 *       9       columns is above 3, or is 0 for gz_page or gz_quick_page                    0
 *      10       an entry's kind is above 14                                                 the entry
 *      11       a step's axis is above 12, a variable is not below columns, or a field      the entry
 *               that must be 0 is not
 *      12       an operand is not below its own entry's number                              the entry that has it
 *      13       an operand is a path where a node expression is due, or the reverse         the entry that has it
 *      14       an entry before the last is an operand never, or more than once             that operand entry
 *      15       the last entry is a node expression                                         the last entry
 *      16       nodes_len is not columns                                                    0
 *      17       an assigned node, or one of the first `columns` numbers of a begun          the variable
 *               cursor, is not below n
 *      18       the node set is not n bytes long; the relation is not n * n bytes, or       0
 *               4 n words, long
 *      19       a byte of the node set, or of the relation, is above 1                      the byte
 *      20       a buffer has room for less than n bytes, n * n bytes, 4 n words, one        0
 *               row, the seen tree, the table of the typed or of the reversed query, the
 *               index, or the list of the tags
 *      21       a name table has a length byte of 0 or above 32, or a name that runs        0 the house's,
 *               past its end                                                                1 the site's
 *      22       the tag is above 65533 or has no name                                       0
 *      23       the text is empty or longer than 1,024 bytes                                0
 *      24       the text is no Path of the grammar                                          the first byte with which no
 *                                                                                           Path, of any length, goes on
 *                                                                                           from the bytes before it, or
 *                                                                                           the text's length
 *      25       a typed name is the name of no tag up to 65533                              the name's first byte
 *      26       the typed or the reversed query has more than 64 entries                    0
 *      27       the index is not n numbers long                                             0
 *               a number that the chain reads is not 65535, and is not later than the       the node at which it
 *               node at which it is read, not below n, or of another tag                    is read
 *      28       a bit of the relation at or beyond n is set                                 the row
 *      29       a variable stands in both operands of a compose, a filter or an and, or     the lowest such entry
 *               under an intersect, an except, a not, a star of a path or a same
 *      36       the start is not below n                                                    0
 *
 * Numbers 1 to 4 are of job files, which no function here reads; the program picklist does. A job has the numbers of a call of gz_page: a
 * tree, a query, the number of variables and, under the mark 20565, a party and three numbers a node. A job with the older mark, 20564,
 * names no party and has two numbers a node, at most 512: all of its nodes are common.
 */
#ifndef GEZNAURI_H
#define GEZNAURI_H

#include <stdbool.h>
#include <stddef.h>
#include <stdint.h>

/* The version of this header and of the archive that it describes. GZ_VERSION_MAJOR is counted up, and MINOR set to 0, where a
   program that was written to the header before may break: another reply to the same call, a refusal of what was accepted or the reverse,
   another type, size or name, or more stack for the same call than was promised. GZ_VERSION_MINOR is counted up where something is added
   and all else is as it was. */
#define GZ_VERSION_MAJOR 6
#define GZ_VERSION_MINOR 1

#ifdef __cplusplus
extern "C" {
#endif

/* 11  TYPES */

/* The reply to a call: 0 and 0, or the number and the place of a refusal. */
typedef struct {
    uint16_t number, place;
} gz_reply;

/* The reply to gz_forwards, gz_backwards and gz_descendants: number and place as above, and how many nodes are in the set. Of a
   refused call, count is 0. */
typedef struct {
    uint16_t number, place;
    size_t count;
} gz_image_reply;

/* The reply to the making of a seen tree or of a reversed query: number and place as above, and how many numbers the tree or the table
   has. Of a refused call, count is 0. */
typedef struct {
    uint16_t number, place;
    size_t count;
} gz_made_reply;

/* The reply to a page call: number and place as above, how many rows it wrote, and whether there is an answer after them. Of
   a refused call, count is 0 and more is false. */
typedef struct {
    uint16_t number, place;
    size_t count;
    bool more;
} gz_page_reply;

/* The reply to a quick page call: number, place, count and more as of a page call, and how many evaluations of the query it made. Of
   a refused call, count and evaluations are 0 and more is false. */
typedef struct {
    uint16_t number, place;
    size_t count;
    bool more;
    size_t evaluations;
} gz_quick_reply;

/* The reply to a reading: number and place as above, how many numbers the table has, and how many variables the query has. Of a
   refused call, count and columns are 0. */
typedef struct {
    uint16_t number, place;
    size_t count;
    uint16_t columns;
} gz_read_reply;

/* The reply to the making of an index: number and place as above, and how many numbers were written to each buffer. Of a refused
   call, next and tags are 0. */
typedef struct {
    uint16_t number, place;
    size_t next, tags;
} gz_index_reply;

/* Where a caller stands in the answers of a query: whether it has begun, and the last row given, one node for each variable.
   All zero is a fresh cursor. Every byte of begun has a meaning: 0 is fresh, and any other byte is begun. While it is 0, last
   may hold anything; numbers of last at or above the number of variables may always hold anything, and are kept. */
typedef struct {
    uint8_t begun;
    uint16_t last[3];
} gz_cursor;

/* A part of a name table: its first byte, and how many bytes it has. It is good for as long as the table is. */
typedef struct {
    const uint8_t *start;
    size_t length;
} gz_part;

/* 12  FUNCTIONS */

/* The check of a shared tree table: refusals 5, 6, 7 and 30. Time in proportion to tree_len. */
gz_reply gz_check_tree(const uint16_t *tree, size_t tree_len);

/* The tree that a party sees of a shared table. table_len is 2 n or more; 512 numbers have room for every tree's. Refusals 5, 6, 7, 30, 31
   and 20.
   Accepted, the first count numbers of `table`, 2 n of them, are the seen tree, parent and tag of each node, and all later numbers are as
   they were; refused, all of `table` is. Time in proportion to tree_len. With owner 0 laid behind each node's two numbers, what is
   written is a table of which either party sees all, and gets the replies that the party gets from the shared one. */
gz_made_reply gz_seen(const uint16_t *tree, size_t tree_len, uint16_t party, uint16_t *table, size_t table_len);

/* The check of a query table with its number of variables, 0 to 3: refusals 8 to 15. Time in proportion to query_len. */
gz_reply gz_check_query(const uint16_t *query, size_t query_len, uint16_t columns);

/* The nodes that the node set `from` reaches by the query: its forward image. nodes[k] is the node assigned to variable k, so
   that nodes_len is columns (NULL and 0 for a query without variables). from_len is n; to_len is n or more. Refusals 5 to 7, 30, 31 and
   8 to 20.
   Accepted, the first n bytes of `to` are the image, all later bytes are as they were, and count is the number of nodes in the
   image, 0 to n; refused, all of `to` is as it was.
   A query without intersect, except, same and stars of paths takes time in proportion to its entries times n, however deep it is. An
   intersect or except by itself evaluates its operands once for each start node, and a star by itself evaluates its operand until no new
   node is reached, at most n times. Where one of the four stands inside an operand of another, however far, or there is a same, all pairs
   of the query are made as by gz_pairs_bits, and the image is read from them: each entry is then evaluated once. */
gz_image_reply gz_forwards(const uint16_t *tree, size_t tree_len, uint16_t party, const uint16_t *query, size_t query_len,
                           uint16_t columns, const uint16_t *nodes, size_t nodes_len, const uint8_t *from, size_t from_len, uint8_t *to,
                           size_t to_len);

/* The nodes that reach the node set `from` by the query: its backward image. All else, count too, is as for gz_forwards. */
gz_image_reply gz_backwards(const uint16_t *tree, size_t tree_len, uint16_t party, const uint16_t *query, size_t query_len,
                            uint16_t columns, const uint16_t *nodes, size_t nodes_len, const uint8_t *from, size_t from_len, uint8_t *to,
                            size_t to_len);

/* All pairs of the query, under the assignment `nodes`: the relation table. table_len is n * n or more. Refusals 5 to 7, 30, 31, 8 to 17
   and 20. Accepted, the first n * n bytes of `table` are the relation, the pair (x, y) at x * n + y, and all later bytes are as
   they were; refused, all of `table` is. The pairs are made as by gz_pairs_bits, and written out in a pass over the bytes. */
gz_reply gz_pairs(const uint16_t *tree, size_t tree_len, uint16_t party, const uint16_t *query, size_t query_len, uint16_t columns,
                  const uint16_t *nodes, size_t nodes_len, uint8_t *table, size_t table_len);

/* The same pairs in bits. words_len is 4 n or more; 1,024 words have room for every tree's. Refusals as of gz_pairs.
   Accepted, the first 4 n words of `words` are the relation, the pair (x, y) as bit y % 64 of word 4 x + y / 64, and all later words
   are as they were; refused, all of `words` is. Whole tables are combined: a step takes time in proportion to n, and a composition of
   two paths that are no steps, or a star of a path, at most n * n, however the query nests. */
gz_reply gz_pairs_bits(const uint16_t *tree, size_t tree_len, uint16_t party, const uint16_t *query, size_t query_len, uint16_t columns,
                       const uint16_t *nodes, size_t nodes_len, uint64_t *words, size_t words_len);

/* A relation among n nodes, from bytes to bits. n is 1 to 256, table_len n * n, and words_len 4 n or more. Refusals 5, 18, 19 and
   20. Accepted, the first 4 n words of `words` are the relation, and all later words are as they were; refused, all of `words` is.
   Time in proportion to n * n. */
gz_reply gz_pack(uint16_t n, const uint8_t *table, size_t table_len, uint64_t *words, size_t words_len);

/* A relation among n nodes, from bits to bytes. n is 1 to 256, words_len 4 n, and table_len n * n or more. Refusals 5, 18, 28 and
   20, in this order. Accepted, the first n * n bytes of `table` are the relation, and all later bytes are as they were; refused, all
   of `table` is. What gz_pack made comes back as it was, and the reverse. Time in proportion to n * n. */
gz_reply gz_unpack(uint16_t n, const uint64_t *words, size_t words_len, uint8_t *table, size_t table_len);

/* The next page of answers. columns is 1 to 3, and rows has room for rows_len / columns rows, at least one. Refusals 5 to 7, 30,
   31, 8 to 15, 17 and 20; 17 looks at the first `columns` numbers of a begun cursor only.
   Accepted, count rows stand at the front of `rows`, `columns` numbers each: the first answers after the cursor's row, as
   many as there are and as there is whole room for; all later numbers are as they were. more is true exactly if there is an
   answer after them. The cursor is at the last row written, with begun 1, its numbers at or above columns as they were; where
   count is 0 all of it is as it was, begun too. Refused, the cursor and all of `rows` are as they were.
   One evaluation for each row tried, at most n to the power of columns, and one for each block that is looked at (section 5), of which
   there are at most 1 + n + n * n. */
gz_page_reply gz_page(const uint16_t *tree, size_t tree_len, uint16_t party, const uint16_t *query, size_t query_len, uint16_t columns,
                      gz_cursor *cursor, uint16_t *rows, size_t rows_len);

/* The same page, found variable by variable, of a query that keeps the rule of section 5. It is lent what gz_page is lent. Refusals 5
   to 7, 30, 31, 8 to 15, 29, 17 and 20, in this order: 29 is told before cursor and buffer are looked at.
   Accepted, the cursor and all of `rows` are as gz_page would leave them, count and more are as it would reply, and evaluations is the
   number of section 5, at most 6 n (count + 1). Refused, the cursor and all of `rows` are as they were, and evaluations is 0.
   The check of the rule takes time in proportion to query_len. */
gz_quick_reply gz_quick_page(const uint16_t *tree, size_t tree_len, uint16_t party, const uint16_t *query, size_t query_len,
                             uint16_t columns, gz_cursor *cursor, uint16_t *rows, size_t rows_len);

/* The name of a tag. Refusals 21 and 22; both tables are looked at before the tag. Accepted, *name is the part of the house's
   or the site's table that is the name, without its length byte; refused, *name is the empty part at the start of the
   house's table, at whatever address where that was lent as NULL. What *name held before is not read. Time in proportion to the tables' lengths. */
gz_reply gz_name(const uint8_t *house, size_t house_len, const uint8_t *site, size_t site_len, uint16_t tag, gz_part *name);

/* The query table of a typed query, with the names of the house's and the site's table. Refusals 21, 23, 24, 25, 26 and 20, in
   this order: the name tables, the text's length, its grammar, its names, its entries, the buffer's room. A buffer of 256
   numbers has room for every table.
   Accepted, the table is the first count numbers of `query`, four an entry, and all later numbers are as they were; with columns
   variables it passes gz_check_query. Refused, all of `query` is as it was. Time in proportion to text_len, plus a look through
   the name tables, and one more for each name typed. */
gz_read_reply gz_read(const uint8_t *text, size_t text_len, const uint8_t *house, size_t house_len, const uint8_t *site,
                      size_t site_len, uint16_t *query, size_t query_len);

/* The query table of the query turned round (section 8). out_len is four times the reversed query's entries or more; 256 numbers have room
   for every table. Refusals 8 to 15, 26 and 20, in this order: the query and columns, the reversed query's entries, the buffer's room.
   Accepted, the table is the first count numbers of `out`, four an entry, and all later numbers are as they were; with the same columns it
   passes gz_check_query. Refused, all of `out` is as it was. Time in proportion to query_len. */
gz_made_reply gz_reverse(const uint16_t *query, size_t query_len, uint16_t columns, uint16_t *out, size_t out_len);

/* The index of the tree that a party sees, and the list of its tags. next_len is n or more, and tags_len three times the number of tags or
   more; 256 and 768 numbers have room for every tree's. Refusals 5 to 7, 30, 31, and 20 where either buffer is too short.
   Accepted, the first `next` numbers of `next`, n of them, are the index, the first `tags` numbers of `tags` are the list, three
   for each tag, and all later numbers of both are as they were; refused, all of both is. Time in proportion to n times the number
   of tags. */
gz_index_reply gz_index(const uint16_t *tree, size_t tree_len, uint16_t party, uint16_t *next, size_t next_len, uint16_t *tags,
                        size_t tags_len);

/* The descendants of the node `start` that have the tag, by following the index `next`. next_len is n; to_len is n or more; tag is
   any number. Refusals 5 to 7, 30, 31, 36, 27 and 20, in this order.
   Accepted, the first n bytes of `to` are the set of the nodes that the chain meets, all later bytes are as they were, and count is
   the number of these nodes; refused, all of `to` is as it was. Time in proportion to n; of the index one number is read for each
   node of the answer. */
gz_image_reply gz_descendants(const uint16_t *tree, size_t tree_len, uint16_t party, const uint16_t *next, size_t next_len,
                              uint16_t start, uint16_t tag, uint8_t *to, size_t to_len);

#ifdef __cplusplus
}
#endif

#endif
