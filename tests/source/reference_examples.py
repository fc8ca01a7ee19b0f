#!/usr/bin/env python3
"""The examples of docs/REFERENCE.md are right by tests/support/reference.py: what stands on each axis, a relation as bytes and as
bits, the calls of a quick page, the index, the tables of reversed queries by their pairs, the job file byte for byte, and what the
program prints for it. The worked readings and refusals of typed queries, and the queries that keep or break the rule of quick pages,
are lines of tests/boundary.c, which holds the library to them; the tables of reversed queries, entry for entry, are lines of
crates/turning/stdin."""
import itertools, os, re, struct, sys
sys.dont_write_bytecode = True
sys.path.insert(0, os.path.join(os.path.dirname(__file__), "..", "support"))
from reference import Tree, evaluations, nodes_of, relation, words
from repository import end, read

text = read("docs/REFERENCE.md")


def block(heading, number):
    """A fenced block of a section."""
    return text.partition("\n## %s\n" % heading)[2].split("```")[2 * number + 1]


def section(heading):
    return text.partition("\n## %s\n" % heading)[2].partition("\n## ")[0]


def decoded(dump):
    """The tree, the query and the number of variables of a job file written as hexadecimal bytes, with words behind them."""
    job = bytes(int(b, 16) for line in dump.split("\n") for b in re.findall(r"\b[0-9a-f]{2}\b", line[:76]))
    tree, tree_count, query, query_count, variables, magic = struct.unpack("<6H", job[-12:])
    part = lambda distance, count: list(struct.unpack_from("<%dH" % count, job, len(job) - distance))
    return part(tree, tree_count), part(query, query_count), variables, magic


table, query, variables, magic = decoded(block("Job files", 0))
tree, problems = Tree(table), []
drawn = [int(w) for w in re.search(r"table ((?:\d+ +)+\d+)$", block("The tree table", 0), re.M)[1].split()]
if drawn != table or magic != 20564:
    problems.append("the job file's tree is not the one drawn, or its magic number is wrong")
axes = re.findall(r"^\| (\d+) \| `[\w-]+` \|[^|]*\|([\d ]*)\|([\d ]*)\|$", text, re.M)
if [int(code) for code, _, _ in axes] != list(range(13)):
    problems.append("the table of axes does not have the codes 0 to 12 in turn")
for code, *columns in axes:
    for start, column in zip((1, 4), columns):
        if [int(y) for y in column.split()] != nodes_of(tree.axes[int(code)][start]):
            problems.append("axis %s from node %d is not %s" % (code, start, column.strip()))
rows = re.findall(r"^from (\d)((?:  +[01](?: [01]){5}))((?: +\d+){4})$", block("Node sets and relations", 0), re.M)
drawn = [[int(w) for row in rows for w in row[form].split()] for form in (1, 2)]
pairs = relation(tree, [0, 1, 0, 65535])
if drawn != [[row >> y & 1 for row in pairs for y in range(tree.n)], words(pairs)] or [int(row[0]) for row in rows] != list(range(tree.n)):
    problems.append("the relation of child::* is not the warehouse's, as bytes or as bits")
index, tag_list = [[int(w) for w in part.split()] for part in re.search(r"^index (.*)list (.*)$", block("The index", 0), re.M).groups()]
tags = table[1::2]
later = lambda x: next((y for y in range(x + 1, tree.n) if tags[y] == tags[x]), 65535)
if index != [later(x) for x in range(tree.n)] or tag_list != [k for t in sorted(set(tags)) for k in (t, tags.index(t), tags.count(t))]:
    problems.append("the index or the list of the tags is not the warehouse's")
answers = [row for row in itertools.product(range(tree.n), repeat=variables) if any(relation(tree, query, row))]
printed = "".join("%s\n" % " ".join(map(str, row)) for row in answers) + "end %d\n" % len(answers)
if block("Output of the program", 0).lstrip("\n") != printed:
    problems.append("for the job file the program prints\n%s" % printed)

# quick pages of two rows: call | rows | count | more | evaluations, in all and for each row that is sought
last, left = None, answers
for call in 1, 2, 3:
    found = (left + [None])[:3]
    costs = [evaluations(tree.n, a, b) for a, b in zip([last] + found, found)]
    rows = [str(row) for row in found[:-1]]
    each = ", ".join("%d for %s" % pair for pair in zip(costs, rows + ["`more`"]))
    told = "%d: %s" % (sum(costs), each) if rows else sum(costs)
    line = "| %d | %s | %d | %s | %s |\n" % (call, " ".join(rows) or "none", len(rows), str(found[-1] is not None).lower(), told)
    if line not in section("Quick pages"):
        problems.append("of the quick pages call %d is %s" % (call, line))
    last, left = (found[-2] if rows else last), left[len(rows) :]

# `text`; `text` | the rule is kept, or 29 at an entry, for each or for all
rules = []
for queries, told in re.findall(r"^\| ((?:`[^`]+`(?:; )?)+) \| (kept.*|29 at .*) \|$", section("Quick pages"), re.M):
    queries, places = re.findall("`([^`]+)`", queries), re.findall(r"29 at (\d+)", told)
    replies = ["29, %s" % place for place in places] or ["0, 0"]
    rules += zip(queries, replies if len(replies) > 1 else replies * len(queries))

# `query` | `reversed query` | entries: the pairs are swapped, whatever node the variable has, and the entries are tried
REVERSED = {"child::3": "0 1 0 3", "child::2/child::3": "0 1 0 2 0 1 0 3 1 0 1 0", "child::2[child::3]": "0 1 0 2 0 1 0 3 8 1 0 0 5 0 2 0",
            "$0": "6 0 0 0", "/child::2": "0 1 0 2 7 0 0 0", "(child::3)*": "0 1 0 3 13 0 0 0"}
reversals = re.findall(r"^\| `([^`]+)` \| `[^`]+` \| ((?:`[\d ]+`(?:, )?)+) \|$", section("Reversed queries"), re.M)
if [written for written, _ in reversals] != list(REVERSED):
    problems.append("the worked tables of reversed queries are not those of %s" % ", ".join(REVERSED))
tables = re.findall(r"^reverse 0 0 \| \d+ \d+ \| ([\d ]+) \| ([\d ]+)$", read("crates/turning/stdin"), re.M)
for written, entries in reversals:
    if (REVERSED[written], " ".join(re.findall(r"\d+", entries))) not in tables:
        problems.append("crates/turning/stdin does not try the table of %s reversed" % written)
    for node in range(tree.n):
        there, back = [relation(tree, list(map(int, re.findall(r"\d+", e))), [node]) for e in (REVERSED[written], entries)]
        if any(there[x] >> y & 1 != back[y] >> x & 1 for x in range(tree.n) for y in range(tree.n)):
            problems.append("the table of %s reversed does not have its pairs, swapped" % written)

# `text` | entries | variables, and `text` | number at place
readings = re.findall(r"^\| `([^`]+)` \| ((?:`[\d ]+`(?:, )?)+) \| (\d) \|$", text, re.M)
unread = re.findall(r"^\| `([^`]+)` \| (\d+) at (\d+) \|", text, re.M)
lines = ['reads("%s", TEACHING, %s, NUMBERS(%s));' % (t, v, ", ".join(re.findall(r"\d+", e))) for t, e, v in readings]
lines += ['refuses("%s", TEACHING, 256, %s, %s);' % line for line in unread]
lines += ['ruled("%s", %s);' % line for line in rules]
tried = " ".join(read("tests/boundary.c").split())
if not readings or not unread or not rules:
    problems.append("the worked readings and refusals of typed queries, or the queries of quick pages, are not found")
problems += ["tests/boundary.c does not try %s" % line for line in lines if " ".join(line.split()) not in tried]
end(problems)
