"""The rows of the stored lines of crates/tree_lines: chosen cases, each line with the answer due."""
from itertools import product

from lines.tree_answers import (CountedChanges, Twin, after, agree, canonical, change, digest, judge, preimage, prove, prune,
                                read, root, same, scan, part_bytes, twins, update_proof, walks, work)
from reference.changes import Op, do_op
from reference.scans import Need, prune as pruned
from reference.sql import parse_batch
from reference.tree import Entry, Inner, Leaf, Stub, attr_digest, digest_of, empty_tree
from reference.values import EVERYTHING, NULL, Interval, bool_value, int_value, key_of, text_value

CREATE = "CREATE TABLE t (id BIGINT, name TEXT, PRIMARY KEY (id))"
ANN, BOB = "INSERT INTO t VALUES (1, 'ann')", "INSERT INTO t VALUES (3, 'bob')"
EMPTY = empty_tree()
STUB = Stub(b"g" * 32)


def rows():
    """All rows, those of each kind of case behind one another."""
    for cases in (whole_trees, longest_keys, part_trees, bytes_of_trees, bytes_of_no_trees,
                  commands, refused_commands, refused_batches, command_proofs, changes, runs,
                  three_levels, runs_on_parts, changes_beside_a_stub, odd_leaves, odd_inner_nodes,
                  moves, proofs, growing_proofs, judged_parts, judged_proofs, needs_of_a_leaf,
                  needs_of_the_empty_tree, needs_of_two_leaves, agreeing_rows, agreeing_trees, twin_rows, twin_trees,
                  twins_of_three_levels, twin_proofs, null_cells, null_commands):
        yield from cases()


def counted_rows():
    """The rows of trees that count their entries, a further kind."""
    for cases in (counted_up_and_down, counted_other_way, one_counted_of_many, hidden_entries):
        changes = CountedChanges()
        for change in cases():
            changes.do(*change)
        yield changes.line()


# -- what the cases are of

def sql(*texts):
    return parse_batch("".join(f"{text};" for text in texts))


def inserts(numbers):
    return [f"INSERT INTO t VALUES ({number}, 'x')" for number in numbers]


def deletes(numbers):
    return [f"DELETE FROM t WHERE id = {number}" for number in numbers]


def table_of(*texts):
    """The lines that make the tables by these commands, and the tables."""
    tables = Twin()
    return tables, [tables.clear(), tables.apply(sql(CREATE, *texts))]


def key(number):
    return key_of(int_value(number))


def put(number):
    """The insertion of the row of this number and 'x'."""
    return Op("insert", key(number), cells=(text_value("x"),))


def drop(number):
    return Op("remove", key(number))


def turn(number):
    """TRUE in the first cell of the row, and in one that no row here has."""
    return Op("replace", key(number), sets=[(0, bool_value(True)), (9, bool_value(True))])


def grown(ops, tree=EMPTY):
    for op in ops:
        tree = do_op(tree, op)
    return tree


def shown(*numbers):
    """The leaf of these rows with their cells forms."""
    return Leaf(Entry(key(number), (text_value("x"),)) for number in numbers)


def closed(*numbers):
    """The leaf of these rows as digests."""
    return Leaf(Entry(key(number), bytes([number % 256]) * 32) for number in numbers)


def inner(separators, children):
    return Inner([key(number) for number in separators], children)


def between(low, high, *columns):
    """The need of the rows from one number to another."""
    return Need(Interval((key(low), True), (key(high), True)), columns)


TO_17 = [put(number) for number in range(1, 18)]
LEFT, RIGHT = digest_of(grown(TO_17[:8])), digest_of(grown(TO_17[8:]))


# -- digests, and what they are of

def whole_trees():
    # no table, no row, and the leaves of one row and of two
    tables = Twin()
    yield from (tables.clear(), tables.rows(), tables.catalog())
    for text in (CREATE, ANN, BOB):
        yield from (tables.apply(sql(text)), root(tables.tree), tables.rows(), tables.catalog())
    # a full leaf, and two leaves below an inner node
    tables, made = table_of(*inserts(range(1, 17)))
    yield from (*made, root(tables.tree), tables.apply(sql(*inserts([17]))), root(tables.tree), tables.rows(), tables.catalog())


def longest_keys():
    # 17 keys of 255 letters, one of which is the separator of two leaves
    tables, keys = Twin(), ("k" * 254 + letter for letter in "abcdefghijklmnopq")
    put_each = (f"INSERT INTO t VALUES ('{key}')" for key in keys)
    yield tables.clear()
    yield tables.apply(sql("CREATE TABLE t (id TEXT, PRIMARY KEY (id))", *put_each))
    yield root(tables.tree)


def part_trees():
    two = grown([Op("insert", key(1), cells=(text_value("ann"),)), Op("insert", key(3), cells=(text_value("bob"),))])
    first, second = two.entries
    parts = [
        # no rows, two rows shown, one of them as its digest, and both
        EMPTY, two, Leaf([Entry(first.key, first.row_digest()), second]), Leaf(Entry(e.key, e.row_digest()) for e in two.entries),
        # two children as digests, one open, and a digest alone, which hashes nothing
        inner([9], [Stub(LEFT), Stub(RIGHT)]), inner([9], [grown(TO_17[:8]), Stub(RIGHT)]), Stub(LEFT),
        # a row of no cells, cells of each kind, and the shortest key
        Leaf([Entry(b"", ()), Entry(b"k", (int_value(-1), bool_value(False), b"h" * 32, text_value("")))]),
    ]
    for part in parts:
        yield from (digest(part), preimage(part))


# -- trees as bytes

def nested(levels):
    """A tree of so many levels."""
    return b"\2\2\0\0" * (levels - 1) + b"\1\0" * levels


def hidden_leaf():
    """A leaf of a row with a hidden cell and of a row's digest."""
    return Leaf([Entry(b"k", (b"i" * 32, bool_value(True), int_value(-1))), Entry(b"m", b"e" * 32)])


def bytes_of_trees():
    for part in (EMPTY, STUB, shown(1, 3), hidden_leaf(), Inner([b"g"], [STUB, hidden_leaf()])):
        yield read(part)
    # the most entries, children, levels, bytes of a key, of a separator and of a text, and cells
    yield read(closed(*range(16)))
    yield read(inner(range(15), [EMPTY] * 16))
    yield from (read(nested(levels)) for levels in (2, 10, 11))
    yield from (read(Leaf([Entry(b"k" * 255, ())])), read(Inner([b"k" * 255], [EMPTY, EMPTY])))
    for cells in (bool_value(True),) * 31, (text_value("x" * 1024),):
        yield read(Leaf([Entry(b"k", cells)]))


def bytes_of_no_trees():
    stub, hidden = part_bytes(STUB), part_bytes(hidden_leaf())
    wrong = [
        # no byte, no such node, row or cell, and a digest a byte too short
        b"", b"\3\0", b"\1\1\0\1k\2\0", b"\1\1\0\1k\1\1\2\3\1", stub[:-1],
        # a value of no kind, an entry too few, and a byte left over
        b"\1\1\0\1k\1\1\1\4", b"\1\3" + hidden[2:], b"\1\0\0",
        # too many entries, cells, bytes of a key and of a separator, and bytes of a text
        b"\1\x11", b"\1\x11" + b"\0\0\1\0" * 17, b"\1\1\0\1k\1\x20", b"\1\1\0\1k\1\x20" + b"\1\3\1" * 32,
        b"\1\1\1\0", b"\1\1\1\0" + b"k" * 256 + b"\1\0", b"\2\2\1\0" + b"k" * 256 + b"\1\0" * 2,
        b"\1\1\0\1k\1\1\1\2\4\1" + b"x" * 1025,
        # no child, one, and 17
        b"\2\0", b"\2\1" + stub, b"\2\x11" + b"\0\0" * 16 + b"\1\0" * 17,
    ]
    for data in [*wrong, nested(12), nested(201)]:
        yield read(data)
    # every other call refuses them too
    for call in (digest, preimage):
        yield call(b"\1\0\0")
    for call in (work, judge):
        yield call(put(1), b"\1\0\0")
    yield from (after([put(1)], b"\1\0\0"), scan(between(1, 2), b"\1\0\0"), canonical([between(1, 2)], b"\1\0\0"))


# -- commands on tables

EVE, EVE_AT_TWO = (f"UPDATE t SET name = 'eve' WHERE id = {number}" for number in (1, 2))


def commands():
    # each by itself
    tables = Twin()
    yield from (tables.clear(), tables.catalog())
    for text in (CREATE, ANN, EVE, *deletes([1]), "DROP TABLE t"):
        yield from (tables.step(sql(text)), tables.catalog(), tables.rows())
    # in batches: a value changes, and one of two tables goes
    tables = Twin()
    yield tables.clear()
    for text in (CREATE, ANN, EVE, "CREATE TABLE u (id BIGINT, PRIMARY KEY (id))", "DROP TABLE t"):
        yield from (tables.apply(sql(text)), tables.catalog())
    # small leaves borrow and merge
    tables, made = table_of(*inserts(range(1, 18)))
    yield from (*made, *(tables.apply(sql(text)) for text in deletes([1, 2])))


def refused_commands():
    tables = Twin()
    yield from (tables.clear(), tables.refusal(sql(CREATE, ANN, EVE, *deletes([1]), "DROP TABLE t")))
    # by what the catalog has, but not by rows
    yield from (tables.apply(sql(CREATE, ANN)), tables.refusal(sql(CREATE, ANN, EVE_AT_TWO, *deletes([2]), "DROP TABLE t")))
    yield tables.refusal(sql(
        "INSERT INTO t VALUES (1)", "INSERT INTO t VALUES (1, 2)", "UPDATE t SET x = 'e' WHERE id = 1",
        "UPDATE t SET name = 'e' WHERE name = 'ann'", "UPDATE t SET id = 2 WHERE id = 1", "UPDATE t SET name = 1 WHERE id = 1",
        "DELETE FROM t WHERE x = 1", "DELETE FROM t WHERE name = 'ann'", "DELETE FROM t WHERE id = 'a'",
        "CREATE TABLE u (id BOOLEAN, PRIMARY KEY (id))"))
    # by rows, in the order of the commands, those after the refused ones applied
    yield from (tables.step(sql(ANN, EVE_AT_TWO, *deletes([2]), BOB, "DROP TABLE u", EVE)), tables.rows(), tables.catalog())
    # a key that is too long, and a table too many
    yield tables.apply(sql("CREATE TABLE k (id TEXT, PRIMARY KEY (id))"))
    yield tables.refusal(sql(*(f"INSERT INTO k VALUES ('{'k' * length}')" for length in (255, 256))))
    yield tables.apply(sql(*(f"CREATE TABLE a{number} (id TEXT, PRIMARY KEY (id))" for number in range(62))))
    yield tables.refusal(sql("CREATE TABLE b (id TEXT, PRIMARY KEY (id))", CREATE))


def refused_batches():
    tables, made = table_of(ANN)
    yield from made
    for batch in ((BOB, "DROP TABLE u"), ("DROP TABLE t", CREATE, CREATE), (ANN,), (EVE_AT_TWO,), deletes([2])):
        yield from (tables.apply(sql(*batch)), root(tables.tree))


def command_proofs():
    # the path of an INSERT, the hidden cells of an UPDATE, a DELETE, and keys that are not there
    tables, made = table_of(ANN)
    yield from made
    for text in (BOB, ANN, EVE, EVE_AT_TWO, *deletes([1, 2]), CREATE, "DROP TABLE t", "DROP TABLE u",
                 "DELETE FROM u WHERE id = 1"):
        yield tables.proof(sql(text))
    # a neighbour is open where a DELETE looks at it
    tables, made = table_of(*inserts(range(1, 18)))
    yield from (*made, *(tables.proof(sql(text)) for text in (*inserts([20]), *deletes([1, 12, 20]))))


# -- changes of whole trees

def changes():
    # each on the tree of the rows 1 to 17, which stays
    tables, made = table_of(*inserts(range(1, 18)))
    yield from made
    yield from (change(tables.tree, put(number)) for number in (18, 300, 0, 1, 8, 9, 17))
    yield from (change(tables.tree, drop(number)) for number in (1, 3, 9, 12, 17, 0, 300))
    yield from (change(tables.tree, turn(number)) for number in (9, 12, 0, 18))
    yield root(tables.tree)
    # on the empty tree
    tables, made = table_of()
    yield from (*made, *(change(tables.tree, op) for op in (put(1), drop(1), turn(1))))


def runs():
    # the rows 1 to 17 as they fall, and with one far above
    for numbers in (range(17, 0, -1), [*range(1, 18), 300]):
        yield from table_of(*inserts(numbers))[1]
    # a small leaf takes of its left neighbour, or joins its right one or its left one
    for numbers, gone in ((range(18), [9, 10]), (range(1, 18), [1, 2]), (range(1, 18), [17, 16])):
        tables, made = table_of(*inserts(numbers))
        yield from (*made, tables.apply(sql(*deletes(gone[:1]))), change(tables.tree, drop(gone[1])))


MIXED = [89 * step % 997 for step in range(1, 257)]


def three_levels():
    # rows as they fall, and in steps of 89
    for numbers in (range(200, 0, -1), MIXED):
        tables, made = table_of(*inserts(numbers))
        yield from (*made, root(tables.tree))
    # as they rise, with the proofs of some needs
    tables, made = table_of(*inserts(range(1, 301)))
    yield from (*made, *(prune(tables.tree, needs) for needs in (
        [between(128, 129, 0)], [between(70, 70)], [between(0, 0, 0), between(300, 400)], [Need(EVERYTHING, [])])))
    yield from asked(tables.tree, [between(70, 70, 0)])
    # the odd ones go, and then the others from the last one on
    yield tables.apply(sql(*deletes(range(1, 301, 2))))
    yield from (change(tables.tree, op) for op in (drop(2), put(1), turn(150), drop(1)))
    yield from (tables.apply(sql(*deletes(range(300, 0, -2)))), root(tables.tree))
    # all go as they came, and from the last one on
    for gone in (range(1, 301), range(300, 0, -1)):
        tables, made = table_of(*inserts(range(1, 301)))
        yield from (*made, tables.apply(sql(*deletes(gone))), root(tables.tree))


# -- changes of part trees

def runs_on_parts():
    """The same runs on the part of no rows."""
    ends = [
        [], [put(300)], [drop(1)], [drop(3)], [put(0), drop(9), drop(10)], [drop(1), drop(2)], [drop(17), drop(16)], [turn(9)],
        *([put(number)] for number in (1, 8, 9, 17)), [drop(0)], [drop(300)], [turn(0)], [turn(18)],
    ]
    for end in ends:
        yield after(TO_17 + end, EMPTY)
    yield after(TO_17[::-1], EMPTY)
    # three levels grow: as the rows rise, as they fall, in steps of 89, and with the odd ones gone again
    rising = [*map(put, range(1, 301))]
    for ops in (rising, [*map(put, range(200, 0, -1))], [*map(put, MIXED)], [*rising, *map(drop, range(1, 301, 2))]):
        yield after(ops, EMPTY)
    # three levels shrink to a leaf of no rows: the odd ones go, and then the others from the last one on
    yield after([*map(put, range(1, 146)), *map(drop, range(1, 146, 2)), *map(drop, range(144, 0, -2))], EMPTY)


def changes_beside_a_stub():
    """On the tree of the rows 1 to 17 with its left leaf as a digest."""
    part = inner([9], [Stub(LEFT), shown(*range(9, 18))])
    for ops in ([], [put(18)], [put(300)], [put(0)], [put(8)], [put(9)], [put(17)], [drop(12)], [drop(3)], [drop(12), drop(12)],
                [drop(12), drop(13)], [turn(12)], [turn(3)], [turn(18)]):
        yield after(ops, part)


def odd_leaves():
    # a row comes before the first greater key: keys in order, out of order, and twice
    for numbers, number in (((3, 5), 4), ((5, 3), 4), ((5, 3), 9), ((5, 5), 4), ((5, 3), 3)):
        yield work(put(number), closed(*numbers))
    # the first row of a key is the one that goes or changes
    for op in (drop(5), turn(5)):
        yield from (work(op, shown(5, 3, 5)), work(op, closed(5, 5)))
    # no rows, and a row of no cells
    yield from (work(op, EMPTY) for op in (put(1), drop(1), turn(1)))
    yield work(turn(1), Leaf([Entry(key(1), ())]))


def odd_inner_nodes():
    # a search goes to the first child with a separator above: in order, out of order, and twice
    for separators, number in (((5, 9), 7), ((5, 9), 5), ((9, 5), 7), ((9, 5), 20), ((5, 5), 5)):
        yield work(put(number), inner(separators, [EMPTY] * 3))
    # a neighbour that is an inner node or a digest, and a leaf in the place of an inner node
    small = closed(1, 2)
    for other in (inner([5], [STUB, STUB]), STUB):
        yield from (work(drop(1), inner([4], [small, other])), work(drop(5), inner([4], [other, closed(5, 6)])))
    yield work(drop(1), inner([9], [inner([4], [small, closed(4, 5)]), closed(9)]))
    # eleven levels, and twelve, which can't be read
    for levels in (11, 12):
        yield from (work(op, nested(levels)) for op in (put(1), drop(1)))


def bare(*numbers):
    """The leaf of these rows, which have no cells."""
    return Leaf(Entry(key(number), ()) for number in numbers)


def beside(count):
    """Children that a change doesn't look at: a digest, and leaves of one row."""
    return [STUB, *(bare(number) for number in range(200, 199 + count))]


def moves():
    # a leaf splits, and an inner node of 16 children, of which the first or the last one splits
    yield from (work(put(number), bare(*range(1, 17))) for number in (0, 20))
    yield work(put(5), inner(range(20, 35), [bare(*range(5), *range(6, 17)), *beside(15)]))
    yield work(put(60), inner(range(20, 35), [*beside(15), bare(*range(40, 56))]))
    # a leaf takes of its right neighbour, of its left one, and joins each; the root gives way
    for left, right, number in ((8, 9, 1), (9, 8, 40), (8, 8, 1), (8, 8, 40)):
        yield work(drop(number), inner([30], [bare(*range(left)), bare(*range(40, 40 + right))]))
    # an inner node does the same, and then the root
    for other, part in product((9, 8), (first_becomes_small, second_becomes_small)):
        yield part(other)


def path_of_eight():
    """A node of 8 children, the first two of which are leaves of 8 rows."""
    return inner(range(110, 117), [bare(*range(100, 108)), bare(*range(110, 118)), *beside(6)])


def first_becomes_small(other):
    return work(drop(101), inner([150], [path_of_eight(), inner(range(160, 159 + other), beside(other))]))


def second_becomes_small(other):
    return work(drop(101), inner([90], [inner(range(60, 59 + other), beside(other)), path_of_eight()]))


# -- proofs of changes

def proofs():
    # what a change looks at is open: of 17 rows, and of two
    for count, ops in ((17, [*map(put, (0, 9, 20)), *map(turn, (0, 1, 17, 20)), *map(drop, (0, 1, 8, 9, 17, 20))]),
                       (2, [turn(2), turn(3)])):
        tables, made = table_of(*inserts(range(1, count + 1)))
        yield from made
        for op in ops:
            yield from (prove(tables.tree, op), judge(op, update_proof(tables.tree, op)))


def growing_proofs():
    # a proof grows by a row
    tables, made = table_of()
    yield from made
    for number in range(1, 18):
        yield from (prove(tables.tree, put(number)), tables.apply(sql(*inserts([number]))))
    for rows_there in range(17):
        tree = grown(TO_17[:rows_there])
        yield judge(put(rows_there + 1), update_proof(tree, put(rows_there + 1)))


def judged_parts():
    """Whether a leaf of the rows 12 and 13, or a node with one of the rows 2 and 3 before it, is a proof."""
    def piece(kind, number):
        return {"stub": Stub(LEFT), "closed": closed(number, number + 1), "shown": shown(number, number + 1)}[kind]

    for left, right, op in (
            (None, "closed", put(20)), (None, "shown", put(20)), (None, "stub", put(20)), ("stub", "closed", put(20)),
            ("stub", "closed", put(1)), ("closed", "closed", put(20)), ("shown", "stub", put(20)),
            (None, "closed", turn(20)), (None, "closed", turn(12)), (None, "shown", turn(12)), ("shown", "stub", turn(12)),
            (None, "closed", drop(12)), (None, "shown", drop(12)), ("stub", "closed", drop(20)), ("stub", "closed", drop(12)),
            ("closed", "closed", drop(12)), ("closed", "closed", drop(20)), ("shown", "stub", drop(12))):
        yield judge(op, piece(right, 12) if left is None else inner([9], [piece(left, 2), piece(right, 12)]))


def judged_proofs():
    # the proof of one key and change, judged as that of others whose proofs it isn't
    tree = grown(TO_17)
    for op, others in (
            (put(20), [put(1), turn(17)]), (turn(17), [turn(16), turn(1), put(20), drop(17)]), (drop(1), [drop(0), turn(1)])):
        for other in others:
            yield judge(other, update_proof(tree, op))


# -- needs

def needs_of_a_leaf():
    # row 1 as a digest and row 3 with its value: one is asked for, its value isn't, and both are asked for
    leaf = Leaf([Entry(key(1), digest_of(EMPTY)), Entry(key(3), (bool_value(True),))])
    for need in (between(2, 9, 0), between(2, 9), between(1, 9, 0), between(1, 9), between(2, 9, 1), between(2, 9, 0, 1)):
        yield from (canonical([need], leaf), scan(need, leaf))
    # a digest is missing, unless no key could be asked for
    for need in (between(8, 9), between(9, 8)):
        yield from (scan(need, STUB), canonical([need], STUB))
    # bounds of each kind, on keys in order and out of order
    for low, high in product([None, (key(3), True), (key(3), False)], [None, (key(5), True), (key(5), False)]):
        need = Need(Interval(low, high), [0])
        yield from (scan(need, shown(2, 3, 4, 5, 6)), scan(need, shown(5, 3, 5)))
    # no needs at all
    yield from (canonical([], STUB), canonical([], EMPTY))


def needs_of_the_empty_tree():
    tables, made = table_of()
    yield from made
    for low in (8, 9, 10):
        yield from asked(tables.tree, [between(low, 9, 0)])


def asked(tree, needs):
    """The proof of the needs, judged and scanned."""
    part = pruned(tree, needs)
    yield from (prune(tree, needs), canonical(needs, part))
    yield from (scan(need, part) for need in needs)


def needs_of_two_leaves():
    tables, made = table_of(*inserts(range(1, 18)))
    yield from made
    some = [[between(9, 9, 0)], [between(8, 9, 0)], [between(20, 30, 0)], [between(3, 4, 0), between(4, 5)],
            [Need(Interval((key(8), False), (key(9), False)), [0])], [between(5, 5), between(12, 12, 0)], [between(3, 2, 0)], [],
            [Need(EVERYTHING, [0])]]
    for needs in some:
        yield from asked(tables.tree, needs)
    # less or more is open than the need asks for
    part = pruned(tables.tree, [between(9, 9, 0)])
    for need in (between(9, 10, 0), between(9, 9), between(1, 9, 0), between(9, 9, 1)):
        yield from (canonical([need], part), scan(need, part))
    opened = Inner(part.separators, [closed(*range(1, 9)), part.slots[1]])
    yield canonical([between(9, 9, 0)], opened)


# -- parts beside trees

def agreeing_rows():
    # rows whose cells are shown, in part hidden, or a digest
    for number, truth in ((7, True), (-1, False)):
        values = int_value(number), bool_value(truth)
        tables = Twin()
        yield from (tables.clear(), tables.apply(sql("CREATE TABLE t (id TEXT, n BIGINT, b BOOLEAN, PRIMARY KEY (id))",
                                                     f"INSERT INTO t VALUES ('k', {number}, {str(truth).upper()})")))
        whole, = tables.tree.entries
        for part in (values, (attr_digest(0, values[0]), values[1]), (values[0], attr_digest(1, values[1])), whole.row_digest(),
                     (attr_digest(1, values[0]), values[1]), values[::-1], values[:1]):
            yield agree(tables.tree, Leaf([Entry(b"k", part)]))


def agreeing_trees():
    # the empty tree, as a digest and open
    tables, made = table_of()
    yield from (*made, agree(tables.tree, Stub(digest_of(EMPTY))), agree(tables.tree, EMPTY), agree(tables.tree, STUB))
    # two leaves: both, one or none open, and other rows, children and separators
    tables, made = table_of(*inserts(range(1, 18)))
    yield from made
    left, right = tables.tree.slots
    for part in (tables.tree, Stub(digest_of(tables.tree)), inner([9], [Stub(LEFT), right]),
                 inner([9], [Stub(LEFT), Stub(RIGHT)]),
                 inner([9], [Stub(RIGHT), Stub(LEFT)]), inner([8], [left, Stub(RIGHT)]), left):
        yield agree(tables.tree, part)


# -- parts beside parts

def both(first, second):
    yield from (same(first, second), walks(first, second))


def twin_rows():
    # a row whose cells are shown, in part hidden, or a digest, beside one of its digest and one of another
    values, others = (int_value(7), bool_value(True)), (int_value(7), bool_value(False))
    leaves = [Leaf([Entry(b"k", part)]) for part in (
        values, (attr_digest(0, values[0]), values[1]), (values[0], attr_digest(1, values[1])),
        Entry(b"k", values).row_digest(), others, values[:1], values[::-1])]
    for first, second in product(leaves[:4], leaves):
        yield from both(first, second)
    # values of each kind, another key, a row more, and no rows
    for cell, other in (int_value(1), int_value(-1)), (text_value("a"), text_value("ab")), (text_value(""), int_value(0)):
        for second in cell, other:
            yield from both(Leaf([Entry(b"k", (cell,))]), Leaf([Entry(b"k", (second,))]))
    for other in (shown(1, 3), shown(1, 4), shown(1, 3, 5), shown(1), EMPTY, STUB):
        yield from both(shown(1, 3), other)


def twin_trees():
    # two leaves, of which both, one or none are open, beside one another and beside others
    whole = grown(TO_17)
    left, right = whole.slots
    parts = [whole, inner([9], [Stub(LEFT), right]), inner([9], [left, Stub(RIGHT)]), inner([9], [Stub(LEFT), Stub(RIGHT)]),
             Stub(digest_of(whole))]
    others = [inner([8], [left, right]), inner([9], [right, left]), inner([9], [Stub(LEFT)] * 2), left, Stub(LEFT), EMPTY,
              inner([9, 12], [left, right, right])]
    for first, second in [*product(parts, parts), *product(parts[:2], others)]:
        yield from both(first, second)
    # no part trees
    for first, second in ((b"\1\0\0", STUB), (STUB, b"\1\0\0")):
        yield from both(first, second)


def twins_of_three_levels():
    # of 150 rows: the proofs of needs at both ends and in the middle, which have some open nodes in common
    tree = grown(map(put, range(1, 151)))
    parts = [pruned(tree, [need]) for need in (
        between(1, 1, 0), between(1, 1), between(150, 150, 0), between(70, 80), between(75, 90, 0), between(75, 90, 0))]
    for first, second in zip(parts, parts[1:]):
        yield from both(first, second)


def twin_proofs():
    # the proof of a need beside itself, beside those of needs that want more, less or something else, and beside a stub
    tree = grown(TO_17)
    needs = [between(9, 9, 0)], [between(8, 9, 0)], [between(9, 9)], [between(3, 3, 0)], [between(9, 9, 0), between(3, 3)], []
    proof = pruned(tree, needs[0])
    yield twins(needs[0], proof, proof)
    for some in needs[1:]:
        yield from (twins(needs[0], proof, pruned(tree, some)), twins(some, pruned(tree, some), pruned(tree, some)))
    yield from (twins(needs[0], proof, EMPTY), twins(needs[0], proof, b""), twins(needs[0], proof, part_bytes(proof) + b"\0"))


# -- NULL

def null_cells():
    # NULL shown, hidden, beside values of each kind, and in a row's digest
    whole = Leaf([Entry(key(1), (NULL, text_value("a"))), Entry(key(2), (int_value(0), NULL)), Entry(key(3), (NULL, NULL))])
    first = whole.entries[0]
    parts = [whole, Leaf([Entry(key(1), (attr_digest(0, NULL), first.part[1])), *whole.entries[1:]]),
             Leaf([Entry(key(1), first.row_digest()), *whole.entries[1:]])]
    for part in parts:
        yield from (read(part), digest(part), preimage(part))
    # a byte left over behind it, and none where a value is due
    yield from (read(b"\1\1\0\1k\1\1\1\0\0"), read(b"\1\1\0\1k\1\2\1\0\1"))
    # a value becomes NULL, NULL a value, and NULL stays; a row with NULL comes and goes
    null, seven = Op("replace", key(2), sets=[(0, NULL)]), Op("replace", key(1), sets=[(0, int_value(7))])
    for op in null, seven, Op("replace", key(3), sets=[(1, NULL), (0, NULL)]), Op("insert", key(4), cells=(NULL, NULL)), drop(3):
        yield from (work(op, whole), judge(op, whole), judge(op, update_proof(whole, op)), after([op, op], whole))
    # what needs see, by one column, by both and by none
    for need in (between(1, 3, 0), between(1, 3, 1), between(2, 3, 0, 1), between(1, 3)):
        yield from (scan(need, whole), canonical([need], whole), scan(need, parts[1]), canonical([need], pruned(whole, [need])))
    # beside each other, and beside zero, FALSE, no text and a digest
    for first, second in product(parts, parts):
        yield from both(first, second)
    for cell in int_value(0), bool_value(False), text_value(""), bytes(32), attr_digest(0, NULL), attr_digest(1, NULL):
        yield from both(Leaf([Entry(b"k", (NULL,))]), Leaf([Entry(b"k", (cell,))]))


def null_commands():
    # a table with a column that may be NULL, and a plain one: each command by itself, and what refuses it
    tables = Twin()
    yield from (tables.clear(), tables.apply(sql("CREATE TABLE t (id BIGINT, name TEXT NULL, n BIGINT, PRIMARY KEY (id))",
                                                 "INSERT INTO t VALUES (1, NULL, 5)", "INSERT INTO t VALUES (3, 'bob', 6)")))
    yield from (root(tables.tree), tables.rows(), tables.catalog())
    refused = sql(
        "INSERT INTO t VALUES (NULL, 'z', 1)", "INSERT INTO t VALUES (NULL, 7, 1)", "INSERT INTO t VALUES (2, NULL, NULL)",
        "INSERT INTO t VALUES (NULL, NULL)", "INSERT INTO t VALUES (3, NULL, NULL)", "UPDATE t SET n = NULL WHERE id = 1",
        "UPDATE t SET n = NULL WHERE id = 2", "UPDATE t SET name = 7 WHERE id = NULL", "UPDATE t SET name = 'z' WHERE id = NULL",
        "UPDATE t SET name = NULL WHERE name = NULL", "UPDATE t SET name = NULL, name = NULL WHERE id = 1",
        "UPDATE t SET id = NULL WHERE id = 1", "UPDATE t SET x = NULL WHERE id = 1", "DELETE FROM t WHERE id = NULL",
        "DELETE FROM t WHERE name = NULL", "DELETE FROM u WHERE id = NULL",
        "CREATE TABLE u (id BIGINT NULL, PRIMARY KEY (id))", "CREATE TABLE t (id BIGINT NULL, PRIMARY KEY (id))",
        "CREATE TABLE u (id BIGINT, a TEXT NULL, PRIMARY KEY (a))", "CREATE TABLE u (a BIGINT NULL, a TEXT, PRIMARY KEY (id))")
    yield from (tables.refusal(refused), tables.step(refused))
    # by rows alone, behind what the catalog says
    taken = sql("INSERT INTO t VALUES (1, NULL, 7)", "UPDATE t SET name = NULL WHERE id = 9", "UPDATE t SET name = NULL, n = 7 WHERE id = 3",
                "UPDATE t SET name = 'ann' WHERE id = 1", "INSERT INTO t VALUES (2, NULL, 7)", "DELETE FROM t WHERE id = 3",
                "CREATE TABLE u (id BIGINT, a BOOLEAN NULL, PRIMARY KEY (id))")
    yield from (tables.proof([command]) for command in taken[:6])
    yield from (tables.refusal(taken), tables.step(taken), tables.rows(), tables.catalog(), root(tables.tree))
    yield agree(tables.tree, Leaf(Entry(e.key, (attr_digest(0, e.part[0]), e.part[1])) for e in tables.tree.entries))
    yield from asked(tables.tree, [between(1, 2, 0)])


# -- trees that count their entries

def counted_up_and_down():
    # more than two levels hold, which is 16 times 16 entries at most; each comes once more, and goes
    yield from (("tput", number, 0) for number in range(300))
    yield from (("tput", number, 1) for number in (0, 150, 299))
    yield from (("remove", number) for number in range(300))
    yield from (("remove", 0), ("find", 0), ("tset", 0, 1))


def counted_other_way():
    # from the greatest to the least, and out of the middle first
    yield from (("tput", number, number % 256) for number in reversed(range(300)))
    yield from (("remove", (number * 7 + 150) % 300) for number in range(300))


def one_counted_of_many():
    yield from (("tput", number, 0) for number in range(200))
    yield from (("find", 77), ("tset", 77, 5), ("find", 77), ("find", 76), ("tset", 200, 5), ("find", 200))


def hidden_entries():
    # nine entries, and eight before them that are a stub: nothing is found there, and nothing comes from there
    yield from (("tput", number, 0) for number in range(100, 109))
    yield ("hide", 100, 8)
    for kind in "remove", "find", "tset", "tput":
        yield (kind, 99, 1)
    yield from (("remove", 104), ("remove", 103), ("remove", 104), ("find", 104), ("find", 103), ("tput", 103, 1), ("tput", 104, 2))
    yield from (("find", 104), ("remove", 103), ("remove", 105))
    yield from (("tput", number, 3) for number in range(110, 120))
    yield from (("remove", number) for number in range(110, 120))
