"""The rows of the stored lines of crates/check_lines: chosen replies, each line with the answer due."""
from lines.check_answers import NO_LINE, Reader
from reference.binding import bind
from reference.catalog import Catalog, CatalogTable, Record
from reference.formats import REPLY_LIMIT, read_reply, write_reply
from reference.generators.cuts import cut_variants
from reference.generators.mutate import at_path, marked_catalogs, put_at, resign, rooted, shallow, spots
from reference.generators.worlds import SECRET, history
from reference.lms import SecretKey
from reference.plan import Plan
from reference.sql import parse_batch, parse_query
from reference.tree import Entry, Inner, Leaf, Stub, cell_digest, digest_of, row_digest
from reference.values import NULL, bool_value, int_value, key_of, text_value

EACH = "1", "7", "4096"
RANGE = "SELECT name FROM t WHERE id > 9 AND id <= 14"
JOIN = "SELECT t.name, u.n FROM t JOIN u ON t.name = u.k WHERE t.id < 12"


def rows():
    """All rows, those of each kind of case behind one another."""
    for cases in (no_lines, honest_replies, honest_joins, queries_that_do_not_bind, other_keys, longest_values, wide_rows,
                  records_and_signatures, catalogs, counts_of_trees, roots, shapes, missing_parts, surplus_parts, levels,
                  fronts, longer_replies, no_replies, first_faults, hostile_joins, hostile_replies_of_no_trees, null_replies,
                  words_and_marks, hostile_nulls, limited_replies, hostile_limits):
        yield from cases()


# -- what the cases are of

def sql(*texts):
    return parse_batch("".join(f"{text};" for text in texts))


def store_of(*batches, secret=SECRET):
    return history([sql(*texts) for texts in batches], secret)[1]


NAMES = ["ann", "bob", "eve", "", "it''s", "\u00e9t\u00e9"]
STORE = store_of(
    ["CREATE TABLE t (id BIGINT, name TEXT, sold BOOLEAN, PRIMARY KEY (id))",
     "CREATE TABLE u (n BIGINT, k TEXT, PRIMARY KEY (k))", "CREATE TABLE e (id BIGINT, name TEXT, PRIMARY KEY (id))"],
    [f"INSERT INTO t VALUES ({number}, '{NAMES[number % 6]}', {'FALSE' if number % 3 else 'TRUE'})" for number in range(150)],
    [f"INSERT INTO u VALUES ({number}, '{name}')" for number, name in enumerate(["ann", "bob", *"cdfghijklmnopqrstuvwxyz"])])


def key(number):
    return key_of(int_value(number))


class Honest:
    """An honest reply to a query, and others that are made of it."""

    def __init__(self, text, store=STORE):
        self.text, self.store = text, store
        self.data = store.answer(parse_query(text))
        self.reply = read_reply(self.data)
        self.trees, self.places = self.reply.trees, []
        bound = bind(self.reply.catalog, parse_query(text))
        if bound.fault is None:
            self.places = Plan(bound).places

    @property
    def tree(self):
        return self.trees[0]

    def begun(self):
        """A reader that has the key, the query and the reply, and the lines for it."""
        reader = Reader()
        return reader, [reader.key(self.store.key), reader.ask(self.text), reader.reply(self.data)]

    # with other parts

    def rewritten(self, **parts):
        reply = self.reply
        return write_reply(parts.get("rec", reply.rec), parts.get("signature", reply.signature),
                           parts.get("catalog", reply.catalog), parts.get("trees", reply.trees))

    def with_record(self, **changes):
        rec = self.reply.rec
        return self.rewritten(rec=Record(**{"ident": rec.ident, "version": rec.version, "catalog": rec.catalog,
                                            "magic": rec.magic, **changes}))

    def with_table(self, name, **changes):
        """A catalog with one table changed."""
        table = self.reply.catalog.by_name[name]
        fields = {"schema": table.schema, "rows": table.rows, "root": table.root, **changes}
        return Catalog({**self.reply.catalog.by_name, name: CatalogTable(**fields)})

    def signed(self, *trees):
        """Other trees under a valid signature, with their roots in the catalog."""
        return resign(SECRET, self.reply, rooted(self.reply.catalog, self.places, trees), trees)

    # a part of the first tree

    def node(self, path):
        """The node of the whole tree, with its children and rows as digests."""
        return self.node_of(0, path)

    def node_of(self, number, path):
        """The same of the tree of this number."""
        return shallow(at_path(self.store.kept[-1].trees.tree(self.places[number]), path))

    def paths(self, kind):
        return [path for path, node in spots(self.tree) if isinstance(node, kind)]

    def leaf_with(self, number):
        """The path of the leaf that shows the row of this number, and the row's place there."""
        for path in self.paths(Leaf):
            for place, entry in enumerate(at_path(self.tree, path).entries):
                if entry.key == key(number):
                    return path, place
        raise AssertionError(number)

    def whole_row(self, number):
        """All cells of a row."""
        path, place = self.leaf_with(number)
        return tuple(at_path(self.store.kept[-1].trees.tree(self.places[0]), path).entries[place].part)

    # with another first tree

    def opened(self, path):
        """The tree with a node in the place of its stub."""
        return put_at(self.tree, path, self.node(path))

    def closed(self, path):
        """The tree with a stub in the place of a node."""
        return put_at(self.tree, path, Stub(digest_of(at_path(self.tree, path))))

    def with_part(self, number, change, tree=None):
        """The tree with a changed part in the row of this number."""
        path, place = self.leaf_with(number)
        entries = list(at_path(self.tree, path).entries)
        entries[place] = Entry(entries[place].key, change(entries[place].part))
        return put_at(tree or self.tree, path, Leaf(entries))


def shown(number, value):
    """A row part with this value in the cell of that number."""
    return lambda part: part[:number] + (value,) + part[number + 1:]


def hidden(number):
    return lambda part: part[:number] + (cell_digest(number, part[number]),) + part[number + 1:]


def checked(honest, *others, least=0):
    """The checks of replies near an honest one, each in pieces of several sizes."""
    reader, lines = honest.begun()
    yield from lines
    for other in others:
        yield from reader.hostile(other, *EACH, least=least)


# -- lines that ask for nothing

def no_lines():
    reader = Reader()
    for text in ("check 0 1", "fronts 0 1", "file 0 1 reply", "", "checks", "key", "key 00", "query 00", "query ff", "reply 0",
                 "splice 0"):
        yield text, NO_LINE
    yield reader.key(SECRET.public())
    yield "check 0 1", NO_LINE
    yield reader.ask(RANGE)
    # no bytes are no reply
    yield from (reader.check("1"), reader.fronts("1"), reader.reply(b""), reader.check("1"))
    for text in ("held", "held 0", "held x", "check 1", "check x 1", "check 0 x", "check 0 0+0", "check -1 1", "file 0 1 gone", "file 0 x reply"):
        yield text, NO_LINE


# -- honest replies

def honest_replies():
    # of rows in an interval, of one key, of none that is there, of all, of no rows; with cells hidden and none
    texts = [RANGE, "SELECT sold, name FROM t WHERE id = 12", "SELECT id FROM t WHERE id = 1000", "SELECT * FROM t WHERE id < 0",
             "SELECT name FROM t WHERE sold = TRUE AND id < 20", "SELECT id FROM t WHERE NOT name = 'ann' OR id > 140",
             "SELECT n FROM u WHERE k >= 'x'", "SELECT * FROM e", "SELECT name FROM t WHERE id > 5 AND id < 2"]
    for text in texts:
        reader, lines = Honest(text).begun()
        yield from lines
        yield from reader.checks(*EACH, "3+1+500", "0+2+0")
        yield from (reader.held(sizes) for sizes in ("61", "0+500+1"))
    # the version that a client takes at the least
    yield from (line_of for least in (2, 3, 4, 2 ** 64 - 1) for line_of in reader.checks("1", least=least))
    reader, lines = Honest("SELECT * FROM t").begun()
    yield from (*lines, reader.check("1"))


def honest_joins():
    for text in (JOIN, "SELECT a.id, b.name FROM t AS a JOIN t AS b ON a.id = b.id WHERE a.id < 4"):
        reader, lines = Honest(text).begun()
        yield from lines
        yield from (*reader.checks(*EACH), reader.held("61+500"))


def queries_that_do_not_bind():
    for text in ("SELECT nope FROM t", "SELECT * FROM nowhere", "SELECT * FROM t WHERE id = 'x'",
                 "SELECT id FROM t JOIN u ON t.name = u.k WHERE q.id = 1", "SELECT t.id FROM t JOIN u ON t.id = u.n"):
        reader, lines = Honest(text).begun()
        yield from lines
        yield from reader.checks(*EACH)


def other_keys():
    # signatures of other lengths
    for ots in (1, 3):
        secret = SecretKey.make(bytes(range(16)), bytes(range(32)), ots, 5)
        table = ["CREATE TABLE t (id BIGINT, name TEXT, PRIMARY KEY (id))", "INSERT INTO t VALUES (1, 'ann')"]
        store = store_of(table, secret=secret)
        reader, lines = Honest("SELECT * FROM t", store).begun()
        yield from (*lines, reader.check("1"), reader.key(SECRET.public()), reader.check("1"))


def longest_values():
    # keys of 255 bytes, which are separators too, and texts of 1,024
    store = store_of(["CREATE TABLE k (k TEXT, a TEXT, PRIMARY KEY (k))"],
                     [f"INSERT INTO k VALUES ('{'k' * 254}{letter}', '{'x' * 1024}')" for letter in "abcdefghijklmnopqrs"])
    reader, lines = Honest(f"SELECT * FROM k WHERE k > '{'k' * 254}p'", store).begun()
    yield from lines
    yield from reader.checks(*EACH)


def wide_rows():
    # 32 columns, of which the key is one in the middle
    columns = ", ".join(f"c{number} {'BIGINT' if number % 2 else 'TEXT'}" for number in range(32))
    values = ", ".join(str(number) if number % 2 else f"'{number}'" for number in range(32))
    store = store_of([f"CREATE TABLE w ({columns}, PRIMARY KEY (c17))", f"INSERT INTO w VALUES ({values})"])
    for text in ("SELECT * FROM w", "SELECT c31, c0, c16, c18 FROM w"):
        reader, lines = Honest(text, store).begun()
        yield from lines
        yield from reader.checks(*EACH)


# -- replies that are refused for one reason

def records_and_signatures():
    honest = Honest(RANGE)
    signature = honest.reply.signature
    yield from checked(
        honest,
        # the identifier of another key, other versions, whose leaf isn't the signature's, another digest
        honest.with_record(ident=bytes(16)), honest.with_record(version=4), honest.with_record(version=2 ** 64 - 1),
        honest.with_record(catalog=bytes(32)),
        # a signature of another leaf, one with a byte turned, and of other lengths
        *(honest.rewritten(signature=turned(signature, at)) for at in (3, 4, 40, len(signature) - 1)),
        *(honest.rewritten(signature=signature[:size]) for size in (0, 3, 4, len(signature) - 1)),
        *(honest.rewritten(signature=signature + bytes(size - len(signature))) for size in (len(signature) + 1, 65_536, 65_537)))
    # an older version than the client takes
    yield from checked(honest, honest.data, least=4)


def turned(data, at):
    return data[:at] + bytes([data[at] ^ 1]) + data[at + 1:]


def catalogs():
    honest = Honest(RANGE)
    without = Catalog({name: table for name, table in honest.reply.catalog.by_name.items() if name != "e"})
    yield from checked(honest, honest.rewritten(catalog=honest.with_table("t", rows=151)), honest.rewritten(catalog=without),
                       honest.rewritten(catalog=Catalog()))


def counts_of_trees():
    honest = Honest(RANGE)
    yield from checked(honest, *(honest.rewritten(trees=trees) for trees in (
        [], [honest.tree, Stub(bytes(32))], [honest.tree] * 2, [honest.tree] + [Stub(bytes(32))] * 254)))


def roots():
    honest = Honest(RANGE)
    # a value changed, a row's key, a separator, a stub, another tree, and another root that is signed
    separators = list(honest.tree.separators)
    yield from checked(
        honest, honest.rewritten(trees=[honest.with_part(12, shown(0, text_value("eva")))]),
        honest.rewritten(trees=[Inner([separators[0][:-1] + b"\0", *separators[1:]], honest.tree.slots)]),
        honest.rewritten(trees=[put_at(honest.tree, honest.paths(Stub)[-1], Stub(bytes(32)))]),
        honest.rewritten(trees=[Leaf([])]), honest.rewritten(trees=[Stub(bytes(32))]),
        resign(SECRET, honest.reply, honest.with_table("t", root=bytes(32)), honest.trees),
        # the tree of another table
        honest.rewritten(trees=Honest("SELECT * FROM e").trees))


def shapes():
    # under a valid signature: a cell too few and too many, one of another kind, and keys of no number
    honest = Honest(RANGE)
    changes = [lambda part: part[:1], lambda part: part + (bytes(32),), lambda part: (), shown(0, int_value(1)),
               shown(1, int_value(1))]
    path, place = honest.leaf_with(12)
    entries = at_path(honest.tree, path).entries
    odd_keys = [put_at(honest.tree, path, Leaf([*entries[:place], Entry(other, entries[place].part), *entries[place + 1:]]))
                for other in (b"", b"short", key(12) + b"\0")]
    trees = [*(honest.with_part(12, change) for change in changes), *odd_keys]
    yield from checked(honest, *(honest.signed(tree) for tree in trees))
    # keys that aren't texts
    honest = Honest("SELECT n FROM u WHERE k >= 'x'")
    yield from checked(honest, *(honest.signed(Leaf([Entry(other, (int_value(1),))])) for other in (b"y\xff", b"y\0", b"y")))


# -- replies that say too little or too much

def missing_parts():
    honest = Honest(RANGE)
    path, _ = honest.leaf_with(12)
    # a stub in the place of all, of a node and of a leaf; a row as its digest, and a cell hidden
    trees = [*(honest.closed(where) for where in ((), path[:1], path)), honest.with_part(12, row_digest),
             honest.with_part(12, hidden(0))]
    yield from checked(honest, *(honest.rewritten(trees=[tree]) for tree in trees))


def surplus_parts():
    honest = Honest(RANGE)
    # a cell more of a row that is needed, the cells of one that isn't, hidden or shown, and a node more, at the front and the end
    cells, other = honest.whole_row(12), honest.whole_row(9)
    trees = [honest.with_part(12, shown(1, cells[1])),
             honest.with_part(9, lambda part: tuple(cell_digest(place, cell) for place, cell in enumerate(other))),
             honest.with_part(9, lambda part: (other[0], cell_digest(1, other[1]))),
             *(honest.opened(honest.paths(Stub)[place]) for place in (0, -1))]
    yield from checked(honest, *(honest.rewritten(trees=[tree]) for tree in trees))
    # a node where the key that is asked for isn't
    honest = Honest("SELECT id FROM t WHERE id = 1000")
    yield from checked(honest, honest.rewritten(trees=[honest.opened(honest.paths(Stub)[0])]))


# -- levels

def nested(count, leaf):
    """A tree of so many levels with a leaf on the left and stubs beside."""
    tree = leaf
    for _ in range(count - 1):
        tree = Inner([key(20)], [tree, Stub(bytes(32))])
    return tree


def levels():
    honest = Honest("SELECT name FROM t WHERE id >= 12 AND id <= 13")
    rows_there = [Entry(key(number), (text_value(f"n{number}"), cell_digest(1, bool_value(True)))) for number in (12, 13)]
    leaf = Leaf(rows_there)
    # without a signature for them, and with one: the rows stand on the last level
    yield from checked(honest, *(honest.rewritten(trees=[nested(count, leaf)]) for count in (10, 11, 12)))
    yield from checked(honest, *(honest.signed(nested(count, leaf)) for count in (10, 11, 12)))
    # eleven levels and a stub for the leaf, and with no row of the two
    yield from checked(honest, honest.signed(nested(11, Stub(digest_of(leaf)))), honest.signed(nested(11, Leaf([]))))


# -- replies that end elsewhere

def fronts():
    for text, sizes in ("SELECT nope FROM t", "1"), (JOIN, "50"):
        reader, lines = Honest(text).begun()
        yield from (*lines, reader.fronts(sizes))
    honest = Honest(RANGE)
    reader, lines = honest.begun()
    yield from (*lines, reader.fronts("1"), reader.fronts("4096", 9))
    # the honest reply is a front of a longer one
    yield from (reader.splice(honest.data + b"\0"), reader.fronts("7"))


def longer_replies():
    honest = Honest(RANGE)
    most = honest.data + bytes(REPLY_LIMIT - len(honest.data))
    yield from checked(honest, honest.data + b"\0", honest.data + b"\xff" * 33, honest.data * 2)
    # as many bytes as a reply can have, and one more
    reader, lines = honest.begun()
    yield from (*lines, *reader.hostile(most, "65536", "1000003"), *reader.hostile(most + b"\0", "65536", "1000003"))
    reader, lines = Honest(JOIN).begun()
    yield from (*lines, *reader.hostile(bytes(REPLY_LIMIT + 99), "65536"), reader.held(f"{REPLY_LIMIT}+1"))


def no_replies():
    honest = Honest(RANGE)
    data, front = honest.data, 68 + len(honest.reply.signature)
    length = int.from_bytes(data[front:front + 4], "big")
    trees = front + 4 + length
    changes = [
        # another word in front of the reply and of the record, lengths of a signature and of a catalog
        (0, b"VOR2"), (4, b"VRC2"), (64, b"\0\1\0\1"), (64, b"\xff" * 4), (64, bytes(4)), (front, bytes(4)), (front, b"\xff" * 4),
        (front, (length + 1).to_bytes(4, "big")), (front, (length - 1).to_bytes(4, "big")),
        # tables, columns, a kind and a key that there can't be
        (front + 4, b"\0\x41"), (front + 4, b"\0\2"), (front + 8, b"\0"), (front + 8, b"\x21"), (front + 12, b"\4"),
        (front + 12, b"\0"),
        # trees, a node, children and the length of a separator
        (trees, b"\0"), (trees, b"\2"), (trees + 1, b"\3"), (trees + 2, b"\1"), (trees + 2, b"\x11"), (trees + 3, b"\1\0")]
    yield from checked(honest, *(data[:at] + other + data[at + len(other):] for at, other in changes))


# -- several faults: the first of the tests is told

def first_faults():
    honest = Honest(RANGE)
    bad = turned(honest.reply.signature, 40)
    other = honest.with_table("t", rows=9)
    surplus = honest.opened(honest.paths(Stub)[0])
    missing, misshapen = honest.with_part(14, hidden(0), tree=surplus), honest.with_part(12, shown(0, int_value(1)))
    yield from checked(
        honest,
        # no form, with each fault behind it
        honest.rewritten(signature=bad) + b"\0", honest.with_record(ident=bytes(16))[:-1], honest.rewritten(catalog=other)[:-1],
        honest.rewritten(trees=[surplus])[:-1], honest.rewritten(trees=[nested(12, Leaf([]))], signature=bad),
        # another key and a bad signature; a bad one and another catalog; that and too many trees
        honest.with_record(ident=bytes(16), version=9), honest.rewritten(signature=bad, catalog=other),
        honest.rewritten(catalog=other, trees=[honest.tree] * 2),
        # too many trees, of another shape and another root
        honest.rewritten(trees=[misshapen] * 2),
        # another shape and another root, another root with something missing
        honest.rewritten(trees=[misshapen]), honest.rewritten(trees=[honest.with_part(12, lambda part: bytes(32))]),
        # more than is needed before something that is missing
        honest.rewritten(trees=[missing]), honest.rewritten(trees=[surplus]))
    # an older version, with another catalog
    yield from checked(honest, honest.rewritten(catalog=other), honest.rewritten(signature=bad), least=4)


# -- NULL

NULL_STORE = store_of(
    ["CREATE TABLE t (id BIGINT, name TEXT NULL, boss BIGINT NULL, sold BOOLEAN, PRIMARY KEY (id))",
     "CREATE TABLE u (k TEXT, a BOOLEAN NULL, PRIMARY KEY (k))"],
    [f"INSERT INTO t VALUES ({number}, {name}, {boss}, {'FALSE' if number % 3 else 'TRUE'})"
     for number, name, boss in ((each, "NULL" if each % 4 == 1 else f"'{'xyz'[each % 3]}'", each - 7 if each % 3 else "NULL")
                                for each in range(60))],
    ["INSERT INTO u VALUES ('x', NULL)", "INSERT INTO u VALUES ('y', TRUE)"])
NULL_RANGE = "SELECT name FROM t WHERE id >= 9 AND id <= 12"


def null_replies():
    # conditions that a NULL doesn't meet, such as it meets, a literal, and joins by columns that have NULL
    texts = [NULL_RANGE, "SELECT id FROM t WHERE name = 'x' AND id < 12", "SELECT id FROM t WHERE NOT name = 'x' AND id < 12",
             "SELECT id FROM t WHERE name <> 'x' AND NOT boss > 3 AND id < 12", "SELECT * FROM t WHERE name IS NULL AND id < 12",
             "SELECT id FROM t WHERE (name IS NOT NULL OR boss IS NULL) AND id < 9", "SELECT id FROM t WHERE id < NULL",
             "SELECT id FROM t WHERE id < 9 AND (name = NULL OR id = 3)", "SELECT id FROM t WHERE name = name AND id > 50",
             "SELECT a.id, b.name FROM t AS a JOIN t AS b ON a.boss = b.id WHERE a.id < 14 AND NOT b.name = 'y'",
             "SELECT t.id, u.a FROM t JOIN u ON t.name = u.k WHERE t.id < 14", "SELECT * FROM u",
             "SELECT name FROM t WHERE sold = NULL OR name = 7"]
    for text in texts:
        reader, lines = Honest(text, NULL_STORE).begun()
        yield from lines
        yield from reader.checks(*EACH, "3+1+500")
        yield reader.held("61+500")


def words_and_marks():
    honest = Honest(NULL_RANGE, NULL_STORE)
    marked = list(marked_catalogs(honest.reply.catalog))
    # the record's other words, signed and not; columns that are marked otherwise, the keys among them, likewise
    yield from checked(honest, *(data for word in (b"VREC", b"VRC3", b"VRC1") for data in (
        honest.with_record(magic=word), resign(SECRET, honest.reply, honest.reply.catalog, honest.trees, magic=word))))
    yield from checked(honest, *(data for _, catalog in marked for data in (
        honest.rewritten(catalog=catalog), resign(SECRET, honest.reply, catalog, honest.trees))))
    # of tables without such a column
    honest = Honest(RANGE)
    yield from checked(honest, honest.with_record(magic=b"VRC2"),
                       resign(SECRET, honest.reply, honest.reply.catalog, honest.trees, magic=b"VRC2"),
                       *(resign(SECRET, honest.reply, catalog, honest.trees)
                         for _, catalog in marked_catalogs(honest.reply.catalog)))


def hostile_nulls():
    # NULL in the place of a value and a value in its place: as they are, and under a valid signature
    honest = Honest("SELECT name, boss, sold FROM t WHERE id >= 9 AND id <= 12", NULL_STORE)
    trees = [honest.with_part(number, shown(cell, value)) for number, cell, value in (
        (10, 0, NULL), (9, 0, text_value("x")), (9, 1, int_value(0)), (10, 1, NULL), (9, 2, NULL), (9, 0, int_value(0)))]
    trees += [honest.with_part(9, hidden(0)), honest.with_part(10, lambda part: part[:1]),
              honest.with_part(9, lambda part: part + (NULL,))]
    yield from checked(honest, *(data for tree in trees for data in (honest.rewritten(trees=[tree]), honest.signed(tree))))
    # in a table all of whose columns are plain
    honest = Honest("SELECT name, sold FROM t WHERE id > 9 AND id <= 14")
    yield from checked(honest, *(honest.signed(honest.with_part(12, shown(cell, NULL))) for cell in (0, 1)))
    # the right row of a left row without a join value: its leaf open, and the tree of none
    honest = Honest("SELECT a.id, b.name FROM t AS a JOIN t AS b ON a.boss = b.id WHERE a.id = 9", NULL_STORE)
    yield from checked(honest, *(honest.rewritten(trees=[honest.opened(path)]) for path in honest.paths(Stub)))
    honest = Honest("SELECT t.id, u.a FROM t JOIN u ON t.name = u.k WHERE t.id = 9", NULL_STORE)
    left, right = honest.trees
    yield from checked(honest, honest.rewritten(trees=[left]), honest.rewritten(trees=[left, right, right]),
                       honest.rewritten(trees=[left, honest.node_of(1, ())]))


# -- LIMIT

def limited_replies():
    # of fewer rows than there are and of more, of none, of one leaf and of several; rows that the condition drops before
    texts = ["SELECT name FROM t LIMIT 3", "SELECT * FROM t LIMIT 8", "SELECT id FROM t WHERE id > 7 LIMIT 9",
             "SELECT name FROM t WHERE NOT name = 'ann' AND id > 20 LIMIT 7", "SELECT id FROM t WHERE sold = TRUE LIMIT 4",
             "SELECT id FROM t WHERE name = 'nobody' LIMIT 1", "SELECT id FROM t WHERE id > 145 LIMIT 4294967295",
             "SELECT id FROM t WHERE id > 9 AND id < 8 LIMIT 1", "SELECT n FROM u WHERE k >= 'x' LIMIT 2", "SELECT * FROM e LIMIT 1",
             "SELECT nope FROM t LIMIT 1", "SELECT * FROM nowhere LIMIT 1"]
    for text in texts:
        reader, lines = Honest(text).begun()
        yield from lines
        yield from reader.checks(*EACH, "3+1+500")
        yield reader.held("61+500")
    for text in ("SELECT id FROM t WHERE name IS NULL LIMIT 2", "SELECT id FROM t WHERE NOT boss > 3 LIMIT 5"):
        reader, lines = Honest(text, NULL_STORE).begun()
        yield from (*lines, *reader.checks(*EACH))
    reader, lines = Honest("SELECT name FROM t LIMIT 3").begun()
    yield from (*lines, *reader.checks("1", least=3), *reader.checks("1", least=4), reader.fronts("50"), reader.fronts("4096", 9))


def cut_replies(honest):
    """Replies changed around the cut, those of true digests first."""
    return [data for _, data in cut_variants(SECRET, honest.data, STORE.kept[-1], parse_query(honest.text))]


def hostile_limits():
    # more and fewer rows than the count, with true digests; rows and separators changed at the cut, under a valid signature
    honest = Honest("SELECT name FROM t WHERE id > 9 LIMIT 7")
    others = cut_replies(honest)
    yield from checked(honest, *others[:10], *others[10::3])
    for text in "SELECT id FROM t LIMIT 8", "SELECT name FROM t WHERE sold = TRUE LIMIT 3":
        yield from checked(Honest(text), *cut_replies(Honest(text))[:10])
    yield from checked(honest, honest.data + b"\0", honest.data[:-1], honest.with_record(ident=bytes(16)),
                       honest.rewritten(trees=[honest.tree] * 2), honest.rewritten(trees=[]),
                       honest.rewritten(trees=[honest.closed(())]), honest.rewritten(trees=[Leaf([])]))
    # held up to the greatest length, and not beyond
    reader, lines = honest.begun()
    yield from (*lines, *reader.hostile(bytes(REPLY_LIMIT + 99), "65536"), reader.held(f"{REPLY_LIMIT}+1"))


# -- other queries

def hostile_joins():
    honest = Honest(JOIN)
    left, right = honest.trees
    yield from checked(
        honest,
        # other counts of trees, a stub for each, more of the left one, another right one
        *(honest.rewritten(trees=trees) for trees in (
            [left], [right, left], [left, right, right], [left, Stub(digest_of(right))], [honest.closed(()), right],
            [honest.opened(honest.paths(Stub)[0]), right], [left, Leaf([])])),
        honest.with_record(ident=bytes(16)), honest.data + b"\0", honest.data[:-1])


def hostile_replies_of_no_trees():
    honest = Honest("SELECT nope FROM t")
    yield from checked(honest, honest.rewritten(trees=[Stub(bytes(32))]), honest.rewritten(trees=Honest(RANGE).trees),
                       honest.rewritten(trees=[nested(12, Leaf([]))]), honest.with_record(ident=bytes(16)), honest.data + b"\0",
                       honest.rewritten(signature=turned(honest.reply.signature, 9)))
