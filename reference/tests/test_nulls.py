"""NULL: rows by sqlite3 and by hand, what commands refuse, and what records and replies must be."""

import unittest

from ..binding import Place, truth_of
from ..catalog import read_catalog
from ..check import check_of
from ..faults import BadForm, CheckFault
from ..formats import read_reply, tree_bytes, write_reply
from ..generators.mutate import marked_catalogs, resign, resigned_variants
from ..generators.sqlite_tables import SqliteTables, plain_rows
from ..generators.workload import Workload
from ..generators.worlds import SECRET, SEED, history
from ..sql import parse_query, parse_script
from ..syntax import All, Any, IsNull, Not, Test
from ..tables import result
from ..values import NULL, int_value
from .runs import Runs

WORLDS, QUERIES, LEAST = 75, 60, 2_000
CREATE = "CREATE TABLE t (id BIGINT, name TEXT NULL, PRIMARY KEY (id)); COMMIT; "
ROWS = "INSERT INTO t VALUES (1, NULL); INSERT INTO t VALUES (2, 'bob'); COMMIT; "
ALL = "SELECT * FROM t"


class ManyNulls(Workload):
    """Tables of which two values in five are NULL, where a column may have it."""

    def value(self, column, small=True):
        if column.nullable and self.rng.random() < 0.4:
            return NULL
        return super().value(column, small)


class Rows(unittest.TestCase):
    """Queries on tables with NULL."""

    def test_sqlite_has_the_same_rows(self):
        """Conditions of three values and joins, on tables that have NULL or by a text that has."""
        compared = joins = 0
        for seed in range(WORLDS):
            work = ManyNulls(seed, queries=QUERIES, batches=5, spread=9, sides=False, nulls=True,
                             long_texts=False)
            sqlite = SqliteTables(work.script, work.tables)
            for text in filter(lambda text, work=work: speaks_of_null(work.tables, text),
                               work.queries):
                found = result(work.tables, parse_query(text))
                if found[0] == "rows":
                    self.assertEqual(plain_rows(found[2]), sqlite.rows(text), text)
                    compared, joins = compared + 1, joins + (" JOIN " in text)
        self.assertGreaterEqual(compared, LEAST)
        self.assertGreaterEqual(joins, LEAST // 5)

    def test_truth(self):
        """AND, OR, NOT and comparisons of true, false and unknown, written out."""
        row = [[int_value(1), NULL]]
        one, absent = Place(0, 0), Place(0, 1)
        true, false = Test(one, "=", int_value(1)), Test(one, "<>", int_value(1))
        unknown = Test(absent, "=", int_value(1))
        for cond, due in (
                (Test(absent, "=", absent), None), (Test(absent, "<>", absent), None),
                (Test(one, "<", NULL), None), (Test(absent, "=", NULL), None),
                (IsNull(absent, False), True), (IsNull(absent, True), False),
                (IsNull(one, False), False), (IsNull(one, True), True),
                (Not(unknown), None), (Not(true), False), (Not(false), True),
                (All((true, unknown)), None), (All((unknown, false)), False),
                (All((false, unknown)), False), (All((unknown, unknown)), None),
                (Any((true, unknown)), True), (Any((unknown, true)), True),
                (Any((unknown, false)), None), (Any((unknown, unknown)), None)):
            self.assertIs(truth_of(cond, row), due, cond)


def speaks_of_null(tables, text):
    """Whether a query's text has NULL, or a table that it reads."""
    query = parse_query(text)
    names = [query.left.table] + ([query.join.right.table] if query.join else [])
    read = [tables.by_name[name] for name in names if name in tables.by_name]
    return "NULL" in text or any(NULL in row for table in read for row in table.cells)


class Commands(Runs):
    """The commands on a table with a column that may be NULL."""

    def setUp(self):
        self.files = {"seed": SEED}
        self.files["key"] = self.made("keygen", "seed")
        self.sealed(CREATE, ROWS)

    def sealed(self, *batches):
        """The journal of a script, or its refusal."""
        self.files["script"] = "".join(batches).encode()
        status, self.files["journal"] = self.ran("seal", "seed", "script")
        return status, self.files["journal"]

    def rows(self, text):
        """The lines behind the version's."""
        self.files["reply"] = self.made("answer", "key", "journal", text)
        return self.made("check", "key", text, "reply").decode().split("\n")[1:-1]

    def test_answers(self):
        """What a condition drops, and what it keeps."""
        for text, lines in (
                (ALL, ["id,name", "1,NULL", "2,'bob'"]),
                ("SELECT id FROM t WHERE name = 'bob'", ["id", "2"]),
                ("SELECT id FROM t WHERE NOT name = 'bob'", ["id"]),
                ("SELECT id FROM t WHERE name <> 'x'", ["id", "2"]),
                ("SELECT id FROM t WHERE name = name", ["id", "2"]),
                ("SELECT id FROM t WHERE name IS NULL OR id = 2", ["id", "1", "2"]),
                ("SELECT id FROM t WHERE name IS NOT NULL", ["id", "2"]),
                ("SELECT id FROM t WHERE id > NULL", ["id"]),
                ("SELECT a.id FROM t AS a JOIN t AS b ON a.id = b.id", ["a.id", "1", "2"])):
            self.assertEqual(self.rows(text), lines, text)

    def test_bytes(self):
        """The record's first four bytes, and the lengths."""
        self.rows(ALL)
        reply = read_reply(self.files["reply"])
        self.assertEqual(self.files["reply"][4:8].hex(), "56524332")
        self.assertEqual((len(tree_bytes(reply.trees[0])), len(self.files["reply"])), (35, 1_456))
        self.assertIn(b"\4name\x82", reply.catalog.bytes())

    def test_refusals(self):
        """NotNull, behind TypeMismatch; the key, in each of its places."""
        create = "CREATE TABLE u (id BIGINT NULL, PRIMARY KEY (id)); "
        plain = "CREATE TABLE p (id BIGINT, n BIGINT, PRIMARY KEY (id)); "
        for commands, fault in (
                ("INSERT INTO t VALUES (NULL, 'z'); ", "0 NotNull"),
                ("INSERT INTO t VALUES (NULL, 7); ", "0 TypeMismatch"),
                ("UPDATE t SET name = 'z' WHERE id = NULL; ", "0 NotNull"),
                ("UPDATE t SET name = 7 WHERE id = NULL; ", "0 TypeMismatch"),
                ("UPDATE t SET name = NULL WHERE name = NULL; ", "0 NotKey"),
                ("DELETE FROM t WHERE id = NULL; ", "0 NotNull"),
                (create, "0 BadSchema"),
                (plain + "INSERT INTO p VALUES (1, NULL); ", "1 NotNull"),
                (plain + "INSERT INTO p VALUES (1, 2); UPDATE p SET n = NULL WHERE id = 1; ",
                 "2 NotNull")):
            ended = self.sealed(CREATE, ROWS, commands, "COMMIT;")
            self.assertEqual(ended, (8, f"refused: command {fault}\n".encode()), commands)

    def test_magic_goes_with_the_last_column(self):
        """Once no column may be NULL any more, the record begins as without the feature."""
        self.sealed(CREATE, ROWS, "DROP TABLE t; COMMIT;")
        self.rows(ALL)
        self.assertEqual(self.files["reply"][4:8], b"VREC")
        for version, magic in ((0, b"VREC"), (1, b"VRC2"), (2, b"VRC2")):
            reply = self.made("answer", "key", "journal", ALL, "--at", str(version))
            self.assertEqual(reply[4:8], magic)


class Hostile(unittest.TestCase):
    """Replies whose record, catalog or tree says otherwise, each under a valid signature."""

    def setUp(self):
        self.store = history(parse_script(CREATE + ROWS))[1]
        self.data = self.store.answer(parse_query(ALL))
        self.reply = read_reply(self.data)

    def refusal(self, data):
        """Why a client refuses a reply, or none."""
        try:
            check_of(SECRET.public(), 0, parse_query(ALL), data)
        except CheckFault as fault:
            return fault.name
        return None

    def test_magic(self):
        """Another magic than the catalog's is no form, signed or not."""
        self.assertIsNone(self.refusal(self.data))
        for magic in (b"VREC", b"VRC3", b"VRC4"):
            self.assertEqual(self.refusal(self.data[:4] + magic + self.data[8:]), "BadForm")
            signed = resign(SECRET, self.reply, self.reply.catalog, self.reply.trees, magic=magic)
            self.assertEqual(self.refusal(signed), "BadForm")

    def test_marks(self):
        """A key that may be NULL is no form, and a shown NULL in a plain column is no shape."""
        due = {0: ("BadForm", "BadForm"), 1: ("BadForm", "WrongShape")}
        for number, (_, catalog) in enumerate(marked_catalogs(self.reply.catalog)):
            plain = write_reply(self.reply.rec, self.reply.signature, catalog, self.reply.trees)
            signed = resign(SECRET, self.reply, catalog, self.reply.trees)
            self.assertEqual((self.refusal(plain), self.refusal(signed)), due[number])
        with self.assertRaises(BadForm):
            read_catalog(next(marked_catalogs(self.reply.catalog))[1].bytes())

    def test_plain_columns(self):
        """In a table without such a column each NULL that is shown is refused."""
        store = history(parse_script(CREATE.replace(" NULL", "") + ROWS.replace("NULL", "'x'")))[1]
        query = parse_query(ALL)
        variants = resigned_variants(SECRET, store.answer(query), query)
        found = [self.refusal(data) for name, data in variants if name.endswith(" NULL")]
        self.assertEqual(found, ["WrongShape"] * len(found))
        self.assertTrue(found)


if __name__ == "__main__":
    unittest.main()
