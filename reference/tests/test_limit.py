"""LIMIT: sizes and faults by hand, rows by sqlite3, pages, and replies changed around the cut."""

import unittest

from ..check import check_of
from ..faults import CheckFault, SqlFault
from ..formats import read_reply, tree_bytes
from ..generators.cuts import cut_variants, leaf_paths
from ..generators.mutate import at_path, put_at, rewrite, shallow
from ..generators.sqlite_tables import SqliteTables, plain_rows
from ..generators.workload import Workload
from ..generators.worlds import SECRET, history
from ..printing import print_query
from ..sql import parse_query, parse_script
from ..tables import result
from ..tree import Stub, digest_of
from ..values import literal

WORLDS, QUERIES, LEAST = 60, 60, 3_400
SEVENTEEN = ("CREATE TABLE t (id BIGINT, name TEXT, PRIMARY KEY (id)); COMMIT; "
             + "".join(f"INSERT INTO t VALUES ({number}, 'x'); " for number in range(1, 18)) + "COMMIT;")


def refusal(text, data):
    """Why a client refuses a reply, or none."""
    try:
        check_of(SECRET.public(), 0, parse_query(text), data)
    except CheckFault as fault:
        return fault.name
    return None


class SeventeenRows(unittest.TestCase):
    """A table of 17 rows, in two leaves of 8 and 9."""

    def setUp(self):
        self.store = history(parse_script(SEVENTEEN))[1]

    def rows(self, text):
        """The rows that a client takes from the honest reply, and the reply."""
        data = self.store.answer(parse_query(text))
        answer = check_of(SECRET.public(), 0, parse_query(text), data)
        return [row[0] for row in plain_rows(answer.outcome[2])], data

    def test_sizes(self):
        """Which leaves are open, and how long the reply is."""
        for text, rows, leaves, size in (
                ("SELECT id FROM t LIMIT 3", [1, 2, 3], 1, 1_812),
                ("SELECT id FROM t WHERE id > 8 LIMIT 2", [9, 10], 2, 2_168),
                ("SELECT id FROM t LIMIT 8", [*range(1, 9)], 1, 1_812),
                ("SELECT id FROM t LIMIT 9", [*range(1, 10)], 2, 2_168),
                ("SELECT id FROM t LIMIT 100", [*range(1, 18)], 2, 2_168)):
            found, data = self.rows(text)
            tree = read_reply(data).trees[0]
            self.assertEqual((found, len(leaf_paths(tree)), len(data)), (rows, leaves, size), text)
        self.assertEqual(len(tree_bytes(read_reply(self.rows("SELECT id FROM t LIMIT 3")[1]).trees[0])), 391)

    def test_leaves_around_the_cut(self):
        """The right leaf opened is a surplus; the left one as its digest is missing."""
        text = "SELECT id FROM t LIMIT 3"
        reply = read_reply(self.rows(text)[1])
        tree, whole = reply.trees[0], self.store.kept[-1].trees.tree(("t", "main"))
        opened = put_at(tree, (1,), shallow(at_path(whole, (1,))))
        closed = put_at(tree, (0,), Stub(digest_of(at_path(whole, (0,)))))
        self.assertEqual(refusal(text, rewrite(reply, trees=[opened])), "Surplus")
        self.assertEqual(refusal(text, rewrite(reply, trees=[closed])), "Missing")

    def test_faults(self):
        """Counts that are none, and LIMIT where it doesn't belong; a count is printed last."""
        for text, at in (("SELECT id FROM t LIMIT 0", 23), ("SELECT id FROM t LIMIT 4294967296", 23),
                         ("SELECT id FROM t LIMIT -1", 23), ("SELECT id FROM t LIMIT", 22),
                         ("SELECT id FROM t LIMIT 1 LIMIT 1", 25),
                         ("SELECT a.id FROM t a JOIN t b ON a.id = b.id LIMIT 1", 45)):
            with self.assertRaises(SqlFault) as caught:
                parse_query(text)
            self.assertEqual((caught.exception.name, caught.exception.fields["at"]), ("Syntax", at), text)
        self.assertEqual(print_query(parse_query("select id from t where id > 1 limit 007;")),
                         "SELECT id FROM t AS t WHERE id > 1 LIMIT 7")


class Limited(Workload):
    """Queries that all have LIMIT."""

    def query(self):
        texts = iter(super().query, None)
        return next(text for text in texts if " LIMIT " in text)


class RandomTables(unittest.TestCase):
    """Queries with LIMIT on random tables."""

    def test_sqlite_has_the_same_rows(self):
        """The first rows are those of sqlite3."""
        compared = 0
        for seed in range(WORLDS):
            work = Limited(seed, queries=QUERIES, batches=5, commands=40, spread=80, long_texts=False)
            sqlite = SqliteTables(work.script, work.tables)
            for text in work.queries:
                found = result(work.tables, parse_query(text))
                if found[0] == "rows":
                    self.assertEqual(plain_rows(found[2]), sqlite.rows(text), text)
                    compared += 1
        self.assertGreaterEqual(compared, LEAST)

    def test_replies_show_the_first_rows(self):
        """What a client takes from an honest reply is the result on the plain tables; whatever shows
        more or less than the rows up to the last answer is refused."""
        for seed in range(3):
            work = Limited(seed, queries=12, batches=4, commands=60, spread=200)
            store = history(work.batches)[1]
            for text in work.queries:
                query, data = parse_query(text), store.answer(parse_query(text))
                answer = check_of(SECRET.public(), 0, query, data)
                self.assertEqual(answer.outcome, result(work.tables, query), text)
                variants = cut_variants(SECRET, data, store.kept[-1], query)
                record = read_reply(data).rec
                true = [other for _, other in variants if read_reply(other).rec == record]
                found = {refusal(text, other) for other in true}
                # without LIMIT the query may read an index, whose keys are of another shape
                self.assertLessEqual(found, {"Missing", "Surplus", "WrongShape"}, text)


class Pages(unittest.TestCase):
    """A table read page by page: each page begins behind the last key of the one before."""

    def test_joined_they_are_the_table(self):
        """All rows, none twice and none left out, however many there are on a page."""
        for seed in range(6):
            work = Workload(seed, tables=2, batches=6, commands=60, spread=400, queries=0)
            store = history(work.batches)[1]
            for name in work.tables.names():
                whole = result(work.tables, parse_query(f"SELECT * FROM {name}"))[2]
                for count in (1, 7, 8, 16, 100):
                    self.assertEqual(self.paged(store, work.tables.schema(name), name, count), whole)

    def paged(self, store, schema, name, count):
        """The rows of all pages of so many rows, each checked."""
        key, rows, behind = schema.columns[schema.key].name, [], ""
        while True:
            query = parse_query(f"SELECT * FROM {name}{behind} LIMIT {count}")
            page = check_of(SECRET.public(), 0, query, store.answer(query)).outcome[2]
            rows += page
            if len(page) < count:
                return rows
            behind = f" WHERE {key} > {literal(page[-1][schema.key])}"


if __name__ == "__main__":
    unittest.main()
