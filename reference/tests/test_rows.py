"""Rows, by sqlite3 on the same tables, and by the reader's check of replies."""

import unittest

from ..check import check_of
from ..generators.sqlite_tables import SqliteTables, TooWide, plain_rows
from ..generators.workload import Workload
from ..generators.worlds import SECRET, history
from ..sql import parse_query, parse_script
from ..tables import Tables, apply_batch, result

WORLDS, QUERIES = 25, 40
TEXT = """
CREATE TABLE t ( id BIGINT , name TEXT NULL , n BIGINT , PRIMARY KEY ( id ) ,
                 INDEX ( n ) , SUM ( n ) ) ;
CREATE TABLE u ( k TEXT , b BOOLEAN , PRIMARY KEY ( k ) ) ;
INSERT INTO t VALUES ( 3 , 'x' , 7 ) ; INSERT INTO t VALUES ( 1 , NULL , 7 ) ;
INSERT INTO t VALUES ( 2 , 'y' , -1 ) ;
INSERT INTO u VALUES ( 'x' , TRUE ) ; INSERT INTO u VALUES ( 'z' , FALSE ) ;
COMMIT ;""".replace("\n", " ")


class Rows(unittest.TestCase):
    """Queries on random tables."""

    def test_sqlite_has_the_same_rows(self):
        """Every feature but totals beyond 64 bits, which sqlite3 has not."""
        compared = 0
        for seed in range(WORLDS):
            work = Workload(seed, queries=QUERIES)
            sqlite = SqliteTables(work.script, work.tables)
            for text in work.queries:
                found = result(work.tables, parse_query(text))
                try:
                    compared += found[0] == "rows" and self.same_rows(sqlite, text, found[2])
                except TooWide:
                    continue
        self.assertGreater(compared, WORLDS * QUERIES // 2)

    def same_rows(self, sqlite, text, rows):
        """Compares the rows of a query."""
        self.assertEqual(plain_rows(rows), sqlite.rows(text), text)
        return True

    def test_rows_by_hand(self):
        """A few queries whose rows are seen at once."""
        tables = apply_batch(Tables(), parse_script(TEXT)[0])
        for text, rows in (
                ("SELECT id FROM t WHERE name = 'x' OR n < 0", [[2], [3]]),
                ("SELECT id FROM t WHERE NOT name = 'x'", [[2]]),
                ("SELECT id FROM t WHERE name IS NULL", [[1]]),
                ("SELECT t.id, u.b FROM t JOIN u ON t.name = u.k", [[3, 1]]),
                ("SELECT a.id, b.id FROM t AS a JOIN t AS b ON a.n = b.n WHERE a.id = 1",
                 [[1, 1], [1, 3]]),
                ("SELECT COUNT(*), SUM(n) FROM t WHERE id >= 2", [[2, 6]]),
                ("SELECT COUNT(*), SUM(n) FROM t WHERE id > 9", [[0, None]]),
                ("SELECT id FROM t LIMIT 2", [[1], [2]])):
            self.assertEqual(plain_rows(result(tables, parse_query(text))[2]), rows, text)

    def test_replies_show_the_result(self):
        """What a reader takes from an honest reply is the result on the plain tables."""
        for seed in range(4):
            work = Workload(seed, queries=15)
            store = history(work.batches)[1]
            for text in work.queries:
                query = parse_query(text)
                answer = check_of(SECRET.public(), 0, query, store.answer(query))
                self.assertEqual(answer.outcome, result(work.tables, query), text)


if __name__ == "__main__":
    unittest.main()
