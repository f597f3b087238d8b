"""Texts near the grammar, and at its limits."""

import re

GOOD_TEXTS = [
    "SELECT * FROM t", "select A.Id , b.name from T as A inner join u b on a.id=b.id where a.id<3;",
    "SELECT id FROM t WHERE NOT (id = 1 OR name <> 'it''s') AND flag = TRUE LIMIT 5",
    "SELECT COUNT(*), SUM(t.qty) FROM t WHERE id >= -3 AND id != 007;",
    "SELECT a FROM t WHERE a IS NOT NULL OR b IS NULL AND c <= NULL",
    "SELECT t.a FROM t WHERE NOT (t.a = NULL OR NOT t.b IS NOT NULL) AND (c IS NULL)",
    "SELECT * FROM t x WHERE x.a IS NULL AND b <> NULL",
    "SELECT a FROM t WHERE NOT a IS NOT NULL OR (NOT b IS NULL AND x.c > -1)",
    "SELECT * FROM t LIMIT 4294967295;", "select x.b from t as x where not x.a = 1 limit 007",
]
GOOD_SCRIPTS = [
    "CREATE TABLE t (id BIGINT, a TEXT NULL, b BOOLEAN NULL, PRIMARY KEY (id)); "
    "INSERT INTO t VALUES (1, NULL, NULL); COMMIT; UPDATE t SET a = NULL WHERE id = 1; COMMIT;",
    "CREATE TABLE t (id BIGINT, name TEXT NULL, f BOOLEAN NOT NULL, PRIMARY KEY (id), INDEX (f)); "
    "COMMIT;",
    "CREATE TABLE t (id BIGINT, q BIGINT, s TEXT, PRIMARY KEY (id), INDEX (s), SUM (q)); "
    "INSERT INTO t VALUES (1, 2, 'x'); COMMIT; UPDATE t SET q = -1, s = '' WHERE id = 1; "
    "DELETE FROM t WHERE id = 1; COMMIT; DROP TABLE t; COMMIT;",
]
ODD = [
    "(", ")", ",", ";", ".", "*", "=", "<>", "!=", "<", "<=", ">", ">=", "'", "''", "'a", "!", "-",
    "-1", "--1", "00", "9223372036854775807", "9223372036854775808", "-9223372036854775808",
    "-9223372036854775809", "4294967295", "4294967296", "#", "\u00e9", "'\u00e9'", "'\n'", "\x0b",
    "a" * 63, "a" * 64, "A_1", "_", "1a", "NULL", "IS", "NOT", "LIMIT", "COUNT", "SUM", "INDEX",
    "SELECT", "FROM", "WHERE", "AS", "JOIN", "INNER", "ON", "AND", "OR", "TRUE", "COMMIT", "CREATE",
    "PRIMARY", "KEY", "TABLE", "VALUES", "SET", "INTO", "DELETE", "UPDATE", "'" + "b" * 1024 + "'",
    "'" + "b" * 1025 + "'", "'" + "''" * 1024 + "'", "'" + "''" * 1025 + "'",
]
CREATE, DROP = "CREATE TABLE t (id BIGINT, PRIMARY KEY (id)); ", "DROP TABLE t; "
LIMIT_TAILS = [
    "LIMIT 1", "LIMIT 0", "LIMIT -1", "LIMIT 4294967295", "LIMIT 4294967296", "LIMIT a", "LIMIT",
    "LIMIT 1 LIMIT 1", "LIMIT 1 WHERE a = 1", "LIMIT 1 ;", "LIMIT 1 ; ;",
    "LIMIT 9223372036854775807", "LIMIT 9223372036854775808", "LIMIT -4294967295", "LIMIT -0",
    "LIMIT 00", "LIMIT 007", "LIMIT '1'", "LIMIT NULL", "LIMIT TRUE", "LIMIT (1)", "LIMIT 1, 2",
    "LIMIT 1 OFFSET 1", "LIMIT ALL", "LIMIT = 1", "LIMIT 1.5", "LIMIT 1a", "LIMIT;", "limit 2",
    "JOIN u ON a = b LIMIT 1", "WHERE a = 1 LIMIT 0 JOIN u ON a = b", "WHERE LIMIT 1", "LIMIT 0 #",
]
ODD_QUERIES = [
    "SELECT FROM t '", "SELECT FROM t #", "SELECT COUNT FROM t", "SELECT COUNT(a) FROM t",
    "SELECT SUM(*) FROM t", "SELECT COUNT(*), a FROM t", "SELECT a, COUNT(*) FROM t",
    "SELECT *, a FROM t", "SELECT a.b.c FROM t", "SELECT * FROM t t t", "SELECT * FROM t AS",
    "SELECT * FROM a, b", "SELECT * FROM t WHERE", "SELECT * FROM t WHERE 1 = a",
    "SELECT * FROM t WHERE a", "SELECT * FROM t WHERE a = b.c", "SELECT * FROM t WHERE a IS",
    "SELECT * FROM t WHERE a IS NOT", "SELECT * FROM t WHERE a IS 1",
    "SELECT * FROM t WHERE a IS NOT NOT NULL", "SELECT * FROM t WHERE a IS NULL NULL",
    "SELECT * FROM t WHERE a NOT NULL", "SELECT * FROM t WHERE NULL IS NULL",
    "SELECT * FROM t WHERE a = NULL IS NULL", "SELECT * FROM t WHERE a IS TRUE",
    "SELECT NULL FROM t", "SELECT * FROM t WHERE a IS (NULL)", "SELECT * FROM t WHERE IS NULL",
    "SELECT * FROM t JOIN u ON a = NULL", "SELECT * FROM null", "SELECT is FROM t",
    "SELECT * FROM t WHERE a = 1 AND", "SELECT * FROM t WHERE (a = 1",
    "SELECT * FROM t WHERE a = 1)", "SELECT * FROM t WHERE a NOT = 1", "SELECT * FROM t JOIN u",
    "SELECT * FROM t INNER u", "SELECT * FROM t JOIN u ON a < b", "SELECT * FROM t JOIN u ON a = 1",
    "SELECT * FROM t JOIN u ON a = b JOIN v ON c = d", "SELECT COUNT(*) FROM t JOIN u ON a = b",
    ";", "SELECT * FROM t;;", "DROP TABLE t",
]
ODD_SCRIPTS = [
    "", "COMMIT;", ";", CREATE, CREATE + "COMMIT", CREATE + "COMMIT;;", CREATE + "COMMIT; COMMIT;",
    "CREATE TABLE t (id BIGINT, PRIMARY KEY (id), SUM (a), INDEX (b)); COMMIT;",
    "CREATE TABLE t (PRIMARY KEY (id)); COMMIT;", "CREATE TABLE t (id BIGINT); COMMIT;",
    "CREATE TABLE t (id BIGINT NOT, PRIMARY KEY (id)); COMMIT;",
    "CREATE TABLE t (id BIGINT NULL NULL, PRIMARY KEY (id)); COMMIT;",
    "CREATE TABLE t (id BIGINT, a TEXT NOT NULL NULL, PRIMARY KEY (id)); COMMIT;",
    "CREATE TABLE t (id BIGINT, a TEXT NULL NOT NULL, PRIMARY KEY (id)); COMMIT;",
    "CREATE TABLE t (id BIGINT, a NULL, PRIMARY KEY (id)); COMMIT;",
    "CREATE TABLE t (id BIGINT, a NULL TEXT, PRIMARY KEY (id)); COMMIT;",
    "INSERT INTO t VALUES (NULL, NOT NULL); COMMIT;", "INSERT INTO t VALUES (NULL, NULL); COMMIT;",
    "UPDATE t SET a = NULL, b = NULL WHERE id = NULL; COMMIT;",
    "UPDATE t SET a IS NULL WHERE id = 1; COMMIT;", "DELETE FROM t WHERE id IS NULL; COMMIT;",
    "DELETE FROM t WHERE id = NULL; COMMIT;",
    "INSERT INTO t VALUES (); COMMIT;", "INSERT INTO t (a) VALUES (1); COMMIT;",
    "UPDATE t SET a = b WHERE id = 1; COMMIT;", "UPDATE t SET a = 1; COMMIT;",
    "DELETE FROM t; COMMIT;", "DELETE FROM t WHERE t.id = 1; COMMIT;", "SELECT * FROM t; COMMIT;",
]
ODD_TABLES = [
    "a BOOLEAN, PRIMARY KEY (a)", "a BIGINT, a TEXT, PRIMARY KEY (a)", "a BIGINT, PRIMARY KEY (b)",
    "a BIGINT NULL, PRIMARY KEY (a)", "a BIGINT, b TEXT, PRIMARY KEY (a), INDEX (a)",
    "a BIGINT, b TEXT NULL, PRIMARY KEY (a), INDEX (b)",
    "a BIGINT, b BOOLEAN, PRIMARY KEY (a), INDEX (b)",
    "a BIGINT, b TEXT, PRIMARY KEY (a), INDEX (b), INDEX (b)",
    "a BIGINT, b TEXT, PRIMARY KEY (a), SUM (b)",
    "a BIGINT, b BIGINT, PRIMARY KEY (a), INDEX (b), SUM (b)",
    "a BIGINT, b BIGINT NULL, PRIMARY KEY (a), SUM (b)",
    "a BIGINT, b BIGINT, c BIGINT, d BIGINT, PRIMARY KEY (a), INDEX (b), INDEX (c), "
    "SUM (b), SUM (c), SUM (d)",
    "a BIGINT, b BIGINT, c BIGINT, d BIGINT, PRIMARY KEY (a), INDEX (d), INDEX (b), "
    "SUM (c), SUM (b)",
]


def texts_near(text, rng, count):
    """The text with tokens taken out, doubled, exchanged or put in."""
    pieces = re.findall(r"'(?:[^']|'')*'|\w+|\s+|.", text)
    for _ in range(count):
        out = list(pieces)
        for _ in range(rng.choice([1, 1, 1, 2, 3])):
            at = rng.randrange(len(out) + 1)
            kind = rng.choice(["in", "out", "twice", "swap", "cut"])
            if kind == "in":
                out[at:at] = [rng.choice(["", " "]), rng.choice(ODD), rng.choice(["", " "])]
            elif kind == "out":
                del out[at:at + 1]
            elif kind == "twice":
                out[at:at] = out[max(0, at - 2):at]
            elif kind == "swap" and at < len(out):
                out[at] = rng.choice(ODD)
            elif kind == "cut":
                del out[at:]
        yield "".join(out)


def all_near(good, rng, count):
    """So many texts near each of these."""
    for text in good:
        yield from texts_near(text, rng, count)


def edge_queries():
    """Counts and depths at their limits, and which fault comes first."""
    for n in (31, 32, 33):
        yield "SELECT a FROM t WHERE " + "(" * n + "a = 1" + ")" * n
        yield "SELECT a FROM t WHERE " + "NOT " * n + "a = 1"
        yield "SELECT a FROM t WHERE " + "NOT " * n + "a IS NOT NULL"
        mixed = "(NOT " * (n // 2) + "(" * (n % 2)
        yield "SELECT a FROM t WHERE " + mixed + "a = 1" + ")" * (n - n // 2)
        yield "SELECT a FROM t WHERE " + "(" * n
    for n in (63, 64, 65):
        yield "SELECT " + ", ".join(["a"] * n) + " FROM t"
        yield "SELECT " + ", ".join(["COUNT(*)"] * n) + " FROM t"
        yield "SELECT " + "a, " * n + "FROM t"
    for tail in LIMIT_TAILS:
        yield "SELECT a FROM t " + tail
        yield "SELECT a FROM t AS x WHERE a = 1 " + tail
        yield "SELECT a.x FROM a JOIN b ON a.x = b.x " + tail
        yield "SELECT COUNT(*) FROM t " + tail
    yield from ODD_QUERIES


def edge_scripts():
    """Counts and lengths at their limits, and which fault comes first."""
    for n in (999, 1000, 1001):
        yield DROP * n + "COMMIT;"
        yield DROP * n + ") COMMIT;"
    for n in (31, 32, 33):
        columns = ", ".join(f"c{i} BIGINT" for i in range(n))
        yield "CREATE TABLE t (" + columns + ", PRIMARY KEY (c0)); COMMIT;"
        yield "INSERT INTO t VALUES (" + ", ".join(["1"] * n) + "); COMMIT;"
        yield "UPDATE t SET " + ", ".join(["a = 1"] * n) + " WHERE id = 1; COMMIT;"
        yield "CREATE TABLE t (a BIGINT, PRIMARY KEY (a)" + ", INDEX (a)" * n + "); COMMIT;"
        yield "CREATE TABLE t (a BIGINT, PRIMARY KEY (a)" + ", SUM (a)" * n + ", x); COMMIT;"
    for n in (65533, 65534, 65535, 65536, 65537):
        body = CREATE + "COMMIT"
        yield body + " " * (n - len(body)) + ";"
        yield CREATE + "COMMIT; " + (DROP + "COMMIT").ljust(n) + ";"
        yield CREATE + " " * n + "# COMMIT;"
    yield from ODD_SCRIPTS
    for table in ODD_TABLES:
        yield f"CREATE TABLE t ({table}); COMMIT;"
