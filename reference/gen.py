"""The command `gen`: a workload of a ChaCha8 generator's words, run through all parties."""

from .audit import audit
from .chacha import chacha8_words
from .check import Client
from .histories import History
from .lms import SecretKey
from .sql import parse_query
from .syntax import Column, Create, Delete, Insert, Update
from .values import INT, TEXT, int_value, text_value


def seed_of(number):
    """The generator's seed of a number."""
    return number.to_bytes(8, "little") + bytes(24)


def generate(n, number):
    """Work: (batches, queries)."""
    words, most = chacha8_words(seed_of(number), 2 * n + 32), 2 * n + 16
    create = Create("t", (Column("id", INT), Column("name", TEXT), Column("boss", INT)), "id")
    steps, rows = [], set()
    for i in range(n):
        a, b = words[2 * i], words[2 * i + 1]
        k = a % most
        if k not in rows:
            rows.add(k)
            steps.append(Insert("t", (int_value(k), text_value(f"n{b}"), int_value(b % most))))
        elif b % 2 == 0:
            rows.discard(k)
            steps.append(Delete("t", "id", int_value(k)))
        else:
            steps.append(Update("t", (("boss", int_value(b % most)),), "id", int_value(k)))
    batches = [(create,)] + [tuple(steps[i:i + 100]) for i in range(0, n, 100)]
    queries = []
    for j in range(16):
        a, b = words[2 * n + 2 * j], words[2 * n + 2 * j + 1]
        low = a % most
        high = low + b % 64
        if j % 2 == 0:
            text = f"SELECT * FROM t WHERE id >= {low} AND id < {high}"
        else:
            text = ("SELECT a.id, b.name FROM t AS a JOIN t AS b ON a.boss = b.id "
                    f"WHERE a.id >= {low} AND a.id < {high}")
        queries.append(parse_query(text))
    return batches, queries


def gen_lines(n, number):
    """What `gen N NUMBER` writes."""
    batches, queries = generate(n, number)
    key = SecretKey.make(bytes(16), seed_of(number), 4, 10)
    public, history = key.public(), History(key)
    for batch in batches:
        history.commit(batch)
    journal, client = history.journal_bytes(), Client(public)
    rows = exact = 0
    for query in queries:
        reply = history.store.answer(query)
        rows += len(client.check(query, reply).outcome[2])
        exact += audit(public, journal, query, reply)[0] == "exact"
    count = history.store.trees().row_count("t")
    return [f"commands {n + 1}", f"version {history.store.version()}", f"rows {count}",
            f"answers {len(queries)}", f"answer rows {rows}", f"exact {exact}",
            f"last {history.entries[-1].rec.bytes().hex()}"]
