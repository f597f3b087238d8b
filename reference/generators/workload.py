"""Seeded random scripts and queries, for differential tests.

`Workload(seed)` has `batches` (accepted ones, as command tuples), `script`
(their text), `queries` (texts) and `refused` (batches, each of which the tables
after all batches refuse, as texts).  The same seed always gives the same.
"""

import random

from ..faults import BatchFault, CommandFault, SqlFault
from ..printing import print_batch
from ..sql import parse_batch
from ..stages import has
from ..syntax import Column, Create, Delete, Drop, INDEX, Insert, SUM, SideColumn, Update
from ..tables import Tables, apply, apply_batch
from ..values import BOOL, INT, NULL, TEXT, bool_value, int_value, literal, text_value, value_of_key

TEXTS = ["", "a", "ab", "b", "ann", "bob", "it''s".replace("''", "'"), "x y", "\u00e9t\u00e9",
         "\u4e2d\u6587", "%_", "zz", "A", "Z", "\U0001f600", "0", "10", "9"]
OPS = ["=", "<>", "<", "<=", ">", ">=", "!="]
COUNTS = [1, 1, 2, 2, 3, 4, 5, 7, 8, 9, 12, 16, 17, 30, 100, 4_294_967_295]


def _is_text(batch):
    """Whether a batch's text is one by the features that count as built."""
    try:
        return bool(parse_batch(batch))
    except SqlFault:
        return False


class Workload:
    """Random tables, as a script's batches make them, and queries on them.

    Where `nulls` isn't said, three of four have columns that may be NULL.
    """

    def __init__(self, seed, tables=3, batches=8, commands=12, queries=40, sides=True,
                 nulls=None, long_texts=True, spread=60):
        self.rng = random.Random(seed)
        nulls = self.rng.random() < 0.75 if nulls is None else nulls
        self.sides, self.nulls = sides and has("indexes"), nulls and has("nulls")
        self.long_texts, self.spread = long_texts, spread
        self.tables = Tables()
        self.batches = []
        self._make_batches(tables, batches, commands)
        self.script = " ".join(print_batch(b) + " COMMIT ;" for b in self.batches)
        self.queries = [self.query() for _ in range(queries)]
        self.refused = list(filter(_is_text, map(print_batch, self._refused_batches())))

    # -- schemas
    def _create(self, name):
        rng = self.rng
        kinds = [rng.choice([INT, TEXT, INT, TEXT, BOOL]) for _ in range(rng.randint(0, 5))]
        columns = [Column(f"c{i}", kind, self.nulls and rng.random() < 0.3)
                   for i, kind in enumerate(kinds)]
        if self.nulls and rng.random() < 0.6:
            columns.append(Column(f"c{len(kinds)}", rng.choice([INT, TEXT, BOOL]), True))
        key = Column("id" if rng.random() < 0.7 else "k", rng.choice([INT, INT, TEXT]))
        columns.insert(rng.randint(0, len(columns)) if rng.random() < 0.4 else 0, key)
        return Create(name, tuple(columns), key.name, self._sides(columns, key))

    def _sides(self, columns, key):
        rng, out = self.rng, []
        if not self.sides or rng.random() < 0.3:
            return ()
        plain = [c for c in columns if c is not key and not c.nullable]
        for kind, kinds in ((INDEX, (INT, TEXT)), (SUM, (INT,))):
            fit = [c for c in plain if c.kind in kinds]
            rng.shuffle(fit)
            if kind == INDEX or has("totals"):
                out += [SideColumn(kind, c.name) for c in fit[:rng.randint(0, 2)]]
        return tuple(out[:4])

    # -- values
    def value(self, column, small=True):
        """A value that a column takes."""
        rng = self.rng
        if column.nullable and rng.random() < 0.2:
            return NULL
        if column.kind == INT:
            if rng.random() < 0.04:
                return int_value(rng.choice([-(1 << 63), (1 << 63) - 1, 0, -1]))
            return int_value(rng.randint(-5, self.spread))
        if column.kind == BOOL:
            return bool_value(rng.random() < 0.5)
        if self.long_texts and rng.random() < 0.03:
            return text_value("q" * rng.choice([200, 255, 256, 1000, 1024]))
        if rng.random() < 0.3:
            return text_value(f"k{rng.randint(0, self.spread)}")
        return text_value(rng.choice(TEXTS))

    def key_of_some_row(self, table):
        """Mostly a key that is there."""
        column = table.schema.columns[table.schema.key]
        if table.keys and self.rng.random() < 0.85:
            return value_of_key(column.kind, self.rng.choice(table.keys))
        return self.value(column)

    # -- commands
    def command(self, tables):
        """A command, which the tables mostly take."""
        rng, names = self.rng, tables.names()
        name = rng.choice(names)
        table = tables.by_name[name]
        schema = table.schema
        key = schema.columns[schema.key].name
        choice = rng.random()
        others = schema.attributes()
        if choice < 0.6 or not table.keys:
            return Insert(name, tuple(self.value(c) for c in schema.columns))
        if choice < 0.8 and others:
            some = rng.sample(others, rng.randint(1, len(others)))
            sets = tuple((c.name, self.value(c)) for c in some)
            return Update(name, sets, key, self.key_of_some_row(table))
        return Delete(name, key, self.key_of_some_row(table))

    def _make_batches(self, tables, batches, commands):
        creates = tuple(self._create(f"t{i}") for i in range(tables))
        self._take(creates)
        for number in range(batches):
            twin, batch = self.tables.copy(), []
            if self.rng.random() < 0.08 and len(twin.names()) > 1:
                batch.append(Drop(self.rng.choice(twin.names())))
                apply(twin, batch[0])
                if self.rng.random() < 0.7:
                    batch.append(self._create(batch[0].name))
                    apply(twin, batch[1])
            tries = 0
            while len(batch) < commands and tries < 50 * commands:
                tries += 1
                command = self.command(twin)
                try:
                    apply(twin, command)
                    batch.append(command)
                except CommandFault:
                    pass
            if batch:
                self._take(tuple(batch))

    def _take(self, batch):
        self.tables = apply_batch(self.tables, batch)
        self.batches.append(batch)

    def _refused_batches(self):
        out = []
        for _ in range(300):
            commands = [self._odd_command() for _ in range(self.rng.randint(1, 4))]
            try:
                apply_batch(self.tables, commands)
            except BatchFault:
                out.append(tuple(commands))
        return out[:60]

    def _odd_command(self):
        """A command with something changed at random."""
        rng = self.rng
        command = self.command(self.tables)
        kinds = [int_value(3), text_value("z"), bool_value(True),
                 NULL if self.nulls else int_value(4),
                 text_value("w" * 256), text_value("w" * 250)]
        choice = rng.random()
        if choice < 0.3:
            return command
        if choice < 0.4:
            return rng.choice([Drop("nope"),
                               self._create(rng.choice(self.tables.names())),
                               self._bad_create()])
        if isinstance(command, Insert):
            values = list(command.values)
            if rng.random() < 0.2:
                return Insert(command.name, tuple(values[:-1] or values * 2))
            values[rng.randrange(len(values))] = rng.choice(kinds)
            return Insert(rng.choice([command.name, "nope"]) if rng.random() < 0.1
                          else command.name, tuple(values))
        if isinstance(command, Update):
            sets = list(command.sets)
            place = rng.randrange(len(sets))
            sets[place] = rng.choice([(sets[place][0], rng.choice(kinds)), sets[0],
                                      (command.column, command.value), ("nope", NULL)])
            sets += [sets[0]] if rng.random() < 0.1 else []
            column = command.column if rng.random() < 0.9 else rng.choice(["nope", sets[0][0]])
            return Update(command.name, tuple(sets), column,
                          rng.choice([command.value, rng.choice(kinds)]))
        column = command.column if rng.random() < 0.8 else rng.choice(["nope", "c0"])
        return Delete(command.name, column, rng.choice([command.value, rng.choice(kinds)]))

    def _bad_create(self):
        rng = self.rng
        columns = [Column(rng.choice("ab"), rng.choice([INT, TEXT, BOOL]), rng.random() < 0.3)
                   for _ in range(rng.randint(1, 3))]
        sides = [SideColumn(INDEX, rng.choice("abc")) for _ in range(rng.randint(0, 2))]
        sides += [SideColumn(SUM, rng.choice("abc")) for _ in range(rng.randint(0, 2))]
        return Create("fresh", tuple(columns), rng.choice("abc"), tuple(sides))

    # -- queries, as texts
    def query(self):
        """A query, which is mostly right."""
        rng = self.rng
        names = self.tables.names()
        if rng.random() < 0.03:
            names = names + ["nope"]
        left = rng.choice(names)
        choice = rng.random()
        if choice < 0.35:
            return self._join_query(left, rng.choice(names))
        if choice < 0.5 and has("totals") and left in self.tables.by_name:
            return self._totals_query(left)
        refs = self._refs([(None, left)])
        text = f"SELECT {self._items(refs)} FROM {left}"
        if rng.random() < 0.85:
            text += " WHERE " + self._cond(refs, 0)
        if has("limit") and rng.random() < 0.5:
            text += f" LIMIT {rng.choice(COUNTS)}"
        return text

    def _refs(self, sources):
        """(reference text, column) of the columns that sources have."""
        out = []
        for alias, name in sources:
            schema = self.tables.schema(name)
            for number, column in enumerate(schema.columns if schema else []):
                front = f"{alias}." if alias else ""
                out.append((front + column.name, column, number == schema.key, alias))
        return out or [("id", Column("id", INT), True, None)]

    def _items(self, refs):
        rng = self.rng
        if rng.random() < 0.25:
            return "*"
        items = [rng.choice(refs)[0] for _ in range(rng.randint(1, 3))]
        if rng.random() < 0.02:
            items[0] = "nope"
        return ", ".join(items)

    def _literal(self, column):
        rng = self.rng
        if self.nulls and rng.random() < 0.04:
            return "NULL"
        if rng.random() < 0.02:
            return rng.choice(["1", "'a'", "TRUE"])
        plain = Column(column.name, column.kind)
        return literal(self.value(plain))

    def _test(self, refs):
        rng = self.rng
        name, column, is_key, _ = rng.choice(refs)
        if rng.random() < 0.45:
            keys = [r for r in refs if r[2]]
            name, column, is_key, _ = rng.choice(keys)
        if self.nulls and rng.random() < (0.25 if column.nullable else 0.05):
            return f"{name} IS {rng.choice(['', 'NOT '])}NULL"
        op = rng.choice(OPS)
        same = [r[0] for r in refs if r[1].kind == column.kind]
        if rng.random() < 0.15:
            return f"{name} {op} {rng.choice(same)}"
        return f"{name} {op} {self._literal(column)}"

    def _cond(self, refs, depth):
        rng = self.rng
        choice = rng.random()
        if depth >= 3 or choice < 0.35:
            return self._test(refs)
        if choice < 0.75:
            return " AND ".join(self._part(refs, depth) for _ in range(rng.randint(2, 3)))
        if choice < 0.9:
            return " OR ".join(self._part(refs, depth) for _ in range(2))
        return "NOT " + self._part(refs, depth)

    def _part(self, refs, depth):
        inner = self._cond(refs, depth + 1)
        return inner if self.rng.random() < 0.3 and " " not in inner else f"({inner})"

    def _join_query(self, left, right):
        rng = self.rng
        refs = self._refs([("a", left), ("b", right)])
        ours = [r for r in refs if r[3] == "a"] or refs
        theirs = [r for r in refs if r[3] == "b"] or refs
        schema = self.tables.schema(right)
        indexed = schema.indexed() if schema else []
        good = [r for r in theirs if r[2] or (schema and schema.find(r[1].name) in indexed)]
        target = rng.choice(good if good and rng.random() < 0.95 else theirs)
        same = [r for r in ours if r[1].kind == target[1].kind] or ours
        pair = [rng.choice(same)[0], target[0]]
        if rng.random() < 0.3:
            pair.reverse()
        text = (f"SELECT {self._items(refs)} FROM {left} AS a JOIN {right} AS b "
                f"ON {pair[0]} = {pair[1]}")
        if rng.random() < 0.6:
            text += " WHERE " + self._cond(refs, 1)
        return text

    def _totals_query(self, name):
        rng = self.rng
        schema = self.tables.schema(name)
        summed = [schema.columns[c].name for c in schema.summed()]
        aggs = ["COUNT(*)"] + [f"SUM({c})" for c in summed]
        if rng.random() < 0.05:
            aggs.append(f"SUM({schema.columns[-1].name})")
        items = ", ".join(rng.choice(aggs) for _ in range(rng.randint(1, 3)))
        text = f"SELECT {items} FROM {name}"
        key = schema.columns[schema.key]
        parts = [f"{key.name} {rng.choice(['=', '<', '<=', '>', '>='])} {self._literal(key)}"
                 for _ in range(rng.randint(0, 2))]
        if parts:
            text += " WHERE " + " AND ".join(parts)
        return text
