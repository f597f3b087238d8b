"""Plain tables: what commands make of them, and what queries give."""

import bisect

from .binding import bind, truth_of
from .faults import BatchFault, CommandFault
from .syntax import Count, Create, Delete, Drop, INDEX, Insert, Schema, Side, Totals, Update
from .values import (
    BOOL, INT, KEY_LIMIT, NULL, NULL_TAG, TEXT, index_key, key_of, value_of_key, wide_value)

MOST_TABLES, MOST_ROWS, MOST_SIDES = 64, (1 << 32) - 1, 4


class Table:
    """A schema and rows (key bytes, cells) whose keys strictly rise."""

    def __init__(self, schema, keys=(), cells=()):
        self.schema = schema
        self.keys = list(keys)
        self.cells = list(cells)

    def copy(self):
        """A table of its own with the same rows."""
        return Table(self.schema, self.keys, self.cells)

    def find(self, key):
        """The place of a key, or None."""
        place = bisect.bisect_left(self.keys, key)
        if place < len(self.keys) and self.keys[place] == key:
            return place
        return None

    def row(self, place):
        """All values of a row in column order."""
        schema = self.schema
        values = list(self.cells[place])
        values.insert(schema.key, value_of_key(schema.key_kind(), self.keys[place]))
        return values

    def rows(self):
        """All rows by rising key."""
        return [self.row(place) for place in range(len(self.keys))]


class Tables:
    """Tables by name; `names` has them in byte order."""

    def __init__(self):
        self.by_name = {}

    def names(self):
        """The names in byte order."""
        return sorted(self.by_name)

    def schema(self, name):
        """A table's schema, or None."""
        table = self.by_name.get(name)
        return table.schema if table else None

    def row_count(self, name):
        """How many rows a table has."""
        return len(self.by_name[name].keys)

    def table_count(self):
        """How many tables there are."""
        return len(self.by_name)

    def copy(self):
        """Tables of their own with the same rows."""
        twin = Tables()
        twin.by_name = {name: table.copy() for name, table in self.by_name.items()}
        return twin


def side_fault(columns, key, sides):
    """Whether CREATE refuses these side trees.  `sides` are pairs
    (kind, column number or None)."""
    if len(sides) > MOST_SIDES or len(set(sides)) != len(sides):
        return True
    for kind, column in sides:
        if column is None or column == key or columns[column].nullable:
            return True
        wanted = (INT, TEXT) if kind == INDEX else (INT,)
        if columns[column].kind not in wanted:
            return True
    return False


def schema_of(create):
    """The schema that a CREATE makes, or None where it is BadSchema."""
    names = [column.name for column in create.columns]
    if len(set(names)) != len(names) or create.key not in names:
        return None
    key = names.index(create.key)
    if create.columns[key].kind == BOOL or create.columns[key].nullable:
        return None
    sides = [(s.kind, names.index(s.column) if s.column in names else None)
             for s in create.sides]
    if side_fault(create.columns, key, sides):
        return None
    return Schema(create.columns, key, tuple(Side(k, c) for k, c in sorted(sides)))


def fits(column, value):
    """Whether a value has the column's kind; NULL is never TypeMismatch."""
    return value[0] in (column.kind, NULL_TAG)


def null_allowed(schema, number, value):
    """Whether a column may have this value, as far as NULL goes."""
    return value != NULL or (schema.columns[number].nullable and number != schema.key)


def catalog_refusal(view, command):
    """The first test of a command that fails by the catalog alone, or None.
    `view` has schema(name), row_count(name) and table_count()."""
    schema = view.schema(command.name)
    if isinstance(command, Create):
        if schema is not None:
            return "TableExists"
        if view.table_count() >= MOST_TABLES:
            return "TooManyTables"
        return "BadSchema" if schema_of(command) is None else None
    if schema is None:
        return "NoTable"
    if isinstance(command, Drop):
        return None
    if isinstance(command, Insert):
        return _insert_refusal(view, schema, command)
    if isinstance(command, Update):
        return _update_refusal(schema, command)
    return _delete_refusal(schema, command)


def _insert_refusal(view, schema, command):
    if len(command.values) != len(schema.columns):
        return "Arity"
    pairs = list(enumerate(command.values))
    if any(not fits(schema.columns[n], v) for n, v in pairs):
        return "TypeMismatch"
    if any(not null_allowed(schema, n, v) for n, v in pairs):
        return "NotNull"
    key = key_of(command.values[schema.key])
    if len(key) > KEY_LIMIT:
        return "KeyTooLong"
    if any(len(index_key(command.values[c], key)) > KEY_LIMIT for c in schema.indexed()):
        return "KeyTooLong"
    if view.row_count(command.name) >= MOST_ROWS:
        return "TableFull"
    return None


def _update_refusal(schema, command):
    numbers = [schema.find(column) for column, _ in command.sets]
    where = schema.find(command.column)
    if None in numbers or where is None:
        return "NoColumn"
    if where != schema.key:
        return "NotKey"
    if schema.key in numbers or len(set(numbers)) != len(numbers):
        return "BadSet"
    pairs = [(n, v) for n, (_, v) in zip(numbers, command.sets)] + [(where, command.value)]
    if any(not fits(schema.columns[n], v) for n, v in pairs):
        return "TypeMismatch"
    if any(not null_allowed(schema, n, v) for n, v in pairs):
        return "NotNull"
    key = key_of(command.value)
    for number, value in pairs[:-1]:
        if number in schema.indexed() and len(index_key(value, key)) > KEY_LIMIT:
            return "KeyTooLong"
    return None


def _delete_refusal(schema, command):
    where = schema.find(command.column)
    if where is None:
        return "NoColumn"
    if where != schema.key:
        return "NotKey"
    if not fits(schema.columns[where], command.value):
        return "TypeMismatch"
    return "NotNull" if command.value == NULL else None


def cells_of(schema, values):
    """The non-key values of a row in column order."""
    return tuple(v for n, v in enumerate(values) if n != schema.key)


def sets_of(schema, command):
    """The SET parts as (attribute number, value)."""
    return tuple((schema.attribute(schema.find(c)), v) for c, v in command.sets)


def apply(tables, command):
    """Changes the tables, or raises CommandFault and leaves them."""
    refusal = catalog_refusal(tables, command)
    if refusal:
        raise CommandFault(refusal)
    if isinstance(command, Create):
        tables.by_name[command.name] = Table(schema_of(command))
    elif isinstance(command, Drop):
        del tables.by_name[command.name]
    else:
        _apply_row(tables.by_name[command.name], command)


def _apply_row(table, command):
    schema = table.schema
    if isinstance(command, Insert):
        key = key_of(command.values[schema.key])
        if table.find(key) is not None:
            raise CommandFault("DuplicateKey")
        place = bisect.bisect_left(table.keys, key)
        table.keys.insert(place, key)
        table.cells.insert(place, cells_of(schema, command.values))
        return
    place = table.find(key_of(command.value))
    if place is None:
        raise CommandFault("NoRow")
    if isinstance(command, Delete):
        del table.keys[place]
        del table.cells[place]
        return
    cells = list(table.cells[place])
    for attribute, value in sets_of(schema, command):
        cells[attribute] = value
    table.cells[place] = tuple(cells)


def apply_batch(tables, commands):
    """The fold of `apply`: the changed copy, or Command{index, fault}; the
    tables that were given stay as they are."""
    twin = tables.copy()
    for index, command in enumerate(commands):
        try:
            apply(twin, command)
        except CommandFault as fault:
            raise BatchFault("Command", index=index, fault=fault.name) from None
    return twin


def result(tables, query):
    """('wrong', fault), or ('rows', header, rows)."""
    bound = bind(tables, query)
    if bound.fault is not None:
        return ("wrong", bound.fault)
    if isinstance(query.items, Totals):
        rows = [_totals_row(tables, bound)]
    elif query.join is None:
        rows = _one_table(tables, bound)
    else:
        rows = _join(tables, bound)
    if query.limit is not None:
        rows = rows[:query.limit]
    return ("rows", bound.header, rows)


def _one_table(tables, bound):
    table = tables.by_name[bound.query.left.table]
    return [[row[column] for _, column in bound.output]
            for row in table.rows() if truth_of(bound.cond, [row]) is True]


def _join(tables, bound):
    """The nested loop; the right rows of one value are looked up in a list
    that keeps their order, which gives the same pairs in the same order."""
    left = tables.by_name[bound.query.left.table]
    right = tables.by_name[bound.query.join.right.table]
    by_value = {}
    for row in right.rows():
        by_value.setdefault(row[bound.join_right], []).append(row)
    out = []
    for row in left.rows():
        value = row[bound.join_left]
        if value == NULL:
            continue
        for other in by_value.get(value, []):
            pair = [row, other]
            if truth_of(bound.cond, pair) is True:
                out.append([pair[side][column] for side, column in bound.output])
    return out


def _totals_row(tables, bound):
    table = tables.by_name[bound.query.left.table]
    rows = [row for row in table.rows() if truth_of(bound.cond, [row]) is True]
    out = []
    for agg, column in bound.aggs:
        if isinstance(agg, Count):
            out.append(wide_value(len(rows)))
        elif rows:
            out.append(wide_value(sum(row[column][1] for row in rows)))
        else:
            out.append(NULL)
    return out
