"""Catalogs and records, and their bytes."""

from dataclasses import dataclass
from typing import Dict, Tuple

from . import hashing
from .faults import BadForm
from .stages import has
from .syntax import Column, INDEX, SUM, Schema, Side
from .tables import MOST_ROWS, MOST_SIDES, MOST_TABLES, side_fault
from .tree import digest_of, empty_totals, empty_tree
from .values import BOOL, Cursor, INT, TEXT, name_bytes, read_name

MAGICS = (b"VREC", b"VRC2", b"VRC3")
NULLABLE_BIT = SIDES_BIT = 0x80


@dataclass(frozen=True)
class CatalogTable:
    """What a catalog says of a table."""
    schema: Schema
    rows: int
    root: bytes
    side_roots: Tuple[bytes, ...] = ()


class Catalog:
    """Tables by name; it answers the questions of `catalog_refusal`."""

    def __init__(self, by_name=None):
        self.by_name: Dict[str, CatalogTable] = dict(by_name or {})

    def schema(self, name):
        """A table's schema, or None."""
        table = self.by_name.get(name)
        return table.schema if table else None

    def row_count(self, name):
        """How many rows a table has."""
        return self.by_name[name].rows

    def table_count(self):
        """How many tables there are."""
        return len(self.by_name)

    def copy(self):
        """A catalog of its own with the same tables."""
        return Catalog(self.by_name)

    def __eq__(self, other):
        return self.by_name == other.by_name

    def bytes(self):
        """The catalog bytes."""
        return catalog_bytes(self)

    def digest(self):
        """The digest of the catalog."""
        return catalog_digest(catalog_bytes(self))

    def magic(self):
        """VRC3 where any table has side trees, else VRC2 where any column is
        nullable, else VREC."""
        schemas = [t.schema for t in self.by_name.values()]
        if any(s.sides for s in schemas):
            return b"VRC3"
        if any(c.nullable for s in schemas for c in s.columns):
            return b"VRC2"
        return b"VREC"


def new_table(schema):
    """What CREATE puts into a catalog."""
    roots = tuple(digest_of(empty_tree() if s.kind == INDEX else empty_totals())
                  for s in schema.sides)
    return CatalogTable(schema, 0, digest_of(empty_tree()), roots)


def type_byte(column):
    """A column's type byte."""
    return column.kind | (NULLABLE_BIT if column.nullable else 0)


def column_of(name, byte):
    """The column of a name and a type byte."""
    kind = byte & ~NULLABLE_BIT if has("nulls") else byte
    if kind not in (INT, TEXT, BOOL):
        raise BadForm("type byte")
    return Column(name, kind, bool(byte & NULLABLE_BIT))


def table_bytes(name, table):
    """A table's part of the catalog bytes."""
    schema = table.schema
    out = name_bytes(name) + bytes([len(schema.columns)])
    for column in schema.columns:
        out += name_bytes(column.name) + bytes([type_byte(column)])
    out += bytes([schema.key | (SIDES_BIT if schema.sides else 0)])
    out += table.rows.to_bytes(8, "big") + table.root
    if schema.sides:
        out += bytes([len(schema.sides)])
        for side, root in zip(schema.sides, table.side_roots):
            out += bytes([side.kind, side.column]) + root
    return out


def catalog_bytes(catalog):
    """The catalog bytes, tables by rising name."""
    out = len(catalog.by_name).to_bytes(2, "big")
    for name in sorted(catalog.by_name):
        out += table_bytes(name, catalog.by_name[name])
    return out


def catalog_digest(data):
    """`05`, catalog bytes."""
    return hashing.digest(b"\x05" + data)


def read_catalog(data):
    """The catalog that the bytes spell, or BadForm."""
    cursor = Cursor(data)
    count = cursor.number(2)
    if count > MOST_TABLES:
        raise BadForm("tables")
    tables, last = {}, None
    for _ in range(count):
        name = read_name(cursor)
        if last is not None and name <= last:
            raise BadForm("order of tables")
        tables[name] = _read_table(cursor)
        last = name
    cursor.end()
    return Catalog(tables)


def _read_table(cursor):
    count = cursor.number(1)
    if not 1 <= count <= 32:
        raise BadForm("columns")
    columns = []
    for _ in range(count):
        name = read_name(cursor)
        columns.append(column_of(name, cursor.number(1)))
    if len({c.name for c in columns}) != count:
        raise BadForm("two columns of one name")
    key_byte = cursor.number(1)
    key = key_byte & ~SIDES_BIT if has("indexes") else key_byte
    if key >= count or columns[key].kind == BOOL or columns[key].nullable:
        raise BadForm("key column")
    rows = cursor.number(8)
    if rows > MOST_ROWS:
        raise BadForm("row count")
    root = cursor.take(32)
    sides, roots = (), ()
    if key_byte & SIDES_BIT:
        sides, roots = _read_sides(cursor, columns, key)
    return CatalogTable(Schema(tuple(columns), key, sides), rows, root, roots)


def _read_sides(cursor, columns, key):
    count = cursor.number(1)
    if not 1 <= count <= MOST_SIDES:
        raise BadForm("side trees")
    sides, roots = [], []
    for _ in range(count):
        kind, column = cursor.number(1), cursor.number(1)
        if kind not in ((INDEX, SUM) if has("totals") else (INDEX,)) or column >= len(columns):
            raise BadForm("side tree")
        if sides and (kind, column) <= (sides[-1].kind, sides[-1].column):
            raise BadForm("order of side trees")
        sides.append(Side(kind, column))
        roots.append(cursor.take(32))
    if side_fault(columns, key, [(s.kind, s.column) for s in sides]):
        raise BadForm("side tree that CREATE refuses")
    return tuple(sides), tuple(roots)


@dataclass(frozen=True)
class Record:
    """What stands for all tables of a version; the owner signs its bytes."""
    ident: bytes
    version: int
    catalog: bytes          # the catalog's digest
    magic: bytes = b"VREC"

    def bytes(self):
        """The 60 bytes."""
        return self.magic + self.ident + self.version.to_bytes(8, "big") + self.catalog


def record_of(ident, version, catalog):
    """The record of a version with this catalog."""
    return Record(ident, version, catalog.digest(), catalog.magic())


def _known_magics():
    """The magics of the features that count as built."""
    plain, nulls, sides = MAGICS
    return [plain] + [nulls] * has("nulls") + [sides] * has("indexes")


def read_record(data):
    """The record of 60 bytes, or None."""
    if len(data) != 60 or bytes(data[:4]) not in _known_magics():
        return None
    return Record(bytes(data[4:20]), int.from_bytes(data[20:28], "big"),
                  bytes(data[28:60]), bytes(data[:4]))


def take_record(cursor):
    """The record at the cursor, or BadForm."""
    record = read_record(cursor.take(60))
    if record is None:
        raise BadForm("record")
    return record
