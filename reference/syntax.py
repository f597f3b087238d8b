"""What texts and byte formats stand for: schemas, commands and queries."""

from dataclasses import dataclass
from typing import Optional, Tuple


INDEX, SUM = 1, 2          # SideKind, by its byte


@dataclass(frozen=True)
class Column:
    """A column: its name, its kind, and whether it may be NULL."""
    name: str
    kind: int
    nullable: bool = False


@dataclass(frozen=True)
class Side:
    """A side tree of a schema: kind and column number among all columns."""
    kind: int
    column: int


@dataclass(frozen=True)
class Schema:
    """A table's columns, the number of the key, and its side trees."""
    columns: Tuple[Column, ...]
    key: int
    sides: Tuple[Side, ...] = ()

    def attribute(self, column):
        """The number of a non-key column among the non-key columns."""
        return column if column < self.key else column - 1

    def column_of_attribute(self, attribute):
        """The number of a non-key column among all."""
        return attribute if attribute < self.key else attribute + 1

    def attributes(self):
        """The non-key columns, in column order."""
        return [c for i, c in enumerate(self.columns) if i != self.key]

    def find(self, name):
        """The number of a column, or None."""
        for number, column in enumerate(self.columns):
            if column.name == name:
                return number
        return None

    def key_kind(self):
        """The kind of the key."""
        return self.columns[self.key].kind

    def indexed(self):
        """The indexed columns, in column order."""
        return [s.column for s in self.sides if s.kind == INDEX]

    def summed(self):
        """The columns with totals, in column order."""
        return [s.column for s in self.sides if s.kind == SUM]


@dataclass(frozen=True)
class SideColumn:
    """A side tree as CREATE names it: its kind and the column's name."""
    kind: int
    column: str


@dataclass(frozen=True)
class Create:
    """CREATE TABLE."""
    name: str
    columns: Tuple[Column, ...]
    key: str
    sides: Tuple[SideColumn, ...] = ()


@dataclass(frozen=True)
class Drop:
    """DROP TABLE."""
    name: str


@dataclass(frozen=True)
class Insert:
    """INSERT, a value for each column."""
    name: str
    values: tuple


@dataclass(frozen=True)
class Update:
    """UPDATE, of the row with this key."""
    name: str
    sets: tuple            # of (column name, value)
    column: str
    value: tuple


@dataclass(frozen=True)
class Delete:
    """DELETE, of the row with this key."""
    name: str
    column: str
    value: tuple


@dataclass(frozen=True)
class Ref:
    """A column, perhaps with the alias of its table."""
    qualifier: Optional[str]
    column: str

    def text(self):
        """As a column's title spells it."""
        return f"{self.qualifier}.{self.column}" if self.qualifier else self.column


@dataclass(frozen=True)
class Source:
    """A table, and the name by which it goes."""
    table: str
    alias: str


@dataclass(frozen=True)
class Join:
    """JOIN .. ON, with the references in the order of the text."""
    right: Source
    left_ref: Ref          # the two in text order
    right_ref: Ref


@dataclass(frozen=True)
class Count:
    """COUNT(*)."""


@dataclass(frozen=True)
class Sum:
    """SUM of a column."""
    ref: Ref


@dataclass(frozen=True)
class Star:
    """Items::All."""


@dataclass(frozen=True)
class Refs:
    """A list of columns."""
    refs: Tuple[Ref, ...]


@dataclass(frozen=True)
class Totals:
    """A list of totals."""
    aggs: tuple


@dataclass(frozen=True)
class All:
    """AND of two parts or more."""
    parts: tuple


@dataclass(frozen=True)
class Any:
    """OR of two parts or more."""
    parts: tuple


@dataclass(frozen=True)
class Not:
    """NOT."""
    part: object


@dataclass(frozen=True)
class Test:
    """`right` is a Ref, or a value (a pair)."""
    left: Ref
    op: str
    right: object


@dataclass(frozen=True)
class IsNull:
    """IS NULL, or IS NOT NULL."""
    left: Ref
    negated: bool


@dataclass(frozen=True)
class QueryText:
    """A query as its text says it."""
    items: object
    left: Source
    join: Optional[Join] = None
    cond: object = None
    limit: Optional[int] = None
