"""The same tables in sqlite3, and the rows that it gives for a query."""

import re
import sqlite3

from ..sql import parse_query
from ..values import BOOL, INT, NULL, TEXT, WIDE

SIDE_TREES = re.compile(r" , (INDEX|SUM) \( \w+ \)")


class TooWide(Exception):
    """A total that is beyond 64 bits, which sqlite3 has not."""


class SqliteTables:
    """Tables made by the commands of a printed script, which has a blank between any two tokens."""

    def __init__(self, script, tables):
        self.tables = tables
        self.database = sqlite3.connect(":memory:")
        for command in script.split(" ;"):
            text = SIDE_TREES.sub("", command).strip()
            if text not in ("", "COMMIT"):
                self.database.execute(text.removeprefix("COMMIT "))

    def order_of(self, query):
        """The keys by which rows come: that of the left table, and then that of the right one."""
        sources = [query.left] + ([query.join.right] if query.join else [])
        schemas = [self.tables.schema(source.table) for source in sources]
        return ", ".join(f"{source.alias}.{schema.columns[schema.key].name}"
                         for source, schema in zip(sources, schemas))

    def rows(self, text):
        """The rows of a query, in order, as sqlite3's values."""
        query = parse_query(text)
        order = f" ORDER BY {self.order_of(query)}"
        body, limit, count = text.partition(" LIMIT ")
        try:
            return [list(row) for row in self.database.execute(body + order + limit + count)]
        except sqlite3.OperationalError as fault:
            if "integer overflow" in str(fault):
                raise TooWide() from None
            raise


def plain_value(value):
    """A value as sqlite3 has it: truth values are 0 and 1 there."""
    tag, content = value
    if value == NULL:
        return None
    return {INT: int, BOOL: int, WIDE: int, TEXT: bytes.decode}[tag](content)


def plain_rows(rows):
    """Rows as sqlite3 has them."""
    return [[plain_value(value) for value in row] for row in rows]
