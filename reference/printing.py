"""Queries and batches as texts."""

from .syntax import (
    All, Any, Count, Create, Drop, INDEX, Insert, IsNull, Not, Ref, Star, Test, Totals, Update)
from .values import BOOL, INT, TEXT


def _literal_text(value):
    tag, content = value
    if tag == INT:
        return str(content)
    if tag == TEXT:
        return "'" + content.decode("utf-8").replace("'", "''") + "'"
    if tag == BOOL:
        return "TRUE" if content else "FALSE"
    return "NULL"


def _ref_text(ref):
    return f"{ref.qualifier} . {ref.column}" if ref.qualifier is not None else ref.column


def _agg_text(agg):
    return "COUNT ( * )" if isinstance(agg, Count) else f"SUM ( {_ref_text(agg.ref)} )"


def _source_text(source):
    return f"{source.table} AS {source.alias}"


def _cond_text(cond):
    if isinstance(cond, Test):
        right = _ref_text(cond.right) if isinstance(cond.right, Ref) else _literal_text(cond.right)
        return f"{_ref_text(cond.left)} {cond.op} {right}"
    if isinstance(cond, IsNull):
        return f"{_ref_text(cond.left)} IS {'NOT ' if cond.negated else ''}NULL"
    if isinstance(cond, Not):
        return "NOT " + _inside(cond.part, (All, Any))
    if isinstance(cond, All):
        return " AND ".join(_inside(part, (All, Any)) for part in cond.parts)
    return " OR ".join(_inside(part, (Any,)) for part in cond.parts)


def _inside(cond, kinds):
    text = _cond_text(cond)
    return f"( {text} )" if isinstance(cond, kinds) else text


def print_query(query):
    """The tokens with one space between each two, no `;` at the end."""
    if isinstance(query.items, Star):
        items = "*"
    elif isinstance(query.items, Totals):
        items = " , ".join(_agg_text(agg) for agg in query.items.aggs)
    else:
        items = " , ".join(_ref_text(ref) for ref in query.items.refs)
    text = f"SELECT {items} FROM {_source_text(query.left)}"
    if query.join:
        text += (f" JOIN {_source_text(query.join.right)} ON "
                 f"{_ref_text(query.join.left_ref)} = {_ref_text(query.join.right_ref)}")
    if query.cond is not None:
        text += " WHERE " + _cond_text(query.cond)
    if query.limit is not None:
        text += f" LIMIT {query.limit}"
    return text


_KIND_TEXT = {INT: "BIGINT", TEXT: "TEXT", BOOL: "BOOLEAN"}


def _command_text(command):
    if isinstance(command, Create):
        parts = [f"{c.name} {_KIND_TEXT[c.kind]}" + (" NULL" if c.nullable else "")
                 for c in command.columns]
        parts.append(f"PRIMARY KEY ( {command.key} )")
        for side in command.sides:
            parts.append(f"{'INDEX' if side.kind == INDEX else 'SUM'} ( {side.column} )")
        return f"CREATE TABLE {command.name} ( {' , '.join(parts)} ) ;"
    if isinstance(command, Drop):
        return f"DROP TABLE {command.name} ;"
    if isinstance(command, Insert):
        values = " , ".join(_literal_text(v) for v in command.values)
        return f"INSERT INTO {command.name} VALUES ( {values} ) ;"
    where = f"WHERE {command.column} = {_literal_text(command.value)} ;"
    if isinstance(command, Update):
        sets = " , ".join(f"{c} = {_literal_text(v)}" for c, v in command.sets)
        return f"UPDATE {command.name} SET {sets} {where}"
    return f"DELETE FROM {command.name} {where}"


def print_batch(commands):
    """The commands, `;` after each."""
    return " ".join(_command_text(command) for command in commands)
