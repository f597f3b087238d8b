"""The changes that a row command makes on its table's trees, in order: the main tree, then the
indexes, then the trees of totals, each in column order."""

from .syntax import Delete, INDEX, Insert, Update
from .tables import cells_of, sets_of
from .changes import Op
from .values import index_key, key_of


def row_key(schema, command):
    """The key bytes that a row command works on."""
    if isinstance(command, Insert):
        return key_of(command.values[schema.key])
    return key_of(command.value)


def main_op(schema, command):
    """The work on the main tree; `shown` are the indexed attributes."""
    key = row_key(schema, command)
    shown = [schema.attribute(c) for c in schema.indexed()]
    if isinstance(command, Insert):
        return Op("insert", key, cells=cells_of(schema, command.values))
    if isinstance(command, Update):
        return Op("replace", key, sets=sets_of(schema, command), shown=shown)
    return Op("remove", key, shown=shown)


def new_part(op, old_part):
    """The row part that a main work leaves: that of the new row (its cells
    shown or hidden as they were), or None after a removal."""
    if op.name == "insert":
        return tuple(op.cells)
    if op.name == "remove":
        return None
    cells = list(old_part)
    for attribute, value in op.sets:
        cells[attribute] = value
    return tuple(cells)


def side_ops(schema, command, old_cells, part):
    """Pairs (number of the side tree, work).  `old_cells` is the row part that
    was found (its indexed cells are shown), `part` the new row's part."""
    key = row_key(schema, command)
    out = []
    for number, side in enumerate(schema.sides):
        works = _index_ops if side.kind == INDEX else _totals_ops
        out += [(number, op) for op in works(schema, command, side.column, key, old_cells, part)]
    return out


def _new_value(schema, command, column):
    """The value that UPDATE gives a column, or None."""
    for name, value in command.sets:
        if schema.find(name) == column:
            return value
    return None


def _index_ops(schema, command, column, key, old_cells, part):
    if isinstance(command, Insert):
        return [Op("put", index_key(command.values[column], key), part=part)]
    old = old_cells[schema.attribute(column)]
    if isinstance(command, Delete):
        return [Op("remove", index_key(old, key))]
    new = _new_value(schema, command, column)
    if new is None or new == old:
        return [Op("set", index_key(old, key), part=part)]
    return [Op("remove", index_key(old, key)), Op("put", index_key(new, key), part=part)]


def _totals_ops(schema, command, column, key, old_cells, part):
    if isinstance(command, Insert):
        return [Op("tput", key, value=command.values[column][1])]
    if isinstance(command, Delete):
        return [Op("tremove", key)]
    new = _new_value(schema, command, column)
    return [] if new is None else [Op("tset", key, value=new[1])]
