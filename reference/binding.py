"""Queries bound to schemas: why one is wrong, and when a row meets its condition."""

from dataclasses import dataclass, field

from .syntax import All, Any, Count, IsNull, Not, Ref, Refs, Star, Sum, Test, Totals
from .values import NULL, NULL_TAG

BOUND_OPS = ("=", "<", "<=", ">", ">=")


@dataclass
class Bound:
    """A query whose references are (side, column number); `fault` is a
    QueryFault as a tuple, its name first, or None."""
    query: object
    fault: object = None
    schemas: list = field(default_factory=list)
    header: list = field(default_factory=list)
    output: list = field(default_factory=list)
    cond: object = None            # with pairs in place of references
    join_left: object = None       # column number of ON's left side
    join_right: object = None
    aggs: list = field(default_factory=list)   # (agg, column or None)


class _Wrong(Exception):
    def __init__(self, *fault):
        super().__init__(fault)
        self.fault = fault


def bind(tables, query):
    """The query bound to the tables, or the first of its tests that fails, in order; `tables` is
    anything with `schema(name)`."""
    try:
        return _bind(tables, query)
    except _Wrong as wrong:
        return Bound(query, fault=wrong.fault)


def _bind(tables, query):
    sources = [query.left] + ([query.join.right] if query.join else [])
    schemas = []
    for source in sources:
        schema = tables.schema(source.table)
        if schema is None:
            raise _Wrong("NoTable", source.table)
        schemas.append(schema)
    if len(sources) == 2 and sources[0].alias == sources[1].alias:
        raise _Wrong("Ambiguous", sources[0].alias)
    bound = Bound(query, schemas=schemas)
    resolve = _resolver(sources, schemas)
    _bind_items(bound, resolve, sources)
    on = [resolve(r) for r in (query.join.left_ref, query.join.right_ref)] if query.join else []
    bound.cond = _bind_cond(query.cond, resolve)
    if isinstance(query.items, Totals):
        _test_totals(bound)
    if query.join:
        _test_on(bound, on)
    _test_kinds(bound)
    if isinstance(query.items, Totals) and not _is_range(bound):
        raise _Wrong("NotRange")
    return bound


def _resolver(sources, schemas):
    """A reference's side and column: NoTable, NoColumn, Ambiguous in order."""
    def resolve(ref):
        sides = [side for side, source in enumerate(sources)
                 if ref.qualifier in (None, source.alias)]
        if not sides:
            raise _Wrong("NoTable", ref.qualifier)
        found = [(side, schemas[side].find(ref.column)) for side in sides
                 if schemas[side].find(ref.column) is not None]
        if not found:
            raise _Wrong("NoColumn", ref.text())
        if len(found) == 2:
            raise _Wrong("Ambiguous", ref.text())
        return found[0]
    return resolve


def _bind_items(bound, resolve, sources):
    items = bound.query.items
    if isinstance(items, Star):
        _bind_star(bound, sources)
    elif isinstance(items, Refs):
        bound.header = [ref.text() for ref in items.refs]
        bound.output = [resolve(ref) for ref in items.refs]
    else:
        _bind_totals(bound, resolve)


def _bind_star(bound, sources):
    """All columns, of two tables with the alias before each."""
    for side, schema in enumerate(bound.schemas):
        front = f"{sources[side].alias}." if len(sources) == 2 else ""
        bound.header += [front + column.name for column in schema.columns]
        bound.output += [(side, number) for number in range(len(schema.columns))]


def _bind_totals(bound, resolve):
    for agg in bound.query.items.aggs:
        if isinstance(agg, Count):
            bound.header.append("COUNT(*)")
            bound.aggs.append((agg, None))
        else:
            bound.header.append(f"SUM({agg.ref.text()})")
            bound.aggs.append((agg, resolve(agg.ref)[1]))


def _bind_cond(cond, resolve):
    """The condition with each reference as its (side, column) pair, wrapped
    as a Place so that it is told from a value."""
    if cond is None:
        return None
    if isinstance(cond, All):
        return All(tuple(_bind_cond(part, resolve) for part in cond.parts))
    if isinstance(cond, Any):
        return Any(tuple(_bind_cond(part, resolve) for part in cond.parts))
    if isinstance(cond, Not):
        return Not(_bind_cond(cond.part, resolve))
    left = Place(*resolve(cond.left))
    if isinstance(cond, IsNull):
        return IsNull(left, cond.negated)
    right = Place(*resolve(cond.right)) if isinstance(cond.right, Ref) else cond.right
    return Test(left, cond.op, right)


@dataclass(frozen=True)
class Place:
    """A reference that was resolved: the side, and the number of the column there."""
    side: int
    column: int


def _test_totals(bound):
    """NoTotals: a summed column without a totals tree, or COUNT where the
    table has none."""
    summed = bound.schemas[0].summed()
    for agg, column in bound.aggs:
        if isinstance(agg, Sum) and column not in summed:
            raise _Wrong("NoTotals")
        if isinstance(agg, Count) and not summed:
            raise _Wrong("NoTotals")


def _test_on(bound, on):
    """NotKeyJoin, then TypeMismatch of ON."""
    by_side = dict(on)
    if len(by_side) != 2:
        raise _Wrong("NotKeyJoin")
    right = bound.schemas[1]
    if by_side[1] != right.key and by_side[1] not in right.indexed():
        raise _Wrong("NotKeyJoin")
    bound.join_left, bound.join_right = by_side[0], by_side[1]
    if bound.schemas[0].columns[by_side[0]].kind != right.columns[by_side[1]].kind:
        raise _Wrong("TypeMismatch")


def _kind(bound, operand):
    if isinstance(operand, Place):
        return bound.schemas[operand.side].columns[operand.column].kind
    return operand[0]


def _test_kinds(bound):
    """Comparisons of WHERE in text order; never by NULL."""
    for test in tests_of(bound.cond):
        if isinstance(test, Test):
            kinds = {_kind(bound, test.left), _kind(bound, test.right)} - {NULL_TAG}
            if len(kinds) == 2:
                raise _Wrong("TypeMismatch")


def tests_of(cond):
    """The tests of a condition in text order."""
    if cond is None:
        return []
    if isinstance(cond, (All, Any)):
        return [t for part in cond.parts for t in tests_of(part)]
    if isinstance(cond, Not):
        return tests_of(cond.part)
    return [cond]


def conjuncts(cond):
    """The members of the outer ANDs, nested ANDs flattened."""
    if cond is None:
        return []
    if isinstance(cond, All):
        return [c for part in cond.parts for c in conjuncts(part)]
    return [cond]


def bounds_column(conjunct, side, column):
    """Whether a conjunct is `column op literal` that bounds an interval."""
    return (isinstance(conjunct, Test) and conjunct.left == Place(side, column)
            and conjunct.op in BOUND_OPS and not isinstance(conjunct.right, Place)
            and conjunct.right != NULL)


def _is_range(bound):
    key = bound.schemas[0].key
    return all(bounds_column(c, 0, key) for c in conjuncts(bound.cond))


def compare(op, a, b):
    """Two values of one kind by the kind's order; unknown (None) by NULL."""
    if a == NULL or b == NULL:
        return None
    x, y = a[1], b[1]
    return {"=": x == y, "<>": x != y, "<": x < y, "<=": x <= y,
            ">": x > y, ">=": x >= y}[op]


def truth_of(cond, rows):
    """True, False, or None for unknown.  `rows` holds, per side, values
    by column number."""
    if cond is None:
        return True
    if isinstance(cond, Test):
        left = rows[cond.left.side][cond.left.column]
        right = cond.right
        if isinstance(right, Place):
            right = rows[right.side][right.column]
        return compare(cond.op, left, right)
    if isinstance(cond, IsNull):
        return (rows[cond.left.side][cond.left.column] == NULL) != cond.negated
    if isinstance(cond, Not):
        inner = truth_of(cond.part, rows)
        return None if inner is None else not inner
    parts = [truth_of(part, rows) for part in cond.parts]
    decisive = isinstance(cond, Any)
    if any(part is decisive for part in parts):
        return decisive
    return None if any(part is None for part in parts) else not decisive
