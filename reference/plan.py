"""Plans: which trees a query reads, and the rows and needs that part trees give for it."""

from .binding import Place, bounds_column, conjuncts, tests_of, truth_of
from .binding import Test as BoundTest
from .syntax import Count, INDEX, SUM, Side, Totals
from .scans import Need, scan, walk_of
from .totals import totals_of
from .values import (
    EVERYTHING, Interval, NULL, key_of, meet_high, meet_low, point, split_index_key,
    value_of_key, wide_value)

MAIN = "main"          # a tree's place is (table name, MAIN) or (table name, Side)


class Plan:
    """The query bound to a catalog, and what it reads."""

    def __init__(self, bound):
        self.bound = bound
        self.query = bound.query
        self.totals = isinstance(self.query.items, Totals)
        self.limit = self.query.limit
        parts = conjuncts(bound.cond)
        self.left_cond = [c for c in parts if sides_of(c) == {0}]
        self.late_cond = [c for c in parts if sides_of(c) != {0}]
        self.names = [self.query.left.table]
        if self.query.join:
            self.names.append(self.query.join.right.table)
        if self.totals:
            self._plan_totals(parts)
        else:
            self._plan_left(parts)
            self.places = [self.left_place]
            if self.query.join:
                self._plan_right()

    def schema(self, side):
        """The schema of a side."""
        return self.bound.schemas[side]

    def _named(self, side):
        """The columns of that side that the query names anywhere."""
        bound = self.bound
        named = {column for s, column in bound.output if s == side}
        for place in places_of(bound.cond):
            if place.side == side:
                named.add(place.column)
        if self.query.join:
            named.add(bound.join_right if side else bound.join_left)
        return named

    def _attributes(self, side, place):
        """The attributes that a need on that tree names: never the key, and
        on an index not the indexed column."""
        schema = self.schema(side)
        named = self._named(side) - {schema.key}
        if place[1] != MAIN:
            named.discard(place[1].column)
        return frozenset(schema.attribute(column) for column in named)

    def _plan_left(self, parts):
        schema = self.schema(0)
        column, self.left_interval = schema.key, EVERYTHING
        self.left_place = (self.names[0], MAIN)
        if any(bounds_column(c, 0, schema.key) for c in parts):
            self.left_interval = key_interval(parts, schema.key)
        elif self.limit is None:
            for column in schema.indexed():
                if any(bounds_column(c, 0, column) for c in parts):
                    self.left_place = (self.names[0], Side(INDEX, column))
                    self.left_interval = index_interval(parts, column)
                    break
        self.left_need = Need(self.left_interval, self._attributes(0, self.left_place))

    def _plan_right(self):
        schema = self.schema(1)
        where = MAIN
        if self.bound.join_right != schema.key:
            where = Side(INDEX, self.bound.join_right)
        self.right_place = (self.names[1], where)
        self.right_attributes = self._attributes(1, self.right_place)
        if self.right_place not in self.places:
            self.places.append(self.right_place)

    def _plan_totals(self, parts):
        schema = self.schema(0)
        self.left_interval = key_interval(parts, schema.key)
        used = sorted({column for _, column in self.bound.aggs if column is not None})
        if not used:
            used = [schema.summed()[0]]
        self.sum_columns = used
        self.places = [(self.names[0], Side(SUM, column)) for column in used]

    def right_need(self, value):
        """The need of one join value that isn't NULL."""
        key = key_of(value)
        if self.right_place[1] == MAIN:
            return Need(point(key), self.right_attributes)
        return Need(Interval((key + b"\x00", True), (key + b"\x01", False)),
                    self.right_attributes)

    def schema_of_place(self, place):
        """The schema of a tree's table."""
        return self.schema(0 if place[0] == self.names[0] else 1)


def sides_of(cond):
    """The sides that a condition speaks of."""
    return {place.side for place in places_of(cond)}


def places_of(cond):
    """The references of a condition."""
    out = []
    for test in tests_of(cond):
        out.append(test.left)
        if isinstance(test, BoundTest) and isinstance(test.right, Place):
            out.append(test.right)
    return out


def key_interval(parts, key_column):
    """The intersection over the conjuncts `key op literal`."""
    low = high = None
    for c in parts:
        if bounds_column(c, 0, key_column):
            key = key_of(c.right)
            if c.op in ("=", ">=", ">"):
                low = meet_low(low, (key, c.op != ">"))
            if c.op in ("=", "<=", "<"):
                high = meet_high(high, (key, c.op != "<"))
    return Interval(low, high)


def index_interval(parts, column):
    """By index keys, the value's key bytes K: `>= v` from K 00, `> v` from K 01, `< v` below
    K 00, `<= v` below K 01, `=` both."""
    low = high = None
    for c in parts:
        if bounds_column(c, 0, column):
            key = key_of(c.right)
            if c.op in ("=", ">=", ">"):
                low = meet_low(low, (key + (b"\x01" if c.op == ">" else b"\x00"), True))
            if c.op in ("=", "<=", "<"):
                high = meet_high(high, (key + (b"\x00" if c.op == "<" else b"\x01"), False))
    return Interval(low, high)


class Ran:
    """The rows, and the needs (an interval for totals) per tree."""

    def __init__(self, rows, needs):
        self.rows, self.needs = rows, needs


def seen_row(schema, place, key, values):
    """A seen entry as (primary key bytes, values by column number)."""
    row = {schema.column_of_attribute(a): value for a, value in values.items()}
    if place[1] != MAIN:
        value, key = split_index_key(schema.columns[place[1].column].kind,
                                     schema.key_kind(), key)
        row[place[1].column] = value
    row[schema.key] = value_of_key(schema.key_kind(), key)
    return key, row


def true_all(conds, rows):
    """Whether the rows meet all of these conditions."""
    return all(truth_of(cond, rows) is True for cond in conds)


def cut_need(plan, tree):
    """Under LIMIT n: where n entries of the walk meet the condition, the interval ends
    with the key of the n-th."""
    schema, met = plan.schema(0), 0
    walk, _ = walk_of(tree, plan.left_need)
    for key, values in walk:
        _, row = seen_row(schema, plan.left_place, key, values)
        if true_all(plan.left_cond, [row]):
            met += 1
            if met == plan.limit:
                low, _ = plan.left_need.interval
                return Need(Interval(low, (key, True)), plan.left_need.columns)
    return plan.left_need


def run_plan(plan, trees):
    """Rows and needs from part trees, or Missing.  The trees are those of
    `plan.places`, in that order."""
    if plan.totals:
        return _run_totals(plan, trees)
    left_tree = trees[0]
    need = plan.left_need
    if plan.limit is not None:
        need = cut_need(plan, left_tree)
    schema = plan.schema(0)
    lefts = [seen_row(schema, plan.left_place, key, values)
             for key, values in scan(left_tree, need)]
    if plan.left_place[1] != MAIN:
        lefts.sort(key=lambda pair: pair[0])
    rows = [row for _, row in lefts if true_all(plan.left_cond, [row])]
    needs = [[need]] + [[] for _ in trees[1:]]
    if plan.query.join is None:
        out = [[row[column] for _, column in plan.bound.output] for row in rows]
        if plan.limit is not None:
            out = out[:plan.limit]
        return Ran(out, needs)
    return _run_join(plan, trees, rows, needs)


def _run_join(plan, trees, lefts, needs):
    number = plan.places.index(plan.right_place)
    schema, out, known = plan.schema(1), [], {}
    for left in lefts:
        value = left[plan.bound.join_left]
        if value == NULL:
            continue
        need = plan.right_need(value)
        needs[number].append(need)
        if need not in known:
            known[need] = [seen_row(schema, plan.right_place, key, values)[1]
                           for key, values in scan(trees[number], need)]
        for right in known[need]:
            pair = [left, right]
            if true_all(plan.late_cond, pair):
                out.append([pair[side][column] for side, column in plan.bound.output])
    return Ran(out, needs)


def _run_totals(plan, trees):
    found = {column: totals_of(tree, plan.left_interval)
             for column, tree in zip(plan.sum_columns, trees)}
    row = []
    for agg, column in plan.bound.aggs:
        if isinstance(agg, Count):
            row.append(wide_value(found[plan.sum_columns[0]][0]))
        else:
            count, total = found[column]
            row.append(wide_value(total) if count else NULL)
    return Ran([row], [plan.left_interval for _ in trees])
