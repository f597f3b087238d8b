"""Part trees of any shape, and replies and changes made of them."""

from ..binding import bind
from ..changes import do_op, is_update_proof
from ..faults import Missing, UpdateFault
from ..formats import read_reply, tree_bytes
from ..plan import MAIN, Plan, run_plan
from ..scans import Named, shown_part, visited_by
from ..syntax import SUM
from ..totals import totals_marks
from ..tree import (
    Entry, Inner, Leaf, Stub, TChild, TEntry, TInner, TLeaf, cell_digest, close_except, row_digest,
    totals_held)
from ..values import BOOL, INT, NULL, bool_value, index_key, int_value, key_of, text_value
from .mutate import resign, rooted


class OddTrees:
    """Random part trees of any shape for one schema: lying separators, keys
    out of order and twice, empty leaves, leaves beside inner nodes, rows shown
    at will."""

    def __init__(self, rng, schema, keys, shown=None):
        self.rng, self.schema, self.keys = rng, schema, list(keys)
        self.shown = rng.choice([0.0, 0.5, 0.9, 1.0]) if shown is None else shown
        self.stubs = rng.choice([0.0, 0.1, 0.3])

    def tree(self, where, depth=None):
        """A tree for a place: the main one, or a side tree."""
        depth = self.rng.choice([1, 2, 2, 3, 3, 4]) if depth is None else depth
        self.where, self.totals = where, where != MAIN and where.kind == SUM
        return self.node(depth, 0, len(self.keys))

    def node(self, depth, low, high):
        """A node of at most so many levels over the keys from `low` to `high`."""
        rng = self.rng
        if rng.random() < self.stubs:
            return Stub(bytes(rng.randrange(256) for _ in range(32)))
        if depth <= 1 or rng.random() < 0.1:
            return self.leaf(low, high)
        count = rng.choice([2, 2, 3, 4, 7, 8])
        cuts = sorted(rng.randint(low, high) for _ in range(count - 1))
        bounds = [low] + cuts + [high]
        children = [self.node(depth - 1, bounds[i], bounds[i + 1]) for i in range(count)]
        separators = [self.key(min(c, len(self.keys) - 1)) for c in cuts]
        if rng.random() < 0.2:
            rng.shuffle(separators)
        if self.totals:
            return TInner(separators, [self.slot(child) for child in children])
        return Inner(separators, children)

    def slot(self, child):
        """A child with its totals, or with others."""
        if isinstance(child, Stub) or self.rng.random() < 0.2:
            return TChild(self.rng.choice([0, 1, 3, (1 << 64) - 1]),
                          self.rng.choice([0, 5, -(1 << 127), (1 << 127) - 1]), child)
        return TChild(*totals_held(child), child)

    def leaf(self, low, high):
        """A leaf of some of these keys, and sometimes of others."""
        rng = self.rng
        span = list(range(low, high)) or [rng.randrange(len(self.keys))]
        places = sorted(rng.sample(span, min(len(span), rng.choice([0, 1, 2, 5, 8, 9, 16]))))
        if rng.random() < 0.15 and places:
            rng.shuffle(places)
        if rng.random() < 0.15 and places:
            places = (places + [rng.choice(places)])[:16]
        if rng.random() < 0.1:
            places = (places + [rng.randrange(len(self.keys))])[:16]
        if self.totals:
            return TLeaf(TEntry(self.key(p), rng.randint(-9, 9)) for p in places)
        return Leaf(Entry(self.key(p), self.part(p)) for p in places)

    def key(self, place):
        """A key of the tree's own kind for a place in the list of keys."""
        key = self.keys[place]
        if self.where != MAIN and not self.totals:
            return index_key(self.value(self.schema.columns[self.where.column], place), key)
        return key

    def value(self, column, place):
        """A value of a column."""
        if column.nullable and self.rng.random() < 0.3:
            return NULL
        number = (place * 7) % 5
        if column.kind == INT:
            return int_value(number)
        if column.kind == BOOL:
            return bool_value(number % 2)
        return text_value("abcde"[number])

    def part(self, place):
        """A row part."""
        cells = tuple(self.value(c, place) for c in self.schema.attributes())
        if self.rng.random() >= self.shown:
            return row_digest(cells)
        return tuple(cell if self.rng.random() < max(self.shown, 0.5) else cell_digest(n, cell)
                     for n, cell in enumerate(cells))


def odd_replies(secret, data, query, rng, count=50, tidy=True):
    """Replies of random trees of any shape, truly signed.  With `tidy` half of
    them are cut down to what the query's scans look at, so that acceptance,
    Missing and Surplus are all met."""
    reply = read_reply(data)
    bound = bind(reply.catalog, query)
    if bound.fault is not None:
        return
    plan = Plan(bound)
    for number in range(count):
        trees = []
        for place in plan.places:
            schema = plan.schema_of_place(place)
            keys = sample_keys(rng, schema.key_kind())
            trees.append(OddTrees(rng, schema, keys).tree(place[1]))
        if tidy and number % 2:
            trees = tidied(plan, trees)
        catalog = rooted(reply.catalog, plan.places, trees)
        yield f"odd {number}", resign(secret, reply, catalog, trees)


def sample_keys(rng, kind):
    """Keys that rise."""
    if kind == INT:
        return [key_of(int_value(n)) for n in sorted(rng.sample(range(-3, 60), 30))]
    return sorted({f"k{rng.randrange(60)}".encode() for _ in range(30)} | {b"", b"a", b"zz"})


def tidied(plan, trees):
    """The trees with everything closed that no scan visits and hidden that no
    need names, as far as the scans get."""
    try:
        needs = run_plan(plan, trees).needs
    except Missing:
        return trees
    out = []
    for tree, need in zip(trees, needs):
        if plan.totals:
            out.append(close_except(tree, totals_marks(tree, need), lambda leaf: leaf))
            continue
        named = Named(need)

        def at_leaf(leaf, named=named):
            return Leaf(Entry(e.key, e.part if isinstance(e.part, bytes)
                              else shown_part(e.part, named.of(e.key))) for e in leaf.entries)
        out.append(close_except(tree, visited_by(tree, need), at_leaf))
    return out


def odd_works(rng, schema, where, ops, count=50):
    """(part tree, op, outcome) for random trees of any shape: outcome is the
    changed tree's bytes, 'Missing', 'DuplicateKey' or 'NoRow', beside what
    `is_update_proof` answers (True, False or 'Missing')."""
    for _ in range(count):
        keys = sample_keys(rng, schema.key_kind())
        odd = OddTrees(rng, schema, keys)
        tree = odd.tree(where)
        op = ops(rng, odd)
        try:
            outcome = tree_bytes(do_op(tree, op))
        except (Missing, UpdateFault) as fault:
            outcome = fault.name
        try:
            proof = is_update_proof(tree, op)
        except Missing:
            proof = "Missing"
        yield tree, op, outcome, proof
