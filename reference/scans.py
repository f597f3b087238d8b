"""Scans of trees of rows: needs, what they see, and the one proof that a tree has for them."""

from .faults import Missing
from .tree import (
    Entry, INNERS, Inner, LEAVES, Leaf, Stub, cell_digest, children_of, digest_of, row_digest)
from .values import holds, is_empty


def meets(node, i, interval):
    """Whether a scan goes from a visited inner node to child i: its upper
    separator is above the lower bound, and its lower separator at or below
    the upper bound (below it where exclusive)."""
    low, high = interval
    if low is not None and i < len(node.separators) and not node.separators[i] > low[0]:
        return False
    if high is not None and i > 0:
        lower = node.separators[i - 1]
        if not (lower < high[0] or (high[1] and lower == high[0])):
            return False
    return True


def visited_leaves(root, interval):
    """The open leaves that a scan visits, and at a stub None; left to right."""
    if is_empty(interval):
        return
    stack = [root]
    while stack:
        node = stack.pop()
        if isinstance(node, Stub):
            yield None
        elif isinstance(node, LEAVES):
            yield node
        else:
            stack.extend(node.node(node.slots[i])
                         for i in range(len(node.slots) - 1, -1, -1)
                         if meets(node, i, interval))


def named_values(entry, columns):
    """The values of the named attributes, or None where one is hidden (a
    cell that isn't there counts as hidden)."""
    if not columns:
        return {}
    if isinstance(entry.part, bytes):
        return None
    out = {}
    for column in columns:
        if column >= len(entry.part) or isinstance(entry.part[column], bytes):
            return None
        out[column] = entry.part[column]
    return out


class Need:
    """An interval of keys of one tree and the attributes named there."""
    __slots__ = ("interval", "columns")

    def __init__(self, interval, columns):
        self.interval, self.columns = interval, frozenset(columns)

    def __eq__(self, other):
        return (self.interval, self.columns) == (other.interval, other.columns)

    def __hash__(self):
        return hash((self.interval, self.columns))

    def __repr__(self):
        return f"Need({self.interval}, {sorted(self.columns)})"


def walk_of(root, need):
    """The keys and named values that the scan gives, up to the first
    visited stub or the first entry that hides a named cell (then 'Stop')."""
    seen = []
    for leaf in visited_leaves(root, need.interval):
        if leaf is None:
            return seen, "Stop"
        for entry in (e for e in leaf.entries if holds(need.interval, e.key)):
            values = named_values(entry, need.columns)
            if values is None:
                return seen, "Stop"
            seen.append((entry.key, values))
    return seen, "End"


def scan(root, need):
    """What a scan for a need sees, or Missing."""
    seen, end = walk_of(root, need)
    if end == "Stop":
        raise Missing()
    return seen


class Named:
    """named(N, key): the attributes that some need of N names whose interval
    has that key.  Needs of one key are kept in a map."""

    def __init__(self, needs):
        self.points, self.wide = {}, []
        for need in set(needs):
            low, high = need.interval
            if low is not None and low == high and low[1]:
                old = self.points.get(low[0], frozenset())
                self.points[low[0]] = old | need.columns
            elif not is_empty(need.interval):
                self.wide.append(need)
        self.narrow = {}
        for need in list(self.wide):
            low, high = need.interval
            if (low and high and low[1] and not high[1] and low[0][-1:] == b"\x00"
                    and high[0] == low[0][:-1] + b"\x01"):
                # The index need of one value: every key that begins with `low`.
                self.wide.remove(need)
                old = self.narrow.get(low[0], frozenset())
                self.narrow[low[0]] = old | need.columns
        self.lengths = sorted({len(front) for front in self.narrow})

    def of(self, key):
        """The attributes named for a key."""
        names = set(self.points.get(key, ()))
        for length in self.lengths:
            names |= self.narrow.get(key[:length], frozenset())
        for need in self.wide:
            if holds(need.interval, key):
                names |= need.columns
        return names


def visited_by(root, needs):
    """The identities of all nodes (stubs too) that some scan visits."""
    marks = set()

    def walk(node, here):
        if not here:
            return
        marks.add(id(node))
        if isinstance(node, INNERS):
            for i, slot in enumerate(node.slots):
                walk(node.node(slot), [n for n in here if meets(node, i, n.interval)])

    walk(root, [n for n in set(needs) if not is_empty(n.interval)])
    return marks


def is_missing(root, needs):
    """Whether a scan visits a stub, or an entry of any open leaf hides a cell
    that named(N, key) has."""
    marks = visited_by(root, needs)
    named = Named(needs)

    def walk(node):
        if isinstance(node, Stub):
            return id(node) in marks
        if isinstance(node, Leaf):
            return any(named_values(e, named.of(e.key)) is None for e in node.entries)
        return any(walk(child) for child in children_of(node))

    return walk(root)


def has_surplus(root, needs):
    """Whether there is a node open that no scan visits, a cell shown that no need names
    for its key, or a row that stands as cells though none is named."""
    marks = visited_by(root, needs)
    named = Named(needs)

    def walk(node):
        if isinstance(node, Stub):
            return False
        if id(node) not in marks:
            return True
        if isinstance(node, Leaf):
            return any(entry_surplus(e.part, named.of(e.key)) for e in node.entries)
        return any(walk(child) for child in children_of(node))

    return walk(root)


def entry_surplus(part, names):
    """Whether a row part shows more than these names."""
    if isinstance(part, bytes):
        return False
    if not names:
        return True
    return any(not isinstance(cell, bytes) and n not in names for n, cell in enumerate(part))


def is_canonical(root, needs):
    """Missing first, then false exactly on surplus."""
    if is_missing(root, needs):
        raise Missing()
    return not has_surplus(root, needs)


def shown_part(part, names):
    """The row part that a canonical proof has."""
    if not names:
        return row_digest(part)
    return tuple(cell if n in names else cell_digest(n, cell)
                 for n, cell in enumerate(part))


def prune(root, needs):
    """The canonical proof of a whole tree for these needs."""
    marks = visited_by(root, needs)
    named = Named(needs)

    def walk(node):
        if id(node) not in marks:
            return Stub(digest_of(node))
        if isinstance(node, Leaf):
            return Leaf(Entry(e.key, shown_part(e.part, named.of(e.key)) if named.of(e.key)
                              else e.row_digest()) for e in node.entries)
        return Inner(node.separators, [walk(child) for child in node.slots])

    return walk(root)
