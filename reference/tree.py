"""The Merkle B-tree: nodes of two families, and their digests.

Families:
  rows:   Leaf(entries of key and row part), Inner(separators, children)
  totals: TLeaf(entries of key and number), TInner(separators, TChild slots)
A Stub is a digest alone and belongs to both.  A whole tree is one without
stubs whose rows stand as cells that are all shown; a part tree may have any
shape.  Nodes are never changed after they are made.

A row part is a digest (bytes) or a tuple of cells; a cell is a digest (bytes)
where hidden and a value (a pair) where shown.
"""

from . import hashing
from .values import value_bytes

LOW, HIGH = 8, 16


def u16(number):
    """A number as 2 bytes."""
    return number.to_bytes(2, "big")


def spelled_key(key):
    """A key behind its length."""
    return u16(len(key)) + key


def attr_preimage(attribute, value):
    """What is hashed of a value."""
    return b"\x01" + bytes([attribute]) + value_bytes(value)


def attr_digest(attribute, value):
    """The digest of a value."""
    return hashing.digest(attr_preimage(attribute, value))


def cell_digest(attribute, cell):
    """A hidden cell gives its own digest."""
    return cell if isinstance(cell, bytes) else attr_digest(attribute, cell)


def row_preimage(cells):
    """What is hashed of a row."""
    return b"\x02" + bytes([len(cells)]) + b"".join(
        cell_digest(n, cell) for n, cell in enumerate(cells))


def row_digest(part):
    """The same shown or hidden; a digest gives itself."""
    return part if isinstance(part, bytes) else hashing.digest(row_preimage(part))


def hide(cells, shown):
    """A row part of cells with the named attributes shown alone."""
    return tuple(value if n in shown else attr_digest(n, value)
                 for n, value in enumerate(cells))


class Stub:
    """A subtree's digest in its place."""
    __slots__ = ("digest",)

    def __init__(self, digest):
        self.digest = digest


class Entry:
    """An entry of a leaf of rows."""
    __slots__ = ("key", "part", "_digest")

    def __init__(self, key, part):
        self.key, self.part, self._digest = key, part, None

    def row_digest(self):
        """The digest of the row."""
        if self._digest is None:
            self._digest = row_digest(self.part)
        return self._digest


class TEntry:
    """An entry of a leaf of totals."""
    __slots__ = ("key", "value")

    def __init__(self, key, value):
        self.key, self.value = key, value


class Leaf:
    """A leaf of rows."""
    __slots__ = ("entries", "_digest")
    totals = False

    def __init__(self, entries):
        self.entries, self._digest = tuple(entries), None

    def preimage(self):
        """What is hashed of the node."""
        return b"\x03" + bytes([len(self.entries)]) + b"".join(
            spelled_key(e.key) + e.row_digest() for e in self.entries)


class TLeaf:
    """A leaf of totals."""
    __slots__ = ("entries", "_digest")
    totals = True

    def __init__(self, entries):
        self.entries, self._digest = tuple(entries), None

    def preimage(self):
        """What is hashed of the node."""
        return b"\x06" + bytes([len(self.entries)]) + b"".join(
            spelled_key(e.key) + e.value.to_bytes(8, "big", signed=True)
            for e in self.entries)


class Inner:
    """`slots` are the children themselves."""
    __slots__ = ("separators", "slots", "_digest")
    totals = False

    def __init__(self, separators, slots):
        self.separators, self.slots, self._digest = tuple(separators), tuple(slots), None

    @staticmethod
    def slot(node):
        """The slot of a child."""
        return node

    @staticmethod
    def node(slot):
        """The child of a slot."""
        return slot

    def preimage(self):
        """What is hashed of the node."""
        return (b"\x04" + bytes([len(self.slots)])
                + b"".join(spelled_key(s) for s in self.separators)
                + b"".join(digest_of(child) for child in self.slots))


class TChild:
    """A child of an inner node of totals: count, sum, subtree."""
    __slots__ = ("count", "sum", "node")

    def __init__(self, count, total, node):
        self.count, self.sum, self.node = count, total, node

    def bytes(self):
        """The count and the sum."""
        return self.count.to_bytes(8, "big") + self.sum.to_bytes(16, "big", signed=True)


def wrap_sum(number):
    """A sum modulo 2^128, as 16-byte two's complement."""
    number &= (1 << 128) - 1
    return number - (1 << 128) if number >> 127 else number


def wrap_count(number):
    """A count modulo 2^64."""
    return number & ((1 << 64) - 1)


def totals_held(node):
    """The count and sum that an open node of totals holds: its entries, or
    the totals that stand beside its children."""
    if isinstance(node, TLeaf):
        return len(node.entries), wrap_sum(sum(e.value for e in node.entries))
    return (wrap_count(sum(s.count for s in node.slots)),
            wrap_sum(sum(s.sum for s in node.slots)))


class TInner:
    """An inner node of totals."""
    __slots__ = ("separators", "slots", "_digest")
    totals = True

    def __init__(self, separators, slots):
        self.separators, self.slots, self._digest = tuple(separators), tuple(slots), None

    @staticmethod
    def slot(node):
        """A changed child's totals are written anew from what it holds."""
        return TChild(*totals_held(node), node)

    @staticmethod
    def node(slot):
        """The child of a slot."""
        return slot.node

    def preimage(self):
        """What is hashed of the node."""
        return (b"\x07" + bytes([len(self.slots)])
                + b"".join(spelled_key(s) for s in self.separators)
                + b"".join(digest_of(s.node) + s.bytes() for s in self.slots))


Leaf.inner, TLeaf.inner = Inner, TInner
LEAVES, INNERS = (Leaf, TLeaf), (Inner, TInner)


def digest_of(node):
    """node_digest: the digest of the preimage; a stub gives its own."""
    if isinstance(node, Stub):
        return node.digest
    if node._digest is None:
        node._digest = hashing.digest(node.preimage())
    return node._digest


def children_of(node):
    """The subtrees of an inner node."""
    return [node.node(slot) for slot in node.slots]


def empty_tree():
    """The tree of no rows."""
    return Leaf(())


def empty_totals():
    """The tree of totals of no rows."""
    return TLeaf(())


def entries_of(node):
    """All entries of open leaves, left to right."""
    if isinstance(node, LEAVES):
        return list(node.entries)
    if isinstance(node, Stub):
        return []
    return [e for child in children_of(node) for e in entries_of(child)]


def open_nodes(node):
    """All nodes that are not stubs."""
    if isinstance(node, Stub):
        return
    yield node
    if isinstance(node, INNERS):
        for child in children_of(node):
            yield from open_nodes(child)


def shape_fault(root):
    """None where a whole tree has the shape that the changes keep, else what is wrong."""
    depths = set()

    def walk(node, depth, low, high):
        if isinstance(node, Stub):
            return "stub"
        keys = ([e.key for e in node.entries] if isinstance(node, LEAVES)
                else list(node.separators))
        if any(a >= b for a, b in zip(keys, keys[1:])):
            return "order"
        if any((low is not None and k < low) or (high is not None and k >= high)
               for k in keys):
            return "span"
        if isinstance(node, LEAVES):
            depths.add(depth)
            if len(keys) > HIGH or (depth > 1 and len(keys) < LOW):
                return "count"
            return None
        size = len(node.slots)
        if size > HIGH or size < (2 if depth == 1 else LOW) or len(keys) != size - 1:
            return "count"
        bounds = [low] + keys + [high]
        for i, slot in enumerate(node.slots):
            child = node.node(slot)
            fault = walk(child, depth + 1, bounds[i], bounds[i + 1])
            if fault:
                return fault
            if node.totals and (slot.count, slot.sum) != totals_held(child):
                return "totals"
        return None

    fault = walk(root, 1, None, None)
    if fault:
        return fault
    return None if len(depths) == 1 else "depth"


def close_except(node, marks, at_leaf):
    """The part tree with exactly the marked nodes open."""
    if id(node) not in marks:
        return Stub(digest_of(node))
    if isinstance(node, Stub):
        return node
    if isinstance(node, LEAVES):
        return at_leaf(node)
    if isinstance(node, TInner):
        return TInner(node.separators, [TChild(s.count, s.sum, close_except(s.node, marks, at_leaf))
                                        for s in node.slots])
    return Inner(node.separators, [close_except(c, marks, at_leaf) for c in node.slots])
