"""Changes of trees, on any shape and of either family, and the proofs of changes."""

from .faults import Missing, UpdateFault
from .scans import named_values
from .tree import (
    Entry, HIGH, INNERS, LEAVES, LOW, Leaf, Stub, TEntry, TLeaf, close_except, hide, open_nodes)


def child_index(node, key):
    """The first child whose upper separator is above the key, else the last."""
    for i, separator in enumerate(node.separators):
        if separator > key:
            return i
    return len(node.slots) - 1


def look(node, seen):
    """The work looks at a node: a stub is Missing."""
    seen.append(node)
    if isinstance(node, Stub):
        raise Missing()


def place_of(leaf, key):
    """The first entry with that key, or None."""
    for i, entry in enumerate(leaf.entries):
        if entry.key == key:
            return i
    return None


def put_entry(root, entry, seen=None):
    """Insertion: DuplicateKey where the leaf reached has the key."""
    seen = [] if seen is None else seen
    halves = _put(root, entry, seen)
    if len(halves) == 1:
        return halves[0]
    left, separator, right = halves
    inner = _inner_class(left)
    return inner([separator], [inner.slot(left), inner.slot(right)])


def _inner_class(node):
    return node.inner if isinstance(node, LEAVES) else type(node)


def _put(node, entry, seen):
    look(node, seen)
    if isinstance(node, LEAVES):
        return _put_leaf(node, entry)
    i = child_index(node, entry.key)
    halves = _put(node.node(node.slots[i]), entry, seen)
    slots, separators = list(node.slots), list(node.separators)
    if len(halves) == 1:
        slots[i] = node.slot(halves[0])
    else:
        slots[i:i + 1] = [node.slot(halves[0]), node.slot(halves[2])]
        separators.insert(i, halves[1])
    kind = type(node)
    if len(slots) <= HIGH:
        return (kind(separators, slots),)
    return (kind(separators[:7], slots[:8]), separators[7], kind(separators[8:], slots[8:]))


def _put_leaf(leaf, entry):
    if place_of(leaf, entry.key) is not None:
        raise UpdateFault("DuplicateKey")
    entries = list(leaf.entries)
    place = next((i for i, e in enumerate(entries) if e.key > entry.key), len(entries))
    entries.insert(place, entry)
    kind = type(leaf)
    if len(entries) <= HIGH:
        return (kind(entries),)
    return (kind(entries[:8]), entries[8].key, kind(entries[8:]))


def change_entry(root, key, change, seen=None):
    """The tree whose first entry of that key became `change(entry)`; NoRow
    where the leaf reached lacks the key."""
    seen = [] if seen is None else seen

    def walk(node):
        look(node, seen)
        if isinstance(node, LEAVES):
            place = place_of(node, key)
            if place is None:
                raise UpdateFault("NoRow")
            entries = list(node.entries)
            entries[place] = change(entries[place])
            return type(node)(entries)
        i = child_index(node, key)
        slots = list(node.slots)
        slots[i] = node.slot(walk(node.node(slots[i])))
        return type(node)(node.separators, slots)

    return walk(root)


def remove_entry(root, key, seen=None):
    """Deletion with borrowing and merging; NoRow where the leaf lacks the key."""
    seen = [] if seen is None else seen
    node = _remove(root, key, seen)
    if isinstance(node, INNERS) and len(node.slots) == 1:
        return node.node(node.slots[0])
    return node


def size_of(node):
    """How many entries or children a node has."""
    return len(node.entries) if isinstance(node, LEAVES) else len(node.slots)


def _remove(node, key, seen):
    look(node, seen)
    if isinstance(node, LEAVES):
        place = place_of(node, key)
        if place is None:
            raise UpdateFault("NoRow")
        return type(node)(node.entries[:place] + node.entries[place + 1:])
    i = child_index(node, key)
    child = _remove(node.node(node.slots[i]), key, seen)
    slots, separators = list(node.slots), list(node.separators)
    slots[i] = node.slot(child)
    if size_of(child) < LOW:
        _refill(node, slots, separators, i, child, seen)
    return type(node)(separators, slots)


def _refill(parent, slots, separators, i, child, seen):
    """A node below 8 looks at its left neighbour, or at its right one where
    it is the first child: a neighbour with more than 8 gives one, else the
    two merge."""
    on_left = i > 0
    j = i - 1 if on_left else i + 1
    between = min(i, j)
    neighbour = parent.node(slots[j])
    look(neighbour, seen)
    if isinstance(neighbour, LEAVES) != isinstance(child, LEAVES):
        raise Missing()
    left, right = (neighbour, child) if on_left else (child, neighbour)
    if size_of(neighbour) > LOW:
        left, separator, right = _share(left, right, separators[between], on_left)
        separators[between] = separator
        slots[between:between + 2] = [parent.slot(left), parent.slot(right)]
        return
    slots[between:between + 2] = [parent.slot(_merge(left, right, separators[between]))]
    del separators[between]


def _share(left, right, separator, from_left):
    """The neighbour gives its nearest entry or child."""
    kind = type(left)
    if isinstance(left, LEAVES):
        if from_left:
            a, b = left.entries[:-1], left.entries[-1:] + right.entries
        else:
            a, b = left.entries + right.entries[:1], right.entries[1:]
        return kind(a), b[0].key, kind(b)
    if from_left:
        return (kind(left.separators[:-1], left.slots[:-1]), left.separators[-1],
                kind((separator,) + right.separators, left.slots[-1:] + right.slots))
    return (kind(left.separators + (separator,), left.slots + right.slots[:1]),
            right.separators[0], kind(right.separators[1:], right.slots[1:]))


def _merge(left, right, separator):
    kind = type(left)
    if isinstance(left, LEAVES):
        return kind(left.entries + right.entries)
    return kind(left.separators + (separator,) + right.separators, left.slots + right.slots)


class Op:
    """name is insert, replace, remove, put, set (rows), or tput, tset,
    tremove (totals)."""
    __slots__ = ("name", "key", "cells", "sets", "shown", "part", "value")

    def __init__(self, name, key, cells=None, sets=(), shown=(), part=None, value=None):
        self.name, self.key, self.cells, self.sets = name, key, cells, sets
        self.shown, self.part, self.value = frozenset(shown), part, value

    def opens_row(self):
        """Whether the proof opens the row that is found."""
        return self.name == "replace" or (self.name == "remove" and bool(self.shown))


def _replaced(sets):
    def change(entry):
        if isinstance(entry.part, bytes):
            raise Missing()
        cells = list(entry.part)
        for attribute, value in sets:
            cells[attribute] = value
        return Entry(entry.key, tuple(cells))
    return change


def do_op(root, op, seen=None):
    """The changed tree; DuplicateKey, NoRow or Missing."""
    if op.name == "insert":
        return put_entry(root, Entry(op.key, tuple(op.cells)), seen)
    if op.name == "put":
        return put_entry(root, Entry(op.key, op.part), seen)
    if op.name == "tput":
        return put_entry(root, TEntry(op.key, op.value), seen)
    if op.name == "replace":
        return change_entry(root, op.key, _replaced(op.sets), seen)
    if op.name == "set":
        return change_entry(root, op.key, lambda e: Entry(e.key, op.part), seen)
    if op.name == "tset":
        return change_entry(root, op.key, lambda e: TEntry(e.key, op.value), seen)
    return remove_entry(root, op.key, seen)


def looked_at(root, op):
    """The nodes that the work looks at (the last one a stub, or a neighbour
    of the other kind, where it is Missing), and whether it is Missing."""
    seen = []
    try:
        do_op(root, op, seen)
    except UpdateFault:
        pass
    except Missing:
        return seen, True
    return seen, False


def found_entry(root, key):
    """The first entry with that key in the leaf that the search reaches."""
    node = root
    while isinstance(node, INNERS):
        node = node.node(node.slots[child_index(node, key)])
    if isinstance(node, Stub):
        return None
    place = place_of(node, key)
    return None if place is None else node.entries[place]


def is_update_proof(root, op):
    """Missing first, then false exactly on surplus: open are exactly the
    nodes looked at, and of rows only the one that the operation opens, with
    exactly the cells of `shown` shown."""
    seen, missing = looked_at(root, op)
    if missing:
        raise Missing()
    found = found_entry(root, op.key) if op.opens_row() else None
    if found is not None and (isinstance(found.part, bytes)
                              or named_values(found, op.shown) is None):
        raise Missing()
    marks = {id(node) for node in seen}
    opened = list(open_nodes(root))
    entries = [e for node in opened if isinstance(node, Leaf) for e in node.entries]
    return (all(id(node) in marks for node in opened)
            and all(_shows_no_more(entry, found, op) for entry in entries))


def _shows_no_more(entry, found, op):
    """Whether a row is closed, or is the one found and shows the cells of `shown` alone."""
    if isinstance(entry.part, bytes):
        return True
    return entry is found and all(isinstance(cell, bytes) or n in op.shown
                                  for n, cell in enumerate(entry.part))


def prune_update(root, op):
    """The update proof of a whole tree."""
    seen, _ = looked_at(root, op)
    found = found_entry(root, op.key) if op.opens_row() else None

    def at_leaf(leaf):
        if isinstance(leaf, TLeaf):
            return leaf
        return Leaf(Entry(e.key, hide(e.part, op.shown) if e is found else e.row_digest())
                    for e in leaf.entries)

    return close_except(root, {id(node) for node in seen}, at_leaf)
