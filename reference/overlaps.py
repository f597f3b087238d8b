"""Two trees of one digest: they show the same, or there are two byte strings of one digest."""

from .tree import INNERS, Leaf, Stub, attr_preimage, children_of, row_preimage


def agree(part, tree):
    """None where `part` prunes `tree`, else two different byte strings of one
    digest.  Condition: the digests are equal."""
    if isinstance(part, Stub):
        return None
    return overlap(part, tree)


def overlap(a, b):
    """Walks what both trees show, from equal digests down: the first pair of
    different preimages, or None."""
    if isinstance(a, Stub) or isinstance(b, Stub):
        return None
    left, right = a.preimage(), b.preimage()
    if left != right:
        return left, right
    if isinstance(a, INNERS):
        for x, y in zip(children_of(a), children_of(b)):
            found = overlap(x, y)
            if found:
                return found
    elif isinstance(a, Leaf):
        for x, y in zip(a.entries, b.entries):
            found = overlap_rows(x.part, y.part)
            if found:
                return found
    return None


def overlap_rows(a, b):
    """The first pair of different preimages that two row parts of one digest show, or None."""
    if isinstance(a, bytes) or isinstance(b, bytes):
        return None
    left, right = row_preimage(a), row_preimage(b)
    if left != right:
        return left, right
    for n, (x, y) in enumerate(zip(a, b)):
        if not isinstance(x, bytes) and not isinstance(y, bytes) and x != y:
            return attr_preimage(n, x), attr_preimage(n, y)
    return None
