"""Trees of totals: the count and the sum of an interval of keys, and the proof of them."""

from .faults import Missing
from .scans import meets
from .tree import Stub, TInner, TLeaf, close_except, open_nodes, wrap_count, wrap_sum
from .values import holds, is_empty


def ends_pass(lower, upper, interval):
    """Whether a child that meets the interval is taken: both its ends pass,
    `lower` and `upper` being its separators or the node's own span."""
    low, high = interval
    low_ok = low is None or (lower is not None
                             and (lower > low[0] or (low[1] and lower == low[0])))
    high_ok = high is None or (upper is not None and upper <= high[0])
    return low_ok and high_ok


def totals_visit(root, interval, at_node, at_taken):
    """Calls `at_node` for each visited node (a stub too) and `at_taken` for
    each slot that is taken, left to right."""
    def walk(node, lower, upper):
        at_node(node)
        if not isinstance(node, TInner):
            return
        bounds = [lower] + list(node.separators) + [upper]
        for i, slot in enumerate(node.slots):
            if not meets(node, i, interval):
                continue
            if ends_pass(bounds[i], bounds[i + 1], interval):
                at_taken(slot)
            else:
                walk(slot.node, bounds[i], bounds[i + 1])

    if not is_empty(interval):
        walk(root, None, None)


def totals_of(root, interval):
    """The count and the sum of the interval, or Missing at a visited stub."""
    found = [0, 0]

    def at_node(node):
        if isinstance(node, Stub):
            raise Missing()
        if isinstance(node, TLeaf):
            for entry in node.entries:
                if holds(interval, entry.key):
                    found[0] += 1
                    found[1] += entry.value

    def at_taken(slot):
        found[0] += slot.count
        found[1] += slot.sum

    totals_visit(root, interval, at_node, at_taken)
    return wrap_count(found[0]), wrap_sum(found[1])


def totals_marks(root, interval):
    """The identities of the visited nodes."""
    marks = set()
    totals_visit(root, interval, lambda node: marks.add(id(node)), lambda slot: None)
    return marks


def totals_missing(root, interval):
    """Whether the totals lack a node."""
    try:
        totals_of(root, interval)
    except Missing:
        return True
    return False


def totals_surplus(root, interval):
    """Whether a node is open that nothing visits."""
    marks = totals_marks(root, interval)
    return any(id(node) not in marks for node in open_nodes(root))


def is_canonical_totals(root, interval):
    """Missing first, then false exactly on surplus."""
    if totals_missing(root, interval):
        raise Missing()
    return not totals_surplus(root, interval)


def prune_totals(root, interval):
    """The proof of a whole tree for the totals of an interval."""
    return close_except(root, totals_marks(root, interval), lambda leaf: leaf)
