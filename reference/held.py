"""How many bytes of a reply a client holds while it checks the reply in pieces.

Before the catalog's last byte these are all that came. Behind it they are the head, what is kept of the rows that the
query needs (their keys, and the values of named columns as they are encoded) and the bytes of a token that isn't whole.
Of a reply to a query with a join or a LIMIT they are all, as long as a reply may be.
"""

from .binding import bind
from .formats import REPLY_LIMIT, long_bytes, read_reply
from .plan import Plan
from .tree import Leaf, Stub, spelled_key
from .values import holds, value_bytes


def held_behind(query, data, ends):
    """The counts behind fronts of these lengths, of a reply that can be read, or is kept."""
    if query.join is not None or query.limit is not None:
        return [end if end <= REPLY_LIMIT else 0 for end in ends]
    counts = held_counts(query, read_reply(data))
    return [counts[end] for end in ends]


def held_counts(query, reply):
    """The counts behind no bytes, one byte, and so on up to the reply's end."""
    head = 4 + len(reply.rec.bytes()) + len(long_bytes(reply.signature)) + len(long_bytes(reply.catalog.bytes()))
    # the byte that says how many trees there are isn't kept
    counts, kept = [*range(head + 1), head], head
    bound = bind(reply.catalog, query)
    for tree in reply.trees:
        for size, more in tokens(tree, Plan(bound).left_need):
            counts += [kept + part for part in range(1, size)]
            kept += more
            counts.append(kept)
    return counts


def tokens(node, need):
    """The sizes of a tree's tokens, each with how many bytes are kept once it is whole."""
    if isinstance(node, Stub):
        yield 33, 0
        return
    yield 2, 0
    if isinstance(node, Leaf):
        for entry in node.entries:
            yield len(spelled_key(entry.key)), 0
            yield from row_tokens(entry, need)
        return
    for separator in node.separators:
        yield len(spelled_key(separator)), 0
    for child in node.slots:
        yield from tokens(child, need)


def row_tokens(entry, need):
    """Those of a row: its key is kept with its last one, if the query needs the row."""
    is_needed = holds(need.interval, entry.key)
    found = [(33, 0)] if isinstance(entry.part, bytes) else [(2, 0), *cell_tokens(entry.part, need.columns if is_needed else ())]
    size, more = found[-1]
    return [*found[:-1], (size, more + len(entry.key) if is_needed else more)]


def cell_tokens(cells, columns):
    for column, cell in enumerate(cells):
        if isinstance(cell, bytes):
            yield 1 + len(cell), 0
        else:
            encoded = len(value_bytes(cell))
            yield 1 + encoded, encoded if column in columns else 0
