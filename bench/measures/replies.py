"""What of a reply must be hashed to check it, in blocks of SHA-256."""
from measures.costs import blocks, verify_blocks


def number_at(data, at, size):
    return int.from_bytes(data[at:at + size], "big")


def value_size(data, at):
    return {1: 9, 2: 3 + number_at(data, at + 1, 2), 3: 2}[data[at]]


def row_part(data, at):
    """Where a row part ends, and its blocks."""
    if data[at] == 0:
        return at + 33, 0
    count, at, needed = data[at + 1], at + 2, 0
    for _ in range(count):
        size = 32 if data[at] == 0 else value_size(data, at + 1)
        needed += 0 if data[at] == 0 else blocks(2 + size)
        at += 1 + size
    return at, needed + blocks(2 + 32 * count)


def tree(data, at):
    """Where a tree ends, and its blocks."""
    if data[at] == 0:
        return at + 33, 0
    kind, count, at, needed, length = data[at], data[at + 1], at + 2, 0, 2
    for _ in range(count if kind == 1 else count - 1):
        size = 2 + number_at(data, at, 2)
        at, length = at + size, length + size
        if kind == 1:
            at, more = row_part(data, at)
            needed += more
    for _ in range(count if kind == 2 else 0):
        at, more = tree(data, at)
        needed += more
    return at, needed + blocks(length + 32 * count)


def reply_blocks(reply, height=10):
    """Those of the signature by a key of this height, of the catalog and of the trees."""
    record, size = reply[4:64], number_at(reply, 64, 4)
    signature, at = reply[68:68 + size], 68 + size
    catalog = number_at(reply, at, 4)
    at += 4 + catalog
    trees, at = reply[at], at + 1
    needed = blocks(catalog) + verify_blocks(record[4:20], signature, record, height)
    for _ in range(trees):
        at, more = tree(reply, at)
        needed += more
    assert at == len(reply)
    return needed
