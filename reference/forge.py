"""What a valid signature that its owner never made shows: a collision, or a chain gone back."""

from . import hashing
from .lm_ots import (
    MESG, OTS, PBLC, chain, digits, message_digest, ots_length, randomizer, secret_start, u32)
from .lms import INTR, LEAF, split_hss


def explain(key, signed, rec, signature):
    """('collides', a, b), or ('chain', level, leaf, i, step, bytes).

    Conditions: the signature is valid by the leaf of the record's version, the
    record isn't in `signed`, and `signed` has at most one record per version."""
    by_version = {r.version: r for r in signed}
    if key.levels == 1:
        own = by_version.get(rec.version)
        return _explain_level(key.upper(), 0, rec.version, own and own.bytes(),
                              rec.bytes(), signature)
    u, q1 = divmod(rec.version, 1 << key.h)
    sig0, pub1, sig1 = split_hss(key.public(), signature)
    lower = key.lower(u)
    true_pub = lower.public().bytes()
    if pub1 != true_pub:
        used = any(version >> key.h == u for version in by_version)
        return _explain_level(key.upper(), 0, u, true_pub if used else None, pub1, sig0)
    own = by_version.get(rec.version)
    return _explain_level(lower, 1, q1, own and own.bytes(), rec.bytes(), sig1)


def shown(tree, leaf, message):
    """What the owner's signature of `message` (None: no signature) by
    that leaf shows of each chain: the list of (step, value), or None."""
    if message is None:
        return None
    c = randomizer(tree.ident, leaf, tree.seed)
    steps = digits(message_digest(tree.ident, leaf, c, message), tree.ots)
    return [(a, true_value(tree, leaf, i, a)) for i, a in enumerate(steps)]


def true_value(tree, leaf, i, step):
    """The value of chain i at a step, as the owner has it."""
    start = secret_start(tree.ident, leaf, i, tree.seed)
    return chain(tree.ident, leaf, i, 0, step, start)


def _explain_level(tree, level, leaf, own_message, message, signature):
    """The evidence at one level of keys."""
    length = ots_length(tree.ots)
    c, ys = signature[8:40], signature[40:4 + length]
    ys = [ys[32 * i:32 * i + 32] for i in range(OTS[tree.ots][1])]
    path = signature[8 + length:]
    steps = digits(message_digest(tree.ident, leaf, c, message), tree.ots)
    found = (_path_collision(tree, leaf, steps, ys, path)
             or _end_collision(tree, leaf, steps, ys)
             or _message_collision(tree, leaf, own_message, c, message)
             or _chain_collision(tree, leaf, steps, ys))
    if found:
        return ("collides",) + found
    own = shown(tree, leaf, own_message)
    top = (1 << OTS[tree.ots][0]) - 1
    for i, a in enumerate(steps):
        above = own[i][0] if own else top
        if a < above:
            return ("chain", level, leaf, i, a, ys[i])
    raise AssertionError("no chain goes below what the owner showed, which cannot be")


def _ends(tree, leaf, steps, ys):
    top = (1 << OTS[tree.ots][0]) - 1
    return [chain(tree.ident, leaf, i, a, top, y) for i, (a, y) in enumerate(zip(steps, ys))]


def _path_collision(tree, leaf, steps, ys, path):
    """From the root, which both share, down to the leaf: the first node of one
    digest and two preimages."""
    hash_ = hashing.lms_hash()
    ends = b"".join(_ends(tree, leaf, steps, ys))
    r = (1 << tree.h) + leaf
    their = tree.ident + u32(r) + LEAF + hash_(tree.ident + u32(leaf) + PBLC + ends)
    own = tree.ident + u32(r) + LEAF + hash_(_end_preimage(tree, leaf, _true_ends(tree, leaf)))
    pairs = [(own, their)]
    node, at = hash_(their), 0
    while r > 1:
        sibling = path[32 * at:32 * at + 32]
        at += 1
        halves = sibling + node if r & 1 else node + sibling
        r >>= 1
        own = tree.ident + u32(r) + INTR + tree.nodes[2 * r] + tree.nodes[2 * r + 1]
        their = tree.ident + u32(r) + INTR + halves
        pairs.append((own, their))
        node = hash_(their)
    for own, their in reversed(pairs):
        if own != their and hash_(own) == hash_(their):
            return own, their
    return None


def _true_ends(tree, leaf):
    top = (1 << OTS[tree.ots][0]) - 1
    return [true_value(tree, leaf, i, top) for i in range(OTS[tree.ots][1])]


def _end_preimage(tree, leaf, ends):
    return tree.ident + u32(leaf) + PBLC + b"".join(ends)


def _end_collision(tree, leaf, steps, ys):
    hash_ = hashing.lms_hash()
    own = _end_preimage(tree, leaf, _true_ends(tree, leaf))
    their = _end_preimage(tree, leaf, _ends(tree, leaf, steps, ys))
    return (own, their) if own != their and hash_(own) == hash_(their) else None


def _message_collision(tree, leaf, own_message, c, message):
    if own_message is None:
        return None
    hash_ = hashing.lms_hash()
    own_c = randomizer(tree.ident, leaf, tree.seed)
    own = tree.ident + u32(leaf) + MESG + own_c + own_message
    their = tree.ident + u32(leaf) + MESG + c + message
    return (own, their) if own != their and hash_(own) == hash_(their) else None


def _chain_collision(tree, leaf, steps, ys):
    """Two values of one chain at one step that meet at the next."""
    hash_ = hashing.lms_hash()
    top = (1 << OTS[tree.ots][0]) - 1
    for i, (a, their) in enumerate(zip(steps, ys)):
        own = true_value(tree, leaf, i, a)
        front = tree.ident + u32(leaf) + i.to_bytes(2, "big")
        for j in range(a, top):
            if own == their:
                break
            x, y = front + bytes([j]) + own, front + bytes([j]) + their
            own, their = hash_(x), hash_(y)
            if own == their:
                return x, y
    return None
