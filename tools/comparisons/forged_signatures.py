"""Signatures that an owner never made, forged with its seed."""
from reference.lm_ots import chain, digits, message_digest, ots_length, public_of, secret_start, sign_ots, u32
from reference.lms import TYPE_OF_HEIGHT, OneKey, inner_node, leaf_node


def signed_by(tree, leaf, message, randomizer=None):
    """A tree's signature by a leaf, with this randomizer or the owner's."""
    signature = tree.sign(leaf, message)
    if randomizer is None:
        return signature
    steps = digits(message_digest(tree.ident, leaf, randomizer, message), tree.ots)
    values = [chain(tree.ident, leaf, i, 0, step, secret_start(tree.ident, leaf, i, tree.seed)) for i, step in enumerate(steps)]
    return signature[:8] + randomizer + b"".join(values) + signature[4 + ots_length(tree.ots):]


def pair_signature(upper, lower_key, lower):
    """The signature of two levels of the upper tree's signature of a key, and the lower tree's of a message."""
    return u32(1) + upper + lower_key + lower


class LoneLeaf:
    """A lower tree of which its forger made one leaf: the digests beside the path are any."""

    def __init__(self, ident, seed, upper, leaf, path):
        self.ident, self.seed, self.ots, self.h, self.leaf, self.path = ident, seed, upper.ots, upper.h, leaf, path

    def public(self):
        r = (1 << self.h) + self.leaf
        node = leaf_node(self.ident, r, public_of(self.ident, self.leaf, self.ots, self.seed))
        for sibling in self.path:
            pair = (sibling, node) if r & 1 else (node, sibling)
            r >>= 1
            node = inner_node(self.ident, r, *pair)
        return OneKey(TYPE_OF_HEIGHT[self.h], self.ots, self.ident, node)

    def sign(self, leaf, message):
        """Its signature, by its one leaf."""
        part = sign_ots(self.ident, leaf, self.ots, self.seed, message)
        return u32(leaf) + part + u32(TYPE_OF_HEIGHT[self.h]) + b"".join(self.path)
