"""LMS keys and signatures, and HSS keys of two levels (RFC 8554, sections 5 and 6), with m = 32."""

import functools
from dataclasses import dataclass

from . import hashing
from .faults import KeyFault, SignFault
from .lm_ots import OTS, candidate, ots_length, public_of, sign_ots, u32
from .stages import has

# By its typecode, of each parameter set: the height.
HEIGHTS = {5: 5, 6: 10, 7: 15, 8: 20, 9: 25}
TYPE_OF_HEIGHT = {height: code for code, height in HEIGHTS.items()}
LEAF, INTR = b"\x82\x82", b"\x83\x83"


def leaf_node(ident, r, k):
    """The digest at a leaf."""
    return hashing.lms_hash()(ident + u32(r) + LEAF + k)


def inner_node(ident, r, left, right):
    """The digest at an inner node."""
    return hashing.lms_hash()(ident + u32(r) + INTR + left + right)


def lms_length(ots, h):
    """4 + LM-OTS signature + 4 + 32 h."""
    return 4 + ots_length(ots) + 4 + 32 * h


@functools.lru_cache(maxsize=65_536)
def _is_valid(_hash, key, message, signature):
    """`lms_valid` by this digest function, asked once of the same bytes."""
    h = HEIGHTS[key.lms]
    length = ots_length(key.ots)
    if len(signature) != lms_length(key.ots, h):
        return False
    q = int.from_bytes(signature[:4], "big")
    ots_part = signature[4:4 + length]
    if signature[4 + length:8 + length] != u32(key.lms) or q >= 1 << h:
        return False
    k = candidate(key.ident, q, key.ots, message, ots_part)
    if k is None:
        return False
    r = (1 << h) + q
    node = leaf_node(key.ident, r, k)
    at = 8 + length
    while r > 1:
        sibling = signature[at:at + 32]
        at += 32
        pair = (sibling, node) if r & 1 else (node, sibling)
        r >>= 1
        node = inner_node(key.ident, r, *pair)
    return node == key.root


def lms_valid(key, message, signature):
    """Whether a OneKey takes the signature (the RFC's algorithm 6a)."""
    return _is_valid(hashing.lms_hash(), key, bytes(message), bytes(signature))


@dataclass(frozen=True)
class OneKey:
    """A 56-byte public key: u32 LMS type, u32 LM-OTS type, I, T[1]."""

    lms: int
    ots: int
    ident: bytes
    root: bytes

    @property
    def h(self):
        """The height of the tree."""
        return HEIGHTS[self.lms]

    def bytes(self):
        """The 56 bytes."""
        return u32(self.lms) + u32(self.ots) + self.ident + self.root

    @staticmethod
    def read(data):
        """The key of 56 bytes, or None for an unknown set."""
        lms = int.from_bytes(data[:4], "big")
        ots = int.from_bytes(data[4:8], "big")
        if lms not in HEIGHTS or ots not in OTS:
            return None
        return OneKey(lms, ots, bytes(data[8:24]), bytes(data[24:56]))


class PublicKey:
    """A public key of one level (56 bytes) or of two (60 bytes)."""

    def __init__(self, levels, upper):
        self.levels, self.upper = levels, upper
        self.ident, self.h = upper.ident, upper.h

    @staticmethod
    def read(data):
        """Length where it is neither 56 nor 60 bytes; else UnknownSet."""
        if len(data) == 56:
            levels, body = 1, data
        elif len(data) == 60 and has("levels"):
            if data[:4] != u32(2):
                raise KeyFault("UnknownSet")
            levels, body = 2, data[4:]
        else:
            raise KeyFault("Length")
        upper = OneKey.read(body)
        if upper is None:
            raise KeyFault("UnknownSet")
        return PublicKey(levels, upper)

    def bytes(self):
        """The 56 or 60 bytes."""
        front = u32(2) if self.levels == 2 else b""
        return front + self.upper.bytes()

    def leaves(self):
        """How many versions the key can sign."""
        return 1 << (self.h * self.levels)

    def __eq__(self, other):
        return self.bytes() == other.bytes()


def split_hss(key, signature):
    """sig[0], pub[1] and sig[1] of a two-level signature by their places, or
    None where the bytes do not reach sig[1]."""
    first = lms_length(key.upper.ots, key.h)
    if len(signature) < 4 + first + 56:
        return None
    return (signature[4:4 + first], signature[4 + first:60 + first],
            signature[60 + first:])


def verify(key, message, signature):
    """Whether the signature is valid, by a key of one level or of two."""
    signature = bytes(signature)
    if key.levels == 1:
        return lms_valid(key.upper, message, signature)
    parts = split_hss(key, signature)
    if parts is None or signature[:4] != u32(1):
        return False
    sig0, pub1, sig1 = parts
    lower = OneKey.read(pub1)
    if lower is None or (lower.lms, lower.ots) != (key.upper.lms, key.upper.ots):
        return False
    return lms_valid(key.upper, pub1, sig0) and lms_valid(lower, message, sig1)


def leaf_number(key, signature):
    """The leaf of a signature: q, or the pair number q0 * 2^h + q1; None where
    the signature has not the places."""
    if key.levels == 1:
        if len(signature) < 4:
            return None
        return int.from_bytes(signature[:4], "big")
    first = lms_length(key.upper.ots, key.h)
    place = 4 + first + 56
    if len(signature) < place + 4:
        return None
    q0 = int.from_bytes(signature[4:8], "big")
    q1 = int.from_bytes(signature[place:place + 4], "big")
    return q0 * (1 << key.h) + q1


def signed_by_leaf(key, version, message, signature):
    """Valid, and by the leaf of that version."""
    return leaf_number(key, signature) == version and verify(key, message, signature)


class LmsTree:
    """All nodes T[1] .. T[2^(h+1) - 1] of one LMS key."""

    def __init__(self, ident, seed, ots, h):
        self.ident, self.seed, self.ots, self.h = ident, seed, ots, h
        self.nodes = self._made_nodes()
        self._signed = {}

    def _made_nodes(self):
        size = 1 << self.h
        nodes = [bytes(32)] * (2 * size)
        for q in range(size):
            one_time_key = public_of(self.ident, q, self.ots, self.seed)
            nodes[size + q] = leaf_node(self.ident, size + q, one_time_key)
        for r in range(size - 1, 0, -1):
            nodes[r] = inner_node(self.ident, r, nodes[2 * r], nodes[2 * r + 1])
        return nodes

    def public(self):
        """The public key."""
        return OneKey(TYPE_OF_HEIGHT[self.h], self.ots, self.ident, self.nodes[1])

    def sign(self, q, message):
        """u32 q, LM-OTS signature, u32 LMS type, h path digests; made once of one message."""
        if (q, message) not in self._signed:
            self._signed[q, message] = self._signature(q, message)
        return self._signed[q, message]

    def _signature(self, q, message):
        r = (1 << self.h) + q
        path = []
        while r > 1:
            path.append(self.nodes[r ^ 1])
            r >>= 1
        return (u32(q) + sign_ots(self.ident, q, self.ots, self.seed, message)
                + u32(TYPE_OF_HEIGHT[self.h]) + b"".join(path))


@functools.lru_cache(maxsize=None)
def _tree_by(_hash, ident, seed, ots, h):
    """A key's tree by this digest function, made once: it takes 2^h * p * (2^w - 1) digests."""
    return LmsTree(ident, seed, ots, h)


def tree_of(ident, seed, ots, h):
    """The tree of a key."""
    return _tree_by(hashing.lms_hash(), ident, seed, ots, h)


class SecretKey:
    """I, SEED, the set and the number of levels."""

    def __init__(self, ident, seed, ots=4, h=5, levels=1):
        if h not in (5, 10):
            raise ValueError("h is 5 or 10")
        self.ident, self.seed = bytes(ident), bytes(seed)
        self.ots, self.h, self.levels = ots, h, levels

    @staticmethod
    def make(ident, seed, ots=4, h=5):
        """A key of one level."""
        return SecretKey(ident, seed, ots, h, 1)

    @staticmethod
    def make_hss(ident, seed, ots=4, h=5):
        """A key of two levels."""
        return SecretKey(ident, seed, ots, h, 2)

    def upper(self):
        """The tree of the key itself."""
        return tree_of(self.ident, self.seed, self.ots, self.h)

    def lower(self, u):
        """The lower tree u: SEED_u = H(I, u32 u, fffe, ff, SEED), and I_u the first 16 bytes of
        H(I, u32 u, ffff, ff, SEED)."""
        hash_ = hashing.lms_hash()
        seed = hash_(self.ident + u32(u) + b"\xff\xfe\xff" + self.seed)
        ident = hash_(self.ident + u32(u) + b"\xff\xff\xff" + self.seed)[:16]
        return tree_of(ident, seed, self.ots, self.h)

    def public(self):
        """The public key."""
        return PublicKey(self.levels, self.upper().public())

    def leaves(self):
        """How many versions it can sign."""
        return 1 << (self.h * self.levels)

    def sign(self, version, message):
        """Leaf exactly where the version is 2^h (2^(2h)) or more."""
        if version >= self.leaves():
            raise SignFault("Leaf")
        if self.levels == 1:
            return self.upper().sign(version, message)
        u, q1 = divmod(version, 1 << self.h)
        tree = self.lower(u)
        pub1 = tree.public().bytes()
        return u32(1) + self.upper().sign(u, pub1) + pub1 + tree.sign(q1, message)
