"""The digest: SHA-256, and weak stand-ins for tests of what a collision does.

The digest is SHA-256.  `weak` swaps it for a truncated one, so that a test reaches the branches
that find a collision.  Trees with catalogs, and signatures, have each their own switch.
"""

import contextlib
import hashlib


def sha256(data):
    """FIPS 180-4 SHA-256 of a byte string."""
    return hashlib.sha256(data).digest()


def truncated(bits):
    """SHA-256 cut to its first `bits` bits, then zeros up to 32 bytes."""
    mask = ((1 << bits) - 1) << (256 - bits)

    def weak_digest(data):
        number = int.from_bytes(hashlib.sha256(data).digest(), "big") & mask
        return number.to_bytes(32, "big")
    return weak_digest


class _Now:
    tree = staticmethod(sha256)
    signature = staticmethod(sha256)


def digest(data):
    """The digest of trees, rows and catalogs."""
    return _Now.tree(data)


def lms_hash():
    """The digest function of signatures, as it stands now."""
    return _Now.signature


@contextlib.contextmanager
def weak(bits, trees=True, signatures=False):
    """Inside this block the digests named are cut to `bits` bits."""
    old = (_Now.tree, _Now.signature)
    if trees:
        _Now.tree = staticmethod(truncated(bits))
    if signatures:
        _Now.signature = staticmethod(truncated(bits))
    try:
        yield
    finally:
        _Now.tree = staticmethod(old[0])
        _Now.signature = staticmethod(old[1])
