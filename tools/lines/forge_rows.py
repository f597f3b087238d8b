"""The rows of the stored lines of crates/forge_lines: chosen forged signatures, each with several lists of signed records."""
from comparisons.forged_signatures import LoneLeaf, pair_signature, signed_by
from reference.catalog import Record
from reference.lms import SecretKey

ID, SEED = bytes(range(16)), bytes(range(32, 64))
RANDOMIZER = b"\x77" * 32
H5 = 5
SETS = 1, 2, 3, 4


def rows():
    """All rows, those of each key behind one another."""
    yield from no_lines()
    for ots in SETS:
        yield from one_level(ots)
        yield from two_levels(ots)


# -- what the cases are of

def record(version, mark, magic=b"VREC"):
    return Record(ID, version, bytes([mark]) * 32, magic)


def own(version):
    """The record that the owner signs of a version."""
    return record(version, version & 0xFF)


def owns(*versions):
    return [own(version) for version in versions]


def bytes_of(records):
    return b"".join(rec.bytes() for rec in records)


def made(secret):
    """The row that makes a key."""
    word = "make" if secret.levels == 1 else "make_hss"
    return word, bytes([secret.h]), bytes([secret.ots]), secret.ident, secret.seed


def explained(signed, rec, signature):
    return "explain", bytes_of(signed), rec.bytes(), signature


def explained_by(rec, signature, *lists):
    """The rows of a signature, where each of these lists was signed."""
    yield "keep", signature
    for signed in lists:
        yield explained(signed, rec, signature)


# -- lines that ask for nothing

def no_lines():
    secret, rec = SecretKey.make(ID, SEED, 3, H5), record(3, 0x99)
    signature = secret.sign(3, rec.bytes())
    yield "keep", signature
    yield explained([], rec, signature)
    yield made(secret)
    yield from (("explain",), ("explain", rec.bytes(), signature), ("explain", b"", rec.bytes(), signature, b""))
    # it is explained, but not where its record was signed, nor another one's
    yield explained([], rec, signature)
    yield from (explained(signed, rec, signature) for signed in ([rec], owns(2) + [rec] + owns(4)))
    yield from (explained([], other, signature) for other in (own(3), record(2, 0x99), record(3 + 32, 0x99)))
    # by another leaf, changed, cut, lengthened, and none
    yield explained([], rec, secret.sign(4, rec.bytes()))
    for at in (0, 3, 4, 8, 40, len(signature) - 161, len(signature) - 1):
        yield explained([], rec, signature[:at] + bytes([signature[at] ^ 1]) + signature[at + 1:])
    yield from (explained([], rec, other) for other in (signature[:-1], signature + b"\0", b""))
    # records that are none
    data = own(2).bytes()
    yield from (("explain", other, rec.bytes(), signature) for other in (
        data[:-1], data + b"\0", data + b"VREC", b"x" + data[1:], b"VRC3" + data[4:]))
    yield from (("explain", b"", other, signature) for other in (b"", rec.bytes()[:-1], rec.bytes() + b"\0"))
    # under another key
    yield made(SecretKey.make(ID, bytes(32), 3, H5))
    yield explained([], rec, signature)
    yield made(SecretKey.make_hss(ID, SEED, 3, H5))
    yield explained([], rec, signature)


# -- forged signatures

def one_level(ots):
    """A leaf that was used and one that was not, the first leaf and the last, and a record that the journal lost."""
    secret = SecretKey.make(ID, SEED, ots, H5)
    tree = secret.upper()
    yield made(secret)
    rec = record(3, 0x99)
    yield from explained_by(rec, signed_by(tree, 3, rec.bytes()), [], owns(3), owns(2), owns(4, 3, 2), owns(*range(32)))
    last = record(31, 0x99)
    yield from explained_by(last, signed_by(tree, 31, last.bytes(), RANDOMIZER), owns(*range(31)), owns(*range(32)))
    yield from explained_by(own(0), signed_by(tree, 0, own(0).bytes()), [], owns(1, 2))
    # records of catalogs with a column that may be NULL: forged, signed by the owner, and both of the same catalog digest
    nullable = record(3, 0x99, b"VRC2")
    yield from explained_by(nullable, signed_by(tree, 3, nullable.bytes()), [], owns(3), [record(3, 3, b"VRC2")], [rec])


def two_levels(ots):
    """By a leaf of the owner's lower tree, or through another lower tree, whose upper leaf was used or not."""
    secret = SecretKey.make_hss(ID, SEED, ots, H5)
    rec = record(37, 0x99)
    yield made(secret)
    yield from explained_by(rec, secret.sign(37, rec.bytes()), [], owns(37), owns(36, 38), owns(5, 37))
    made_up = LoneLeaf(bytes(16), bytes(32), secret, 5, [bytes([level]) * 32 for level in range(H5)])
    for lower, randomizer in ((made_up, None), (secret.lower(2), RANDOMIZER)):
        key = lower.public().bytes()
        signature = pair_signature(signed_by(secret.upper(), 1, key, randomizer), key, lower.sign(5, rec.bytes()))
        yield from explained_by(rec, signature, [], owns(37), owns(63), owns(31, 64), owns(*range(30, 40)))
