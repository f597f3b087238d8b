"""The rows of the stored lines of crates/format_lines: chosen cases, each the word of a call and its byte strings."""
import random
from dataclasses import replace

from lines.format_answers import load_store, number, seal_batches
from reference import lm_ots, lms
from reference.catalog import catalog_digest
from reference.faults import StoreFault
from reference.formats import batch_bytes, journal_bytes, read_proofs, write_proofs
from reference.owner import Owner
from reference.sql import parse_query, parse_script
from reference.store import Store
from reference.tree import Stub, attr_digest, digest_of, row_digest
from reference.values import NULL, bool_value, int_value, text_value, value_bytes


# -- digests and signatures

ID = bytes(range(16))
SEED = bytes(range(32, 64))
RECORD, OTHER = b"record", b"recore"
SETS = [b"\x01", b"\x02", b"\x03", b"\x04"]
LEAF = b"\x05"


def turned(data, at):
    """The bytes with the lowest bit of one turned."""
    return data[:at] + bytes([data[at] ^ 1]) + data[at + 1:]


def digest_rows():
    # the standard's examples, and what fills one block and two
    for data in b"", b"abc", b"abcdbcdecdefdefgefghfghighijhijkijkljklmklmnlmnomnopnopq":
        yield "digest", data
    for count in 55, 56, 63, 64, 119, 120, 1_000_000 // 8:
        yield "digest", b"a" * count
    # in pieces, of which some have no bytes, and none at all
    yield "hash", b"a", b"", b"bc"
    yield "hash", b"a" * 63, b"b", b"c" * 130
    yield "hash",
    # one string twice, and two strings
    yield "collision", b"abc", b"abc"
    yield "collision", b"abc", b"abd"


def one_time_rows():
    # the standard's examples of digits, and the last ones
    for ots, index in (1, 7), (3, 0), (1, 15), (2, 7), (3, 3), (4, 1):
        yield "digit", bytes([ots]), b"\x12\x34", bytes([index])
    # the greatest and the least sum, and one between them
    for digest in bytes(32), b"\xff" * 32, bytes(range(32)):
        for ots in SETS:
            yield "checksum", ots, digest
    for ots in SETS:
        yield from one_time_set_rows(ots)


def one_time_set_rows(ots):
    signature = lm_ots.sign_ots(ID, number(LEAF), number(ots), SEED, RECORD)
    yield "ots_public", ots, ID, LEAF, SEED
    yield "ots_sign", ots, ID, LEAF, SEED, RECORD
    # the public key, others for another message, leaf and identifier, and none for other lengths and typecodes
    yield "candidate", ots, ID, LEAF, RECORD, signature
    yield "candidate", ots, ID, LEAF, OTHER, signature
    yield "candidate", ots, ID, b"\x06", RECORD, signature
    yield "candidate", ots, turned(ID, 15), LEAF, RECORD, signature
    yield "candidate", ots, ID, LEAF, RECORD, turned(signature, len(signature) - 1)
    yield "candidate", ots, ID, LEAF, RECORD, signature[:-1]
    yield "candidate", ots, ID, LEAF, RECORD, signature + b"\0"
    yield "candidate", ots, ID, LEAF, RECORD, turned(signature, 3)


def key_bytes(tree, ots, root):
    return lm_ots.u32(tree) + lm_ots.u32(ots) + ID + root


def public_rows():
    # every pair of sets, and typecodes beside them
    for tree in range(4, 11):
        for ots in range(0, 6):
            yield "key", key_bytes(tree, ots, b"\x09" * 32)
    # a byte too few and too many
    yield "key", bytes(55)
    yield "key", key_bytes(5, 4, bytes(33))


def secret_rows():
    """Keys of height 5 with every set, and what they sign."""
    for ots in SETS:
        yield "make", LEAF, ots, ID, SEED
        # the root, its children, the last node above the leaves, and the first and the last leaf
        for place in 1, 2, 3, 31, 32, 63:
            yield "node", bytes([place])
        yield "copy",
        # past the last leaf, and far past it
        yield "sign", b"\x20", RECORD
        yield "sign", b"\xff" * 8, RECORD
        secret = lms.SecretKey.make(ID, SEED, number(ots), 5)
        yield "sign", LEAF, RECORD
        yield from verified_rows(secret.public().bytes(), secret.sign(5, RECORD))
    secret = lms.SecretKey.make(ID, SEED, 1, 5)
    yield "make", LEAF, b"\x01", ID, SEED
    yield "sign", b"\x1f", RECORD
    yield from turned_rows(secret.public().bytes(), secret.sign(31, RECORD))


def verified_rows(public, signature):
    yield "leaf", public, signature
    yield "leaf", public, signature[:4]
    yield "leaf", public, signature[:3]
    yield "verify", public, RECORD, signature
    # of another message, and under another key
    yield "verify", public, OTHER, signature
    yield "verify", turned(public, 55), RECORD, signature
    yield "verify", public[:24] + bytes(32), RECORD, signature


def turned_rows(public, signature):
    """A signature of 265 digits by the last leaf of 32, changed."""
    yield "verify", public, RECORD, signature
    # in the leaf, the one-time typecode, the randomizer, the first and the last digit's value, the tree's typecode, and
    # the ends of the path
    for at in 3, 7, 8, 40, 8519, 8523, 8524, 8683:
        yield "verify", public, RECORD, turned(signature, at)
    # longer, shorter, and by a leaf that the key has not
    yield "verify", public, RECORD, signature + b"\0"
    yield "verify", public, RECORD, signature[:-1]
    yield "verify", public, RECORD, lm_ots.u32(32 + 31) + signature[4:]


def high_rows():
    """Signatures under trees that are too high to be made, with a path of made-up digests, and by a key of height 10."""
    for tree, leaf in (7, 21_845), (8, 600_001), (9, 33_554_431):
        one_time = lm_ots.sign_ots(ID, leaf, 1, SEED, RECORD)
        path = b"".join(bytes([level]) * 32 for level in range(lms.HEIGHTS[tree]))
        signature = lm_ots.u32(leaf) + one_time + lm_ots.u32(tree) + path
        yield "ots_sign", b"\x01", ID, lm_ots.u32(leaf), SEED, RECORD
        yield "keep", signature
        yield from verified_rows(key_bytes(tree, 1, root_of(tree, leaf, path, 1, SEED)), signature)
    secret = lms.SecretKey.make(ID, SEED, 1, 10)
    yield "make", b"\x0a", b"\x01", ID, SEED
    yield "node", b"\x01"
    yield "copy",
    # past the last leaf
    yield "sign", b"\4\0", RECORD
    yield "sign", b"\2\xbc", RECORD
    yield from verified_rows(secret.public().bytes(), secret.sign(700, RECORD))


def pair_key_rows():
    """Keys of two levels."""
    # every height, and every length of chains, and typecodes beside them
    for tree in range(4, 11):
        yield "key", lm_ots.u32(2) + key_bytes(tree, 4, b"\x09" * 32)
    for ots in range(0, 6):
        yield "key", lm_ots.u32(2) + key_bytes(5, ots, b"\x09" * 32)
    # other numbers of levels, and other lengths
    for levels in 0, 1, 3, 1 << 24:
        yield "key", lm_ots.u32(levels) + key_bytes(5, 4, b"\x09" * 32)
    for length in 57, 59, 61, 64:
        yield "key", (lm_ots.u32(2) + key_bytes(5, 4, bytes(40)))[:length]


def pair_rows():
    """Keys of two levels with every set, and what they sign."""
    for ots in SETS:
        yield "make_hss", LEAF, ots, ID, SEED
        for place in 1, 63:
            yield "node", bytes([place])
        # past the last leaf, and far past it
        yield "sign", b"\4\0", RECORD
        yield "sign", b"\xff" * 8, RECORD
        secret = lms.SecretKey.make_hss(ID, SEED, number(ots), 5)
        yield "sign", b"\x25", RECORD
        yield from verified_pair_rows(secret, 37)
    # the first and the last leaf of a lower tree, the first one of the next, and the last of all
    secret = lms.SecretKey.make_hss(ID, SEED, 3, 5)
    yield "make_hss", LEAF, b"\x03", ID, SEED
    yield "copy",
    for version in 0, 31, 32, 1023:
        yield "sign", version.to_bytes(2, "big"), RECORD
        yield "verify", secret.public().bytes(), RECORD, secret.sign(version, RECORD)
        yield "leaf", secret.public().bytes(), secret.sign(version, RECORD)
    yield from turned_pair_rows(secret)
    yield from exchanged_rows(secret)


def verified_pair_rows(secret, version):
    public, signature = secret.public().bytes(), secret.sign(version, RECORD)
    # the places of both leaves, and a byte less than the second one has
    lower = len(signature) // 2 + 30
    yield "leaf", public, signature
    yield "leaf", public, signature[:lower + 4]
    yield "leaf", public, signature[:lower + 3]
    yield "leaf", public, b"\xff" * (lower + 4)
    yield "verify", public, RECORD, signature
    # of another message, under another key, under the key of its own lower tree, and of one level
    yield "verify", public, OTHER, signature
    yield "verify", turned(public, 59), RECORD, signature
    yield "verify", public[:28] + bytes(32), RECORD, signature
    yield "verify", lm_ots.u32(2) + signature[lower - 56:lower], RECORD, signature
    yield "verify", public[4:], RECORD, signature
    # its parts: the upper signature of the lower key, and the lower one of the message
    yield "verify", public[4:], signature[lower - 56:lower], signature[4:lower - 56]
    yield "verify", signature[lower - 56:lower], RECORD, signature[lower:]
    # the signature of one level by the same leaf of the same seed
    yield "verify", public, RECORD, secret.upper().sign(version % 32, RECORD)


# where the upper signature, the lower key and the lower signature stand in one of 67 digits twice
PAIR_CUTS = 4, 2352, 2408


def turned_pair_rows(secret):
    """A signature of 67 digits twice, by the last leaf of the second lower tree, changed."""
    public, signature = secret.public().bytes(), secret.sign(63, RECORD)
    yield "sign", b"\x3f", RECORD
    yield "verify", public, RECORD, signature
    # in the number of levels; in the upper signature's leaf, typecodes, randomizer, digits and path
    upper, key, lower = PAIR_CUTS
    tree = 0, 3, 4, 7, 8, 40, 2183, 2187, 2188, 2347
    # the lower key's typecodes, identifier and root, and the lower signature
    for at in 0, 3, *(upper + at for at in tree), *(key + at for at in (3, 7, 8, 23, 24, 55)), *(lower + at for at in tree):
        yield "verify", public, RECORD, turned(signature, at)
        yield "leaf", public, turned(signature, at)
    # longer, shorter, without its number, and by leaves that the trees have not
    for data in signature + b"\0", signature[:-1], signature[4:], b"":
        yield "verify", public, RECORD, data
    yield "verify", public, RECORD, signature[:4] + lm_ots.u32(32 + 1) + signature[8:]
    yield "verify", public, RECORD, signature[:lower] + lm_ots.u32(32 + 31) + signature[lower + 4:]
    # typecodes of another set in the lower key, whose signature is of that set and valid
    other = lms.tree_of(ID, SEED, 2, 5)
    for upper_tree in secret.upper(), other:
        upper_part = upper_tree.sign(1, other.public().bytes())
        data = lm_ots.u32(1) + upper_part + other.public().bytes() + other.sign(31, RECORD)
        yield "verify", public, RECORD, data
        yield "leaf", public, data


def exchanged_rows(secret):
    """Parts of signatures of one key and of two, exchanged."""
    other = lms.SecretKey.make_hss(ID, bytes(32), 3, 5)
    public, (_, key, lower) = secret.public().bytes(), PAIR_CUTS
    for first, second in ((secret.sign(31, RECORD), secret.sign(32, RECORD)), (secret.sign(3, RECORD), secret.sign(4, RECORD)),
                          (secret.sign(33, RECORD), other.sign(33, RECORD)), (secret.sign(33, RECORD), secret.sign(33, OTHER))):
        yield "keep", first + second
        for at in key, lower:
            yield "verify", public, RECORD, first[:at] + second[at:]
            yield "verify", public, RECORD, second[:at] + first[at:]
        # the lower key alone
        yield "verify", public, RECORD, first[:key] + second[key:lower] + first[lower:]


def root_of(tree, leaf, path, ots, seed):
    """The root that a path leads to from a leaf's one-time key."""
    place = (1 << lms.HEIGHTS[tree]) + leaf
    node = lms.leaf_node(ID, place, lm_ots.public_of(ID, leaf, ots, seed))
    for at in range(0, len(path), 32):
        sibling = path[at:at + 32]
        pair = (sibling, node) if place % 2 else (node, sibling)
        place //= 2
        node = lms.inner_node(ID, place, *pair)
    return node


# -- values and rows

def value_rows():
    values = [int_value(-1), text_value("bob"), bool_value(True)]
    spelled_values = [value_bytes(value) for value in values]
    hidden = [attr_digest(column, value) for column, value in enumerate(values)]
    yield "value", spelled_values[1]
    for column, value in (0, 0), (1, 1), (2, 2), (30, 2):
        yield "attribute", bytes([column]), spelled_values[value]
    # the ends of each kind
    for value in int_value(-1 << 63), int_value((1 << 63) - 1), text_value(""), text_value("x" * 1024), bool_value(False):
        yield "attribute", b"\0", value_bytes(value)
        yield "value", value_bytes(value)
    # one digest, shown and hidden
    for column in 2, 30:
        yield "cell", bytes([column]), b"\1" + spelled_values[2]
        yield "cell", bytes([column]), b"\0" + attr_digest(column, values[2])
    # NULL in the first column and the last, whole and as a cell, beside a byte too many
    for column in 0, 30:
        yield "attribute", bytes([column]), value_bytes(NULL)
        yield "cell", bytes([column]), b"\1" + value_bytes(NULL)
        yield "cell", bytes([column]), b"\0" + attr_digest(column, NULL)
    yield "value", value_bytes(NULL)
    # a row whole, with two cells hidden, all hidden, and closed; no cells, and as many as there can be
    yield ("whole", *spelled_values)
    yield "row", b"\0" + hidden[0], b"\1" + spelled_values[1], b"\0" + hidden[2]
    yield ("row", *(b"\0" + digest for digest in hidden))
    yield "closed", row_digest(tuple(values))
    yield "row",
    yield "whole",
    yield ("whole", *spelled_values * 10, spelled_values[0])
    # the first, the second, two and no columns shown, and one that is not there
    for columns in b"\0\0", b"\1\1", b"\2\0", b"\1\2", b"\0\1\2", b"\x09\x09", b"":
        yield ("hide", columns, *spelled_values)
        yield ("hide_cells", columns, *spelled_values)
    # the same with NULL among the values, shown and hidden
    with_null = [spelled_values[0], value_bytes(NULL), value_bytes(NULL)]
    yield ("whole", *with_null)
    yield "row", b"\1" + with_null[0], b"\0" + attr_digest(1, NULL), b"\1" + with_null[2]
    for columns in b"\1", b"\2\0", b"":
        yield ("hide", columns, *with_null)
        yield ("hide_cells", columns, *with_null)


# -- formats

PRICES = b"\x06prices\x03\x03sku\x02\x05cents\x01\x04live\x03\x00\x00\x00\x00\x00\x00\x00\x00\x02" + bytes(range(32))
REVOKED = b"\x07revoked\x02\x06reason\x02\x06serial\x01\x01\x00\x00\x00\x00\xff\xff\xff\xff" + b"\xff" * 32
BY_TRUTH = b"\x01t\x01\x01a\x03\x00" + bytes(8) + bytes(range(32))
NULLABLE = PRICES.replace(b"live\3", b"live\x83")


def catalog_rows():
    yield "catalog", b"\0\2" + PRICES + REVOKED
    yield "catalog", b"\0\0"
    # a table fewer than it says, a byte more, and too many
    yield "catalog", b"\0\2" + PRICES
    yield "catalog", b"\0\1" + PRICES + b"\0"
    yield "catalog", b"\0\x41" + PRICES
    # as many tables as there can be, and one more
    tables = [b"\3t%02d" % place + BY_TRUTH[2:].replace(b"\3\0", b"\1\0", 1) for place in range(65)]
    yield "catalog", b"\0\x40" + b"".join(tables[:64])
    yield "catalog", b"\0\x41" + b"".join(tables)
    # as many columns as there can be and the longest name, and one more of each
    for columns, length in (32, 63), (33, 63), (32, 64):
        named = b"".join(b"\3c%02d\1" % place for place in range(columns))
        front = bytes([length]) + b"t" * length + bytes([columns]) + named
        yield "catalog", b"\0\1" + front + b"\0" + bytes(40)
    # the wrong order, and one table twice
    yield "catalog", b"\0\2" + REVOKED + PRICES
    yield "catalog", b"\0\2" + PRICES + PRICES
    # a key that is BOOLEAN, and one that is no column
    yield "catalog", b"\0\1" + BY_TRUTH
    yield "catalog", b"\0\1" + PRICES.replace(b"\3\0", b"\3\3", 1)
    # a row too many for a table
    yield "catalog", b"\0\1" + PRICES.replace(bytes(7) + b"\2", b"\0\0\0\1" + bytes(4), 1)
    # no bytes
    yield "catalog", b""
    # columns that may be NULL, one and all but the key; the key, and type bytes beside theirs
    yield "catalog", b"\0\1" + NULLABLE
    yield "catalog", b"\0\2" + PRICES.replace(b"live\3", b"live\x83").replace(b"cents\1", b"cents\x81") + REVOKED
    yield "catalog", b"\0\1" + PRICES.replace(b"sku\2", b"sku\x82")
    yield "catalog", b"\0\1" + BY_TRUTH.replace(b"a\3", b"a\x83", 1)
    for byte in b"\x80", b"\x84", b"\xff":
        yield "catalog", b"\0\1" + PRICES.replace(b"live\3", b"live" + byte)


def record_rows():
    both = catalog_digest(b"\0\2" + PRICES + REVOKED)
    record = b"VREC" + ID + bytes(7) + b"\x07" + both
    yield "record", record
    yield "record", record[:20] + b"\xff" * 8 + both
    # a byte of the version too few, a byte too many, and other words
    yield "record", b"VREC" + ID + bytes(6) + b"\x07" + both
    yield "record", record + b"\0"
    for word in b"VRC3", b"VRC1", b"vrc2":
        yield "record", word + record[4:]
    yield "record", b""
    # of a catalog with a column that may be NULL, which the record alone doesn't tell; and too few and too many of its bytes
    yield "record", b"VRC2" + record[4:]
    yield "record", b"VRC2" + record[4:-1]
    yield "record", b"VRC2" + record[4:] + b"\0"


# a leaf of the rows (1, 'ann') and (3, 'bob'), a subtree that is its digest, and a leaf of a row with a hidden cell and
# of a row's digest
ROWS = (b"\x01\x02\x00\x08\x80" + bytes(6) + b"\x01\x01\x01\x01\x02\x00\x03ann"
        b"\x00\x08\x80" + bytes(6) + b"\x03\x01\x01\x01\x02\x00\x03bob")
STUB = b"\x00" + b"g" * 32
HIDDEN = (b"\x01\x02\x00\x01k\x01\x03\x00" + b"i" * 32 + b"\x01\x03\x01\x01\x01" + b"\xff" * 8
          + b"\x00\x01m\x00" + b"e" * 32)
# eleven levels of nodes with two children, and twelve
DEEPEST, TOO_DEEP = (b"\2\2\0\0" * levels + b"\1\0" * (levels + 1) for levels in (10, 11))
VERSION_3 = b"VREC0123456789abcdef" + bytes(7) + b"\x03" + b"c" * 32
ONE_TABLE = b"\x00\x01\x01t\x02\x02id\x01\x04name\x02\x00" + bytes(7) + b"\x02" + b"r" * 32


def reply_rows():
    front = b"VOR1" + VERSION_3 + b"\0\0\0\3sig\0\0\0\x38" + ONE_TABLE
    yield "reply", front + b"\2" + ROWS + STUB
    yield "reply", front + b"\1" + HIDDEN
    # cut at the end, a byte more, and a tree too many
    yield "reply", front + b"\2" + ROWS
    yield "reply", front + b"\1" + ROWS + b"\0"
    yield "reply", front + b"\0" + ROWS
    yield "reply", front + b"\1" + DEEPEST
    yield "reply", front + b"\1" + TOO_DEEP
    # as many trees as there can be
    yield "reply", front + b"\xff" + b"\1\0" * 255
    # no trees and no tables, and that of another word
    empty = VERSION_3 + bytes(4) + b"\0\0\0\2\0\0\0"
    yield "reply", b"VOR1" + empty
    yield "reply", b"VOR2" + empty
    # a byte left over in the catalog, and one too few
    yield "reply", b"VOR1" + VERSION_3 + bytes(4) + b"\0\0\0\3\0\0\0\0"
    yield "reply", b"VOR1" + VERSION_3 + bytes(4) + b"\0\0\0\1\0\0\0"
    # a signature that is too long, with and without its bytes, and one that isn't there
    yield "reply", b"VOR1" + VERSION_3 + b"\0\1\0\1"
    yield "reply", b"VOR1" + VERSION_3 + b"\0\1\0\1" + bytes(65_537) + b"\0\0\0\2\0\0\0"
    yield "reply", b"VOR1" + VERSION_3 + b"\0\0\0\4sig"
    # of a catalog with a column that may be NULL, and of one without: with its own word in the record, and with others
    nullable = ONE_TABLE.replace(b"name\2", b"name\x82")
    key = ONE_TABLE.replace(b"id\1", b"id\x81")
    with_null = ROWS.replace(b"\2\0\3ann", b"\0")
    for catalog in ONE_TABLE, nullable, key:
        for word in b"VREC", b"VRC2", b"VRC3":
            yield "reply", b"VOR1" + word + VERSION_3[4:] + b"\0\0\0\3sig\0\0\0\x38" + catalog + b"\1" + with_null
    yield "reply", b"VOR1VRC2" + empty[4:]
    # NULL in a plain column is a form, and a byte behind it is not
    yield "reply", front + b"\1" + with_null
    yield "reply", front + b"\1" + with_null + b"\0"


def proof_rows():
    yield "proofs", b"VOU1\0\2" + ROWS + STUB
    yield "proofs", b"VOU1\0\1" + HIDDEN
    yield "proofs", b"VOU1\0\0"
    yield "begin", b"\0\2"
    yield "begin", b"\3\xe8"
    yield "proofs", b"VOU1\0\1" + DEEPEST
    yield "proofs", b"VOU1\0\1" + TOO_DEEP
    # another word, a byte more, and a tree too few
    yield "proofs", b"VOU2\0\0"
    yield "proofs", b"VOU1\0\1" + ROWS + b"\0"
    yield "proofs", b"VOU1\0\2" + ROWS
    # as many trees as there can be, and one more, with and without its bytes
    yield "proofs", b"VOU1\3\xe8" + b"\1\0" * 1000
    yield "proofs", b"VOU1\3\xe9" + b"\1\0" * 1001
    yield "proofs", b"VOU1\3\xe9"
    # with NULL shown
    yield "proofs", b"VOU1\0\1" + ROWS.replace(b"\2\0\3ann", b"\0")


# -- journals

# entry 0: no commands, the proofs of no trees, the record of version 0, and the signature `first`
FIRST = (b"VOE1\0\0\0\2\0\0\0\0\0\6VOU1\0\0VREC" + ID + bytes(8) + b"\xaa" * 32 + b"\0\0\0\5first")
# entry 1: DROP TABLE t, no proof bytes, the record of version 1, and no signature
SECOND = b"VOE1\0\0\0\5\0\1\2\1t\0\0\0\0VREC" + ID + bytes(7) + b"\1" + b"\xbb" * 32 + bytes(4)
# the gates and lengths before them
BEFORE_FIRST, BEFORE_SECOND = b"\1\0\0\0\x59", b"\1\0\0\0\x51"
ONE = BEFORE_FIRST + FIRST
TWO = ONE + BEFORE_SECOND + SECOND


def slot_rows():
    yield "journal", TWO + b"\0"
    yield "journal", ONE + b"\2"
    closed = [
        TWO + b"\0",
        # nothing, or one byte
        b"", b"\0", b"\1",
        # a closed gate, behind which anything may stand
        b"\0\1", b"\2" + FIRST, ONE + b"\2", TWO + b"\0\1\1",
    ]
    damaged = [
        # an open gate with too little behind it
        b"\1\0", BEFORE_FIRST, BEFORE_FIRST + b"VOE1", ONE + b"\1", ONE + BEFORE_SECOND + b"VOE1",
        # no gate
        ONE, TWO,
        # a byte left over inside an entry
        b"\1\0\0\0\x5a" + FIRST + b"\0\0", ONE + b"\1\0\0\0\x52" + SECOND + b"\0\0",
        # another length than the entry's
        b"\1\0\0\0\x58" + FIRST + b"\0", b"\1\0\0\0\x5a" + FIRST,
        # another word
        BEFORE_FIRST + b"VOE2" + FIRST[4:] + b"\0",
    ]
    # records with the other words: a form by itself, whatever the catalog is, or none
    others = [ONE.replace(b"VREC", word) + b"\0" for word in (b"VRC2", b"VRC3", b"VRC1")]
    for data in closed + damaged + others:
        yield "slots", data
        yield "entries", data


def counted(data):
    return lm_ots.u32(len(data)) + data


def lone_slot(batch=b"\0\0", signature=b""):
    """The slot of an entry 0, and no gate behind it."""
    record = b"VREC" + ID + bytes(8) + b"\xaa" * 32
    front = b"VOE1" + counted(batch) + counted(b"VOU1\0\0")
    return b"\1" + counted(front + record + counted(signature))


def insert(texts):
    """The bytes of an INSERT of texts of these lengths."""
    values = (b"\2" + length.to_bytes(2, "big") + b"x" * length for length in texts)
    return b"\3\1t" + bytes([len(texts)]) + b"".join(values)


def limit_rows():
    """Parts of an entry as long as they can be, and longer: damage behind an entry that can be read."""
    for length in 65_536, 65_537:
        yield "entries", lone_slot(signature=bytes(length))
    for commands in 1_000, 1_001:
        yield "entries", lone_slot(batch=commands.to_bytes(2, "big") + b"\2\1t" * commands)
    # 1,048,576 bytes of a batch, and one more
    front = b"\0\x20" + insert([1024] * 32) * 31
    for last in 903, 904:
        yield "entries", lone_slot(batch=front + insert([1024] * 28 + [last]))


OWNER_SEED = bytes(range(16, 48))
CREATE = "CREATE TABLE t (id BIGINT, name TEXT, PRIMARY KEY (id));"
INSERTS = "INSERT INTO t VALUES (1, 'ann');", "INSERT INTO t VALUES (3, 'bob');"
CHANGES = "UPDATE t SET name = 'bo' WHERE id = 3;", "DELETE FROM t WHERE id = 1;", "DROP TABLE t;"
REFUSED = CREATE + INSERTS[0] + INSERTS[0]


def batches_of(*texts):
    """The batches of texts, a batch each."""
    return parse_script("".join(text + "COMMIT;" for text in texts))


def seal_row(*texts):
    return ("seal", *(batch_bytes(batch) for batch in batches_of(*texts)))


def journal_rows():
    secret = lms.SecretKey.make(ID, OWNER_SEED, 4, 5)
    public = secret.public().bytes()
    yield "make", LEAF, b"\x04", ID, OWNER_SEED
    yield seal_row(CREATE, *INSERTS)
    yield from read_rows(public, seal_batches(secret, batches_of(CREATE, *INSERTS)))
    changed = seal_batches(secret, batches_of(CREATE, *INSERTS, *CHANGES))
    yield seal_row(CREATE, *INSERTS, *CHANGES)
    for version in range(8):
        yield "owned", public, bytes([version]), changed
    yield "taken", public, changed
    # versions that are kept, one behind the last, and of a journal that no store takes
    for version in range(9):
        yield "answer_at", public, b"SELECT * FROM t", changed, bytes([version])
    yield "answer_at", public, b"SELECT * FROM t", changed[:2000] + b"\0", b"\0"
    # a version more than the key has leaves; a command that is refused by itself, behind others, and behind batches
    yield ("seal", *[b"\0\0"] * 32)
    yield seal_row(CHANGES[2])
    yield seal_row(REFUSED)
    yield seal_row(CREATE, INSERTS[0], INSERTS[1] + INSERTS[0])


def pair_journal_rows():
    """Journals under a key of two levels: of three batches, and over the border of two lower trees."""
    secret = lms.SecretKey.make_hss(ID, OWNER_SEED, 4, 5)
    public = secret.public().bytes()
    yield "make_hss", LEAF, b"\x04", ID, OWNER_SEED
    yield "start",
    journal = seal_batches(secret, batches_of(CREATE, *INSERTS))
    yield seal_row(CREATE, *INSERTS)
    yield "entries", journal
    for version in 3, 4:
        yield "owned", public, bytes([version]), journal
    # under the key of one level of the same seed
    yield "owned", public[4:], b"\3", journal
    yield "taken", public[4:], journal
    # in a lower signature, a lower key and an upper signature of the last entry
    for back in 40, 1350, 1500:
        yield "owned", public, b"\0", turned(journal, len(journal) - 1 - back)
        yield "taken", public, turned(journal, len(journal) - 1 - back)
    yield "replay", journal
    yield "taken", public, journal
    yield "answer", public, b"SELECT name FROM t WHERE id > 1", journal
    over = Owned(secret, *[CREATE, CHANGES[2]] * 16)
    yield "keep", over.journal()
    for version in 31, 32, 33:
        yield "owned", public, bytes([version]), over.journal()
    yield "taken", public, over.journal()
    yield "replay", over.journal()
    yield "step", over.journal(), bytes_of(CREATE), over.proofs(CREATE)
    yield from kept_rows(public, Owned(secret, *[CREATE, CHANGES[2]] * 35).journal())


def kept_rows(public, journal):
    """Replies by a journal of 71 versions: those from 7 on are kept."""
    yield "keep", journal
    for version in 0, 6, 7, 8, 69, 70, 71, 256:
        yield "answer_at", public, b"SELECT * FROM t", journal, version.to_bytes(2, "big")
    yield "answer", public, b"SELECT * FROM t", journal


def read_rows(public, journal):
    """The journal of three batches, whole and with a byte changed."""
    yield "entries", journal
    # each version, and two that are not there
    for version in range(6):
        yield "owned", public, bytes([version]), journal
    yield "taken", public, journal
    # in the last catalog's digest, the last proofs, a signature, the closing gate
    for back in 1330, 1390, 2744, 1:
        yield "owned", public, b"\0", turned(journal, len(journal) - back)
        yield "taken", public, turned(journal, len(journal) - back)
    # another key, no entries, and a cut
    yield "owned", turned(public, 55), b"\0", journal
    yield "taken", turned(public, 55), journal
    for count in 0, 2000, len(journal) - 1:
        yield "owned", public, b"\0", journal[:count]
        yield "taken", public, journal[:count]
    reply = load_store(lms.PublicKey.read(public), journal)[0].answer(parse_query("SELECT * FROM t"))
    yield "answer", public, b"SELECT * FROM t", journal
    yield "reply", reply
    yield "record", reply[4:64]


# that of the seed of all comparisons, tools/comparisons/throwaway.seed
EXAMPLE_SEED = bytes(3 + 7 * place for place in range(32))


def answer_rows():
    """Replies by a journal of one batch."""
    secret = lms.SecretKey.make(ID, EXAMPLE_SEED, 4, 5)
    public, journal = secret.public().bytes(), seal_batches(secret, batches_of(CREATE + "".join(INSERTS)))
    yield "make", LEAF, b"\x04", ID, EXAMPLE_SEED
    yield seal_row(CREATE + "".join(INSERTS))
    yield "answer", public, b"SELECT * FROM t", journal
    # one of two rows, none, and a table that is not there
    yield "answer", public, b"SELECT name FROM t WHERE id > 1 AND id >= 1", journal
    yield "answer", public, b"SELECT name FROM t WHERE id < 1 AND id >= 1", journal
    yield "answer", public, b"SELECT * FROM d WHERE id = 1 AND id >= 1", journal
    # version 0 alone, no entry, a cut in entry 1, and another key
    yield "answer", public, b"SELECT * FROM t", journal[:1381] + b"\0"
    yield "answer", public, b"SELECT * FROM t", b"\0"
    yield "answer", public, b"SELECT * FROM t", journal[:2000] + b"\0"
    yield "answer", turned(public, 55), b"SELECT * FROM t", journal
    # the first of two rows, the second, which is the first that meets the condition, and both
    yield "answer", public, b"SELECT name FROM t LIMIT 1", journal
    yield "answer", public, b"SELECT id FROM t WHERE name = 'bob' LIMIT 1", journal
    yield "answer", public, b"SELECT * FROM t LIMIT 4294967295", journal
    yield from page_rows(secret)


def page_rows(secret):
    """Replies to queries with a limit by a tree of two leaves: the cut in the first of them, and in the second."""
    rows = "".join(f"INSERT INTO t VALUES ({id}, '{id % 3}');" for id in range(17))
    public, journal = secret.public().bytes(), seal_batches(secret, batches_of(CREATE + rows))
    yield seal_row(CREATE + rows)
    yield "answer", public, b"SELECT * FROM t WHERE id >= 2 LIMIT 3", journal
    yield "answer", public, b"SELECT id FROM t WHERE name = '2' LIMIT 4", journal


# -- owners with roots alone

def bytes_of(text):
    """The batch of a text, as bytes."""
    [batch] = batches_of(text)
    return batch_bytes(batch)


class Owned:
    """An owner and a store of its tables, which follow batches."""

    def __init__(self, secret, *texts):
        self.owner, first = Owner.start(secret)
        self.store, self.entries = Store(secret.public()), [first]
        self.store.install(first.rec, first.signature)
        for text in texts:
            self.follow(text)

    def proofs(self, text):
        """The honest proofs of a batch, also of one that is refused."""
        [batch] = batches_of(text)
        try:
            return self.store.propose(batch)
        except StoreFault as fault:
            return fault.fields["proofs"]

    def follow(self, text):
        [batch] = batches_of(text)
        step = self.owner.step(batch, self.store.propose(batch))
        self.store.install(step.entry.rec, step.entry.signature)
        self.owner.advance(step)
        self.entries.append(step.entry)

    def next_row(self, text, proofs):
        roots = self.owner.roots
        return "next", bytes([roots.version]), roots.catalog.bytes(), bytes_of(text), proofs

    def journal(self):
        return journal_bytes(self.entries)


NULLS = ("CREATE TABLE t (id BIGINT, name TEXT NULL, n BIGINT, PRIMARY KEY (id));", "INSERT INTO t VALUES (1, NULL, 7);",
         "INSERT INTO t VALUES (2, 'bob', 8);", "UPDATE t SET name = NULL WHERE id = 2; UPDATE t SET name = 'ann' WHERE id = 1;",
         "DELETE FROM t WHERE id = 2;", "CREATE TABLE u (id BIGINT, PRIMARY KEY (id));", "DROP TABLE t;")


def null_rows():
    """Journals and owners of a table with a column that may be NULL, up to its end."""
    secret = lms.SecretKey.make(ID, OWNER_SEED, 4, 5)
    public = secret.public().bytes()
    yield "make", LEAF, b"\x04", ID, OWNER_SEED
    yield seal_row(*NULLS)
    owned = Owned(secret)
    for text in NULLS:
        yield owned.next_row(text, owned.proofs(text))
        owned.follow(text)
    journal = owned.journal()
    yield "keep", journal
    for version in range(len(NULLS) + 1):
        yield "owned", public, bytes([version]), journal
    yield "taken", public, journal
    yield "replay", journal
    # of a version with the table, and of the last one; by NULL and by none
    for version in 1, 3, 7:
        yield "answer_at", public, b"SELECT * FROM t WHERE name IS NULL", journal, bytes([version])
    # each record with the other word: an entry by its form, and no entry of this owner
    for entry in owned.entries[1], owned.entries[-1]:
        whole = entry.rec.bytes()
        other = (b"VREC" if whole[:4] == b"VRC2" else b"VRC2") + whole[4:]
        changed = journal.replace(whole, other)
        yield "slots", changed
        yield "owned", public, b"\1", changed
        yield "taken", public, changed
        yield "owned_entries", public, changed
        yield "replay", changed
    # refused by the catalog: NULL for the key and in a plain column, behind what comes before, and a key that may be NULL
    before = Owned(secret, *NULLS[:3])
    for text in ("INSERT INTO t VALUES (NULL, 'z', 1);", "INSERT INTO t VALUES (NULL, 7, 1);", "INSERT INTO t VALUES (1, NULL, NULL);",
                 "UPDATE t SET n = NULL WHERE id = 9;", "UPDATE t SET name = NULL WHERE id = NULL;", "DELETE FROM t WHERE id = NULL;",
                 "UPDATE t SET name = NULL WHERE id = 9;", "CREATE TABLE u (id BIGINT NULL, PRIMARY KEY (id));"):
        yield before.next_row(text, before.proofs(text))
        yield "step", before.journal(), bytes_of(text), before.proofs(text)
    yield seal_row(*NULLS[:2], "INSERT INTO t VALUES (3, NULL, NULL);")
    # the proofs of an UPDATE with NULL shown in a cell, and hidden in its place
    text = "UPDATE t SET n = 9 WHERE id = 1;"
    proofs = before.proofs(text)
    hidden = b"\0" + attr_digest(0, NULL)
    yield before.next_row(text, proofs)
    yield before.next_row(text, proofs.replace(hidden, b"\1\0"))


def owner_rows():
    secret = lms.SecretKey.make(ID, OWNER_SEED, 4, 5)
    public = secret.public().bytes()
    yield "make", LEAF, b"\x04", ID, OWNER_SEED
    yield "start",
    yield from followed_rows(secret)
    yield from hostile_proof_rows(secret)
    yield from stepped_rows(secret)
    yield from replayed_rows(secret, public)


def followed_rows(secret):
    """The roots after each batch of all commands, by honest proofs, and the refusals that these show."""
    owned = Owned(secret)
    for text in CREATE, *INSERTS, *CHANGES:
        yield owned.next_row(text, owned.proofs(text))
        owned.follow(text)
    # a tree of two leaves, one of which is cut off, and the whole of it in one batch
    owned = Owned(secret, CREATE)
    many = "".join(f"INSERT INTO t VALUES ({key}, 'x');" for key in range(1, 18))
    fewer = "".join(f"DELETE FROM t WHERE id = {key};" for key in (1, 2))
    for text in many, fewer:
        yield owned.next_row(text, owned.proofs(text))
        owned.follow(text)
    # refused by the catalog, and by the rows that the proof shows
    owned = Owned(secret, CREATE, *INSERTS)
    for text in (CREATE, "INSERT INTO u VALUES (1);", "INSERT INTO t VALUES (1);", "INSERT INTO t VALUES (3, 'z');",
                 "UPDATE t SET name = 'z' WHERE id = 7;", "DELETE FROM t WHERE id = 2;",
                 "DELETE FROM t WHERE id = 3; DELETE FROM t WHERE id = 3;"):
        yield owned.next_row(text, owned.proofs(text))


def hostile_proof_rows(secret):
    """The proofs of an UPDATE, of two commands and of none, changed."""
    owned = Owned(secret, CREATE, *INSERTS)
    proofs = owned.proofs(CHANGES[0])
    [tree] = read_proofs(proofs)
    shown = proofs[:-33] + b"\1\2\0\3bob"
    # the last byte cut, a bit of a digest turned, the tree as its digest, and the cell shown as it is
    for data in proofs[:-1], turned(proofs, 20), write_proofs([Stub(digest_of(tree))]), shown:
        yield owned.next_row(CHANGES[0], data)
    # a cell too many, a key that is no BIGINT, the other row open, and the tree of an INSERT
    extra = proofs[:-34] + b"\2\0" + proofs[-32:] + b"\0" + proofs[-32:]
    for data in extra, b"VOU1\0\1\1\1\0\1k\0" + b"d" * 32, owned.proofs(INSERTS[0]):
        yield owned.next_row(CHANGES[0], data)
    # none, two, and one where none is due
    for text, data in ((CHANGES[0], b"VOU1\0\0"), (CHANGES[0], write_proofs([tree, tree])), (CHANGES[2], proofs),
                       (CHANGES[2], b"VOU1\0\0"), (CHANGES[0], b"")):
        yield owned.next_row(text, data)
    # two commands, by the proofs of the first alone, by both before the first, and in the other order
    both = CHANGES[0] + CHANGES[1]
    first, second = read_proofs(owned.proofs(both))
    for trees in [first, second], [first], [first, first], [second, first]:
        yield owned.next_row(both, write_proofs(trees))
    yield from sibling_rows(secret)


def sibling_rows(secret):
    """A DELETE that makes a leaf underfull: its sibling open, closed, and open where it isn't looked at."""
    many = "".join(f"INSERT INTO t VALUES ({key}, 'x');" for key in range(1, 18))
    owned = Owned(secret, CREATE, many)
    looks, leaves = "DELETE FROM t WHERE id = 1;", "DELETE FROM t WHERE id = 9;"
    [both], [one] = read_proofs(owned.proofs(looks)), read_proofs(owned.proofs(leaves))
    for text in looks, leaves:
        for tree in both, one:
            yield owned.next_row(text, write_proofs([tree]))


def stepped_rows(secret):
    owned = Owned(secret, CREATE, *INSERTS)
    yield "keep", owned.journal()
    for text in CHANGES:
        yield "step", owned.journal(), bytes_of(text), owned.proofs(text)
    # refused by the row that is there, by a proof of another root, and behind another key's journal
    again = "INSERT INTO t VALUES (3, 'z');"
    yield "step", owned.journal(), bytes_of(again), owned.proofs(again)
    yield "step", owned.journal(), bytes_of(CHANGES[0]), turned(owned.proofs(CHANGES[0]), 20)
    other = Owned(lms.SecretKey.make(ID, SEED, 4, 5))
    yield "step", other.journal(), b"\0\0", b"VOU1\0\0"
    # the last version of a key of 32 leaves, and one more, by honest proofs and by none
    full = Owned(secret, CREATE, *["INSERT INTO t VALUES (%d, 'x');" % key for key in range(29)])
    yield "keep", full.journal()
    yield "step", full.journal(), bytes_of(CHANGES[0]), full.proofs(CHANGES[0])
    full.follow(CHANGES[0])
    yield "keep", full.journal()
    yield "step", full.journal(), bytes_of(CHANGES[0]), full.proofs(CHANGES[0])
    yield "step", full.journal(), bytes_of(CHANGES[0]), b""


def replayed_rows(secret, public):
    """Script A's journal, and others that are an owner's up to an entry."""
    owned = Owned(secret, CREATE, *INSERTS)
    *earlier, last = owned.entries
    at = last.proofs.index(b"\x80" + bytes(6) + b"\1\0") + 9
    # the last entry's first digest turned, its proofs taken as those of no trees, its record and its signature turned,
    # another batch, and no last entry
    others = [
        replace(last, proofs=turned(last.proofs, at)),
        replace(last, proofs=b"VOU1\0\0"),
        replace(last, rec=earlier[-1].rec),
        replace(last, signature=turned(last.signature, 40)),
        replace(last, batch=tuple(batches_of(CHANGES[1])[0])),
    ]
    yield "keep", owned.journal()
    journals = [owned.journal(), *(journal_bytes([*earlier, other]) for other in others), journal_bytes(earlier)]
    for data in *journals, b"\0", b"":
        yield "replay", data
        yield "owned_entries", public, data
        yield "owned", public, b"\3", data
    # version 0 with a batch, with other proofs, and signed for version 1
    first = earlier[0]
    for other in (replace(first, batch=tuple(batches_of(CREATE)[0])), replace(first, proofs=b""), replace(first, rec=last.rec)):
        yield "replay", journal_bytes([other])
        yield "owned_entries", public, journal_bytes([other])
    yield "owned_entries", turned(public, 55), owned.journal()


# -- a journal on a disk

def small_slots(count):
    """The slots of so many small entries, with proofs and signatures that are none."""
    for version in range(count):
        record = b"VREC" + ID + bytes(7) + bytes([version]) + bytes([version]) * 32
        entry = b"VOE1" + counted(b"\0\1\2\1t") + counted(b"p" * version) + record + counted(b"s" * (9 - version))
        yield b"\1" + counted(entry)


def image_rows():
    run = random.Random(4)
    for count in range(1, 7):
        slots = list(small_slots(count))
        yield "keep", b"".join(slots) + b"\0"
        # an empty disk makes four calls to open and four to an entry, of which the third opens its gate
        yield from failing_rows(run, b"", 4 + 4 * count, slots)
    # a disk that has the first entries, and behind its closed gate another, or less or more than one, makes three to open
    for count, behind in (0, slots[0][1:]), (1, b"\1"), (2, slots[2][1:50]), (4, slots[4][1:] + slots[5]):
        yield from failing_rows(run, b"".join(slots[:count]) + b"\0" + behind, 3 + 4 * (6 - count), slots)


def failing_rows(run, first, calls, slots):
    """Each call fails in turn, and then none: what a write still writes, and lost bytes that are open gates, closed ones
    and others."""
    for call in range(calls + 1):
        for lost in b"\1", bytes(1), run.randbytes(3):
            after = run.choice([0, 1, run.randrange(90)])
            lost_bytes = lost * run.choice([0, 20, 200, 400])
            yield "images", bytes([call]), bytes([after]), lost_bytes, first, b"".join(slots) + b"\0"


def rows():
    yield from digest_rows()
    yield from one_time_rows()
    yield from public_rows()
    yield from secret_rows()
    yield from pair_key_rows()
    yield from pair_rows()
    yield from high_rows()
    yield from value_rows()
    yield from catalog_rows()
    yield from record_rows()
    yield from reply_rows()
    yield from proof_rows()
    yield from slot_rows()
    yield from limit_rows()
    yield from journal_rows()
    yield from pair_journal_rows()
    yield from owner_rows()
    yield from null_rows()
    yield from answer_rows()
    yield from image_rows()
