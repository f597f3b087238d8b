"""Trees, replies, proofs, batches, entries and journals as bytes."""

from dataclasses import dataclass
from typing import List

from .catalog import Catalog, Record, column_of, read_catalog, take_record, type_byte
from .faults import BadForm, EntriesFault
from .stages import has
from .syntax import Create, Delete, Drop, INDEX, Insert, SUM, SideColumn, Update
from .tree import Entry, HIGH, Inner, Leaf, Stub, TChild, TEntry, TInner, TLeaf, spelled_key
from .values import Cursor, name_bytes, read_name, read_value, value_bytes

REPLY_LIMIT, PROOFS_LIMIT = 67_108_864, 134_217_728
BATCH_LIMIT, SIGNATURE_LIMIT = 1_048_576, 65_536
MOST_COMMANDS, MOST_PROOFS, MOST_CELLS, DEPTH, KEY_LIMIT = 1_000, 9_000, 31, 11, 255


# -- trees

def part_bytes(part):
    """A row part: `00` digest, or `01`, u8 count, cells."""
    if isinstance(part, bytes):
        return b"\x00" + part
    return b"\x01" + bytes([len(part)]) + b"".join(
        b"\x00" + cell if isinstance(cell, bytes) else b"\x01" + value_bytes(cell)
        for cell in part)


def tree_bytes(node):
    """A tree's bytes."""
    if isinstance(node, Stub):
        return b"\x00" + node.digest
    if isinstance(node, Leaf):
        return b"\x01" + bytes([len(node.entries)]) + b"".join(
            spelled_key(e.key) + part_bytes(e.part) for e in node.entries)
    if isinstance(node, TLeaf):
        return b"\x03" + bytes([len(node.entries)]) + b"".join(
            spelled_key(e.key) + e.value.to_bytes(8, "big", signed=True)
            for e in node.entries)
    front = (b"\x04" if node.totals else b"\x02") + bytes([len(node.slots)])
    front += b"".join(spelled_key(s) for s in node.separators)
    if node.totals:
        return front + b"".join(s.bytes() + tree_bytes(s.node) for s in node.slots)
    return front + b"".join(tree_bytes(child) for child in node.slots)


def read_key(cursor):
    """The key or separator at the cursor."""
    length = cursor.number(2)
    if length > KEY_LIMIT:
        raise BadForm("key length")
    return cursor.take(length)


def read_part(cursor):
    """The row part at the cursor."""
    tag = cursor.number(1)
    if tag == 0:
        return cursor.take(32)
    if tag != 1:
        raise BadForm("row part")
    count = cursor.number(1)
    if count > MOST_CELLS:
        raise BadForm("cells")
    return tuple(_read_cell(cursor) for _ in range(count))


def _read_cell(cursor):
    tag = cursor.number(1)
    if tag == 0:
        return cursor.take(32)
    if tag != 1:
        raise BadForm("cell")
    return read_value(cursor)


def read_tree(cursor, depth=1, family=None):
    """A subtree at that depth; below an open root its family alone or stubs."""
    if depth > DEPTH:
        raise BadForm("depth")
    tag = cursor.number(1)
    if tag == 0:
        return Stub(cursor.take(32))
    totals = {1: False, 2: False, 3: True, 4: True}.get(tag)
    if totals and not has("totals"):
        raise BadForm("tree byte of a feature that is not built")
    if totals is None or (family is not None and family != totals):
        raise BadForm("tree byte")
    count = cursor.number(1)
    if tag in (1, 3):
        if count > HIGH:
            raise BadForm("entries")
        return _read_leaf(cursor, count, totals)
    if not 2 <= count <= HIGH:
        raise BadForm("children")
    separators = [read_key(cursor) for _ in range(count - 1)]
    if not totals:
        return Inner(separators, [read_tree(cursor, depth + 1, totals) for _ in range(count)])
    slots = []
    for _ in range(count):
        number = cursor.number(8)
        total = int.from_bytes(cursor.take(16), "big", signed=True)
        slots.append(TChild(number, total, read_tree(cursor, depth + 1, totals)))
    return TInner(separators, slots)


def _read_leaf(cursor, count, totals):
    entries = []
    for _ in range(count):
        key = read_key(cursor)
        if totals:
            entries.append(TEntry(key, int.from_bytes(cursor.take(8), "big", signed=True)))
        else:
            entries.append(Entry(key, read_part(cursor)))
    return TLeaf(entries) if totals else Leaf(entries)


# -- replies

@dataclass
class Reply:
    """A reply taken apart."""
    rec: Record
    signature: bytes
    catalog: Catalog
    trees: List[object]
    catalog_raw: bytes = b""
    after_signature: bytes = b""      # all bytes after the signature


def long_bytes(data):
    """Bytes behind their length of 4 bytes."""
    return len(data).to_bytes(4, "big") + data


def write_reply(rec, signature, catalog, trees):
    """A reply's bytes."""
    return (b"VOR1" + rec.bytes() + long_bytes(signature) + long_bytes(catalog.bytes())
            + bytes([len(trees)]) + b"".join(tree_bytes(t) for t in trees))


def read_reply(data):
    """The reply that the bytes are, or BadForm."""
    cursor = Cursor(data)
    if cursor.take(4) != b"VOR1":
        raise BadForm("magic")
    rec = take_record(cursor)
    length = cursor.number(4)
    if length > SIGNATURE_LIMIT:
        raise BadForm("signature length")
    signature = cursor.take(length)
    after = cursor.at
    raw = cursor.take(cursor.number(4))
    catalog = read_catalog(raw)
    if rec.magic != catalog.magic():
        raise BadForm("the record's magic is not its catalog's")
    trees = [read_tree(cursor) for _ in range(cursor.number(1))]
    cursor.end()
    return Reply(rec, signature, catalog, trees, raw, bytes(data[after:]))


# -- proofs

def write_proofs(trees):
    """The bytes of a batch's proofs."""
    return b"VOU1" + len(trees).to_bytes(2, "big") + b"".join(tree_bytes(t) for t in trees)


def read_proofs(data):
    """The trees that proofs are, or BadForm."""
    if len(data) > PROOFS_LIMIT:
        raise BadForm("proofs too long")
    cursor = Cursor(data)
    if cursor.take(4) != b"VOU1":
        raise BadForm("magic")
    count = cursor.number(2)
    if count > (MOST_PROOFS if has("indexes") else MOST_COMMANDS):
        raise BadForm("trees")
    trees = [read_tree(cursor) for _ in range(count)]
    cursor.end()
    return trees


# -- batches

def _create_bytes(command):
    tag = b"\x06" if command.sides else b"\x01"
    out = tag + name_bytes(command.name) + bytes([len(command.columns)])
    for column in command.columns:
        out += name_bytes(column.name) + bytes([type_byte(column)])
    out += name_bytes(command.key)
    if command.sides:
        out += bytes([len(command.sides)])
        out += b"".join(bytes([s.kind]) + name_bytes(s.column) for s in command.sides)
    return out


def command_bytes(command):
    """A command's bytes."""
    if isinstance(command, Create):
        return _create_bytes(command)
    if isinstance(command, Drop):
        return b"\x02" + name_bytes(command.name)
    if isinstance(command, Insert):
        return (b"\x03" + name_bytes(command.name) + bytes([len(command.values)])
                + b"".join(value_bytes(v) for v in command.values))
    where = name_bytes(command.column) + value_bytes(command.value)
    if isinstance(command, Update):
        return (b"\x04" + name_bytes(command.name) + bytes([len(command.sets)])
                + b"".join(name_bytes(c) + value_bytes(v) for c, v in command.sets) + where)
    return b"\x05" + name_bytes(command.name) + where


def batch_bytes(commands):
    """A batch's bytes."""
    return len(commands).to_bytes(2, "big") + b"".join(command_bytes(c) for c in commands)


def _counted(cursor, read):
    count = cursor.number(1)
    if not 1 <= count <= 32:
        raise BadForm("count")
    return tuple(read() for _ in range(count))


def read_command(cursor):
    """The command at the cursor."""
    tag = cursor.number(1)
    if not 1 <= tag <= (6 if has("indexes") else 5):
        raise BadForm("command")
    name = read_name(cursor)
    if tag in (1, 6):
        columns = _counted(cursor, lambda: column_of(read_name(cursor), cursor.number(1)))
        key = read_name(cursor)
        sides = _counted(cursor, lambda: _read_side(cursor)) if tag == 6 else ()
        return Create(name, columns, key, sides)
    if tag == 2:
        return Drop(name)
    if tag == 3:
        return Insert(name, _counted(cursor, lambda: read_value(cursor)))
    if tag == 4:
        sets = _counted(cursor, lambda: (read_name(cursor), read_value(cursor)))
        column = read_name(cursor)
        return Update(name, sets, column, read_value(cursor))
    column = read_name(cursor)
    return Delete(name, column, read_value(cursor))


def _read_side(cursor):
    kind = cursor.number(1)
    if kind not in ((INDEX, SUM) if has("totals") else (INDEX,)):
        raise BadForm("side kind")
    return SideColumn(kind, read_name(cursor))


def read_batch(data):
    """The commands that bytes are, or BadForm."""
    if len(data) > BATCH_LIMIT:
        raise BadForm("batch too long")
    cursor = Cursor(data)
    count = cursor.number(2)
    if count > MOST_COMMANDS:
        raise BadForm("commands")
    commands = tuple(read_command(cursor) for _ in range(count))
    cursor.end()
    return commands


# -- entries and journals

@dataclass(frozen=True)
class JournalEntry:
    """A version in the journal."""
    batch: tuple
    proofs: bytes
    rec: Record
    signature: bytes


def entry_bytes(entry):
    """An entry's bytes."""
    return (b"VOE1" + long_bytes(batch_bytes(entry.batch)) + long_bytes(entry.proofs)
            + entry.rec.bytes() + long_bytes(entry.signature))


def read_entry(data):
    """The entry that bytes are, or BadForm."""
    cursor = Cursor(data)
    if cursor.take(4) != b"VOE1":
        raise BadForm("magic")
    batch = read_batch(cursor.take(cursor.number(4)))
    length = cursor.number(4)
    if length > PROOFS_LIMIT:
        raise BadForm("proofs too long")
    proofs = cursor.take(length)
    rec = take_record(cursor)
    length = cursor.number(4)
    if length > SIGNATURE_LIMIT:
        raise BadForm("signature too long")
    signature = cursor.take(length)
    cursor.end()
    return JournalEntry(batch, proofs, rec, signature)


def walk_journal(data):
    """The entries, and the place of the closed gate; or Damaged."""
    if len(data) <= 1:
        return [], 0
    entries, at = [], 0
    while True:
        if at >= len(data):
            raise EntriesFault(len(entries), at, entries)
        if data[at] != 1:
            return entries, at
        cursor = Cursor(data, at + 1)
        try:
            entry = read_entry(cursor.take(cursor.number(4)))
        except BadForm:
            raise EntriesFault(len(entries), at, entries) from None
        entries.append(entry)
        at = cursor.at


def read_entries(data):
    """The entries of a journal's bytes, or Damaged."""
    return walk_journal(data)[0]


def slot_bytes(entry):
    """An entry as it stands in a journal: an open gate, its length, its bytes."""
    return b"\x01" + long_bytes(entry_bytes(entry))


def journal_bytes(entries):
    """What `seal` writes: each slot open and one `00` at the end."""
    return b"".join(slot_bytes(e) for e in entries) + b"\x00"
