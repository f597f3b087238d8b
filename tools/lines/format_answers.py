"""Lines of crates/format_lines, each with the answer due by the independent implementation.

A row is the word of a call and its byte strings; those that a line shares with the bytes kept last are spelled by their
places there.
"""
import re

from comparisons.memory_runs import image_with
from lines import forms
from reference import lm_ots, lms
from reference.audit import read_owned
from reference.catalog import catalog_digest, read_catalog, read_record
from reference.faults import (AuditFault, BadForm, EntriesFault, EntryFault, JournalFault, KeyFault, OwnerFault, SignFault,
                              StoreFault)
from reference.formats import (entry_bytes, journal_bytes, read_batch, read_entries, read_proofs, read_reply, slot_bytes,
                               walk_journal, write_proofs, write_reply)
from reference.hashing import sha256
from reference.histories import History
from reference.journal import Journal
from reference.outside import MemDisk
from reference.owner import Owner, Roots, owned, replay
from reference.sql import parse_query
from reference.store import load_journal
from reference.tree import attr_digest, cell_digest, hide, row_digest
from reference.values import Cursor, take_value, value_bytes


# -- the calls, as the other implementation answers them

def number(data):
    return int.from_bytes(data, "big")


def value_in(data):
    cursor = Cursor(data)
    value = take_value(cursor)
    cursor.end()
    return value


def cell_in(data):
    return data[1:] if data[0] == 0 else value_in(data[1:])


def cells_text(cells):
    return " ".join([str(len(cells)), *(cell.hex() if isinstance(cell, bytes) else forms.value(cell) for cell in cells)])


def catalog_text(catalog):
    return f"{catalog_digest(catalog.bytes()).hex()} {catalog.bytes().hex()}"


def signature_length(key):
    """How many bytes a key's signatures have."""
    length = lms.lms_length(key.upper.ots, key.h)
    return length if key.levels == 1 else 60 + 2 * length


def or_none(thing, show):
    return "none" if thing is None else show(thing)


def seal_batches(key, batches):
    """The journal of batches."""
    history = History(key)
    for batch in batches:
        history.commit(batch)
    return history.journal_bytes()


def load_store(key, journal):
    """The store that takes a journal, and how many entries it has."""
    store = load_journal(key, journal)
    if store.version() is None:
        raise EntryFault("Entry", index=0)
    return store, store.version() + 1


def append_rest(disk, journal, entries):
    """Appends those of the entries behind as many as there are, before the disk fails; and how many there are then."""
    try:
        for entry in entries[len(journal.entries()):]:
            journal.append(disk, entry)
    except JournalFault:
        pass
    return len(journal.entries())


def found_text(image, data, entries):
    """How many entries an image has, which takes the rest of a journal of these bytes and entries."""
    disk = MemDisk(image)
    try:
        journal = Journal.open(disk)
    except JournalFault as fault:
        return damage_form(fault)
    count = len(journal.entries())
    append_rest(disk, journal, entries)
    return str(count) if bytes(disk.data[:len(data)]) == data else "others"


class Calls:
    """The calls by their words; a call answers with its line."""

    def __init__(self):
        self.kept, self.made = b"", None

    def keep(self, data):
        self.kept = data
        return str(len(data))

    def keeping(self, data):
        """Keeps what a call makes."""
        self.kept = data
        return data.hex()

    # digests

    def digest(self, data):
        return sha256(data).hex()

    def hash(self, *pieces):
        return sha256(b"".join(pieces)).hex()

    def collision(self, first, second):
        return "a collision" if first != second and sha256(first) == sha256(second) else "none"

    # one-time signatures

    def digit(self, ots, data, index):
        return str(lm_ots.coef(data, number(index), lm_ots.OTS[number(ots)][0]))

    def checksum(self, ots, data):
        return str(lm_ots.checksum(data, number(ots)))

    def ots_public(self, ots, ident, leaf, seed):
        return lm_ots.public_of(ident, number(leaf), number(ots), seed).hex()

    def ots_sign(self, ots, ident, leaf, seed, message):
        return self.keeping(lm_ots.sign_ots(ident, number(leaf), number(ots), seed, message))

    def candidate(self, ots, ident, leaf, message, signature):
        return or_none(lm_ots.candidate(ident, number(leaf), number(ots), message, signature), bytes.hex)

    # keys

    def make(self, height, ots, ident, seed):
        self.made = lms.SecretKey.make(ident, seed, number(ots), number(height))
        return self.copy()

    def make_hss(self, height, ots, ident, seed):
        self.made = lms.SecretKey.make_hss(ident, seed, number(ots), number(height))
        return self.copy()

    def copy(self):
        return self.made.public().bytes().hex()

    def node(self, place):
        return self.made.upper().nodes[number(place)].hex()

    def sign(self, leaf, message):
        try:
            return self.keeping(self.made.sign(number(leaf), message))
        except SignFault as fault:
            return fault.name

    def key(self, data):
        try:
            key = lms.PublicKey.read(data)
        except KeyFault as fault:
            return fault.name
        return f"{key.ident.hex()} {key.leaves()} {signature_length(key)} {key.bytes().hex()}"

    def leaf(self, key, signature):
        return or_none(lms.leaf_number(lms.PublicKey.read(key), signature), str)

    def verify(self, key, message, signature):
        return "valid" if lms.verify(lms.PublicKey.read(key), message, signature) else "invalid"

    # rows

    def value(self, data):
        return sha256(value_bytes(value_in(data))).hex()

    def attribute(self, column, data):
        return attr_digest(number(column), value_in(data)).hex()

    def cell(self, column, data):
        return cell_digest(number(column), cell_in(data)).hex()

    def row(self, *cells):
        return row_digest(tuple(cell_in(cell) for cell in cells)).hex()

    def closed(self, digest):
        return row_digest(digest).hex()

    def whole(self, *values):
        return row_digest(tuple(value_in(value) for value in values)).hex()

    def hide(self, columns, *values):
        return cells_text(hide([value_in(value) for value in values], columns))

    hide_cells = hide

    # formats

    def catalog(self, data):
        try:
            return catalog_text(read_catalog(data))
        except BadForm as fault:
            return fault.name

    def record(self, data):
        return or_none(read_record(data), lambda rec: f"{rec.version} {rec.catalog.hex()} {rec.bytes().hex()}")

    def reply(self, data):
        try:
            reply = read_reply(data)
        except BadForm as fault:
            return fault.name
        again = write_reply(reply.rec, reply.signature, reply.catalog, reply.trees)
        return f"{reply.rec.version} {len(reply.signature)} {len(reply.trees)} {again.hex()}"

    def proofs(self, data):
        try:
            trees = read_proofs(data)
        except BadForm as fault:
            return fault.name
        return f"{len(trees)} {write_proofs(trees).hex()}"

    def begin(self, count):
        return (b"VOU1" + count).hex()

    # journals

    def slots(self, data):
        try:
            entries, ending = walk_journal(data)[0], "Closed"
        except EntriesFault as fault:
            entries, ending = fault.entries, forms.form("Damaged", str(fault.at))
        return " ".join([ending, *(slot_bytes(entry).hex() for entry in entries)])

    def entries(self, data):
        try:
            entries = read_entries(data)
        except EntriesFault as fault:
            return damage_form(fault)
        return " ".join([str(len(entries)), *(entry_bytes(entry).hex() for entry in entries)])

    def journal(self, data):
        try:
            return journal_bytes(read_entries(data)).hex()
        except EntriesFault as fault:
            return damage_form(fault)

    def images(self, call, after, lost, first, journal):
        disk, entries = MemDisk(first, [number(call) + 1], number(after)), read_entries(journal)
        try:
            count = append_rest(disk, Journal.open(disk), entries)
        except JournalFault:
            count = 0
        images = (image_with(moment, lost) for moment in disk.moments)
        return " ".join([str(count), *(found_text(image, journal, entries) for image in images)])

    def seal(self, *batches):
        try:
            return self.keeping(seal_batches(self.made, [read_batch(batch) for batch in batches]))
        except OwnerFault as fault:
            return fault.name
        except StoreFault as fault:
            return forms.refusal(fault.index, fault.fields["fault"])

    def owned(self, key, version, journal):
        try:
            entries, roots = read_owned(lms.PublicKey.read(key), journal)
        except AuditFault as fault:
            return forms.form("BadAt", str(fault.index))
        there = number(version) < len(entries)
        return f"{len(entries)} {catalog_text(roots[number(version)].catalog) if there else 'no such version'}"

    def taken(self, key, journal):
        try:
            store, count = load_store(lms.PublicKey.read(key), journal)
        except EntryFault as fault:
            return forms.form("BadAt", str(fault.index))
        return f"{count} {catalog_text(store.kept[-1].catalog)}"

    # owners with roots alone

    def start(self):
        owner, entry = Owner.start(self.made)
        return f"{entry_bytes(entry).hex()} {roots_text(owner.roots)}"

    def next(self, version, catalog, batch, proofs):
        try:
            return roots_text(Roots(number(version), read_catalog(catalog)).next(read_batch(batch), proofs))
        except OwnerFault as fault:
            return owner_fault_form(fault)

    def step(self, journal, batch, proofs):
        try:
            owner = replay(self.made, read_entries(journal))
            step = owner.step(read_batch(batch), proofs)
        except EntriesFault as fault:
            return damage_form(fault)
        except EntryFault as fault:
            return forms.form("Entry", str(fault.index))
        except OwnerFault as fault:
            return owner_fault_form(fault)
        owner.advance(step)
        return f"{entry_bytes(step.entry).hex()} {roots_text(owner.roots)}"

    def replay(self, journal):
        try:
            return roots_text(replay(self.made, read_entries(journal)).roots)
        except EntriesFault as fault:
            return damage_form(fault)
        except EntryFault as fault:
            return forms.form("Entry", str(fault.index))

    def owned_entries(self, key, journal):
        try:
            return str(owned(lms.PublicKey.read(key), read_entries(journal)))
        except EntriesFault as fault:
            return damage_form(fault)

    def answer(self, key, query, journal):
        try:
            store, _ = load_store(lms.PublicKey.read(key), journal)
        except EntryFault as fault:
            return forms.form("BadJournal", str(fault.index))
        return store.answer(parse_query(query.decode())).hex()

    def answer_at(self, key, query, journal, version):
        try:
            store, _ = load_store(lms.PublicKey.read(key), journal)
            return store.answer_at(number(version), parse_query(query.decode())).hex()
        except EntryFault as fault:
            return forms.form("BadJournal", str(fault.index))
        except StoreFault as fault:
            return forms.form(fault.name, *map(str, fault.fields.values()))


def roots_text(roots):
    return f"{roots.version} {catalog_text(roots.catalog)}"


def owner_fault_form(fault):
    """The fault with its fields, or its name alone where it has none."""
    if fault.name == "Command":
        return forms.refusal(fault.index, fault.fields["fault"])
    if not fault.fields:
        return fault.name
    return forms.form(fault.name, *(field.hex() if isinstance(field, bytes) else str(field)
                                    for field in fault.fields.values()))


def damage_form(fault):
    return forms.form("Damaged", str(fault.index), str(fault.at))


# -- lines

# a few bytes that stand eight times or more
REPEATED = re.compile(rb"(.{1,4}?)\1{7,}", re.DOTALL)


def digits(data):
    """A byte string's digits, those of repeated bytes once with a star and how often."""
    pieces, at = [], 0
    for match in REPEATED.finditer(data):
        once = match[1]
        pieces += [data[at:match.start()].hex(), f"{once.hex()}*{len(match[0]) // len(once)}"]
        at = match.end()
    return "+".join(piece for piece in [*pieces, data[at:].hex()] if piece) or "*0"


def pieces_of(data, kept, at=0):
    """A byte string's pieces: the kept bytes in it, or what it begins and ends with as they do, by the places there; they begin at
    a place of those that are kept."""
    if len(kept) >= 64 and kept in data:
        front, back = data.split(kept, 1)
        return "+".join([*some_digits(front), f"{at}..{at + len(kept)}", *some_digits(back)])
    front = shared(data, kept)
    back = shared(data[front:][::-1], kept[front:][::-1])
    if front + back < 64:
        return digits(data)
    ends = [f"{at}..{at + front}"] * (front > 0), [f"{at + len(kept) - back}..{at + len(kept)}"] * (back > 0)
    return "+".join([*ends[0], *some_digits(data[front:len(data) - back]), *ends[1]])


def shared(data, other):
    """How many bytes both begin with."""
    length = min(len(data), len(other))
    differ = int.from_bytes(data[:length], "big") ^ int.from_bytes(other[:length], "big")
    return length - (differ.bit_length() + 7) // 8


def some_digits(data):
    return [digits(data)] if data else []


def lines_with_answers(rows, calls=None):
    """The line of each row, a word and its byte strings, and the answer due."""
    calls = calls or Calls()
    for word, *strings in rows:
        line = " ".join([word, *(pieces_of(data, calls.kept) for data in strings)])
        yield line, getattr(calls, word)(*strings)
