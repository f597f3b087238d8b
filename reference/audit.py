"""The auditor: what a reply is worth by a journal, and what two replies are to each other."""

import functools

from .check import check_of
from .faults import AuditFault, BatchFault, CheckFault, EntriesFault, MeetFault
from .formats import read_entries, read_proofs, read_reply
from .lms import PublicKey
from .owner import owned_roots
from .plan import Plan
from .binding import bind
from .store import Trees
from .tables import Tables, apply_batch, result
from .overlaps import agree, overlap


def read_owned(key, journal):
    """The entries of an owned journal and their roots, or BadJournal{index}."""
    return _owned(key.bytes(), bytes(journal))


@functools.lru_cache(maxsize=8)
def _owned(key, journal):
    """The same, made once of the same bytes."""
    damaged = None
    try:
        entries = read_entries(journal)
    except EntriesFault as fault:
        entries, damaged = fault.entries, fault.index
    roots = owned_roots(PublicKey.read(key), entries)
    if len(roots) < len(entries) or damaged is not None or not entries:
        raise AuditFault("BadJournal", index=len(roots))
    return entries, roots


def tables_at(entries, version):
    """The tables after the batches of the versions up to this one; a refused batch leaves them."""
    tables = Tables()
    for entry in entries[1:version + 1]:
        try:
            tables = apply_batch(tables, entry.batch)
        except BatchFault:
            pass
    return tables


def audit(key, journal, query, data):
    """('unsigned', rec, signature, last), ('exact', version), or
    ('collides', a, b); BadJournal{index}, Refused{fault}."""
    entries, roots = read_owned(key, journal)
    try:
        answer = check_of(key, 0, query, data)
    except CheckFault as fault:
        raise AuditFault("Refused", fault=fault) from None
    reply = read_reply(data)
    version = answer.version
    if version >= len(entries) or entries[version].rec != reply.rec:
        return ("unsigned", reply.rec, reply.signature, len(entries) - 1)
    if answer.outcome == result(tables_at(entries, version), query):
        return ("exact", version)
    return ("collides",) + find_collision(entries, roots, query, reply)


def find_collision(entries, roots, query, reply):
    """The two strings that explain a wrong answer of an owned journal."""
    version = reply.rec.version
    ours, theirs = roots[version].catalog.bytes(), reply.catalog_raw
    if ours != theirs:
        return b"\x05" + ours, b"\x05" + theirs
    honest = Trees()
    for entry, after in zip(entries[1:version + 1], roots[1:version + 1]):
        changed, _ = honest.batch(entry.batch)
        if changed is not None and changed.catalog() == after.catalog:
            honest = changed
            continue
        return _from_proofs(honest, entry)
    plan = Plan(bind(reply.catalog, query))
    for place, part in zip(plan.places, reply.trees):
        found = agree(part, honest.tree(place))
        if found:
            return found
    raise AssertionError("no collision was found: the theorem is broken")


def _from_proofs(honest, entry):
    """The least entry after which the catalog departs from the honest one:
    some proof of it does not prune the honest tree that it is of.  Where it
    did prune it, the honest proof would be the same, so the two are compared
    from their equal digests down."""
    twin, given = honest.copy(), list(reversed(read_proofs(entry.proofs)))
    for command in entry.batch:
        wanted = []
        twin.command(command, wanted)
        for proof in wanted:
            found = overlap(given.pop(), proof) if given else None
            if found:
                return found
    raise AssertionError("no collision was found: the theorem is broken")


def meet(key, query, first, second):
    """('apart', v1, v2), ('two records', (rec, sig), (rec, sig)), ('same', v),
    ('collides', a, b); First{fault}, Second{fault}."""
    for name, data in (("First", first), ("Second", second)):
        try:
            check_of(key, 0, query, data)
        except CheckFault as fault:
            raise MeetFault(name, fault=fault) from None
    a, b = read_reply(first), read_reply(second)
    if a.rec.version != b.rec.version:
        return ("apart", a.rec.version, b.rec.version)
    if a.rec != b.rec:
        return ("two records", (a.rec, a.signature), (b.rec, b.signature))
    if a.after_signature == b.after_signature:
        return ("same", a.rec.version)
    return ("collides",) + meet_collision(a, b)


def meet_collision(a, b):
    """The two strings that explain two different replies of one record."""
    if a.catalog_raw != b.catalog_raw:
        return b"\x05" + a.catalog_raw, b"\x05" + b.catalog_raw
    for x, y in zip(a.trees, b.trees):
        found = overlap(x, y)
        if found:
            return found
    raise AssertionError("no collision was found: the theorem is broken")
