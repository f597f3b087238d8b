"""Hostile variants of replies and proofs, and what `check` says of each.

Every generator yields (name, bytes).  `reply_variants` needs nothing but the
reply; `opened_variants` also takes the honest trees (of the store), so that it
can open what the reply keeps closed; `resigned_variants` and `odd_replies` also
take the secret key, so that trees of any shape stand under a valid signature.
`verdict` and `verdicts` say what `check` writes and with which status.
"""

import random
from dataclasses import replace

from ..binding import bind
from ..catalog import MAGICS, Catalog, CatalogTable, Record
from ..check import check_of
from ..faults import BadForm, CheckFault, OwnerFault
from ..formats import read_proofs, read_reply, write_proofs, write_reply
from ..lines import answer_lines, fault_words
from ..plan import MAIN, Plan
from ..stages import has
from ..tree import (
    Entry, INNERS, Inner, Leaf, Stub, TChild, TEntry, TInner, TLeaf, cell_digest, digest_of,
    row_digest)
from ..values import NULL, bool_value, int_value, text_value


def verdict(key, least, query, data):
    """(status, lines) of `check`."""
    try:
        return 0, answer_lines(check_of(key, least, query, data))
    except CheckFault as fault:
        return 1, ["refused: " + fault_words(fault)]


def verdicts(key, least, query, variants):
    """(name, bytes, status, lines) for each variant."""
    for name, data in variants:
        yield (name, data) + verdict(key, least, query, data)


def bit_flips(data, rng, count=200):
    """One bit turned; all of them where `count` is None."""
    places = range(8 * len(data))
    if count is not None and count < len(places):
        places = rng.sample(places, count)
    for place in places:
        other = bytearray(data)
        other[place // 8] ^= 1 << (place % 8)
        yield f"bit {place}", bytes(other)


def byte_sets(data, rng, count=100):
    """One byte made another, often 00, 01, 7f, 80 or ff."""
    for _ in range(count):
        place = rng.randrange(len(data))
        value = rng.choice([0, 1, 2, 3, 4, 5, 6, 7, 16, 17, 127, 128, 255, rng.randrange(256)])
        other = bytearray(data)
        other[place] = value
        yield f"byte {place} {value}", bytes(other)


def truncations(data, rng, count=60):
    """The bytes cut at some places."""
    for size in sorted(rng.sample(range(len(data)), min(count, len(data)))):
        yield f"cut {size}", data[:size]


def extensions(data):
    """The bytes with more behind them."""
    for tail in (b"\0", b"\1", b"\xff", b"VOR1", data):
        yield f"longer by {len(tail)}", data + tail


def splices(data, rng, count=60):
    """A piece taken out, doubled, or moved."""
    for _ in range(count):
        a, b = sorted(rng.randrange(len(data)) for _ in range(2))
        b = min(b, a + 80)
        kind = rng.choice(["out", "twice", "moved"])
        if kind == "out":
            yield f"out {a} {b}", data[:a] + data[b:]
        elif kind == "twice":
            yield f"twice {a} {b}", data[:b] + data[a:]
        else:
            rest = data[:a] + data[b:]
            to = rng.randrange(len(rest) + 1)
            yield f"moved {a} {b} {to}", rest[:to] + data[a:b] + rest[to:]


def rewrite(reply, **parts):
    """The reply with some of its parts exchanged."""
    return write_reply(parts.get("rec", reply.rec), parts.get("signature", reply.signature),
                       parts.get("catalog", reply.catalog), parts.get("trees", reply.trees))


def record_variants(reply):
    """Replies with other records."""
    rec = reply.rec
    changes = {
        "version up": dict(version=rec.version + 1), "version 0": dict(version=0),
        "version top": dict(version=(1 << 64) - 1), "other I": dict(ident=bytes(16)),
        "other catalog digest": dict(catalog=bytes(32)),
    }
    for name, change in changes.items():
        fields = dict(ident=rec.ident, version=rec.version, catalog=rec.catalog, magic=rec.magic)
        fields.update(change)
        yield name, rewrite(reply, rec=Record(**fields))
    whole = rewrite(reply)
    for magic in (b"VREC", b"VRC2", b"VRC3", b"VRC4", b"vrec"):
        yield f"magic {magic!r}", whole[:4] + magic + whole[8:]


def signature_variants(reply):
    """Replies with other signatures."""
    s = reply.signature
    for size in (0, 3, 4, 5, len(s) - 1):
        yield f"signature of {size}", rewrite(reply, signature=s[:size])
    yield "signature one longer", rewrite(reply, signature=s + b"\0")
    yield "signature of 65536", rewrite(reply, signature=(s * 60)[:65536].ljust(65536, b"\0"))
    yield "signature of 65537", rewrite(reply, signature=bytes(65537))
    for place in (0, 3, 4, 7, 8, 40, len(s) // 2, len(s) - 1):
        if place < len(s):
            other = bytearray(s)
            other[place] ^= 1
            yield f"signature byte {place}", rewrite(reply, signature=bytes(other))


def catalog_variants(reply):
    """Catalogs changed without a new signature."""
    by_name = reply.catalog.by_name
    for name in by_name:
        table = by_name[name]
        for what, other in (
                ("rows up", CatalogTable(table.schema, (table.rows + 1) % (1 << 32), table.root,
                                         table.side_roots)),
                ("other root", CatalogTable(table.schema, table.rows, bytes(32),
                                            table.side_roots))):
            changed = dict(by_name)
            changed[name] = other
            yield f"{name} {what}", rewrite(reply, catalog=Catalog(changed))
        less = dict(by_name)
        del less[name]
        yield f"{name} taken out", rewrite(reply, catalog=Catalog(less))
    for name, changed in marked_catalogs(reply.catalog):
        yield name, rewrite(reply, catalog=changed)


def marked_catalogs(catalog):
    """Catalogs with one column that may be NULL where it may not, or the other way round; of a key
    such are none."""
    for name, table in catalog.by_name.items() if has("nulls") else ():
        columns = table.schema.columns
        for number, column in enumerate(columns):
            turned = (*columns[:number], replace(column, nullable=not column.nullable),
                      *columns[number + 1:])
            schema = replace(table.schema, columns=turned)
            changed = CatalogTable(schema, table.rows, table.root, table.side_roots)
            yield f"{name}'s column {number} marked otherwise", Catalog(
                {**catalog.by_name, name: changed})


def rebuilt(node, slots):
    """An inner node with other slots."""
    return type(node)(node.separators, slots)


def with_child(slot, child):
    """A slot with another child."""
    return TChild(slot.count, slot.sum, child) if isinstance(slot, TChild) else child


def spots(node, path=()):
    """(path, node) of every node, stubs too."""
    yield path, node
    if isinstance(node, INNERS):
        for i, slot in enumerate(node.slots):
            yield from spots(node.node(slot), path + (i,))


def put_at(node, path, new):
    """The tree whose node at that path became `new`."""
    if not path:
        return new
    slots = list(node.slots)
    i = path[0]
    slots[i] = with_child(slots[i], put_at(node.node(slots[i]), path[1:], new))
    return rebuilt(node, slots)


def at_path(node, path):
    """The node at a path, or None."""
    for i in path:
        if not isinstance(node, INNERS):
            return None
        node = node.node(node.slots[i])
    return node


def shallow(node):
    """A node of a whole tree, open, with its children and rows as digests."""
    if isinstance(node, Stub) or isinstance(node, TLeaf):
        return node
    if isinstance(node, Leaf):
        return Leaf(Entry(e.key, e.row_digest()) for e in node.entries)
    return rebuilt(node, [with_child(s, Stub(digest_of(node.node(s)))) for s in node.slots])


def leaf_changes(leaf):
    """Leaves made from a leaf by false changes."""
    entries = list(leaf.entries)
    if len(entries) > 1:
        yield "entries turned round", entries[::-1]
        yield "first entry last", entries[1:] + entries[:1]
    if entries:
        yield "an entry twice", entries + entries[-1:]
        yield "an entry out", entries[:-1]
        yield "first entry out", entries[1:]
        yield "no entries", []
        first = entries[0]
        for what, key in (("key shorter", first.key[1:]), ("key longer", first.key + b"\0"),
                          ("key of 255", b"k" * 255), ("key of 256", b"k" * 256),
                          ("key not text", b"\xff"),
                          ("key with 00", first.key[:3] + b"\0" + first.key[3:])):
            changed = (TEntry(key, first.value) if isinstance(first, TEntry)
                       else Entry(key, first.part))
            yield what, [changed] + entries[1:]
    yield "seventeen entries", (entries * 17)[:17]


def part_changes(part):
    """Row parts made from a row part: shown, hidden, longer, of other kinds."""
    if isinstance(part, bytes):
        yield "row as no cells", ()
        yield "row as a hidden cell", (part,)
        return
    yield "row as its digest", row_digest(part)
    yield "a cell more", part + (bytes(32),)
    yield "a cell less", part[:-1]
    yield "thirty-two cells", (part + (bytes(32),) * 32)[:32]
    for n, cell in enumerate(part):
        put = lambda new: part[:n] + (new,) + part[n + 1:]
        if not isinstance(cell, bytes):
            yield f"cell {n} hidden", put(cell_digest(n, cell))
        for what, value in (("number", int_value(7)), ("text", text_value("hostile")),
                            ("boolean", bool_value(True)), ("NULL", NULL)):
            if value != cell:
                yield f"cell {n} {what}", put(value)


def node_changes(node):
    """(name, new node) for one node, without the honest trees."""
    if isinstance(node, Stub):
        yield "stub of zeros", Stub(bytes(32))
        yield "stub as an empty leaf", Leaf([])
        yield "stub as an empty totals leaf", TLeaf([])
        return
    yield "closed", Stub(digest_of(node))
    if isinstance(node, (Leaf, TLeaf)):
        for what, entries in leaf_changes(node):
            yield what, type(node)(entries)
    if isinstance(node, Leaf):
        for i, entry in enumerate(node.entries[:3] + node.entries[-1:]):
            for what, part in part_changes(entry.part):
                entries = list(node.entries)
                entries[node.entries.index(entry)] = Entry(entry.key, part)
                yield f"entry {i}: {what}", Leaf(entries)
    if isinstance(node, TLeaf) and node.entries:
        first = node.entries[0]
        yield "a total up", TLeaf([TEntry(first.key, first.value ^ 1)] + list(node.entries[1:]))
        yield "the other family", Leaf(Entry(e.key, bytes(32)) for e in node.entries)
    if isinstance(node, INNERS):
        yield from inner_changes(node)


def inner_changes(node):
    """Inner nodes made from one by false changes."""
    kind, seps, slots = type(node), list(node.separators), list(node.slots)
    yield "one child", kind([], slots[:1])
    yield "seventeen children", kind([b"s"] * 16, (slots * 17)[:17])
    yield "children turned round", kind(seps, slots[::-1])
    yield "separators turned round", kind(seps[::-1], slots)
    yield "separator lowered", kind([b""] + seps[1:], slots)
    yield "separator raised", kind([b"\xff" * 9] + seps[1:], slots)
    yield "last child out", kind(seps[:-1], slots[:-1])
    yield "first child twice", kind([seps[0]] + seps, slots[:1] + slots)
    if isinstance(node, TInner):
        first = slots[0]
        for what, count, total in (("count up", first.count + 1, first.sum),
                                   ("sum up", first.count, first.sum + 1),
                                   ("count top", (1 << 64) - 1, first.sum),
                                   ("sum least", first.count, -(1 << 127)),
                                   ("count 0", 0, first.sum)):
            yield what, kind(seps, [TChild(count & ((1 << 64) - 1), total, first.node)] + slots[1:])


def tree_variants(trees):
    """(name, trees) with one tree changed, or trees more, less or moved."""
    yield "no trees", []
    yield "last tree out", trees[:-1]
    yield "last tree twice", trees + trees[-1:]
    yield "a stub more", trees + [Stub(bytes(32))]
    yield "trees turned round", trees[::-1]
    yield "255 trees", (trees + [Stub(bytes(32))] * 255)[:255]
    for number, tree in enumerate(trees):
        for path, node in spots(tree):
            for what, new in node_changes(node):
                yield (f"tree {number} at {list(path)}: {what}",
                       trees[:number] + [put_at(tree, path, new)] + trees[number + 1:])
        for levels in (10, 11, 12):
            deep = Stub(digest_of(tree))
            for _ in range(levels - 1):
                deep = Inner([b"m"], [deep, Stub(bytes(32))])
            yield f"tree {number} of {levels} levels", trees[:number] + [deep] + trees[number + 1:]


def safe(pairs, make):
    """The variants that can be spelled at all."""
    for name, thing in pairs:
        try:
            yield name, make(thing)
        except (ValueError, OverflowError):
            continue


def reply_variants(data, rng=None, some=None):
    """All variants that need nothing but the reply.  `some` keeps at most so
    many of the tree changes, drawn at random."""
    rng = rng or random.Random(0)
    yield "as it is", data
    yield from bit_flips(data, rng)
    yield from byte_sets(data, rng)
    yield from truncations(data, rng)
    yield from extensions(data)
    yield from splices(data, rng)
    try:
        reply = read_reply(data)
    except BadForm:
        return
    yield from safe(record_variants(reply), lambda x: x)
    yield from signature_variants(reply)
    yield from catalog_variants(reply)
    changes = list(safe(tree_variants(reply.trees), lambda trees: rewrite(reply, trees=trees)))
    if some is not None and len(changes) > some:
        changes = rng.sample(changes, some)
    yield from changes


def truth_changes(part, whole):
    """(name, new tree): one thing opened or closed, all digests true.  By
    uniqueness of canonical proofs every one is refused, as Missing or Surplus."""
    for path, node in spots(part):
        true = at_path(whole, path)
        if true is None:
            continue
        if isinstance(node, Stub):
            yield f"opened {list(path)}", put_at(part, path, shallow(true))
            continue
        yield f"closed {list(path)}", put_at(part, path, Stub(digest_of(node)))
        if not isinstance(node, Leaf):
            continue
        for i, (entry, full) in enumerate(zip(node.entries, true.entries)):
            for what, new in true_parts(entry.part, full.part):
                entries = list(node.entries)
                entries[i] = Entry(entry.key, new)
                yield f"row {list(path)} {i} {what}", put_at(part, path, Leaf(entries))


def true_parts(part, cells):
    """Row parts of the same digest."""
    hidden = tuple(cell_digest(n, cell) for n, cell in enumerate(cells))
    if isinstance(part, bytes):
        yield "as hidden cells", hidden
        for n, cell in enumerate(cells):
            yield f"with cell {n}", hidden[:n] + (cell,) + hidden[n + 1:]
        return
    yield "as its digest", row_digest(part)
    for n, (seen, cell) in enumerate(zip(part, cells)):
        other = cell if isinstance(seen, bytes) else hidden[n]
        yield f"cell {n} turned", part[:n] + (other,) + part[n + 1:]


def opened_variants(data, version, query):
    """Variants of an honest reply by true openings and closings; `version` is
    the store's Version that answered."""
    reply = read_reply(data)
    bound = bind(reply.catalog, query)
    if bound.fault is not None:
        return
    for number, (place, part) in enumerate(zip(Plan(bound).places, reply.trees)):
        for what, new in truth_changes(part, version.trees.tree(place)):
            trees = reply.trees[:number] + [new] + reply.trees[number + 1:]
            yield f"tree {number}: {what}", rewrite(reply, trees=trees)


def resign(secret, reply, catalog, trees, version=None, magic=None):
    """A reply with that catalog and those trees, truly signed; the record has the catalog's magic,
    or another one."""
    version = reply.rec.version if version is None else version
    rec = Record(secret.ident, version, catalog.digest(), magic or catalog.magic())
    return write_reply(rec, secret.sign(version, rec.bytes()), catalog, trees)


def rooted(catalog, places, trees):
    """The catalog whose roots are those trees' digests."""
    by_name = dict(catalog.by_name)
    for (name, where), tree in zip(places, trees):
        table = by_name[name]
        root, sides = table.root, list(table.side_roots)
        if where == MAIN:
            root = digest_of(tree)
        else:
            sides[table.schema.sides.index(where)] = digest_of(tree)
        by_name[name] = CatalogTable(table.schema, table.rows, root, tuple(sides))
    return Catalog(by_name)


def resigned_variants(secret, data, query, rng=None, some=None):
    """The tree changes of `reply_variants`, each with a catalog whose roots
    are the changed trees' and a new signature."""
    reply = read_reply(data)
    bound = bind(reply.catalog, query)
    if bound.fault is not None:
        return
    places = Plan(bound).places
    changes = [(n, t) for n, t in tree_variants(reply.trees) if len(t) == len(places)]
    if some is not None and len(changes) > some:
        changes = (rng or random.Random(0)).sample(changes, some)

    def make(trees):
        return resign(secret, reply, rooted(reply.catalog, places, trees), trees)
    yield from safe(changes, make)
    yield from marked_variants(secret, reply, rng or random.Random(0), some)


def marked_variants(secret, reply, rng, some):
    """Records with another magic than their catalog's, and catalogs with a column marked otherwise,
    a key or one that has a shown NULL among them; all of them truly signed."""
    for magic in MAGICS:
        if magic != reply.catalog.magic():
            yield f"signed with {magic!r}", resign(secret, reply, reply.catalog, reply.trees,
                                                   magic=magic)
    marked = list(marked_catalogs(reply.catalog))
    if some is not None and len(marked) > 1 + some // 8:
        marked = rng.sample(marked, 1 + some // 8)
    for name, catalog in marked:
        yield name + ", signed", resign(secret, reply, catalog, reply.trees)


def owner_verdict(roots, batch, proofs):
    """('ok', catalog bytes) or ('refused', OwnerFault)."""
    try:
        return "ok", roots.next(batch, proofs).catalog.bytes()
    except OwnerFault as fault:
        return "refused", fault


def proof_variants(proofs, rng=None, some=None):
    """Variants of proof bytes; judge them with `owner_verdict`."""
    rng = rng or random.Random(0)
    yield "as it is", proofs
    yield from bit_flips(proofs, rng)
    yield from byte_sets(proofs, rng)
    yield from truncations(proofs, rng)
    yield from extensions(proofs)
    yield from splices(proofs, rng)
    try:
        trees = read_proofs(proofs)
    except BadForm:
        return
    changes = list(safe(tree_variants(trees), write_proofs))
    if some is not None and len(changes) > some:
        changes = rng.sample(changes, some)
    yield from changes
