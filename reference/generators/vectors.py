"""Calls with their answers, one JSON object per line, for tests of single crates:

  python3 -m reference.generators.vectors SEED COUNT > FILE

Each line has `call`, `in` and `out`.  Bytes are hexadecimal, values are their value bytes
(Wide is {"wide": number}), a refusal is {"fault": name, ..fields}.  Trees, batches,
catalogs, proofs and replies are their byte formats.
"""

import json
import random
import sys

from .. import lm_ots, lms
from ..catalog import Catalog, CatalogTable, read_catalog
from ..changes import Op, do_op, found_entry, looked_at
from ..faults import Fault, Missing, UpdateFault
from ..formats import (
    batch_bytes, entry_bytes, long_bytes, read_batch, read_entries, read_proofs, tree_bytes,
    write_proofs)
from ..outside import MemLink
from ..owner import Roots
from ..plan import MAIN
from ..printing import print_batch, print_query
from ..scans import Need, is_canonical, scan
from ..sql import parse_batch, parse_query, parse_script
from ..store import Store
from ..syntax import Column, Delete, INDEX, Insert, SUM, Schema, Side, Update
from ..totals import is_canonical_totals, totals_of
from ..tree import Entry, Leaf, cell_digest, close_except, digest_of, row_digest
from ..values import (
    BOOL, Cursor, INT, Interval, NULL, TEXT, WIDE, int_value, key_of, point, take_value,
    text_value, value_bytes, value_of_key)
from ..wire import frame, serve_link
from ..work import main_op, new_part, side_ops
from .mutate import bit_flips, byte_sets, proof_variants, splices, truncations
from .odd_trees import OddTrees, odd_works, sample_keys
from .texts import GOOD_SCRIPTS, GOOD_TEXTS, all_near, edge_queries, edge_scripts
from .workload import Workload
from .worlds import SEED, SealedScript

SCHEMA = Schema((Column("id", INT), Column("a", INT), Column("b", TEXT, True)), 0,
                (Side(INDEX, 1), Side(SUM, 1)))


def plain(thing):
    """A thing as JSON."""
    if isinstance(thing, (bytes, bytearray)):
        return bytes(thing).hex()
    if isinstance(thing, Fault):
        fields = {("refusal" if k == "fault" else k): plain(v) for k, v in thing.fields.items()}
        return {"fault": thing.name, **fields}
    if isinstance(thing, tuple) and len(thing) == 2 and thing[0] in (0, 1, 2, 3) and not (
            isinstance(thing[1], tuple)):
        return value_bytes(thing).hex()
    if isinstance(thing, tuple) and len(thing) == 2 and thing[0] == WIDE:
        return {"wide": thing[1]}
    if isinstance(thing, (list, tuple)):
        return [plain(part) for part in thing]
    if isinstance(thing, dict):
        return {str(k): plain(v) for k, v in thing.items()}
    if hasattr(thing, "bytes") and callable(thing.bytes):
        return thing.bytes().hex()
    return thing


def line(call, given, work):
    """The call's line; `work` may refuse."""
    try:
        out = work()
    except Fault as fault:
        out = fault
    return {"call": call, "in": plain(given), "out": plain(out)}


def odd_value_bytes(rng):
    """Bytes near those of a value."""
    text = rng.choice(["", "a", "\u00e9", "x" * 1024, "x" * 1025, "a\x1fb", "\x7f"]).encode()
    text += rng.choice([b"", b"", b"\xff", b"\xc3", b"\xed\xa0\x80", b"\0"])
    size = rng.choice([len(text), len(text), len(text) + 1, max(0, len(text) - 1), 1025])
    made = rng.choice([b"\1" + rng.randbytes(8), b"\3" + bytes([rng.randrange(4)]), b"\0",
                       b"\2" + size.to_bytes(2, "big") + text, rng.randbytes(3)])
    if rng.random() < 0.3:
        return made[:rng.randint(0, len(made))]
    return made + rng.randbytes(rng.randrange(2))


def value_lines(rng, count):
    """Values and keys, as bytes."""
    for _ in range(count):
        data = odd_value_bytes(rng)

        def taken():
            cursor = Cursor(data)
            value = take_value(cursor)
            return {"value": value, "used": cursor.at}
        yield line("take_value", {"bytes": data}, taken)
        kind, key = rng.choice([INT, TEXT, BOOL]), odd_value_bytes(rng)[1:]
        key = rng.choice([key, rng.randbytes(8), b"k" * rng.choice([255, 256]), b"ab"])
        yield line("value_of_key", {"kind": kind, "bytes": key}, lambda: value_of_key(kind, key))
        value = rng.choice([int_value(rng.randint(-(1 << 63), (1 << 63) - 1)), text_value("ab")])
        yield line("key_of", {"value": value}, lambda: key_of(value))


def lms_lines(rng, count):
    """One-time keys and signatures, and keys of any height."""
    for _ in range(count):
        ots, q = rng.choice([1, 2, 3, 4]), rng.randrange(1 << 10)
        ident, seed = rng.randbytes(16), rng.randbytes(32)
        message = rng.randbytes(rng.randrange(70))
        w = lm_ots.OTS[ots][0]
        i = rng.randrange(len(message) * 8 // w) if message else None
        if i is not None:
            yield line("coef", {"bytes": message, "i": i, "w": w},
                       lambda: lm_ots.coef(message, i, w))
        yield line("checksum", {"digest": seed, "ots": ots}, lambda: lm_ots.checksum(seed, ots))
        a = rng.randrange(1 << w)
        b = rng.randint(a, (1 << w) - 1)
        yield line("chain", {"id": ident, "q": q, "i": 3, "from": a, "to": b, "start": seed},
                   lambda: lm_ots.chain(ident, q, 3, a, b, seed))
        yield line("public_of", {"id": ident, "q": q, "ots": ots, "seed": seed},
                   lambda: lm_ots.public_of(ident, q, ots, seed))
        signature = lm_ots.sign_ots(ident, q, ots, seed, message)
        yield line("sign_ots", {"id": ident, "q": q, "ots": ots, "seed": seed, "message": message},
                   lambda: signature)
        for data in (signature, signature[:-1], lm_ots.u32(5) + signature[4:],
                     signature[:50] + b"\0" + signature[51:]):
            yield line("candidate", {"id": ident, "q": q, "ots": ots, "message": message,
                                     "signature": data},
                       lambda: lm_ots.candidate(ident, q, ots, message, data))
        yield from _tree_lines(rng, ots, ident, seed, message)


def _tree_lines(rng, ots, ident, seed, message):
    """A key of any height from one leaf and siblings at will."""
    code = rng.choice(list(lms.HEIGHTS))
    h = lms.HEIGHTS[code]
    q = rng.randrange(1 << h)
    path = [rng.randbytes(32) for _ in range(h)]
    r = (1 << h) + q
    node = lms.leaf_node(ident, r, lm_ots.public_of(ident, q, ots, seed))
    for sibling in path:
        pair = (sibling, node) if r & 1 else (node, sibling)
        r >>= 1
        node = lms.inner_node(ident, r, *pair)
    key = lm_ots.u32(code) + lm_ots.u32(ots) + ident + node
    good = (lm_ots.u32(q) + lm_ots.sign_ots(ident, q, ots, seed, message) + lm_ots.u32(code)
            + b"".join(path))
    turned = [data for _, data in bit_flips(good, rng, 4)]
    for data in [good, good[:-1], good + b"\0", lm_ots.u32(q ^ 1) + good[4:],
                 lm_ots.u32(1 << h) + good[4:]] + turned:
        yield line("verify", {"key": key, "message": message, "signature": data},
                   lambda: lms.verify(lms.PublicKey.read(key), message, data))
    for data in (key, key[:-1], key + b"\0", lm_ots.u32(2) + key, lm_ots.u32(1) + key,
                 lm_ots.u32(10) + key[4:], key[:4] + lm_ots.u32(5) + key[8:],
                 key[:4] + lm_ots.u32(0) + key[8:]):
        yield line("PublicKey::read", {"bytes": data}, lambda: lms.PublicKey.read(data).bytes())


def hss_lines(rng):
    """Keys of two levels."""
    key = lms.SecretKey.make_hss(SEED[:16], SEED[16:])
    yield line("make_hss public", {"i": SEED[:16], "seed": SEED[16:], "ots": 4, "h": 5},
               lambda: key.public().bytes())
    for version in (0, 3, 31, 32, 1023, 1024):
        yield line("make_hss sign", {"version": version, "message": b"m"},
                   lambda: key.sign(version, b"m"))
    good = key.sign(33, b"m")
    turned = [data for _, data in bit_flips(good, rng, 30)]
    for data in [good, good[:-1], good + b"\0", lm_ots.u32(0) + good[4:]] + turned:
        yield line("verify", {"key": key.public().bytes(), "message": b"m", "signature": data},
                   lambda: lms.verify(key.public(), b"m", data))


def text_lines(rng, count):
    """Texts read and printed."""
    for text in [*edge_queries(), *all_near(GOOD_TEXTS, rng, count)]:
        yield line("parse_query, print_query", {"text": text},
                   lambda: print_query(parse_query(text)))
    for text in [*edge_scripts(), *all_near(GOOD_SCRIPTS, rng, count)]:
        if len(text) < 5000:
            yield line("parse_script, batch_bytes", {"text": text},
                       lambda: [batch_bytes(b) for b in parse_script(text)])
            batch = text.replace("COMMIT", "").replace(";;", ";")
            yield line("parse_batch, print_batch", {"text": batch},
                       lambda: print_batch(parse_batch(batch)))


READERS = {"read_batch": (read_batch, batch_bytes),
           "read_catalog": (read_catalog, lambda c: c.bytes()),
           "read_proofs": (read_proofs, write_proofs)}


def format_lines(rng, worlds, count):
    """Bytes near those of each format."""
    for work, world in worlds:
        samples = [("read_batch", batch_bytes(b)) for b in work.batches]
        samples += [("read_batch", batch_bytes(parse_batch(t))) for t in work.refused[:4]]
        samples += [("read_catalog", world.store.kept[-1].catalog.bytes())]
        samples += [("read_proofs", e.proofs[:3000]) for e in world.entries]
        for call, data in samples:
            read, write = READERS[call]
            variants = [data] + [d for _, d in byte_sets(data, rng, count)]
            variants += [d for _, d in splices(data, rng, count // 2)] + [data[:-1], data + b"\0"]
            for other in variants:
                yield line(call, {"bytes": other}, lambda: write(read(other)))
        journal = world.journal
        others = [journal, journal[:-1], b"", b"\1", b"\1\0", b"\0x", journal + b"x"]
        others += [data for _, data in byte_sets(journal, rng, count)]
        others += [data for _, data in truncations(journal, rng, count)]
        for other in others:
            yield line("read_entries", {"bytes": other},
                       lambda: [entry_bytes(entry) for entry in read_entries(other)])


def interval_of(rng, keys, where):
    """An interval between some keys."""
    if where != MAIN and where.kind == INDEX and rng.random() < 0.5:
        front = key_of(int_value(rng.randrange(5)))
        return Interval((front + b"\0", True), (front + b"\1", False))
    a, b = rng.choice(keys), rng.choice(keys)
    return rng.choice([point(a), Interval(rng.choice([None, (a, True), (a, False)]),
                                          rng.choice([None, (b, True), (b, False)]))])


def plain_bound(bound):
    """A bound as JSON."""
    return None if bound is None else {"key": bound[0], "inclusive": bound[1]}


def plain_interval(interval):
    """An interval as JSON."""
    return {"low": plain_bound(interval.low), "high": plain_bound(interval.high)}


def tree_lines(rng, count):
    """Digests, scans and totals of trees of any shape."""
    for number in range(count):
        where = [MAIN, SCHEMA.sides[0], SCHEMA.sides[1]][number % 3]
        keys = sample_keys(rng, INT)
        tree = OddTrees(rng, SCHEMA, keys).tree(where)
        interval = interval_of(rng, keys, where)
        given = {"tree": tree_bytes(tree), "interval": plain_interval(interval)}
        yield line("node_digest", {"tree": tree_bytes(tree)}, lambda: digest_of(tree))
        if where != MAIN and where.kind == SUM:
            yield line("totals", given, lambda: list(totals_of(tree, interval)))
            yield line("is_canonical_totals", given, lambda: is_canonical_totals(tree, interval))
            continue
        need = Need(interval, rng.sample([0, 1], rng.randint(0, 2)))
        more = [Need(interval_of(rng, keys, where), rng.sample([0, 1], rng.randint(0, 2)))
                for _ in range(rng.choice([0, 0, 1, 3]))]
        shown = lambda n: {"interval": plain_interval(n.interval), "columns": sorted(n.columns)}
        yield line("scan", dict(given, columns=sorted(need.columns)),
                   lambda: [{"key": key, "values": [values[c] for c in sorted(values)]}
                            for key, values in scan(tree, need)])
        given = {"tree": tree_bytes(tree), "needs": [shown(n) for n in [need] + more]}
        yield line("is_canonical", given,
                   lambda: is_canonical(tree, [need] + more))


def some_op(rng, odd):
    """A change of a tree."""
    key = odd.key(rng.randrange(len(odd.keys)))
    if odd.totals:
        value = rng.randint(-5, 5)
        return rng.choice([Op("tput", key, value=value), Op("tset", key, value=value),
                           Op("tremove", key)])
    shown = rng.choice([[], [0]])
    part = b"\x55" * 32
    return rng.choice([Op("insert", key, cells=(int_value(1), NULL)),
                       Op("remove", key, shown=shown),
                       Op("replace", key, sets=((0, int_value(9)),), shown=shown),
                       Op("remove", key), Op("put", key, part=part), Op("set", key, part=part)])


def plain_op(op):
    """A change as JSON."""
    out = {"op": op.name, "key": op.key}
    if op.name == "insert":
        out["cells"] = list(op.cells)
    if op.name == "replace":
        out["sets"] = [{"column": c, "value": v} for c, v in op.sets]
    if op.name in ("replace", "remove"):
        out["shown"] = sorted(op.shown)
    if op.name in ("put", "set"):
        out["part"] = op.part
    if op.name in ("tput", "tset"):
        out["value"] = op.value
    return out


def work_lines(rng, count):
    """Changes of trees of any shape."""
    for where in (MAIN, SCHEMA.sides[0], SCHEMA.sides[1]):
        for tree, op, outcome, proof in odd_works(rng, SCHEMA, where, some_op, count):
            yield {"call": "work", "in": plain({"tree": tree_bytes(tree), "op": plain_op(op)}),
                   "out": plain({"changed": outcome, "is_update_proof": proof})}


def next_line(roots, batch, proofs):
    """The line of an owner with roots alone that follows a batch."""
    given = {"version": roots.version, "catalog": roots.catalog.bytes(),
             "batch": batch_bytes(batch), "proofs": proofs}
    return line("Roots::next", given, lambda: roots.next(batch, proofs).catalog.bytes())


def owner_lines(rng, count):
    """Owners with roots alone, and proofs near the honest ones."""
    for number in range(max(1, count // 40)):
        work = Workload(rng.randrange(1 << 30), batches=4, commands=12, queries=0)
        world = SealedScript("")
        for batch in work.batches:
            roots, proofs = world.owner.roots, world.store.propose(batch)
            for _, other in proof_variants(proofs, rng, 60):
                yield next_line(roots, batch, other)
            world.commit(batch)


def odd_next_lines(rng, count):
    """`next` on roots of any shape: the proofs show what each work looks at."""
    plain_schema = Schema(SCHEMA.columns, 0)
    for number in range(count):
        schema = rng.choice([SCHEMA, plain_schema])
        odd = OddTrees(rng, schema, sample_keys(rng, INT), shown=rng.choice([0.0, 1.0]))
        places = [MAIN] + list(schema.sides)
        trees = [odd.tree(where) for where in places]
        table = CatalogTable(schema, rng.choice([0, 1, 7]), digest_of(trees[0]),
                             tuple(digest_of(t) for t in trees[1:]))
        roots = Roots(4, Catalog({"t": table}))
        value = value_of_key(INT, rng.choice(odd.keys))
        command = rng.choice([Insert("t", (value, int_value(1), NULL)), Delete("t", "id", value),
                              Update("t", (("b", text_value("n")),), "id", value),
                              Update("t", (("a", int_value(rng.randrange(5))),), "id", value)])
        proofs = _odd_proofs(schema, command, trees, rng)
        yield next_line(roots, (command,), write_proofs(proofs))


def _cut(tree, op):
    """The tree cut down to what a change looks at."""
    found = found_entry(tree, op.key) if op.opens_row() else None

    def part_of(entry):
        if entry is not found or isinstance(entry.part, bytes):
            return entry.row_digest()
        return tuple(cell if number in op.shown else cell_digest(number, cell)
                     for number, cell in enumerate(entry.part))

    def at_leaf(leaf):
        return leaf if leaf.totals else Leaf(Entry(e.key, part_of(e)) for e in leaf.entries)
    return close_except(tree, {id(node) for node in looked_at(tree, op)[0]}, at_leaf)


def _odd_proofs(schema, command, trees, rng):
    """The trees cut down to what the works look at, as far as they get."""
    trees, out = list(trees), []
    op = main_op(schema, command)
    out.append(_cut(trees[0], op))
    try:
        do_op(out[0], op)
        old = found_entry(out[0], op.key)
        part = new_part(op, old and old.part)
        for number, work in side_ops(schema, command, old and old.part, part and row_digest(part)):
            out.append(_cut(trees[1 + number], work))
            trees[1 + number] = do_op(trees[1 + number], work)
    except (Missing, UpdateFault, TypeError):
        pass
    return out if rng.random() < 0.9 else out + [trees[0]]


def wire_lines(rng, worlds, count):
    """Connections to a store."""
    for work, world in worlds:
        entries = [entry_bytes(e) for e in world.entries]
        good = [frame(2), frame(3, batch_bytes(work.batches[-1])), frame(3, b"\0\0"),
                frame(1, b"SELECT"),
                frame(4, world.entries[-1].rec.bytes() + long_bytes(world.entries[-1].signature))]
        good += [frame(1, q.encode()) for q in work.queries[:3]]
        good += [frame(5, v.to_bytes(8, "big") + work.queries[0].encode()) for v in (0, 2, 99)]
        for _ in range(count):
            data = b"".join(rng.sample(good, rng.randint(0, 3)))
            if data and rng.random() < 0.5:
                cut = data[:rng.randrange(len(data))]
                data = rng.choice([cut, next(byte_sets(data, rng, 1))[1]])

            def served():
                store, link = Store.load(world.public, world.entries), MemLink(data)
                return {"end": list(serve_link(store, link)), "put": link.sent}
            given = {"key": world.public_bytes, "entries": entries, "bytes": data}
            yield line("serve_link", given, served)


def all_lines(seed, count):
    """All of them."""
    rng = random.Random(seed)
    worlds = []
    for number in range(2):
        work = Workload(seed * 100 + number, batches=3, commands=8, queries=4)
        worlds.append((work, SealedScript(work.script)))
    yield from value_lines(rng, 4 * count)
    yield from lms_lines(rng, max(2, count // 20))
    yield from hss_lines(rng)
    yield from text_lines(rng, count)
    yield from format_lines(rng, worlds, count)
    yield from tree_lines(rng, 6 * count)
    yield from work_lines(rng, 4 * count)
    yield from owner_lines(rng, count)
    yield from odd_next_lines(rng, 8 * count)
    yield from wire_lines(rng, worlds, count // 2)


def main(words):
    """Prints them."""
    for thing in all_lines(int(words[1]), int(words[2])):
        print(json.dumps(thing))


if __name__ == "__main__":
    main(sys.argv)
