"""Cases of the commands that work on files alone: words, files, and bytes near all of these."""

import random

from ..formats import slot_bytes
from ..printing import print_batch
from ..sql import parse_query
from ..stages import has
from .cuts import cut_variants
from .mutate import opened_variants, reply_variants, resigned_variants
from .odd_trees import odd_replies
from .texts import GOOD_SCRIPTS, GOOD_TEXTS, all_near, edge_queries, edge_scripts
from .workload import Workload
from .worlds import OTHER_SEED, SEED, SealedScript


TEXT = "SELECT * FROM t"


# -- cases: their names and words; a word that is bytes stands for a file of them

def key_words():
    """No command, and such as need no public key."""
    return [
        [], ["nope"], ["help"], ["--help"], ["-h"], ["--version"], ["keygen"],
        ["keygen", SEED, SEED], ["keygen", SEED, "--height", "5"], ["keygen", SEED, "--height=10"],
        ["keygen", "--levels", "2", SEED], ["keygen", SEED, "--height", "6"],
        ["keygen", SEED, "--height", "9"], ["keygen", SEED, "--height", "4"],
        ["keygen", SEED, "--height", "11"], ["keygen", SEED, "--height", "x"],
        ["keygen", SEED, "--height"], ["keygen", SEED, "--height", "5", "--height", "5"],
        ["keygen", SEED, "--levels", "3"], ["keygen", SEED, "--levels", "0"],
        ["keygen", "--levels=2", SEED, "--height", "10"], ["keygen", SEED[:47], "--levels", "2"],
        ["keygen", SEED, "--levels", "2", "--levels", "2"], ["keygen", SEED, "--levels", "02"],
        ["seal", SEED, b"", "--levels", "2"], ["seal", SEED, b"", "--height=10", "--levels=2"],
        ["keygen", SEED, "--least", "0"], ["keygen", "--", SEED], ["keygen", "-x", SEED],
        ["keygen", SEED[:47]], ["keygen", b""], ["keygen", SEED + b"\0"], ["keygen", "absent"],
        ["seal", SEED], ["seal", "absent", b"bad"], ["seal", SEED[:4], "absent"],
        ["seal", SEED, "absent"], ["seal", SEED, b"\xff\xfe"], ["seal", SEED, b""],
        ["seal", SEED, b" \n\t\r"], ["keygen", SEED, "--at", "0"],
        ["seal", SEED, b"", "--at", "0"], *gen_words(),
    ]


def gen_words():
    """Workloads that there are none of, and the smallest one."""
    steps = "0", "100001", "01", "+1", "-1", "", "1.0", " 1", "one", "\u0661", "18446744073709551617"
    numbers = "18446744073709551616", "00", "07", "+0", "-1", "", "0x1", "1e3", " 0"
    return [
        *(["gen", step, "0"] for step in steps), *(["gen", "1", number] for number in numbers),
        ["gen"], ["gen", "1"], ["gen", "1", "0", "0"], ["gen", "1", "0", "--height", "10"],
        ["gen", "1", "0", "--at", "1"], ["gen", "--", "-1", "0"], ["gen", "1", "--", "-0"],
        ["gen", "--", "1", "0"],
    ]


def check_words(pub):
    """A public key, a query and a reply."""
    return [
        ["check", pub, TEXT], ["check", pub, TEXT, "absent"],
        ["check", pub, "SELECT * FRM t", "absent"], ["check", "absent", "SELECT * FRM t", "absent"],
        ["check", pub[:55], "x", "absent"], ["check", pub + b"\0", "x", "absent"],
        ["check", pub + b"\0" * 8, "x", "absent"], ["check", pub + b"\0" * 9, "x", "absent"],
        ["check", b"", "x", "absent"], ["check", (10).to_bytes(4, "big") + pub[4:], "x", "absent"],
        ["check", pub[:4] + (5).to_bytes(4, "big") + pub[8:], "x", "absent"],
        ["check", (2).to_bytes(4, "big") + pub, "x", "absent"],
        ["check", (3).to_bytes(4, "big") + pub, "x", "absent"], ["check", pub, "", b""],
        ["check", pub, TEXT, b""], ["check", pub, TEXT, b"", "--least", "18446744073709551615"],
        ["check", pub, TEXT, b"", "--least", "18446744073709551616"],
        ["check", pub, TEXT, b"", "--least", "-1"], ["check", pub, TEXT, b"", "--least=", ],
        ["check", pub, TEXT, b"", "--at", "1"], ["check", pub, "S" * 65536, b""],
        ["check", pub, "S" * 65537, b""], ["check", pub, TEXT + " " * 65521, b""],
        ["check", pub, TEXT + " " * 65522, b""],
    ]


def journal_words(pub):
    """Journals, and networks that aren't asked."""
    return [
        ["serve", "127.0.0.1:1", pub, b"\0", "0"],
        ["serve", "127.0.0.1:1", pub, b"\0", "4294967296"],
        ["serve", "127.0.0.1:1", pub, b"\1\1", "1"], ["answer", pub, b"\0", TEXT],
        ["answer", pub, b"", TEXT], ["answer", pub, b"\1", TEXT], ["answer", pub, b"\1\0", TEXT],
        ["answer", pub, b"\0", "SELECT"], ["audit", pub, b"\0", TEXT, b""],
        ["audit", pub, "absent", "SELECT", b""], ["audit", pub, b"\0", TEXT, "absent"],
        ["audit", pub, b"\0", TEXT, b"", "--seed", SEED[:5]],
        ["audit", pub, b"\0", TEXT, b"", "--seed", OTHER_SEED],
        ["audit", pub, b"\0", TEXT, b"", "--seed", SEED],
        ["audit", pub, b"\0", TEXT, b"", "--seed", SEED, "--levels", "2"],
        ["audit", pub, b"\0", TEXT, b"", "--levels", "2", "--height", "10"],
        ["meet", pub, TEXT, b"", b""], ["meet", pub, TEXT, b"", "absent"],
        ["serve", "127.0.0.1:1", pub, b"\1\1", "1", "--at", "0"],
        ["audit", pub, b"\0", TEXT, b"", "--at", "0"], ["meet", pub, TEXT, b"", b"", "--at", "0"],
        *(words + at for at in at_options() for words in (
            ["answer", pub, b"\0", TEXT], ["answer", pub, b"\0", "SELECT"],
            ["ask", "127.0.0.1:1", pub[:55], TEXT], ["ask", "127.0.0.1:1", pub, "SELECT"])),
        ["answer", "--at", "1", pub, b"\0", TEXT], ["answer", pub, "--at=1", b"\0", TEXT],
        ["answer", pub, b"\0", "--at", "1"], ["answer", pub, b"\0", TEXT, "--", "--at", "1"],
        ["answer", pub, "absent", TEXT, "--at", "1"], ["ask", "127.0.0.1:1", pub, "--at", "1"],
        ["ask", "127.0.0.1:1", "--at", "1", pub, "SELECT", "--least", "0"],
        ["ask", "127.0.0.1:1", pub, "SELECT", "--least=2", "--at=1"],
        ["answer", pub, b"\0", TEXT, "--at", "1", "--least", "0"],
    ]


def at_options():
    """The option for a version, right and wrong."""
    numbers = ("0", "1", "18446744073709551615", "18446744073709551616", "100000000000000000000",
               "01", "00", "+1", "-1", "1a", "", " 1", "1.0", "\u0661", "-", "--")
    return [*(["--at", number] for number in numbers), ["--at=1"], ["--at="], ["--at=01"], ["--at"],
            ["--a", "1"], ["-at", "1"], ["--At", "1"], ["--at", "1", "--at", "1"],
            ["--at=1", "--at=2"], ["--at", "--at"]]


def word_cases():
    """Words right and wrong, and files that are none."""
    pubs = [SealedScript("").public_bytes, *built("levels", SealedScript("", levels=2).public_bytes)]
    yield from (("words " + repr(words), words) for words in key_words())
    yield from (("words " + repr(words), words)
                for pub in pubs for words in check_words(pub) + journal_words(pub))


def border_cases(seed):
    """Versions on both sides of the border of two lower trees, and as many as a key has, and more."""
    if not has("levels"):
        return
    for count in (31, 32, 33, 40, *((1023, 1024) if seed == 1 else ())):
        yield "seal over borders", ["seal", SEED, turns(count), "--levels", "2"]
    world = SealedScript(turns(39).decode(), levels=2)
    for version in (0, 30, 31, 32, 33, 39):
        data = world.store.answer_at(version, parse_query(TEXT))
        yield "check over borders", ["check", world.public_bytes, TEXT, data]
        yield "audit over borders", ["audit", world.public_bytes, world.journal, TEXT, data]


def version_cases(rng, seed, size):
    """Answers by the versions of journals: all of short ones, and of ones that have more versions
    than are kept those at each end, some between them, and such as are too old or too new."""
    if not has("versions"):
        return
    for number in range(size):
        work = Workload(seed * 1000 + 700 + number, batches=9, commands=6, queries=8)
        world = SealedScript(work.script)
        yield from _answers_at(rng, world, work.queries, range(world.store.version() + 3))
    if has("levels"):
        ends = [0, *range(4, 11), *range(68, 74), *rng.sample(range(11, 68), 8)]
        yield from _answers_at(rng, *long_world(seed, levels=2), ends)
    if seed == 1:
        yield from _answers_at(rng, *long_world(seed, height=10), range(73))


def long_world(seed, **shape):
    """Small tables of 71 versions under a key of this shape, and queries on them."""
    work = Workload(seed * 1000 + 800, tables=2, batches=80, commands=2, queries=8)
    script = "".join(print_batch(batch) + " COMMIT ;" for batch in work.batches[:70])
    return SealedScript(script, **shape), work.queries


def _answers_at(rng, world, texts, versions):
    """What these versions answer, and what is said of it."""
    store, newest = world.store, world.store.version()
    oldest = store.kept[0].rec.version
    for version in [*versions, (1 << 64) - 1]:
        text = rng.choice(texts)
        words = ["answer", world.public_bytes, world.journal, text, "--at", str(version)]
        yield "answer at", words
        if not oldest <= version <= newest:
            continue
        reply = store.answer_at(version, parse_query(text))
        yield "check at", ["check", world.public_bytes, text, reply, "--least", str(version)]
        yield "meet at", ["meet", world.public_bytes, text, reply, world.reply(text)]
        if rng.random() < 0.2:
            yield "audit at", ["audit", world.public_bytes, world.journal, text, reply]


def turns(count):
    """The script of so many batches, each second of which drops the table that the one before makes."""
    note = b", note TEXT NULL" if has("nulls") else b""
    batches = (b"CREATE TABLE t (id BIGINT" + note + b", PRIMARY KEY (id)); COMMIT; ",
               b"DROP TABLE t; COMMIT; ")
    return b"".join(batches[number % 2] for number in range(count))


def sql_cases(rng, size):
    """Texts near the grammar, and at its limits."""
    pub = SealedScript("").public_bytes
    for text in [*edge_queries(), *all_near(GOOD_TEXTS, rng, 40 * size)]:
        yield "query text", ["check", pub, text, "absent"]
    for text in [*edge_scripts(), *all_near(GOOD_SCRIPTS, rng, 40 * size)]:
        yield "script text", ["seal", SEED, text.encode("utf-8")]


def workload_cases(rng, seed, size):
    """Random scripts sealed, and random queries answered, checked, audited and met."""
    for number in range(2 * size):
        work = Workload(seed * 1000 + number, batches=7, commands=20, queries=12)
        levels = 2 if number % 3 == 2 and has("levels") else 1
        world = SealedScript(work.script, levels=levels)
        yield "seal", ["seal", SEED, world.script] + world.options
        yield "keygen", ["keygen", SEED] + world.options
        for refused in work.refused[:8]:
            script = world.script + b" " + refused.encode() + b" COMMIT;"
            yield "seal refused", ["seal", SEED, script] + world.options
        older = world.store.kept[-3]
        for text in work.queries:
            yield from _query_cases(world, older, text)


def built(feature, *words):
    """The words where that feature counts as built."""
    return list(words) if has(feature) else []


def _query_cases(world, older, text):
    reply = world.reply(text)
    before = world.store.answer_at(older.rec.version, parse_query(text))
    version = str(world.store.version())
    yield "answer", ["answer", world.public_bytes, world.journal, text]
    for number in (older.rec.version, int(version) + 1):
        at = built("versions", "--at", str(number))
        yield "answer at", ["answer", world.public_bytes, world.journal, text] + at
    for least in ("0", version, str(int(version) + 1)):
        yield "check", ["check", world.public_bytes, text, reply] + ["--least", least]
    yield "check", ["check", world.public_bytes, text, before]
    yield "audit", ["audit", world.public_bytes, world.journal, text, reply]
    seed = built("evidence", "--seed", SEED, *world.options)
    yield "audit", ["audit", world.public_bytes, world.journal, text, before] + seed
    cut = b"".join(slot_bytes(e) for e in world.entries[:-1]) + b"\0"
    yield "audit cut", ["audit", world.public_bytes, cut, text, reply] + seed
    yield "meet", ["meet", world.public_bytes, text, reply, before]
    yield "meet", ["meet", world.public_bytes, text, reply, reply]
    yield "meet", ["meet", world.public_bytes, text, reply[:-1], before]
    yield "meet", ["meet", world.public_bytes, text, reply, before + b"\0"]


def hostile_cases(rng, seed, size):
    """Hostile replies checked, audited and met."""
    for number in range(size):
        work = Workload(seed * 1000 + 500 + number, batches=6, commands=25, queries=8)
        world = SealedScript(work.script, levels=2 if number % 4 == 3 and has("levels") else 1)
        for text in work.queries:
            query = parse_query(text)
            data = world.store.answer(query)
            variants = list(reply_variants(data, rng, 80))
            variants = rng.sample(variants, min(len(variants), 150))
            variants += list(opened_variants(data, world.store.kept[-1], query))[:60]
            variants += list(resigned_variants(world.secret, data, query, rng, 25))
            variants += list(odd_replies(world.secret, data, query, rng, 25))
            variants += list(cut_variants(world.secret, data, world.store.kept[-1], query))
            for name, other in variants:
                yield "hostile " + name, ["check", world.public_bytes, text, other]
            for name, other in rng.sample(variants, 10):
                words = ["audit", world.public_bytes, world.journal, text, other]
                yield "hostile audit " + name, words
                yield "hostile meet " + name, ["meet", world.public_bytes, text, data, other]


def journal_cases(rng, seed, size):
    """Journals that are cut, changed, moved or another's."""
    work = Workload(seed * 1000 + 900, batches=4, commands=8, queries=2)
    world, other = SealedScript(work.script), SealedScript(work.script, seed=OTHER_SEED)
    text, journal = work.queries[0], world.journal
    reply = world.reply(text)
    makes = [journal[:n] for n in sorted(rng.sample(range(len(journal)), 20 * size))]
    makes += [journal + b"x", journal[:-1] + b"\2", journal[:-1] + b"\1", journal[:-1]]
    makes += [other.journal, b"\0" + journal]
    slots = [slot_bytes(e) for e in world.entries]
    makes += [b"".join(slots[:n]) + b"\0" for n in range(len(slots))]
    makes += [b"".join(some) + b"\0" for some in (slots[1:], slots[::-1], slots + slots[-1:])]
    for _ in range(40 * size):
        changed = bytearray(journal)
        changed[rng.randrange(len(journal))] ^= 1 << rng.randrange(8)
        makes.append(bytes(changed))
    for data in makes:
        yield "journal audit", ["audit", world.public_bytes, data, text, reply]
        yield "journal answer", ["answer", world.public_bytes, data, text]


def all_cases(seed, size):
    """All of them; SIZE says how many random ones there are."""
    rng = random.Random(seed)
    yield from word_cases()
    yield from border_cases(seed)
    yield from sql_cases(rng, size)
    yield from workload_cases(rng, seed, size)
    yield from hostile_cases(rng, seed, size)
    yield from journal_cases(rng, seed, size)
    yield from version_cases(rng, seed, size)
