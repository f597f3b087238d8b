"""The rows of the stored lines of crates/world_lines: chosen events, each a word and its byte strings."""
from reference.formats import batch_bytes, journal_bytes, read_proofs, read_reply, write_proofs
from reference.generators.mutate import rewrite
from reference.histories import History
from reference.lms import SecretKey
from reference.sql import parse_batch, parse_query, parse_script

ID, SEED = bytes(range(16)), bytes(range(32, 64))
W1, W4 = b"\x01", b"\x03"
NO_PROOFS, EMPTY_LEAF = b"VOU1\0\0", b"VOU1\0\1\1\0"
QUERY = "SELECT * FROM t"
SCRIPT = ("CREATE TABLE t (id BIGINT, name TEXT, PRIMARY KEY (id)); COMMIT; INSERT INTO t VALUES (1, 'ann'); COMMIT; "
          "INSERT INTO t VALUES (2, 'bob'); COMMIT;")
# two batches that leave the tables as they were, and need no proofs
TURN = parse_script("CREATE TABLE turn (id BIGINT, PRIMARY KEY (id)); COMMIT; DROP TABLE turn; COMMIT;")
SHOWN = "clients", "entries", "journal", "released", "accepted"


def rows():
    """All rows, those of each kind of case behind one another."""
    for cases in (no_lines, two_clients, refused_commits, stops_in_a_commit, stops_behind_each_other, images_that_never_were,
                  other_replies, no_clients, nulls, spent_key, two_levels):
        yield from cases()


# -- what the cases are of

def u(value):
    """A number as the bytes of a line."""
    return value.to_bytes(4, "big")


def sql(text):
    return parse_batch(text + ";")


def commit(batch, proofs=NO_PROOFS):
    return "commit", batch_bytes(batch), proofs


def crash(lost=0, data=b""):
    return "crash", u(lost), data


def receive(client, data, text=QUERY):
    return "receive", bytes([client]), text.encode(), data


def shown():
    """All that a world shows."""
    return [(word,) for word in SHOWN]


def shown_twice():
    """The same before and behind all events that happen once more."""
    return [*shown(), ("schedule",), *shown()]


class Story(History):
    """An owner whose store is asked for replies, and the rows of a world that begins under its key."""

    def __init__(self, script=SCRIPT, ident=ID, ots=W4, levels=1):
        super().__init__(SecretKey(ident, SEED, ots[0], 5, levels))
        self.word = "make" if levels == 1 else "make_hss"
        self.batches = parse_script(script)
        for batch in self.batches:
            self.commit(batch)

    def begun(self, clients):
        """The rows that begin its world."""
        return (self.word, b"\x05", bytes([self.secret.ots]), self.secret.ident, self.secret.seed), ("new", bytes([clients]))

    def commits(self, *numbers):
        """The commits of these versions."""
        return [commit(self.entries[number].batch, self.entries[number].proofs) for number in numbers]

    def reply(self, version, text=QUERY):
        return self.store.answer_at(version, parse_query(text))

    def slot(self, version):
        """How many bytes the entry of a version takes in the journal."""
        return len(journal_bytes(self.entries[version:version + 1])) - 1


# -- lines that ask for nothing

def no_lines():
    story = Story()
    make, new = story.begun(1)
    yield from (shown() + [("schedule",), commit(story.batches[0]), crash(), receive(0, b"")])
    yield new
    yield make
    yield from (("new",), ("new", b"\1", b"\1"), commit(story.batches[0]))
    yield new
    yield from (("commit",), ("commit", b"\0\0"), ("commit", b"\0\1", NO_PROOFS), ("commit", b"", NO_PROOFS), ("crash",),
                ("crash", b""), ("receive", b"\0", QUERY.encode()), receive(1, b""), receive(0, b"", "SELECT"),
                ("receive", b"\0", b"\xff", b""), ("journal", b""), ("schedule", b""))
    # nothing has happened
    yield from shown_twice()


# -- events in a row

def two_clients():
    """Both clients' versions never fall, and a stop behind a reply loses nothing."""
    story = Story()
    yield from story.begun(2)
    yield from story.commits(1, 2)
    yield story.commits(2)[0]
    yield receive(0, story.reply(2))
    yield crash()
    yield from (receive(0, story.reply(1)), receive(1, story.reply(1)))
    yield commit(sql("DROP TABLE u"))
    yield from shown_twice()


def refused_commits():
    """Each refusal of an owner, and the same batch by the right proofs behind it."""
    story = Story()
    right = story.entries[3].proofs
    tree = read_proofs(right)[0]
    yield from story.begun(1)
    yield from story.commits(1, 2)
    yield ("keep", right)
    bob = story.batches[2]
    for proofs in (b"", right[:-1], right + b"\0", b"VOU2" + right[4:], NO_PROOFS, write_proofs([tree, tree]), EMPTY_LEAF):
        yield commit(bob, proofs)
    for text in ("INSERT INTO t VALUES (1, 'eve')", "INSERT INTO t VALUES (2)", "INSERT INTO t VALUES ('x', 'y')",
                 "CREATE TABLE t (id BIGINT, PRIMARY KEY (id))", "DELETE FROM t WHERE id = 7", "DELETE FROM t WHERE name = 'ann'",
                 "UPDATE t SET nope = 1 WHERE id = 1", "DROP TABLE u"):
        yield commit(sql(text), story.store.copy().propose(()) if "TABLE" in text else right)
    yield commit(())
    yield from story.commits(3)
    yield from shown_twice()


def stops_in_a_commit():
    """What a stop inside a commit may leave: the entry, or the closed gate before it and any bytes behind that."""
    story = Story()
    slot = journal_bytes(story.entries[3:])
    for data in (b"\0", b"\0\1", b"\0" + b"\xff" * 40, b"\0" + b"\1" * (len(slot) - 1), b"\0" + slot[1:], b"\2" + slot[1:], slot,
                 # shorter than before, longer than any write, and open before the entry is put down
                 b"", b"\0" * (len(slot) + 1), b"\1" + b"\xff" * (len(slot) - 1)):
        yield from story.begun(1)
        yield from story.commits(1, 2, 3)
        yield crash(len(slot), data)
        yield ("entries",)
        # the batch again; a client has heard of the entry behind it, so it stays there
        yield from story.commits(3)
        yield receive(0, story.reply(3))
        yield crash(len(slot), data)
        yield from shown_twice()


def stops_behind_each_other():
    """Stops in a row: behind one that came back the moments are counted from there."""
    story = Story()
    yield from story.begun(0)
    # what World::new has put down stays
    yield from (crash(), crash(story.slot(0) + 1, b"\0"), crash(0, b"\0"), crash())
    yield from story.commits(1, 2)
    yield from (crash(1), crash(story.slot(2) + 1, b"\0"), crash(story.slot(1) + 1, b"\0"), crash(0, b"\0"), crash())
    yield from story.commits(2)
    # a batch that is refused is an event too
    yield commit(sql("DROP TABLE u"))
    yield crash(story.slot(2) + 1, b"\0")
    yield from shown_twice()


def images_that_never_were():
    """No stop leaves other bytes of what was put down, fewer, or more."""
    story = Story()
    whole = story.journal_bytes()
    yield from story.begun(1)
    yield from story.commits(1, 2, 3)
    yield receive(0, b"")
    for lost in (1, 2, story.slot(3), len(whole), len(whole) + 7):
        yield crash(lost)
    for at in (0, 1, 4, 9, len(whole) // 2, len(whole) - 1):
        yield crash(len(whole) - at, bytes([whole[at] ^ 1]) + whole[at + 1:])
    yield from (crash(0, b"\0"), crash(0, b"\0" * 9000), crash(1, b"\xff"))
    yield from shown_twice()


def other_replies():
    """Replies to other queries, of other owners and of other forms: a refusal changes nothing, whoever comes next."""
    story, other = Story(), Story(ident=bytes(range(16, 32)))
    apart = Story(SCRIPT.replace("ann", "eve"))
    data = story.reply(2)
    reply = read_reply(data)
    yield from story.begun(3)
    yield from story.commits(1, 2, 3)
    yield ("keep", data)
    yield receive(0, other.reply(2))
    yield from (receive(0, data, text) for text in ("SELECT name FROM t WHERE id = 1", "SELECT * FROM u"))
    yield from (receive(0, changed) for changed in (data[:-1], data + b"\0", b""))
    yield receive(1, rewrite(reply, signature=reply.signature[:3] + b"\x09" + reply.signature[4:]))
    yield receive(1, rewrite(reply, signature=reply.signature[:-1] + b"\x09"))
    # another history by the same key: the owner never wrote that record, and a client can't tell
    yield receive(1, apart.reply(3))
    yield from (receive(1, data), receive(2, data), receive(2, story.reply(3)), receive(2, story.reply(3)))
    yield receive(0, story.reply(0))
    yield receive(0, story.reply(3, "SELECT * FROM nowhere"), "SELECT * FROM nowhere")
    yield from shown_twice()


def no_clients():
    story = Story()
    yield from story.begun(0)
    yield from story.commits(1)
    yield receive(0, story.reply(1))
    yield from shown_twice()


def nulls():
    """A table with a column that may be NULL comes, changes and goes: the record's first four bytes go with it."""
    story = Story("CREATE TABLE t (id BIGINT, name TEXT NULL, PRIMARY KEY (id)); COMMIT; INSERT INTO t VALUES (1, NULL); "
                  "INSERT INTO t VALUES (2, 'bob'); COMMIT; UPDATE t SET name = NULL WHERE id = 2; COMMIT; DROP TABLE t; COMMIT;")
    query = "SELECT id FROM t WHERE name IS NULL OR NOT name = 'bob'"
    yield from story.begun(2)
    yield from story.commits(1, 2)
    right = story.entries[3].proofs
    for text in ("INSERT INTO t VALUES (NULL, 'z')", "INSERT INTO t VALUES (NULL, 7)", "UPDATE t SET name = 'z' WHERE id = NULL",
                 "DELETE FROM t WHERE id = NULL", "CREATE TABLE u (id BIGINT NULL, PRIMARY KEY (id))"):
        yield commit(sql(text), NO_PROOFS if "CREATE" in text else right)
    data = story.reply(2, query)
    yield from (receive(0, data, query), receive(0, story.reply(2)))
    yield ("keep", data)
    yield from (receive(1, data[:4] + word + data[8:], query) for word in (b"VREC", b"VRC3"))
    yield from story.commits(3)
    yield crash(story.slot(3) + 1, b"\0")
    yield from story.commits(3)
    yield receive(1, story.reply(3, query), query)
    yield from story.commits(4)
    yield from (receive(0, story.reply(3, query), query), receive(1, story.reply(4, query), query))
    yield from shown_twice()


# -- the ends of keys

def turn(version):
    """The batch of a version of tables that change and come back."""
    return TURN[(version - 1) % 2]


def spent_key():
    """A key of height 5 signs 32 versions, with the first one; a stop that takes the last one away lets it sign that again."""
    story = Story("", ots=W1)
    for version in range(1, 32):
        story.commit(turn(version))
    yield from story.begun(0)
    yield from story.commits(*range(1, 32))
    yield crash(story.slot(31) + 1, b"\0")
    yield from (commit(turn(31)), commit(turn(32)), crash(), commit(turn(32)))
    yield from shown_twice()


def two_levels():
    """A key of two levels goes on in its next lower tree, which a stop may take away."""
    query = "SELECT * FROM turn"
    story = Story("", ots=W1, levels=2)
    for version in range(1, 34):
        story.commit(turn(version))
    yield from story.begun(1)
    yield from story.commits(*range(1, 33))
    yield crash(story.slot(32) + 1, b"\0")
    yield from story.commits(32, 33)
    yield from (receive(0, story.reply(33, query), query), receive(0, story.reply(31, query), query))
    yield crash(story.slot(33) + 1, b"\0")
    yield from shown_twice()
