"""An owner, a disk that crashes and readers: what each event says."""

import unittest

from ..check import check_of
from ..formats import journal_bytes
from ..generators.worlds import SECRET, history
from ..sql import parse_batch, parse_query, parse_script
from ..world import World

SCRIPT = ("CREATE TABLE t (id BIGINT, name TEXT, PRIMARY KEY (id)); COMMIT; "
          "INSERT INTO t VALUES (1, 'ann'); COMMIT;")
QUERY = parse_query("SELECT * FROM t")
NO_PROOFS, EMPTY_LEAF = b"VOU1\0\0", b"VOU1\0\1\1\0"


class Events(unittest.TestCase):
    """A world of two readers."""

    def setUp(self):
        self.world = World(SECRET, 2)
        self.batches = parse_script(SCRIPT)
        self.entries, self.store = history(self.batches)

    def grow(self):
        """Commits both batches."""
        self.assertEqual(self.world.commit(self.batches[0], NO_PROOFS), ("Committed", 1))
        self.assertEqual(self.world.commit(self.batches[1], EMPTY_LEAF), ("Committed", 2))

    def test_commits(self):
        """The same batch again by the same proofs, and a table that isn't there."""
        self.grow()
        said, fault = self.world.commit(self.batches[1], EMPTY_LEAF)
        self.assertEqual((said, fault.name, fault.index), ("Denied", "ProofRoot", 0))
        said, fault = self.world.commit(parse_batch("DROP TABLE u;"), NO_PROOFS)
        self.assertEqual((said, fault.name, fault.fields["fault"]),
                         ("Denied", "Command", "NoTable"))
        self.assertEqual(journal_bytes(self.world.journal.entries()), journal_bytes(self.entries))

    def test_readers(self):
        """Each reader's version never falls."""
        self.grow()
        newer, older = self.store.answer(QUERY), self.store.answer_at(1, QUERY)
        said, answer = self.world.receive(0, QUERY, newer)
        self.assertEqual((said, answer.version), ("Accepted", 2))
        self.assertEqual(answer, check_of(SECRET.public(), 0, QUERY, newer))
        said, fault = self.world.receive(0, QUERY, older)
        self.assertEqual((said, fault.name, fault.least, fault.got), ("Refused", "Stale", 2, 1))
        said, answer = self.world.receive(1, QUERY, older)
        self.assertEqual((said, answer.version), ("Accepted", 1))

    def test_crashes(self):
        """What a crash may leave has each released record; other bytes are no image."""
        self.grow()
        whole = bytes(self.world.disk.data)
        self.assertEqual(self.world.crash(whole[:-1] + b"x"), ("NoImage",))
        self.assertEqual(self.world.crash(whole), ("Reopened", 3))
        for image in self.world.disk.images():
            self.assertEqual(self.world.crash(image), ("Reopened", 3))

    def test_crashes_inside_a_commit(self):
        """The commit is there or isn't, also behind bytes that are no image; once a reader
        has been asked, it is there."""
        self.grow()
        before = journal_bytes(self.entries[:2])
        self.assertEqual(self.world.crash(b""), ("NoImage",))
        self.assertEqual(self.world.crash(before), ("Reopened", 2))
        self.assertEqual(self.world.crash(before + b"\0"), ("NoImage",))
        self.assertEqual(self.world.commit(self.batches[1], EMPTY_LEAF), ("Committed", 2))
        self.world.receive(0, QUERY, b"")
        self.assertEqual(self.world.crash(before), ("NoImage",))


if __name__ == "__main__":
    unittest.main()
