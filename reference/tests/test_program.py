"""The commands, from a seed file to an auditor's verdict, all in memory."""

import unittest

from .. import stages
from ..formats import journal_bytes
from ..generators.worlds import SEED, SealedScript
from ..outside import MemDisk, MemLink, MemNet, PeerNet
from ..store import load_journal
from ..wire import frame, serve_link
from .runs import Runs

SCRIPT = (b"CREATE TABLE t (id BIGINT, name TEXT, PRIMARY KEY (id)); COMMIT; "
          b"INSERT INTO t VALUES (9, 'ann'); INSERT INTO t VALUES (7, 'it''s'); COMMIT;")
LATER = b"DELETE FROM t WHERE id = 9; COMMIT;"
QUERY = "SELECT * FROM t WHERE id > 7"
ROWS = b"version 2\nid,name\n9,'ann'\n"


class Commands(Runs):
    """Each command once on its plain path, and some of its refusals."""

    def setUp(self):
        self.files = {"seed": SEED, "script": SCRIPT}
        for name, words in (("key", ["keygen", "seed"]), ("journal", ["seal", "seed", "script"]),
                            ("reply", ["answer", "key", "journal", QUERY])):
            self.files[name] = self.made(*words)

    def test_check(self):
        """The rows, and a version that is too old."""
        self.assertEqual(self.ran("check", "key", QUERY, "reply"), (0, ROWS))
        self.assertEqual(self.ran("check", "key", QUERY, "reply", "--least", "3"),
                         (1, b"refused: stale 3 2\n"))
        self.files["reply"] = self.files["reply"][:-1]
        self.assertEqual(self.ran("check", "key", QUERY, "reply"), (1, b"refused: bad form\n"))

    def test_audit(self):
        """A reply of this history, and one of another under the same key."""
        told = self.ran("audit", "key", "journal", QUERY, "reply")
        self.assertEqual(told, (0, b"exact version 2\n"))
        self.files["script"] = SCRIPT.replace(b"ann", b"bob")
        self.files["other"] = self.ran("seal", "seed", "script")[1]
        self.files["reply"] = self.ran("answer", "key", "other", QUERY)[1]
        status, output = self.ran("audit", "key", "journal", QUERY, "reply", "--seed", "seed")
        lines = output.decode().split("\n")
        self.assertEqual((status, lines[0], lines[3]), (6, "unsigned", "journal ends at version 2"))
        self.assertRegex(lines[4], r"^forged chain 0 2 \d+ \d+$")

    def test_meet(self):
        """Replies of two versions, and one beside itself."""
        self.files["script"] += LATER
        self.files["later"] = self.ran("seal", "seed", "script")[1]
        self.files["second"] = self.ran("answer", "key", "later", QUERY)[1]
        self.assertEqual(self.ran("meet", "key", QUERY, "reply", "second"), (0, b"apart 2 3\n"))
        self.assertEqual(self.ran("meet", "key", QUERY, "reply", "reply"), (0, b"same 2\n"))

    def test_serve_and_ask(self):
        """A query over a connection, and what comes to who asked."""
        net = MemNet([frame(1, QUERY.encode())])
        ended = self.ran("serve", "127.0.0.1:1", "key", "journal", "1", net=net)
        self.assertEqual(ended, (0, b"connection 1 closed\nserved 1\n"))
        asked = self.ran("ask", "127.0.0.1:1", "key", QUERY, net=MemNet([bytes(net.sent[0])]))
        self.assertEqual(asked, (0, ROWS))

    def test_own(self):
        """A script through a store, behind the journal of the first one."""
        sealed = SealedScript((SCRIPT + LATER).decode())
        disk = MemDisk(self.files["journal"])
        store = load_journal(sealed.public, self.files["journal"])
        self.files["script"] = LATER

        def answer(request):
            link = MemLink(request)
            serve_link(store, link)
            return bytes(link.sent)
        ended = self.ran("own", "seed", "127.0.0.1:1", "script", net=PeerNet(answer), disk=disk)
        self.assertEqual(ended, (0, b"version 3\n"))
        self.assertEqual(bytes(disk.data), journal_bytes(sealed.entries))
        self.assertEqual(store.version(), 3)

    def test_refused_words(self):
        """Words that ask for nothing."""
        for words in ([], ["help"], ["keygen"], ["keygen", "seed", "--height", "6"],
                      ["keygen", "seed", "-x"]):
            self.assertEqual(self.ran(*words), (2, b"refused: words\n"))

    def test_features_have_names(self):
        """VO_STAGE takes the names of features alone."""
        self.assertEqual(stages.features_of("limit,nulls"), {"limit", "nulls"})
        self.assertEqual(stages.features_of(""), frozenset())
        with self.assertRaises(ValueError):
            stages.features_of("20")


if __name__ == "__main__":
    unittest.main()
