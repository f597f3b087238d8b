"""Older versions: `--at`, and the frame that asks for one."""

import unittest

from ..generators.worlds import SEED
from ..outside import MemNet
from ..wire import frame
from .runs import Runs

CREATE = b"CREATE TABLE t (id BIGINT, name TEXT, PRIMARY KEY (id)); COMMIT; "
SCRIPT = CREATE + (b"INSERT INTO t VALUES (1, 'ann'); COMMIT; "
                   b"INSERT INTO t VALUES (3, 'bob'); COMMIT;")
QUERY = "SELECT * FROM t"
SECOND = b"version 2\nid,name\n1,'ann'\n"


def asking(version, text=QUERY):
    """The frame that asks for a version's answer."""
    return frame(5, version.to_bytes(8, "big") + text.encode())


class Versions(Runs):
    """A journal of three versions behind version 0, and one of 70."""

    def setUp(self):
        self.files = {"seed": SEED, "script": SCRIPT, "zeros": bytes(48), "none": b"\0"}
        self.files["key"] = self.made("keygen", "seed")
        self.files["journal"] = self.made("seal", "seed", "script")

    def served(self, journal, *frames):
        """The answers of a store to these frames."""
        net = MemNet([b"".join(frames)])
        lines = self.ran("serve", "127.0.0.1:1", "key", journal, "1", net=net)
        self.assertEqual(lines, (0, b"connection 1 closed\nserved 1\n"))
        return bytes(net.sent[0])

    def test_answer_at(self):
        """Each version's rows, the newest one's as without the option, and none past it."""
        self.files["reply"] = self.made("answer", "key", "journal", QUERY, "--at", "2")
        self.assertEqual(self.ran("check", "key", QUERY, "reply"), (0, SECOND))
        self.assertEqual(self.made("answer", "key", "journal", QUERY, "--at=3"),
                         self.made("answer", "key", "journal", QUERY))
        self.files["reply"] = self.made("answer", "key", "journal", QUERY, "--at", "0")
        self.assertEqual(self.ran("check", "key", QUERY, "reply"),
                         (0, b"version 0\nwrong: no table t\n"))
        self.assertEqual(self.ran("answer", "key", "journal", QUERY, "--at", "4"),
                         (1, b"refused: no version 4 0 3\n"))
        self.assertEqual(self.ran("answer", "key", "none", QUERY, "--at", "0"),
                         (7, b"bad journal 0\n"))

    def test_too_old(self):
        """Of 71 versions the last 64 are kept."""
        inserts = b"".join(b"INSERT INTO t VALUES (%d, 'x'); COMMIT; " % i for i in range(69))
        self.files["script"] = CREATE + inserts
        self.files["key"] = self.made("keygen", "zeros", "--height", "10")
        self.files["journal"] = self.made("seal", "zeros", "script", "--height", "10")
        self.assertEqual(self.ran("answer", "key", "journal", QUERY, "--at", "6"),
                         (1, b"refused: no version 6 7 70\n"))
        self.files["reply"] = self.made("answer", "key", "journal", QUERY, "--at", "7")
        self.assertEqual(self.ran("check", "key", QUERY, "reply"),
                         (0, b"version 7\nid,name\n0,'x'\n1,'x'\n2,'x'\n3,'x'\n4,'x'\n5,'x'\n"))
        self.assertEqual(self.served("journal", asking(6), asking(71)), 2 * frame(0x8F, b"\7"))
        self.assertEqual(self.served("journal", asking(7)), frame(0x81, self.files["reply"]))

    def test_frames(self):
        """What a store answers: a text that is no query first, then an empty store."""
        reply = self.made("answer", "key", "journal", QUERY, "--at", "2")
        answers = self.served("journal", asking(2), asking(4), asking(4, "FROM"))
        due = [frame(0x81, reply), frame(0x8F, b"\7"), frame(0x8F, b"\1")]
        self.assertEqual(answers, b"".join(due))
        self.assertEqual(self.served("none", asking(0), asking(9, "FROM")),
                         frame(0x8F, b"\2") + frame(0x8F, b"\1"))

    def test_ask_at(self):
        """The rows of the version that was asked for; another version's reply is refused."""
        net = MemNet([self.served("journal", asking(2))])
        words = ["ask", "127.0.0.1:1", "key", QUERY, "--at", "2"]
        self.assertEqual(self.ran(*words, net=net), (0, SECOND))
        self.assertEqual(bytes(net.sent[0]), asking(2))
        net = MemNet([self.served("journal", asking(3))])
        self.assertEqual(self.ran(*words, net=net), (1, b"refused: version 2 3\n"))
        net = MemNet([self.served("journal", asking(2))])
        self.assertEqual(self.ran(*words, "--least", "3", net=net), (1, b"refused: stale 3 2\n"))
        net = MemNet([self.served("journal", asking(4))])
        self.assertEqual(self.ran(*words, net=net), (1, b"refused: store 7\n"))


if __name__ == "__main__":
    unittest.main()
