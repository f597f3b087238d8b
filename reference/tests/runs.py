"""Commands over files in memory, for tests."""

import unittest

from ..cli import run
from ..outside import MemDisk, MemNet, MemShelf, MemSink


class Runs(unittest.TestCase):
    """A test with files, over which commands run."""

    def setUp(self):
        self.files = {}

    def ran(self, *words, net=None, disk=None):
        """Status and output."""
        sink, files = MemSink(), MemShelf(self.files)
        status = run(["vo_cli", *words], files, disk or MemDisk(), net or MemNet(), sink)
        return status, bytes(sink.written)

    def made(self, *words):
        """The output of a run that ends well."""
        status, output = self.ran(*words)
        self.assertEqual(status, 0, words)
        return output
