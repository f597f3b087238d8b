"""Readers of older versions that are killed half-way, and those that come behind them; for tools/stops."""
import signal
import socket
import subprocess
import threading

from comparisons.watched_owners import LIMIT, PROGRAM, run
from reference.generators.folders import expected
from reference.generators.loopback import SocketLink, connected

SOME = 1_200  # bytes, fewer than any question with its answer has
EMPTY, NO_VERSION = b"refused: store 2\n", b"refused: store 7\n"


class HalfWay:
    """Hands on so many bytes of a question and its answer, and then nothing until it is let go."""

    def __init__(self, store, count):
        self.store, self.count = store, count
        self.reached, self.let_go = threading.Event(), threading.Event()
        self.listener = socket.create_server(("127.0.0.1", 0))
        self.address = "127.0.0.1:%d" % self.listener.getsockname()[1]
        self.thread = threading.Thread(target=self.hand_on, daemon=True)
        self.thread.start()

    def hand_on(self):
        with self.listener, self.listener.accept()[0] as reader, connected(self.store.port) as store:
            question = SocketLink(reader).frame()
            store.sendall(question[:self.count])
            left = self.count - len(question)
            while left > 0 and (piece := store.recv(left)):
                reader.sendall(piece)
                left -= len(piece)
            self.reached.set()
            self.let_go.wait(LIMIT)


class Readers:
    """Those of one store, whose versions are those of a sealed journal, as far as it has them."""

    def __init__(self, chosen, compare, files, query):
        self.chosen, self.compare, self.files, self.query = chosen, compare, files, query
        self.stopped = 0

    def lines(self, version):
        """What a reader of this version is due, by the other implementation."""
        _, reply = expected(["answer", "key", "journal", self.query, "--at", str(version)], self.files)
        return expected(["check", "key", self.query, "reply"], {**self.files, "reply": reply})[1]

    def ask(self, store, *options):
        return run("ask", f"127.0.0.1:{store.port}", "key", self.query, *options)

    def stop_one(self, store):
        """A reader of some version is killed; whoever asks for it then, and for the one behind the newest, is answered rightly."""
        said, status = self.ask(store)
        if said == EMPTY:
            self.compare("an empty store", (EMPTY, 1), self.ask(store, "--at", "0"))
            return
        newest = int(said.split()[1])
        self.compare("the newest version", (self.lines(newest), 0), (said, status))
        version = self.chosen.randint(0, newest)
        self.kill_half_way(store, version)
        self.compare(f"version {version}", (self.lines(version), 0), self.ask(store, "--at", str(version)))
        self.compare("no version", (NO_VERSION, 1), self.ask(store, "--at", str(newest + 1)))

    def kill_half_way(self, store, version):
        """It has written nothing by then."""
        between = HalfWay(store, self.chosen.randint(1, SOME))
        words = [PROGRAM, "ask", between.address, "key", self.query, "--at", str(version)]
        with subprocess.Popen(words, stdout=subprocess.PIPE, stderr=subprocess.DEVNULL) as reader:
            between.reached.wait(LIMIT)
            reader.kill()
            said, _ = reader.communicate()
        between.let_go.set()
        between.thread.join(LIMIT)
        self.compare("a reader that was killed", (b"", -signal.SIGKILL), (said, reader.returncode))
        self.stopped += 1
