"""Peers that say nothing, take nothing, are slow or break off, each beside an honest one; for tools/net.

Each row has a mirror or a client of its own, and all run side by side, since most of them wait until the program's patience ends.
"""
import contextlib
import os
import socket
import struct
import subprocess
import tempfile
import threading
import time

from comparisons import workspace
from comparisons.listening import address_told
from reference.wire import frame

PATIENCE = 30  # seconds for which the program lets nothing move
SLACK = 20  # seconds that starting, checking and ending may take beside that
FAULT = b"fault: outside\n"
QUERY = "SELECT id FROM t WHERE id = 1"
LARGE_QUERY = "SELECT * FROM t"
ROWS_OF_A_BATCH, BATCHES, TEXT = 60, 4, 1000
RESET_AT_CLOSE = struct.pack("ii", 1, 0)


def query_frame(text):
    return frame(1, text.encode())


class Folder:
    """The program, and a folder with a key, a journal and the files of an owner."""

    def __init__(self, program, path):
        self.program, self.path = program, path
        for name, words in [("key", ["keygen", workspace.SEED]), ("journal", ["seal", workspace.SEED, "script"])]:
            self.write("script", script().encode())
            self.write(name, self.run(*words)[1])
        self.write("empty", b"")

    def write(self, name, data):
        with open(os.path.join(self.path, name), "wb") as file:
            file.write(data)

    def run(self, *words, at="."):
        """Status and output of a command."""
        ran = subprocess.run([self.program, *words], cwd=os.path.join(self.path, at), check=False, timeout=10 * PATIENCE,
                             stdout=subprocess.PIPE, stderr=subprocess.DEVNULL)
        return ran.returncode, ran.stdout

    def ask(self, address):
        return self.run("ask", address, "key", QUERY)


def script():
    """Rows enough for replies of some 240,000 bytes."""
    batches = ["CREATE TABLE t (id BIGINT, name TEXT, note TEXT NULL, PRIMARY KEY (id)); COMMIT;"]
    for batch in range(BATCHES):
        rows = range(batch * ROWS_OF_A_BATCH, (batch + 1) * ROWS_OF_A_BATCH)
        batches.append(" ".join([*(f"INSERT INTO t VALUES ({row}, '{'x' * TEXT}', NULL);" for row in rows), "COMMIT;"]))
    return "\n".join(batches)


class Mirror:
    """The program's `serve`, of so many connections, at a port that the system chooses."""

    def __init__(self, folder, count):
        words = [folder.program, "serve", "127.0.0.1:0", "key", "journal", str(count)]
        self.process = subprocess.Popen(words, cwd=folder.path, stdout=subprocess.PIPE, stderr=subprocess.PIPE)
        self.address = address_told(self.process)
        # nobody else reads what it says
        threading.Thread(target=self.process.stderr.read, daemon=True).start()

    def connection(self, receives=None):
        """A connection to it, which takes few bytes at once where that is said."""
        peer = socket.socket()
        if receives:
            peer.setsockopt(socket.SOL_SOCKET, socket.SO_RCVBUF, receives)
        host, port = self.address.split(":")
        peer.connect((host, int(port)))
        return peer

    def end(self):
        """Its status and its lines, once it has ended."""
        lines, _ = self.process.communicate(timeout=10 * PATIENCE)
        return self.process.returncode, lines.decode().split("\n")[:-1]


def reset(peer):
    """Ends a connection so that the other end is told at once that nothing more comes or is taken."""
    peer.setsockopt(socket.SOL_SOCKET, socket.SO_LINGER, RESET_AT_CLOSE)
    peer.close()


# -- rows: each gives what was due, and what was seen

def beside_a_reader(folder, occupy, end):
    """A peer occupies the mirror; a reader that comes then is served, and the peer's connection has this end."""
    mirror = Mirror(folder, 2)
    with contextlib.closing(mirror.connection(receives=4096)) as peer:
        stop = threading.Event()
        occupying = threading.Thread(target=occupy, args=(peer, stop))
        occupying.start()
        time.sleep(3)
        began = time.monotonic()
        answer = folder.ask(mirror.address)
        took = time.monotonic() - began
        stop.set()
        occupying.join()
    ended = mirror.end()
    due = ((0, b"version 5\nid\n1\n"), True, (0, [f"connection 1 {end}", "connection 2 closed", "served 2"]))
    return due, (answer, took < PATIENCE + SLACK, ended)


def say_nothing(peer, stop):
    stop.wait()


def drip(peer, stop):
    """A query's bytes, one at a time."""
    with contextlib.suppress(OSError):
        for byte in query_frame(LARGE_QUERY + " " * 5000):
            peer.send(bytes([byte]))
            if stop.wait(1):
                return


def take_nothing(peer, stop):
    """Asks for some 70 million bytes, and reads none."""
    with contextlib.suppress(OSError):
        peer.sendall(300 * query_frame(LARGE_QUERY))
    stop.wait()


def break_off(peer, stop):
    with contextlib.suppress(OSError):
        peer.sendall(query_frame(QUERY)[:7])
        time.sleep(1)
        reset(peer)
    stop.wait()


def many_that_close(folder):
    """Connections that close at once, some by a reset; the reader behind them is served."""
    mirror, count = Mirror(folder, 1001), 1000
    for number in range(count):
        peer = mirror.connection()
        reset(peer) if number % 3 == 0 else peer.close()
    answer = folder.ask(mirror.address)
    status, lines = mirror.end()
    ends = {line.split(" ", 2)[2] for line in lines[:-2]}
    due = ((0, b"version 5\nid\n1\n"), 0, True, ["connection 1001 closed", "served 1001"])
    return due, (answer, status, ends <= {"closed", "fault"}, lines[-2:])


def answer_before_a_bad_frame(folder):
    """The answer comes whole, though behind the question stand bytes that the mirror doesn't take."""
    mirror = Mirror(folder, 1)
    with contextlib.closing(mirror.connection()) as peer:
        peer.sendall(query_frame(QUERY) + frame(9, b"x" * 300_000))
        time.sleep(1)
        got = b""
        with contextlib.suppress(ConnectionError):
            while piece := peer.recv(65536):
                got += piece
    ended = mirror.end()
    whole = len(got) > 4 and len(got) == 4 + int.from_bytes(got[:4], "big")
    return (True, (0, ["connection 1 bad frame 300001", "served 1"])), (whole, ended)


def silent_mirror(folder, *words):
    """A command whose mirror takes its connection and says nothing."""
    with socket.create_server(("127.0.0.1", 0)) as listener:
        address = "127.0.0.1:%d" % listener.getsockname()[1]
        began = time.monotonic()
        ended = folder.run(*(address if word == "ADDR" else word for word in words), at="owner" if words[0] == "own" else ".")
        took = time.monotonic() - began
    return ((3, FAULT), True), (ended, took >= PATIENCE)


def tried(folder):
    os.mkdir(os.path.join(folder.path, "owner"))
    return {
        "a peer that says nothing": lambda: beside_a_reader(folder, say_nothing, "fault"),
        "a peer that sends a byte a second": lambda: beside_a_reader(folder, drip, "fault"),
        "a peer that takes nothing": lambda: beside_a_reader(folder, take_nothing, "fault"),
        "a reset in the midst": lambda: beside_a_reader(folder, break_off, "fault"),
        "connections that close at once": lambda: many_that_close(folder),
        "an answer before a bad frame": lambda: answer_before_a_bad_frame(folder),
        "ask, and a mirror that says nothing": lambda: silent_mirror(folder, "ask", "ADDR", "key", QUERY),
        "ask --at, and a mirror that says nothing": lambda: silent_mirror(folder, "ask", "ADDR", "key", QUERY, "--at", "2"),
        "own, and a mirror that says nothing": lambda: silent_mirror(folder, "own", workspace.SEED, "ADDR", "../empty"),
    }


def rows(program):
    """Of each row its name, what was due and what was seen; all run side by side."""
    seen = []

    def run(name, row):
        try:
            seen.append((name, *row()))
        except Exception as error:  # whatever it is, the row isn't passed over
            seen.append((name, "no error", error))

    with tempfile.TemporaryDirectory() as path:
        running = [threading.Thread(target=run, args=row) for row in tried(Folder(program, path)).items()]
        for thread in running:
            thread.start()
        for thread in running:
            thread.join()
    return seen
