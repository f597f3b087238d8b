"""An owner's journal, a store, and what stands between the two and keeps what the owner sends; for tools/stops."""
import contextlib
import socket
import subprocess
import threading
import time

from comparisons import workspace
from reference.generators.loopback import connected, free_port

PROGRAM = workspace.program("vo_cli")
JOURNAL = "owner.journal"
LIMIT = 60  # seconds that `own` may take
INSTALL = 4
RECORD_AT, RECORD_END = 5, 65  # of an installation, behind its length and its kind


def run(*words, program=(PROGRAM,)):
    """What a program writes, and its status."""
    ran = subprocess.run([*program, *words], stdout=subprocess.PIPE, check=False)
    return ran.stdout, ran.returncode


def read(name):
    with open(name, "rb") as file:
        return file.read()


def write(name, data):
    with open(name, "wb") as file:
        file.write(data)


def number_at(data, at, size):
    return int.from_bytes(data[at:at + size], "big")


# -- the store, and what stands before it

class Store:
    """The program's `serve`, begun with this journal."""

    def __init__(self, journal):
        write("store.journal", journal)
        self.port = free_port()
        words = [PROGRAM, "serve", f"127.0.0.1:{self.port}", "key", "store.journal", "1000000"]
        self.process = subprocess.Popen(words, stdout=subprocess.DEVNULL, stderr=subprocess.DEVNULL)

    def end(self):
        self.process.kill()
        self.process.wait()


class Watch:
    """Hands on what owner and store say to each other, one connection after the other, and keeps what the owner sends."""

    def __init__(self, store):
        self.store = store
        self.sent = []  # of each connection, all that the owner sent
        self.due, self.reached = 0, threading.Event()
        self.faults = []
        self.listener = socket.create_server(("127.0.0.1", 0))
        self.address = "127.0.0.1:%d" % self.listener.getsockname()[1]
        threading.Thread(target=self.serve, daemon=True).start()

    def tell_at(self, count):
        """`reached` is set once so many bytes came on the next connection."""
        self.due = count
        self.reached.clear()

    def wait(self, process):
        """Waits until so many bytes came or the process ended."""
        end = time.monotonic() + LIMIT
        while self.due and process.poll() is None and not self.reached.wait(0.001):
            if time.monotonic() > end:
                raise TimeoutError("own stands still")

    def serve(self):
        while True:
            owner, _ = self.listener.accept()
            self.sent.append(bytearray())
            with owner, connected(self.store.port) as store:
                answers = threading.Thread(target=self.hand_on, args=(store, owner, lambda piece: None))
                answers.start()
                self.hand_on(owner, store, self.look_at)
                answers.join()

    @staticmethod
    def hand_on(source, target, look_at):
        """Hands on all that comes, and then that nothing more does; whoever was killed may end it any way."""
        with contextlib.suppress(OSError):
            while piece := source.recv(4096):
                look_at(piece)
                target.sendall(piece)
        with contextlib.suppress(OSError):
            target.shutdown(socket.SHUT_WR)

    def look_at(self, piece):
        sent = self.sent[-1]
        sent += piece
        if len(sent) >= self.due:
            self.reached.set()
        kept = entries_of(read(JOURNAL))
        self.faults += [f"version {version} was sent before the journal had it"
                        for version, _ in installations(sent) if version >= len(kept)]


def frames_of(sent):
    """The whole frames of what was sent."""
    at = 0
    while at + 4 <= len(sent) and at + 4 + number_at(sent, at, 4) <= len(sent):
        end = at + 4 + number_at(sent, at, 4)
        yield bytes(sent[at:end])
        at = end


def installations(sent):
    """The versions that were sent to be installed, each with its frame."""
    for frame in frames_of(sent):
        if frame[4] == INSTALL:
            yield number_at(frame[RECORD_AT:RECORD_END], 20, 8), frame


# -- journals

def entries_of(journal):
    """The entries of a journal, up to its closed gate."""
    entries, at = [], 0
    while journal[at:at + 1] == b"\1":
        end = at + 5 + number_at(journal, at + 1, 4)
        entries.append(journal[at:end])
        at = end
    return entries


def installation_of(slot):
    """The frame that installs a journal's entry: what stands there behind the proofs."""
    at = 13 + number_at(slot, 9, 4)
    body = slot[at + 4 + number_at(slot, at, 4):]
    return (len(body) + 1).to_bytes(4, "big") + bytes([INSTALL]) + body


def lines_of(before, committed):
    """The lines for the batches behind so many."""
    return b"".join(b"version %d\n" % version for version in range(before + 1, committed + 1))
