"""`serve`, `ask` and `own` of a program over TCP, each against this implementation's other side.

    python3 -m reference.generators.loopback PROGRAM [WORD ..]
"""

import contextlib
import os
import random
import socket
import subprocess
import sys
import tempfile
import threading
import time

from ..cli import run
from ..formats import batch_bytes, journal_bytes, long_bytes
from ..outside import MemDisk, MemLink, MemNet, MemShelf, MemSink, PeerNet
from ..sql import parse_query, parse_script
from ..stages import has
from ..store import Store
from ..wire import frame, install_frame, serve_link
from .cases import long_world
from .folders import file_name, write_files
from .mutate import proof_variants
from .workload import Workload
from .worlds import SEED, SealedScript

LIMIT = 60      # seconds that a run may take
JOURNAL = "owner.journal"


class SocketLink:
    """A connection as a link."""

    def __init__(self, sock):
        self.sock = sock

    def get(self, most):
        """At most so many bytes."""
        return self.sock.recv(min(most, 65_536))

    def put(self, piece):
        """Sends all of them."""
        self.sock.sendall(piece)

    def frame(self):
        """Takes a frame: its bytes, or none where no whole one came."""
        came = self.get(4)
        left = int.from_bytes(came, "big")
        while left and (piece := self.get(left)):
            came += piece
            left -= len(piece)
        return b"" if left or len(came) < 4 else came

    def rest(self):
        """All that still comes."""
        got = b""
        with contextlib.suppress(OSError):
            while piece := self.get(65_536):
                got += piece
        return got


def free_port():
    """A port on which nobody listens."""
    with socket.socket() as probe:
        probe.bind(("127.0.0.1", 0))
        return probe.getsockname()[1]


def connected(port):
    """A connection to the port, once somebody listens there."""
    end = time.monotonic() + LIMIT
    while True:
        try:
            return socket.create_connection(("127.0.0.1", port), timeout=LIMIT)
        except ConnectionRefusedError:
            if time.monotonic() > end:
                raise
            time.sleep(0.05)


def asking(version, text):
    """The frame that asks for a version's answer."""
    return frame(5, version.to_bytes(8, "big") + text)


def installed_and_asked(world, first, text):
    """Requests by which a store takes the entries from the first one on, and gives answers of
    versions at both ends of what it keeps: before a batch is proposed, then, and once installed."""
    requests = []
    for version, entry in enumerate(world.entries[first:], first):
        ends = version - 64, version - 63, version - 1, version
        asked = [asking(at, text.encode()) for at in ends if at >= 0]
        proposed = [frame(3, batch_bytes(entry.batch))] * (version > 0)
        installed = install_frame(entry.rec, entry.signature)
        requests += [*asked, *proposed, *asked, installed, *asked]
    return b"".join(requests)


def is_cut(said):
    """Whether the bytes are less than a frame."""
    return len(said) < 4 or len(said) < 4 + int.from_bytes(said[:4], "big")


def listen_once(handle):
    """A port on which one connection is handled by a thread, and the thread."""
    server = socket.create_server(("127.0.0.1", 0))

    def work():
        sock, _ = server.accept()
        with server, sock, contextlib.suppress(OSError):
            handle(sock)
    thread = threading.Thread(target=work, daemon=True)
    thread.start()
    return server.getsockname()[1], thread


def end_listening(port, thread):
    """Ends a thread that listens, also where the program ended before it made a connection."""
    if thread.is_alive():
        with contextlib.suppress(OSError):
            socket.create_connection(("127.0.0.1", port)).close()
    thread.join(LIMIT)


class Loopback:
    """A program under test in a folder of its own.

    Its methods yield comparisons: a name, what is due, and what came.
    """

    def __init__(self, program, folder):
        self.program, self.folder = program, folder
        work = Workload(77, batches=5, commands=10, queries=6, nulls=True)
        self.world, self.queries = SealedScript(work.script), work.queries

    def comparisons(self):
        """All of them."""
        parts = [self.serve, self.ask, self.own, self.lies, self.journals]
        for part in parts + [self.versions] * has("versions"):
            yield from part()

    # -- the program

    def file(self, data):
        """The name of a file of these bytes."""
        write_files(self.folder, {file_name(data): data})
        return file_name(data)

    def start(self, words):
        """Starts the program."""
        return subprocess.Popen(self.program + words, cwd=self.folder,
                                stdout=subprocess.PIPE, stderr=subprocess.DEVNULL)

    def ended(self, words):
        """The status and the output of a run."""
        process = self.start(words)
        out, _ = process.communicate(timeout=LIMIT)
        return process.returncode, out

    # -- serve

    def streams(self):
        """Bytes that come to a store: requests, and such as are none."""
        query, record = frame(1, self.queries[0].encode()), self.world.entries[1].rec.bytes()
        at, text = (1).to_bytes(8, "big"), self.queries[0].encode()
        return [b"", b"\0", b"\0\0\0\0", frame(2), query, query + query, frame(2)[:3],
                frame(1, b"SELECT"), frame(1, b"\xff"), frame(7), frame(0x81), frame(3, b"\0\0"),
                frame(3, b"\0\1"), frame(4, record + long_bytes(b"x")), frame(4, bytes(64)),
                frame(5, at + text), frame(5, bytes([255] * 8) + text), frame(5, at + b"SELECT"),
                frame(5, bytes(7) + b"c\xff"), frame(5), frame(5, at[1:]), frame(5, at),
                frame(5, at + text.ljust(65_536)), frame(5, at + text.ljust(65_537)),
                frame(5, at + text)[:-1], frame(5, at + text)[:9], frame(5, at + text) + query,
                frame(2) + b"\0\0", (1 << 31).to_bytes(4, "big") + b"\1",
                (2).to_bytes(4, "big") + b"\2x"]

    def serve(self):
        """`serve`, one connection after the other."""
        yield from self.served(self.world, len(self.world.entries), self.streams())

    def versions(self):
        """`serve` of a store that keeps the newest of its versions, as more are installed, and
        of an empty one."""
        world, texts = long_world(7, **({"levels": 2} if has("levels") else {"height": 10}))
        all_asked = b"".join(asking(version, texts[0].encode()) for version in range(70))
        yield from self.served(world, 67, [all_asked, installed_and_asked(world, 67, texts[1])])
        text = self.queries[0]
        streams = [asking(0, text.encode()), installed_and_asked(self.world, 0, text)]
        yield from self.served(self.world, 0, streams)

    def served(self, world, count, streams):
        """What `serve` says to these bytes, so many entries in its journal."""
        port, lines, entries = free_port(), [], world.entries[:count]
        store = Store.load(world.public, entries)
        process = self.start(["serve", f"127.0.0.1:{port}", self.file(world.public_bytes),
                              self.file(journal_bytes(entries)), str(len(streams))])
        for number, stream in enumerate(streams, 1):
            link = MemLink(stream)
            end = " ".join(map(str, serve_link(store, link)))
            lines.append(f"connection {number} {end}\n")
            yield f"serve {stream[:20].hex()}", bytes(link.sent), self.exchanged(port, stream)
        lines.append(f"served {len(lines)}\n")
        out, _ = process.communicate(timeout=LIMIT)
        yield "serve lines", (0, "".join(lines)), (process.returncode, out.decode())

    @staticmethod
    def exchanged(port, stream):
        """What comes back for these bytes."""
        with connected(port) as sock:
            with contextlib.suppress(OSError):
                sock.sendall(stream)
                sock.shutdown(socket.SHUT_WR)
            return SocketLink(sock).rest()

    # -- ask

    def ask(self):
        """`ask`, of stores that answer rightly and wrongly."""
        reply = self.world.reply(self.queries[0])
        second = self.world.store.answer_at(2, parse_query(self.queries[0]))
        newest = str(self.world.store.version())
        answers = [frame(0x81, reply), frame(0x81, second), frame(0x81, reply[:-1]),
                   frame(0x8F, b"\2"), frame(0x8F, b"\7"), frame(0x8F, b"\xee"), b"", b"\0\0",
                   b"\0\0\0\0", frame(0x82, b"\0"),
                   frame(0x81, reply)[:-1], frame(0x81), frame(0x8F, b"\1\1"),
                   frame(0x81, reply) + b"more"]
        for answer in answers:
            for options in ([], ["--least", "99"], ["--at", "2"], ["--at", "2", "--least", "3"],
                            ["--at", newest], ["--at", "0"]):
                due, got = self.asked(answer, options)
                yield f"ask {answer[:8].hex()} {options}", due, got

    def asked(self, answer, options):
        """How an `ask` ends and what it sends, in memory and over TCP."""
        came = []

        def handle(sock):
            came.append(SocketLink(sock).frame())
            if came[0]:
                sock.sendall(answer)
                sock.shutdown(socket.SHUT_WR)
                SocketLink(sock).rest()
        port, thread = listen_once(handle)
        key = self.file(self.world.public_bytes)
        words = ["ask", f"127.0.0.1:{port}", key, self.queries[0]] + options
        sink, files, net = MemSink(), MemShelf({key: self.world.public_bytes}), MemNet([answer])
        status = run(["vo_cli"] + words, files, MemDisk(), net, sink)
        got = self.ended(words)
        end_listening(port, thread)
        return (status, bytes(sink.written), b"".join(net.sent)), (*got, b"".join(came))

    # -- own

    def own(self):
        """`own`, to a store that has what it has, and to one that lost all."""
        parts = self.world.script.decode().split("COMMIT ;")[:-1]
        scripts = ["".join(part + "COMMIT ;" for part in some) for some in (parts[:3], parts[3:])]
        version = 0
        for script in scripts:
            store = Store(self.world.public)
            port, thread = listen_once(lambda sock, to=store: serve_link(to, SocketLink(sock)))
            words = ["own", self.file(SEED), f"127.0.0.1:{port}", self.file(script.encode())]
            status, out = self.ended(words)
            end_listening(port, thread)
            before, version = version, version + len(parse_script(script))
            lines = "".join(f"version {v}\n" for v in range(before + 1, version + 1))
            yield "own lines", (0, lines), (status, out.decode())
            due = journal_bytes(self.world.entries[:version + 1])
            yield "own journal", due, self.journal()
            yield "own store", version, store.version()

    def journal(self):
        """The owner's journal."""
        with open(os.path.join(self.folder, JOURNAL), "rb") as file:
            return file.read()

    def honest_answers(self):
        """What a store that has nothing answers to the owner of the whole script."""
        answers = [frame(0x82, b"\0")]
        for version, entry in enumerate(self.world.entries):
            answers += [frame(0x83, entry.proofs)] if version else []
            answers.append(frame(0x84, version.to_bytes(8, "big")))
        return answers

    def lies(self):
        """`own`, of stores that lie in one answer."""
        honest, rng = self.honest_answers(), random.Random(5)
        installed, proofs = honest[1::2], [frame(0x83)] + honest[2::2]
        standing = frame(0x82, b"\1" + self.world.entries[2].rec.bytes())
        lies = [(0, standing), (0, frame(0x8F, b"\2")), (0, b""), (0, frame(0x82, b"\2")),
                (1, installed[1]), (1, frame(0x8F, b"\5")), (3, frame(0x8F, b"\6")),
                (3, installed[0]), (2, frame(0x8F, b"\3")), (4, frame(0x83)),
                (4, frame(0x83, b"VOU1\0\0")), (5, b""), (5, frame(0x84, b"\0")), (4, proofs[1]),
                (6, frame(0x81, b"")), (4, proofs[2][:-1])]
        for place in (4, 6, 8):
            variants = rng.sample(list(proof_variants(honest[place][5:], rng, 60)), 8)
            lies += [(place, frame(0x83, other)) for _, other in variants]
        for place, lie in lies:
            answers = honest[:place] + [lie] + honest[place + 1:]
            due, got = self.owned(self.world.script, answers, b"")
            yield f"own lie {place} {lie[:9].hex()}", due, got

    def journals(self):
        """`own`, behind journals of some length, whole and damaged."""
        whole, installed = self.world.journal, self.honest_answers()[1::2]
        changed = whole[:9] + b"x" + whole[10:]
        for journal in (b"", b"\0", b"\1", b"\1\0", whole[:-1], whole, changed,
                        journal_bytes(self.world.entries[:2])):
            answers = [frame(0x82, b"\0")] + installed
            due, got = self.owned(b"DROP TABLE nope; COMMIT;", answers, journal)
            yield f"own journal of {len(journal)}", due, got

    def owned(self, script, answers, journal):
        """How an `own` ends whose store says these answers, in memory and over TCP."""
        def answerer():
            left = list(answers)
            return lambda request: left.pop(0) if left else b""

        def handle(sock, answer=answerer()):
            sock.settimeout(LIMIT)
            link = SocketLink(sock)
            while link.frame() and (said := answer(b"")):
                link.put(said)
                if is_cut(said):        # nothing more comes behind it
                    sock.shutdown(socket.SHUT_WR)
                    link.rest()
        write_files(self.folder, {JOURNAL: journal})
        port, thread = listen_once(handle)
        words = ["own", self.file(SEED), f"127.0.0.1:{port}", self.file(script)]
        disk, sink = MemDisk(journal), MemSink()
        files = MemShelf({words[1]: SEED, words[3]: script})
        status = run(["vo_cli"] + words, files, disk, PeerNet(answerer()), sink)
        got = self.ended(words)
        end_listening(port, thread)
        return (status, bytes(sink.written), bytes(disk.data)), (*got, self.journal())


def main(words):
    """Prints what differs; the status is 1 where something does."""
    count = differ = 0
    with tempfile.TemporaryDirectory() as folder:
        for name, due, got in Loopback(words[1:], folder).comparisons():
            count += 1
            if due != got:
                differ += 1
                print(f"{name}\n  due {str(due)[:300]}\n  got {str(got)[:300]}")
    print(f"{count} comparisons, {differ} differ")
    return 1 if differ else 0


if __name__ == "__main__":
    sys.exit(main(sys.argv))
