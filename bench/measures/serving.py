"""A store that serves a journal on loopback."""
import contextlib
import socket
import subprocess
import time

from measures.program import PROGRAM

def free_address():
    with socket.socket() as listener:
        listener.bind(("127.0.0.1", 0))
        return "127.0.0.1:%d" % listener.getsockname()[1]


def is_served(address):
    """Whether somebody serves there by now: it takes a connection."""
    host, port = address.split(":")
    with contextlib.suppress(ConnectionRefusedError), socket.create_connection((host, int(port))):
        return True
    return False


@contextlib.contextmanager
def serving(journal, count, before=()):
    """A store of this journal, and so many connections; it has an address, once it serves."""
    address = free_address()
    words = [*before, PROGRAM, "serve", address, "key", journal, str(count + 1)]
    store = subprocess.Popen(words, stdout=subprocess.DEVNULL, stderr=subprocess.DEVNULL)
    try:
        while not is_served(address):
            assert store.poll() is None, "nobody serves"
            time.sleep(0.01)
        yield address
        store.wait()
    finally:
        store.kill()


def frame(kind, body=b""):
    return (len(body) + 1).to_bytes(4, "big") + bytes([kind]) + body


def exchanged(address, requests):
    """The answers to these frames over one connection, each sent once the answer before it has come."""
    host, port = address.split(":")
    with socket.create_connection((host, int(port))) as peer, peer.makefile("rb") as answers:
        for request in requests:
            peer.sendall(request)
            yield answers.read(int.from_bytes(answers.read(4), "big"))


def asked_at_once(address, queries):
    """Asks a store these queries over one connection, each once the answer before it has come."""
    for _ in exchanged(address, (frame(1, query.encode()) for query in queries)):
        pass
