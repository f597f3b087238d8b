"""The system's files, output, connections and disk."""

import os
import socket

from .faults import TooLongFile
from .outside import Counted


class RealShelf(Counted):
    """The system's files."""

    def take(self, name, limit):
        """A file's bytes, at most so many."""
        try:
            with open(name, "rb") as file:
                data = file.read(limit + 1)
        except (OSError, ValueError):
            self.fail()
        if len(data) > limit:
            raise TooLongFile(name)
        return data


class RealSink(Counted):
    """A stream of the system."""

    def __init__(self, stream):
        super().__init__()
        self.stream = stream

    def put(self, piece):
        """Writes the bytes."""
        try:
            self.stream.write(piece)
            self.stream.flush()
        except OSError:
            self.fail()


class TcpNet(Counted):
    """TCP, addresses as HOST:PORT."""

    def __init__(self):
        super().__init__()
        self.server, self.socket = None, None

    @staticmethod
    def _address(addr):
        host, _, port = addr.rpartition(":")
        return host.strip("[]"), int(port)

    def connect(self, addr):
        """Makes a connection."""
        try:
            self.socket = socket.create_connection(self._address(addr))
        except (OSError, ValueError, OverflowError):
            self.fail()

    def listen(self, addr):
        """Listens."""
        try:
            self.server = socket.create_server(self._address(addr))
        except (OSError, ValueError, OverflowError):
            self.fail()

    def next(self):
        """Takes the next connection."""
        try:
            self.socket, _ = self.server.accept()
        except (OSError, AttributeError):
            self.fail()

    def close(self):
        """Ends the connection."""
        if self.socket is not None:
            self.socket.close()
            self.socket = None

    def get(self, most):
        """At most so many bytes of the connection."""
        try:
            return self.socket.recv(min(most, 1 << 16))
        except (OSError, AttributeError):
            self.fail()

    def put(self, piece):
        """Sends the bytes."""
        try:
            self.socket.sendall(piece)
        except (OSError, AttributeError):
            self.fail()


class FileDisk(Counted):
    """The file `owner.journal` in the working folder, opened at first call."""

    def __init__(self, path="owner.journal"):
        super().__init__()
        self.path, self.file = path, None

    def _open(self):
        if self.file is None:
            self.file = os.open(self.path, os.O_RDWR | os.O_CREAT, 0o644)
        return self.file

    def _guard(self, work):
        try:
            return work(self._open())
        except OSError:
            self.fail()

    def sync(self):
        """Puts down all that was written."""
        self._guard(os.fsync)

    def len(self):
        """How many bytes there are."""
        return self._guard(lambda f: os.fstat(f).st_size)

    def read(self, at, count):
        """Bytes from a place on."""
        data = b""
        while len(data) < count:
            piece = self._guard(lambda f: os.pread(f, count - len(data), at + len(data)))
            if not piece:
                self.fail()
            data += piece
        return data

    def write_at(self, at, piece):
        """Writes bytes at a place."""
        done = 0
        while done < len(piece):
            done += self._guard(lambda f: os.pwrite(f, piece[done:], at + done))
