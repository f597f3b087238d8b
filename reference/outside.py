"""Files, output, connections and a disk in memory, with calls that are to fail."""

from .faults import Failed, TooLongFile

TOP = (1 << 64) - 1


class Counted:
    """A count of faults that never falls and stands still at its end."""

    def __init__(self, failing=()):
        self.count, self.misses, self.calls = 0, 0, 0
        self.failing = set(failing)          # numbers of calls, from 1

    def fail(self, miss=False):
        """Counts a fault, and fails."""
        self.count = min(self.count + 1, TOP)
        if miss:
            self.misses = min(self.misses + 1, TOP)
        raise Failed()

    def call(self):
        """Counts a call, which may be one that is to fail."""
        self.calls += 1
        if self.calls in self.failing:
            self.fail()


class MemShelf(Counted):
    """Files by their names."""

    def __init__(self, files=None, failing=()):
        super().__init__(failing)
        self.files = dict(files or {})

    def take(self, name, limit):
        """A file's bytes, at most so many."""
        self.call()
        if name not in self.files:
            self.fail(miss=True)
        if len(self.files[name]) > limit:
            raise TooLongFile(name)
        return bytes(self.files[name])


class MemSink(Counted):
    """Output that is kept; a call that fails keeps so many bytes."""

    def __init__(self, failing=(), keep=0):
        super().__init__(failing)
        self.written, self.keep = bytearray(), keep

    def put(self, piece):
        """Writes the bytes."""
        self.calls += 1
        if self.calls in self.failing:
            self.written += piece[:self.keep]
            self.fail()
        self.written += piece


class MemLink(Counted):
    """Bytes to come, handed out in pieces of at most `piece`, and bytes put."""

    def __init__(self, incoming=b"", piece=None, failing=()):
        super().__init__(failing)
        self.incoming, self.at, self.piece = bytes(incoming), 0, piece
        self.sent = bytearray()

    def get(self, most):
        """At most so many bytes."""
        self.call()
        if self.piece:
            most = min(most, self.piece)
        data = self.incoming[self.at:self.at + most]
        self.at += len(data)
        return data

    def put(self, piece):
        """Keeps the bytes."""
        self.call()
        self.sent += piece


class MemNet(Counted):
    """A list of connections to come, each by its bytes to come."""

    def __init__(self, connections=(), piece=None, failing=()):
        super().__init__(failing)
        self.to_come = [bytes(c) for c in connections]
        self.piece, self.link, self.sent = piece, None, []

    def connect(self, addr):
        """Makes the next connection."""
        self.call()
        self._open()

    def listen(self, addr):
        """Listens."""
        self.call()

    def next(self):
        """Takes the next connection."""
        self.call()
        self._open()

    def _open(self):
        if not self.to_come:
            self.fail(miss=True)
        self.link = MemLink(self.to_come.pop(0), self.piece)
        self.sent.append(self.link.sent)

    def close(self):
        """Ends the connection."""
        self.link = None

    def get(self, most):
        """At most so many bytes of the connection."""
        self.call()
        if self.link is None:
            self.fail(miss=True)
        return self.link.get(most)

    def put(self, piece):
        """Puts bytes on the connection."""
        self.call()
        if self.link is None:
            self.fail(miss=True)
        self.link.put(piece)


class PeerNet(Counted):
    """A connection whose bytes to come are made, frame by frame, by a function
    of each frame that was put."""

    def __init__(self, answer, failing=(), piece=None):
        super().__init__(failing)
        self.answer, self.piece, self.sent = answer, piece, bytearray()
        self.waiting, self.incoming, self.open = bytearray(), bytearray(), False

    def connect(self, addr):
        """Makes the connection."""
        self.call()
        self.open = True

    def close(self):
        """Ends the connection."""
        self.open = False

    def get(self, most):
        """At most so many bytes of what was answered."""
        self.call()
        most = min(most, self.piece or most)
        data = bytes(self.incoming[:most])
        del self.incoming[:most]
        return data

    def put(self, piece):
        """Keeps the bytes, and has each whole frame answered."""
        self.call()
        self.sent += piece
        self.waiting += piece
        while len(self.waiting) >= 4:
            size = int.from_bytes(self.waiting[:4], "big")
            if len(self.waiting) < 4 + size:
                return
            frame = bytes(self.waiting[:4 + size])
            del self.waiting[:4 + size]
            self.incoming += self.answer(frame)


class MemDisk(Counted):
    """Contents, device calls by number (open's `sync` is call 1 of an empty
    run), and the images that a crash may leave.  A write that failed counts
    as written: `torn` says how many of its bytes got there."""

    def __init__(self, data=b"", failing=(), torn=0):
        super().__init__(failing)
        self.data = bytearray(data)
        self.synced = bytes(data)            # what a crash keeps for sure
        self.dirty = []                      # (at, end) since the last sync
        self.torn = torn
        self.moments = []                    # (synced, dirty) as it stood, in order
        self._moment()

    def _moment(self):
        self.moments.append((self.synced, tuple(self.dirty)))

    def now(self):
        """The number of the moment that stands now."""
        return len(self.moments) - 1

    def sync(self):
        """Puts down all that was written."""
        self.call()
        self.synced, self.dirty = bytes(self.data), []
        self._moment()

    def len(self):
        """How many bytes there are."""
        self.call()
        return len(self.data)

    def read(self, at, count):
        """Bytes from a place on."""
        self.call()
        return bytes(self.data[at:at + count])

    def write_at(self, at, piece):
        """Writes bytes at a place."""
        self.calls += 1
        self.dirty.append((at, at + len(piece)))
        self._moment()
        if self.calls in self.failing:
            self._write(at, piece[:self.torn])
            self.fail()
        self._write(at, piece)

    def _write(self, at, piece):
        if len(self.data) < at:
            self.data += bytes(at - len(self.data))
        self.data[at:at + len(piece)] = piece

    def is_image(self, data, since=0):
        """Whether a crash at some moment since then may have left these bytes."""
        return any(_may_leave(moment, data) for moment in self.moments[since:])

    def images(self, fillers=(0x00, 0x01, 0xFF, "new", "old", "first half")):
        """Samples of what a crash now may leave: the synced bytes, with each written range and the
        part past the old end holding anything, ending from the old end to the furthest write."""
        old = len(self.synced)
        furthest = max([old] + [end for _, end in self.dirty])
        ends = {old, furthest, (old + furthest) // 2,
                min(furthest, old + 1), max(old, furthest - 1)}
        return [self._image(end, filler) for end in sorted(ends) for filler in fillers]

    def _image(self, end, filler):
        image = bytearray(self.synced[:end].ljust(end, b"\xaa"))
        for at, stop in self.dirty + [(len(self.synced), end)]:
            for place in range(at, min(stop, end)):
                image[place] = self._lost(filler, place, at, stop)
        return bytes(image)

    def _lost(self, filler, place, at, stop):
        """The byte at a place of a written range from `at` to `stop`."""
        new = self.data[place] if place < len(self.data) else 0x5A
        old = self.synced[place] if place < len(self.synced) else 0x5A
        if filler in ("new", "old"):
            return new if filler == "new" else old
        if filler == "first half":
            return new if place < (at + stop) // 2 else old
        return filler


def _may_leave(moment, data):
    """Whether a crash may leave these bytes: an image ends at the old end, or past it up to
    the furthest written place; written ranges and the part past the old end
    may hold any bytes, other bytes stay."""
    synced, dirty = moment
    furthest = max([len(synced)] + [end for _, end in dirty])
    if not len(synced) <= len(data) <= furthest:
        return False
    return _blanked(data[:len(synced)], dirty) == _blanked(synced, dirty)


def _blanked(data, ranges):
    """The bytes with zeros in these ranges."""
    blanked = bytearray(data)
    for at, end in ranges:
        blanked[at:end] = bytes(max(0, min(end, len(data)) - at))
    return blanked
