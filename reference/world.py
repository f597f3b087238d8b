"""An owner, a disk that crashes, and readers, under any list of events."""

from .check import Client
from .faults import CheckFault, OwnerFault
from .journal import Journal
from .outside import MemDisk
from .owner import Owner, replay


class World:
    """One owner with its journal on a disk that never fails, and clients."""

    def __init__(self, key, clients):
        self.key, self.disk = key, MemDisk()
        self.journal = Journal.open(self.disk)
        self.owner, first = Owner.start(key)
        self.journal.append(self.disk, first)
        self.clients = [Client(key.public()) for _ in range(clients)]
        self.accepted, self.released = [], []
        self.since = self.disk.now()         # a moment since the event before began

    def release(self):
        """Takes all records of the journal for released."""
        for entry in self.journal.entries():
            if entry.rec not in self.released:
                self.released.append(entry.rec)

    def commit(self, batch, proofs):
        """('Committed', version) or ('Denied', OwnerFault)."""
        self.release()
        self.since = self.disk.now()
        try:
            step = self.owner.step(batch, proofs)
        except OwnerFault as fault:
            return ("Denied", fault)
        self.journal.append(self.disk, step.entry)
        self.owner.advance(step)
        return ("Committed", step.roots.version)

    def crash(self, image):
        """('Reopened', number of entries), or ('NoImage',) where no crash at
        a moment since the event before began may have left the image: then
        nothing has happened, and this was no event."""
        if not self.disk.is_image(bytes(image), self.since):
            return ("NoImage",)
        self.disk = MemDisk(image)
        self.since = 0
        self.journal = Journal.open(self.disk)
        self.owner = replay(self.key, self.journal.entries())
        return ("Reopened", len(self.journal.entries()))

    def receive(self, client, query, data):
        """('Accepted', Answer) or ('Refused', CheckFault)."""
        self.release()
        self.since = self.disk.now()
        try:
            answer = self.clients[client].check(query, data)
        except CheckFault as fault:
            return ("Refused", fault)
        self.accepted.append((client, query, data, answer.version))
        return ("Accepted", answer)
