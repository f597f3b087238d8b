"""The owner's journal on a disk that may fail."""

from .faults import EntriesFault, Failed, JournalFault
from .formats import entry_bytes, long_bytes, walk_journal


class Journal:
    """The entries that are put down, and where the next one goes."""

    def __init__(self, entries, gate):
        self._entries, self.gate, self.broken = list(entries), gate, False

    def entries(self):
        """The entries."""
        return self._entries

    @staticmethod
    def open(disk):
        """Sync; read the length; where it is 0 or 1, write `00` at 0 and sync,
        else read it whole.  Disk, Damaged{index, at}."""
        try:
            disk.sync()
            length = disk.len()
            if length <= 1:
                disk.write_at(0, b"\x00")
                disk.sync()
                return Journal([], 0)
            data = disk.read(0, length)
        except Failed:
            raise JournalFault("Disk") from None
        try:
            return Journal(*walk_journal(data))
        except EntriesFault as fault:
            raise JournalFault("Damaged", index=fault.index, at=fault.at) from None

    def append(self, disk, entry):
        """Write the length, the entry and a `00` past the closed gate; sync;
        write `01` at the gate; sync.  After Disk it answers Disk."""
        if self.broken:
            raise JournalFault("Disk")
        body = long_bytes(entry_bytes(entry))
        try:
            disk.write_at(self.gate + 1, body + b"\x00")
            disk.sync()
            disk.write_at(self.gate, b"\x01")
            disk.sync()
        except Failed:
            self.broken = True
            raise JournalFault("Disk") from None
        self._entries.append(entry)
        self.gate += 1 + len(body)
