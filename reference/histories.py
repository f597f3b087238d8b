"""An owner and a store that follow the same batches, and the journal that comes of it."""

from .faults import OwnerFault, StoreFault
from .formats import journal_bytes
from .owner import Owner
from .store import Store


class History:
    """An owner and a store under one key, from version 0 on, and the entries of their journal."""

    def __init__(self, secret):
        self.secret = secret
        self.owner, first = Owner.start(secret)
        self.store = Store(secret.public())
        self.store.install(first.rec, first.signature)
        self.entries = [first]

    def commit(self, batch):
        """Goes on by a version; what refuses the batch leaves all as it is."""
        if self.owner.is_spent():
            raise OwnerFault("KeySpent")
        step = self.owner.step(batch, self.store.propose(batch))
        self.store.install(step.entry.rec, step.entry.signature)
        self.owner.advance(step)
        self.entries.append(step.entry)

    def journal_bytes(self):
        """The bytes of the journal."""
        return journal_bytes(self.entries)


def history_of(batches, secret):
    """The history of those of the batches that are accepted, as far as the key goes."""
    history = History(secret)
    for batch in batches:
        try:
            history.commit(batch)
        except (OwnerFault, StoreFault):
            continue
    return history
