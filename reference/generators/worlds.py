"""Scripts sealed under throwaway keys, with what their owner, store and readers have."""

from ..histories import History, history_of
from ..lms import SecretKey
from ..sql import parse_query, parse_script

SEED = bytes(range(48))
OTHER_SEED = bytes(range(100, 148))
SECRET = SecretKey(bytes(range(16)), bytes(range(32)))


def history(batches, secret=SECRET):
    """The entries and the store of the accepted ones of these batches."""
    made = history_of(batches, secret)
    return made.entries, made.store


class SealedScript(History):
    """A script that `seal` accepts, with the key's bytes and options, and the journal's bytes."""

    def __init__(self, script, seed=SEED, height=5, levels=1):
        super().__init__(SecretKey(seed[:16], seed[16:], 4, height, levels))
        self.public = self.secret.public()
        self.public_bytes = self.public.bytes()
        self.options = (["--height", str(height)] if height != 5 else []) + (
            ["--levels", str(levels)] if levels != 1 else [])
        for batch in parse_script(script):
            self.commit(batch)
        self.script, self.journal = script.encode(), self.journal_bytes()

    def reply(self, text):
        """The store's reply to a query, by the newest version."""
        return self.store.answer(parse_query(text))
