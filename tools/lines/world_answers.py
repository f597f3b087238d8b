"""Lines of crates/world_lines, each with the answer due by the independent implementation."""
import functools

from lines import forms
from lines.format_answers import Calls, number, owner_fault_form
from reference.faults import BadForm, SqlFault
from reference.formats import read_batch
from reference.hashing import sha256
from reference.sql import parse_query
from reference.world import World

NO_LINE = "no such line"

# parsed once of the same text
query_of = functools.lru_cache(maxsize=256)(parse_query)


# -- answers

def said_form(word, *about):
    """What is said of an event."""
    shown = {"Denied": owner_fault_form, "Refused": forms.check_fault, "Accepted": forms.answer}.get(word, str)
    return forms.form(word, *map(shown, about)) if about else word


def schedule_text(said):
    """What is said of all events."""
    return ", ".join([f"{len(said)} events", *said])


def bytes_text(data):
    """How long the bytes are, and their digest."""
    return f"{len(data)} bytes {forms.octets(sha256(data))}"


def journal_text(world):
    return bytes_text(bytes(world.disk.data))


def records_text(world):
    return " ".join([str(len(world.released)), *(rec.bytes().hex() for rec in world.released)])


def replies_text(world):
    shown = (forms.form("accepted", str(client), str(version), forms.query(query), forms.octets(sha256(data)))
             for client, query, data, version in world.accepted)
    return " ".join([str(len(world.accepted)), *shown])


# what a world shows by the word that asks for it
SHOWN = {"clients": lambda world: str(len(world.clients)), "entries": lambda world: str(len(world.journal.entries())),
         "journal": journal_text, "released": records_text, "accepted": replies_text}


# -- the calls by their words

class Worlds:
    """The bytes kept and the key made last, the world, and what was said of what has happened there."""

    def __init__(self):
        self.made, self.world, self.said = Calls(), None, []
        self.keep, self.make, self.make_hss = self.made.keep, self.made.make, self.made.make_hss

    @property
    def kept(self):
        return self.made.kept

    def __getattr__(self, word):
        """What the world shows by this word."""
        if word not in SHOWN:
            raise AttributeError(word)
        return lambda *strings: SHOWN[word](self.world) if self.world and not strings else NO_LINE

    def new(self, *strings):
        if len(strings) != 1 or not self.made.made:
            return NO_LINE
        self.world, self.said = World(self.made.made, number(strings[0])), []
        return journal_text(self.world)

    def commit(self, *strings):
        return self.happen("commit", strings)

    def crash(self, *strings):
        return self.happen("crash", strings)

    def receive(self, *strings):
        return self.happen("receive", strings)

    def schedule(self, *strings):
        """All that happened once more: it is the same."""
        return schedule_text(self.said) if self.world and not strings else NO_LINE

    def happen(self, word, strings):
        """What is said of what happens, if anything can."""
        happening = self.world and happening_of(self.world, word, strings)
        if not happening:
            return NO_LINE
        self.said.append(said_form(*happening()))
        return self.said[-1]


def happening_of(world, word, strings):
    """What the byte strings of a line have happen, or None."""
    try:
        if word == "commit":
            batch, proofs = strings
            return functools.partial(world.commit, read_batch(batch), proofs)
        if word == "crash":
            lost, data = strings
            left = max(0, len(world.disk.data) - number(lost))
            return functools.partial(world.crash, bytes(world.disk.data[:left]) + data)
        client, query, data = strings
        happening = functools.partial(world.receive, number(client), query_of(query.decode()), data)
        return happening if number(client) < len(world.clients) else None
    except (BadForm, SqlFault, UnicodeDecodeError, ValueError):
        return None
