"""Named faults: one exception class, told apart by the variant's name."""


class Fault(Exception):
    """A refusal: its name and its fields."""

    def __init__(self, name, **fields):
        super().__init__(name, fields)
        self.name = name
        self.fields = fields

    def __getattr__(self, item):
        try:
            return self.__dict__["fields"][item]
        except KeyError:
            raise AttributeError(item) from None

    def __eq__(self, other):
        return (type(self) is type(other) and self.name == other.name
                and self.fields == other.fields)

    def __hash__(self):
        return hash(self.name)

    def __repr__(self):
        inner = ", ".join(f"{k}={v!r}" for k, v in self.fields.items())
        return f"{type(self).__name__}:{self.name}({inner})"

    __str__ = __repr__


class FormFault(Fault):
    """Of value bytes and key bytes: Short, Tag, Length, NotUtf8, Control."""


class KeyFault(Fault):
    """Of a public key's bytes: Length, UnknownSet."""


class SignFault(Fault):
    """Of a secret key that signs: Leaf."""


class CommandFault(Fault):
    """Why a command is refused."""


class BatchFault(Fault):
    """Command{index, fault}: the first refused command of a batch."""


class SqlFault(Fault):
    """Of a text: TooLong, Token, Syntax, Literal, Nesting, Name, TooMany."""


class BadForm(Fault):
    """Bytes that are no word of their grammar."""

    def __init__(self, why=""):
        super().__init__("BadForm")
        self.why = why


class Missing(Fault):
    """A scan or an update meets what a part tree does not show."""

    def __init__(self):
        super().__init__("Missing")


class UpdateFault(Fault):
    """DuplicateKey or NoRow of the work on a tree."""


class CheckFault(Fault):
    """Why a reader refuses a reply."""


class StoreFault(Fault):
    """Why a store has no answer, or takes no batch and no record."""


class OwnerFault(Fault):
    """Why an owner takes no step."""


class EntriesFault(Fault):
    """Damaged{index, at}; `entries` are those before it."""

    def __init__(self, index, at, entries):
        super().__init__("Damaged", index=index, at=at)
        self.entries = entries


class EntryFault(Fault):
    """Entry{index}: the first entry that a store doesn't take, or that an owner did not write."""


class JournalFault(Fault):
    """Of an owner's journal: Disk, Damaged."""


class AuditFault(Fault):
    """Of an audit: BadJournal{index}, Refused(fault)."""


class MeetFault(Fault):
    """Of two replies: First(fault), Second(fault)."""


class WireFault(Fault):
    """Of a connection: BadFrame{length}, Cut{got}, LinkFault, Refused{code}."""


class Failed(Exception):
    """A call of the outside failed; its count rose."""


class TooLongFile(Exception):
    """A file's contents pass the limit."""
