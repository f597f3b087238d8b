"""Lines of crates/check_lines, each with the answer due by the independent implementation.

A reply that is near the one before is spelled as that one with other bytes in it; of bytes that stand many times, one.
"""
import itertools
import os
import re

from lines import forms
from reference.check import check_of
from reference.faults import CheckFault
from reference.held import held_behind
from reference.sql import parse_query

LONG_RUN = re.compile(rb"\0{32,}|k{32,}|x{32,}")
NO_LINE = "no such line"


# -- the answers of clients

def client_answer(key, least, query, data):
    """What a client answers who takes no version below this one, and the least version that it takes then."""
    try:
        answer = check_of(key, least, query, data)
    except CheckFault as fault:
        return f"{forms.check_fault(fault)} least {least}"
    return f"{forms.answer(answer)} least {answer.version}"


# -- bytes as lines spell them

def spelled(data):
    pieces, at = [], 0
    for run in LONG_RUN.finditer(data):
        pieces += [data[at:run.start()].hex(), f"{run[0][:1].hex()}*{len(run[0])}"]
        at = run.end()
    return " ".join(piece for piece in [*pieces, data[at:].hex()] if piece)


def line(word, *things):
    """A line of numbers, sizes and bytes."""
    return " ".join([word, *(spelled(thing) if isinstance(thing, bytes) else str(thing) for thing in things)]).rstrip(" ")


def difference(data, other):
    """Where bytes of the other stand in the place of so many of the data."""
    at = len(os.path.commonprefix([data, other]))
    behind = len(os.path.commonprefix([data[at:][::-1], other[at:][::-1]]))
    return at, len(data) - at - behind, other[at:len(other) - behind]


class Reader:
    """The key, the query and the reply that lines have had."""

    def __init__(self):
        self.public = self.query = None
        self.kept = self.data = b""

    # the lines

    def key(self, public):
        self.public = public
        return line("key", public.bytes()), public.ident.hex()

    def ask(self, text):
        self.query = parse_query(text)
        return line("query", text.encode()), forms.query(self.query)

    def reply(self, data):
        self.kept = self.data = data
        return line("reply", data), f"{len(data)} bytes"

    def splice(self, other):
        """A reply by the kept one."""
        self.data = other
        return line("splice", *difference(self.kept, other)), f"{len(other)} bytes"

    def check(self, sizes, least=0):
        return line("check", least, sizes), client_answer(self.public, least, self.query, self.data)

    def fronts(self, sizes, least=0):
        answers = [client_answer(self.public, least, self.query, self.data[:length]) for length in range(len(self.data))]
        first = client_answer(self.public, least, self.query, b"")
        count = next((at for at, answer in enumerate(answers) if answer != first), len(answers))
        then = "".join(f", then {other}" for other in answers[count:count + 1])
        return line("fronts", least, sizes), f"{count} * {first}{then}"

    def held(self, sizes):
        """How many bytes are held before the first piece, and behind each."""
        ends, given = [0], itertools.cycle(int(size) for size in sizes.split("+"))
        while ends[-1] < len(self.data):
            ends.append(min(len(self.data), ends[-1] + next(given)))
        return line("held", sizes), " ".join(str(count) for count in held_behind(self.query, self.data, ends))

    def file(self, size, path, least=0):
        """A check of the reply's bytes where the file has them."""
        return line("file", least, size, path), client_answer(self.public, least, self.query, self.data)

    # several

    def checks(self, *all_sizes, least=0):
        for sizes in all_sizes:
            yield self.check(sizes, least)

    def hostile(self, other, *all_sizes, least=0):
        """The checks of a reply near the kept one."""
        yield self.splice(other)
        yield from self.checks(*all_sizes, least=least)
