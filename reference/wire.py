"""Frames on a connection: the store's side, and what owners and readers ask."""

from .catalog import read_record
from .faults import BadForm, Failed, SqlFault, StoreFault, WireFault
from .formats import (
    BATCH_LIMIT, PROOFS_LIMIT, REPLY_LIMIT, SIGNATURE_LIMIT, batch_bytes, long_bytes, read_batch)
from .sql import QUERY_LIMIT, parse_query
from .stages import has

TURNS = 1 << 20
# Least and greatest length of a frame (kind and body), by kind.
REQUESTS = {0x01: (2, 1 + QUERY_LIMIT), 0x02: (1, 1), 0x03: (3, 1 + BATCH_LIMIT),
            0x04: (65, 65 + SIGNATURE_LIMIT), 0x05: (10, 9 + QUERY_LIMIT)}
ANSWERS = {0x81: (1, 1 + REPLY_LIMIT), 0x82: (2, 62), 0x83: (1, 1 + PROOFS_LIMIT),
           0x84: (9, 9), 0x8F: (2, 2)}


def frame(kind, body=b""):
    """A frame of a kind with this body."""
    return (1 + len(body)).to_bytes(4, "big") + bytes([kind]) + body


class _Reader:
    """Reads one frame from a link, counting its bytes."""

    def __init__(self, link):
        self.link, self.got = link, 0

    def take(self, count):
        out = bytearray()
        while len(out) < count:
            try:
                piece = self.link.get(count - len(out))
            except Failed:
                raise WireFault("LinkFault") from None
            if not piece:
                raise WireFault("Cut", got=self.got)
            out += piece
            self.got += len(piece)
        return bytes(out)


def read_frame(link, kinds):
    """(length, kind, body).  BadFrame{length}: the length is 0, the kind is
    not one of `kinds`, or can't have that length, which is refused before
    the body is read.  Cut{got}."""
    reader = _Reader(link)
    length = int.from_bytes(reader.take(4), "big")
    if length == 0:
        raise WireFault("BadFrame", length=0)
    kind = reader.take(1)[0]
    if kind == 0x05 and not has("versions"):
        raise WireFault("BadFrame", length=length)
    if kind not in kinds or not kinds[kind][0] <= length <= kinds[kind][1]:
        raise WireFault("BadFrame", length=length)
    if kind == 0x82 and length not in (2, 62):
        raise WireFault("BadFrame", length=length)
    return length, kind, reader.take(length - 1)


def put(link, data):
    """Puts bytes on a link, or LinkFault."""
    try:
        link.put(data)
    except Failed:
        raise WireFault("LinkFault") from None


# -- the store's side

def serve_link(store, link):
    """Serves one connection: ('closed',), ('bad frame', length), ('cut', got),
    ('fault',) or ('turns',)."""
    for _ in range(TURNS):
        try:
            length, kind, body = read_frame(link, REQUESTS)
            put(link, _answer(store, length, kind, body))
        except WireFault as fault:
            if fault.name == "Cut":
                return ("closed",) if fault.got == 0 else ("cut", fault.got)
            if fault.name == "BadFrame":
                return ("bad frame", fault.length)
            return ("fault",)
    return ("turns",)


def _answer(store, length, kind, body):
    """The answer's frame to one whole request, or BadFrame."""
    if kind == 0x02:
        rec = store.standing()
        return frame(0x82, b"\x00" if rec is None else b"\x01" + rec.bytes())
    if kind == 0x03:
        try:
            batch = read_batch(body)
        except BadForm:
            raise WireFault("BadFrame", length=length) from None
        return _propose(store, batch)
    if kind == 0x04:
        rec = read_record(body[:60])
        size = int.from_bytes(body[60:64], "big")
        if rec is None or size != len(body) - 64:
            raise WireFault("BadFrame", length=length)
        return _install(store, rec, body[64:])
    return _query(store, kind, body)


def _refusal(code):
    return frame(0x8F, bytes([code]))


def _query(store, kind, body):
    text = body[8:] if kind == 0x05 else body
    try:
        query = parse_query(text.decode("utf-8"))
    except (UnicodeDecodeError, SqlFault):
        return _refusal(1)
    try:
        if kind == 0x05:
            reply = store.answer_at(int.from_bytes(body[:8], "big"), query)
        else:
            reply = store.answer(query)
    except StoreFault as fault:
        return _refusal({"Empty": 2, "TooLarge": 3, "NoVersion": 7}[fault.name])
    return frame(0x81, reply)


def _propose(store, batch):
    try:
        proofs = store.propose(batch)
    except StoreFault as fault:
        if fault.name != "Command":
            return _refusal({"Empty": 2, "TooLarge": 3}[fault.name])
        proofs = fault.proofs
    return frame(0x83, proofs)


def _install(store, rec, signature):
    try:
        store.install(rec, signature)
    except StoreFault as fault:
        return _refusal({"NothingProposed": 4, "WrongRecord": 5, "BadSignature": 6}[fault.name])
    return frame(0x84, rec.version.to_bytes(8, "big"))


# -- the clients' calls

def _asked(link, request, kind, refusable=True):
    """Puts one frame and reads its answer's body; Refused{code}."""
    put(link, request)
    kinds = {kind: ANSWERS[kind]}
    if refusable:
        kinds[0x8F] = ANSWERS[0x8F]
    length, got, body = read_frame(link, kinds)
    if got == 0x8F:
        raise WireFault("Refused", code=body[0])
    return length, body


def ask_link(link, text):
    """The reply to a query's text."""
    return _asked(link, frame(0x01, text), 0x81)[1]


def ask_at_link(link, version, text):
    """The reply to a query's text by a version."""
    return _asked(link, frame(0x05, version.to_bytes(8, "big") + text), 0x81)[1]


def status_link(link):
    """The record of the standing, or None."""
    length, body = _asked(link, frame(0x02), 0x82, refusable=False)
    if body == b"\x00":
        return None
    rec = read_record(body[1:]) if body[:1] == b"\x01" else None
    if rec is None:
        raise WireFault("BadFrame", length=length)
    return rec


def propose_link(link, batch):
    """The proofs of a batch."""
    return _asked(link, frame(0x03, batch_bytes(batch)), 0x83)[1]


def install_frame(rec, signature):
    """The frame that installs a signed record."""
    return frame(0x04, rec.bytes() + long_bytes(signature))


def install_link(link, rec, signature):
    """The version that was installed."""
    body = _asked(link, install_frame(rec, signature), 0x84)[1]
    return int.from_bytes(body, "big")
