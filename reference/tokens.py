"""Tokens of SQL texts, and their faults."""

from .faults import SqlFault

RESERVED = set("""select from where as inner join on and or not true false create
table primary key drop insert into values update set delete commit bigint text
boolean null is index count sum limit""".split())
SYMBOLS = ["<>", "!=", "<=", ">=", "(", ")", ",", ";", ".", "*", "=", "<", ">"]
LETTERS = b"abcdefghijklmnopqrstuvwxyzABCDEFGHIJKLMNOPQRSTUVWXYZ_"
DIGITS = b"0123456789"


class Token:
    """kind is 'word' (a keyword), 'name', 'integer', 'string' or 'symbol'."""
    __slots__ = ("kind", "value", "at", "end")

    def __init__(self, kind, value, at, end):
        self.kind, self.value, self.at, self.end = kind, value, at, end


def tokens_of(data):
    """All tokens of a text, or the first token fault."""
    out, at, size = [], 0, len(data)
    while at < size:
        byte = data[at]
        if byte in b" \t\r\n":
            at += 1
            continue
        token = _token(data, at)
        out.append(token)
        at = token.end
    return out


def _token(data, at):
    byte = data[at]
    if byte in LETTERS:
        return _word(data, at)
    if byte in DIGITS or (byte == ord("-") and data[at + 1:at + 2] in _digit_set):
        return _integer(data, at)
    if byte == ord("'"):
        return _string(data, at)
    for symbol in SYMBOLS:
        if data.startswith(symbol.encode(), at):
            value = "<>" if symbol == "!=" else symbol
            return Token("symbol", value, at, at + len(symbol))
    raise SqlFault("Token", at=at)


_digit_set = {bytes([d]) for d in DIGITS}


def _word(data, at):
    end = at
    while end < len(data) and (data[end] in LETTERS or data[end] in DIGITS):
        end += 1
    text = data[at:end].decode("ascii").lower()
    if text in RESERVED:
        return Token("word", text, at, end)
    if len(text) > 63:
        raise SqlFault("Name")
    return Token("name", text, at, end)


def _integer(data, at):
    end = at + 1
    while end < len(data) and data[end] in DIGITS:
        end += 1
    text = data[at:end]
    negative = text[:1] == b"-"
    body = (text[1:] if negative else text).lstrip(b"0") or b"0"
    if len(body) > 19:
        raise SqlFault("Literal", at=at)
    number = -int(body) if negative else int(body)
    if not -(1 << 63) <= number < 1 << 63:
        raise SqlFault("Literal", at=at)
    return Token("integer", number, at, end)


def _string(data, at):
    content, place = bytearray(), at + 1
    while True:
        quote = data.find(b"'", place)
        if quote < 0:
            raise SqlFault("Token", at=at)
        content += data[place:quote]
        if data[quote + 1:quote + 2] != b"'":
            break
        content += b"'"
        place = quote + 2
    if len(content) > 1024 or any(b < 0x20 for b in content):
        raise SqlFault("Literal", at=at)
    return Token("string", bytes(content), at, quote + 1)
