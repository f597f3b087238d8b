"""Values, kinds, keys, names and intervals.

A value is a pair (type byte, content): (1, int), (2, bytes), (3, 0 or 1),
(0, None) for NULL, and (9, int) for a total, which has no value bytes.
So two values are equal exactly where their pairs are.
"""

from collections import namedtuple

from .faults import BadForm, FormFault
from .stages import has

NULL_TAG, INT, TEXT, BOOL, WIDE = 0, 1, 2, 3, 9
NULL = (NULL_TAG, None)
KIND_NAMES = {INT: "BIGINT", TEXT: "TEXT", BOOL: "BOOLEAN"}
LEAST, GREATEST = -(1 << 63), (1 << 63) - 1
TEXT_LIMIT, KEY_LIMIT = 1024, 255


def int_value(number):
    """A BIGINT."""
    return (INT, number)


def text_value(text):
    """A TEXT of a text, or of its bytes."""
    return (TEXT, text.encode("utf-8") if isinstance(text, str) else bytes(text))


def bool_value(flag):
    """A BOOLEAN."""
    return (BOOL, 1 if flag else 0)


def wide_value(number):
    """A total."""
    return (WIDE, number)


class Cursor:
    """A place in a byte string; `take` refuses with BadForm at its end."""

    def __init__(self, data, at=0):
        self.data, self.at = data, at

    def left(self):
        """How many bytes are left."""
        return len(self.data) - self.at

    def take(self, count):
        """The next bytes."""
        if self.left() < count:
            raise BadForm("ends too soon")
        piece = self.data[self.at:self.at + count]
        self.at += count
        return bytes(piece)

    def number(self, width):
        """The next bytes as a number."""
        return int.from_bytes(self.take(width), "big")

    def end(self):
        """BadForm where bytes are left."""
        if self.left():
            raise BadForm("bytes left over")


def value_bytes(value):
    """put_value: the one spelling of a value; Wide has none."""
    tag, content = value
    if tag == NULL_TAG:
        return b"\x00"
    if tag == INT:
        return b"\x01" + content.to_bytes(8, "big", signed=True)
    if tag == TEXT:
        return b"\x02" + len(content).to_bytes(2, "big") + content
    if tag == BOOL:
        return b"\x03" + bytes([content])
    raise ValueError("a Wide value has no value bytes")


def _text_fault(content):
    """The tests 4 and 5 of FormFault on a text's bytes."""
    try:
        content.decode("utf-8")
    except UnicodeDecodeError:
        return "NotUtf8"
    if any(byte < 0x20 for byte in content):
        return "Control"
    return None


def take_value(cursor):
    """The value at the cursor, or the first FormFault: Short, Tag, Length,
    NotUtf8, Control.  A refusal leaves the cursor where it was."""
    data, at = cursor.data, cursor.at
    left = len(data) - at
    if left < 1:
        raise FormFault("Short")
    tag = data[at]
    if tag == NULL_TAG and has("nulls"):
        cursor.at += 1
        return NULL
    if tag == INT:
        if left < 9:
            raise FormFault("Short")
        cursor.at += 9
        return (INT, int.from_bytes(data[at + 1:at + 9], "big", signed=True))
    if tag == TEXT:
        if left < 3:
            raise FormFault("Short")
        length = int.from_bytes(data[at + 1:at + 3], "big")
        if left < 3 + length:
            raise FormFault("Short")
        if length > TEXT_LIMIT:
            raise FormFault("Length")
        content = bytes(data[at + 3:at + 3 + length])
        fault = _text_fault(content)
        if fault:
            raise FormFault(fault)
        cursor.at += 3 + length
        return (TEXT, content)
    if tag == BOOL:
        if left < 2:
            raise FormFault("Short")
        if data[at + 1] > 1:
            raise FormFault("Tag")
        cursor.at += 2
        return (BOOL, data[at + 1])
    raise FormFault("Tag")


def read_value(cursor):
    """A value inside a larger format: any FormFault makes it BadForm."""
    try:
        return take_value(cursor)
    except FormFault as fault:
        raise BadForm(fault.name) from None


def key_of(value):
    """Key bytes of a BIGINT or TEXT value."""
    tag, content = value
    if tag == INT:
        return (content + (1 << 63)).to_bytes(8, "big")
    if tag == TEXT:
        return content
    raise ValueError("no key bytes of this kind")


def value_of_key(kind, key):
    """The value whose key bytes these are, or Tag, Length, NotUtf8, Control."""
    if kind == BOOL:
        raise FormFault("Tag")
    if kind == INT:
        if len(key) != 8:
            raise FormFault("Length")
        return (INT, int.from_bytes(key, "big") - (1 << 63))
    if len(key) > KEY_LIMIT:
        raise FormFault("Length")
    fault = _text_fault(key)
    if fault:
        raise FormFault(fault)
    return (TEXT, bytes(key))


def index_key(value, row_key):
    """An index key: key bytes of the value, `00`, key bytes of the row's key."""
    return key_of(value) + b"\x00" + row_key


def split_index_key(kind, key_kind, key):
    """The value and the row's key bytes of an index key, or a FormFault."""
    if kind == INT:
        cut = 8
    else:
        cut = key.find(b"\x00")
    if cut < 0 or len(key) <= cut or key[cut] != 0:
        raise FormFault("Length")
    value = value_of_key(kind, key[:cut])
    row_key = key[cut + 1:]
    value_of_key(key_kind, row_key)
    return value, row_key


def is_name(name):
    """1 to 63 bytes of a to z, 0 to 9, _, not beginning with a digit."""
    return (1 <= len(name) <= 63
            and all(c in "abcdefghijklmnopqrstuvwxyz0123456789_" for c in name)
            and not name[0].isdigit())


def read_name(cursor):
    """u8 length and the bytes of a name."""
    raw = cursor.take(cursor.number(1))
    try:
        name = raw.decode("ascii")
    except UnicodeDecodeError:
        raise BadForm("name") from None
    if not is_name(name):
        raise BadForm("name")
    return name


def name_bytes(name):
    """A name behind its length."""
    return bytes([len(name)]) + name.encode("ascii")


# An interval has two bounds; a bound is None or (key bytes, inclusive).
Interval = namedtuple("Interval", "low high")
EVERYTHING = Interval(None, None)


def meet_low(a, b):
    """The higher of two lower bounds; at equal keys the exclusive counts."""
    if a is None or b is None:
        return a or b
    if a[0] != b[0]:
        return max(a, b)
    return (a[0], a[1] and b[1])


def meet_high(a, b):
    """The lower of two upper bounds; at equal keys the exclusive counts."""
    if a is None or b is None:
        return a or b
    if a[0] != b[0]:
        return min(a, b)
    return (a[0], a[1] and b[1])


def is_empty(interval):
    """The lower bound above the upper, or equal and one exclusive."""
    low, high = interval
    if low is None or high is None:
        return False
    if low[0] != high[0]:
        return low[0] > high[0]
    return not (low[1] and high[1])


def holds(interval, key):
    """Whether a key lies in the interval."""
    low, high = interval
    if low is not None and not (key > low[0] or (low[1] and key == low[0])):
        return False
    if high is not None and not (key < high[0] or (high[1] and key == high[0])):
        return False
    return True


def point(key):
    """The interval of one key."""
    return Interval((key, True), (key, True))


def literal(value):
    """A value as `check` prints it."""
    tag, content = value
    if tag == NULL_TAG:
        return "NULL"
    if tag in (INT, WIDE):
        return str(content)
    if tag == TEXT:
        return "'" + content.decode("utf-8").replace("'", "''") + "'"
    return "TRUE" if content else "FALSE"
