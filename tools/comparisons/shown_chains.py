"""Whether a printed chain gives a forger away: by SHA-256 and the bytes of keys and signatures alone.

Nothing here is taken from the implementations that are compared: RFC 8554 says where the parts stand, and what is hashed.
"""
import hashlib

# of each one-time typecode: the bits of a digit, the chains, and by how many bits the checksum is shifted
SETS = {1: (1, 265, 7), 2: (2, 133, 6), 3: (4, 67, 4), 4: (8, 34, 0)}
HEIGHTS = {5: 5, 6: 10}


def sha256(*pieces):
    return hashlib.sha256(b"".join(pieces)).digest()


def number(data):
    return int.from_bytes(data, "big")


class TreeSignature:
    """A signature of a message by one tree, under the 56 bytes of its key."""

    def __init__(self, key, message, signature):
        self.ident, self.root, self.height = key[8:24], key[24:56], HEIGHTS[number(key[:4])]
        self.width, count, self.shift = SETS[number(key[4:8])]
        self.top = (1 << self.width) - 1
        self.leaf, random, behind = signature[:4], signature[8:40], signature[40 + 32 * count + 4:]
        self.values = [signature[40 + 32 * i:72 + 32 * i] for i in range(count)]
        self.path = [behind[32 * level:32 * level + 32] for level in range(self.height)]
        self.steps = self.digits(sha256(self.ident, self.leaf, b"\x81\x81", random, message))[:count]

    def digits(self, digest):
        """The digits of a digest, and of its checksum."""
        total = sum(self.top - digit for digit in self.split(digest))
        return self.split(digest + (total << self.shift & 0xFFFF).to_bytes(2, "big"))

    def split(self, data):
        return [byte >> shift & self.top for byte in data for shift in range(8 - self.width, -1, -self.width)]

    def walked(self, i, start, end, value):
        """What a value of chain i before one step is before a later one."""
        for step in range(start, end):
            value = sha256(self.ident, self.leaf, i.to_bytes(2, "big"), bytes([step]), value)
        return value

    def leads_to_root(self, i, end):
        """Whether the root comes out where this is the end of chain i, and the other ends are those of this signature."""
        ends = [self.walked(other, *pair) for other, pair in enumerate(zip(self.steps, [self.top] * len(self.steps), self.values))]
        ends[i] = end
        r = (1 << self.height) + number(self.leaf)
        key = sha256(self.ident, self.leaf, b"\x80\x80", *ends)
        node = sha256(self.ident, r.to_bytes(4, "big"), b"\x82\x82", key)
        for sibling in self.path:
            pair = (sibling, node) if r % 2 else (node, sibling)
            r //= 2
            node = sha256(self.ident, r.to_bytes(4, "big"), b"\x83\x83", *pair)
        return node == self.root


def parts_of(signature):
    """The upper tree's signature, the lower tree's key and its signature, of a signature of two levels."""
    lower = len(signature) // 2 + 30
    return signature[4:lower - 56], signature[lower - 56:lower], signature[lower:]


def forged_tree(public, signed, own_signed):
    """The level at which a signature isn't the owner's, with its tree's signature there and the owner's; each is of a message."""
    (message, signature), (own_message, own_signature) = signed, own_signed
    if len(public) == 56:
        return 0, TreeSignature(public, message, signature), TreeSignature(public, own_message, own_signature)
    (upper, key, lower), (own_upper, own_key, own_lower) = parts_of(signature), parts_of(own_signature)
    if key == own_key:
        return 1, TreeSignature(key, message, lower), TreeSignature(key, own_message, own_lower)
    return 0, TreeSignature(public[4:], key, upper), TreeSignature(public[4:], own_key, own_upper)


def gives_away(answer, public, signed, own_signed, is_released):
    """Whether an answer shows a value of a chain that its owner has not released, and the first such one of this signature.

    Of both signatures the message stands before it. The owner's is by the same leaf; where none by that leaf was released, it
    says which is the owner's lower key, and the chain has to lead to the public key.
    """
    word, *places, shown = answer.strip("()").split(" ")
    level, forged, own = forged_tree(public, signed, own_signed)
    if word != "chain" or places[:2] != [str(level), str(number(forged.leaf))] or forged.leaf != own.leaf:
        return False
    i, step, value = int(places[2]), int(places[3]), bytes.fromhex(shown.removeprefix("0x"))
    known = own.steps if is_released else [forged.top] * len(forged.steps)
    lower = [place for place, pair in enumerate(zip(forged.steps, known)) if pair[0] < pair[1]]
    if lower[:1] != [i] or (step, value) != (forged.steps[i], forged.values[i]):
        return False
    end = forged.walked(i, step, known[i], value)
    return end == own.values[i] if is_released else forged.leads_to_root(i, end)
