"""LM-OTS one-time keys, signatures and candidates (RFC 8554, section 4), with n = 32.

Secret values are those of the RFC's appendix A.  The randomizer, which the RFC leaves to the
signer, is C = H(I, u32 q, fffd, ff, SEED).
"""

from . import hashing

# By its typecode, of each parameter set: w, p and ls.
OTS = {1: (1, 265, 7), 2: (2, 133, 6), 3: (4, 67, 4), 4: (8, 34, 0)}
PBLC, MESG = b"\x80\x80", b"\x81\x81"


def u32(number):
    """A number as 4 bytes."""
    return number.to_bytes(4, "big")


def coef(data, i, w):
    """Digit i of width w of a byte string."""
    shift = w * (i % (8 // w)) + w
    return ((1 << w) - 1) & (data[i * w // 8] >> (8 - shift))


def checksum(q_digest, ots):
    """Cksm: the sum of the complements of the digits, shifted left by ls."""
    w, _, ls = OTS[ots]
    total = sum((1 << w) - 1 - coef(q_digest, i, w) for i in range(8 * 32 // w))
    return (total << ls) & 0xFFFF


def digits(q_digest, ots):
    """The p digits of Q with its checksum."""
    w, p, _ = OTS[ots]
    whole = q_digest + checksum(q_digest, ots).to_bytes(2, "big")
    return [coef(whole, i, w) for i in range(p)]


def chain(ident, q, i, start_step, end_step, start):
    """The steps start_step to end_step - 1 of chain i."""
    hash_ = hashing.lms_hash()
    front = ident + u32(q) + i.to_bytes(2, "big")
    value = start
    for j in range(start_step, end_step):
        value = hash_(front + bytes([j]) + value)
    return value


def secret_start(ident, q, i, seed):
    """x[i] of Appendix A."""
    return hashing.lms_hash()(ident + u32(q) + i.to_bytes(2, "big") + b"\xff" + seed)


def end_of(ident, q, ends):
    """K: the public end from the p chain ends."""
    return hashing.lms_hash()(ident + u32(q) + PBLC + b"".join(ends))


def public_of(ident, q, ots, seed):
    """K of leaf q."""
    w, p, _ = OTS[ots]
    top = (1 << w) - 1
    return end_of(ident, q, [chain(ident, q, i, 0, top, secret_start(ident, q, i, seed))
                             for i in range(p)])


def randomizer(ident, q, seed):
    """C of this profile."""
    return hashing.lms_hash()(ident + u32(q) + b"\xff\xfd\xff" + seed)


def message_digest(ident, q, c, message):
    """Q."""
    return hashing.lms_hash()(ident + u32(q) + MESG + c + message)


def sign_ots(ident, q, ots, seed, message):
    """The LM-OTS signature: u32 type, C, y."""
    c = randomizer(ident, q, seed)
    steps = digits(message_digest(ident, q, c, message), ots)
    ys = [chain(ident, q, i, 0, a, secret_start(ident, q, i, seed))
          for i, a in enumerate(steps)]
    return u32(ots) + c + b"".join(ys)


def ots_length(ots):
    """How long a one-time signature is."""
    return 4 + 32 + 32 * OTS[ots][1]


def candidate(ident, q, ots, message, signature):
    """The candidate K, or None on a wrong length or type."""
    if len(signature) != ots_length(ots) or signature[:4] != u32(ots):
        return None
    c = signature[4:36]
    top = (1 << OTS[ots][0]) - 1
    ends = []
    for i, a in enumerate(digits(message_digest(ident, q, c, message), ots)):
        y = signature[36 + 32 * i:68 + 32 * i]
        ends.append(chain(ident, q, i, a, top, y))
    return end_of(ident, q, ends)
