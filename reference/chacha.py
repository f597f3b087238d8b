"""The ChaCha block function and a generator of random words that is made of it."""

import struct

MASK = 0xFFFFFFFF


def _quarter(x, a, b, c, d):
    for p, q, r, turn in ((a, b, d, 16), (c, d, b, 12), (a, b, d, 8), (c, d, b, 7)):
        x[p] = (x[p] + x[q]) & MASK
        mixed = x[r] ^ x[p]
        x[r] = ((mixed << turn) | (mixed >> (32 - turn))) & MASK


def chacha_block(key, place, rounds):
    """A block of 16 words, of the key's 8 and the 4 of its place (RFC 8439: counter and nonce)."""
    start = [0x61707865, 0x3320646E, 0x79622D32, 0x6B206574, *key, *place]
    x = list(start)
    for _ in range(rounds // 2):
        for quad in ((0, 4, 8, 12), (1, 5, 9, 13), (2, 6, 10, 14), (3, 7, 11, 15),
                     (0, 5, 10, 15), (1, 6, 11, 12), (2, 7, 8, 13), (3, 4, 9, 14)):
            _quarter(x, *quad)
    return [(a + b) & MASK for a, b in zip(x, start)]


def chacha8_words(seed, count):
    """The first words of a ChaCha8 generator by its seed: a counter of 64 bits, and no nonce."""
    key, out, counter = struct.unpack("<8I", seed), [], 0
    while len(out) < count:
        out += chacha_block(key, (counter & MASK, counter >> 32, 0, 0), 8)
        counter += 1
    return out[:count]
