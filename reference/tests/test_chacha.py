"""The generator's stream cipher, by published vectors."""

import struct
import unittest

from ..chacha import chacha8_words, chacha_block


def serialized(words):
    """The bytes of a block."""
    return struct.pack("<16I", *words).hex()


class ChaCha(unittest.TestCase):
    """Blocks of 20 rounds and of 8."""

    def test_block_of_rfc_8439(self):
        """Section 2.3.2."""
        key = struct.unpack("<8I", bytes(range(32)))
        nonce = struct.unpack("<3I", bytes.fromhex("000000090000004a00000000"))
        self.assertEqual(
            serialized(chacha_block(key, (1, *nonce), 20)),
            "10f1e7e4d13b5915500fdd1fa32071c4c7d1f4c733c068030422aa9ac3d46c4e"
            "d2826446079faa0914c2d705d98b02a2b5129cd1de164eb9cbd083e8a2503c4e")

    def test_eight_rounds(self):
        """The first block of no key (draft-strombergson-chacha-test-vectors-01, TC1)."""
        self.assertEqual(
            serialized(chacha8_words(bytes(32), 16)),
            "3e00ef2f895f40d67f5bb8e81f09a5a12c840ec3ce9a7f3b181be188ef711a1e"
            "984ce172b9216f419f445367456d5619314a42a3da86b001387bfdb80e0cfe42")

    def test_second_block_counts_on(self):
        """The words go on with the block of counter 1."""
        words = chacha8_words(bytes(range(32)), 40)
        key = struct.unpack("<8I", bytes(range(32)))
        self.assertEqual(words[16:32], chacha_block(key, (1, 0, 0, 0), 8))
        self.assertEqual(len(words), 40)


if __name__ == "__main__":
    unittest.main()
