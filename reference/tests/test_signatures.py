"""Keys and signatures, by RFC 8554, appendix F, test case 2, whose seeds are published."""

import unittest

from .. import lm_ots, lms

# The upper tree has height 10 and w = 4, the lower one height 5 and w = 8.
UPPER = (bytes.fromhex("d08fabd4a2091ff0a8cb4ed834e74534"),
         bytes.fromhex("558b8966c48ae9cb898b423c83443aae014a72f1b1ab5cc85cf1d892903b5439"), 3, 10)
LOWER = (bytes.fromhex("215f83b7ccb9acbcd08db97b0d04dc2b"),
         bytes.fromhex("a1c4696e2608035a886100d05cd99945eb3370731884a8235e2fb3d4d71f2547"), 4, 5)
UPPER_KEY = ("0000000600000003d08fabd4a2091ff0a8cb4ed834e74534"
             "32a58885cd9ba0431235466bff9651c6c92124404d45fa53cf161c28f1ad5a8e")
LOWER_KEY = ("0000000500000004215f83b7ccb9acbcd08db97b0d04dc2b"
             "a1cd035833e0e90059603f26e07ad2aad152338e7a5e5984bcd5f7bb4eba40b7")
UPPER_C = bytes.fromhex("3d46bee8660f8f215d3f96408a7a64cf1c4da02b63a55f62c666ef5707a914ce")
LOWER_C = bytes.fromhex("0eb1ed54a2460d512388cad533138d240534e97b1e82d33bd927d201dfc24ebb")
MESSAGE = (b"The enumeration in the Constitution, of certain rights, shall not be construed to "
           b"deny or disparage others retained by the people.\n")
# The first values of the two signatures, and the first digests of their paths.
UPPER_Y = ["0674e8cb7a55f0c48d484f31f3aa4af9719a74f22cf823b94431d01c926e2a76",
           "bb71226d279700ec81c9e95fb11a0d10d065279a5796e265ae17737c44eb8c59",
           "4508e126a9a7870bf4360820bdeb9a01d9693779e416828e75bddd7d8c70d50a",
           "0ac8ba39810909d445f44cb5bb58de737e60cb4345302786ef2c6b14af212ca1"]
LOWER_Y = ["11b3649023696f85150b189e50c00e98850ac343a77b3638319c347d7310269d",
           "3b7714fa406b8c35b021d54d4fdada7b9ce5d4ba5b06719e72aaf58c5aae7aca"]
LOWER_PATH = "4de1f6965bdabc676c5a4dc7c35f97f82cb0e31c68d04f1dad96314ff09e6b3d"


def one_time_values(tree, leaf, randomizer, message):
    """The values that a one-time signature with this randomizer shows."""
    ident, seed, ots, _ = tree
    steps = lm_ots.digits(lm_ots.message_digest(ident, leaf, randomizer, message), ots)
    return [lm_ots.chain(ident, leaf, i, 0, step, lm_ots.secret_start(ident, leaf, i, seed)).hex()
            for i, step in enumerate(steps)]


def with_randomizer(tree, leaf, randomizer, message):
    """The signature of the test case: its randomizer is published, its path is the tree's."""
    made, (_, _, ots, _) = lms.tree_of(*tree), tree
    own = made.sign(leaf, message)
    length = lm_ots.ots_length(ots)
    values = bytes.fromhex("".join(one_time_values(tree, leaf, randomizer, message)))
    return own[:8] + randomizer + values + own[4 + length:]


class TestCaseTwo(unittest.TestCase):
    """RFC 8554, appendix F, test case 2."""

    def test_keys_of_the_seeds(self):
        """The published seeds make the published public keys."""
        self.assertEqual(lms.tree_of(*UPPER).public().bytes().hex(), UPPER_KEY)
        self.assertEqual(lms.tree_of(*LOWER).public().bytes().hex(), LOWER_KEY)

    def test_values_of_the_signatures(self):
        """Leaf 3 of the upper tree signs the lower key, and leaf 4 of the lower one the message."""
        lower_key = bytes.fromhex(LOWER_KEY)
        self.assertEqual(one_time_values(UPPER, 3, UPPER_C, lower_key)[:4], UPPER_Y)
        self.assertEqual(one_time_values(LOWER, 4, LOWER_C, MESSAGE)[:2], LOWER_Y)

    def test_signatures_are_valid(self):
        """Both signatures are valid under the published keys, and no others near them."""
        lower_key = bytes.fromhex(LOWER_KEY)
        for tree, key, leaf, c, message in ((UPPER, UPPER_KEY, 3, UPPER_C, lower_key),
                                            (LOWER, LOWER_KEY, 4, LOWER_C, MESSAGE)):
            public = lms.PublicKey.read(bytes.fromhex(key))
            signature = with_randomizer(tree, leaf, c, message)
            self.assertTrue(lms.verify(public, message, signature))
            self.assertEqual(lms.leaf_number(public, signature), leaf)
            self.assertFalse(lms.verify(public, message + b" ", signature))
            for at in (3, 7, 8, 40, len(signature) - 1):
                turned = signature[:at] + bytes([signature[at] ^ 1]) + signature[at + 1:]
                self.assertFalse(lms.verify(public, message, turned))

    def test_path(self):
        """The path of the lower signature begins with the published digest."""
        signature = with_randomizer(LOWER, 4, LOWER_C, MESSAGE)
        at = 8 + lm_ots.ots_length(4)
        self.assertEqual(signature[at:at + 32].hex(), LOWER_PATH)


class TwoLevels(unittest.TestCase):
    """Keys of two levels, which sign 1,024 versions."""

    def test_signatures(self):
        """Each version has its leaf, and its signature is valid."""
        secret = lms.SecretKey.make_hss(bytes(16), bytes(range(32)), 1, 5)
        public = secret.public()
        self.assertEqual((len(public.bytes()), public.leaves()), (60, 1024))
        for version in (0, 31, 32, 1023):
            signature = secret.sign(version, b"message")
            self.assertTrue(lms.verify(public, b"message", signature))
            self.assertEqual(lms.leaf_number(public, signature), version)
            self.assertFalse(lms.verify(public, b"massage", signature))
        with self.assertRaises(lms.SignFault):
            secret.sign(1024, b"message")


if __name__ == "__main__":
    unittest.main()
