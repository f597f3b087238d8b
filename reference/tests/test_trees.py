"""Trees that grow and shrink, their proofs, and what a collision does."""

import random
import unittest

from .. import hashing
from ..audit import audit, meet
from ..changes import Op, change_entry, do_op, is_update_proof, prune_update
from ..check import check_of
from ..formats import journal_bytes, read_reply, write_reply
from ..generators.worlds import SECRET, history
from ..overlaps import agree
from ..scans import Need, is_canonical, prune, scan
from ..sql import parse_query, parse_script
from ..tree import Entry, digest_of, empty_tree, entries_of, shape_fault
from ..values import EVERYTHING, Interval, int_value, key_of, text_value

QUERY = parse_query("SELECT name FROM t WHERE id = 1")


def random_changes(rng, count):
    """Changes of a tree with the keys 0 to 199."""
    for number in range(count):
        key = key_of(int_value(rng.randrange(200)))
        kind = "insert" if rng.random() < (0.7 if number < count / 2 else 0.3) else "remove"
        yield Op(kind, key, cells=(text_value(str(number)),))


class Trees(unittest.TestCase):
    """Whole trees under random changes."""

    def test_changes_keep_the_shape(self):
        """The tree holds what a dictionary holds, in order, in nodes of the right sizes."""
        rng, tree, held = random.Random(1), empty_tree(), {}
        for op in random_changes(rng, 1_500):
            there = op.key in held
            proof = prune_update(tree, op)
            self.assertTrue(is_update_proof(proof, op))
            self.assertEqual(digest_of(proof), digest_of(tree))
            if there == (op.name == "insert"):
                continue
            after = do_op(proof, op)
            tree = do_op(tree, op)
            self.assertEqual(digest_of(after), digest_of(tree))
            if there:
                del held[op.key]
            else:
                held[op.key] = op.cells
            self.assertIsNone(shape_fault(tree))
        self.assertEqual([(e.key, e.part) for e in entries_of(tree)], sorted(held.items()))

    def test_proofs_of_needs(self):
        """A proof has its need's entries, lacks nothing, has no surplus, and prunes the tree."""
        tree = empty_tree()
        for number in range(300):
            tree = do_op(tree, Op("insert", key_of(int_value(number)), cells=(int_value(number),)))
        for low, high in ((0, 0), (5, 40), (290, 400), (-9, -1)):
            bounds = [(key_of(int_value(number)), True) for number in (low, high)]
            need = Need(Interval(*bounds), [0])
            part = prune(tree, [need])
            self.assertTrue(is_canonical(part, [need]))
            self.assertIsNone(agree(part, tree))
            due = [number for number in range(300) if low <= number <= high]
            self.assertEqual([values[0][1] for _, values in scan(part, need)], due)
        self.assertFalse(is_canonical(tree, [Need(EVERYTHING, [])]))


class Collisions(unittest.TestCase):
    """With a digest of 6 bits another value of one digest is soon found."""

    def forged(self, store):
        """An accepted reply with another value, or None."""
        reply = read_reply(store.answer(QUERY))
        key = key_of(int_value(1))
        for number in range(2_000):
            cells = (text_value(f"other {number}"),)
            tree = change_entry(reply.trees[0], key, lambda entry, to=cells: Entry(entry.key, to))
            if digest_of(tree) == digest_of(reply.trees[0]):
                return write_reply(reply.rec, reply.signature, reply.catalog, [tree])
        return None

    def test_told_by_audits_and_meetings(self):
        """The wrong answer is accepted, and two strings of one digest show that it is wrong."""
        script = ("CREATE TABLE t (id BIGINT, name TEXT, PRIMARY KEY (id)); "
                  "INSERT INTO t VALUES (1, 'a'); COMMIT;")
        with hashing.weak(6):
            entries, store = history(parse_script(script))
            forged, journal = self.forged(store), journal_bytes(entries)
            answer = check_of(SECRET.public(), 0, QUERY, forged)
            self.assertNotEqual(answer.outcome[2], [[text_value("a")]])
            for found in (audit(SECRET.public(), journal, QUERY, forged),
                          meet(SECRET.public(), QUERY, store.answer(QUERY), forged)):
                self.assertEqual(found[0], "collides")
                self.assertNotEqual(found[1], found[2])
                self.assertEqual(hashing.digest(found[1]), hashing.digest(found[2]))


if __name__ == "__main__":
    unittest.main()
