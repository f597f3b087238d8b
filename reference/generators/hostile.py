"""Hostile replies to the queries of a random world, with what `check` says of each.

    python3 -m reference.generators.hostile SEED COUNT

COUNT is how many queries there are. One line for each reply: the status, then the refusal or the
number of lines, what was done to the honest reply, and the bytes in hexadecimal.
"""

import random
import sys

from ..sql import parse_query
from .cuts import cut_variants
from .mutate import opened_variants, reply_variants, verdicts
from .odd_trees import odd_replies
from .workload import Workload
from .worlds import SECRET, history


def main(words):
    """Prints them."""
    seed, count = int(words[1]), int(words[2])
    rng = random.Random(seed)
    work = Workload(seed, queries=count)
    _, store = history(work.batches)
    for text in work.queries:
        query = parse_query(text)
        data = store.answer(query)
        variants = list(reply_variants(data, rng, 40))
        variants += list(opened_variants(data, store.kept[-1], query))
        variants += list(odd_replies(SECRET, data, query, rng, 10))
        variants += list(cut_variants(SECRET, data, store.kept[-1], query))
        print("#", text)
        for name, raw, status, lines in verdicts(SECRET.public(), 0, query, variants):
            print(status, lines[-1] if status else len(lines), "|", name, "|", raw.hex())


if __name__ == "__main__":
    main(sys.argv)
