"""Which of the features that came after the first ones count as built.

All of them, unless the variable VO_STAGE names those that do, with commas between: an unfinished
program is compared with `VO_STAGE=limit,nulls`, say, and with `VO_STAGE=` where it has none.
Words, texts, bytes and keys of a feature that isn't built are refused, as the program does that
has never heard of it.
"""

import os

FEATURES = {
    "versions": "answers of older versions: `--at` and its frame",
    "workload": "the command `gen`",
    "levels": "keys of two levels",
    "nulls": "NULL: columns that may have it, IS NULL, logic of three values",
    "indexes": "indexes on columns, and joins and ranges by them",
    "totals": "COUNT and SUM over ranges of the key",
    "evidence": "what `audit --seed` says of a forged record",
    "limit": "LIMIT",
}


def features_of(text):
    """The features that a text names."""
    names = frozenset(name for name in text.split(",") if name)
    unknown = sorted(names - set(FEATURES))
    if unknown:
        raise ValueError(f"VO_STAGE names no feature: {', '.join(unknown)}")
    return names


BUILT = features_of(os.environ.get("VO_STAGE", ",".join(FEATURES)))


def has(feature):
    """Whether that feature counts as built."""
    return feature in BUILT
