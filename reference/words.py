"""The words of a command line."""

from .stages import has

KEY_OPTIONS = ("height", "levels")
# Command: positional words, options.
COMMANDS = {
    "keygen": (("SEED",), KEY_OPTIONS),
    "seal": (("SEED", "SQLFILE"), KEY_OPTIONS),
    "own": (("SEED", "ADDR", "SQLFILE"), KEY_OPTIONS),
    "serve": (("ADDR", "PUB", "JOURNAL", "COUNT"), ()),
    "ask": (("ADDR", "PUB", "QUERY"), ("least", "at")),
    "answer": (("PUB", "JOURNAL", "QUERY"), ("at",)),
    "check": (("PUB", "QUERY", "REPLY"), ("least",)),
    "audit": (("PUB", "JOURNAL", "QUERY", "REPLY"), ("seed",) + KEY_OPTIONS),
    "meet": (("PUB", "QUERY", "FIRST", "SECOND"), ()),
    "gen": (("N", "NUMBER"), ()),
}
# The feature that a command or an option came with.
CAME_WITH = {"gen": "workload", "at": "versions", "levels": "levels", "seed": "evidence"}
U64 = (1 << 64) - 1
NUMBERS = {"COUNT": (1, 4_294_967_295), "N": (1, 100_000), "NUMBER": (0, U64),
           "least": (0, U64), "at": (0, U64), "height": (5, 10), "levels": (1, 2)}


class Stop(Exception):
    """The end of the work with a status and lines."""

    def __init__(self, status, *lines):
        super().__init__(status, lines)
        self.status, self.lines = status, lines


REFUSED_WORDS = (2, "refused: words")


def number_of(word, low, high):
    """Decimal digits without a sign or a leading zero, in the range."""
    if not word.isascii() or not word.isdigit() or (len(word) > 1 and word[0] == "0"):
        raise Stop(*REFUSED_WORDS)
    if len(word) > 20 or not low <= int(word) <= high:
        raise Stop(*REFUSED_WORDS)
    return int(word)


def parse_words(words):
    """(command, words by name) as `clap` reads a command of one level."""
    if len(words) < 2 or words[1] not in COMMANDS:
        raise Stop(*REFUSED_WORDS)
    names, options = COMMANDS[words[1]]
    if words[1] == "audit" and not has("evidence"):
        options = ()  # the options of keys came with it there
    options = [option for option in options if _is_there(option)]
    if not _is_there(words[1]):
        raise Stop(*REFUSED_WORDS)
    given, found, at, plain = [], {}, 2, False
    while at < len(words):
        word = words[at]
        at += 1
        if plain or word == "-" or not word.startswith("-"):
            given.append(word)
        elif word == "--":
            plain = True
        else:
            at = _option(words, at, word, options, found)
    if len(given) != len(names):
        raise Stop(*REFUSED_WORDS)
    found.update(zip(names, given))
    for name, (low, high) in NUMBERS.items():
        if name in found:
            found[name] = number_of(found[name], low, high)
    if found.get("height", 5) not in (5, 10):
        raise Stop(*REFUSED_WORDS)
    return words[1], found


def _is_there(name):
    """Whether a command or an option counts as built."""
    return name not in CAME_WITH or has(CAME_WITH[name])


def _option(words, at, word, options, found):
    """`--name VALUE` or `--name=VALUE`, each at most once."""
    name, equals, value = word[2:].partition("=")
    if not word.startswith("--") or name not in options or name in found:
        raise Stop(*REFUSED_WORDS)
    if not equals:
        if at >= len(words) or (words[at].startswith("-") and words[at] != "-"):
            raise Stop(*REFUSED_WORDS)
        value, at = words[at], at + 1
    found[name] = value
    return at
