"""What the work on tables and keys takes in blocks of SHA-256, and what a run of a program takes in instructions."""
import hashlib
import os
import re
import subprocess
import tempfile

TOP = os.path.dirname(os.path.dirname(os.path.dirname(os.path.abspath(__file__))))
SEED = os.path.join(TOP, "tools/comparisons/throwaway.seed")
CHAINS = 34  # of a one-time key of 8-bit digits

LOAD = r"""
#include <stdio.h>
#include <stdlib.h>
int sqlite3_open(const char *, void **);
int sqlite3_exec(void *, const char *, void *, void *, void *);
int main(void) {
    void *db;
    char *text = calloc(1, 64 << 20);
    fread(text, 1, (64 << 20) - 1, stdin);
    sqlite3_open(":memory:", &db);
    sqlite3_exec(db, "%s", 0, 0, 0);
    return sqlite3_exec(db, text, 0, 0, 0);
}
"""


def blocks(length):
    """How many blocks of SHA-256 a string of so many bytes takes."""
    return (length + 8) // 64 + 1


ONE_TIME_KEY = CHAINS * 256 + blocks(22 + 32 * CHAINS)  # seeds and chains, and the key
LEAF, INNER = blocks(22 + 32), blocks(22 + 64)


def key_blocks(height):
    """A whole tree of one-time keys."""
    leaves = 2 ** height
    return leaves * (ONE_TIME_KEY + LEAF) + (leaves - 1) * INNER


def digits(identifier, signature, record):
    """The digits that a one-time signature signs, those of the checksum last."""
    q, c = signature[0:4], signature[8:40]
    hashed = hashlib.sha256(identifier + q + b"\x81\x81" + c + record).digest()
    checksum = sum(255 - digit for digit in hashed)
    return list(hashed) + [checksum >> 8, checksum & 255]


def sign_blocks(identifier, signature, record):
    """The randomizer, the message, and each chain from its seed to its digit."""
    return 1 + blocks(54 + len(record)) + sum(1 + d for d in digits(identifier, signature, record))


def verify_blocks(identifier, signature, record, height=5):
    """The message, each chain from its digit to its end, the candidate key, and the path."""
    chains = sum(255 - d for d in digits(identifier, signature, record))
    return blocks(54 + len(record)) + chains + blocks(22 + 32 * CHAINS) + LEAF + height * INNER


def row_blocks(cells):
    """Each cell of up to 50 bytes, and the row."""
    return cells + blocks(2 + 32 * cells)


def leaf_blocks(rows):
    """A leaf of rows with keys of 8 bytes."""
    return blocks(2 + 42 * rows)


def inner_blocks(children):
    """An inner node with separators of 8 bytes."""
    return blocks(2 + 10 * (children - 1) + 32 * children)


def proofs_and_rest(entry):
    """The proofs of an entry's batch, and what stands behind them."""
    at = 8 + int.from_bytes(entry[4:8], "big")
    end = at + 4 + int.from_bytes(entry[at:at + 4], "big")
    return entry[at + 4:end], entry[end:]


def split_entry(entry):
    """An entry's record and signature."""
    rest = proofs_and_rest(entry)[1]
    return rest[:60], rest[64:]


def journal_entries(journal):
    entries, at = [], 0
    while journal[at] == 1:
        length = int.from_bytes(journal[at + 1:at + 5], "big")
        entries.append(journal[at + 5:at + 5 + length])
        at += 5 + length
    return entries


def profile(words, given=b"", ends=(0,)):
    """What callgrind writes of a run, with this for its input, which ends with one of these statuses."""
    with tempfile.NamedTemporaryFile() as counts:
        ran = subprocess.run(["valgrind", "--tool=callgrind", f"--callgrind-out-file={counts.name}", *words],
                             input=given, stdout=subprocess.DEVNULL, stderr=subprocess.DEVNULL, check=False)
        assert ran.returncode in ends
        return open(counts.name, encoding="utf-8", errors="replace").read()


def output(words):
    """What a run writes."""
    return subprocess.run(words, stdout=subprocess.PIPE, check=True).stdout


def all_of(profile):
    """All instructions that callgrind counted."""
    return int(re.search(r"^(?:summary|totals): (\d+)", profile, re.M).group(1))


def own_of(profile, program):
    """Those of them that are the program's own, and not the C library's."""
    total, paths, own, is_call = 0, {}, False, False
    for line in profile.splitlines():
        if named := re.match(r"(c?)ob=(\(\d+\))(?: (.+))?", line):
            called, number, path = named.groups()
            paths.setdefault(number, path)
            own = own if called else paths[number] == os.path.realpath(program)
        elif cost := re.match(r"[-+*\d]\d* (\d+)$", line):
            total += int(cost[1]) if own and not is_call else 0
        # the line behind it has what the called function took
        is_call = line.startswith("calls=")
    return total


def instructions(words, given=b"", ends=(0,)):
    """All instructions of a run, with this for its input, which ends with one of these statuses."""
    return all_of(profile(words, given, ends))


def signing_blocks(entries, height):
    """A whole tree of one-time keys, and the signatures of these entries."""
    signed = (split_entry(entry) for entry in entries)
    return key_blocks(height) + sum(sign_blocks(record[4:20], signature, record) for record, signature in signed)


def sqlite_cost(create, batches):
    """Instructions that sqlite3 takes for these batches of commands behind this one, each in a transaction; none where gcc or its library isn't here."""
    with open("load.c", "w", encoding="ascii") as file:
        file.write(LOAD % create)
    if subprocess.run(["gcc", "-O2", "-w", "-o", "load", "load.c", "-l:libsqlite3.so.0"]).returncode:
        return None
    text = "".join(f"BEGIN;\n{batch}COMMIT;\n" for batch in batches)
    return instructions(["./load"], text.encode()) - instructions(["./load"])


def report(name, total, needed, block):
    print(f"{name}: {total:,} instructions, {needed:,} blocks needed, "
          f"{total / (needed * block):.2f} times their cost")
