"""The program whose costs are taken: the one that the command line names, or else the built one."""
import os
import subprocess
import sys

from measures import costs
from measures.costs import SEED, TOP

PROGRAM = sys.argv[1] if len(sys.argv) > 1 else os.path.join(TOP, "crates/vo_cli/out/vo_cli")


def run(*words, out=os.devnull):
    """Runs the program; this file gets its output."""
    with open(out, "wb") as sink:
        subprocess.run([PROGRAM, *words], stdout=sink, check=True)


def instructions(*words):
    """All instructions of a run."""
    return costs.instructions([PROGRAM, *words])


def all_and_own(*words):
    """All instructions of a run, and those that are the program's own."""
    profile = costs.profile([PROGRAM, *words])
    return costs.all_of(profile), costs.own_of(profile, PROGRAM)


def block_instructions():
    """Instructions of one block of SHA-256, all of key making by its blocks."""
    return instructions("keygen", SEED) / costs.key_blocks(5)


def seal(text, height):
    """Makes the files `key` and `journal` of a script, under a key of this height."""
    with open("script", "w", encoding="ascii") as script:
        script.write(text)
    run("keygen", SEED, "--height", str(height), out="key")
    run("seal", SEED, "script", "--height", str(height), out="journal")
