"""What the tools share: where programs are, what is built here, and what that is compared with."""
import os
import subprocess
import sys

TOP = os.path.dirname(os.path.dirname(os.path.dirname(os.path.abspath(__file__))))

# What is built is all that docs/FORMATS.md has. The implementation in reference/ has more, which
# reference/stages.py lists: of those features these are built here too.
BUILT = ("levels", "evidence", "versions", "workload", "nulls", "limit")

# It signs what comparisons and benches make, one journal after the other: nothing that is kept may
# be signed by it.
SEED = os.path.join(TOP, "tools/comparisons/throwaway.seed")

# The wrong bodies that the gate leaves out, in a folder for each crate that has some.
SECOND_TIER = os.path.join(TOP, "wrong-bodies")


def crates():
    """The names of the crates, in the order of crates.txt."""
    with open(os.path.join(TOP, "crates.txt"), encoding="utf-8") as file:
        lines = [line for line in file.read().splitlines() if line and not line.startswith("#")]
    return [line.split(":")[0].split()[0] for line in lines]


def crate(name):
    return os.path.join(TOP, "crates", name)


def program(name):
    """The built program of a crate, or the one that the variable of its name in capitals has."""
    return os.path.abspath(os.environ.get(name.upper(), os.path.join(crate(name), "out", name)))


def build(name):
    """Builds the program of a crate, where it isn't built; where it can't be, the tool ends."""
    if not os.access(program(name), os.X_OK):
        silent = {"stdout": subprocess.DEVNULL, "stderr": subprocess.DEVNULL}
        subprocess.run(["rt", "run"], cwd=crate(name), check=False, **silent)
    if not os.access(program(name), os.X_OK):
        sys.exit(f"{name} is not built: run `rt run` in crates/{name}")


def load_reference(*features):
    """Lets `reference` be imported, here and in what is started, with what is built and these."""
    os.environ["VO_STAGE"] = ",".join([*BUILT, *features])
    os.environ["PYTHONPATH"] = TOP
    sys.dont_write_bytecode = True
    sys.path.insert(0, TOP)
