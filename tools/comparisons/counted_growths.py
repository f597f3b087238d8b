"""Requests for memory by their numbers: runs that have one refused, and how many a store's versions take; for tools/refused_growths."""
import os
import subprocess

from comparisons import workspace
from comparisons.listening import address_told
from comparisons.workspace import SEED, TOP
from reference.formats import batch_bytes, read_entries
from reference.generators.folders import write_files
from reference.generators.loopback import Loopback
from reference.wire import frame, install_frame

PROGRAM = workspace.program("vo_cli")
REFUSING = os.path.join(TOP, "tools/comparisons/refuse_growth.c")

ROWS, OF_BATCH = 20_000, 1_000
CHANGES = 64  # versions behind these, of one UPDATE each: as many as a store keeps
# a tree of so many rows of rising keys has 2,499 leaves, and a copy of it for each change takes 159,936 requests at least
MOST_GROWTHS = 64_000
QUERY = f"SELECT name FROM t WHERE id = {ROWS // 2}"


def make_refusing(folder):
    """Builds what refuses."""
    subprocess.run(["cc", "-shared", "-fPIC", "-O1", "-o", f"{folder}/refusing.so", REFUSING], check=True)


def refusing(folder, number):
    """The environment in which the request of this number is refused, and the file that is gone then."""
    mark = os.path.join(folder, "mark")
    write_files(folder, {"mark": b""})
    variables = {"LD_PRELOAD": os.path.join(folder, "refusing.so"), "REFUSED": str(number), "REFUSED_MARK": mark}
    return {**os.environ, **variables}, mark


def run(folder, words, number):
    """What a run ends with and writes where the request of this number is refused, and whether one was."""
    environment, mark = refusing(folder, number)
    ran = subprocess.run([PROGRAM, *words], cwd=folder, env=environment, stdout=subprocess.PIPE, stderr=subprocess.DEVNULL,
                         check=False)
    return (ran.returncode, ran.stdout), not os.path.exists(mark)


def last_number(is_met):
    """The greatest number that is met."""
    most = 1
    while is_met(most):
        most *= 2
    least = most // 2
    while least + 1 < most:
        middle = (least + most) // 2
        least, most = (middle, most) if is_met(middle) else (least, middle)
    return least


def last_request(folder, words):
    """The number of the last request that a run of a command makes."""
    return last_number(lambda number: run(folder, words, number)[1])


# -- stores

def script(changes):
    """Rows of rising keys, and then so many batches of one UPDATE each."""
    batches = ["CREATE TABLE t (id BIGINT, name TEXT, PRIMARY KEY (id)); COMMIT;"]
    for first in range(0, ROWS, OF_BATCH):
        rows = range(first, first + OF_BATCH)
        batches.append("".join(f"INSERT INTO t VALUES ({row}, 'name {row}');" for row in rows) + " COMMIT;")
    for change in range(changes):
        batches.append(f"UPDATE t SET name = 'new' WHERE id = {change * ROWS // CHANGES}; COMMIT;")
    return "\n".join(batches)


def made(folder, *words):
    """What a command writes, under a key of height 10."""
    return subprocess.run([PROGRAM, *words, "--height", "10"], cwd=folder, stdout=subprocess.PIPE, check=True).stdout


def sealed(folder, changes):
    """The journal of such a script."""
    write_files(folder, {"filling": script(changes).encode()})
    return made(folder, "seal", SEED, "filling")


def requests_of(entries):
    """What an owner sends to have a store install these entries."""
    return b"".join(frame(3, batch_bytes(entry.batch)) + install_frame(entry.rec, entry.signature) for entry in entries)


def is_met_by_store(folder, journal, sent, number):
    """Whether a store that loads a journal, and is then sent this over a connection, makes the request of this number."""
    environment, mark = refusing(folder, number)
    words = [PROGRAM, "serve", "127.0.0.1:0", "filled_key", journal, "1"]
    with subprocess.Popen(words, cwd=folder, env=environment, stdout=subprocess.DEVNULL, stderr=subprocess.PIPE) as store:
        if address := address_told(store):
            Loopback.exchanged(int(address.split(":")[1]), sent)
        store.communicate()
    return not os.path.exists(mark)


def compare_versions(report, folder):
    """A store that is filled, and one that is filled likewise and takes a batch of one UPDATE 64 times: how many more requests it makes."""
    journals = {"filled": sealed(folder, 0), "changed": sealed(folder, CHANGES)}
    write_files(folder, {**journals, "filled_key": made(folder, "keygen", SEED)})
    entries = read_entries(journals["changed"])
    filled = len(entries) - 1 - CHANGES  # the last version of the first journal, which is the first one that the second store drops
    counts = [last_request(folder, ["answer", "filled_key", name, QUERY, "--at", str(version)])
              for name, version in (("filled", filled), ("changed", filled + 1))]
    compare_counts(report, "answer --at", counts)
    counts = [last_number(lambda number, sent=sent: is_met_by_store(folder, "filled", sent, number))
              for sent in (b"", requests_of(entries[-CHANGES:]))]
    compare_counts(report, "serve", counts)


def compare_counts(report, what, counts):
    before, after = counts
    print(f"{what}: {before:,} requests for memory of a store of {ROWS:,} rows, and {after - before:,} more for {CHANGES} versions")
    report.compare(f"{what}, {after - before:,} requests for {CHANGES} versions", True, after - before < MOST_GROWTHS)
