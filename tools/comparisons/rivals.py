"""Two owners that are started at once in one folder, again and again; for tools/stops."""
import subprocess
import time

from comparisons.watched_owners import (JOURNAL, LIMIT, PROGRAM, Store, Watch, entries_of, installation_of, installations, read,
                                        run, write)
from comparisons.workspace import SEED

VERSIONS = 32  # of a key of height 5, version 0 among them
FAULT = b"fault: outside\n"
KILLED = -9


class Rivalry:
    """A journal, to which two owners at a time want to add a batch each; sometimes one of them is killed."""

    def __init__(self, chosen, report):
        self.chosen, self.compare, self.batches = chosen, report.compare, []
        self.starts = self.tries = self.refused = self.killed = 0
        write(JOURNAL, b"")
        write("key", run("keygen", SEED)[0])
        self.watch = Watch(Store(b"\0"))
        self.length = self.usual_length()

    def start(self, batch):
        self.starts += 1
        name = f"script{self.starts}"
        write(name, batch.encode())
        words = [PROGRAM, "own", SEED, self.watch.address, name]
        return subprocess.Popen(words, stdout=subprocess.PIPE, stderr=subprocess.DEVNULL)

    def usual_length(self):
        """How long an owner takes that has no rival."""
        began = time.monotonic()
        lines, _ = self.start("").communicate(timeout=LIMIT)
        self.compare("the lines of an owner that commits nothing", b"", lines)
        return time.monotonic() - began

    def has_room(self):
        return len(entries_of(read(JOURNAL))) + 2 <= VERSIONS

    def race(self):
        """Starts two at once, the second a random moment later, and looks at what comes of it."""
        self.tries += 1
        before = len(entries_of(read(JOURNAL)))
        batches = [f"CREATE TABLE {name}{self.tries} (id BIGINT, note TEXT{mark}, PRIMARY KEY (id)); COMMIT;"
                   for name, mark in (("a", ""), ("b", " NULL"))]
        first = self.start(batches[0])
        time.sleep(self.chosen.uniform(0, self.length * 1.2))
        second = self.start(batches[1])
        if self.chosen.random() < 0.3:
            time.sleep(self.chosen.uniform(0, self.length))
            first.kill()
        ended = [(process.communicate(timeout=LIMIT)[0], process.returncode) for process in (first, second)]
        self.look_at(before, batches, ended)

    def look_at(self, before, batches, ended):
        """Whoever ends well has its batch at the version of its line; whoever is refused has done nothing."""
        after = len(entries_of(read(JOURNAL)))
        committed = {}
        for batch, (lines, status) in zip(batches, ended):
            if status == 0:
                committed[lines] = batch
        for batch, (lines, status) in zip(batches, ended):
            if status == KILLED:
                self.killed += 1
                free = [line for line in versions(before, after) if line not in committed]
                committed.update((line, batch) for line in free)
                self.compare("the lines of one that was killed", True, lines in (b"", *free))
            elif status != 0:
                self.refused += 1
                self.compare("the end of one that was refused", (FAULT, 3), (lines, status))
        self.compare("somebody commits", True, any(status != 3 for _, status in ended))
        self.compare("the lines", versions(before, after), sorted(committed, key=len_and_bytes))
        self.batches += [committed.get(line, "") for line in versions(before, after)]

    def finish(self):
        """The journal is that of the batches in the order of their versions, and no version was sent in two forms."""
        write("all", "\n".join(self.batches).encode())
        self.compare("the journal", run("seal", SEED, "all")[0], read(JOURNAL))
        entries = entries_of(read(JOURNAL))
        for sent in self.watch.sent:
            for version, frame in installations(sent):
                self.compare(f"what was sent of version {version}", installation_of(entries[version]), frame)
        self.compare("what was sent before the journal had it", [], self.watch.faults)

    def close(self):
        self.watch.store.end()


def versions(before, after):
    """The lines of the versions behind so many entries."""
    return [b"version %d\n" % version for version in range(before, after)]


def len_and_bytes(line):
    return len(line), line
