"""What a comparison says: how many cases there were, and what differs, kept to be run again."""
import os
import shlex

from comparisons.workspace import TOP
from reference.generators.folders import write_files

# The folder that has a folder for each comparison and case.
KEPT = os.environ.get("VO_DIFFERENCES", os.path.join(TOP, "out/differences"))
MOST_KEPT = 50


def short(thing):
    """The beginning of what is compared."""
    return repr(thing)[:300]


class Run:
    """A run of a program that can be made again: its words, and files, one of which its input."""

    def __init__(self, words, files=None, stdin=None):
        self.words, self.files, self.stdin = words, files or {}, stdin

    def keep(self, folder, due):
        """Writes the files, what was due, and a script that runs the program over them."""
        os.makedirs(folder, exist_ok=True)
        write_files(folder, self.files)
        write_files(folder, {"due": due if isinstance(due, bytes) else repr(due).encode()})
        words = shlex.join(self.words) + (f" < {self.stdin}" if self.stdin else "")
        path = os.path.join(folder, "again")
        with open(path, "w", encoding="utf-8") as file:
            file.write("#!/bin/sh\n# `due` has what was due.\n")
            file.write(f'cd "$(dirname "$0")" && exec {words}\n')
        os.chmod(path, 0o755)


class Report:
    """Counts the cases of a comparison, and those that differ."""

    def __init__(self, name):
        self.name, self.count, self.differ = name, 0, 0

    def compare(self, what, due, got, again=None):
        """Whether what came is what is due; if not, it is printed, and kept to be run again."""
        self.count += 1
        if due != got:
            self.differ += 1
            print(f"{self.name}: {what}\n  due {short(due)}\n  got {short(got)}")
            self.keep(again, due)
        return due == got

    def keep(self, again, due):
        """Keeps a run and what was due of it."""
        if again and self.differ <= MOST_KEPT:
            folder = os.path.join(KEPT, self.name, f"{os.getpid()}-{self.differ}")
            again.keep(folder, due)
            print(f"  to run it again: {folder}/again")

    def end(self, what=""):
        """Prints how many cases there were and how many differ; the status is 0 where none does."""
        print(f"{self.name}: {self.count:,} cases{what}, {self.differ:,} differ")
        return int(self.differ != 0 or self.count == 0)
