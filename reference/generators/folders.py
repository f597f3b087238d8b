"""Folders of cases: each is one run of the program, with its words, its files, and what is due.

    python3 -m reference.generators.folders write FOLDER [SEED [SIZE]]
    python3 -m reference.generators.folders run FOLDER PROGRAM [WORD ..]

The first makes a folder of cases, and the second runs a program on each of them.  A case is a run
in the folder's own `files` folder: its words, and the status and the output due.
"""

import hashlib
import json
import os
import subprocess
import sys

from ..cli import run
from ..outside import MemDisk, MemNet, MemShelf, MemSink
from .cases import all_cases

SHOWN = 20


def file_name(data):
    """The name of the file of these bytes."""
    return "f" + hashlib.sha256(data).hexdigest()[:20]


def spelled(words):
    """The words with file names, and the files by name."""
    files = {file_name(w): w for w in words if isinstance(w, bytes)}
    return [file_name(w) if isinstance(w, bytes) else w for w in words], files


def expected(words, files):
    """The status and the output that are due."""
    sink = MemSink()
    status = run(["vo_cli"] + words, MemShelf(files), MemDisk(), MemNet(), sink)
    return status, bytes(sink.written)


def cases_with_dues(seed, size):
    """Of each case its name, its words, its files by name, and the status and the output due."""
    for name, words in all_cases(seed, size):
        words, files = spelled(words)
        yield name, words, files, expected(words, files)


def write_files(folder, files):
    """Writes files by their names."""
    for name, data in files.items():
        with open(os.path.join(folder, name), "wb") as file:
            file.write(data)


def write(folder, seed, size):
    """Makes a folder of cases."""
    kept, count = os.path.join(folder, "files"), 0
    os.makedirs(kept, exist_ok=True)
    with open(os.path.join(folder, "cases.jsonl"), "w", encoding="ascii") as listing:
        for name, words, files, (status, out) in cases_with_dues(seed, size):
            write_files(kept, files)
            case = {"name": name, "words": words, "status": status, "out": out.hex()}
            listing.write(json.dumps(case) + "\n")
            count += 1
    print(f"{count} cases")


def listed(folder):
    """The cases of a folder."""
    with open(os.path.join(folder, "cases.jsonl"), encoding="ascii") as listing:
        yield from map(json.loads, listing)


def differs(folder, program, case):
    """What a program does otherwise than is due in a case, or None."""
    done = subprocess.run(program + case["words"], cwd=os.path.join(folder, "files"),
                          stdout=subprocess.PIPE, stderr=subprocess.DEVNULL, check=False)
    due = case["status"], bytes.fromhex(case["out"])
    if (done.returncode, done.stdout) == due:
        return None
    return (f"{case['name']} {case['words']}\n  due {due[0]} {due[1][:200]}\n"
            f"  got {done.returncode} {done.stdout[:200]}")


def run_folder(folder, program):
    """Runs a program on each case; the status is 1 where something differs."""
    found = [differs(folder, program, case) for case in listed(folder)]
    wrong = [text for text in found if text]
    print("\n".join(wrong[:SHOWN] + [f"{len(found)} cases, {len(wrong)} differ"]))
    return 1 if wrong else 0


def main(words):
    """Writes a folder, or runs a program on one."""
    if words[1] == "write":
        seed, size = [int(word) for word in words[3:]] + [1, 1][len(words) - 3:]
        write(words[2], seed, size)
        return 0
    return run_folder(words[2], words[3:])


if __name__ == "__main__":
    sys.exit(main(sys.argv))
