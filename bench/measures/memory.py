"""The memory of a run, as the system tells it."""
import contextlib
import re
import subprocess
import time


def told_of(process, word):
    """The kilobytes that the system tells of a process under this word, or none where it has ended."""
    with contextlib.suppress(OSError), open(f"/proc/{process.pid}/status", encoding="ascii") as status:
        told = re.search(rf"{word}:\s+(\d+)", status.read())
        return int(told[1]) if told else None
    return None


def most_memory(process):
    """The most kilobytes that the process ever had, as the system last told before it ended."""
    most = 0
    while process.poll() is None:
        most = told_of(process, "VmHWM") or most
        time.sleep(0.001)
    return most


def most_of_run(words):
    """The most kilobytes of a run, which ends well."""
    with subprocess.Popen(words, stdout=subprocess.DEVNULL) as process:
        most = most_memory(process)
    assert process.returncode == 0, words
    return most
