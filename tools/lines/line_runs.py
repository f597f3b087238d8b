"""Lines of the crates of lines, each with the answer due: their stored runs, and what they answer otherwise."""
import itertools
import os
import subprocess

from comparisons import workspace
from comparisons.report import Report, Run

# One program asks all crates of lines but `run_lines`: it is told by a line whose lines come.
CRATE = workspace.crate("answer_lines")
PROGRAM = workspace.program("answer_lines")


def turn_of(name):
    """The line from which on a crate answers, and the answer to it."""
    return f"with {name}", name


def write_run(crate, pairs):
    """Writes a program's stored run: the lines of input, and the answers due."""
    for name, column in ("stdin", 0), ("stdout", 1):
        with open(os.path.join(crate, name), "w", encoding="utf-8") as file:
            file.writelines(pair[column] + "\n" for pair in pairs)


def stored_lines(name):
    with open(os.path.join(CRATE, name), encoding="utf-8") as file:
        return file.read().split("\n")[:-1]


def stored_parts():
    """The stored run of the program of several crates: the lines of each by its name, with their answers."""
    parts = {}
    for line, answer in zip(stored_lines("stdin"), stored_lines("stdout")):
        if line.startswith("with "):
            part = parts.setdefault(answer, [])
        else:
            part.append((line, answer))
    return parts


def write_part(name, pairs):
    """Writes a crate's part of that run anew; the others stay."""
    parts = {**stored_parts(), name: pairs}
    write_run(CRATE, [pair for each, part in parts.items() for pair in (turn_of(each), *part)])


def input_of(name, lines):
    """What is said to the program to have a crate's lines answered."""
    return "".join(line + "\n" for line in [turn_of(name)[0], *lines]).encode()


def answers_of(name, lines):
    """What a crate answers to lines."""
    workspace.build("answer_lines")
    ran = subprocess.run([PROGRAM], input=input_of(name, lines), stdout=subprocess.PIPE, check=True)
    return ran.stdout.decode().split("\n")[1:-1]


def compare_lines(name, pairs, show=lambda line: line, what=""):
    """Whether a crate answers some lines otherwise than is due, after these are printed as `show` has them, and all are kept."""
    report = Report(name)
    lines = [line for line, _ in pairs]
    for (line, want), got in itertools.zip_longest(pairs, answers_of(name, lines), fillvalue=("", "")):
        report.compare(show(line)[:2000], want, got)
    if report.differ:
        report.keep(Run([PROGRAM], {"stdin": input_of(name, lines)}, "stdin"), "".join(f"{want}\n" for _, want in pairs).encode())
    return report.end(what)
