"""Inputs that are made to take long: eight times the input takes at most twelve times the work and the memory.

The inputs are those of bench/adversarial.py, each at its smallest size and at eight times that. The work is the
instructions of the program, by valgrind; where valgrind isn't installed, or the program is the unproved one, it is the
processor time. Where the text grows faster than the size, the work may grow as much faster; where an answer is about
all pairs of nodes, as much as these do. No input takes over 5 seconds or 500 MB. (Of the unproved program, which keeps
what each access is checked by, neither is asked.) The words choose among the inputs.
"""
import os
import re
import shutil
import sys
import tempfile
from typing import NamedTuple

from runner import TOP, each

sys.path.insert(0, str(TOP / "bench"))
import adversarial
import plans

MOST = 1.5  # times the growth of the text
MOST_SECONDS, MOST_MEMORY = 5, 500_000_000  # of an input
AT_ONCE = 0.9  # times the work by a tree
FLOOR = 0.02  # seconds: below, the clock says little
COUNTING = ["valgrind", "--tool=cachegrind", "--cache-sim=no", "--cachegrind-out-file=/dev/null"]


class Used(NamedTuple):
    """What a run took: processor time in seconds, and bytes of memory at its most. And what it wrote on standard error."""

    seconds: float
    memory: int
    told: str


class Work(NamedTuple):
    """The bytes of an input's files, and the work that the program does on them."""

    length: int
    work: float | None
    seconds: float
    memory: int


def used_by(command, given, folder):
    """Runs a command, with this file as standard input."""
    with open(f"{folder}/told", "w+b") as told:
        actions = [
            (os.POSIX_SPAWN_OPEN, 0, given, os.O_RDONLY, 0),
            (os.POSIX_SPAWN_OPEN, 1, os.devnull, os.O_WRONLY, 0),
            (os.POSIX_SPAWN_DUP2, told.fileno(), 2),
        ]
        child = os.posix_spawnp(command[0], command, os.environ, file_actions=actions)
        _, _, used = os.wait4(child, 0)
        told.seek(0)
        return Used(used.ru_utime + used.ru_stime, 1024 * used.ru_maxrss, told.read().decode())


def work_of(trial, made, size):
    with tempfile.TemporaryDirectory(dir=trial.room.name) as folder:
        files, words = made(size)
        for name, it in files.items():
            with open(f"{folder}/{name}", "w", encoding="utf-8") as into:
                into.write(it)
        placed = [f"{folder}/{it}" if it in files else str(TOP / it) if it.startswith("examples/") else it for it in words]
        given = f"{folder}/stdin" if "stdin" in files else os.devnull
        length = sum(map(len, files.values()))
        used = used_by([*trial.program, *placed], given, folder)
        work = max(FLOOR, used.seconds)
        if shutil.which("valgrind") and not trial.is_unproved:
            counted = re.search(r"I\s+refs:\s+([\d,]+)", used_by([*COUNTING, *trial.program, *placed], given, folder).told)
            work = int(counted[1].replace(",", "")) if counted else None
        return Work(length, work, used.seconds, used.memory)


def escaped(text):
    """The same text in other letters: one string has an escape."""
    return text.replace('"n1"', '"\\u006e1"', 1)


def try_at_once(trial):
    """Compares what check takes for a plan and its certificate with what it takes where one of them has an escape."""
    plan = plans.text_of("bus", 64)
    certificate = trial.run(["certify", trial.file("plan", plan)])[1].decode()

    def work(plan, certificate):
        return work_of(trial, lambda _: ({"plan": plan, "certificate": certificate}, ["check", "plan", "certificate"]), 64).work

    least = work(plan, certificate)
    for name, most in ("plan", work(escaped(plan), certificate)), ("certificate", work(plan, escaped(certificate))):
        is_told = None not in (least, most)
        trial.note(is_told and least <= AT_ONCE * most, f"a {name} with an escape: {most / least if is_told else 'nothing'} times the work of check without one")


def try_all(trial):
    if trial.has("at once"):
        try_at_once(trial)

    def row(it):
        if not trial.has(it.name):
            return
        few, many = work_of(trial, it.made, it.smallest), work_of(trial, it.made, 8 * it.smallest)
        if few.work is None or many.work is None:
            trial.note(False, f"{it.name}: valgrind counted nothing")
            return
        most = MOST * many.length / few.length * (8 if it.is_of_pairs else 1)
        grown, memory = many.work / few.work, many.memory / few.memory
        is_small = trial.is_unproved or (memory <= most and many.seconds <= MOST_SECONDS and many.memory <= MOST_MEMORY)
        told = f"{many.length / few.length:.1f} times the text, {grown:.1f} times the work, {memory:.1f} times the memory"
        trial.note(grown <= most and is_small, f"{it.name}: {told}; {many.seconds:.2f} s, {many.memory // 1_000_000} MB")

    each(row, adversarial.ROWS)
