"""What a run of the program costs: time, memory and instructions. The program's path can be given as MCTPPLAN."""

import os
import pathlib
import re
import shutil
import subprocess
import sys
import tempfile
import time
from typing import NamedTuple, Optional

TOP = pathlib.Path(__file__).resolve().parent.parent
# Of so many runs the best time is taken, and of more where these take fewer seconds.
RUNS = 15
SECONDS = 3
# GNU time forks from a small process. A child of this one would be charged with the memory that Python has.
TIME = "/usr/bin/time"


class Cost(NamedTuple):
    """The best time of several runs in seconds, the most memory in bytes, and the instructions."""

    seconds: float
    memory: Optional[int]
    instructions: Optional[int]


def program():
    """The path of the program: MCTPPLAN, or where the build leaves it."""
    path = os.environ.get("MCTPPLAN", str(TOP / "crates/mctpplan/out/mctpplan"))
    if not os.access(path, os.X_OK):
        sys.exit(f"{path} is no program: run bin/mctpplan once, which builds it, or set MCTPPLAN")
    return path


def run(command, refused="", output=os.devnull):
    """Runs a command, its output to a file, and returns its standard error.

    Where words are given, the command must be refused with them, else it must succeed.
    """
    with open(output, "wb") as into:
        ended = subprocess.run(command, stdout=into, stderr=subprocess.PIPE, text=True)
    if ended.returncode != (2 if refused else 0) or refused not in ended.stderr:
        sys.exit(f"{' '.join(command)}\nended with status {ended.returncode} and\n{ended.stderr}")
    return ended.stderr


def seconds_of(command, refused):
    start = time.perf_counter()
    run(command, refused)
    return time.perf_counter() - start


def best_seconds_of(command, refused):
    times = []
    while len(times) < RUNS or sum(times) < SECONDS:
        times.append(seconds_of(command, refused))
    return min(times)


def memory_of(command, refused):
    """The most memory of a run, None where there is no GNU time."""
    if not os.access(TIME, os.X_OK):
        return None
    with tempfile.NamedTemporaryFile("r") as told:
        run([TIME, "--quiet", "-f", "%M", "-o", told.name, *command], refused)
        return 1024 * int(told.read())


def instructions_of(command, refused):
    """The instructions of a run, None where there is no valgrind."""
    if not shutil.which("valgrind"):
        return None
    counting = ["valgrind", "--tool=cachegrind", "--cache-sim=no", "--cachegrind-out-file=/dev/null"]
    told = run([*counting, *command], refused)
    return int(re.search(r"I\s+refs:\s+([\d,]+)", told)[1].replace(",", ""))


def cost_of(command, refused=""):
    """The cost of a command, one that is refused with these words where there are any."""
    return Cost(
        best_seconds_of(command, refused),
        memory_of(command, refused),
        instructions_of(command, refused),
    )


def write(path, text):
    """Writes a file, and returns its path."""
    with open(path, "w") as it:
        it.write(text)
    return path


def shown(value, unit):
    """A value in a unit, with three digits, or a dash where it wasn't measured."""
    if value is None:
        return "-"
    number = value / unit
    return f"{number:,.0f}" if number >= 100 else f"{number:.3g}"


def row(cells):
    return "| " + " | ".join(map(str, cells)) + " |"


def head(cells):
    """The head of a table."""
    return row(cells) + "\n" + "|---" * len(cells) + "|"
