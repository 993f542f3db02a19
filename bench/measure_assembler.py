#!/usr/bin/env python3
"""Counts the instructions that an assembler takes for a packet, with 1, 16 and 64 keys open, and prints a table.

assembler/main.rattle is made a crate in a temporary folder, beside copies of its libraries, as measure_walks.py does.
"""

import pathlib
import re
import shutil
import subprocess
import sys
import tempfile

import measuring

NAME = "assembler_bench"
CRATES = ("mctp_transport",)
PACKETS = 64
COLUMNS = ("keys open", "a packet, instr.")


def build(folder):
    """Makes the crate, proves and builds it. Returns the program's path."""
    lines = (measuring.TOP / "crates.txt").read_text().splitlines()
    kept = [line for line in lines if line.partition(":")[0] in CRATES]
    (folder / "crates.txt").write_text("\n".join([*kept, f"{NAME}: mctp_transport", ""]))
    for name in CRATES:
        shutil.copytree(measuring.TOP / "crates" / name, folder / "crates" / name)
    crate = folder / "crates" / NAME
    (crate / "src").mkdir(parents=True)
    shutil.copy(measuring.TOP / "bench/assembler/main.rattle", crate / "src/main.rt")
    built = subprocess.run(["rt", "run"], cwd=crate, stdout=subprocess.PIPE, stderr=subprocess.STDOUT, text=True)
    if built.returncode != 0:
        sys.exit(f"{built.stdout}\nthe program could not be built")
    return crate / "out" / NAME


def instructions_of(program, keys, messages):
    words = ["valgrind", "--tool=callgrind", "--callgrind-out-file=/dev/null", program, str(keys), str(messages)]
    ran = subprocess.run(words, stdout=subprocess.PIPE, stderr=subprocess.PIPE, text=True, check=True)
    if int(ran.stdout) != keys * messages:
        sys.exit(f"{keys} keys: {ran.stdout} of {keys * messages} messages came whole")
    return int(re.search(r"Collected : (\d+)", ran.stderr)[1])


def main():
    with tempfile.TemporaryDirectory() as folder:
        program = build(pathlib.Path(folder))
        print(f"\n{measuring.head(COLUMNS)}")
        for keys in (1, 16, 64):
            # What the process takes to start is in both.
            more = instructions_of(program, keys, 30) - instructions_of(program, keys, 10)
            print(measuring.row([str(keys), f"{more / (20 * PACKETS * keys):.0f}"]))


if __name__ == "__main__":
    main()
