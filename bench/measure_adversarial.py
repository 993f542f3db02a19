#!/usr/bin/env python3
"""Measures the program on the inputs of bench/adversarial.py, each at four sizes, and prints a table.

Words choose among the inputs. The last column is how many times as many instructions the largest takes as the smallest,
and how many times as many bytes its files have.
"""

import pathlib
import subprocess
import sys
import tempfile

import adversarial
import measuring

COUNTING = ["valgrind", "--tool=cachegrind", "--cache-sim=no", "--cachegrind-out-file=/dev/null"]


def instructions_of(made, size, folder):
    """The bytes of the input's files and the millions of instructions, whatever the status."""
    files, words = made(size)
    for name, it in files.items():
        (folder / name).write_text(it)
    placed = [str(folder / it) if it in files else it for it in words]
    how = {"input": files.get("stdin", ""), "stdout": subprocess.DEVNULL, "stderr": subprocess.PIPE, "text": True}
    ran = subprocess.run([*COUNTING, measuring.program(), *placed], cwd=measuring.TOP, **how)
    counted = [it for it in ran.stderr.splitlines() if "I " in it and "refs" in it]
    return sum(map(len, files.values())), int(counted[0].split()[-1].replace(",", "")) / 1e6


def main(words):
    print("| input | smallest size | M instr. | twice | four times | eight times | growth, of the text |")
    print("|---" * 7 + "|")
    with tempfile.TemporaryDirectory() as folder:
        for it in adversarial.ROWS:
            if words and not any(word in it.name for word in words):
                continue
            costs = [instructions_of(it.made, it.smallest * factor, pathlib.Path(folder)) for factor in adversarial.FACTORS]
            shown = " | ".join(f"{cost[1]:.3g}" for cost in costs)
            print(f"| {it.name} | {it.smallest:,} | {shown} | x {costs[-1][1] / costs[0][1]:.1f}, x {costs[-1][0] / costs[0][0]:.1f} |", flush=True)


if __name__ == "__main__":
    main(sys.argv[1:])
