#!/usr/bin/env python3
"""Counts the instructions of `check`, beside a reader and checker that is written by hand in plain Rust, and prints a table.

`bench/by_hand` is built with cargo alone; where cargo is missing, its column has dashes.
"""

import os
import pathlib
import shutil
import subprocess
import sys
import tempfile

import measuring
import plans

BY_HAND = pathlib.Path(__file__).resolve().parent / "by_hand"
COUNTING = ["valgrind", "--tool=cachegrind", "--cache-sim=no", "--cachegrind-out-file=/dev/null"]
KINDS = ("riser", "line", "bus", "termini")


def built(folder):
    """The path of the program by hand, None where it can't be built here."""
    if not shutil.which("cargo"):
        return None
    sources = shutil.copytree(BY_HAND, f"{folder}/by_hand")
    command = ["cargo", "build", "--quiet", "--release", "--offline"]
    subprocess.run(command, cwd=sources, env={**os.environ, "CARGO_TARGET_DIR": f"{folder}/target"}, check=True)
    return f"{folder}/target/release/by_hand"


def texts_of(kind, folder):
    """The paths of a plan and its certificate: those of the riser network, or of 64 nodes."""
    if kind == "riser":
        return [measuring.TOP / "examples/riser" / it for it in ("plan.json", "certificate.json")]
    plan, certificate = folder / "plan.json", folder / "certificate.json"
    plan.write_text(plans.text_of(kind, 64))
    certificate.write_bytes(subprocess.run([measuring.program(), "certify", plan], stdout=subprocess.PIPE, check=True).stdout)
    return [plan, certificate]


def millions(program, texts):
    """The millions of instructions of a check, a dash where there is no program."""
    if not program:
        return "-"
    ran = subprocess.run([*COUNTING, program, "check", *texts], stdout=subprocess.DEVNULL, stderr=subprocess.PIPE, text=True, check=True)
    counted = [it for it in ran.stderr.splitlines() if "I " in it and "refs" in it]
    return f"{int(counted[0].split()[-1].replace(',', '')) / 1e6:.3g}"


def main(words):
    print("| check | mctpplan, M instr. | by hand, M instr. |")
    print("|---" * 3 + "|")
    with tempfile.TemporaryDirectory() as folder:
        by_hand = built(folder)
        for kind in words or KINDS:
            texts = texts_of(kind, pathlib.Path(folder))
            print(f"| `{kind}` | {millions(measuring.program(), texts)} | {millions(by_hand, texts)} |", flush=True)


if __name__ == "__main__":
    main(sys.argv[1:])
