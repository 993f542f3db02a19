#!/usr/bin/env python3
"""Measures what reading a plan and its certificate takes, side by side with plain Rust over serde's structs.

`bench/plain` is built with the crates that Debian installs (librust-serde-json-dev, librust-serde-derive-dev). Where
they or cargo are missing, this says so and measures nothing.

`mctpplan walk` at a node that the plan does not have reads both texts, finds no such node, and ends.
"""

import os
import pathlib
import shutil
import subprocess
import sys
import tempfile

import measuring
import plans

DEBIAN = pathlib.Path("/usr/share/cargo/registry")
PLAIN = pathlib.Path(__file__).resolve().parent / "plain"
NODES = 64
PROGRAMS = ("mctpplan", "plain Rust")
COLUMNS = ["kind", "plan, bytes", "certificate, bytes"] + [
    f"{program}, {what}" for program in PROGRAMS for what in ("ms", "MB", "M instr.")
]


def built(folder):
    """The path of the baseline, None where it can't be built here."""
    if not shutil.which("cargo") or not list(DEBIAN.glob("serde_json-*")):
        return None
    # cargo writes a lock file beside the sources, so it gets a copy of them.
    sources = shutil.copytree(PLAIN, f"{folder}/plain")
    command = ["cargo", "build", "--quiet", "--release", "--offline"]
    command += ["--config", 'source.crates-io.replace-with="debian"']
    command += ["--config", f'source.debian.directory="{DEBIAN}"']
    subprocess.run(command, cwd=sources, env={**os.environ, "CARGO_TARGET_DIR": f"{folder}/target"}, check=True)
    return f"{folder}/target/release/plain"


def figures(cost):
    return [(cost.seconds, 1e-3), (cost.memory, 1e6), (cost.instructions, 1e6)]


def row_of(folder, plain, kind):
    """The sizes of the texts, and what each program takes for them."""
    program = measuring.program()
    plan = measuring.write(f"{folder}/plan.json", plans.text_of(kind, NODES))
    certificate = f"{folder}/certificate.json"
    measuring.run([program, "certify", plan], output=certificate)
    sizes = [(os.path.getsize(path), 1) for path in (plan, certificate)]
    costs = [
        measuring.cost_of([program, "walk", plan, certificate, "nobody", "16"], "unreadable node: J06"),
        measuring.cost_of([plain, plan, "certificate", certificate]),
    ]
    return [kind, *(measuring.shown(*it) for it in sizes + [it for cost in costs for it in figures(cost)])]


def main():
    kinds = sys.argv[1:] or list(plans.KINDS)
    if not set(kinds) <= set(plans.KINDS):
        sys.exit("usage: measure_plain.py [line] [bus] [termini]")
    with tempfile.TemporaryDirectory() as folder:
        plain = built(folder)
        if not plain:
            print("skipped: cargo or Debian's librust-serde-json-dev and librust-serde-derive-dev are not there")
            return
        print(measuring.head(COLUMNS), flush=True)
        for kind in kinds:
            print(measuring.row(row_of(folder, plain, kind)), flush=True)


if __name__ == "__main__":
    main()
