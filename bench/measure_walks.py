#!/usr/bin/env python3
"""Times walks over the records of both kinds of terminus, and prints a table.

`rt ci` refuses sources outside a crate, so walks/main.rattle is made a crate in a temporary folder, beside
copies of its libraries. `rt run` proves it there and builds it as it builds mctpplan.
"""

import pathlib
import shutil
import subprocess
import sys
import tempfile

import measuring

RUNS = 5
NAME = "walk_bench"
# The program's libraries in this repository, and what these stand on.
CRATES = ("mctp_transport", "pldm_message", "pdr_record", "pdr_repository")
COLUMNS = (
    "terminus",
    "records",
    "requests",
    "walk, ms",
    "requests a second",
    "an answer, ns",
    "the walker, a request, ns",
)


def make_crate(folder):
    """Makes the crate of the program, beside copies of its libraries, which keep what was built. Returns its folder."""
    lines = (measuring.TOP / "crates.txt").read_text().splitlines()
    kept = [line for line in lines if line.partition(":")[0] in CRATES]
    (folder / "crates.txt").write_text("\n".join([*kept, f"{NAME}: arrayvec pldm_message pdr_repository", ""]))
    for name in CRATES:
        library = measuring.TOP / "crates" / name
        shutil.copytree(library, folder / "crates" / name, ignore=shutil.ignore_patterns("incremental"))
    crate = folder / "crates" / NAME
    (crate / "src").mkdir(parents=True)
    shutil.copy(measuring.TOP / "bench/walks/main.rattle", crate / "src/main.rt")
    return crate


def build(crate):
    """Proves, builds and runs the program once. Returns its path."""
    built = subprocess.run(["rt", "run"], cwd=crate, stdout=subprocess.PIPE, stderr=subprocess.STDOUT, text=True)
    if built.returncode != 0:
        sys.exit(f"{built.stdout}\nthe program could not be built")
    return crate / "out" / NAME


def lines_of(program):
    """What a run prints: for each kind and number of records the four figures."""
    text = subprocess.run([program], stdout=subprocess.PIPE, text=True, check=True).stdout
    return {(kind, int(count)): list(map(int, rest)) for kind, count, *rest in map(str.split, text.splitlines())}


def main():
    with tempfile.TemporaryDirectory() as folder:
        program = build(make_crate(pathlib.Path(folder)))
        runs = [lines_of(program) for _ in range(RUNS)]
    print(f"\n{measuring.head(COLUMNS)}")
    for kind, count in sorted(runs[0]):
        collected, requests, _, _ = runs[0][kind, count]
        if collected != count:
            sys.exit(f"{kind}: a walk over {count} records collected {collected}")
        walk = min(it[kind, count][2] for it in runs)
        answers = min(it[kind, count][3] for it in runs)
        cells = [kind, f"{count:,}", f"{requests:,}", measuring.shown(walk, 1e6), f"{1e9 * requests / walk:,.0f}"]
        print(measuring.row([*cells, measuring.shown(answers, requests), measuring.shown(walk - answers, requests)]))


if __name__ == "__main__":
    main()
