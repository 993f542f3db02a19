#!/usr/bin/env python3
"""Measures `certify` and `check` on large plans of the given kinds, or all, and prints tables.

Beside `check` stand two runs that end before any rule is tested: `walk` at a node that the plan does not have, which is
found once both texts are read, and `check` with a certificate that is unreadable at once, so that the plan alone is read.
"""

import os
import sys
import tempfile

import measuring
import plans

SIZES = (8, 16, 32, 64)
COMMANDS = ("certify", "check", "both texts read", "plan read")
COLUMNS = (
    ["nodes", "plan, bytes", "certificate, bytes"]
    + [f"{it}, ms" for it in COMMANDS]
    + ["memory, MB"]
    + [f"{it}, M instr." for it in COMMANDS]
)


def costs_of(folder, kind, count):
    """The sizes of the texts, and the cost of each command."""
    program = measuring.program()
    plan = measuring.write(f"{folder}/plan.json", plans.text_of(kind, count))
    certificate = f"{folder}/certificate.json"
    measuring.run([program, "certify", plan], output=certificate)
    at_once = measuring.write(f"{folder}/at_once.json", "[]")
    costs = [
        measuring.cost_of([program, "certify", plan]),
        measuring.cost_of([program, "check", plan, certificate]),
        measuring.cost_of([program, "walk", plan, certificate, "nobody", "16"], "unreadable node: J06"),
        measuring.cost_of([program, "check", plan, at_once], "unreadable certificate: J02"),
    ]
    return [os.path.getsize(plan), os.path.getsize(certificate)], costs


def figures(sizes, costs):
    """What a row of the table shows, before it is rounded, with the unit of each."""
    memory = [it.memory for it in costs]
    return (
        [(it, 1) for it in sizes]
        + [(it.seconds, 1e-3) for it in costs]
        + [(None if None in memory else max(memory), 1e6)]
        + [(it.instructions, 1e6) for it in costs]
    )


def table_of(folder, kind):
    print(f"\n{kind}\n\n{measuring.head(COLUMNS)}", flush=True)
    rows = []
    for count in SIZES:
        rows.append(figures(*costs_of(folder, kind, count)))
        print(measuring.row([count, *(measuring.shown(*it) for it in rows[-1])]), flush=True)
    growth = [None if None in (low[0], high[0]) else high[0] / low[0] for low, high in zip(rows[0], rows[-1])]
    print(measuring.row([f"{SIZES[-1]} over {SIZES[0]}", *("-" if it is None else f"x {it:.1f}" for it in growth)]))


def main():
    kinds = sys.argv[1:] or list(plans.KINDS)
    if not set(kinds) <= set(plans.KINDS):
        sys.exit("usage: measure_plans.py [line] [bus] [termini]")
    with tempfile.TemporaryDirectory() as folder:
        for kind in kinds:
            table_of(folder, kind)


if __name__ == "__main__":
    main()
