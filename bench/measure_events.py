#!/usr/bin/env python3
"""Measures `sim` on long lists of events, and prints tables."""

import os
import sys
import tempfile

import events
import measuring

COUNTS = (10_000, 100_000)
COLUMNS = ("events", "text, bytes", "sim, ms", "memory, MB", "sim, M instr.")


def wanted(outcomes):
    """What `sim` has to print."""
    return "".join(f"{number} {outcome}\n" for number, outcome in enumerate(outcomes, 1))


def figures(folder, kind, count):
    """What a row of the table shows, before it is rounded, with the unit of each."""
    riser = measuring.TOP / "examples/riser"
    command = [measuring.program(), "sim", str(riser / "plan.json"), str(riser / "certificate.json")]
    made = events.KINDS[kind](count)
    whole = measuring.write(f"{folder}/events.json", events.text_of([event for event, _ in made]))
    printed = f"{folder}/printed"
    measuring.run([*command, whole], output=printed)
    with open(printed) as it:
        if it.read() != wanted(outcome for _, outcome in made):
            sys.exit(f"{kind} {count}: the outcomes are not those of the events")
    played = measuring.cost_of([*command, whole])
    return [
        (os.path.getsize(whole), 1),
        (played.seconds, 1e-3),
        (played.memory, 1e6),
        (played.instructions, 1e6),
    ]


def main():
    with tempfile.TemporaryDirectory() as folder:
        for kind in events.KINDS:
            print(f"\n{kind}\n\n{measuring.head(COLUMNS)}", flush=True)
            for count in COUNTS:
                cells = [measuring.shown(*it) for it in figures(folder, kind, count)]
                print(measuring.row([f"{count:,}", *cells]), flush=True)


if __name__ == "__main__":
    main()
