#!/usr/bin/env python3
"""Counts the instructions that `decode` takes for a packet of a capture, by valgrind, and prints a table.

Two captures are made of each sort, of 50,000 and of 100,000 packets: what the process takes to start is in both.
"""

import pathlib
import re
import struct
import subprocess
import sys
import tempfile

import measuring

FEW, MANY = 50_000, 100_000
COLUMNS = ("packets", "a packet, instr.")


def small(place):
    """A message of one byte in one packet."""
    return bytes([1, 8, 16, 0xC0 | place % 8, 0x7E])


def large(place):
    """A packet of 64 bytes. Each message has 64 of them."""
    first, last = place % 64 == 0, place % 64 == 63
    return bytes([1, 8, 16, 0x80 * first | 0x40 * last | place % 4 << 4]) + bytes([0x7E] * first) + bytes(64 - first)


def capture(path, packet_of, count):
    """A file of raw packets (link type 147)."""
    with open(path, "wb") as file:
        file.write(struct.pack("<IHHiIII", 0xA1B2C3D4, 2, 4, 0, 0, 262144, 147))
        for place in range(count):
            packet = packet_of(place)
            file.write(struct.pack("<IIII", place, 0, len(packet), len(packet)) + packet)


def instructions_of(path):
    words = ["valgrind", "--tool=callgrind", "--callgrind-out-file=/dev/null", measuring.program(), "decode", path]
    ran = subprocess.run(words, stdout=subprocess.DEVNULL, stderr=subprocess.PIPE, text=True, check=False)
    if ran.returncode != 0:
        sys.exit(ran.stderr)
    return int(re.search(r"Collected : (\d+)", ran.stderr)[1])


def main():
    print(measuring.head(COLUMNS))
    with tempfile.TemporaryDirectory() as folder:
        for name, packet_of in (("of 5 bytes, each a whole message", small), ("of 68 bytes, 64 a message", large)):
            counts = []
            for count in (FEW, MANY):
                path = str(pathlib.Path(folder) / f"{count}.pcap")
                capture(path, packet_of, count)
                counts.append(instructions_of(path))
            print(measuring.row([name, f"{(counts[1] - counts[0]) / (MANY - FEW):.0f}"]))


if __name__ == "__main__":
    main()
