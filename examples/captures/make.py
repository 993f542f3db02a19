#!/usr/bin/env python3
"""Makes riser.pcap of riser.txt: a capture as tcpdump writes it on Linux' interface any (link type 276).

    examples/captures/make.py
"""

import pathlib
import struct

HERE = pathlib.Path(__file__).resolve().parent
MCTP, OUTGOING, TO_US, ARPHRD_MCTP = 0x00FA, 4, 0, 290


def packets():
    for line in (HERE / "riser.txt").read_text(encoding="ascii").splitlines():
        words = line.split("#")[0].split()
        if words:
            seconds, micros = words[0].split(".")
            yield int(seconds), int(micros), bytes(int(it, 16) for it in words[1:])


def cooked(packet):
    """The packet behind 20 bytes of Linux. The host, 8, has captured it."""
    way = OUTGOING if packet[2] == 8 else TO_US
    return struct.pack(">HHIHBB8s", MCTP, 0, 2, ARPHRD_MCTP, way, 1, bytes([packet[2]])) + packet


def main():
    file = struct.pack("<IHHiIII", 0xA1B2C3D4, 2, 4, 0, 0, 262144, 276)
    for seconds, micros, packet in packets():
        bytes_of = cooked(packet)
        file += struct.pack("<IIII", seconds, micros, len(bytes_of), len(bytes_of)) + bytes_of
    (HERE / "riser.pcap").write_bytes(file)


main()
