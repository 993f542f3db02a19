#!/usr/bin/env python3
"""Makes the texts of captures that `audit` lays beside the riser and the server network, each packet a line.

    examples/captures/make_audits.py
"""

import json
import pathlib
import struct

HERE = pathlib.Path(__file__).resolve().parent
HOST, RISER, NIC, NOBODY = 8, 16, 17, 40
FIRST, NEXT = 1, 0
START, MIDDLE, END, WHOLE = 0, 1, 4, 5
ENDPOINT, BRIDGE_AND_RANGE, BRIDGE = 0, 1, 2


def packets(requester, responder, tag, instance, asked, answered):
    """A request and its response, each in one packet."""
    yield bytes([1, responder, requester, 0xC8 | tag, 0, 0x80 | instance, *asked])
    yield bytes([1, requester, responder, 0xC0 | tag, 0, instance, asked[0], 0, *answered])


def entry(size, first, kind, port, address):
    """Over SMBus at 400 kHz, as the buses of the plan are."""
    return bytes([size, first, 64 * kind + port, 1, 4, len(address), *address])


def exchanges(rows, identity, pool):
    """The riser's identity, pool and table, in two answers, and the nic's identity, as the host asks for them."""
    yield from packets(HOST, RISER, 0, 1, [2], [RISER, 0x10, 0])
    yield from packets(HOST, RISER, 1, 2, [8, 0, 7, 17], [0, *pool])
    yield from packets(HOST, RISER, 2, 3, [10, 0], [1 if rows[1:] else 0xFF, 1, *rows[0]])
    if rows[1:]:
        yield from packets(HOST, RISER, 3, 4, [10, 1], [0xFF, len(rows) - 1, *b"".join(rows[1:])])
    yield from packets(HOST, NIC, 4, 5, [2], [identity, 0, 0])


def check_byte(record):
    """The check byte of a record: CRC-8, polynomial 0x07."""
    crc = 0
    for byte in record:
        crc ^= byte
        for _ in range(8):
            crc = (crc << 1 ^ 0x07 if crc & 0x80 else crc << 1) & 0xFF
    return crc


def part(responder, number, request, answer):
    """A request for a part of a record and the answer, each in one packet."""
    tag, instance = number % 8, number % 32
    yield bytes([1, responder, HOST, 0xC8 | tag, 1, 0x80 | instance, 2, 0x51]) + struct.pack("<IIBHH", *request)
    next_record, next_part, flag, data, check = answer
    head = struct.pack("<IIBH", next_record, next_part, flag, len(data))
    yield bytes([1, HOST, responder, 0xC0 | tag, 1, instance, 2, 0x51, 0]) + head + data + check


def walk(responder, records, count):
    """The host reads all records, in parts of so many bytes."""
    number, asked = 0, 0
    for handle, record in records:
        later = [it for it, _ in records[[it for it, _ in records].index(handle) + 1 :]]
        begins = 0
        while begins < len(record):
            ends = min(begins + count, len(record))
            last = ends == len(record)
            flag = (WHOLE if last else START) if begins == 0 else END if last else MIDDLE
            change = struct.unpack("<H", record[6:8])[0] if begins else 0
            request = (asked, begins, NEXT if begins else FIRST, count, change)
            check = bytes([check_byte(record)]) if flag == END else b""
            next_record = later[0] if later else 0
            answer = (next_record, 0 if last else ends, flag, record[begins:ends], check)
            yield from part(responder, number, request, answer)
            number, begins = number + 1, ends
        asked = later[0] if later else 0


def planned_records(example, name):
    """The records of a node by place."""
    plan = json.loads((HERE.parent / example / "plan.json").read_text(encoding="utf-8"))
    terminus = next(it for it in plan["nodes"] if it["name"] == name)["terminus"]
    listed = {it["handle"]: it for it in terminus["records"]}
    handle = next(iter(set(listed) - {it["next"] for it in listed.values()}))
    while handle:
        yield handle, bytes.fromhex(listed[handle]["bytes"])
        handle = listed[handle]["next"]


def changed(records, place, byte):
    """The first record with another byte at this place."""
    handle, record = records[0]
    return [(handle, record[:place] + bytes([byte]) + record[place + 1 :]), *records[1:]]


TO_HOST = entry(1, HOST, BRIDGE, 0, [0x10])
TO_NIC = entry(1, NIC, ENDPOINT, 1, [0x30])
TO_SSD = entry(1, 18, ENDPOINT, 1, [0x32])
ELSEWHERE = entry(1, 18, ENDPOINT, 0, [0x32])
EXTRA = entry(2, 40, BRIDGE_AND_RANGE, 1, [0x34])

TEXTS = {
    "as-planned": ([TO_HOST, TO_NIC, TO_SSD], NIC, [7, 17]),
    "lost-row": ([TO_HOST, TO_NIC], NIC, [7, 17]),
    "liar": ([TO_HOST, TO_NIC, ELSEWHERE, EXTRA], 19, [6, 18]),
}


WALKS = {
    "changed-record": (NIC, changed(list(planned_records("riser", "nic")), 18, 0x12), 12),
    "records": (17, list(planned_records("server", "nic1")), 32),
}


def strangers():
    """On the bus behind the riser: the host asks the nic, the riser answers the host there, and nobody's packets."""
    yield from packets(HOST, NIC, 0, 1, [2], [NIC, 0, 0])
    yield bytes([1, HOST, RISER, 0xC0 | 1, 0, 2, 2, 0, RISER, 0x10, 0])
    yield from [bytes([1, HOST, NOBODY, 0xC8 | 2, 0x7E])] * 2


def write(name, packets_of_text):
    lines = [f"{it.hex(' ')}\n" for it in packets_of_text]
    (HERE / f"{name}.txt").write_text("".join(lines), encoding="ascii")


def main():
    for name, said in TEXTS.items():
        write(name, exchanges(*said))
    for name, said in WALKS.items():
        write(name, walk(*said))
    write("strangers", strangers())


main()
