#!/usr/bin/env python3
"""Makes a large lawful plan and prints it: bench/plans.py KIND NODES, where KIND is line, bus or termini."""

import json
import sys

FIRST_EID = 8
LAST_EID = 254
RECORDS = 4096


def bus_named(name):
    return {"name": name, "binding": 1, "media": 4}


def node_at(place, kind, ports, rows, terminus=None):
    """The node at a place. It has no owner and no pool."""
    return {
        "name": f"n{place}",
        "kind": kind,
        "eid": FIRST_EID + place,
        "owner": None,
        "pool": None,
        "ports": ports,
        "rows": rows,
        "terminus": terminus,
    }


def port_on(bus, place):
    return {"bus": bus, "address": f"{16 + place:02x}"}


def row_to(first, size, port, place):
    return {"first": first, "size": size, "port": port, "next": f"n{place}"}


def line(count):
    """Bridges in a line. Each shares a bus with each neighbor alone, and has one row towards each neighbor."""
    nodes = []
    for place in range(count):
        ports, rows = [], []
        if place > 0:
            rows.append(row_to(FIRST_EID, place, len(ports), place - 1))
            ports.append(port_on(f"b{place}", place))
        if place + 1 < count:
            rows.append(row_to(FIRST_EID + place + 1, count - place - 1, len(ports), place + 1))
            ports.append(port_on(f"b{place + 1}", place))
        nodes.append(node_at(place, "bridge", ports, rows))
    return [bus_named(f"b{place}") for place in range(1, count)], nodes


def bus(count):
    """Bridges on one bus, each with a row for nearly every single endpoint ID.

    Where a node holds the endpoint ID, the row leads to that node. The others are dealt out to the bridges: the rows
    for one lead from neighbor to neighbor to its bridge, which has none for it. So the ranks of two of them that follow
    one another differ.
    """
    nodes = []
    for place in range(count):
        rows = []
        for eid in range(FIRST_EID, LAST_EID + 1):
            holder = eid - FIRST_EID
            if holder < count:
                towards = holder
            elif eid % count > place:
                towards = place + 1
            elif eid % count < place:
                towards = place - 1
            else:
                towards = place
            if towards != place:
                rows.append(row_to(eid, 1, 0, towards))
        nodes.append(node_at(place, "bridge", [port_on("b", place)], rows))
    return [bus_named("b")], nodes


def records():
    """The shortest records, 10 bytes of a type that is none of the four, in another order than that of the walk."""
    listed = []
    for number in range(RECORDS):
        handle = number * 1237 % RECORDS + 1
        header = handle.to_bytes(4, "little") + bytes([1, 200, 0, 0, 0, 0])
        listed.append({"handle": handle, "next": handle % RECORDS and handle + 1, "bytes": header.hex()})
    return listed


def termini(count):
    """Endpoints on one bus, each with a terminus of as many records as one may have."""
    terminus = {"tid": 1, "records": records()}
    nodes = [node_at(place, "endpoint", [port_on("b", place)], [], terminus) for place in range(count)]
    return [bus_named("b")], nodes


KINDS = {"line": line, "bus": bus, "termini": termini}


def text_of(kind, count):
    """The plan as compact JSON."""
    buses, nodes = KINDS[kind](count)
    return json.dumps({"format": 1, "buses": buses, "nodes": nodes}, separators=(",", ":"))


def main(words):
    if len(words) != 2 or words[0] not in KINDS or words[1] not in map(str, range(1, 65)):
        print("usage: plans.py line|bus|termini NODES, 1 to 64", file=sys.stderr)
        return 2
    print(text_of(words[0], int(words[1])))
    return 0


if __name__ == "__main__":
    sys.exit(main(sys.argv[1:]))
