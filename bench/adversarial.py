"""Inputs that are made to take long, each at any of four sizes.

`ROWS` has what each is, a function that makes its files and words at a size, the smallest of the sizes, and whether its
answer is about all pairs of nodes. The other sizes are two, four and eight times as large. A file called `stdin` is standard input. tools/try crawls tries each, and
bench/measure_adversarial.py measures each.
"""

import json
import random
import struct
from collections.abc import Callable
from typing import NamedTuple

import plans

FACTORS = (1, 2, 4, 8)
MOST_NAME = 32
# From 8 to 17 under tag 3, from 17 to 8 under tag 3 as an answer, and from 8 to 17 under tag 2: a GetTID request's bytes.
ASKING, ANSWERING, OTHER = "011108cb01800002", "010811c301800002", "011108ca01800002"
RISER = "examples/riser"


def text(value):
    return json.dumps(value, separators=(",", ":"))


def plan_of(buses, nodes):
    return text({"format": 1, "buses": buses, "nodes": nodes})


def certificate_of(levels=(), places=(), ranks=()):
    return text({"format": 1, "levels": list(levels), "places": list(places), "ranks": list(ranks)})


def riser(events):
    """The words that play events on the riser network."""
    listed = text({"format": 3, "events": events})
    return {"events.json": listed}, ["sim", f"{RISER}/plan.json", f"{RISER}/certificate.json", "events.json"]


def explained(names):
    """The words that explain a certificate with a level for each name."""
    levels = [{"node": name, "level": 1} for name in names]
    return {"certificate.json": certificate_of(levels)}, ["explain", f"{RISER}/plan.json", "certificate.json"]


def different_names(size):
    return explained([f"{number * 7919 % 10_000_019:08d}" for number in range(size)])


def names_in_order(size):
    return explained([f"{number:08d}" for number in range(size)])


def names_that_begin_alike(size):
    return explained(["a" * (MOST_NAME - 8) + f"{number:08d}" for number in range(size)])


def different_keys(size):
    keys = {f"k{number:07d}": 0 for number in range(size)}
    return {"plan.json": text({"format": 1, **keys})}, ["explain", "plan.json"]


def deep_lists(size):
    return {"plan.json": '{"x":[' + ",".join(["[" * 120 + "]" * 120] * size) + "]}"}, ["explain", "plan.json"]


def records_with(handles):
    """The words that certify a plan of one terminus whose records have these handles, each leading to the next."""
    nexts = handles[1:] + [0]
    records = [
        {"handle": handle, "next": after, "bytes": (handle.to_bytes(4, "little") + bytes([1, 200, 0, 0, 0, 0])).hex()}
        for handle, after in zip(handles, nexts)
    ]
    node = plans.node_at(0, "endpoint", [plans.port_on("b", 0)], [], {"tid": 1, "records": records})
    return {"plan.json": plan_of([plans.bus_named("b")], [node])}, ["certify", "plan.json"]


def handles_up(size):
    return records_with([number + 1 for number in range(size)])


def handles_down(size):
    return records_with([size - number for number in range(size)])


def handles_to_and_fro(size):
    return records_with([1 + (number // 2 if number % 2 else size - 1 - number // 2) for number in range(size)])


def handles_far_apart(size):
    return records_with([1 + number * 2_654_435_761 % (2**32 - 2) for number in range(size)])


def full_plan(size, rows_of=list):
    """The words that certify bridges on one bus, each with a row for nearly each endpoint ID."""
    buses, nodes = plans.bus(size)
    for node in nodes:
        node["rows"] = rows_of(node["rows"])
    return {"plan.json": plan_of(buses, nodes)}, ["certify", "plan.json"]


def rows_backwards(size):
    return full_plan(size, lambda rows: rows[::-1])


def rows_in_no_order(size):
    chosen = random.Random(size)
    return full_plan(size, lambda rows: chosen.sample(rows, len(rows)))


def buses_with_ports(size):
    """64 buses, and nodes of 32 ports each."""
    ports = [[plans.port_on(f"b{(place + port) % 64}", place) for port in range(32)] for place in range(size)]
    nodes = [plans.node_at(place, "bridge", ports[place], []) for place in range(size)]
    return {"plan.json": plan_of([plans.bus_named(f"b{it}") for it in range(64)], nodes)}, ["certify", "plan.json"]


def broken_ranks(size):
    """A certificate whose ranks are ranges of one endpoint ID each, for the node of a plan of one, over and over."""
    ranges = [{"first": 8 + it, "size": 1, "rank": it % 200 + 1} for it in range(240)]
    return {
        "plan.json": plan_of([plans.bus_named("b")], [plans.node_at(0, "endpoint", [plans.port_on("b", 0)], [])]),
        "certificate.json": certificate_of(ranks=[{"node": f"m{it}", "ranges": ranges} for it in range(size)]),
    }, ["explain", "plan.json", "certificate.json"]


def put(at, packet):
    return {"do": "put", "node": at, "bytes": packet}


def move(flight, keep=False):
    return {"do": "move", "flight": flight, "keep": keep}


WALK, ASK = {"do": "walk", "node": "host", "eid": 17, "tag": 3, "count": 64}, {"do": "ask", "walker": 1}


def asks_among_flights(size):
    """An answer of the walker's is on its way, so that each ask has to wait, while the flights of another key grow."""
    return riser([WALK, put("nic", ANSWERING)] + [put("host", OTHER), ASK] * (size // 2))


def asks_among_messages(size):
    """The same while the messages of another key that wait at the terminus grow."""
    events = [WALK, put("nic", ANSWERING)]
    for flight in range(2, 2 + size // 5):
        events += [put("host", OTHER), move(flight), move(flight), move(flight), ASK]
    return riser(events)


def copies(size):
    return riser([put("host", OTHER)] + [move(1, keep=True)] * size)


def losses(size):
    return riser([put("host", OTHER)] * (size // 2) + [{"do": "lose", "flight": 1 + it} for it in range(size // 2)])


def losses_backwards(size):
    half = size // 2
    return riser([put("host", OTHER)] * half + [{"do": "lose", "flight": half - it} for it in range(half)])


def answers(size):
    """Requests that all wait before the first is answered."""
    events, count = [], size // 5
    for flight in range(1, 1 + count):
        events += [put("host", OTHER), move(flight), move(flight), move(flight)]
    return riser(events + [{"do": "answer", "node": "nic"}] * count)


def told(size):
    return riser([WALK] + [{"do": "collected", "walker": 1}] * size)


def played_by_walkers(size, more):
    """Walkers at 64 nodes, each with a terminus, one for each node, endpoint ID and tag, and the events `more` then."""
    terminus = {"tid": 1, "records": [{"handle": 1, "next": 0, "bytes": "0100000001c800000000"}]}
    nodes = [plans.node_at(place, "endpoint", [plans.port_on("b", place)], [], terminus) for place in range(64)]
    places = [{"node": node["name"], "places": [0]} for node in nodes]
    events = [
        {"do": "walk", "node": f"n{it // 512}", "eid": 8 + it // 8 % 64, "tag": it % 8, "count": 64} for it in range(size)
    ]
    return {
        "plan.json": plan_of([plans.bus_named("b")], nodes),
        "certificate.json": certificate_of(places=places),
        "events.json": text({"format": 3, "events": events + more}),
    }, ["sim", "plan.json", "certificate.json", "events.json"]


def walkers(size):
    return played_by_walkers(size, [])


def messages_to_walkers(size):
    """Messages that come at the node of the last walker, which they are for."""
    node, eid, tag = (size - 1) // 512, 8 + (size - 1) // 8 % 64, (size - 1) % 8
    packet = bytes([1, 8 + node, eid, 0xC0 + tag, 1, 0x80, 0, 2]).hex()
    events = []
    for flight in range(1, 1 + size):
        events += [put(f"n{node}", packet), move(flight)]
    return played_by_walkers(size, events)


def sensor_with(handle, sensor_id):
    """A state sensor's record."""
    body = struct.pack("<5H3B", 0, sensor_id, 144, 0, 0, 0, 0, 1) + bytes([1, 0, 1, 6])
    return {"handle": handle, "next": 0, "bytes": (struct.pack("<IBBHH", handle, 1, 4, 0, len(body)) + body).hex()}


def plan_of_records(records):
    """A plan of one terminus with these records."""
    node = plans.node_at(0, "endpoint", [plans.port_on("b", 0)], [], {"tid": 1, "records": records})
    return plan_of([plans.bus_named("b")], [node])


def plan_of_sensors(sensor_ids):
    """A plan of one terminus with a sensor for each sensor ID, and no terminus locator."""
    return plan_of_records([sensor_with(handle, it) for handle, it in enumerate(sensor_ids, 1)])


def sensors(size):
    """Sensors, each with a sensor ID of its own."""
    return {"plan.json": plan_of_sensors(it * 7919 % 65_536 for it in range(size))}, ["lint", "plan.json"]


def changed_records(size):
    """The words that tell two plans apart, each record of which is another."""
    files = {"old.json": plan_of_sensors(range(size)), "new.json": plan_of_sensors(range(1, 1 + size))}
    return files, ["diff", "old.json", "new.json"]


def records_of_one_handle(size):
    """The same where all records have one handle: half of the new ones are the old plan's too, and it has one other."""
    old = [sensor_with(1, it) for it in range(1 + size // 2)]
    new = [sensor_with(1, size - it) for it in range(size)]
    return {"old.json": plan_of_records(old), "new.json": plan_of_records(new)}, ["diff", "old.json", "new.json"]


def broken_rows(size):
    """The words that list the faults of bridges on one bus, none of whose rows leads anywhere."""
    buses, nodes = plans.bus(size)
    for node in nodes:
        node["rows"] = [{**row, "port": 9} for row in node["rows"]]
    return {"plan.json": plan_of(buses, nodes)}, ["faults", "plan.json"]


def rows_without_ranks(size):
    """Those of bridges beside a certificate that gives no rank."""
    buses, nodes = plans.bus(size)
    return {"plan.json": plan_of(buses, nodes), "certificate.json": certificate_of()}, ["faults", "plan.json", "certificate.json"]


def broken_records(size):
    """Those of records that have another handle in their bytes."""
    records = [{**sensor_with(it + 1, it), "handle": it} for it in range(1, 1 + size)]
    return {"plan.json": plan_of_records(records)}, ["faults", "plan.json"]


def as_json(made):
    """The same words with an answer in JSON."""

    def made_so(size):
        files, words = made(size)
        return files, [words[0], "--json", *words[1:]]

    return made_so


def sensors_of_one_id(size):
    """Sensors that all have one sensor ID."""
    return {"plan.json": plan_of_sensors([7] * size)}, ["lint", "plan.json"]


def line_plan(count):
    """The text of bridges in a line."""
    return plans.text_of("line", count)


def line_certificate(count):
    """That plan's certificate: ranks are the hops along the line."""
    ranks = [
        {
            "node": f"n{place}",
            "ranges": [
                {"first": plans.FIRST_EID + other, "size": 1, "rank": abs(place - other)} for other in range(count) if other != place
            ],
        }
        for place in range(count)
    ]
    return certificate_of(ranks=ranks)


def over_a_line(size, before, behind=()):
    """Words that ask something of bridges in a line."""
    files = {"plan.json": line_plan(size), "certificate.json": line_certificate(size)}
    return files, [*before, "plan.json", "certificate.json", *behind]


def traced_in_json(size):
    return over_a_line(size, ["trace", "--json"], ["n0", f"n{size - 1}"])


def matrix_of_a_line(size):
    return over_a_line(size, ["matrix"])


def reported(size):
    return over_a_line(size, ["report"])


def wishes(size):
    """Many wishes that each node is reached."""
    lines = "".join("host -> *\n" for _ in range(size))
    return {"wanted.txt": lines}, ["require", f"{RISER}/plan.json", f"{RISER}/certificate.json", "wanted.txt"]


def rows_of_a_line(size):
    """Bridges in a line that have no rows yet."""
    buses, nodes = plans.line(size)
    return {"plan.json": plan_of(buses, [{**node, "rows": []} for node in nodes])}, ["rows", "plan.json"]


def board_of_a_line(size, rows_at):
    """The board of bridges in a line, each with the rows that it gives."""
    tables = [f'[[bus]]\nname = "b{place}"\nbinding = "smbus"\n' for place in range(1, size)]
    for place in range(size):
        ports = [f'"b{at} {32 + 2 * place:02x}"' for at in (place, place + 1) if 0 < at < size]
        node = [f'[[node]]\nname = "n{place}"\nkind = "bridge"\neid = {plans.FIRST_EID + place}\nports = [{", ".join(ports)}]\n']
        given = rows_at(place)
        tables.append("".join([*node, f"rows = [{', '.join(given)}]\n"] if given else node))
    return {"board.toml": "\n".join(tables)}, ["make", "board.toml"]


def made_line(size):
    return board_of_a_line(size, lambda place: [])


def made_line_with_rows(size):
    """Each bridge gives the rows towards the first, of one endpoint ID each."""
    return board_of_a_line(size, lambda place: [f'"{plans.FIRST_EID + it} via n{place - 1} port 0"' for it in range(place)])


def broken_row(size):
    """Bridges on one bus, of which the last row has a port that isn't there."""
    buses, nodes = plans.bus(size)
    nodes[-1]["rows"][-1]["port"] = 31
    return {"plan.json": plan_of(buses, nodes)}, ["explain", "plan.json"]


def mended_row(size):
    files, words = broken_row(size)
    return files, ["fix", *words[1:]]


def answered_packets(size):
    """Packets that an emulated node is given, line by line."""
    return {"stdin": f"b1 {OTHER}\n" * size}, ["emulate", f"{RISER}/plan.json", f"{RISER}/certificate.json", "nic"]


def decoded_packets(size):
    """The same packets in a capture."""
    return {"capture.txt": f"{OTHER}\n" * size}, ["decode", "capture.txt"]


class Input(NamedTuple):
    """An input that is made at a size."""

    name: str
    made: Callable
    smallest: int
    is_of_pairs: bool = False


ROWS = [
    Input("different names in a certificate", different_names, 2_500),
    Input("names in order in a certificate", names_in_order, 2_500),
    Input("names that begin alike in a certificate", names_that_begin_alike, 2_500),
    Input("different keys in a plan", different_keys, 2_500),
    Input("lists 120 deep", deep_lists, 250),
    Input("handles that ascend", handles_up, 512),
    Input("handles that descend", handles_down, 512),
    Input("handles that go to and fro", handles_to_and_fro, 512),
    Input("handles that are far apart", handles_far_apart, 512),
    Input("rows in the order of endpoint IDs", full_plan, 8),
    Input("rows in the other order", rows_backwards, 8),
    Input("rows in no order", rows_in_no_order, 8),
    Input("64 buses, nodes of 32 ports", buses_with_ports, 8),
    Input("ranks in ranges of one endpoint ID", broken_ranks, 32),
    Input("asks while packets are on their way", asks_among_flights, 2_000),
    Input("asks while messages wait", asks_among_messages, 2_000),
    Input("copies of a packet", copies, 2_000),
    Input("packets that are lost, oldest first", losses, 2_000),
    Input("packets that are lost, newest first", losses_backwards, 2_000),
    Input("answers to requests that all wait", answers, 2_000),
    Input("a walker that is told over and over", told, 2_000),
    Input("walkers that begin", walkers, 512),
    Input("messages that come to walkers", messages_to_walkers, 512),
    Input("sensors of different IDs", sensors, 512),
    Input("diff of many records", changed_records, 128),
    Input("diff of many records of one handle", records_of_one_handle, 128),
    Input("faults of many rows", broken_rows, 8),
    Input("faults of many rows and a certificate", rows_without_ranks, 8),
    Input("faults of many records", broken_records, 64),
    Input("faults of many records, in JSON", as_json(broken_records), 64),
    Input("lint of many sensors of one ID, in JSON", as_json(sensors_of_one_id), 64),
    Input("trace of a line, in JSON", traced_in_json, 8),
    Input("matrix of a line", matrix_of_a_line, 8, is_of_pairs=True),
    Input("report of a line", reported, 8, is_of_pairs=True),
    Input("wishes for all nodes", wishes, 512),
    Input("rows of a line", rows_of_a_line, 8, is_of_pairs=True),
    Input("make of a line", made_line, 8, is_of_pairs=True),
    Input("make of a line with rows of its own", made_line_with_rows, 8, is_of_pairs=True),
    Input("explain of a broken row", broken_row, 8),
    Input("fix of a broken row", mended_row, 8),
    Input("packets for an emulated node", answered_packets, 512),
    Input("packets of a capture", decoded_packets, 512),
]
