#!/usr/bin/env python3
"""A bench of the server network (examples/server): every node but bmc is emulated, and this program is bmc.

    examples/bench/bench.py [WORDS ..]

It gives all nodes their endpoint IDs by the requests of `assign`, asks each node for its endpoint ID and each bridge for
its pool and its routing table, and reads the records of the two network cards through the bridges. Of the packets that go
over the buses some are lost; what isn't answered is asked again. At last `audit` lays all packets beside the plan. The words
run mctpplan; the program is called from the top of the repository. It ends with status 0 where all of it is as planned.
"""
import json
import struct
import subprocess
import sys
import tempfile

PLAN, CERTIFICATE, MANAGER = "examples/server/plan.json", "examples/server/certificate.json", "bmc"
# Of the packets that go over a bus while the network is read, every eleventh is lost.
LOST = 11
# How often a request is sent, and how many bytes of a record one asks for.
TRIES, PART = 4, 16
CONTROL, PLDM = 0x00, 0x01
SET_EID, GET_EID, ALLOCATE, GET_ENTRIES = 0x01, 0x02, 0x08, 0x0A
GET_NEXT_PART, GET_FIRST_PART = 0, 1
END_OF_RECORD = (0x04, 0x05)


class Node:
    """A node of the plan, which the program emulates on its line protocol."""

    def __init__(self, program, name):
        words = [*program, "emulate", PLAN, CERTIFICATE, name, "--addresses", "--end"]
        self.process = subprocess.Popen(words, stdin=subprocess.PIPE, stdout=subprocess.PIPE, stderr=subprocess.DEVNULL, text=True, bufsize=1)

    def take(self, bus, address, packet):
        """Hands it a packet; answers the packets that it sends, each with its bus and the address there."""
        self.process.stdin.write(f"{bus} {address} {packet.hex()}\n")
        for line in iter(self.process.stdout.readline, ".\n"):
            bus, address, packet = line.split()
            yield bus, address, bytes.fromhex(packet)


class Network:
    """The emulated nodes, joined by the plan's buses, and all packets that went over them."""

    def __init__(self, program):
        with open(PLAN, encoding="utf-8") as it:
            plan = json.load(it)
        self.nodes = {it["name"]: it for it in plan["nodes"]}
        self.buses = [it["name"] for it in plan["buses"]]
        self.at = {(port["bus"], port["address"]): it["name"] for it in plan["nodes"] for port in it["ports"]}
        self.emulated = {name: Node(program, name) for name in self.nodes if name != MANAGER}
        self.trace, self.loses, self.sent, self.lost = [], False, 0, 0

    def address(self, name, bus):
        return next(port["address"] for port in self.nodes[name]["ports"] if port["bus"] == bus)

    def spread(self, sender, bus, address, packet):
        """Puts a packet on a bus, and all that is sent for it; answers the packets that come back to the sender."""
        come, due = [], [(sender, bus, address, packet)]
        for sender_of, bus_of, address_of, packet_of in due:
            self.trace.append((bus_of, self.address(sender_of, bus_of), packet_of))
            to = self.at[bus_of, address_of]
            if self.loses and self.is_lost():
                continue
            if to == sender:
                come.append(packet_of)
            else:
                due += [(to, *it) for it in self.emulated[to].take(bus_of, address_of, packet_of)]
        return come

    def is_lost(self):
        self.sent += 1
        self.lost += self.sent % LOST == 0
        return self.sent % LOST == 0

    def capture(self):
        """All packets as a capture file: Linux cooked capture v2 (link type 276), an interface for each bus."""
        made = bytearray(struct.pack("<IHHiIII", 0xA1B2C3D4, 2, 4, 0, 0, 65535, 276))
        for number, (bus, address, packet) in enumerate(self.trace):
            link = bytes.fromhex(address)
            head = struct.pack(">HHIHBB8s", 0x00FA, 0, self.buses.index(bus) + 1, 290, 3, len(link), link)
            made += struct.pack("<IIII", number // 1000, number % 1000 * 1000, len(head) + len(packet), len(head) + len(packet)) + head + packet
        return bytes(made)


class Requester:
    """A node that asks others: the manager, or an owner in whose name the bench gives endpoint IDs."""

    def __init__(self, network, name):
        self.network, self.name, self.tag, self.instance = network, name, 0, 0
        self.eid = network.nodes[name]["eid"]

    def ask(self, bus, address, destination, kind, body):
        """Sends a request until an answer comes; answers the bytes behind the header of the message."""
        self.tag, self.instance = (self.tag + 1) % 8, (self.instance + 1) % 32
        message = bytes([kind, 0x80 | self.instance]) + body
        packet = bytes([1, destination, self.eid, 0xC8 | self.tag]) + message
        for _ in range(TRIES):
            for answer in self.network.spread(self.name, bus, address, packet):
                if answer[3] == 0xC0 | self.tag and answer[4:6] == bytes([kind, self.instance]):
                    return answer[6:]
        sys.exit(f"endpoint ID {destination} doesn't answer")

    def ask_at(self, eid, kind, body):
        """The same along the planned row for an endpoint ID."""
        node = self.network.nodes[self.name]
        row = next(it for it in node["rows"] if it["first"] <= eid < it["first"] + it["size"])
        bus = node["ports"][row["port"]]["bus"]
        return self.ask(bus, self.network.address(row["next"], bus), eid, kind, body)


def assigned(program, network):
    """Gives each node what `assign` asks for, each by its owner; answers how many requests that took."""
    requesters, lines = {}, output(program, "assign", PLAN, CERTIFICATE).splitlines()
    for line in lines:
        bus, name, request = line.split()
        owner = network.nodes[name]["owner"]
        requester = requesters.setdefault(owner, Requester(network, owner))
        answer = requester.ask(bus, network.address(name, bus), 0, CONTROL, bytes.fromhex(request)[2:])
        if answer[1] != 0:
            sys.exit(f"{name} answers {answer.hex()}")
    return len(lines)


def found(manager):
    """Asks each node for its endpoint ID, and each bridge for its table; answers how many nodes said what is planned."""
    told = 0
    for node in manager.network.nodes.values():
        if node["name"] == MANAGER:
            continue
        answer = manager.ask_at(node["eid"], CONTROL, bytes([GET_EID]))
        told += answer[1] == 0 and answer[2] == node["eid"]
        handle = 0x00 if node["kind"] == "bridge" else 0xFF
        while handle != 0xFF:
            handle = manager.ask_at(node["eid"], CONTROL, bytes([GET_ENTRIES, handle]))[2]
    return told


def records_of(manager, eid):
    """Reads all records of a terminus, part by part, in the order in which it names them."""
    records, handle, is_over = [], 0, False
    while not is_over:
        record, transfer, operation, flag = b"", 0, GET_FIRST_PART, None
        while flag not in END_OF_RECORD:
            body = bytes([2, 0x51]) + struct.pack("<IIBHH", handle, transfer, operation, PART, 0)
            answer = manager.ask_at(eid, PLDM, body)
            following, transfer, flag, count = struct.unpack_from("<IIBH", answer, 3)
            record += answer[14 : 14 + count]
            operation = GET_NEXT_PART
        records.append(record)
        handle, is_over = following, following == 0
    return records


def output(program, *words, given=None):
    ran = subprocess.run([*program, *words], input=given, stdout=subprocess.PIPE, stderr=subprocess.DEVNULL, check=False)
    return ran.stdout if given is not None else ran.stdout.decode()


def main(program):
    network = Network(program)
    print("requests of assign:", assigned(program, network))
    network.loses = True
    manager = Requester(network, MANAGER)
    print("nodes that hold their endpoint IDs:", found(manager), "of", len(network.emulated))
    is_planned = True
    for name in ("nic0", "nic1"):
        records = records_of(manager, network.nodes[name]["eid"])
        planned = output(program, "export", "records", PLAN, CERTIFICATE, name, given=b"")
        is_planned &= b"".join(records) == planned
        print(f"{name}: {len(records)} records, {'as' if b''.join(records) == planned else 'not as'} planned")
    print("packets:", len(network.trace), "lost:", network.lost)
    for node in network.emulated.values():
        node.process.kill()
    with tempfile.NamedTemporaryFile(suffix=".pcap") as file:
        file.write(network.capture())
        file.flush()
        told = output(program, "audit", PLAN, CERTIFICATE, file.name).splitlines()
    print(*told[-1:])
    return 0 if is_planned and told and told[-1].startswith("audit match") else 1


if __name__ == "__main__":
    sys.exit(main(sys.argv[1:] or ["bin/mctpplan"]))
