"""Networks in more orders than can be written down: what comes of each. Each order is one item:

    lines     a line of bridges, for each length from 2 to 64: its certificate, to the byte, and a request along it
    switches  packets on their way while six bridges switch to new rows, in each of the 720 orders of switches
    packets   the five packets of a message: each choice of them, in each order, one of them twice or none (3,751)
    parts     messages of other numbers of packets: two of six come, and four of 1,024 bytes
    walks     walks at length: 40 requests, an answer of five packets of which one comes twice, 32 walkers, 4,097 records,
              and walks over a network that loses each second packet and repeats every third

What is wanted is told here by itself, and compared with the lines that sim and simmove print.
"""
import itertools
import json
import pathlib
import subprocess

from runner import RISER, each

UNIT = 64  # payload bytes of a packet
HOST, NIC, SSD = 8, 17, 18  # endpoint IDs of the riser network


# ---- running


class Program:
    """The program, and what it prints."""

    def __init__(self, trial):
        self.trial, self.names = trial, itertools.count()

    def file(self, text):
        """A file with this text; a path is one already."""
        return text if isinstance(text, pathlib.Path) else self.trial.file(f"text-{next(self.names)}", text)

    def lines(self, *words):
        """What a command prints, a line each; it has to end with status 0."""
        status, output, error = self.trial.run(words)
        if status or error:
            raise ValueError(f"{words[0]} ended with status {status}: {output[-200:]}{error}")
        return output.decode().splitlines()

    def certified(self, plan):
        """The file of a plan, and that of the certificate that it has."""
        plan = self.file(plan)
        return plan, self.file("\n".join(self.lines("certify", plan)) + "\n")

    def played(self, command, files, events):
        """What comes of each event, without its number."""
        files = [*files, self.file(json.dumps({"format": 3, "events": events}))]
        return [it.split(" ", 1)[1] for it in self.lines(command, *files)]


# ---- events


def put(node, packet):
    return {"do": "put", "node": node, "bytes": packet.hex()}


def move(flight, keep=False):
    return {"do": "move", "flight": flight, "keep": keep}


def lose(flight):
    return {"do": "lose", "flight": flight}


def do(what, **keys):
    return {"do": what, **keys}


def packets_of(message, destination, unit=UNIT):
    """The packets of a message of host under tag 1, which host owns, each with its header (DSP0236)."""
    pieces = [message[at : at + unit] for at in range(0, len(message), unit)]
    for at, piece in enumerate(pieces):
        marks = (0x80 if at == 0 else 0) | (0x40 if at == len(pieces) - 1 else 0)
        yield bytes([1, destination, HOST, marks | (at % 4) << 4 | 0x09]) + piece


def message_of(length):
    """A message no two of whose pieces of 64 bytes are the same."""
    return bytes(at % 251 for at in range(length))


def node_of(name, kind, eid, ports, rows):
    """A node of a plan, with no owner, no pool and no terminus."""
    return {"name": name, "kind": kind, "eid": eid, "owner": None, "pool": None, "ports": ports, "rows": rows, "terminus": None}


def plan_of(buses, nodes):
    """The text of a plan of buses of these names."""
    return json.dumps({"format": 1, "buses": [{"name": it, "binding": 1, "media": 4} for it in buses], "nodes": nodes})


# ---- lines of bridges


def line_of(count):
    """The plan of a line of bridges. The one at place i has the endpoint ID 8 + i, shares a bus with each neighbor alone,
    and has one row towards each, for all endpoint IDs on that side."""
    nodes = []
    for at in range(count):
        ports, rows = [], []
        if at > 0:
            ports.append({"bus": f"b{at}", "address": "10"})
            rows.append({"first": 8, "size": at, "port": 0, "next": f"n{at - 1}"})
        if at + 1 < count:
            ports.append({"bus": f"b{at + 1}", "address": "12"})
            rows.append({"first": 9 + at, "size": count - at - 1, "port": len(ports) - 1, "next": f"n{at + 1}"})
        nodes.append(node_of(f"n{at}", "bridge", 8 + at, ports, rows))
    return plan_of([f"b{at}" for at in range(1, count)], nodes)


def ranks_of_line(count):
    """The text of the line's certificate: in it each bridge's rank for the endpoint ID of another is their distance."""
    ranks = [
        {"node": f"n{at}", "ranges": [{"first": 8 + to, "rank": abs(to - at), "size": 1} for to in range(count) if to != at]}
        for at in range(count)
    ]
    return json.dumps({"format": 1, "levels": [], "places": [], "ranks": ranks}, separators=(",", ":"))


def try_line(program, count):
    """The certificate has the distances and no other rank, `check` accepts it, and a request of the first bridge comes
    whole at the last, with as many moves as there are bridges."""
    plan, certificate = program.certified(line_of(count))
    request = bytes([1, count + 7, 8, 0xCB, 1, 0x80, 0, 2])
    came = program.played("sim", (plan, certificate), [put("n0", request), *[move(1)] * count])
    hops = [f"moved 1 to n{at} hops {at}" for at in range(1, count)]
    is_ranked = certificate.read_text() == ranks_of_line(count) + "\n" and program.lines("check", plan, certificate) == ["yes"]
    return is_ranked and came == ["put 1 at n0", *hops, f"whole 1 at n{count - 1} bytes 01800002"]


# ---- switches


BRIDGES = 6


def line_to_x(stride):
    """The plan of six bridges on one bus, each of which passes on to the one so many places on, or to endpoint x."""
    nodes = []
    for at in range(BRIDGES):
        on = f"n{at + stride}" if at + stride < BRIDGES else "x"
        row = {"first": 17, "size": 1, "port": 0, "next": on}
        nodes.append(node_of(f"n{at}", "bridge", 8 + at, [{"bus": "b", "address": f"1{at}"}], [row]))
    nodes.append(node_of("x", "endpoint", 17, [{"bus": "b", "address": "20"}], []))
    return plan_of(["b"], nodes)


def ranks_to_x():
    """The certificate in which the rank of each bridge is the number of bridges from it on."""
    ranks = [{"node": f"n{at}", "ranges": [{"first": 17, "rank": BRIDGES - at, "size": 1}]} for at in range(BRIDGES)]
    return json.dumps({"format": 1, "levels": [], "places": [], "ranks": ranks})


def switch_events(order):
    """A packet is put in before each switch and after the last, and each on its way moves between two of these."""
    request = bytes([1, 17, 8, 0xCB, 1, 0x80, 0, 2])
    for at in range(2 * BRIDGES + 2):
        yield from [put("n0", request)] * (at <= BRIDGES)
        yield from (move(flight) for flight in range(1, 8))
        yield from (do("switch", node=f"n{node}") for node in order[at : at + 1])


def is_lawful(line):
    """Whether a line can come where each packet moves within its rank: at a place it has made at most as many hops as
    there are places before."""
    words = line.split()
    if words[0] == "moved":
        place = BRIDGES if words[3] == "x" else int(words[3][1:])
        return int(words[5]) <= place
    return words[0] in ("put", "whole", "switched") or line == "refused N03"


def try_switches(program, files, order):
    """All packets come whole, within their ranks."""
    came = program.played("simmove", files, [*switch_events(order)])
    return all(map(is_lawful, came)) and sum(it.startswith("whole ") for it in came) == BRIDGES + 1


# ---- the packets of a message


def orders():
    """The places of five packets in the orders in which they come: each once, but for one at most that comes twice."""
    for count in range(7):
        for places in itertools.product(range(5), repeat=count):
            if sum(places[:at].count(it) for at, it in enumerate(places)) <= 1:
                yield places


def order_events(packets, places, first):
    """The events of one order, the places of the moves that enter ssd, and the next flight. The flights begin with the
    one given. A packet that comes again goes as a copy first; one that doesn't come is lost."""
    events = [put("host", it) for it in packets]
    events += [lose(first + at) for at in range(5) if at not in places]
    flight, enters = first + 5, []
    for at, place in enumerate(places):
        goes = first + place
        if place in places[at + 1 :]:
            events.append(move(goes, keep=True))
            goes, flight = flight, flight + 1
        else:
            events.append(move(goes))
        events += [move(goes), move(goes)]
        enters.append(len(events) - 1)
    events.append(do("expire", node="ssd", source=HOST, tag=1, owner=1))
    return events, enters, flight


def come_in_a_row(places):
    return (0, 1, 2, 3, 4) in (places[:5], places[-5:])


def is_whole_or_nothing(lines, enters, places, message):
    """Whether the message comes once where its packets come in a row, and never otherwise."""
    come = 0
    for at in enters:
        words = lines[at].split()
        if words[0] == "whole":
            come += 1
            if words[2:] != ["at", "ssd", "bytes", message.hex()]:
                return False
        elif words[0] != "held" and not (words[0] == "dropped" and words[2] in ("A01", "A02")):
            return False
    return come == int(come_in_a_row(places))


def try_packets(program):
    """Each order of the five packets, all in some long lists of events."""
    message = message_of(5 * UNIT)
    packets = [*packets_of(message, SSD)]
    files = RISER / "plan.json", RISER / "certificate.json"
    lists = [[]]
    for places in orders():
        if sum(len(it[0]) for it in lists[-1]) > 20_000:
            lists.append([])
        first = lists[-1][-1][3] if lists[-1] else 1
        events, enters, flight = order_events(packets, places, first)
        lists[-1].append((events, enters, places, flight))
    for orders_of_list in lists:
        came = program.played("sim", files, [event for it in orders_of_list for event in it[0]])
        at = 0
        for events, enters, places, _ in orders_of_list:
            yield f"packets {places}", is_whole_or_nothing(came[at : at + len(events)], enters, places, message)
            at += len(events)
    # without a packet twice 1 + 5 + 20 + 60 + 120 + 120, with one twice 5 + 60 + 360 + 1200 + 1800
    played = [places for it in lists for _, _, places, _ in it]
    yield "packets: how many orders there are", (len(played), sum(map(come_in_a_row, played))) == (3751, 11)


def try_two_of_six(program):
    """Of six packets the first and the last come as a message that was not sent: a packet's number has two bits alone."""
    message = message_of(6 * UNIT)
    puts, losses = [put("host", it) for it in packets_of(message, SSD)], [lose(it) for it in range(2, 6)]
    events = [*puts, *losses, *[move(1)] * 3, *[move(6)] * 3]
    came = program.played("sim", (RISER / "plan.json", RISER / "certificate.json"), events)
    ends = (message[:UNIT] + message[-UNIT:]).hex()
    return len(came) == 16 and came[12] == "held 1" and came[15] == f"whole 6 at ssd bytes {ends}"


def try_four_of_1024(program):
    """A message of 4,096 bytes comes with the fourth of its packets of 1,024 bytes."""
    plan = (RISER / "plan.json").read_text().replace('{"format":1,', '{"format":2,"unit":1024,', 1)
    message = message_of(4096)
    packets = [*packets_of(message, SSD, 1024)]
    events = [event for at, it in enumerate(packets, 1) for event in (put("host", it), *[move(at)] * 3)]
    came = program.played("sim", (program.file(plan), RISER / "certificate.json"), events)
    return len(packets) == 4 and came[3::4] == ["held 1", "held 2", "held 3", f"whole 4 at ssd bytes {message.hex()}"]


# ---- walks


def record_of(handle, length):
    """A record of another type than those that are known, with so many bytes of data."""
    header = handle.to_bytes(4, "little") + bytes([1, 200, 0, 0]) + length.to_bytes(2, "little")
    return header + message_of(length)


def riser_with(records):
    """The plan of the riser network with these records at nic, by their handles, which follow one another by handle."""
    plan = json.loads((RISER / "plan.json").read_text())
    handles = sorted(handle for handle, _ in records)
    following = dict(zip(handles, [*handles[1:], 0]))
    listed = [{"handle": handle, "next": following[handle], "bytes": data.hex()} for handle, data in records]
    plan["nodes"][2]["terminus"]["records"] = listed
    return json.dumps(plan)


def walk(tag, count):
    return do("walk", node="host", eid=NIC, tag=tag, count=count)


def try_instance_ids(program):
    """The instance IDs of 40 requests go round after 32; each record comes with one exchange."""
    files = program.certified(riser_with([(at, record_of(at, 0)) for at in range(1, 41)]))
    events, wanted = [walk(2, 16)], []
    for at in range(40):
        request, answer = 2 * at + 1, 2 * at + 2
        events += [do("ask", walker=1), *[move(request)] * 3, do("answer", node="nic"), *[move(answer)] * 3]
        wanted.append(f"whole {request} at nic bytes 01{0x80 + at % 32:02x}")
    came = program.played("sim", files, [*events, do("collected", walker=1)])
    requests = came[4:-1:8]
    are_right = len(requests) == 40 and all(map(str.startswith, requests, wanted))
    return are_right and came[-1] == "collected 1 records 40 done"


# In turn: the place of the answer whose packet comes twice, how many packets the answer has, how often a message comes.
ANSWERS = ((1, 5, 0), (2, 5, 0), (3, 5, 0), (0, 5, 1), (None, 1, 1))


def try_five_packets(program):
    """An answer of five packets comes whole or not: a packet that comes twice ends its message, but for the first."""
    files = program.certified(riser_with([(1, record_of(1, 320))]))
    events, wanted, flight = [walk(1, 303)], [], 1
    for twice, many, come in ANSWERS:
        events += [do("ask", walker=1), *[move(flight)] * 3, do("answer", node="nic")]
        first, last = flight + 1, flight + many
        wanted.append((len(events) - 1, f"answered nic flights {first} to {last}", come))
        flight = last + 1
        for at in range(many):
            if at == twice:
                events += [move(first + at, keep=True), *[move(flight)] * 2]
                flight += 1
            events += [move(first + at)] * 3
    events.append(do("collected", walker=1))
    came = program.played("sim", files, events)
    ends = [at for at, _, _ in wanted[1:]] + [len(came)]
    for (at, line, come), end in zip(wanted, ends):
        messages = [it for it in came[at:end] if it.startswith("whole ") and " at host " in it]
        if came[at] != line or len(messages) != come:
            return False
    return came[-1] == "collected 1 records 1 done"


def try_32_walkers(program):
    """32 walkers ask one terminus, each begun once, and no other."""
    walkers = itertools.product(("host", "riser", "nic", "ssd"), range(8))
    walks = [do("walk", node=node, eid=NIC, tag=tag, count=8) for node, tag in walkers]
    events = [*walks, *walks, *(do("ask", walker=at) for at in range(1, 34))]
    came = program.played("sim", (RISER / "plan.json", RISER / "certificate.json"), events)
    asked = [f"asked {at} flight {at}" for at in range(1, 33)]
    return came == [*(f"walker {at}" for at in range(1, 33)), *["refused N08"] * 32, *asked, "refused N11"]


def answer_of(instance, following, record):
    """A packet from nic to itself under tag 0, which nic doesn't own: the answer to a GetPDR request with a whole record,
    and the handle of the one that follows."""
    numbers = following.to_bytes(4, "little") + bytes(4)
    message = bytes([1, instance, 2, 0x51, 0]) + numbers + bytes([5]) + len(record).to_bytes(2, "little") + record
    return bytes([1, NIC, NIC, 0xC0]) + message


def try_one_record_too_many(program):
    """A walker takes 4,096 records that somebody else puts in under its second key, and fails with one more (G09)."""
    events = [do("walk", node="nic", eid=NIC, tag=0, count=16)]
    for at in range(4097):
        request, answer = 2 * at + 1, 2 * at + 2
        packet = answer_of(at % 32, at + 2, record_of(at + 1, 0))
        events += [do("ask", walker=1), lose(request), put("nic", packet), move(answer)]
    events.append(do("collected", walker=1))
    came = program.played("sim", (RISER / "plan.json", RISER / "certificate.json"), events)
    results = [it.split(" walker 1 ")[1] for it in came if " walker 1 " in it]
    return results == ["record"] * 4096 + ["G09"] and came[-1] == "collected 1 records 4096 G09"


# Three records of nic, of 26, 19 and 27 bytes: the list of the plan begins with the last of the chain.
THREE = [
    (3, bytes.fromhex("03000000010f000010006400002d0001000000012f0001006400")),
    (1, bytes.fromhex("01000000010100000900010001010000010111")),
    (2, bytes.fromhex("020000000104000011000100050021000100000000000101000106")),
]


class Losing:
    """A network that loses each second packet that is put in and repeats every third, played step by step: the list of
    events so far is played again for each."""

    def __init__(self, program, command, files):
        self.program, self.command, self.files = program, command, files
        self.events, self.put_in = [], 0

    def play(self, *events):
        """What comes of the last of these events, behind all before them."""
        self.events += events
        return self.program.played(self.command, self.files, self.events)[-1]

    def carry(self, flight):
        """Does to the flight of the packet that is put in next what becomes of it."""
        self.put_in += 1
        if self.put_in % 2 == 0:
            self.play(lose(flight))
            return
        if self.put_in % 3 == 0:
            words = self.play(move(flight, keep=True)).split()
            if words[0] == "moved":
                self.play(*[move(int(words[1]))] * 4)
        self.play(*[move(flight)] * 4)

    def ask(self, walker):
        """Lets a walker ask, and carries its request. Tells whether its walk goes on."""
        words = self.play(do("ask", walker=walker)).split()
        if words[0] == "asked":
            self.carry(int(words[3]))
        elif words != ["refused", "N13"]:
            raise ValueError(f"it isn't asked: {words}")
        return words[0] == "asked"

    def answer_all(self):
        """Lets nic answer what waits there, and carries the answers."""
        for _ in range(4):
            words = self.play(do("answer", node="nic")).split()
            if words[0] == "answered":
                self.carry(int(words[3]))

    def walk_on(self, walkers, switching):
        """Lets walkers ask in turn until all their walks are over; these nodes switch one by one, after each turn."""
        for turn in range(100):
            if not any([self.ask(it) for it in walkers]):
                return
            self.events += [do("switch", node=it) for it in switching[turn : turn + 1]]
            self.answer_all()
        raise ValueError("a walk isn't over")


def try_losing(program, tags, switching=()):
    """Walks under these tags collect all records of nic, each whole, while these nodes switch."""
    plan, certificate = program.certified(riser_with(THREE))
    files = (plan, plan, certificate) if switching else (plan, certificate)
    network = Losing(program, "simmove" if switching else "sim", files)
    network.events += [walk(tag, 16) for tag in tags]
    walkers = range(1, len(tags) + 1)
    network.walk_on(walkers, switching)
    told = [network.play(do("collected", walker=it)) for it in (0, *walkers, len(tags) + 1)]
    return told == ["refused N11", *(f"collected {it} records 3 done" for it in walkers), "refused N11"]


# ---- all of them


def items(program):
    """Each item, with a call that tries it."""
    for count in range(2, 65):
        yield f"line of {count}", lambda count=count: try_line(program, count)
    files = program.file(line_to_x(1)), program.file(line_to_x(2)), program.file(ranks_to_x())
    for order in itertools.permutations(range(BRIDGES)):
        yield f"switches {order}", lambda order=order: try_switches(program, files, order)
    yield "two of six packets", lambda: try_two_of_six(program)
    yield "four packets of 1,024 bytes", lambda: try_four_of_1024(program)
    yield "instance IDs", lambda: try_instance_ids(program)
    yield "answers of five packets", lambda: try_five_packets(program)
    yield "32 walkers", lambda: try_32_walkers(program)
    yield "one record too many", lambda: try_one_record_too_many(program)
    yield "a walk over a losing network", lambda: try_losing(program, [2])
    yield "two walks over a losing network", lambda: try_losing(program, [2, 3])
    yield "a walk while every node switches", lambda: try_losing(program, [2], ["riser", "nic", "host", "ssd"])


def tried(item):
    """The item's name, and whether it came as wanted."""
    name, call = item
    try:
        return name, call()
    except (ValueError, IndexError, OSError, subprocess.TimeoutExpired) as why:
        return f"{name}: {why}", False


def try_all(trial):
    program = Program(trial)
    results = each(tried, [it for it in items(program) if trial.has(it[0])])
    if trial.has("packets"):
        name, came = tried(("packets", lambda: [*try_packets(program)]))
        results += came or [(name, False)]
    for name, is_right in results:
        trial.note(is_right, f"{name}: not as wanted")
