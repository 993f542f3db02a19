"""Worked messages and records, cut at each length and with each byte in turn 00 and FF: each is told with its cause.

What comes of the bytes is told here from docs/FORMATS.md and docs/REFUSALS.md alone, and compared with the lines of show,
decode and emulate. A word chooses among these three. Answers that readers of tables and walkers take the crate
message_tests damages.
"""
import collections
import itertools
import struct

from runner import RISER, check_byte, each

FEW = 8  # one of so many, where the program is unproved and slow

# ---- what is damaged


def several(text):
    return [bytes.fromhex(it) for it in text.split()]


UNIT = bytes(range(64))
PACKETS = several("010a08cb01800002 020a08c801 f10a08c801 011208cb01800002 011108cb01800002") + [b"\x01\x0a\x08\xc8" + UNIT + b"\x40"]
# Packets of messages of 130 and 65 bytes, of one in which a number comes twice, and of one that misses four.
CUT = [
    [bytes([1, 9, 8, flags]) + part for flags, part in zip(all_flags, parts)]
    for all_flags, parts in (
        (b"\x89\x19\x69", (UNIT, UNIT, b"\x80\x81")),
        (b"\x89\x59", (UNIT, b"\x40")),
        (b"\x89\x19\x19\x29\x69", [UNIT] * 5),
        (b"\x89\x59", [UNIT] * 2),
    )
]
LOCATOR = bytes.fromhex("01000000010100000900010001010000010111")  # what nic of the riser network has
# A locator, a state sensor, an association, another type, and a numeric sensor whose sizes are those of a byte, as it is
# and with a byte too many.
RECORDS = several("""
    0100000001010000090001000101000001010a 020000000104000011000100050021000100000000000101000106
    03000000010f000010006400002d0001000000012f0001006400 0400000001c801000200aabb""")
RECORDS += [struct.pack("<IBBHH", 5, 1, 2, 0, many) + bytes(at % 22 and at % 48 for at in range(many)) for many in (59, 60)]
# Control messages and PLDM messages: requests and answers.
MESSAGES = several("""
    008001000a 0080010010 008001010011 0080010111 00800100 008502 00a002 00c002 808002 00800800 008003 00800a00 00800a03
    008008000711 008008000320 008008020000
    00000100000a00 00000100100a00 00000100021007 00000102 00000200101000 00050200000000 00000800000711 00000800010711
    00000805 00000a00ff00 00000a00ff03010880010401100111010104013001120101040132 00000a02
    01800002 0180000105 01800001ff 01800004 01800401 01800250 0180000200 01c00002
    0180025100000000000000000110000000 0181025100000000100000000010000000 0180025100000000000000000113000000
    01800251000000000000000001100000 0180025100000000000000000210000000 0180025100000000000000000100000000
    0180025163000000000000000110000000 0180025100000000100000000010000100 0180025100000000130000000010000000
    0180025100000000000000000010000000
    010000020001 0100000100 01000004000500000000000000 0100040120 0100025183
    0100025100000000001000000000100001000000010100000900010001010000 0101025100000000000000000004030001010aa6
    01000251000000000000000000051300""" + RECORDS[0].hex())


def damaged(trial, data):
    """Bytes as they are, each beginning of them, and with each byte 00 and FF."""
    both = (data[:at] + byte + data[at + 1 :] for at in range(len(data)) for byte in (b"\x00", b"\xff"))
    return [data, *(data[:at] for at in range(len(data))), *both][:: FEW if trial.is_unproved else 1]


def shorter(record):
    """A record with each beginning of its body, of which the header has the length."""
    return [record[:8] + struct.pack("<H", length) + record[10 : 10 + length] for length in range(len(record) - 10)]


# ---- packets and records


class Refused(Exception):
    pass


def packet_line(data):
    for code, is_so in (("P01", len(data) < 4), ("P02", len(data) == 4), ("P03", len(data) > 68), ("P04", data[:1] and data[0] & 15 != 1)):
        if is_so:
            raise Refused(code)
    som, eom, number, owner, tag = (data[3] >> shift & most for shift, most in ((7, 1), (6, 1), (4, 3), (3, 1), (0, 7)))
    ends = f"reserved {data[0] >> 4} destination {data[1]} source {data[2]}"
    return f"packet {ends} som {som} eom {eom} number {number} owner {owner} tag {tag} payload {data[4:].hex()}"


class Fields:
    """The fields of a record's body, one after another."""

    def __init__(self, left):
        self.left = left

    def take(self, count):
        if count > len(self.left):
            raise Refused("D04")
        taken, self.left = self.left[:count], self.left[count:]
        return taken

    def numbers(self, widths):
        return [int.from_bytes(self.take(int(it)), "little") for it in widths]

    def format(self, most):
        """A data size or a range field format, and how many bytes a number of it has."""
        (code,) = self.numbers("1")
        if code > most:
            raise Refused("D06")
        return code, "1122444"[code]


def body_line(kind, fields):
    if kind == 1:
        words = "terminus {} validity {} tid {} container {} locator {} value ".format(*fields.numbers("21121"))
        return words + fields.take(*fields.numbers("1")).hex()
    if kind == 15:
        values = fields.numbers("212221")
        fields.take(6 * values[-1])
        return "association {} type {} entity {} instance {} container {} contained {}".format(*values)
    if kind not in (2, 4):
        return f"other {fields.take(len(fields.left)).hex()}"
    words = "{} sensor {} entity {} instance {} container {}".format(*fields.numbers("2222211"))
    if kind == 4:
        (count,) = fields.numbers("1")
        for _ in range(count):
            fields.take(fields.numbers("21")[1])
        return f"state {words} sets {count}"
    fields.numbers("1" * 10)
    data, width = fields.format(5)
    fields.numbers(f"44211{width}1144{width}{width}")
    ranges, width = fields.format(6)
    fields.numbers("1" + width * 9)
    return f"numeric {words} data {data} range {ranges}"


def record_lines(data):
    if len(data) < 10:
        raise Refused("D01")
    handle, version, kind, change, length = struct.unpack("<IBBHH", data[:10])
    if version != 1:
        raise Refused("D02")
    if length != len(data) - 10:
        raise Refused("D03")
    fields = Fields(data[10:])
    lines = [f"record handle {handle} type {kind} change {change} length {length}", body_line(kind, fields)]
    if fields.left:
        raise Refused("D05")
    return lines


class Assembler:
    """What becomes of packets: 16 messages at a time, each of at most 4,096 bytes."""

    def __init__(self):
        self.open = {}

    def feed(self, data):
        """The message that comes whole, or None where the packet is held."""
        key, number, is_last, payload = (data[2], data[3] & 15), data[3] >> 4 & 3, data[3] & 0x40, data[4:]
        if data[3] & 0x80:
            self.open.pop(key, None)
            length, message = len(payload), b""
            if len(self.open) == 16 and not is_last:
                raise Refused("A05")
        elif key not in self.open:
            raise Refused("A01")
        else:
            before, length, message = self.open.pop(key)
            if number != (before + 1) % 4:
                raise Refused("A02")
            if len(payload) > length or len(payload) < length and not is_last:
                raise Refused("A03")
        if len(message + payload) > 4096:
            raise Refused("A04")
        if not is_last:
            self.open[key] = number, length, message + payload
        return message + payload if is_last else None


# ---- what decode says

LENGTHS = {1: 2, 2: 0, 8: 3, 10: 1}  # of the data of a control request, by its command
# What requests and answers say, where low and high are bits 1 and 0, and 5 and 4, of the byte with the operation or status.
ASKED = {
    1: "set-endpoint-id operation {low} eid {1}",
    2: "get-endpoint-id",
    8: "allocate-endpoint-ids operation {low} size {1} first {2}",
    10: "get-routing-table-entries handle {0}",
}
TOLD = {
    1: "set-endpoint-id acceptance {high} allocation {low} eid {1} size {2}",
    2: "get-endpoint-id eid {0} endpoint {high} eid-type {low} medium {2}",
    8: "allocate-endpoint-ids acceptance {low} size {1} first {2}",
    10: "get-routing-table-entries next {0} entries {1}",
}


def control_said(message):
    """The lines of a control message, if it is one."""
    if len(message) < 3 or message[0] or message[2] not in LENGTHS:
        return []
    command, data, instance = message[2], message[3:], f"instance {message[1] & 31}"
    if message[1] & 0x80:
        if len(data) != LENGTHS[command]:
            return []
        head, words = f"control request {instance} datagram {message[1] >> 6 & 1}", ASKED[command]
    elif data and data[0]:
        return [f"control response {instance} command {command} failed {data[0]}"] if len(data) == 1 else []
    else:
        head, words, data = f"control response {instance}", TOLD[command], data[1:]
        if not are_entries(data) if command == 10 else len(data) != 3:
            return []
    status = data[command == 2] if len(data) > 1 else 0
    return [f"{head} {words.format(*data, low=status & 3, high=status >> 4 & 3)}"]


def are_entries(data):
    """Whether these are a next handle, a count and so many routing table entries."""
    left = data[2:]
    for _ in range(data[1] if len(data) > 1 else 0):
        if len(left) < 6 or left[5] > 52 or len(left) < 6 + left[5]:
            return False
        left = left[6 + left[5] :]
    return 2 <= len(data) <= 60 and not left


def pldm_said(message):
    """The lines of a PLDM message, if it is one."""
    kinds = {0x80: "request", 0xC0: "datagram", 0x00: "response"}
    if len(message) < 4 or message[0] != 1 or message[1] & 0xC0 not in kinds or message[2] >> 6:
        return []
    kind, instance, data = kinds[message[1] & 0xC0], f"instance {message[1] & 31}", message[4:]
    if message[2:4] == b"\x02\x51":
        if kind != "response" and len(data) == 13:
            words = "record {} transfer {} operation {} count {} change {}".format(*struct.unpack("<IIBHH", data))
            return [f"pldm request {instance} get-pdr {words}"]
        if kind == "response" and len(data) == 1 and data[0]:
            return [f"pldm response {instance} get-pdr failed {data[0]}"]
        if kind == "response" and len(data) >= 12 and not data[0]:
            following, transfer, flag, count = struct.unpack("<IIBH", data[1:12])
            part = data[12 : 12 + count]
            if len(data) == 12 + count + (flag == 4):
                words = f"next {following} transfer {transfer} flag {flag} bytes {part.hex()}"
                return [f"pldm response {instance} get-pdr {words}", *lines_or(lambda _: [], record_lines, part)]
    return [f"pldm {kind} {instance} type {message[2]} command {message[3]} data {data.hex()}"]


def lines_or(refused, reading, data):
    """What comes of the reading of data, or of the code for which it is refused."""
    try:
        return reading(data)
    except Refused as why:
        return refused(why)


def decoded(packets):
    """The lines of a capture of these packets."""
    assemblers = collections.defaultdict(Assembler)
    for number, data in enumerate(packets, 1):
        line = lines_or(lambda why: f"refused {why}", packet_line, data)
        if line.startswith("refused"):
            yield f"{number} {line}"
            continue
        message = lines_or(lambda why: f"dropped {why}", assemblers[data[1]].feed, data)
        yield f"{number} {message if isinstance(message, str) else 'whole' if message else 'held'} {line}"
        if isinstance(message, bytes):
            yield from control_said(message) or pldm_said(message) or [f"message {message.hex()}"]
    yield f"entries {len(packets)}"


# ---- what emulate answers

ROWS = {8: "b0", 17: "b1", 18: "b1"}  # of riser
ENTRIES = several("01088001040110 01110101040130 01120101040132")


class Node:
    """nic or riser of the riser network: its device, its terminus, its rows and its assemblers."""

    def __init__(self, name, is_configured):
        self.is_bridge, self.tid = name == "riser", 1
        self.eid = (16 if self.is_bridge else 17) if is_configured else 0
        self.pool = bytes([7, 17]) if is_configured and self.is_bridge else bytes(2)
        self.eid_giver = self.pool_giver = None  # the bus that gave it
        self.assemblers = collections.defaultdict(Assembler)

    def receive(self, bus, data):
        """The bus and the bytes that are sent for a packet; None where it waits."""
        packet_line(data)
        if data[1] not in (0, self.eid):
            if not 8 <= data[1] <= 254 or not self.is_bridge or data[1] not in ROWS:
                raise Refused("B10" if not 8 <= data[1] <= 254 else "B11" if self.is_bridge else "B12")
            return ROWS[data[1]], data
        message = self.assemblers[bus].feed(data)
        if message is None:
            return None
        if not data[3] & 8:
            raise Refused("no request")
        is_asked = message[1:2] and message[1] & 0xC0 == 0x80
        answer = is_asked and (self.control(bus, message) if message[0] == 0 else self.terminus(message))
        if not answer:
            raise Refused("no answer")
        return bus, bytes([1, data[2], self.eid, 0xC0 | data[3] & 7]) + answer

    def control(self, bus, message):
        """The reply of the device to a request, if it has one."""
        if len(message) < 3:
            return None
        command, data = message[2], message[3:]
        if command not in LENGTHS or command > 2 and not self.is_bridge:
            told = [5]
        elif len(data) != LENGTHS[command]:
            told = [3]
        else:
            told = {1: self.set_eid, 2: self.tell_eid, 8: self.allocate, 10: self.tell_entries}[command](bus, *data)
        return bytes([0, message[1] & 31, command, *told])

    def set_eid(self, bus, operation, eid):
        if operation & 3 > 1 or not 8 <= eid <= 254:
            return [2]
        is_accepted = operation & 3 == 1 or not self.eid or self.eid_giver == bus
        if is_accepted:
            self.eid, self.eid_giver = eid, bus
        allocation = (2 if any(self.pool) else 1) if self.is_bridge else 0
        return 0, allocation if is_accepted else 0x10 | allocation, self.eid, 7 if self.is_bridge else 0

    def tell_eid(self, _):
        return 0, self.eid, 0x10 if self.is_bridge else 0, 0

    def allocate(self, bus, operation, size, first):
        is_range = size and 8 <= first and first + size <= 255
        if operation & 3 == 3 or operation & 3 < 2 and not is_range:
            return [2]
        is_accepted = operation & 3 == 1 or not any(self.pool) or self.pool_giver == bus
        if operation & 3 == 2:
            return 0, 0, *self.pool
        if is_accepted:
            self.pool, self.pool_giver = bytes([size, first]), bus
        return 0, not is_accepted, *self.pool

    def tell_entries(self, _, handle):
        if handle and handle >= len(ENTRIES):
            return [2]
        return 0, 0xFF, len(ENTRIES) - handle, *b"".join(ENTRIES[handle:])

    def terminus(self, message):
        """The answer of nic's terminus to a request, if it has one."""
        if self.is_bridge or len(message) < 4 or message[0] != 1 or message[2] >> 6:
            return None
        lengths = {b"\x00\x01": 1, b"\x00\x02": 0, b"\x00\x04": 0, b"\x02\x51": 13}
        command, data = message[2:4], message[4:]
        if command[0] not in (0, 2):
            told = [0x20]
        elif command not in lengths:
            told = [5]
        elif len(data) != lengths[command]:
            told = [3]
        elif command[0]:
            told = part(*struct.unpack("<IIBHH", data))
        elif command[1] == 1:
            told = [2 if data[0] in (0, 255) else 0]
            self.tid = self.tid if told[0] else data[0]
        else:
            told = [0, self.tid] if command[1] == 2 else [0, 5, *bytes(7)]
        return bytes([1, message[1] & 31, *command, *told])


def part(handle, transfer, operation, count, change):
    """What a terminus tells behind its header of a part of nic's record."""
    for code, is_so in (
        (0x81, operation > 1),
        (0x02, not count),
        (0x82, handle > 1),
        (0x83, not operation and change),
        (0x80, not operation and not 0 < transfer < len(LOCATOR)),
    ):
        if is_so:
            return [code]
    begin = 0 if operation else transfer
    end = min(begin + count, len(LOCATOR))
    is_last = end == len(LOCATOR)
    flag = (5 if operation else 4) if is_last else (0 if operation else 1)
    head = struct.pack("<BIIBH", 0, 0, 0 if is_last else end, flag, end - begin)
    return head + LOCATOR[begin:end] + (b"" if flag != 4 else bytes([check_byte(LOCATOR)]))


# ---- running


def compare(trial, what, wanted, got):
    """Notes whether a run ended with this status, and wrote these lines on standard output and on standard error."""
    status, *texts = got
    lines = [it.decode().splitlines() for it in texts]
    other = [next((it for it in itertools.zip_longest(*both) if it[0] != it[1]), None) for both in zip(wanted[1:], lines)]
    trial.note(status == wanted[0] and other == [None, None], f"{what}: status {status}; the first that was wanted and came instead: {other}")


def try_show(trial):
    rows = {("packet", it) for whole in itertools.chain(PACKETS, *CUT) for it in damaged(trial, whole)}
    rows |= {("record", it) for whole in RECORDS for it in damaged(trial, whole) + shorter(whole)}

    def row(it):
        kind, data = it
        reading = (lambda data: [packet_line(data)]) if kind == "packet" else record_lines
        lines = lines_or(lambda why: [f"refused {why}"], reading, data)
        compare(trial, f"show {kind} {data.hex()}", (lines[0].startswith("refused"), lines, []), trial.run(["show", kind, data.hex()]))

    each(row, sorted(rows))


def try_decode(trial):
    """Packets of messages that are damaged, and messages of which one packet is damaged: a capture of each."""
    told = [b"\x01\x09\x10\xc8" + one for it in MESSAGES for one in damaged(trial, it)]
    sent = []
    for packets in [*([it] for it in PACKETS), *CUT]:
        for at, whole in enumerate(packets):
            sent += (it for one in damaged(trial, whole) for it in [*packets[:at], one, *packets[at + 1 :]] if it)
    for packets in told, sent:
        capture = trial.file("capture", "".join(f"{it.hex()}\n" for it in packets))
        compare(trial, f"decode of {len(packets)} packets", (0, [*decoded(packets)], []), trial.run(["decode", capture]))


def try_emulate(trial):
    """The same packets, and messages to the null endpoint ID, at nodes that are fresh, are configured, or were given theirs."""
    given = [("b0", bytes.fromhex(f"010008c8{it}")) for it in ("0080010010", "008008000711")]
    starts = [(name, options, []) for name in ("nic", "riser") for options in ([], ["--configured"])] + [("riser", [], given)]
    wholes = [damaged(trial, it) for it in PACKETS] + [[b"\x01\x00\x08\xcb" + one for one in damaged(trial, it)] for it in MESSAGES]

    def row(it):
        (name, options, before), packets = it
        node, lines, notes = Node(name, bool(options)), [], []
        sent = before + [(bus, packet) for bus in ("b0", "b1")[name == "nic" :] for packet in packets if packet]
        for bus, packet in sent:
            came = lines_or(str, lambda packet: node.receive(bus, packet), packet)
            if isinstance(came, str):
                notes.append(f"# {came if came.startswith('no ') else f'dropped {came}'}: {bus} {packet.hex()}")
            elif came:
                lines.append(f"{came[0]} {came[1].hex()}")
        words = ["emulate", RISER / "plan.json", RISER / "certificate.json", name, *options]
        with open(trial.file("packets", "".join(f"{bus} {packet.hex()}\n" for bus, packet in sent)), "rb") as file:
            got = trial.run(words, stdin=file)
        compare(trial, f"emulate {name} {options} {packets[0].hex()}", (0, lines, notes), got)

    each(row, [*itertools.product(starts, wholes)])


def try_all(trial):
    for part_of in (try_show, try_decode, try_emulate):
        if trial.has(part_of.__name__):
            part_of(trial)
