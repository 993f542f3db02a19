"""Random conversations about the records of a planned terminus, in `audit`.

One program, or two at once, read the records of `nic1` of the server network: whole walks, or single records, in parts of any
length. Requests and answers are lost, repeated, delayed and interleaved, and asked again under the same instance ID or a new one.
What the terminus answers is computed here. None of it may differ, since nothing is falsified. Then one answer of a walk is
falsified in one of the ways of KINDS: each time `audit` has to end with status 1. 2,000 conversations are tried of the proved
program, 100 of another, and as many falsified walks; a word that is a number says how many.
"""
import json
import random

from runner import TOP, check_byte, each

COUNT, FEW = 2_000, 100
HOST, SERVER = 8, TOP / "examples/server"
FIRST, NEXT = 1, 0


def number(value, count):
    return value.to_bytes(count, "little")


class Terminus:
    """The planned terminus: what it answers to GetPDR, as DSP0248 has it."""

    def __init__(self, node):
        self.eid, self.records = node["eid"], {it["handle"]: it for it in node["terminus"]["records"]}
        named = {it["next"] for it in self.records.values()}
        self.first = next(it for it in self.records.values() if it["handle"] not in named)

    def answer(self, instance, request):
        handle, transfer, operation, count, change = request
        head, record = bytes([1, instance, 2, 0x51]), self.records.get(handle) if handle else self.first
        if not record:
            return head + b"\x82"
        data = bytes.fromhex(record["bytes"])
        if operation == NEXT and number(change, 2) != data[6:8]:
            return head + b"\x83"
        begin = 0 if operation == FIRST else transfer
        part = data[begin : begin + count]
        end = begin + len(part)
        is_last = end == len(data)
        flag = {FIRST: 5, NEXT: 4}[operation] if is_last else {FIRST: 0, NEXT: 1}[operation]
        body = number(record["next"], 4) + number(0 if is_last else end, 4) + bytes([flag]) + number(len(part), 2) + part
        return head + b"\0" + body + (bytes([check_byte(data)]) if flag == 4 else b"")


class Program:
    """A program that reads records: all of them, or one by its handle."""

    def __init__(self, rng, tag, instance, handles):
        self.rng, self.tag, self.instance = rng, tag, instance
        self.is_single, self.is_done = bool(handles), False
        self.state, self.count = (rng.choice(handles) if handles else 0, 0, FIRST, 0), rng.randint(8, 40)

    def under(self):
        """The next message tag and instance ID; two programs have none in common."""
        self.instance = self.instance // 16 * 16 + (self.instance + 1) % 16
        self.tag = self.tag // 4 * 4 + (self.tag + 1) % 4
        return self.tag, self.instance

    def request(self):
        handle, transfer, operation, change = self.state
        return handle, transfer, operation, self.count, change

    def take(self, answer):
        handle, _, _, change = self.state
        if answer[4] or self.is_single and self.rng.random() < 0.3:
            self.is_done = True
        elif answer[13] in (0, 1):
            change = int.from_bytes(answer[22:24], "little") if answer[13] == 0 else change
            self.state = handle, int.from_bytes(answer[9:13], "little"), NEXT, change
        else:
            following = int.from_bytes(answer[5:9], "little")
            self.state, self.is_done = (following, 0, FIRST, 0), self.is_single or not following


def asked(tag, instance, request):
    handle, transfer, operation, count, change = request
    what = number(handle, 4) + number(transfer, 4) + bytes([operation]) + number(count, 2) + number(change, 2)
    return bytes([1, 0x80 | instance, 2, 0x51]) + what


def packets(to, source, flags, message):
    parts = [message[it : it + 64] for it in range(0, len(message), 64)]
    last = len(parts) - 1
    return [bytes([1, to, source, (it == 0) << 7 | (it == last) << 6 | it % 4 << 4 | flags]) + part for it, part in enumerate(parts)]


def conversation(rng, terminus):
    """The packets of programs on a bus that loses, repeats and delays."""
    programs = [Program(rng, 0, 0, [])]
    if rng.random() < 0.5:
        programs.append(Program(rng, 4, 16, rng.choice([[], [0, 999, *terminus.records]])))
    seen, late = [], []
    for _ in range(400):
        reading = [it for it in programs if not it.is_done]
        if not reading:
            break
        program = rng.choice(reading)
        (tag, instance), request = program.under(), program.request()
        answer = terminus.answer(instance, request)
        question = packets(terminus.eid, HOST, 8 | tag, asked(tag, instance, request))
        reply = packets(HOST, terminus.eid, tag, answer)
        how = rng.choice(["lost", "lost behind", "asked again", "late", "answered again", *["heard"] * 7])
        seen += question * (2 if how == "asked again" else 1)
        if how == "late":
            late.append((len(seen) + rng.randint(1, 9), reply))
        elif how != "lost":
            seen += reply * (2 if how == "answered again" else 1)
            if how != "lost behind":
                program.take(answer)
        seen += [packet for due, them in late if due <= len(seen) for packet in them]
        late = [it for it in late if it[0] > len(seen)]
    return seen + [packet for _, them in late for packet in them]


# What is falsified in an answer: one bit from the one byte to the other.
KINDS = {
    "completion code": (4, 4), "handle of the next record": (5, 8), "transfer flag": (13, 13), "length": (14, 15),
    "first byte": (16, 16), "handle": (16, 19), "version": (20, 20), "type": (21, 21), "change number": (22, 23),
    "length in the header": (24, 25), "byte": (16, -1), "last byte": (-1, -1),
}


def falsified(rng, terminus, kind):
    """The packets of a walk in which one bit of one answer is another."""
    (least, most), fit = KINDS[kind], []
    # (in a walk by small parts no answer may have such bytes)
    while not fit:
        program, said = Program(rng, 0, 0, []), []
        while not program.is_done:
            (tag, instance), request = program.under(), program.request()
            answer = terminus.answer(instance, request)
            said.append((tag, instance, request, bytearray(answer)))
            program.take(answer)
        fit = [it for it in said if len(it[3]) > max(least, most)]
    answer = rng.choice(fit)[3]
    place = rng.randint(least % len(answer), most % len(answer))
    answer[place] ^= 1 << rng.randrange(8)
    seen = []
    for tag, instance, request, message in said:
        seen += packets(terminus.eid, HOST, 8 | tag, asked(tag, instance, request)) + packets(HOST, terminus.eid, tag, bytes(message))
    return seen


def try_all(trial):
    plan, certificate = SERVER / "plan.json", SERVER / "certificate.json"
    terminus = Terminus(next(it for it in json.loads(plan.read_text())["nodes"] if it["name"] == "nic1"))
    count = next((int(it) for it in trial.words if it.isdigit()), FEW if trial.is_unproved else COUNT)

    def audited(seen):
        capture = trial.file("capture.txt", "".join(it.hex(" ") + "\n" for it in seen))
        return trial.run(["audit", plan, certificate, capture])

    def one(seed):
        rng = random.Random(seed)
        status, lines, _ = audited(conversation(rng, terminus))
        trial.note(status == 0, f"conversation {seed}: {lines.decode()}")
        kind = [*KINDS][seed % len(KINDS)]
        status, lines, _ = audited(falsified(rng, terminus, kind))
        trial.note(status == 1 and b"nic1 record" in lines, f"falsified {kind} {seed}: status {status}: {lines.decode()}")

    trial.program
    each(one, range(count))
