"""Texts that a careless or a hostile hand made, outputs that fail, and plans in both formats.

What is wanted is told from the texts: that a text that is cut off is no JSON (J01), that one of more than 16,777,216 bytes
is too long (J08), that a plan of format 2 with the unit 64 has the answers of the same plan of format 1, and so on. Each
run has a limit of processor time and of memory. Where a changed text stops being JSON, and what may stand there, is what a reader
of JSON says that stands here. The words choose among outputs, folders, beginnings, bytes, places, escapes, limits, sizes, formats
and captures.
"""
import itertools
import json
import os
import pathlib
import random
import re
import subprocess
import sys
import tempfile

from runner import MOVE, RISER, TOP, commands, each

LIMIT = 16_777_216
SECONDS = 20  # of processor time: others may be at work
# The largest text makes a tree of some 48 bytes for each of its bytes.
MOST_MEMORY = 3_000_000_000


def expect(trial, what, words, wanted, **how):
    """Wants a run to end with this status, this on standard output and this on standard error."""
    try:
        got = trial.run(words, **how)
    except subprocess.TimeoutExpired:
        got = ("time is up", b"", b"")
    trial.note(got == wanted, f"{what}: wanted {wanted}, got {tuple(it[:300] if isinstance(it, bytes) else it for it in got)}")


def unreadable(what, code):
    return 2, b"", f"unreadable {what}: {code}\n".encode()


UNWRITTEN = (2, None, b"unreadable output: file\n")


def try_outputs(trial):
    """Each command over an output that takes nothing, and over a pipe that nobody reads. `emulate` is sent a request."""
    request = trial.file("request", "b1 010008c8008002\n")
    for words in commands():
        with open("/dev/full", "wb") as full, open(request, "rb") as given:
            expect(trial, f"{words[0]} over a full disk", words, UNWRITTEN, stdin=given, stdout=full)
        end, start = os.pipe()
        os.close(end)
        with open(start, "wb") as closed, open(request, "rb") as given:
            expect(trial, f"{words[0]} over a closed pipe", words, UNWRITTEN, stdin=given, stdout=closed)


def try_folders(trial):
    """The files of a roll-out: into no folder, over a folder that has the name of one, and over a disk that is full."""
    words = ["rollout", MOVE / "to-left.json", MOVE / "to-right.json", "--write"]
    names = ["step-1.json", "step-1.cert.json", "step-1.move.json", "step-2.json", "step-2.cert.json", "step-2.move.json"]
    with tempfile.TemporaryDirectory(prefix="steps-") as room:
        for at, (name, why) in enumerate((name, why) for name in names for why in ("a folder", "full")):
            folder = pathlib.Path(room, str(at))
            folder.mkdir()
            if why == "full":
                (folder / name).symlink_to("/dev/full")
            else:
                (folder / name).mkdir()
            reason = "No space left on device (os error 28)" if why == "full" else "Is a directory (os error 21)"
            wanted = 2, b"", f"unreadable output: file\n{folder}/{name}: {reason}\n".encode()
            expect(trial, f"{name} is {why}", [*words, folder], wanted)
            before = names[: names.index(name)]
            there = {it.name for it in folder.iterdir()} - {name}
            trial.note(there == set(before), f"{name} is {why}: there are {there}")
        wanted = 2, b"", f"unreadable output: file\n{room}/none/step-1.json: No such file or directory (os error 2)\n".encode()
        expect(trial, "no folder", [*words, f"{room}/none"], wanted)


def try_beginnings(trial):
    """Each beginning of the riser network's texts is no JSON, but for that without the line's end, which is read."""
    plan, certificate = RISER / "plan.json", RISER / "certificate.json"
    texts = [("plan", plan, ["check", None, certificate]), ("certificate", certificate, ["check", plan, None])]
    texts += [("events", it, ["sim", plan, certificate, None]) for it in sorted(RISER.glob("events-*.json"))]
    for what, path, words in texts:
        text = path.read_bytes().rstrip(b"\n")
        whole = trial.run([path if it is None else it for it in words])

        def row(length):
            cut = trial.file(what, text[:length])
            wanted = whole if length == len(text) else unreadable(what, "J01")
            expect(trial, f"{length} bytes of {path.name}", [cut if it is None else it for it in words], wanted)

        each(row, range(len(text) + 1))
        trial.note(whole[0] == 0, f"{path.name} itself is refused")


def small_plan():
    return (TOP / "examples/two-nodes/plan.json").read_bytes(), TOP / "examples/two-nodes/certificate.json"


def try_bytes(trial):
    """A small plan with bytes that are no UTF-8 at each place, and with a byte order mark."""
    text, certificate = small_plan()
    # a byte that never occurs, one that continues nothing, one that nothing continues, a slash in two bytes, a surrogate
    rows = [b"\xff", b"\x80", b"\xc3", b"\xc0\xaf", b"\xed\xa0\x80"]
    changed = [text[:at] + row + text[at:] for at in range(len(text) + 1) for row in rows]
    changed += [text[:at] + b"\xff" + text[at + 1 :] for at in range(len(text))]
    changed += [b"\xef\xbb\xbf" + text, b"\xfe\xff" + text.decode().encode("utf-16-be"), text.decode().encode("utf-16")]

    def row(it):
        expect(trial, "no UTF-8", ["check", trial.file("plan", it), certificate], unreadable("plan", "J01"))

    each(row, changed)


class Stop(Exception):
    """Where a text stops being JSON, and what may stand there; nothing where a list or an object nests too deep."""


def past_blanks(text, at):
    while text[at : at + 1] in (b" ", b"\t", b"\n", b"\r"):
        at += 1
    return at


def past_token(text, at, wanted):
    """Past the number, the word or the text in quotes that begins there."""
    token = re.compile(rb'"(?:[^"\\]|\\.)*(?:"|\\?\Z)|.[0-9A-Za-z+.-]*', re.DOTALL).match(text, at)[0]
    try:
        value = json.loads(token)
        is_sound = value not in (float("inf"), float("-inf")) and value == value and str(value).encode() is not None
    except ValueError:
        is_sound = False
    if not is_sound:
        raise Stop(at, wanted)
    return at + len(token)


def past_value(text, at, wanted, depth=0):
    """Past the value that begins there, and the white space behind it."""
    begin = text[at : at + 1]
    if begin in (b"", b"]", b"}", b",", b":"):
        raise Stop(at, wanted)
    if begin not in (b"[", b"{"):
        return past_blanks(text, past_token(text, at, wanted))
    if depth == 127:
        raise Stop(at, None)
    end, wanted = (b"]", "a value or ']'") if begin == b"[" else (b"}", "a key in quotes or '}'")
    at = past_blanks(text, at + 1)
    if text[at : at + 1] == end:
        return past_blanks(text, at + 1)
    while True:
        if begin == b"{":
            if text[at : at + 1] != b'"':
                raise Stop(at, wanted)
            at = past_blanks(text, past_token(text, at, wanted))
            if text[at : at + 1] != b":":
                raise Stop(at, "':'")
            at = past_value(text, past_blanks(text, at + 1), "a value", depth + 1)
        else:
            at = past_value(text, at, wanted, depth + 1)
        if text[at : at + 1] == end:
            return past_blanks(text, at + 1)
        if text[at : at + 1] != b",":
            raise Stop(at, f"',' or '{end.decode()}'")
        at, wanted = past_blanks(text, at + 1), "a value" if begin == b"[" else "a key in quotes"


def told_of(text):
    """The line of `explain` on a text that is no JSON; none where it is."""
    try:
        text.decode()
        end = past_value(text, past_blanks(text, 0), "a value")
        if end == len(text):
            return None
        stop, words = end, "expected the end of the text."
    except UnicodeDecodeError as why:
        stop, words = why.start, "invalid UTF-8."
    except Stop as why:
        stop, wanted = why.args
        words = f"expected {wanted}." if wanted else "nested 128 deep; the limit is 127."
    before = text[:stop].decode()
    return f"line {before.count(chr(10)) + 1}, column {len(before.split(chr(10))[-1]) + 1}: {words}"


def try_places(trial):
    """A small plan and a text with each part of JSON, each with random changes: where `explain` says that they stop being JSON."""
    plan, _ = small_plan()
    each_part = '{"a": [1, -2.5e+3,\ttrue, null, "x\\"y", []],\r\n"é\\u00e9": {"b":{}, "":[[0]]}}\n'.encode()
    parts = [*'"\\{}[],:0-.+eEx/\'# \n\t\r\f\0é', "true", "1e400", "\\u", '"a"', "[]", '{"b":', "[" * 126, "[" * 127, "﻿"]
    parts = [*(it.encode() for it in parts), b"\xff", b"\xc3"]
    chance = random.Random(1)

    def changed(text):
        for _ in range(chance.choice((1, 1, 2))):
            at = chance.randrange(len(text) + 1)
            text = text[:at] + chance.choice([b"", *parts]) + text[at + chance.choice((0, 0, 1, 2)) :]
        return text[: chance.randrange(len(text) + 1)] if chance.random() < 0.2 else text

    def row(text):
        status, output, error = trial.run(["explain", trial.file("plan", text)])
        wanted, lines = told_of(text), output.decode().splitlines()
        is_told = lines[:2] == ["unreadable plan: J01", wanted] if wanted else lines[:1] != ["unreadable plan: J01"]
        trial.note(is_told and not error, f"places of J01: {text}: wanted {wanted}, got {status} {lines[:2]} {error[:100]}")

    each(row, [changed(it) for it in (plan, each_part) for _ in range(300)])


def try_escapes(trial):
    """Names and keys that are written with escapes are the same names and keys."""
    text, certificate = small_plan()

    def escaped(found):
        return '"' + "".join(f"\\u{ord(it):04x}" for it in found[1]) + '"'

    both = [re.sub(r'"([^"]*)"', escaped, it) for it in (text.decode(), certificate.read_text())]
    words = ["check", trial.file("plan", both[0].encode()), trial.file("certificate", both[1].encode())]
    expect(trial, "all escaped", words, (0, b"yes\n", b""))
    for name, code in ((r"\ud800", "J01"), (r"\x61", "J01"), (r"\u00e9", "J05"), (r"a\u0000", "J05"), (r"a\/b", "J05")):
        changed = text.decode().replace('"name": "a"', f'"name": "{name}"', 1)
        if changed == text.decode():
            changed = text.decode().replace('"name":"a"', f'"name":"{name}"', 1)
        words = ["check", trial.file("plan", changed.encode()), certificate]
        expect(trial, f"the name {name}", words, unreadable("plan", code))


def repeated(begin, part, end=b"", length=LIMIT):
    """A beginning, a part as often as it fits the length, and an end, filled up with spaces."""
    count = (length - len(begin) - len(end)) // len(part)
    text = begin + part * count + end
    return text + b" " * (length - len(text))


def keys(count):
    return b"{" + b",".join(b'"k%07d":0' % number for number in range(count)) + b"}"


def try_limits(trial):
    """Texts of all bytes that are read, and of one more."""
    empty = b'{"format":1,"buses":[],"nodes":[]}'
    record = b'{"format":1,"buses":[],"nodes":[{"name":"n","kind":"endpoint","eid":8,"owner":null,"pool":null,"ports":[],"rows":[],"terminus":{"tid":1,"records":[{"handle":1,"next":0,"bytes":"'
    named = b'{"format":1,"buses":[{"name":"'
    rows = [
        ("open lists", repeated(b"", b"["), "J01"),
        ("open objects", repeated(b"", b'{"a":'), "J01"),
        ("open objects that end", b'{"a":' * 2_000_000 + b"0" + b"}" * 2_000_000, "J01"),
        ("127 open lists and objects", b'{"x":' + b"[" * 126 + b"]" * 126 + b"}", "J04"),
        ("one more", b'{"x":' + b"[" * 127 + b"]" * 127 + b"}", "J01"),
        ("one string", repeated(b'"', b"a", b'"'), "J02"),
        ("one string that does not end", repeated(b'"', b"a"), "J01"),
        ("one string of escapes", repeated(b'"', b"\\u0061", b'"'), "J02"),
        ("zeros in a list", repeated(b"[0", b",0", b"]"), "J02"),
        ("objects in a list", repeated(b"[{}", b",{}", b"]"), "J02"),
        ("a million keys", keys(1_000_000), "J04"),
        ("a key a million times", b'{"format":1' + b',"format":1' * 1_000_000 + empty[11:], "J09"),
        ("too many buses", repeated(b'{"format":1,"buses":[0', b",0", b'],"nodes":[]}'), "J08"),
        ("too many nodes", repeated(b'{"format":1,"buses":[],"nodes":[0', b",0", b"]}"), "J08"),
        ("a long name", repeated(named, b"a", b'","binding":0,"media":0}],"nodes":[]}'), "J05"),
        ("a long kind", repeated(record[:53], b"a", b'"}]}'), "J03"),
        ("bad hex at the end", repeated(record, b"00", b'0g"}]}}]}'), "J07"),
        ("spaces", repeated(b"", b" "), "J01"),
        ("line ends and a plan", repeated(b"", b"\n", empty), "J00"),
        ("bytes of 255", repeated(b"", b"\xff"), "J01"),
    ]
    for name, text, code in rows:
        if len(text) > LIMIT:
            print(f"{name}: {len(text)} bytes")
        plan = trial.file("plan", text)
        if code == "J00":
            wanted = (0, b'{"format":1,"levels":[],"places":[],"ranks":[]}\n', b"")
        else:
            wanted = unreadable("plan", code)
        expect(trial, name, ["certify", plan], wanted)
        if len(text) == LIMIT:
            plan = trial.file("plan", text + b" ")
            expect(trial, f"{name}, and a byte more", ["certify", plan], unreadable("plan", "J08"))
    # one number may be refused by three codes
    plan = trial.file("plan", repeated(b"", b"1"))
    status, output, error = trial.run(["certify", plan])
    is_refused = (status, output) == (2, b"") and re.fullmatch(rb"unreadable plan: J0[125]\n", error)
    trial.note(is_refused, f"one number: {status} {output[:300]} {error[:300]}")
    # a record of all bytes that are left reads as hex, and as no record
    plan = trial.file("plan", repeated(record, b"00", b'"}]}}]}'))
    expect(trial, "a long record", ["certify", plan], (1, b"fault C13 node n entry 0 eid -\n", b""))


def try_sizes(trial):
    """The largest plans and lists of events: nothing lacks memory from some size on."""
    for kind in ("line", "bus", "termini"):
        made = subprocess.run([sys.executable, TOP / "bench/plans.py", kind, "64"], capture_output=True, check=True).stdout
        plan = trial.file("plan", made)
        certified = trial.run(["certify", plan])
        certificate = trial.file("certificate", certified[1])
        told = f"the plan {kind} 64 is not certified: {certified[0]} {certified[1][:100]} {certified[2][:100]}"
        trial.note(certified[0] == 0 and not certified[2], told)
        expect(trial, f"the plan {kind} 64", ["check", plan, certificate], (0, b"yes\n", b""))
        expect(trial, f"the plan {kind} 64, twice", ["move", plan, plan, certificate], (0, b"yes\n", b""))
        if kind == "termini":
            length = b"".join(b"record %d length 0\n" % it for it in walked_handles(made, certified[1]))
            wanted = (0, length + b"records 4096 requests 4096\n", b"")
            expect(trial, "a walk over 4096 records", ["walk", plan, certificate, "n0", "16"], wanted)
    for kind in ("rounds", "crowd"):
        made = subprocess.run([sys.executable, TOP / "bench/events.py", kind, "100000"], capture_output=True, check=True).stdout
        events = trial.file("events", made)
        status, output, error = trial.run(["sim", RISER / "plan.json", RISER / "certificate.json", events])
        is_whole = (status, error, output.count(b"\n")) == (0, b"", 100_000)
        trial.note(is_whole, f"the events {kind}: {status} {error[:100]}, {output.count(10)} lines")


def try_formats(trial):
    """A plan of format 1 and the same plan of format 2 with the unit 64: each command answers the same.

    In moves one of the two plans may be of the other format.
    """
    def in_format_2(path):
        text, count = re.subn(rb'"format": ?1', b'"format": 2, "unit": 64', path.read_bytes(), count=1)
        trial.note(count == 1, f"{path} is no plan of format 1")
        return trial.file(f"{path.parent.name}-{path.name}", text)

    riser, certificate = RISER / "plan.json", RISER / "certificate.json"
    left, right, ranks = MOVE / "by-left.json", MOVE / "by-right.json", MOVE / "certificate-1.json"
    refused = TOP / "examples/refused"
    rows = [(["check", riser], [certificate], 0), (["certify", riser], [], 0), (["assign", riser], [certificate], 0)]
    for name in ("loop", "chain", "owner-loop"):
        plan = refused / f"{name}.json"
        rows += [(["check", plan], [refused / f"{name}-certificate.json"], 1), (["certify", plan], [], 1)]
    rows += [(["sim", riser], [certificate, events], 0) for events in sorted(RISER.glob("events-*.json"))]
    rows += [(["walk", riser], [certificate, "nic", count], 0) for count in ("8", "16", "303", "4079")]
    rows += [(["move", left, right], [ranks], 0), (["move", left, MOVE / "no-left.json"], [ranks], 1)]
    rows += [(["simmove", left, right], [ranks, MOVE / "events.json"], 0)]
    for (command, *plans), others, status in rows:
        wanted = trial.run([command, *plans, *others])
        is_right = wanted[0] == status and wanted[1] and not wanted[2]
        trial.note(is_right, f"{command} {plans[0].name}: {wanted[0]} {wanted[1][:300]} {wanted[2][:300]}")
        for changed in itertools.product((False, True), repeat=len(plans)):
            if any(changed):
                given = [in_format_2(plan) if it else plan for it, plan in zip(changed, plans)]
                expect(trial, f"{command} {plans[0].name} in format 2", [command, *given, *others], wanted)


def cut_file(capture, length):
    """How many records this beginning of a capture file of the lowest byte first has, how it ends, and the status."""
    if length < 4:
        return 0, *((b"", 0) if length == 0 else (b" broken 1 line", 2))
    if length < 24:
        return 0, b" broken 0 header", 2
    count, at = 0, 24
    while at + 16 <= length and (end := at + 16 + int.from_bytes(capture[at + 8 : at + 12], "little")) <= length:
        count, at = count + 1, end
    return count, *((b"", 0) if at == length else (b" broken %d record" % (count + 1), 2))


def cut_blocks(capture, length):
    """The same of a file of blocks, of which those of kind 6 have packets. Its first three bytes are lines of a text."""
    count, blocks, at = 0, 0, 0
    while at + 12 <= length and (end := at + int.from_bytes(capture[at + 4 : at + 8], "little")) <= length:
        count, blocks, at = count + (capture[at] == 6), blocks + 1, end
    return count, *((b"", 0) if at == length or length < 4 else (b" broken %d block" % (blocks + 1), 2))


def try_captures(trial):
    """Each capture cut at each length, and with each byte 00 and ff: a last line and a status, and nothing is lost."""
    for path in sorted((TOP / "examples/captures").glob("riser.*")) + [TOP / "examples/captures/nic.log"]:
        capture, cut = path.read_bytes(), {".pcap": cut_file, ".pcapng": cut_blocks}.get(path.suffix)
        status, output, error = trial.run(["decode", path])
        trial.note((status, error) == (0, b""), f"{path.name} itself is refused")
        # (what stands before the line of the next entry, by how many entries there are)
        numbered = [it.start() for it in re.finditer(rb"(?m)^[0-9]", output)] + [output.index(b"entries ")]

        def ended(what, changed):
            got = trial.run(["decode", trial.file("capture", changed)])
            last = re.search(rb"(?:^|\n)entries ([0-9]+)((?: broken [0-9]+ [a-z-]+(?: [0-9]+ \(.*\))?)?)\n$", got[1])
            is_right = last and got[0] == (2 if last[2] else 0) and got[2] == b""
            trial.note(is_right, f"{path.name}, {what}: {got}")
            return got, last

        def row(length):
            got, last = ended(f"{length} bytes", capture[:length])
            if cut:
                count, why, wanted = cut(capture, length)
                wanted = (wanted, output[: numbered[count]] + b"entries %d%s\n" % (count, why), b"")
                trial.note(got == wanted, f"{path.name}, {length} bytes: wanted {wanted}, got {got}")
            elif last:
                # (the last line may be cut within an entry)
                told = got[1][: numbered[count_before(capture[:length])]]
                trial.note(output.startswith(told), f"{path.name}, {length} bytes: {got}")
            if length < len(capture):
                for byte in (0, 255):
                    ended(f"byte {length} is {byte}", capture[:length] + bytes([byte]) + capture[length + 1 :])

        each(row, range(len(capture) + 1))


def count_before(text):
    """How many entries the whole lines of a text capture are."""
    return sum(bool(line.split(b"#")[0].strip()) for line in text.split(b"\n")[:-1])


def walked_handles(plan, certificate):
    """The handles of the first node's records by place."""
    records = json.loads(plan)["nodes"][0]["terminus"]["records"]
    places = json.loads(certificate)["places"][0]["places"]
    by_place = sorted(zip(places, (it["handle"] for it in records)))
    return [handle for _, handle in by_place]


def try_all(trial):
    # (with checks of each access a program reserves all addresses, and is slow)
    limits = "ulimit -t 600" if trial.is_unproved else f"ulimit -t {SECONDS}; ulimit -v {MOST_MEMORY // 1000}"
    trial.program = ["sh", "-c", f'{limits}; exec "$@"', "sh", *trial.program]
    for part in (try_outputs, try_folders, try_beginnings, try_bytes, try_places, try_escapes, try_limits, try_sizes, try_formats, try_captures):
        if trial.has(part.__name__):
            part(trial)
