"""What all parts of tools/try share: the program that they run, its commands, and what they count."""
import atexit
import functools
import importlib.machinery
import os
import pathlib
import shutil
import subprocess
import sys
import tempfile
import threading
from concurrent.futures import ThreadPoolExecutor

TOP = pathlib.Path(__file__).resolve().parent.parent.parent
RISER, MOVE = TOP / "examples/riser", TOP / "examples/move"
BUILT = TOP / "crates/mctpplan/out/mctpplan"


def check_byte(data):
    """The check byte of a record (DSP0248): the CRC of eight bits by x^8 + x^2 + x + 1."""
    crc = 0
    for byte in data:
        crc ^= byte
        for _ in range(8):
            crc = crc << 1 ^ 0x107 * (crc >> 7)
    return crc


class Failed(Exception):
    """Why nothing can be tried."""


class Trial:
    """One part: its name, the words that it was given, and how many of its items passed and failed."""

    def __init__(self, name="", *words):
        self.name, self.passed, self.failed, self.is_skipped = name, 0, 0, False
        self.is_unproved = words[:1] == ("--unproved",)
        self.given = words[1] if words[:1] == ("--program",) and words[1:] else None
        self.words = words[2 if self.given else self.is_unproved :]
        self.lock, self.room = threading.Lock(), tempfile.TemporaryDirectory(prefix="try-")

    @functools.cached_property
    def program(self):
        """The words that run the program."""
        if self.is_unproved:
            trial = importlib.machinery.SourceFileLoader("trial", str(TOP / "bin/try")).load_module()
            try:
                return trial.program()
            except trial.Failed as why:
                raise Failed(str(why)) from why
        if self.given:
            path = pathlib.Path(self.given).resolve()
        else:
            # (this builds it, which takes its time)
            subprocess.run([TOP / "bin/mctpplan", "guide"], cwd=TOP, stdin=subprocess.DEVNULL, stdout=subprocess.DEVNULL)
            path = BUILT
        if not os.access(path, os.X_OK):
            raise Failed(f"there is no program {path}")
        return [str(path)]

    def run(self, words, seconds=600, **how):
        """Runs the program. Answers its status and what it wrote on standard output and on standard error, as bytes."""
        how = {"stdin": subprocess.DEVNULL, "stdout": subprocess.PIPE, "stderr": subprocess.PIPE, "timeout": seconds, **how}
        ran = subprocess.run([*self.program, *map(str, words)], **how)
        return ran.returncode, ran.stdout, ran.stderr

    def has(self, name):
        """Whether the words choose this name."""
        return not self.words or any(word in name for word in self.words)

    def file(self, name, text):
        """The path of a file with this text: the one of the name in this thread, so that large texts don't pile up."""
        path = pathlib.Path(self.room.name, f"{threading.get_ident()}-{name}")
        path.write_bytes(text if isinstance(text, bytes) else text.encode())
        return path

    def note(self, is_right, wrong):
        """Counts an item, and prints what is wrong with it where it isn't right."""
        with self.lock:
            self.passed, self.failed = self.passed + bool(is_right), self.failed + (not is_right)
            if not is_right:
                print(wrong, flush=True)

    def skip(self, why):
        self.is_skipped = True
        print(f"{self.name}: skipped, since {why}")


def each(call, items):
    """What a call answers for each item: as many at once as there are processors."""
    with ThreadPoolExecutor(len(os.sched_getaffinity(0))) as pool:
        return [*pool.map(call, items)]


def kind_of(path):
    """Of which kind a file of the examples is, by its name."""
    if path.name.startswith("events"):
        return "events"
    return "certificate" if "certificate" in path.name else "plan"


@functools.cache
def steps_folder():
    """A folder for the files of a roll-out, which is gone when the trials end."""
    folder = tempfile.mkdtemp(prefix="steps-")
    atexit.register(shutil.rmtree, folder)
    return folder


def commands():
    """The words of each command, each way that it may go."""
    plan, certificate, loop = RISER / "plan.json", RISER / "certificate.json", TOP / "examples/refused/loop.json"
    row, left, right, ranks = TOP / "examples/explained/c11-row.json", MOVE / "by-left.json", MOVE / "by-right.json", MOVE / "certificate-1.json"
    record = "01000000010100000900010001010000010111"
    for command, others in (
        ("check", [[plan, certificate], [loop, TOP / "examples/refused/loop-certificate.json"]]),
        ("certify", [[plan], [loop]]),
        ("make", [[TOP / f"examples/board/{it}.toml"] for it in ("riser", "full", "small")]),
        ("make", [[TOP / "examples/board/riser.toml", "--certificate", "/dev/null"]]),
        ("rows", [[TOP / "examples/questions/plan-without-rows.json"]]),
        ("assign", [[plan, certificate]]),
        ("sim", [[plan, certificate, RISER / it] for it in ("events-tid.json", "events-walk.json")]),
        ("expect", [[plan, certificate, RISER / "events-tid.json", RISER / "README.md"]]),
        ("walk", [[plan, certificate, "nic", "16"]]),
        ("export", [[it, plan, certificate, node] for it, node in (("linux", "riser"), ("c", "nic"), ("entries", "riser"), ("records", "nic"))]),
        ("export", [["linux", plan, certificate, "host", "--link", "b0=mctpi2c0"]]),
        ("reach", [[plan, certificate]]),
        ("matrix", [[plan, certificate]]),
        ("require", [[plan, certificate, TOP / "examples/questions/wanted.txt"]]),
        ("trace", [[plan, certificate, "host", "18"]]),
        ("draw", [[plan], [loop], [plan, certificate], [loop, "--rows"], [loop, "--rows", "16"]]),
        ("explain", [[plan], [loop], [row], [plan, certificate]]),
        ("explain", [[left, "--move", MOVE / it] for it in ("by-right.json", "no-left.json", "by-right-18.json")]),
        ("explain", [[MOVE / "to-left.json", "--move", MOVE / "to-right.json"], [plan, "--move", loop], [row, "--move", row]]),
        ("faults", [[plan], [loop], [row], [plan, certificate]]),
        ("fix", [[plan], [loop], [row]]),
        ("lint", [[plan], [TOP / "examples/questions/plan-without-rows.json"]]),
        ("move", [[left, right, ranks]]),
        ("certifymove", [[left, right], [MOVE / "to-left.json", MOVE / "to-right.json"]]),
        ("diff", [[left, right], [MOVE / "to-left.json", MOVE / "to-right.json"]]),
        ("rollout", [[left, right], [MOVE / "to-left.json", MOVE / "to-right.json"]]),
        ("rollout", [[MOVE / "to-left.json", MOVE / "to-right.json", "--write", steps_folder()]]),
        ("simmove", [[left, right, ranks, MOVE / "events.json"]]),
        ("show", [["packet", "010a08cb01800002"], ["packet", "010a08"], ["record", record]]),
        ("decode", [[TOP / "examples/captures/riser.pcap"], [TOP / "examples/captures/nic.log"]]),
        ("decode", [[TOP / "examples/captures/riser.pcapng", plan]]),
        ("audit", [[plan, certificate, TOP / "examples/captures" / it] for it in ("as-planned.txt", "liar.txt")]),
        ("audit", [[plan, certificate, TOP / "examples/captures/riser.txt", "--bus", "b1"]]),
        ("emulate", [[plan, certificate, "nic"], [plan, certificate, "riser", "--configured"]]),
        ("capture", [[plan, certificate, RISER / it] for it in ("events-tid.json", "events-walk.json")]),
        ("report", [[plan], [loop], [plan, certificate]]),
        ("explain", [[it, "--json"] for it in (plan, loop, row)]),
        ("explain", [[plan, certificate, "--json"]]),
        ("explain", [[plan, certificate, RISER / "events-tid.json"]]),
        ("faults", [[row, "--json"], [row, "--sarif"], [plan, certificate, "--json"]]),
        ("lint", [[TOP / "examples/questions/plan-without-rows.json", "--json"]]),
        ("reach", [[plan, certificate, "--json"]]),
        ("trace", [[plan, certificate, "host", "18", "--json"]]),
        ("describe", [[record]]),
        ("record", [["terminus-locator", "handle=1", "tid=20", "eid=37"]]),
        ("code", [["C08"]]),
        ("schema", [["plan"]]),
        ("guide", [[], ["lint"]]),
        ("version", [[]]),
    ):
        yield from ([command, *it] for it in others)
