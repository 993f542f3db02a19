"""Each growth of memory refused, one after another: what then comes, against what comes with ample memory.

The programs of the tests are those that rt ci (or rt test) left, and tools/trials/refuse.c is loaded before the C library.
The kit's clang compiles it.

Each test whose name begins with refused_ sets marks around the calls that it tries. It is run once for each growth
between them, with that one refused, and once more with all from that one on, until a run needs no more. Each run must
pass: the test itself wants the answer or want of memory, and where nothing is refused the answer is wanted. Then each
command of the program is run so, over all its growths: it must answer as with ample memory, or end with status 3 and
'no memory' and nothing on standard output, but that sim and simmove have written whole lines of the outcomes that were
played before. Where a growth and all after it are refused, a later one leaves no fewer lines, and the last all but one.

Each call and each command has a line with how many growths it has and what came of refusing them. The words choose among
the crates of tests and the commands.
"""
import os
import pathlib
import re
import subprocess
import sys
import threading

from runner import TOP, Failed, commands, each

sys.path.insert(0, str(TOP / "tools"))
import kit  # noqa: E402

CRATES = ("message_tests", "network_tests")
# What a program takes memory by, besides the two that are refused.
OTHER_WAYS = {"calloc", "reallocarray", "aligned_alloc", "posix_memalign", "memalign", "valloc", "mmap", "sbrk", "brk"}
NO_MEMORY = (3, b"no memory\n")
# What writes lines before it ends.
WRITES_LINES = ("sim", "simmove")
LACKED, LACKED_LATER = "no memory", "no memory after some lines"


def compiled(room):
    """The library that refuses, made by the kit's own compiler, which links the programs too."""
    try:
        clang = kit.clang()
    except kit.Missing as why:
        raise Failed(f"{why}; no growth was refused") from why
    made = f"{room}/refuse.so"
    flags = ["-O1", "-shared", "-fPIC", "-nostdlib", "-fuse-ld=lld", f"-B{os.path.dirname(clang)}"]
    ran = subprocess.run([clang, *flags, "-o", made, TOP / "tools/trials/refuse.c"], capture_output=True, text=True)
    if ran.returncode:
        raise Failed(f"refuse.c is not compiled, so no growth was refused: {ran.stderr}")
    return made


def other_ways(program):
    """What else a program names by which it could take memory of the C library."""
    return sorted(it for it in OTHER_WAYS if b"\0" + it.encode() + b"\0" in pathlib.Path(program).read_bytes())


class Refusing:
    """Runs a program with a growth refused, and all after it where it goes on."""

    def __init__(self, room):
        self.library, self.room = compiled(room), room

    def run(self, words, scope, at, goes_on=False):
        """Its status, its two outputs, and what refuse.c counted, nothing where the program was stopped."""
        told = f"{self.room}/told-{threading.get_ident()}"
        pathlib.Path(told).unlink(missing_ok=True)
        refusing = {"REFUSE_SCOPE": scope, "REFUSE_AT": str(at), "REFUSE_ON": str(int(goes_on)), "REFUSE_TOLD": told}
        ran = subprocess.run(
            [*map(str, words)],
            env={"PATH": os.defpath, "LD_PRELOAD": self.library, **refusing},
            stdin=subprocess.DEVNULL,
            capture_output=True,
            timeout=60,
        )
        counted = pathlib.Path(told).read_text().split() if os.path.exists(told) else []
        return ran.returncode, ran.stdout, ran.stderr, [*map(int, counted)]


def in_turn(refusing, words, scope, judge):
    """Refuses each growth in turn, one alone and all from it on. Yields what is wrong, if anything, and what came of it.

    `judge` answers what came of a run, or None where it is wrong.
    """
    def tried(at, goes_on):
        ran = refusing.run(words, scope, at, goes_on)
        counted = ran[3]
        refused = counted[1] if counted else 1
        came = judge(*ran) if counted else None
        if goes_on and refused < 1 or not goes_on and refused > 1:
            came = None
        return at, goes_on, refused, came, ran

    first = refusing.run(words, scope, 0)
    growths = first[3][0] if first[3] else 0
    asked = [(at, goes_on) for at in range(1, growths + 1) for goes_on in (False, True)]
    # (the run after the last growth needs no more)
    asked.append((growths + 1, False))
    return growths, each(lambda it: tried(*it), asked)


def judged(trial, name, growths, tried):
    """Counts the runs of a call, and prints a line that says what came of them."""
    for at, goes_on, refused, came, (status, output, error, counted) in tried:
        what = f"growth {at}{' and all after it' if goes_on else ''} refused"
        told = f"{name}: {what}: status {status}, counted {counted}\n{output[-800:]}\n{error[-800:]}"
        trial.note(came is not None and (refused == 0) == (at > growths), told)
    parts = []
    for what, goes_on in (("each refused alone", False), ("with all after it", True)):
        came = [it[3] for it in tried if it[2] and it[1] == goes_on]
        parts.append(f"{what}: " + ", ".join(f"{came.count(it)} times {it}" for it in sorted({*came} - {None})))
    print(f"{name}: {growths} growths; {'; '.join(parts)}", flush=True)
    if not growths:
        trial.note(False, f"{name}: it has no growth, or its marks were not seen")


def of_test(status, output, error, counted):
    """What came of a test: it judges itself, and sets a mark where a call answered want of memory."""
    _, refused, begun, ended, lacked = counted
    if status or not begun or begun != ended or lacked and not refused:
        return None
    return "want of memory" if lacked else "the answer"


def looked_at(trial, program):
    """Whether a program is there, and takes memory by nothing else than what is counted."""
    if not os.access(program, os.X_OK):
        trial.note(False, f"{program} is not there: rt ci leaves it, and rt test in the crate's folder")
        return False
    ways = other_ways(program)
    trial.note(not ways, f"{program} names {', '.join(ways)}, by which refuse.c counts no growth")
    return True


def try_tests(trial, refusing, program):
    """Tries all tests of a program whose names begin with refused_."""
    listed = subprocess.run([program, "--list"], capture_output=True, text=True).stdout
    names = re.findall(r"(?m)^(\S*\brefused_\w+): test$", listed)
    trial.note(names, f"{program} has no test whose name begins with refused_")
    for name in names:
        judged(trial, name.split("::refused_")[-1], *in_turn(refusing, [program, name], "marks", of_test))


def try_command(trial, refusing, words):
    """Tries a command of the program."""
    words, writes_lines = [*trial.program, *words], words[0] in WRITES_LINES
    name = " ".join(["mctpplan", *(it.name if isinstance(it, pathlib.Path) else it for it in words[len(trial.program) :])])
    whole = refusing.run(words, "all", 0)[:3]

    def judge(status, output, error, _):
        if (status, output, error) == whole:
            return "the answer"
        is_begun = whole[1].startswith(output) and (not output or output.endswith(b"\n"))
        if (status, error) != NO_MEMORY or not is_begun or output and not writes_lines:
            return None
        return LACKED_LATER if output else LACKED

    growths, tried = in_turn(refusing, words, "all", judge)
    judged(trial, name, growths, tried)
    trial.note(whole[0] <= 1, f"{name}: status {whole[0]} with ample memory")
    if writes_lines:
        note_lines(trial, name, whole[1].count(b"\n"), tried)


def note_lines(trial, name, whole, tried):
    """Whether later growths leave more lines, up to all but one.

    All events are played before the first line is made. So where one growth alone is refused, there are the lines of what
    was played until then, and then anew those that were made until then. Where all after it are refused too, no line is
    made of what was played, and the lines never get fewer.
    """
    for what, goes_on in (("alone", False), ("with all after it", True)):
        lines = [ran[1].count(b"\n") for _, on, _, came, ran in tried if on == goes_on and came in (LACKED, LACKED_LATER)]
        fewer = sum(later < earlier for earlier, later in zip(lines, lines[1:]))
        told = f"{name}: of {whole} lines, each growth refused {what}: {lines}"
        trial.note(fewer <= (0 if goes_on else 1), f"{told}: they get fewer {fewer} times")
        trial.note(lines[-1:] == [whole - 1], f"{told}: the last isn't all but one")


def try_all(trial):
    refusing = Refusing(trial.room.name)
    for program in [TOP / f"crates/{it}/out/{it}_tests" for it in CRATES if trial.has(it)]:
        if looked_at(trial, program):
            try_tests(trial, refusing, program)
    chosen = [it for it in commands() if trial.has(it[0])]
    if chosen and looked_at(trial, trial.program[-1]):
        for words in chosen:
            try_command(trial, refusing, words)
