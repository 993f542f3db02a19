"""The kit whose command `rt` is on the PATH, and the crates of crates.txt: all that the tools here know of either.

Nothing of rt's own code is used. Its commands are called as `rt help` tells of them, and rattle, the kit's compiler, as
`rattle check --help` and `rattle build --help` do. So the tools go with each kit that has these words. What two kits may
say or do differently is asked of the kit, here and nowhere else.
"""
import contextlib
import fcntl
import functools
import hashlib
import os
import re
import shutil
import signal
import subprocess
import sys
import tempfile

# The program logic by which these sources were proved, as `rt version` names it. Under another one they may not be proved: see
# stop_on_other_logic. Whoever moves to a new logic writes it here once a gate has passed under it.
LOGIC = "dac8208d650f15bf"
PARTS = ("src", "specs", "proofs")
# The words of the last line of a proved crate, as `rattle check --help` has them, that say nothing against it. The others say
# that something isn't proved, may not return, or is done by other means than files, where HANDLES allows nothing; and a word
# that isn't here may say so. Trusted is the kit, with what this run proved of the crates below.
WORDS = ("logic", "tests", "functions", "axioms", "target", "cpu", "threads", "sum", "native")
TRUSTED = ("logic-built", "libraries-built", "statements")
# What the program says where nobody named the kit that proved it, in the file of its sources that is for this alone.
KIT_FILE, UNNAMED = "src/kit.rt", "no kit is named, so this program is not known to be proved"
# Where the folder of a crate keeps what tools/check proved of it.
CHECKED = "out/checked"
# What rattle says where a library was built over others than those that are there.
STALE = re.compile(r"module .Rattle-(\w+)-.*Run the lower steps again")
# MB of a disk that have to be free where something is proved.
ROOM = 10_000


class Missing(Exception):
    """What is missing for a tool to do its work, in words that say what to do."""


# ---- where it is, and which one


@functools.lru_cache(maxsize=None)
def home():
    """The folder of the kit."""
    rt = shutil.which("rt")
    if not rt:
        raise Missing("rt, the kit's command, is not on the PATH: put the bin/ of a kit there")
    return os.path.dirname(os.path.dirname(os.path.realpath(rt)))


@functools.lru_cache(maxsize=None)
def version():
    """What the kit says that it is: its name and the sum of its program logic in the first line, and maybe further sums."""
    home()
    ran = subprocess.run(["rt", "version"], capture_output=True, text=True, errors="replace")
    if ran.returncode or not ran.stdout.strip():
        raise Missing(f"rt version, of the kit in {home()}, ended with status {ran.returncode}: put that kit in order. {ran.stderr.strip()[-300:]}")
    return ran.stdout.strip()


def name():
    """The kit's name, without its sums."""
    return version().split()[0]


def logic():
    """The sum of the program logic by which the kit proves, or all that it says of itself where it names none."""
    found = re.search(r"\blogic ([0-9a-f]{8,})", version().splitlines()[0])
    return found[1] if found else version()


def stop_on_other_logic():
    """Stops where the kit's logic isn't the one by which the sources were proved, unless ANY_LOGIC=1 asks to go on."""
    if logic() != LOGIC and os.environ.get("ANY_LOGIC") != "1":
        raise Missing(
            f"the sources were proved under the logic {LOGIC}, and the kit {name()} has {logic()}: take a kit of that logic, or set "
            "ANY_LOGIC=1 to try whether they are proved under this one; bin/try runs the program unproved"
        )


@functools.lru_cache(maxsize=None)
def tells_of(verb, word):
    """Whether rattle's help on a command has the flag."""
    ran = subprocess.run([rattle(), verb, "--help"], stdout=subprocess.PIPE, stderr=subprocess.DEVNULL, text=True, errors="replace")
    return bool(re.search(rf"(?m)^ *{re.escape(word)}\b(?!-)", ran.stdout))


def rattle():
    return f"{home()}/bin/rattle"


def clang():
    """The kit's C compiler. The linker that goes with it stands beside it."""
    return f"{home()}/toolchain/bin/clang"


def backend():
    """The words after `rattle build` by which LLVM compiles what is proved."""
    return ["--toolchain", f"{home()}/toolchain", "--backend", "llvm"]


def c_libraries():
    """What an object file that rattle made is linked with, besides the C library."""
    return [f"{home()}/c/{it}" for it in ("libos_c.a", "liblibc_c.a")]


def link_words(made, program):
    """The words that link an object file that rattle made of a program."""
    how = ["--target", "x86_64-unknown-linux-gnu", "--toolchain", f"{home()}/toolchain"]
    return [f"{home()}/bin/rattle-link", *how, "-o", program, made, *c_libraries()]


# ---- crates


def text_of(file):
    with open(file, encoding="utf-8", errors="replace") as it:
        return it.read()


class Crate:
    """A crate: its folder, what it stands on, and where its library is."""

    def __init__(self, top, name, uses):
        self.name, self.uses, self.folder = name, uses, f"{top}/crates/{name}"
        self.is_program = os.path.isfile(f"{self.folder}/src/main.rt")
        # (where the kit's own commands have it, too)
        self.rlib = f"{self.folder}/out/rlib/{name}.rlib"
        self.deps, self.of_kit, self.kept_key, self.kept_below = [], ["std"], None, None

    def below(self):
        """The crates below it, each after those that it uses."""
        if self.kept_below is None:
            self.kept_below = [*{it.name: it for dep in self.deps for it in [*dep.below(), dep]}.values()]
        return self.kept_below

    def files(self):
        """Its sources, definitions and proofs."""
        folders = [f"{self.folder}/{part}" for part in PARTS]
        return sorted(f"{at}/{name}" for folder in folders for at, _, names in os.walk(folder, followlinks=True) for name in names)

    def lines(self):
        """How many lines its sources have."""
        return sum(text_of(it).count("\n") for it in self.files() if it.endswith(".rt"))

    def has_tests(self):
        return any("#[test]" in text_of(it) for it in self.files() if it.endswith(".rt"))

    def has_kept(self):
        """Whether `rt check` has left work in out/."""
        kept = f"{self.folder}/out/incremental"
        return os.path.isdir(kept) and bool(os.listdir(kept))

    def is_of_gate(self):
        """Whether its library is there and is what rt ci left: one of other commands has a stamp, and its proofs."""
        return os.path.isdir(self.rlib) and not os.path.isfile(f"{self.folder}/out/rlib/stamp")

    def words(self, tests=False, checks=True):
        """The words after `rattle check` and `rattle build` that say what the crate is and stands on. One that takes over an
        earlier check checks nothing."""
        words = ["--crate-name", self.name, f"src/{'main' if self.is_program else 'lib'}.rt"]
        for it in self.of_kit:
            words += ["--extern", f"{it}={home()}/rlibs/{it}.rlib"]
        words += ["-L", f"dependency={home()}/rlibs"]
        for it in self.deps:
            words += ["--extern", f"{it.name}={it.rlib}"]
        for it in self.below():
            words += ["-L", f"dependency={os.path.dirname(it.rlib)}"]
        words += ["--antt-project", f"{home()}/rattle/logic/antt-project.json"]
        words += ["--logic-built", f"{home()}/logic_built"] * checks + ["--test"] * tests
        # (that it is linked with nothing of its own, so that C functions of its own are refused)
        return [*words, "--links", f"{self.name}="] if tells_of("check", "--links") else words

    def source_words(self):
        """The same over the sources of the crates below, of which nothing has to be proved: enough to see whether it compiles."""
        words = ["--crate-name", self.name, f"src/{'main' if self.is_program else 'lib'}.rt", "-L", f"dependency={home()}/rlibs"]
        for it in sorted({it for crate in [self, *self.below()] for it in crate.of_kit}):
            words += ["--extern", f"{it}={home()}/rlibs/{it}.rlib"]
        for it in self.below():
            words += ["--lib", f"{it.name}:{','.join([*it.of_kit, *(dep.name for dep in it.deps)])}={it.folder}/src/lib.rt"]
        return [*words, "--antt-project", f"{home()}/rattle/logic/antt-project.json", "--logic-built", f"{home()}/logic_built"]

    def key(self):
        """A sum of all that its proof rests on: the kit, and the files of the crate and of those below, as they were at the first call."""
        if not self.kept_key:
            self.kept_key = self.key_now()
        return self.kept_key

    def key_now(self):
        """The same with the crate's own files as they are."""
        files = [(os.path.relpath(it, self.folder), sum_of(it)) for it in self.files()]
        return hashlib.sha256(repr((version(), self.name, self.uses, files, [it.key() for it in self.deps])).encode()).hexdigest()


def crates(top):
    """The crates that crates.txt lists, each after those that it uses."""
    if not os.path.isfile(f"{top}/crates.txt"):
        raise Missing(f"there is no {top}/crates.txt: take a whole checkout")
    rows = re.findall(r"(?m)^(\w+)[^:#\n]*:([^#\n]*)", text_of(f"{top}/crates.txt"))
    made = {name: Crate(top, name, below.split()) for name, below in rows}
    for crate in made.values():
        crate.deps = [made[it] for it in crate.uses if it in made]
        crate.of_kit += [it for it in crate.uses if it not in made and it != "std"]
        lost = [it for it in crate.of_kit if not os.path.isdir(f"{home()}/rlibs/{it}.rlib")]
        if lost:
            raise Missing(f"the crate {crate.name} uses {lost[0]}, which is neither in crates.txt nor in the kit {name()}: list it, or take a kit that has it")
    try:
        return sorted(made.values(), key=lambda it: len(it.below()))
    except RecursionError:
        raise Missing("crates.txt has crates that use each other in a circle") from None


def sum_of(file):
    with open(file, "rb") as it:
        return hashlib.sha256(it.read()).hexdigest()


# ---- calls


@functools.lru_cache(maxsize=None)
def group():
    """The process group of all calls: a shell leads it that ends them when this program ends, however it ends."""
    ends, _held = os.pipe()
    how = {"stdin": ends, "stdout": subprocess.DEVNULL, "stderr": subprocess.DEVNULL}
    # (the read ends when this program's end of the pipe closes)
    return subprocess.Popen(["sh", "-c", "read _; kill -9 0"], preexec_fn=os.setpgrp, **how).pid


JOIN = "import os, signal, sys; signal.signal(signal.SIGPIPE, signal.SIG_DFL); os.setpgid(0, int(sys.argv[1])); os.execvp(sys.argv[2], sys.argv[2:])"


def called(words, folder, hears=None, **how):
    """Calls a command of the kit; answers its status, what it said, and its processor seconds. Each line can be heard as it comes."""
    said = []
    how = {"cwd": folder, "stdin": subprocess.DEVNULL, "stdout": subprocess.PIPE, "stderr": subprocess.STDOUT, "text": True, "errors": "replace", **how}
    with subprocess.Popen([sys.executable, "-ISc", JOIN, str(group()), *words], **how) as ran:
        for line in ran.stdout:
            said.append(line)
            if hears:
                hears(line)
        _, status, usage = os.wait4(ran.pid, 0)
        ran.returncode = os.WEXITSTATUS(status) if os.WIFEXITED(status) else -os.WTERMSIG(status)
    return ran.returncode, "".join(said), usage.ru_utime + usage.ru_stime


def remove(path):
    """Removes a file or a folder, where it is there."""
    if os.path.isdir(path):
        shutil.rmtree(path)
    elif os.path.lexists(path):
        os.remove(path)


def proved(words, made, folder, jobs, hears):
    """Has rattle prove a crate and write what it makes of it. Does so once more with one process where it was killed, most
    likely for memory. Answers whether the crate is proved."""
    for many in (jobs, 1):
        remove(made)
        status, said, _ = called([rattle(), *words, "--jobs", str(many), "-o", made], folder, hears)
        if status != -signal.SIGKILL:
            break
    if status == 0 and not is_proved(status, said):
        hears(f"rt: nothing is taken for proved whose last line says {' '.join(against(last_line(said))) or 'nothing of the logic'}\n")
    return is_proved(status, said)


def last_line(said):
    return said.rstrip("\n").rpartition("\n")[2]


def against(line):
    """The words of the last line of a proved crate by which something may be left out of what is proved."""
    pairs = [it.partition("=") for it in line.split()]
    return ["".join(it) for it in pairs if it[0] not in (TRUSTED if it[2] == "trusted" else WORDS)]


def is_proved(status, said):
    """Whether rattle proved the crate, with nothing taken for granted but the kit and what was proved before."""
    line = last_line(said)
    return status == 0 and line.startswith("logic=proved ") and not against(line)


class Store:
    """Proved libraries, each in a folder by its crate's name and the sum of what its proof rests on. A clone has its own, unless
    MCTPPLAN_PROVED names one that several share."""

    def __init__(self, top):
        shared = os.environ.get("MCTPPLAN_PROVED")
        self.folder, self.is_shared = shared or f"{top}/crates/mctpplan/out/proved", bool(shared)

    def library(self, crate):
        return f"{self.folder}/{crate.name}-{crate.key()[:32]}/{crate.name}.rlib"

    def has(self, crate):
        return os.path.isdir(self.library(crate))

    def prove(self, crate, jobs, hears):
        """Proves a library from nothing over those below it, of which each has its place here, and gives it its name once it is
        whole; answers whether it is there. Of two calls for one library the second waits for the first."""
        crate.rlib = self.library(crate)
        to = os.path.dirname(crate.rlib)
        with alone(f"{tempfile.gettempdir()}/{os.path.basename(to)}.lock", lambda line: hears(f"rt: {line}\n")):
            if self.has(crate):
                return True
            remove(f"{to}.new")
            os.makedirs(f"{to}.new")
            words = ["build", *crate.words(), "--statements"]
            if not proved(words, f"{to}.new/{crate.name}.rlib", crate.folder, jobs, hears) or not is_same(crate, hears):
                return False
            os.rename(f"{to}.new", to)
            return True

    def let_go(self, crates):
        """Lets go what was proved of other files of these crates, where no other clone may want it."""
        kept, names = {os.path.basename(os.path.dirname(it.rlib)) for it in crates}, {it.name for it in crates}
        for it in os.listdir(self.folder) if os.path.isdir(self.folder) and not self.is_shared else []:
            if it not in kept and it.rpartition("-")[0] in names:
                shutil.rmtree(f"{self.folder}/{it}", ignore_errors=True)


def is_same(crate, hears):
    """Whether the crate's files are as they were before they were proved."""
    same = crate.key_now() == crate.key()
    if not same:
        hears("rt: its files changed while they were proved")
    return same


@contextlib.contextmanager
def named(program):
    """A copy of a program's folder, for as long as it is proved there, whose sources name this kit. The program's own name
    none: so what is built of them by other means, or proves nothing, doesn't say that it is proved."""
    with tempfile.TemporaryDirectory(prefix="named-") as room:
        for part in filter(lambda it: os.path.isdir(f"{program.folder}/{it}"), PARTS):
            shutil.copytree(f"{program.folder}/{part}", f"{room}/{part}")
        text = text_of(f"{room}/{KIT_FILE}")
        if text.count(UNNAMED) != 1:
            raise Missing(f"{program.name}/{KIT_FILE} is to have the line '{UNNAMED}' once: tools/made writes it")
        with open(f"{room}/{KIT_FILE}", "w", encoding="utf-8") as it:
            it.write(text.replace(UNNAMED, f"proved with {version().splitlines()[0]}"))
        yield room


def built(program, made, jobs, hears):
    """Proves a program from nothing under the kit's name, over its proved libraries, and links it; answers whether both went well."""
    with named(program) as folder:
        return proved(["build", *program.words(), *backend()], f"{made}.o", folder, jobs, hears) and link(f"{made}.o", made, hears) == 0


def link(made, program, hears=None):
    """Links an object file that rattle made of a program; answers the status."""
    return called(link_words(made, program), os.path.dirname(program), hears)[0]


# ---- what the machine has


def lanes():
    """How many processes are to be at work: RT_JOBS, or one a processor."""
    said = os.environ.get("RT_JOBS") or str(processors())
    if not re.fullmatch(r"0*[1-9]\d*", said):
        raise Missing(f"RT_JOBS is {said}: set it to how many processes are to be at work, or not at all")
    return int(said)


def stop_on_no_room(*folders):
    """Stops where one of the folders can't be written, or its disk has not enough room for proofs."""
    for it in folders:
        try:
            with tempfile.TemporaryFile(dir=it):
                pass
        except OSError as why:
            raise Missing(f"{it} cannot be written ({why.strerror}): work in a copy that can, or set TMPDIR where it is for other files") from why
        if free_on_disk(it) < ROOM:
            raise Missing(f"the disk of {it} has {free_on_disk(it)} MB free, and proofs want {ROOM}: make room there")


@contextlib.contextmanager
def alone(file, tell):
    """Holds the lock of a file. Where another call has it, tells that this one waits, and waits."""
    os.makedirs(os.path.dirname(file), exist_ok=True)
    with open(file, "a", encoding="utf-8") as it:
        try:
            fcntl.flock(it, fcntl.LOCK_EX | fcntl.LOCK_NB)
        except BlockingIOError:
            tell("another call is at work here: waiting until it ends")
            fcntl.flock(it, fcntl.LOCK_EX)
        yield


def number_in(file, pattern):
    try:
        return int(re.search(pattern, text_of(file))[1])
    except (OSError, TypeError):
        return None


def processors():
    """How many processors there are to use: those that this process may run on, or fewer by the quota of its control group."""
    found = len(os.sched_getaffinity(0))
    quota, period = number_in("/sys/fs/cgroup/cpu.max", r"^(\d+)"), number_in("/sys/fs/cgroup/cpu.max", r" (\d+)")
    return min(found, max(quota // period, 1)) if quota and period else found


def free():
    """The free memory in bytes, under the limit of the control group too."""
    found = [1024 * number_in("/proc/meminfo", r"MemAvailable:\s+(\d+)")]
    limit, held = number_in("/sys/fs/cgroup/memory.max", r"^(\d+)"), number_in("/sys/fs/cgroup/memory.stat", r"anon (\d+)")
    return min([*found, limit - held] if limit and held is not None else found)


def free_on_disk(folder):
    """How many MB of the disk are free below this folder."""
    return shutil.disk_usage(folder).free // 1_000_000


def linked(folder, to, ends=".oantt"):
    """Makes a copy of a folder. Files of this end are links, where the disk allows: in kept work a check replaces the checked
    modules, while it writes into some of the others."""

    def copied(file, at):
        try:
            return os.link(file, at) if file.endswith(ends) else shutil.copy2(file, at)
        except OSError:
            return shutil.copy2(file, at)

    shutil.copytree(folder, to, copy_function=copied, dirs_exist_ok=True)


def listing(folder):
    """What tells whether a file below a folder was changed, made or removed. (An empty one tells by its time alone when it was used.)"""
    files = [f"{at}/{name}" for at, _, names in os.walk(folder) for name in names]
    return sorted((os.path.relpath(it, folder), (found := os.stat(it)).st_size, found.st_size and found.st_mtime_ns, found.st_ino) for it in files)


def ends_plainly():
    """Has an interrupt end this program at once, with all that runs for it."""
    signal.signal(signal.SIGINT, signal.SIG_DFL)
    group()
