"""The commands that the documents show, run on their real files: what they print has to be what is shown.

The documents are README.md, docs/*.md and the examples' README.md. In a block that begins ```console a line
`$ COMMAND` is run, and the lines up to the next one are what it must print on standard output and standard error
together. A line that ends with a backslash goes on in the next one. The commands of a document run one after another
in a folder that stands for the top of the repository, so that what they write stays outside of it. A program that is
built, or is given with --program, stands in for bin/try too, but for what that says of itself. With the program of a
release, the documents of that release are tried.
"""
import os
import pathlib
import re
import shlex
import subprocess
import tempfile

from runner import TOP

PROGRAM, UNPROVED = "bin/mctpplan", "bin/try"
SAID = "mctpplan: nothing is proved here; bin/mctpplan proves and builds the program\n"


def shown_commands(text):
    """Each command with the output that is shown for it."""
    for block in re.findall(r"^```console\n(.*?)^```$", text, re.M | re.S):
        for part in re.split(r"^\$ ", block, flags=re.M)[1:]:
            command, output = re.fullmatch(r"((?:.*\\\n)*.*)\n((?:.*\n)*)", part).groups()
            yield command, output


def proved(commands):
    """Commands that call bin/try, and what is shown for them, as bin/mctpplan in its place does."""
    for command, output in commands:
        is_unproved = UNPROVED in command
        yield (command.replace(UNPROVED, PROGRAM), output.replace(SAID, "", 1)) if is_unproved else (command, output)


def printed(commands, stand_in, top):
    """What each command of a document prints, with this program."""
    with tempfile.TemporaryDirectory(prefix="desk-") as desk:
        for entry in top.iterdir():
            os.symlink(entry, f"{desk}/{entry.name}")
        yield from (printed_at(desk, command.replace(PROGRAM, stand_in)) for command in commands)


def printed_at(desk, command):
    how = {"cwd": desk, "stdin": subprocess.DEVNULL, "stdout": subprocess.PIPE, "stderr": subprocess.STDOUT}
    return subprocess.run(["bash", "-c", command], text=True, timeout=1200, **how).stdout


def try_all(trial):
    folder = pathlib.Path(trial.given or TOP).resolve().parent.parent
    # (an archive has its documents at its top, and a package in its folder of documents)
    tops = [folder, folder / "share/doc/mctpplan"] if trial.given else []
    top = next((it for it in tops if (it / "README.md").exists()), TOP)
    paths = [top / "README.md", *sorted(top.glob("docs/*.md")), *sorted(top.glob("examples/*/README.md"))]
    for name in filter(trial.has, (str(it.relative_to(top)) for it in paths)):
        rows = [*shown_commands((top / name).read_text())]
        rows = rows if trial.is_unproved else [*proved(rows)]
        for (command, output), answer in zip(rows, printed([it for it, _ in rows], shlex.join(trial.program), top)):
            trial.note(answer == output, f"{name}: {command}\nshown:\n{output}printed:\n{answer}")
