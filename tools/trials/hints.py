"""What a person at a terminal is told behind the line of a refusal, and that nothing is added elsewhere.

Each command runs twice: with a terminal for its standard error, where the hint has to follow the line, and with a pipe,
where the line has to stand alone.
"""
import os
import pty

from runner import RISER, TOP

PLAN, CERTIFICATE = RISER / "plan.json", RISER / "certificate.json"
SCRIPT = "mctpplan script PLAN CERT walk NODE EID COUNT [--lose N,N] [--repeat N,N]"
# The words, the line of the refusal, and the hint.
HINTS = [
    ([], "usage", ["mctpplan guide lists the commands"]),
    (["chek"], "usage", ["there is no command chek; the nearest is check"]),
    (["--help"], "usage", ["there is no command --help; mctpplan guide lists the commands"]),
    (["check", PLAN], "usage", ["mctpplan check PLAN CERT", "mctpplan guide check tells more"]),
    (["code", "C99"], "usage", ["mctpplan code CODE", "there is no code C99", "mctpplan guide code tells more"]),
    (
        ["walk", PLAN, CERTIFICATE, "nic", "0"],
        "usage",
        ["mctpplan walk PLAN CERT NODE COUNT", "COUNT is a number of 8 to 4079, and not 0", "mctpplan guide walk tells more"],
    ),
    (
        ["schema", "plans"],
        "usage",
        ["mctpplan schema plan|certificate|events|board|answer", "plans is none of plan, certificate, events, board and answer", "mctpplan guide schema tells more"],
    ),
    (["trace", PLAN, CERTIFICATE, "host", "nics"], "unreadable node: J06", ["there is no node nics; the nearest is nic"]),
    (["walk", PLAN, CERTIFICATE, "Host", "16"], "unreadable node: J06", ["there is no node Host; the nearest is host"]),
    (["walk", PLAN, CERTIFICATE, "host", "16"], "unreadable node: J06", ["host has no terminus"]),
    (["chekc", PLAN], "usage", ["there is no command chekc; the nearest is check"]),
    (
        ["script", PLAN, CERTIFICATE, "walk", "host", "7", "64"],
        "usage",
        [SCRIPT, "EID is a number of 8 to 254, and not 7", "mctpplan guide script tells more"],
    ),
    (
        ["script", PLAN, CERTIFICATE, "walk", "host", "17", "64", "--lose", "x"],
        "usage",
        [SCRIPT, "behind --lose and --repeat, each once, stand numbers with commas between them", "mctpplan guide script tells more"],
    ),
    (["script", PLAN, CERTIFICATE, "walk", "hsot", "17", "64"], "unreadable node: J06", ["there is no node hsot; the nearest is host"]),
    (
        ["explain", PLAN, CERTIFICATE, "--move", PLAN],
        "usage",
        ["mctpplan explain PLAN [CERT [EVENTS]] [--json]", "the other form is explain OLD --move NEW", "mctpplan guide explain tells more"],
    ),
    (
        ["draw", PLAN, "--rows", "7"],
        "usage",
        ["mctpplan draw PLAN [CERT] [--rows [EID]]", "EID is a number of 8 to 254, and not 7", "mctpplan guide draw tells more"],
    ),
    (["draw", PLAN, "--rows", "7", "--rows", "8"], "usage", ["mctpplan draw PLAN [CERT] [--rows [EID]]", "mctpplan guide draw tells more"]),
    (["show", "packets", "00"], "usage", ["mctpplan show packet HEX", "packets is neither packet nor record", "mctpplan guide show tells more"]),
    (
        ["export", "linux", PLAN, CERTIFICATE, "nic", "--link", "b0=x", "--link", "b1=x"],
        "usage",
        [
            "mctpplan export linux|mctpd|devicetree|c|entries|records PLAN CERT NODE [--link BUS=DEV]..",
            "--link is for linux, mctpd and devicetree, as --link b0=mctpi2c0, once for each bus and each device",
            "mctpplan guide export tells more",
        ],
    ),
    (
        ["record", "terminus-locator", "handle=x"],
        "usage",
        ["mctpplan record KIND FIELD=VALUE..", "terminus-locator can't have handle=x", "mctpplan guide record tells more"],
    ),
    (["check", TOP / "README.md", CERTIFICATE], "unreadable plan: J01", []),
]


def said_at_a_terminal(trial, words):
    """What the program writes on standard error where that is a terminal."""
    ours, theirs = pty.openpty()
    trial.run(words, stderr=theirs)
    os.close(theirs)
    said = b""
    try:
        while part := os.read(ours, 4096):
            said += part
    except OSError:
        # (a terminal whose other end is closed has no end of file)
        pass
    os.close(ours)
    return said.decode().replace("\r\n", "\n")


def try_all(trial):
    for words, line, hint in HINTS:
        name = " ".join(str(it).removeprefix(f"{TOP}/") for it in words) or "no words"
        if not trial.has(name):
            continue
        at_terminal, elsewhere = said_at_a_terminal(trial, words), trial.run(words)[2].decode()
        trial.note(at_terminal == "".join(f"{it}\n" for it in [line, *hint]), f"{name}, at a terminal: {at_terminal!r}")
        trial.note(elsewhere == f"{line}\n", f"{name}, elsewhere: {elsewhere!r}")
