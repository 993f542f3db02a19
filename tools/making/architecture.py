"""docs/ARCHITECTURE.md: its list of the crates, by crates.txt and the first sentence of each crate's root file.

A crate's level is one more than the highest of those below it. With each stand the crates right below it: those that it
uses, without those that one of the others uses too.
"""
import pathlib
import re
import textwrap

TOP = pathlib.Path(__file__).resolve().parent.parent.parent
PAGE = "docs/ARCHITECTURE.md"


def uses():
    """The crates of this repository that each one uses, in the order of crates.txt."""
    rows = dict(re.findall(r"(?m)^(\w+)[^:#\n]*: *(.*)$", (TOP / "crates.txt").read_text(encoding="utf-8")))
    return {name: [it for it in below.split() if it in rows] for name, below in rows.items()}


def below(name, uses, known):
    """All crates below one."""
    if name not in known:
        known[name] = {*uses[name], *(it for dep in uses[name] for it in below(dep, uses, known))}
    return known[name]


def level(name, uses):
    return max((1 + level(it, uses) for it in uses[name]), default=0)


def sentence(name):
    """The first sentence of a crate's root file."""
    folder = TOP / f"crates/{name}/src"
    root = next(it for it in (folder / "lib.rt", folder / "main.rt") if it.exists())
    about = " ".join(re.match(r"(?://!.*\n)+", root.read_text(encoding="utf-8"))[0].replace("//!", " ").split())
    return re.match(r".*?\.(?= [A-Z]|$)", about)[0]


def lines():
    """The list: a line for each level, and an item for each of its crates."""
    over, known = uses(), {}
    levels = {name: level(name, over) for name in over}
    edges = sum(map(len, over.values()))
    yield f"{len(over)} crates on {max(levels.values()) + 1} levels, with {edges} edges. `tools/made` writes this list from `crates.txt` and the crates."
    for at in range(max(levels.values()) + 1):
        yield f"\n**Level {at}**"
        for name in sorted(it for it in over if levels[it] == at):
            right_below = [it for it in over[name] if not any(it in below(other, over, known) for other in over[name])]
            text = f"- **`{name}`**: {sentence(name)}" + (f" Over {', '.join(f'`{it}`' for it in right_below)}." if right_below else "")
            yield textwrap.fill(text, 120, subsequent_indent="  ", break_long_words=False, break_on_hyphens=False)


def made():
    text = (TOP / PAGE).read_text(encoding="utf-8")
    head, end = "## The crates\n\n", "\n\n## "
    first = text.index(head) + len(head)
    return {PAGE: text[:first] + "\n".join(lines()) + text[text.index(end, first) :]}
