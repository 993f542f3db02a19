"""docs/CHECK.md: the contract of `check`, and each definition that it rests on with its comment, of specs/ and src/.

docs/PROOFS.md says how many they are.
"""
import importlib.machinery
import pathlib
import re
import textwrap

TOP = pathlib.Path(__file__).resolve().parent.parent.parent
HEAD = """# What `check` rests on

The contract of `check`, and every definition that it names, or that these name, with the comment above it. What isn't
here has no part in what a `yes` says; `PROMISES.md` says it in plain words. `tools/definitions check` prints the same
with the definitions' own text, `tools/definitions check headline` of one clause alone, and so for any public function.
`tools/made` writes this page.

First come the files that the contract names, then those that these name, and so on. Within a file a definition stands
behind those that it names. The types that the code declares come behind the definitions. What the kit defines is named
at the end; its own pages explain it.
"""


def page():
    tool = importlib.machinery.SourceFileLoader("definitions", str(TOP / "tools/definitions")).load_module()
    sources = tool.Sources()
    (contract,) = tool.contracts(sources, "net_check::check")
    whole = tool.Closure(sources, contract.file, contract.text)
    counts = {name: tool.Closure(sources, contract.file, text).count() for name, text in contract.clauses().items()}
    parts = [HEAD, f"In all these are {whole.counts()}.", "| Clause | Definitions |\n|---|---|"]
    parts[-1] += "".join(f"\n| `{name}` | {count} |" for name, count in counts.items())
    parts += [f"## The contract, in `{contract.file.name}`", f"```text\n{contract.text}\n```"]
    for file, made in whole.sections():
        parts += [f"## `{file.name}`", wrapped(file.about), "\n".join(lines_of(made))]
    parts += ["## Of the kit", "\n".join(wrapped(f"`{it}`", "- ") for it in whole.told_of_kit())]
    return "\n\n".join(it.strip("\n") for it in parts if it) + "\n"


def lines_of(made):
    """A line for each definition: its comment, or else what it is, where that is one line."""
    bare = []
    for it in made:
        comment = " ".join(part.strip() for part in re.findall(r"(?m)\A(?:(?:--|///).*\n)+", it.text) for part in re.split(r"(?m)^(?:--|///)", part))
        alone = re.fullmatch(r"[^\n]* : [^\n]*\n[^\n=]* = ([^\n]*)", it.text)
        if comment:
            yield wrapped(f"`{it.name}`: {comment.strip()}", "- ")
        elif alone and "`" not in alone[1]:
            yield wrapped(f"`{it.name}`: `{alone[1]}`", "- ")
        else:
            bare.append(f"`{it.name}`")
    if bare:
        yield wrapped(f"by their text alone: {', '.join(bare)}", "- ")


def wrapped(text, first=""):
    """The text in lines of at most 120 characters, in which no code between backticks is broken where it fits a line."""
    whole = re.sub(r"`[^`]{,110}`", lambda it: it[0].replace(" ", "\0"), text)
    lines = textwrap.wrap(whole, 120, initial_indent=first, subsequent_indent=" " * len(first), break_long_words=False, break_on_hyphens=False)
    return "\n".join(lines).replace("\0", " ")


def made():
    """The page, and docs/PROOFS.md with the number of its definitions."""
    text, proofs = page(), (TOP / "docs/PROOFS.md").read_text(encoding="utf-8")
    count = re.search(r"In all these are (\d+) definitions", text)[1]
    proofs = re.sub(r"\bthe \d+ definitions that it rests on", f"the {count} definitions that it rests on", proofs)
    return {"docs/CHECK.md": text, "docs/PROOFS.md": proofs}
