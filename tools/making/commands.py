"""What the program and its manual page say of the commands, of docs/COMMANDS.md, and the schemas that the program prints.

crates/program_texts/src/guides.rt has the list of the commands, a text for each, and the version, of CHANGELOG.md; schemas.rt
beside it has the files of docs/schema. The list stands in docs/GUIDE.md too, and in the completions. Of docs/mctpplan.1
what stands between two comments each is made: the synopsis and the commands. Of crates/mctpplan/src/kit.rt it is the text,
which names no kit: tools/kit.py puts a kit's name into a copy.
"""
import pathlib
import re
import sys
import textwrap

TOP = pathlib.Path(__file__).resolve().parent.parent.parent
sys.path.insert(0, str(TOP / "tools"))
import kit  # noqa: E402

SOURCE = "docs/COMMANDS.md"
PROGRAM_KIT = f"crates/mctpplan/{kit.KIT_FILE}"
GUIDES = "crates/program_texts/src/guides.rt"
SCHEMAS = "crates/program_texts/src/schemas.rt"
MANUAL = "docs/mctpplan.1"
LIST = "docs/GUIDE.md"
BASH, ZSH = "completions/mctpplan.bash", "completions/_mctpplan"
KINDS = ["plan", "certificate", "events", "board", "answer"]
WIDTH = 100
COLUMN = 29
READ = "reads plans of formats 1 and 2, certificates of format 1, events of formats 1 to 3"


def text_of(path):
    return (TOP / path).read_text(encoding="utf-8")


class Entry:
    """What the document says of one command."""

    def __init__(self, section):
        examples = r"(?ms)^```console\n(.*?)^```$"
        self.usage, self.summary, *parts = re.split(r"\n\n+", re.sub(examples, "", section).strip())
        self.name = self.usage.split()[0]
        self.paragraphs = [re.sub(r"\s+", " ", it) for it in parts if not it.startswith("- ")]
        items = [re.sub(r"\s+", " ", it).strip() for part in parts if part.startswith("- ") for it in re.split(r"(?m)^- ", part)[1:]]
        self.statuses = [it for it in items if it.startswith("Status ")]
        self.notes = [it for it in items if not it.startswith("Status ")]
        self.examples = re.findall(examples, section)

    def listed(self):
        """Its line in the list of commands."""
        first = f"{self.usage:{COLUMN}}" if len(self.usage) < COLUMN - 1 else f"{self.usage}\n{'':{COLUMN}}"
        return f"{first}{self.summary}\n"

    def told(self):
        """What `guide` with its name prints."""
        lines = [f"mctpplan {self.usage}", ""]
        for paragraph in self.paragraphs:
            lines += [*textwrap.wrap(paragraph.replace("`", ""), WIDTH), ""]
        for note in self.notes:
            lines += textwrap.wrap(note.replace("`", ""), WIDTH, initial_indent="- ", subsequent_indent="  ")
        lines += [""] if self.notes else []
        for status in self.statuses:
            lines += textwrap.wrap(status.replace("`", ""), WIDTH)
        shown = "".join(self.examples).replace("bin/mctpplan", "mctpplan")
        return "\n".join([*lines, "", textwrap.indent(shown, "  ")])

    def manual(self):
        """Its part of the manual page."""
        parts = ["\n.sp\n".join(map(self.roff, self.paragraphs)), *map(self.roff, [*self.notes, *self.statuses])]
        return f".TP\n{self.usage_in_roff()}\n" + "\n.br\n".join(parts) + "\n"

    def usage_in_roff(self):
        words = [(it, "I" if it.strip("[]").isupper() else "B") for it in self.usage.split()]
        return " ".join(f"\\f{font}{escaped(it)}\\fP" for it, font in words)

    def roff(self, text):
        """A text as lines of roff: what stands between backticks is bold, and the arguments that it names are slanted."""
        parts = re.split(r"`([^`]*)`", text)
        parts[1::2] = [f"\\fB{escaped(it)}\\fP" for it in parts[1::2]]
        if arguments := "|".join({*re.findall(r"[A-Z]+", self.usage)}):
            parts[::2] = [re.sub(rf"\b({arguments})\b", r"\\fI\1\\fP", it) for it in parts[::2]]
        lines = textwrap.wrap("".join(parts), 118, break_long_words=False, break_on_hyphens=False)
        return "\n".join(f"\\&{it}" if it.startswith((".", "'")) else it for it in lines)


def escaped(text):
    return text.replace("\\", "\\e").replace("-", "\\-")


def entries():
    return [Entry(it) for it in re.split(r"(?m)^## ", text_of(SOURCE))[1:]]


def names(found):
    """The commands, each once."""
    return [*dict.fromkeys(it.name for it in found)]


def told(found):
    """What `guide` prints of each command."""
    return {name: "\n".join(it.told() for it in found if it.name == name) for name in names(found)}


def schema(kind):
    return text_of(f"docs/schema/{kind}.schema.json")


def version_name(changes):
    """The latest release that CHANGELOG.md tells of, and whether anything came later."""
    heads = re.findall(r"(?ms)^## (\S+)[^\n]*\n(.*?)(?=^## |\Z)", changes)
    later = heads[0][1].strip() if heads[0][0] == "Unreleased" else ""
    released = next((name for name, _ in heads if name != "Unreleased"), None)
    return f"{released} and later changes" if released and later else released or "unreleased"


def version():
    """What `version` prints but for its last line, which is of the kit."""
    return f"mctpplan {version_name(text_of('CHANGELOG.md'))}\n{READ}\n"


def without_kit():
    """The file of the kit's name, with none."""
    return re.sub(r'"[^"\n]*\\n"', lambda _: f'"{kit.UNNAMED}\\n"', text_of(PROGRAM_KIT))


def between(text, begin, made, end):
    """The text with what is made between these two texts."""
    before, _, rest = text.partition(begin)
    return f"{before}{begin}{made}{end}{rest.partition(end)[2]}"


def manual(found):
    page, synopsis = text_of(MANUAL), "\n.br\n".join(f"\\fBmctpplan\\fP {it.usage_in_roff()}" for it in found)
    for name, made in (("synopsis", f"{synopsis}\n"), ("commands", "".join(it.manual() for it in found))):
        page = between(page, f'.\\" {name}: tools/made writes this\n', made, f'.\\" {name}: end\n')
    return page


def completions(found):
    """Both files of completions: bash has the names, zsh says what each is."""
    offered = "\n".join(textwrap.wrap(" ".join(names(found)), WIDTH))
    said = {name: "; ".join(it.summary for it in found if it.name == name) for name in names(found)}
    rows = "".join(f'    "{name}:{summary}"\n' for name, summary in said.items())
    begin = "# tools/made writes these commands\n_mctpplan_commands="
    return {BASH: between(text_of(BASH), f"{begin}'", offered, "'\n"), ZSH: between(text_of(ZSH), f"{begin}(\n", rows, ")\n")}


def literal(text):
    """The text as a raw literal."""
    marks = "#" * (1 + max((len(it) for it in re.findall(r'"(#*)', text)), default=0))
    return f'r{marks}"{text}"{marks}'


def declared(constant, said):
    """A constant of a literal, in rt fmt's layout: a first line of more than 100 columns begins anew behind the sign."""
    whole = f"const {constant}: &str = {said};"
    return whole if len(whole.partition("\n")[0]) <= 100 else f"const {constant}: &str =\n    {said};"


def choosing(name, about, word, constants):
    """A function that answers the constant for a word, and the constants."""
    arms = "".join(f'        "{it}" => Some({constant}),\n' for it, (constant, _) in constants.items())
    head = f"pub fn {name}({word}: &str) -> Option<&'static str>"
    return [
        f"/// {about}\n{head} {{\n    match {word} {{\n{arms}        _ => None,\n    }}\n}}",
        *(declared(constant, literal(text)) for constant, text in constants.values()),
    ]


def guides(found):
    """The file of the guides."""
    constants = {name: (f"OF_{name.upper()}", text) for name, text in told(found).items()}
    made = [
        "//! What is said of the commands. `tools/made` writes this file from docs/COMMANDS.md.",
        f"/// The commands, a line each with its words.\npub const GUIDE: &str = {literal(''.join(it.listed() for it in found))};",
        f"/// The version, and the formats that are read.\npub const VERSION: &str = {literal(version())};",
        *choosing("guide_to", "What is said of a command, if it is one.", "command", constants),
    ]
    return "\n\n".join(made) + "\n"


def schemas():
    """The file of the schemas."""
    about = "The schema of a kind of text, if it is one that the program reads."
    constants = {kind: (kind.upper(), schema(kind)) for kind in KINDS}
    made = ["//! The JSON schemas. `tools/made` writes this file from docs/schema.", *choosing("schema_of", about, "kind", constants)]
    return "\n\n".join(made) + "\n"


def without_layout(text):
    """What counts of a file of Rattle: rt fmt may break a line before a literal."""
    return re.sub(r"=\s+r", "= r", text)


def made():
    """The text of each file."""
    found = entries()
    page = between(text_of(LIST), "$ bin/mctpplan guide\n", "".join(it.listed() for it in found), "```")
    made = {GUIDES: guides(found), SCHEMAS: schemas(), MANUAL: manual(found), LIST: page, PROGRAM_KIT: without_kit()}
    return {**made, **completions(found)}
