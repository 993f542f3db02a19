"""The texts that `mctpplan code` prints, and the codes that the completions offer for it, of docs/REFUSALS.md."""
import os
import re
import textwrap

TOP = os.path.dirname(os.path.dirname(os.path.dirname(os.path.realpath(__file__))))
SOURCE = "docs/REFUSALS.md"
TARGET = "crates/program_texts/src/codes.rt"
COMPLETIONS = ["completions/mctpplan.bash", "completions/_mctpplan"]
OFFERED = re.compile(r"(?m)^(# tools/made writes these codes\n_mctpplan_codes=')[^']*'")
WIDTH = 100
CODE = r"[A-Z][0-2]\d"
BULLET = re.compile(rf"- (?:\*\*)?({CODE})(?:\*\*)?( \([^)]*\))?: (.*)|- `fault (?:old |new )?({CODE})\b[^:]*: (.*)", re.S)


def bullets(text):
    """The bullets of the document, each with those below it, in paragraphs without line breaks."""
    for block in re.findall(r"(?m)^- .*\n(?:^ +.*\n)*", text):
        parts = re.split(r"(?m)^  - ", block)
        yield [re.sub(r"\s+", " ", part).strip() for part in parts]


def plain(text):
    """The text without the marks of Markdown."""
    return re.sub(r"\[([^\]]*)\]\([^)]*\)", r"\1", text.replace("`", "").replace("**", ""))


def texts():
    """Each code with the text that is printed for it."""
    with open(f"{TOP}/{SOURCE}", encoding="utf-8") as it:
        source = it.read()
    found = {}
    for first, *rest in bullets(source):
        made = BULLET.fullmatch(first)
        if not made:
            continue
        code, where, meaning = (made[1], made[2] or "", made[3]) if made[1] else (made[4], "", made[5])
        name = f"rule {code}" if code[0] == "M" else code
        lines = [f"{name}{where}: {meaning}", *rest]
        found.setdefault(code, []).append("".join(f"{line}\n" for it in lines for line in textwrap.wrap(plain(it), WIDTH)))
    return [(code, "\n".join(parts)) for code, parts in found.items()]


def quoted(text):
    escaped = text.replace("\\", "\\\\").replace('"', '\\"').replace("\n", "\\n")
    return f'"{escaped}"'


def without_layout(text):
    """The codes and texts that the program's file has; another text as it is."""
    return re.findall(rf'"({CODE})" => Some\(\s*"((?:[^"\\]|\\.)*)",?\s*\)', text) or text


def made():
    """The text of each file."""
    wanted = texts()
    offered = "\n".join(textwrap.wrap(" ".join(sorted(code for code, _ in wanted)), WIDTH))
    found = {TARGET: program(wanted)}
    for path in COMPLETIONS:
        with open(f"{TOP}/{path}", encoding="utf-8") as it:
            found[path] = OFFERED.sub(lambda met: f"{met[1]}{offered}'", it.read())
    return found


def program(wanted):
    """The file of the program."""
    letters = sorted({code[0] for code, _ in wanted})
    arms = "".join(f"        b'{letter}' => of_{letter.lower()}(code),\n" for letter in letters)
    made = [
        "//! What each code means. `tools/made` writes this file from docs/REFUSALS.md.\n",
        "/// What is said of a code, if it is one. Its letter may be a small one.",
        "pub fn text_of(code: &str) -> Option<&'static str> {",
        "    let &[letter, tens, units] = code.as_bytes() else {\n        return None;\n    };",
        "    let bytes = [letter.to_ascii_uppercase(), tens, units];",
        "    let code = str::from_utf8(&bytes).ok()?;",
        f"    match bytes[0] {{\n{arms}        _ => None,\n    }}\n}}",
    ]
    for letter in letters:
        rows = "".join(f"        {quoted(code)} => Some({quoted(text)}),\n" for code, text in sorted(wanted) if code[0] == letter)
        made.append(f"\nfn of_{letter.lower()}(code: &str) -> Option<&'static str> {{\n    match code {{\n{rows}        _ => None,\n    }}\n}}")
    return "\n".join(made) + "\n"
