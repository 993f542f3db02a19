"""The lines of definitions and documents, which have at most 120 characters; tables, imports and what is quoted may have more."""
import re

from runner import TOP

MOST = 120


def wide_lines(text):
    """The numbers of the lines that are too wide."""
    plain = re.sub(r"(?ms)^```.*?^```$|^(?:\||(?:pub )?use Rattle\.).*?$", lambda it: re.sub(r".", "", it[0]), text)
    return [number for number, line in enumerate(plain.split("\n"), 1) if len(line) > MOST]


def try_all(trial):
    paths = [*TOP.glob("*.md"), *TOP.glob("docs/**/*.md"), *TOP.glob("examples/*/*.md"), *TOP.glob("crates/*/README.md"), *TOP.glob("crates/*/specs/*.antt")]
    for path in (it for it in paths if trial.has(it.name)):
        wide = wide_lines(path.read_text(encoding="utf-8"))
        trial.note(not wide, f"{path.relative_to(TOP)}: more than {MOST} characters in line {', '.join(map(str, wide))}")
