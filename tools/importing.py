"""The imports of definitions, lemmas and contracts, which stand in one line for each library: `use A.{B.{b}, C.{c, d}}`.

A module under a name of its own (`use A.B as b`) has a line to itself.
"""
import re

LINE = re.compile(r"( *)((?:pub )?(?:ghost )?)use ((?:Rattle\.)?\w+)\.([^{;]*?)\.?\{(.*)\}(;?)")
MODULE = re.compile(r"([^{]+)\.\{(.*)\}")


def split(text):
    """The parts of a list, between commas that stand outside of braces."""
    parts, depth, begun = [], 0, 0
    for at, sign in enumerate(text):
        depth += (sign == "{") - (sign == "}")
        if sign == "," and not depth:
            parts.append(text[begun:at].strip())
            begun = at + 1
    return [it for it in [*parts, text[begun:].strip()] if it]


class Line:
    """An import: how it begins and ends (`pub`, `ghost`), its library, and each module of it with the names that are taken."""

    def __init__(self, met):
        self.indent, self.kind, self.library, module, names, self.end = met.groups()
        several = [MODULE.fullmatch(it).groups() for it in split(names)] if not module else [(module, names)]
        self.modules = {}
        self.take(several)

    @staticmethod
    def of(line):
        met = LINE.fullmatch(line)
        return met and Line(met)

    def take(self, modules):
        for module, names in modules:
            own = self.modules.setdefault(module, [])
            own += [it for it in split(names) if it not in own]

    def head(self):
        return self.indent, self.kind, self.library, self.end

    def of_one(self, module):
        names = ", ".join(self.modules[module])
        return f"{self.indent}{self.kind}use {self.library}.{module}.{{{names}}}{self.end}"

    def text(self):
        """The import in one line. There is none where no name is left."""
        left = [it for it, names in self.modules.items() if names]
        if len(left) < 2:
            return self.of_one(left[0]) if left else None
        several = ", ".join(f"{it}.{{{', '.join(self.modules[it])}}}" for it in left)
        return f"{self.indent}{self.kind}use {self.library}.{{{several}}}{self.end}"


def apart(text):
    """The text with a line for each module of an import."""
    lines = []
    for line in text.split("\n"):
        one = Line.of(line)
        lines += [one.of_one(it) for it in one.modules] if one else [line]
    return "\n".join(lines)


def joined(text):
    """The text with one line for each library where imports stand together; modules under a name of their own stand last."""
    lines, open_here, named = [], {}, []

    def close():
        lines.extend([it.text() for it in open_here.values()] + named)
        open_here.clear()
        named.clear()

    for line in text.split("\n"):
        one = Line.of(line)
        if one and one.head() in open_here:
            open_here[one.head()].take((it, ", ".join(names)) for it, names in one.modules.items())
        elif one:
            open_here[one.head()] = one
        elif re.fullmatch(r" *(?:pub )?(?:ghost )?use [\w.]+ as \w+;?", line) and open_here:
            named.append(line)
        else:
            close()
            lines.append(line)
    close()
    return "\n".join(lines)
