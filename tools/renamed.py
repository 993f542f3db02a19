"""Compares what wrong bodies rest on in two trees of which the later one has other names: for tools/try-edits --renamed.

A renaming is a file with a line 'OLD NEW' for each name, two whole words, or several for one that became several names. Two
texts are the same under it if they have the same tokens once the earlier one has the new names. What the formatter does as names grow or shrink doesn't count: white
space, the lines into which one of a definition is cut, a comma before a closing bracket. A text in quotes is one token, in
which only the arguments of `format!` and `write!` are names.

If two names become one, a word could come to mean the other thing. So nothing is known of an item where both stand in it,
in what its file has and imports, or among the methods of its type. A word behind a dot is looked up in a type: it is let pass.
"""
import hashlib
import itertools
import re

TOKEN = re.compile(
    r"""(?P<text>b?r(?P<raw>\#*)"[\s\S]*?"(?P=raw)|b?"(?:\\[\s\S]|[^"\\])*"|'(?:\\.[^']*|[^\\'\n])')"""
    r"""|(?P<comment>(?://|--(?=\s|$)).*)|(?P<word>\w+)|(?P<line>\n\ *(?=\S))|['"()\[\]{},;.]|[^\s\w'"()\[\]{},;.]+""",
    re.MULTILINE,
)
ARGUMENT = re.compile(r"(?<!\{)\{\w+(?=[:}])")
CLOSING = {")", "]", "}"}
# Before a bracket around one value and a comma these show that it is a tuple, and no call.
NO_CALL = {"break", "for", "if", "in", "let", "match", "return", "while"}
# How a name comes into being.
DECLARED = re.compile(
    r"\b(?:fn|struct|enum|trait|type|const|static|mod|macro_rules!|let(?: mut)?|for|λ|data|record|as) +(\w+)"
    r"|(\w+) ?:(?!:)|^ +(\w+)(?:\([^)]*\))?,$",
    re.MULTILINE,
)
# Behind these a deeper line of a definition begins something of its own.
OPENING = {"do", "let", "mutual", "where"}


class Unknown(Exception):
    """Why it isn't known what an edit rests on."""


class Renaming:
    """The names that became others."""

    def __init__(self, new):
        self.new = new

    def word(self, word):
        return self.new.get(word, word)

    def words(self, text):
        return re.sub(r"\w+", lambda it: self.word(it[0]), text)

    def joins(self, words):
        """Whether two of these words become one."""
        return len({self.word(it) for it in words}) < len(words)

    def tokens(self, text, has_layout=False):
        """The tokens of a text under the new names; in definitions also where a line begins something of its own."""
        made, opened, indent = [], [], 0
        for it in TOKEN.finditer(text):
            kind, token = it.lastgroup, it[0]
            if kind == "line":
                if not has_layout or len(token) - 1 > indent and made[-1] not in OPENING:
                    continue
                indent = len(token) - 1
            elif kind == "word":
                token = self.word(token)
            elif kind == "comment":
                token = " ".join(self.words(token).split())
            elif kind == "text":
                if opened and opened[-1][0] in ("format!", "write!"):
                    token = ARGUMENT.sub(lambda found: self.words(found[0]), token)
            elif token in "([{":
                opened.append(["".join(made[-2 if made[-1:] == ["!"] else -1 :]), 0])
            elif token == "," and opened:
                opened[-1][1] += 1
            elif token in CLOSING and opened:
                before, commas = opened.pop()
                is_call = before not in NO_CALL and re.search(r"[\w!>)\]]$", before)
                if made[-1] == "," and (token != ")" or commas > 1 or is_call):
                    made.pop()
            made.append(token)
        return made


NONE = Renaming({})


def read(file):
    """Reads a renaming: what it makes of the old texts, and of the new ones, where a name that became several has its first new
    one. Raises ValueError where a line is no 'OLD NEW'."""
    there, here = {}, {}
    with open(file, encoding="utf-8") as it:
        for at, line in enumerate(it, 1):
            words = line.split()
            if len(words) != 2 or not all(re.fullmatch(r"(?!\d)\w+", it) for it in words):
                raise ValueError(f"line {at} is not 'OLD NEW': {line.strip()[:60]}")
            old, new = words
            if there.setdefault(old, new) != new:
                here[new] = there[old]
    return Renaming(there), Renaming(here)


def names_in(text):
    """The words of a text that stand behind no dot."""
    tokens = NONE.tokens(text)
    return {it for before, it in zip(("", *tokens), tokens) if before != "." and re.fullmatch(r"\w+", it)}


def sum_of(value):
    return hashlib.sha256(repr(value).encode()).hexdigest()


def first_difference(old, new):
    at = next(at for at, (one, two) in enumerate(itertools.zip_longest(old, new)) if one != two)
    return f"'{' '.join(old[at : at + 6])}' is '{' '.join(new[at : at + 6])}' here"


class Renamed:
    """What the edits of a tree rest on, under a renaming. The tree's ledger finds that."""

    def __init__(self, ledger, crates, renaming):
        self.ledger, self.crates, self.renaming, self.sums = ledger, crates, renaming, {}
        files = [file for crate in crates for file in ledger.files_of(crate)]
        self.declared = {it.name for it in crates} | {word for file in files for it in DECLARED.findall(file.text) for word in it}
        self.joined = {*self.joined_in(files)} if renaming.new else set()

    def joined_in(self, files):
        """The items in which two names become one."""
        methods = {}
        for it in (it for file in files for it in file.items if it.of):
            methods.setdefault(it.of, set()).update(re.findall(r"\bfn (\w+)", it.text))
        for file in files:
            of_file = self.renaming.joins(file.own | {*file.imports})
            for it in file.items:
                if of_file or self.renaming.joins(methods.get(it.of, ())) or self.renaming.joins(names_in(it.text)):
                    yield it

    def item(self, it):
        """The names of an item, the type that has to be named besides, and its tokens."""
        return sorted(map(self.renaming.word, it.names)), self.renaming.word(it.of), self.renaming.tokens(it.text, it.has_layout)

    def sum_of_item(self, it):
        if it not in self.sums:
            self.sums[it] = sum_of(self.item(it))
        return self.sums[it]

    def parts_of(self, crate, edit):
        """What the refusal of an edit rests on: the tokens of the item that it changes, before and after, those of the items that
        use a constant, and the sums of all items that are reached from there. Raises Unknown."""
        found = self.ledger.reached_by(crate, edit)
        if not found:
            raise Unknown(edit.bad or "it stands in no item")
        (text, *users), items = found
        texts = [text, self.ledger.text_with(crate, edit), *users]
        if self.joined.intersection(items) or any(self.renaming.joins(names_in(it)) for it in texts):
            raise Unknown("two names there become one")
        before, after, *users = map(self.renaming.tokens, texts)
        return before, after, sorted(users), sorted({*map(self.sum_of_item, items)})

    def sum_of_edit(self, crate, edit):
        """A sum of what the refusal of an edit rests on. None where that isn't known."""
        try:
            return sum_of(self.parts_of(crate, edit))
        except Unknown:
            return None

    def difference(self, crate, edit, here, crate_here, edit_here):
        """Where what an edit rests on begins to differ from what one of another tree does."""
        try:
            parts = [*zip(self.parts_of(crate, edit), here.parts_of(crate_here, edit_here))]
        except Unknown as why:
            return str(why)
        for old, new in parts[:2]:
            if old != new:
                return first_difference(old, new)
        items = self.ledger.reached_by(crate, edit)[1], here.ledger.reached_by(crate_here, edit_here)[1]
        there, now = ({side.sum_of_item(it): side.item(it) for it in found} for side, found in zip((self, here), items))
        lost, new = ([side[total] for total in sorted({*side} - {*other})] for side, other in ((there, now), (now, there)))
        for names, of, tokens in lost:
            like = next((it for *known, it in new if known == [names, of]), None)
            if like:
                return f"{' '.join(names)}: {first_difference(tokens, like)}"
        more = [f"{' '.join(names) or 'an item'} is reached {at} alone" for side, at in ((lost, "there"), (new, "here")) for names, *_ in side[:1]]
        return " and ".join(more) or "other items use it"
