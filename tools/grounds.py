"""What the refusal of a wrong body rests on, found by names.

A function is proved against its own contract, the contracts of what it calls, and the definitions that these name. So from
the function's text each item is taken that it names: a function without its body, a type, a constant, a definition. Then
those are taken that these name, and so on; only bodies and constants call functions. A name counts where its file has or
imports it, or where it stands behind a path, and then for every item that is called so, in the crate and in all below it: so
this may take too much, and never too little. Comments and proofs don't count.
"""
import hashlib
import re

import importing

WORD = re.compile(r"\w+")
CHAIN = re.compile(r"((?<!\.)\.|::)?\b(\w+)(!?)((?:\.\w+)*)")
RAW = re.compile(r'r(#+)"[\s\S]*?"\1')
PUBLIC = r"(?:pub(?:\([\w: ]+\))? )?"
FUNCTION = rf"{PUBLIC}(?:const |unsafe |extern )*fn (\w+)"
IN_CODE = re.compile(rf"(?m)^(?={PUBLIC}(?:(?:const|unsafe|ghost|fn|struct|enum|trait|impl|type|mod|use|static)\b|macro_rules!|\w+! ?[({{\[])|#)")
METHOD = re.compile(rf"(?m)^(?=    (?:{FUNCTION}|#\[))")
NAMED = re.compile(rf"{FUNCTION}|{PUBLIC}(?:(?:struct|enum|trait|type|const|static)\b|macro_rules!) (\w+)")
IMPLEMENTS = re.compile(r"impl\b(?:<(?:[^<>]|<[^<>]*>)*>)?\s+([^{]*?)\s*(?:where[^{]*)?\{")
IN_DEFINITIONS = re.compile(r"(?m)^(?=(?:abbrev|unfoldable|pub|record|data|use|mod)\b)")
DEFINED = re.compile(r"(?:(?:abbrev|unfoldable|pub|record|data)\s+)+(\S+)")
IMPORT = re.compile(rf"(?m)^ *{PUBLIC}(?:ghost )?use ([^{{;\n]*)(?:\{{([^}}]*)\}})?")


def without_comments(text):
    """A text without empty lines and without those that are comments alone."""
    return "\n".join(it for it in text.split("\n") if it.strip() and not it.lstrip().startswith(("//", "--")))


def base(text):
    """The name of a type or a trait without its path and its parameters: 'crate::a::B<C>' is 'B'."""
    return re.sub(r"<[\s\S]*", "", text.strip()).split("::")[-1].strip("&' ")


def imports_of(text):
    """What a file's imports tell of each name: the types and modules on its way, and what it is called there."""
    found = {}
    for it in IMPORT.finditer(text):
        path, _, alias = it[1].strip().partition(" as ")
        way = [word for word in WORD.findall(path) if word[0].isupper() and word != "Rattle"]
        if it[2] is None:
            last = WORD.findall(path)[-1:]
            found.setdefault(alias or "".join(last), set()).update(way, last)
        for part in (it[2] or "").split(","):
            name, _, alias = part.strip().partition(" as ")
            found.setdefault(alias or name, set()).update(way, [name])
    return found


def parts(text, begin, end, boundary):
    """Where the parts of a text begin and end. An attribute belongs to what follows, and raw strings have no boundary."""
    raw = [it.span() for it in RAW.finditer(text, begin, end)]
    found, is_attribute = [], False
    for it in boundary.finditer(text, begin, end):
        if not any(first < it.start() < last for first, last in raw):
            found += [] if is_attribute else [it.start()]
            is_attribute = text[it.start() :].lstrip().startswith("#[")
    return [*zip(found, [*found[1:], end])]


class Item:
    """A piece of a text: the names by any of which it is found, the type that has to be named besides, whether it is a
    function, or has what calls functions, and whether its lines count, as in definitions."""

    def __init__(self, names, text, of="", span=(0, 0), is_function=False, calls=False, has_layout=False):
        self.names, self.text, self.of, self.span = names, without_comments(text), of, span
        self.is_function, self.calls, self.has_layout = is_function, calls, has_layout
        self.digest = hashlib.sha256(repr((sorted(names), of, self.text)).encode()).digest()


class File:
    """The items of one file, and what its words mean in it."""

    def __init__(self, text):
        self.text, self.items, self.imports = text, [], imports_of(importing.apart(text))

    def link(self):
        """Finds what each item names."""
        own = {name for it in self.items for name in it.names if not it.of}
        own.update(name for it in self.items for name in it.names if it.of in it.names)
        self.own = own
        # (a trait is imported for its methods, and need not be named)
        used = set(WORD.findall(IMPORT.sub("", without_comments(self.text))))
        traits = imports_of("".join(it[0] + "\n" for it in IMPORT.finditer(self.text) if it[0].startswith("use ")))
        self.silent = {word for name in traits if name[:1].isupper() and name not in used for word in traits[name]}
        for it in self.items:
            it.words = self.words_of(it.text)

    def words_of(self, text):
        """What a text of this file names. A word behind a dot has it: a field, or a method."""
        words = set(self.silent)
        for it in CHAIN.finditer(text):
            before, first, is_macro, rest = it[1], it[2], it[3], it[4].split(".")[1:]
            if before == ".":
                words.add(f".{first}")
            elif before or is_macro or first in self.own:
                words.add(first)
            words.update(self.imports.get(first, ()) if before != "." else ())
            is_path = before != "." and (first in self.imports or first[0].isupper())
            words.update(rest if is_path else (f".{word}" for word in rest))
        return words


class Source(File):
    """The items of a source's text. 'bodies' says where the bodies of its functions begin and end."""

    def __init__(self, text, bodies):
        super().__init__(text)
        self.bodies = sorted(bodies)
        for begin, end in parts(text, 0, len(text), IN_CODE):
            head = re.sub(r"^(?:(?:#\[|//)[^\n]*\n)*", "", text[begin:end])
            if not re.match(rf"{PUBLIC}(?:ghost )?(?:use|mod)\b", head):
                self.take(begin, end, head)
        self.link()

    def take(self, begin, end, head):
        block, name = IMPLEMENTS.match(head), NAMED.match(head)
        if not block:
            # (what has no name counts everywhere)
            kind = {"is_function": bool(name and name[1]), "calls": not name or not name[1]}
            self.add({name[1] or name[2]} if name else set(), begin, end, **kind)
        elif " for " in block[1]:
            trait, _, of = block[1].partition(" for ")
            self.add({base(of), base(trait)}, begin, end, base(of), calls=True)
        else:
            methods = parts(self.text, begin, end, METHOD)
            before = self.text[begin : methods[0][0] if methods else end]
            self.add({base(block[1])}, begin, begin + len(before), calls=True)
            for first, last in methods:
                name = re.search(FUNCTION, self.text[first:last])
                self.add({name[1]}, first, last, base(block[1]), before, is_function=True)

    def add(self, names, begin, end, of="", before="", **kind):
        self.items.append(Item(names, before + self.without_bodies(begin, end), of, (begin, end), **kind))

    def without_bodies(self, begin, end):
        kept, at = "", begin
        for first, last in self.bodies:
            if at <= first and last <= end:
                kept, at = kept + self.text[at:first], last
        return kept + self.text[at:end]

    def whole_at(self, begin, end, new=None):
        """The item that holds a part of the text, with its bodies and, where one is given, with a new text for that part: its
        text and what it names. None where no item does."""
        for it in self.items:
            first, last = it.span
            if first <= begin and end <= last:
                whole = self.text[first:last] if new is None else self.text[first:begin] + new + self.text[end:last]
                whole = without_comments(whole)
                return whole, it.words | self.words_of(whole)
        return None


class Definitions(File):
    """The items of a file of definitions."""

    def __init__(self, text):
        super().__init__(text)
        for begin, end in parts(text, 0, len(text), IN_DEFINITIONS):
            piece = text[begin:end]
            name = DEFINED.match(piece)
            if name and not re.match(r"(?:pub )?(?:use|mod)\b", piece):
                self.items.append(Item({name[1]} if WORD.fullmatch(name[1]) else set(), piece, has_layout=True))
                # (a value may be written by its constructor alone)
                for made in re.findall(r"(?m)^ +(?:pub )?(\w+) :", piece) if re.match(r"(?:\w+ )*?data\b", piece) else []:
                    self.imports.setdefault(made, set()).add(name[1])
        self.link()


class Grounds:
    """The items of a crate and of those below it, by their names."""

    def __init__(self, items):
        self.by_name, self.everywhere = {}, [it for it in items if not it.names]
        types = {name for it in items if not it.of for name in it.names}
        for it in items:
            # (an implementation for a type from elsewhere is found by its trait)
            of = it.of if it.of in types else ""
            for name in {of} if of in it.names else it.names:
                self.by_name.setdefault(name, []).append((it, of))
                if of and of not in it.names:
                    self.by_name.setdefault(f".{name}", []).append((it, of))

    def reached_from(self, words):
        """The items that are reached from these words, which are those of a body, in the order of their digests."""
        found, seen, types, waiting = set(), set(), set(), {}
        todo = [(word, True) for word in words]

        def take(it):
            if it not in found:
                found.add(it)
                todo.extend((word, it.calls) for word in it.words)

        for it in self.everywhere:
            take(it)
        while todo:
            word, calls = todo.pop()
            if (word, calls) in seen or word not in self.by_name:
                continue
            seen.add((word, calls))
            types.add(word)
            for it in waiting.pop(word, ()):
                take(it)
            for it, of in self.by_name[word]:
                if it.is_function and not calls:
                    continue
                if of and of not in types:
                    waiting.setdefault(of, []).append(it)
                else:
                    take(it)
        return sorted(found, key=lambda it: it.digest)
