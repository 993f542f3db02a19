"""The rows in tests/: plans, certificates and events, and what the program prints for them.

More rows run `code`, `guide`, `schema` and `version`, which are to print what docs/ say: known.rows. The last line of
`version` names the kit that proved the program, or says that none is named; a program that nobody proved names none.

tests/README.md says how rows are written. All that is printed is compared, on standard output and on standard error,
and the status.
"""
import codecs
import functools
import importlib.machinery
import json
import pathlib
import re
import tempfile

from runner import TOP, Failed, each


class Wrong(Exception):
    """A file of rows that is not written as tests/README.md says."""


class Row:
    """What is given, a line each, and what is wanted, a line each."""

    def __init__(self, number):
        self.number, self.given, self.wanted = number, [], []


class Scene:
    """A title, the words of a command, the texts that they name, those given as words and not as files, the one that is
    given on standard input, those that lie in its folder, and rows."""

    def __init__(self, title):
        self.title, self.words, self.texts, self.as_words, self.rows = title, [], {}, set(), []
        self.folder = self.as_input = None
        self.inside = {}

    def last_text(self):
        """The name of the text that the rows change or fill: the last one that was set."""
        if not self.texts:
            raise Wrong(f"{self.title}: no text is set")
        return [*self.texts][-1]

    def is_of_events(self):
        """Whether the rows are the events of one list."""
        return "EVENTS" in self.words and "EVENTS" not in self.texts


class Case:
    """One run of the program, and the rows that it shows."""

    def __init__(self, scene, texts, rows):
        self.scene, self.texts, self.rows = scene, texts, rows

    def words(self, path_of, folder):
        """The words of the run, with a path for each text that is a file, and for the folder if there is one."""
        return [str(folder) if it == self.scene.folder else self.word(it, path_of) for it in self.scene.words]

    def word(self, word, path_of):
        if word not in self.texts:
            return word
        if word == self.scene.as_input:
            return "-"
        text = self.texts[word]
        return text.decode() if word in self.scene.as_words else path_of(word, text)

    def wrong(self, output, error, status, written):
        """The rows that are not as written, each with what came instead. What was written are lines too."""
        output += written
        if self.scene.is_of_events():
            lines = [re.sub(r"^\d+ ", "", it) for it in output.splitlines()]
            numbers = [it.split(" ")[0] for it in output.splitlines()]
            if error or status or numbers != [str(at) for at in range(1, len(self.rows) + 1)]:
                return [(row, output[-400:] + error) for row in self.rows]
            return [(row, came) for row, came in zip(self.rows, lines) if row.wanted != [came]]
        (row,) = self.rows
        came = f"{output[-400:]}{error}status {status}"
        if row.wanted == ["read"]:
            return [(row, came)] if error or status > 1 else []
        wanted = fixed_of(row, self.texts) if self.scene.words[0] == "fix" else wanted_of(row, self.scene.words)
        return [] if wanted == (output, error, status) else [(row, came)]


def fixed_of(row, texts):
    """The same of `fix`: the edits on standard error, and the given text with lines that are gone and lines that came."""
    (text,) = texts.values()
    edits = "".join(f"{it}\n" for it in row.wanted if it.startswith("Edit: "))
    if "status 1" in row.wanted or any(it.startswith("unreadable ") for it in row.wanted):
        printed, _, status = wanted_of(row, ["explain"])
        return printed.replace(edits, ""), edits, status or 2
    lines, at = text.decode().split("\n"), 0
    for change in row.wanted:
        if change.startswith("-"):
            at = lines.index(change[1:], at)
            del lines[at]
        elif change.startswith("+"):
            lines.insert(at, change[1:])
            at += 1
    return "\n".join(lines), edits, 0


SAID = "said: "


def wanted_of(row, words):
    """What a row wants on standard output and on standard error, and its status."""
    errors = [it for it in row.wanted if it.startswith("unreadable ")]
    status = next((int(it.split()[1]) for it in row.wanted if it.startswith("status ")), 2 if errors else 0)
    # (`explain` is asked why a text doesn't read, and `make` why a board doesn't: they answer on standard output; `require`
    # does so of its wishes, and `decode` of its capture)
    told = "unreadable wanted", "unreadable capture"
    # (`verify` answers with verdicts alone, and says on standard error what it can't read, and where that lies)
    if words[0] != "verify":
        errors = [] if words[0] in ("explain", "make") else [it for it in errors if not it.startswith(told)]
    # (what `make` says of numbers stands on standard error)
    said = [it.removeprefix(SAID) for it in row.wanted if it.startswith(SAID)]
    lines = [versioned(it) for it in row.wanted if it not in errors and not it.startswith(("status ", SAID))]
    said = [*errors, *said] if words[0] == "verify" else [*said, *errors]
    return "".join(f"{it}\n" for it in lines), "".join(f"{it}\n" for it in said), status


def versioned(line):
    """A wanted line with the program's version in the place of the word VERSION."""
    return line.replace('"VERSION"', f'"{versions()[0]}"') if '"VERSION"' in line else line


# ---- reading


def scenes_of(text):
    """The scenes of a file."""
    scenes, row, is_set = [], None, False
    for number, line in enumerate(text.split("\n"), 1):
        if line.startswith("= "):
            scenes.append(Scene(line[2:]))
            row, is_set = None, False
        elif not line.strip() or line.startswith("#"):
            continue
        elif not scenes:
            raise Wrong(f"line {number}: no scene has begun")
        elif line == "--":
            is_set = True
        elif not is_set:
            setting(scenes[-1], line, number)
        elif line.startswith("    "):
            if row is None:
                raise Wrong(f"line {number}: nothing is given for this")
            row.wanted.append(line[4:])
        else:
            if row is None or row.wanted:
                row = Row(number)
                scenes[-1].rows.append(row)
            row.given.append(line)
    return scenes


def setting(scene, line, number):
    """A line between a scene's title and its rows."""
    key, _, value = line.partition(": ")
    kind, _, rest = value.partition(" ")
    if kind == "input":
        scene.as_input = key
        kind, _, rest = rest.partition(" ")
    if key == "run":
        scene.words = value.split()
    elif key.isupper() and value == "folder":
        scene.folder = key
    elif key.isupper() and kind == "in":
        where, kind, rest = rest.split(" ", 2)
        scene.inside[key] = where
        scene.texts[key] = (TOP / rest).read_bytes() if kind == "file" else escaped(rest)
    elif key.isupper() and kind == "file":
        scene.texts[key] = (TOP / rest).read_bytes()
    elif key.isupper() and kind in ("text", "word"):
        scene.texts[key] = rest.encode()
        scene.as_words |= {key} if kind == "word" else set()
    elif key == "old":
        scene.old = value
    elif key == "new":
        name = scene.last_text()
        scene.texts[name] = changed(scene.texts[name], scene.old.encode(), value.encode(), number)
    else:
        raise Wrong(f"line {number}: no setting: {line}")


def changed(text, old, new, number):
    """A text with the first place of an old part changed."""
    if old not in text:
        raise Wrong(f"line {number}: there is no {old.decode()}")
    return text.replace(old, new, 1)


def several(value):
    """`N ITEM`: the item N times, with commas between. In each, # stands for its place, from 0."""
    many, _, item = value.partition(" ")
    return ",".join(item.replace("#", str(at)) for at in range(int(many))).encode()


def escaped(value):
    """A text with escapes, as \\n, \\\\ and \\xff, of bytes that would not be seen."""
    return codecs.escape_decode(value.encode())[0]


def repeated(value):
    """`N TEXT`: the text, with escapes, N times."""
    many, _, text = value.partition(" ")
    return int(many) * escaped(text)


def nested(value):
    """`N OPEN WITHIN CLOSE`: N times OPEN, then WITHIN, where - stands for nothing, and N times CLOSE."""
    many, opens, within, closes = value.split(" ")
    return int(many) * opens.encode() + (b"" if within == "-" else within.encode()) + int(many) * closes.encode()


# How a line of a row gives what stands for each * of a text.
GIVES = {
    "text": str.encode,
    "escaped": escaped,
    "list": several,
    "repeated": repeated,
    "nested": nested,
}


def texts_of(scene, row):
    """The texts of a row's run."""
    name, texts, old = scene.last_text(), dict(scene.texts), b""
    for line in row.given:
        key, _, value = line.partition(":")
        value = value.removeprefix(" ")
        if key == "old":
            old = value.encode()
        elif key in ("new", "new list"):
            new = several(value) if key == "new list" else value.encode()
            texts[name] = changed(texts[name], old, new, row.number)
        elif line == "as it is":
            continue
        elif key in GIVES:
            texts[name] = texts[name].replace(b"*", GIVES[key](value))
        else:
            raise Wrong(f"line {row.number}: nothing is given by {line}")
    return texts


def cases_of(scene):
    """The runs that a scene calls for."""
    if any(not it.wanted for it in scene.rows) or not scene.rows:
        raise Wrong(f"{scene.title}: a row wants nothing")
    if not scene.is_of_events():
        return [Case(scene, texts_of(scene, it), [it]) for it in scene.rows]
    events = ",".join(line for it in scene.rows for line in it.given)
    texts = {**scene.texts, "EVENTS": f'{{"format":3,"events":[{events}]}}'.encode()}
    return [Case(scene, texts, scene.rows)]


# ---- running


def read(trial):
    """The cases of all files, each with its file's name."""
    for file in sorted(it for it in TOP.glob("tests/*.rows") if trial.has(it.name)):
        try:
            for scene in scenes_of(file.read_text()):
                yield from ((file.name, case) for case in cases_of(scene))
        except (Wrong, OSError, ValueError) as why:
            raise Failed(f"tests/{file.name}: {why}") from why
    if trial.has("known.rows"):
        yield from known()


def known():
    """A case for each text that the program has of documents: of a code, in both cases, a command, a schema."""
    codes, commands = maker("codes"), maker("commands")
    rows = [(("code", word), text) for code, text in codes.texts() for word in (code, code.lower())]
    rows += [(("guide", name), text) for name, text in commands.told(commands.entries()).items()]
    rows += [(("schema", kind), commands.schema(kind)) for kind in commands.KINDS]
    for number, (words, text) in enumerate(rows, 1):
        scene, row = Scene("the documents have this of it"), Row(number)
        scene.words = [*words]
        row.given, row.wanted = [" ".join(words)], text.split("\n")[:-1]
        yield "known.rows", Case(scene, {}, [row])


@functools.cache
def maker(name):
    """What makes texts of the program of documents."""
    return importlib.machinery.SourceFileLoader(name, str(TOP / f"tools/making/{name}.py")).load_module()


@functools.cache
def versions():
    """The program's version by itself, what `version` prints up to its last line, and that line where no kit is named."""
    it = maker("commands")
    return it.version_name(it.text_of("CHANGELOG.md")), it.version(), f"{it.kit.UNNAMED}\n"


def try_version(trial):
    """Compares what `version` prints, whose last line differs from build to build."""
    _, lines, unnamed = versions()
    status, output, error = trial.run(["version"])
    last = output.decode().removeprefix(lines)
    is_named = re.fullmatch(r"proved with rattle-kit-\S+ logic [0-9a-f]+\n", last) and not trial.is_unproved
    wanted = f"{lines}{unnamed}" if trial.is_unproved else f"{lines}proved with KIT\nor\n{lines}{unnamed}"
    told = f"version\nwanted:\n{wanted}printed:\n{output.decode()}{error.decode()}status {status}"
    trial.note((status, error) == (0, b"") and (last == unnamed or is_named), told)


def named_in(printed, paths):
    """What was printed, with the word that stands for a text in place of its path."""
    text = printed.decode()
    for name, path in paths.items():
        text = text.replace(str(path), name)
    return text


def written_in(folder):
    """A line for each file of a folder: its name, and its JSON without spaces."""
    files = sorted(pathlib.Path(folder).iterdir())
    return "".join(f"{it.name}: {json.dumps(json.loads(it.read_text()), separators=(',', ':'))}\n" for it in files)


def try_all(trial):
    if trial.has("known.rows"):
        try_version(trial)
    named = [*read(trial)]

    def run(case):
        paths = {}

        def path_of(name, text):
            paths[name] = trial.file(name, text)
            return paths[name]

        with tempfile.TemporaryDirectory(prefix="rows-") as folder:
            if case.scene.folder:
                paths[case.scene.folder] = folder
            for name, where in case.scene.inside.items():
                path = pathlib.Path(folder, where)
                path.parent.mkdir(exist_ok=True)
                path.write_bytes(case.texts[name])
            status, output, error = trial.run(case.words(path_of, folder), stdin=None, input=case.texts.get(case.scene.as_input, b""))
            written = written_in(folder) if case.scene.folder and not case.scene.inside else ""
        return case.wrong(named_in(output, paths), named_in(error, paths), status, written)

    for (name, case), wrong in zip(named, each(run, [case for _, case in named])):
        instead = {row: came for row, came in wrong}
        for row in case.rows:
            given, wants = "\n".join(row.given), "\n".join(row.wanted)
            told = f"tests/{name}:{row.number}: {case.scene.title}\n{given}\nwanted:\n{wants}\nprinted:\n{instead.get(row)}"
            trial.note(row not in instead, told)
