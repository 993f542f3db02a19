"""The drawings of draw, which are read as DOT and compared with the plan, line by line.

Each plan in examples/ is drawn alone, and with each certificate beside it that fits it; so are random plans, with loops of
rows and of owners, nodes of one name, ports without an address and rows of no endpoint ID. What a drawing must have is made
once more from the plan, its certificate and the line of certify, as docs/FORMATS.md says: each bus, node, port and owner
once and in order, with its label, shape and color, and the hops of a loop of rows; with --rows the arrows from each node to
those that its rows name; with an endpoint ID the ways of its packets. Where Graphviz' dot is there (Debian: graphviz), it
must read each drawing and draw as many nodes and edges, and docs/server.svg must be what it makes of the server's drawing,
where it is of the version that made it.
"""
import functools
import json
import random
import re
import shutil
import subprocess

from runner import TOP, each, kind_of

TOKEN = re.compile(r'\s*(->|[{}\[\];,=]|"(?:\\.|[^"\\])*"|[A-Za-z_][A-Za-z0-9_]*|[0-9]+(?:\.[0-9]+)?)')
HEAD = [
    (("rankdir",), "LR"),
    (("nodesep",), "0.08"),
    (("node",), {"fontsize": "10", "height": "0.2", "margin": "0.04"}),
    (("edge",), {"fontsize": "9"}),
]
RANDOM = 25


class NoDrawing(Exception):
    """Why a text is no drawing."""


class Drawing:
    """The statements of a text in DOT: the ends of each, and its attributes."""

    def __init__(self, text):
        self.words = [*tokens(text)]
        for word in ("digraph", "plan", "{"):
            self.take(word)
        self.statements = []
        while self.next() != "}":
            self.statements.append(self.statement())
        self.take("}")
        if self.words:
            raise NoDrawing(f"behind the last line: {self.words[0]}")

    def next(self):
        return self.words[0] if self.words else ""

    def take(self, wanted=None):
        word = self.next()
        if not word or wanted is not None and word != wanted:
            raise NoDrawing(f"{word or 'the end'} for {wanted or 'a word'}")
        return self.words.pop(0)

    def statement(self):
        ends = [self.take()]
        if self.next() == "=":
            self.take("=")
            said = self.take()
        else:
            while self.next() == "->":
                self.take("->")
                ends.append(self.take())
            said = self.attributes()
        self.take(";")
        return tuple(ends), said

    def attributes(self):
        found = {}
        self.take("[")
        while self.next() != "]":
            name = self.take()
            if name in found:
                raise NoDrawing(f"{name} twice")
            self.take("=")
            found[name] = self.take()
            if self.next() != "]":
                self.take(",")
        self.take("]")
        return found


def tokens(text):
    at, text = 0, text.rstrip()
    while at < len(text):
        found = TOKEN.match(text, at)
        if not found:
            raise NoDrawing(f"no word of DOT: {text[at:at + 40]}")
        yield found[1]
        at = found.end()


# ---- what a drawing is to have


def quoted(text):
    return f'"{text}"'


def span(row):
    last = row["first"] + row["size"] - 1
    return "none" if row["size"] == 0 else f"{last}" if row["size"] == 1 else f"{row['first']} to {last}"


class Wanted:
    """The statements that a drawing is to have."""

    def __init__(self, plan, certificate, line):
        self.nodes, self.buses, self.certificate = plan["nodes"], plan["buses"], certificate
        self.places = {it["name"]: index for index, it in reversed([*enumerate(self.nodes)])}
        self.bus_places = {it["name"]: index for index, it in enumerate(self.buses)}
        words = line.split()
        self.eid = int(words[2]) if words[:2] == ["loop", "eid"] else None
        self.loop = [self.places[it] for it in words[words.index("nodes") + 1 :]] if "nodes" in words[:5] else []

    def of(self, rows):
        if not rows:
            return [*HEAD, *self.bus_lines(), *self.node_lines(self.loop), *self.port_lines(), *self.owner_lines(), *self.hop_lines()]
        if len(rows) == 1:
            return [*HEAD, *self.node_lines(self.loop), *self.bundle_lines(), *self.hop_lines()]
        return [*HEAD, *self.node_lines([]), *self.way_lines(int(rows[1]))]

    def bus_lines(self):
        for index, bus in enumerate(self.buses):
            yield (f"bus_{index}",), {"shape": "box", "height": "0.1", "style": "filled", "label": quoted(bus["name"])}

    def node_lines(self, red):
        for index, node in enumerate(self.nodes):
            yield (f"node_{index}",), self.looks(index, node, "red" if index in red else "black")

    def looks(self, index, node, color):
        """The attributes of a node."""
        label = rf"{node['name']}\n{node['kind']} eid {node['eid']}"
        if node["pool"]:
            label += rf"\npool {node['pool']['first']} size {node['pool']['size']}"
        if node["terminus"]:
            label += rf"\ntid {node['terminus']['tid']} records {len(node['terminus']['records'])}"
        shape = {"shape": "octagon"} if node["kind"] == "bridge" else {"shape": "box", "style": "rounded"}
        looks = {**shape, "peripheries": "2" if node["terminus"] else "1", "color": color, "label": quoted(label)}
        return {**looks, "tooltip": quoted(self.tooltip(node))} if self.certificate else looks

    def tooltip(self, node):
        of_node = lambda part: next((it for it in self.certificate[part] if it["node"] == node["name"]), None)
        level, ranks = of_node("levels"), of_node("ranks")
        ranges = [rf"\neid {it['first']} size {it['size']} rank {it['rank']}" for it in (ranks or {"ranges": []})["ranges"]]
        return f"level {level['level'] if level else 0}" + "".join(ranges)

    def port_lines(self):
        for index, node in enumerate(self.nodes):
            owner = self.nodes[self.places[node["owner"]]] if node["owner"] else {"ports": []}
            for number, port in enumerate(node["ports"]):
                ends = (f"node_{index}", f"bus_{self.bus_places[port['bus']]}")
                is_owners = any(it["bus"] == port["bus"] for it in owner["ports"])
                yield ends[::-1] if is_owners else ends, {"dir": "none", "label": quoted(f"{number}: {port['address'] or '-'}")}

    def owner_lines(self):
        for index, node in enumerate(self.nodes):
            if node["owner"]:
                is_red = self.eid is None and index in self.loop
                looks = {"style": "dashed", "weight": "0", "arrowsize": "0.6", "color": "red" if is_red else "black"}
                yield (f"node_{self.places[node['owner']]}", f"node_{index}"), looks

    def hop_lines(self):
        for one, other in zip(self.loop, self.loop[1:]) if self.eid is not None else ():
            yield (f"node_{one}", f"node_{other}"), round_looks(self.eid)

    def bundle_lines(self):
        for index, node in enumerate(self.nodes):
            for place in sorted({self.places[row["next"]] for row in node["rows"]}):
                spans = [rf"{span(row)}\l" for row in node["rows"] if self.places[row["next"]] == place]
                yield (f"node_{index}", f"node_{place}"), {"label": quoted("".join(spans))}

    def way_lines(self, eid):
        for index in range(len(self.nodes)):
            step = self.step(index, eid)
            if step is not None:
                yield (f"node_{index}", f"node_{step}"), self.way_looks(index, eid)

    def step(self, index, eid):
        """The node to which a node sends packets for an endpoint ID; none where it holds it or has no row for it."""
        node = self.nodes[index]
        named = [self.places[row["next"]] for row in node["rows"] if row["first"] <= eid < row["first"] + row["size"]]
        return None if node["eid"] == eid or not named else named[0]

    def way_looks(self, index, eid):
        way = [index]
        while (step := self.step(way[-1], eid)) is not None:
            if step == index:
                return round_looks(eid)
            if step in way:
                return {"label": quoted("goes round")}
            way.append(step)
        is_held = self.nodes[way[-1]]["eid"] == eid
        return {"label": quoted(len(way) - 1)} if is_held else {"style": "dotted", "label": quoted("stops")}


def round_looks(eid):
    return {"color": "red", "penwidth": "3", "label": quoted(f"eid {eid}")}


# ---- plans


def random_plan(number):
    chance = random.Random(number)
    buses = [{"name": f"b.{it}", "binding": 1, "media": 4} for it in range(chance.randint(1, 4))]
    letters = "aZ09-_."
    names = ["".join(chance.choices(letters, k=chance.choice([1, 2, 5, 32]))) for _ in range(chance.randint(1, 9))]
    return {"format": 1, "buses": buses, "nodes": [random_node(chance, name, names, buses) for name in names]}


def random_node(chance, name, names, buses):
    port = lambda: {"bus": chance.choice(buses)["name"], "address": "".join(chance.choices(["10", "1d", "a0"], k=chance.randint(0, 3)))}
    row = lambda: {"first": chance.randint(8, 14), "size": chance.choice([0, 1, 1, 2, 9]), "port": chance.randint(0, 2), "next": chance.choice(names)}
    record = {"handle": 1, "next": 0, "bytes": "01"}
    return {
        "name": name,
        "kind": chance.choice(["bridge", "endpoint"]),
        "eid": chance.randint(8, 16),
        "owner": chance.choice([None, *names]),
        "pool": chance.choice([None, {"first": 8, "size": chance.randint(0, 9)}]),
        "ports": [port() for _ in range(chance.randint(0, 3))],
        "rows": [row() for _ in range(chance.randint(0, 4))],
        "terminus": chance.choice([None, {"tid": chance.randint(1, 9), "records": [record] * chance.randint(0, 2)}]),
    }


def looping(number):
    """A plan that nothing rules certificates out of but a loop of rows, or one of owners, among other nodes."""
    chance = random.Random(number)
    count, is_of_owners = chance.randint(2, 5), number % 2 == 0
    names = [f"n{it}" for it in range(count + 2)]
    chance.shuffle(names)
    nodes = [
        {"name": name, "kind": "bridge", "eid": 8 + it, "owner": None, "pool": None, "ports": [{"bus": "b", "address": f"{16 + it:02x}"}], "rows": [], "terminus": None}
        for it, name in enumerate(names)
    ]
    round_them = chance.sample(nodes, count)
    for one, other in zip(round_them, round_them[1:] + round_them[:1]):
        if is_of_owners:
            one["owner"] = other["name"]
            other["pool"] = {"first": one["eid"], "size": 1}
        else:
            one["rows"] = [{"first": 40, "size": 2, "port": 0, "next": other["name"]}]
    return {"format": 1, "buses": [{"name": "b", "binding": 1, "media": 4}], "nodes": nodes}


def chosen(plan):
    """Endpoint IDs of which rows are, and one of no row."""
    firsts = sorted({row["first"] for node in plan["nodes"] for row in node["rows"]})
    return [firsts[len(firsts) // 2] if firsts else 9, 17]


def drawings(trial):
    """Each plan, alone and with each certificate beside it: a name, the files, and which rows are drawn."""
    for plan in sorted(it for it in TOP.glob("examples/*/*.json") if kind_of(it) == "plan"):
        for files in ([plan], *([plan, it] for it in sorted(plan.parent.glob("*certificate*.json")))):
            for rows in ([], ["--rows"], ["--rows", "8"], ["--rows", "17"]):
                yield " ".join([*(str(it.relative_to(TOP)) for it in files), *rows]), files, rows
    for kind, make in (("random", random_plan), ("looping", looping)):
        for number in range(RANDOM):
            plan = make(number)
            path = trial.file(f"{kind}-{number}.json", json.dumps(plan))
            for rows in ([], ["--rows"], *(["--rows", str(it)] for it in chosen(plan))):
                yield " ".join([f"{kind} {number}", *rows]), [path], rows


# ---- what is wrong


def pictured(drawn):
    return subprocess.run(["dot", "-Tsvg"], input=drawn, capture_output=True, timeout=600)


def maker(picture):
    """The line of a picture that names the version of dot."""
    return re.search("<!-- Generated by .*", picture).group()


def shown_fault(trial):
    """What is wrong with the picture that the guide shows; '' where nothing is."""
    made = pictured(trial.run(["draw", TOP / "examples/server/plan.json"])[1]).stdout.decode()
    shown = (TOP / "docs/server.svg").read_text()
    return "" if made == shown or maker(made) != maker(shown) else "docs/server.svg is of another drawing"


def fault_in_picture(drawn, statements):
    """What is wrong with the picture that dot makes."""
    picture = pictured(drawn)
    if picture.returncode or picture.stderr:
        return f"dot: {picture.stderr}"
    got = tuple(len(re.findall(f'class="{it}"', picture.stdout.decode())) for it in ("node", "edge"))
    wanted = tuple(sum(len(ends) == count for ends, _ in statements) for count in (1, 2))
    return "" if got == wanted else f"dot: {got[0]} nodes and {got[1]} edges, {wanted[0]} and {wanted[1]} are meant"


@functools.cache
def obstacle(trial, plan):
    """The line of what rules certificates of a plan out; '' where it has one."""
    status, told, _ = trial.run(["certify", plan])
    return told.decode() if status else ""


def fault_of(trial, files, rows):
    """What is wrong with a drawing; '' where nothing is, and none where the certificate doesn't fit."""
    status, drawn, error = trial.run(["draw", *files, *rows])
    if len(files) == 2 and status in (1, 2):
        # (another plan's certificate is beside the plan, too)
        return None if trial.run(["check", *files]) == (status, drawn, error) else "check ends otherwise"
    if status or error:
        return f"status {status}: {error}"
    plan = json.loads(files[0].read_text())
    certificate = json.loads(files[1].read_text()) if len(files) == 2 else None
    line = "" if certificate else obstacle(trial, files[0])
    try:
        got = Drawing(drawn.decode()).statements
    except NoDrawing as why:
        return str(why)
    wanted = Wanted(plan, certificate, line).of(rows)
    if got != wanted:
        return f"{[it for it in got if it not in wanted]} for {[it for it in wanted if it not in got]}, {len(got)} statements for {len(wanted)}"
    return fault_in_picture(drawn, got[len(HEAD) :]) if shutil.which("dot") else ""


def try_all(trial):
    if not shutil.which("dot"):
        print("drawings: read without Graphviz, since its dot is not there")
    elif trial.has("docs/server.svg"):
        fault = shown_fault(trial)
        trial.note(not fault, fault)
    items = [it for it in drawings(trial) if trial.has(it[0])]
    for (name, files, rows), fault in zip(items, each(lambda it: fault_of(trial, *it[1:]), items)):
        if fault is not None:
            trial.note(not fault, f"{name}: {fault}")
