"""The pages that report makes, beside what the plan itself and other commands say.

Each plan of the examples, racks of 4, 24 and 64 nodes and a plan of odd parts are reported alone, and with each certificate
beside them. The status and the verdict must be those of certify and of check. The summary, each table and each terminus are
made once more from the plan and its certificate, and each cell must be as there; who reaches whom must be as matrix says,
the fields of records as describe does, and what looks wrong as lint does. A page must be well-formed HTML with each section
and its link, and must name no other file and have no script. In the picture each name must stand within its bounds, a node
of the reason must stand out, and no two words may lie on one another. Where they are installed, tidy must have nothing to
say of the pages, and Chromium must read them without a complaint and print them. With a word `keep=FOLDER` pictures of the
pages are left there, light and dark.
"""
import html
import html.parser
import json
import math
import pathlib
import re
import shutil
import subprocess

from runner import TOP, kind_of

VOID = {"meta", "line", "circle", "rect", "br"}
# the width of a character of a picture by the size of its letters
WIDTH = 0.62


class Page(html.parser.HTMLParser):
    """The elements of a page, and what is wrong with how they stand in one another."""

    def __init__(self, text):
        super().__init__()
        self.open, self.wrong, self.elements = [], [], []
        self.feed(text)
        self.wrong += [f"never closed: {it['tag']}" for it in self.open]

    def handle_starttag(self, tag, attributes):
        it = {"tag": tag, "text": "", "above": [other["tag"] for other in self.open], **dict(attributes)}
        self.elements.append(it)
        if len(dict(attributes)) < len(attributes):
            self.wrong.append(f"an attribute twice: {tag}")
        if tag not in VOID:
            self.open.append(it)

    def handle_startendtag(self, tag, attributes):
        self.elements.append({"tag": tag, "text": "", "above": [other["tag"] for other in self.open], **dict(attributes)})

    def handle_endtag(self, tag):
        if not self.open or self.open[-1]["tag"] != tag:
            self.wrong.append(f"closed in another order: {tag}")
        else:
            self.open.pop()

    def handle_data(self, text):
        for it in self.open:
            it["text"] += text

    def all(self, tag, **wanted):
        return [it for it in self.elements if it["tag"] == tag and all(it.get(key) == value for key, value in wanted.items())]


def rack(trial, count):
    """The plan of the first nodes of the rack in the examples, by owner level, and its certificate."""
    made = trial.run(["make", TOP / "examples/board/rack.toml"])
    plan = json.loads(made[1])
    by_name = {it["name"]: it for it in plan["nodes"]}
    kept = [it for it in plan["nodes"] if it["owner"] is None]
    while len(kept) < count:
        names = {it["name"] for it in kept}
        # (one shelf after the other, so that a small rack has each level)
        kept.append(next(it for it in reversed(plan["nodes"]) if it["name"] not in names and it["owner"] in names))
    names = {it["name"] for it in kept}
    plan["nodes"] = [it for it in plan["nodes"] if it["name"] in names]
    for node in plan["nodes"]:
        assert node["owner"] is None or node["owner"] in by_name
        node["rows"] = [row for row in node["rows"] if row["next"] in names]
    path = trial.file(f"rack-{count}.json", json.dumps(plan))
    certificate = trial.file(f"rack-{count}-certificate.json", trial.run(["certify", path])[1])
    return [path], [path, certificate]


def odd(trial):
    """A plan of odd parts, in a file of an odd name: a node without ports, a row and a pool of no endpoint ID, a row of no
    port, a terminus without records, one of 70 records, of which one is too long to be shown and one can't be read."""
    plan = json.loads((TOP / "examples/riser/plan.json").read_text())
    good = plan["nodes"][2]["terminus"]["records"][0]["bytes"]
    records = [{"handle": it + 1, "next": it + 2, "bytes": good} for it in range(70)]
    records[1]["bytes"], records[2]["bytes"] = "00" * 513, "01"
    bus = plan["nodes"][0]["ports"][0]["bus"]
    plan["nodes"][3]["terminus"] = {"tid": 7, "records": records}
    plan["nodes"][1]["terminus"] = {"tid": 9, "records": []}
    plan["nodes"][1]["rows"][0]["size"], plan["nodes"][1]["rows"][1]["port"] = 0, 9
    plan["nodes"].append({"name": "lone", "kind": "bridge", "eid": 40, "owner": None, "pool": {"first": 0, "size": 0}, "ports": [], "rows": [], "terminus": None})
    plan["nodes"].append({"name": "wide", "kind": "bridge", "eid": 41, "owner": None, "pool": {"first": 16, "size": 26}, "ports": [{"bus": bus, "address": ""}], "rows": [], "terminus": None})
    plan["buses"].append({"name": "empty", "binding": 5, "media": 9})
    path = trial.file('odd <b> & "c".json', json.dumps(plan))
    levels = [{"node": "riser", "level": 1}, {"node": "ssd", "level": 2}]
    places = [{"node": "ssd", "places": [69 - it for it in range(69)]}]
    certificate = trial.file("odd-certificate.json", json.dumps({"format": 1, "levels": levels, "places": places, "ranks": []}))
    return [path], [path, certificate]


def reported(trial):
    """The words of reports: plans of the examples, alone and with each certificate beside them, racks, and an odd plan."""
    for plan in sorted(it for it in TOP.glob("examples/*/*.json") if kind_of(it) == "plan"):
        yield [plan]
        for certificate in sorted(plan.parent.glob("*certificate*.json")):
            yield [plan, certificate]
    for count in (4, 24, 64):
        yield from rack(trial, count)
    yield from odd(trial)


def boxes(page):
    """The words of the picture: each with the four corners of its box."""
    for it in page.all("text"):
        x, y, size = float(it["x"]), float(it["y"]), 11 if it["class"] == "soft" else 12
        width = len(it["text"]) * size * WIDTH
        left = {"start": x, "middle": x - width / 2, "end": x - width}[it.get("text-anchor", "start")]
        corners = [(left, y - 0.75 * size), (left + width, y - 0.75 * size), (left + width, y + 0.2 * size), (left, y + 0.2 * size)]
        turned = re.match(r"rotate\((-?\d+) (\d+) (\d+)\)", it.get("transform", ""))
        if turned:
            angle, about_x, about_y = math.radians(int(turned[1])), int(turned[2]), int(turned[3])
            corners = [
                (about_x + (px - about_x) * math.cos(angle) - (py - about_y) * math.sin(angle), about_y + (px - about_x) * math.sin(angle) + (py - about_y) * math.cos(angle))
                for px, py in corners
            ]
        yield it["text"], corners


def meet(one, other):
    """Whether two boxes have a point in common: no side of either lies between them."""
    for corners in (one, other):
        for (ax, ay), (bx, by) in zip(corners, corners[1:] + corners[:1]):
            across = lambda points: [(px - ax) * (by - ay) - (py - ay) * (bx - ax) for px, py in points]
            here, there = across(one), across(other)
            if max(here) <= min(there) + 0.01 or max(there) <= min(here) + 0.01:
                return False
    return True


def marked_by(line):
    """The names of the nodes of a reason: those of a loop, or the one of a fault."""
    words = line.split()
    return set(words[words.index("nodes") + 1 :] if "nodes" in words else words[words.index("node") + 1 :][:1] if words else [])


def wrong_in_picture(page, plan, reason):
    picture = page.all("svg")
    if len(picture) != 1:
        yield f"{len(picture)} pictures"
        return
    width, height = float(picture[0]["width"]), float(picture[0]["height"])
    words = [*boxes(page)]
    for text, corners in words:
        if any(not (-1 <= x <= width + 1 and -1 <= y <= height + 1) for x, y in corners):
            yield f"{text} is cut off"
    for index, (text, corners) in enumerate(words):
        for other, others in words[index + 1 :]:
            if meet(corners, others):
                yield f"{text} lies on {other}"
    if {it["text"] for it in page.all("text", **{"class": "bad"})} != marked_by(reason):
        yield f"other nodes stand out than those of {reason}"
    told = [text for text, _ in words]
    for name in [it["name"] for it in plan["nodes"] + plan["buses"]]:
        if told.count(name) != 1 and sum(it["name"] == name for it in plan["nodes"] + plan["buses"]) == 1:
            yield f"{name} stands in the picture {told.count(name)} times"


def section_of(text, section):
    found = re.search(rf'<section id="{section}">(.*?)</section>', text, re.S)
    return found[1] if found else ""


def plain(text):
    return html.unescape(re.sub("<[^>]*>", "", text))


def rows_in(text, section):
    """The cells of a section's table: its headings, and then each row."""
    rows = re.findall(r"<tr>(<th .*?)</tr>", section_of(text, section))
    return [[plain(it) for it in re.split(r"</th>|</td>", row)[:-1]] for row in rows]


def span(it):
    last = it["first"] + it["size"] - 1
    return "none" if it["size"] == 0 else f"{last}" if it["size"] == 1 else f"{it['first']} to {last}"


def entry(node, index, row, nodes):
    """What is shown of a row of a routing table."""
    bus = node["ports"][row["port"]]["bus"] if row["port"] < len(node["ports"]) else None
    address = next((port["address"] for port in nodes[row["next"]]["ports"] if port["bus"] == bus), "")
    return [node["name"], str(index), span(row), str(row["port"]), bus or "-", row["next"], address or "-"]


def tables(plan, certificate):
    """The rows that the tables are to have, below their headings."""
    nodes = {it["name"]: it for it in reversed(plan["nodes"])}
    levels = certificate and {it["node"]: it["level"] for it in certificate["levels"]}
    level = lambda node: "-" if levels is None else str(levels.get(node["name"], 0)) if node["owner"] else "0"
    ports = lambda node: ", ".join(f"{index}: {it['bus']} {it['address'] or '-'}" for index, it in enumerate(node["ports"])) or "-"
    named = lambda chosen: ", ".join(it["name"] for it in plan["nodes"] if chosen(it)) or "-"
    on = lambda bus: named(lambda node: any(port["bus"] == bus for port in node["ports"]))
    holders = lambda pool: named(lambda node: pool["first"] <= node["eid"] < pool["first"] + pool["size"])
    tid = lambda node: str(node["terminus"]["tid"]) if node["terminus"] else "-"
    identity = lambda place, it: [it["name"], str(place), it["kind"], str(it["eid"]), level(it), it["owner"] or "-"]
    return {
        "buses": [["Bus", "Binding", "Media", "Nodes"], *([it["name"], str(it["binding"]), str(it["media"]), on(it["name"])] for it in plan["buses"])],
        "nodes": [
            ["Node", "No.", "Kind", "Endpoint ID", "Level", "Owner", "Ports", "Rows", "Terminus ID"],
            *([*identity(place, it), ports(it), str(len(it["rows"])), tid(it)] for place, it in enumerate(plan["nodes"], 1)),
        ],
        "pools": [
            ["Bridge", "Endpoint IDs", "Size", "Held by"],
            *([it["name"], span(it["pool"]), str(it["pool"]["size"]), holders(it["pool"])] for it in plan["nodes"] if it["pool"]),
        ],
        "rows": [
            ["Node", "Row", "Endpoint IDs", "Port", "Bus", "Next node", "Address there"],
            *(entry(node, index, row, nodes) for node in plan["nodes"] for index, row in enumerate(node["rows"])),
        ],
    }


def fields(trial, record):
    """What is shown of the fields of a record."""
    if len(record) > 1024:
        return "Records of more than 512 bytes are not decoded here."
    status, told, _ = trial.run(["describe", record])
    return told.decode() if status == 0 else f"No record: {told.decode().split()[-1]}."


def termini(trial, plan, certificate):
    """What is shown of the termini, piece by piece."""
    places = certificate and {it["node"]: it["places"] for it in certificate["places"]} or {}
    for node in plan["nodes"]:
        if not node["terminus"]:
            continue
        records = node["terminus"]["records"]
        yield f"{node['name']}: terminus ID {node['terminus']['tid']}, records {len(records)}"
        for index, record in enumerate(records[:64]):
            place = dict(enumerate(places.get(node["name"], []))).get(index, "-")
            yield f"record {index}: place {place}, handle {record['handle']}, next {record['next']}, bytes {len(record['bytes']) // 2}"
            yield fields(trial, record["bytes"])
        if len(records) > 64:
            yield f"And {len(records) - 64} more records."


def wrong_in_tables(trial, text, plan, certificate):
    """What is wrong with the summary, the tables and the termini."""
    if f"<p class=\"note\">Buses: {len(plan['buses'])}. Nodes: {len(plan['nodes'])}. Transmission unit: {plan.get('unit', 64)} bytes.</p>" not in text:
        yield "another summary"
    for section, wanted in tables(plan, certificate).items():
        got = rows_in(text, section)
        if got != (wanted if len(wanted) > 1 else []):
            yield f"{section}: {[it for it in got if it not in wanted]} for {[it for it in wanted if it not in got]}, {len(got)} rows for {len(wanted)}"
        if len(wanted) == 1 and not plain(section_of(text, section)).endswith("None.\n"):
            yield f"{section}: nothing says that there are none"
    got = [plain(it) for it in re.findall(r"<(?:h3|dt|pre|p class=\"note\")>(.*?)</(?:h3|dt|pre|p)>", section_of(text, "termini"), re.S)]
    wanted = [*termini(trial, plan, certificate)] or ["None."]
    if got != wanted:
        yield f"termini: {[it for it in got if it not in wanted]} for {[it for it in wanted if it not in got]}, {len(got)} pieces for {len(wanted)}"


def wrong_in_matrix(trial, text, plan, path, certificate):
    """What is wrong with who reaches whom."""
    lines = trial.run(["matrix", path, trial.file("beside.json", json.dumps(certificate))])[1].decode().splitlines()[1:]
    names = [it["name"] for it in plan["nodes"]]
    matrix = [[line[4 + 3 * it : 7 + 3 * it].strip() for it in range(len(names))] for line in lines]
    reach = [str(sum(cell not in ".-" for cell in row)) for row in matrix]
    headings = ["From", *(str(it + 1) for it in range(len(names))), "Reaches"]
    if rows_in(text, "reached") != [headings, *([f"{place} {name}", *row, count] for place, (name, row, count) in enumerate(zip(names, matrix, reach), 1))]:
        yield "who reaches whom is not as matrix says"
    if re.findall(r'<th scope="col" title="(.*?)">', text) != names:
        yield "other names at the columns of who reaches whom"
    short = ", ".join(name for name, row in zip(names, matrix) if "-" in row)
    told = f"These nodes don't reach all others: {short}." if short else "Each node reaches each other node."
    if f"<p>{told}</p>" not in section_of(text, "reached"):
        yield "other nodes that don't reach all"


def wrong_in_sections(text, is_accepted):
    """What is wrong with the sections, their headings and the links to them."""
    wanted = [
        ("network", "The network", "Network"),
        ("buses", "Buses", "Buses"),
        ("nodes", "Nodes", "Nodes"),
        ("pools", "Pools of endpoint IDs", "Pools"),
        ("rows", "Rows of routing tables", "Rows"),
        ("termini", "PLDM termini", "Termini"),
        *([("reached", "Who reaches whom", "Who reaches whom")] if is_accepted else []),
        ("findings", "What looks wrong", "What looks wrong"),
        ("promises", "What is promised, and what isn't", "What is promised"),
    ]
    if re.findall(r'<section id="(.*?)">\n<h2>(.*?)</h2>', text) != [(it, heading) for it, heading, _ in wanted]:
        yield "other sections"
    if re.findall(r'<a href="#(.*?)">(.*?)</a>', text) != [(it, link) for it, _, link in wanted]:
        yield "other links"
    if ("Nothing is promised of the packets of this plan" in text) == is_accepted:
        yield "what is promised of another plan"


def wrong_in(trial, files):
    """What is wrong with the page of these files."""
    plan = json.loads(files[0].read_text())
    status, page, error = trial.run(["report", *files])
    judged = trial.run(["check" if len(files) == 2 else "certify", *files])
    if status != judged[0] or error != judged[2]:
        yield f"status {status} {error} for {judged[0]} {judged[2]}"
    text = page.decode()
    if status == 2 and not text:
        return
    parsed = Page(text)
    yield from parsed.wrong
    line = {(0, 1): "yes: a certificate fits the plan", (0, 2): "yes: the certificate fits the plan"}.get((status, len(files)), judged[1].decode())
    verdict = [it for it in parsed.elements if "verdict" in it.get("class", "")]
    if [(it["class"], it["text"].strip()) for it in verdict] != [("verdict no" if status else "verdict yes", line.strip())]:
        yield f"the verdict is {[(it['class'], it['text']) for it in verdict]} for {line}"
    title = str(files[0]).replace("&", "&amp;").replace("<", "&lt;").replace(">", "&gt;").replace('"', "&quot;")
    if not text.startswith("<!DOCTYPE html>\n") or any(text.count(f"<{it}>{title}</{it}>\n") != 1 for it in ("title", "h1")):
        yield "another title"
    for it in parsed.elements:
        outside = [value for key, value in it.items() if key in ("src", "href", "data", "action", "style") and not value.startswith("#")]
        if outside or it["tag"] in ("script", "link", "img", "iframe", "object") or any(key.startswith("on") for key in it):
            yield f"something from elsewhere: {it}"
    if re.search(r"url\(|@import|https?:", text):
        yield "something from elsewhere"
    lint = trial.run(["lint", files[0]])[1].decode()
    if plain(section_of(text, "findings").partition("</h2>\n")[2]) != lint + "\n":
        yield "other findings than those of lint"
    certificate = json.loads(files[1].read_text() if len(files) == 2 else judged[1]) if len(files) == 2 or status == 0 else None
    yield from wrong_in_picture(parsed, plan, judged[1].decode() if status else "")
    yield from wrong_in_sections(text, status == 0)
    yield from wrong_in_tables(trial, text, plan, certificate)
    if status == 0:
        yield from wrong_in_matrix(trial, text, plan, files[0], certificate)
    yield from wrong_outside(trial, page, text)


def wrong_outside(trial, page, text):
    """What other programs say of a page, where they are installed."""
    path = trial.file("page.html", page)
    if shutil.which("tidy"):
        told = subprocess.run(["tidy", "-errors", "-quiet", "--show-info", "no", path], capture_output=True, text=True, timeout=60)
        # (a list without items is one of HTML)
        complaints = [it for it in told.stderr.splitlines() if "trimming empty <dl>" not in it]
        if complaints:
            yield "; ".join(complaints)


def browser():
    return next(filter(None, map(shutil.which, ("chromium", "chromium-browser", "google-chrome"))), None)


def browsed(trial, path, words):
    """What the browser writes of a page."""
    with_words = [browser(), "--headless", "--no-sandbox", "--disable-gpu", "--hide-scrollbars", "--enable-logging=stderr", "--v=0", *words, path.as_uri()]
    ran = subprocess.run(with_words, capture_output=True, text=True, timeout=120)
    complaints = [it for it in ran.stderr.splitlines() if "CONSOLE" in it]
    return complaints if ran.returncode == 0 else [ran.stderr[-2000:]]


def browse(trial, files, folder):
    """A page in the browser: light, dark and on paper."""
    name = f"{files[0].parent.name}-{files[0].stem}-{len(files)}" if files[0].is_relative_to(TOP) else re.sub(r"^\d+-", "", files[0].stem) + f"-{len(files)}"
    path = trial.file("browsed.html", trial.run(["report", *files])[1])
    kept = folder or pathlib.Path(trial.room.name)
    for shade, words in (("light", []), ("dark", ["--blink-settings=preferredColorScheme=0"])):
        complaints = browsed(trial, path, [*words, "--window-size=1400,4000", f"--screenshot={kept}/{name}-{shade}.png"])
        trial.note(not complaints and (kept / f"{name}-{shade}.png").exists(), f"{name} {shade}: {complaints}")
    complaints = browsed(trial, path, ["--no-pdf-header-footer", f"--print-to-pdf={kept}/{name}.pdf"])
    trial.note(not complaints and (kept / f"{name}.pdf").exists(), f"{name} on paper: {complaints}")


def is_browsed(files):
    """Racks, the riser and the server with their certificates, and a loop."""
    names = [f"{it.parent.name}/{it.name}" for it in files]
    whole = names in (["riser/plan.json", "riser/certificate.json"], ["server/plan.json", "server/certificate.json"], ["refused/loop.json"])
    return whole or "-rack-" in names[0] and len(files) == 2


def try_all(trial):
    kept = [pathlib.Path(it[5:]) for it in trial.words if it.startswith("keep=")]
    trial.words = [it for it in trial.words if not it.startswith("keep=")]
    items = [it for it in reported(trial) if trial.has(" ".join(map(str, it)))]
    for files in items:
        wrong = [*wrong_in(trial, files)]
        trial.note(not wrong, f"{' '.join(map(str, files))}: {wrong[:5]}")
    if not browser():
        print("pages: looked at in no browser, since none is installed")
        return
    for files in items:
        if is_browsed(files):
            browse(trial, files, kept[0] if kept else None)
