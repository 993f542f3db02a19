"""What is answered with --json and --sarif over the examples, beside the lines of the same commands.

Each value meets docs/schema/answer.schema.json, ends as the command without the option, has a result for each line of
`faults` and of `lint`, and places that are there: the JSON pointer leads to a value of the file, and the line and the
column lie within it. Its kind, code, nodes, entry and endpoint IDs are those of its line. What `explain` prints can be
made of its value alone: the sentences, the place, the edits, what is left then, how many more faults there are, and what
explains the plan. Related is just what the sentences name beside the place. Each edit is made in the plan as a JSON patch:
certify then says what is left, and the fault is gone. SARIF has the same places, related ones and messages. It needs the
Python package jsonschema (Debian: python3-jsonschema), and says where that is missing.
"""
import copy
import json
import re

from runner import RISER, TOP, each

SERVER, EXPLAINED = TOP / "examples/server", TOP / "examples/explained"
# what the sentences of `explain` name beside the place of a fault, and where that stands: a node by its name, other parts as they are
RELATED = [
    (r"Nodes (?P<at>\d+) and \d+, counted from 0, are both", "/nodes/{at}/name"),
    (r"(?P<node>\S+) and \S+ both have endpoint ID", "/nodes/{node}/eid"),
    (r"Rows (?P<at>\d+) and \d+ of (?P<node>\S+) both cover", "/nodes/{node}/rows/{at}"),
    (r"Row \d+ of (?P<node>\S+) leaves by port", "/nodes/{node}/ports"),
    (r"That port is on bus (?P<bus>\S+), and", "/buses/{bus}"),
    (r"The owner of \S+ is (?P<node>\S+), an endpoint\.", "/nodes/{node}/kind"),
    (r"The owner of \S+ is (?P<node>\S+)\.\nNo bus", "/nodes/{node}/ports"),
    (r"The pool of its owner, (?P<node>\S+), is", "/nodes/{node}/pool"),
    (r"It is in the pool of (?P<node>\S+): ", "/nodes/{node}/pool"),
    (r"(?P<node>\S+) is an endpoint and has a pool", "/nodes/{node}/kind"),
    (r"The pool of (?P<node>\S+), .*, has endpoint ID \d+\.\n.* has it too\.", "/nodes/{node}/pool"),
    (r"leads \d+ to \S+\n.*\n(?P<node>\S+) has endpoint ID", "/nodes/{node}/eid"),
    (r"Records (?P<at>\d+) and \d+ of (?P<node>\S+) both have handle", "/nodes/{node}/terminus/records/{at}"),
    (r"(?P<node>\S+) has it; its tid is", "/nodes/{node}/eid"),
]
# the same of a loop, for each of its nodes
HOPS = {
    "loop": (r"(?m)^Row (?P<at>\d+) of (?P<node>\S+): ", "/nodes/{node}/rows/{at}"),
    "owner loop": (r"(?m)^The owner of (?P<node>\S+) is", "/nodes/{node}/owner"),
}


def rows():
    """The words of each command."""
    plans = [it for folder in ("explained", "refused", "lint", "questions", "riser", "server") for it in sorted(TOP.glob(f"examples/{folder}/*.json"))]
    plans = [it for it in plans if "certificate" not in it.name and not it.name.startswith("events")]
    for plan in plans:
        for words in (["explain"], ["faults"], ["lint"]):
            yield [*words, str(plan)]
    for plan, certificate in (("plan.json", "certificate.json"), ("plan.json", "plan.json"), ("none.json", "certificate.json")):
        both = [str(RISER / plan), str(RISER / certificate)]
        yield from ([it, *both] for it in ("explain", "faults", "reach"))
        yield from (["trace", *both, *ends] for ends in (("host", "ssd"), ("host", "18"), ("nic", "host"), ("nobody", "host")))
    # certificates at fault, with a plan that has another one, and with plans that have none
    for certificate in sorted(EXPLAINED.glob("*certificate.json")):
        both = [str(SERVER / "plan.json"), str(certificate)]
        yield from ([it, *both] for it in ("explain", "faults", "reach"))
        yield ["trace", *both, "bmc", "drive0"]
    for plan in ("loop.json", "owner-loop.json", "c14-missing.json", "c03.json"):
        yield from ([it, str(EXPLAINED / plan), str(SERVER / "certificate.json")] for it in ("explain", "faults"))


def led_to(value, pointer):
    """The value to which a JSON pointer leads."""
    for step in pointer.split("/")[1:]:
        step = step.replace("~1", "/").replace("~0", "~")
        value = value[int(step)] if isinstance(value, list) else value[step]
    return value


def is_there(place):
    """Whether a place lies in its file."""
    if place["line"] is None:
        return True
    with open(place["file"], encoding="utf-8") as it:
        text = it.read()
    line = text.split("\n")[place["line"] - 1]
    if place["pointer"] is not None:
        led_to(json.loads(text), place["pointer"])
    return 1 <= place["column"] <= len(line) + 1


# ---- a result beside its line


def spans(first, last):
    return None if first == "-" else {"first": int(first), "last": int(last or first)}


def told_by(line):
    """The kind, the code, the names of the nodes, the entry and the endpoint IDs that a line tells."""
    if found := re.fullmatch(r"fault (C\d\d) node (\S+) entry (\S+) eid (\S+?)(?: to (\d+))?", line):
        code, node, entry, first, last = found.groups()
        return "fault", code, [node], None if entry == "-" else int(entry), spans(first, last)
    if found := re.fullmatch(r"owner loop nodes (.+)", line):
        return "owner loop", "C07", found[1].split()[:-1], None, None
    if found := re.fullmatch(r"loop eid (\d+) nodes (.+?)( and \d+ more endpoint IDs?)?", line):
        return "loop", "C10", found[2].split()[:-1], None, spans(found[1], None)
    if found := re.fullmatch(r"chain node (\S+) \S+ entry (\d+)", line):
        return "chain", "C14", [found[1]], int(found[2]), None
    if line.startswith("unreadable "):
        return "unreadable", line.split(": ")[1], [], None, None
    entry, eid = re.search(r" (?:row|record) (\d+)", line), re.search(r" eid (\d+)", line)
    names = re.findall(r" (?:node|owner) (\S+)", line)
    return "finding", line.split()[0], names, entry and int(entry[1]), eid and spans(eid[1], None)


def unlike_line(result, plan):
    """What of a result isn't as its line tells it, by the plan that the command read."""
    kind, code, names, entry, eids = told_by(result["sentences"][0])
    for key, wanted in (("kind", kind), ("code", code), ("entry", entry), ("eids", eids)):
        if result[key] != wanted:
            yield f"{key} {result[key]}, not {wanted}"
    if [it["name"] for it in result["nodes"]] != names:
        yield f"nodes {result['nodes']}, not {names}"
    if any(plan["nodes"][it["index"]]["name"] != it["name"] for it in result["nodes"]):
        yield f"no such nodes: {result['nodes']}"
    at = re.match(r"/nodes/(\d+)", result["place"]["pointer"] or "")
    if at and result["nodes"] and int(at[1]) != result["nodes"][0]["index"]:
        yield f"the place of another node: {result['place']['pointer']}"


def filled(pointer, found, plan):
    """The pointer with what was found: nodes and buses of the plan by their index, rows and records as they are."""
    indices = {"node": [it["name"] for it in plan["nodes"]], "bus": [it["name"] for it in plan["buses"]]}
    return pointer.format(**{key: indices[key].index(it) if key in indices else it for key, it in found.groupdict().items()})


def related_to(result, sentences, plan):
    """The pointers to what the sentences that explain a result name beside its place."""
    text = "\n".join(sentences)
    if result["kind"] in HOPS:
        pattern, pointer = HOPS[result["kind"]]
        return [filled(pointer, it, plan) for it in re.finditer(pattern, text)]
    found = ((re.search(pattern, text), pointer) for pattern, pointer in RELATED)
    return [filled(pointer, it, plan) for it, pointer in found if it][:1]


# ---- a value beside the lines


def placed(place):
    return f"{place['file']}:{place['line']}:{place['column']}"


def explained(value, files):
    """The lines of `explain` over the files, by the value."""
    if value["status"] == 0:
        return ["yes", *value["sentences"]]
    (result,) = value["results"]
    edits = [line for it in value["edits"] for line in (*it["sentences"], f"then: {it['left'] or 'yes'}")]
    alone = explained(value["plan"], files[:1]) if value["plan"] and value["plan"]["status"] else []
    more = [f"And {value['more']} more: mctpplan faults {' '.join(files)}"] if value["more"] else []
    place = f"{placed(result['place'])}: {result['place']['pointer']}"
    return [*result["sentences"], place, *value["sentences"], *edits, *alone, *more]


def has_names(plan):
    """Whether each node has a name of its own."""
    return len({it["name"] for it in plan["nodes"]}) == len(plan["nodes"])


def message_of(result):
    """The sentences that a log of SARIF has: of a fault those that say why, where there are some."""
    why = result["sentences"][1:]
    return why if result["kind"] == "fault" and why else result["sentences"]


def lines_of(words, value):
    """The lines that a command prints, by the value; none where they say something else."""
    if value["status"] == 2:
        return value["results"][0]["sentences"] if words[0] == "explain" else None
    if words[0] == "explain":
        return explained(value, words[1:])
    # (the first sentence is the line, the others say why)
    sentences = [(it["sentences"][0], it["place"]) for it in value["results"]]
    if words[0] == "faults":
        return [*(f"{it} at {placed(place)}" for it, place in sentences), f"faults {len(sentences)}"] if sentences else ["yes"]
    if words[0] == "lint":
        return [it for it, _ in sentences] or ["clean"]
    return [it for it, _ in sentences] if value["status"] else None


def patched(plan, edit):
    """The plan after an edit, made as an operation of a JSON patch (RFC 6902)."""
    plan = copy.deepcopy(plan)
    way, _, last = edit["path"].rpartition("/")
    holder = led_to(plan, way)
    last = int(last) if isinstance(holder, list) else last
    if edit["op"] == "add":
        holder.insert(last, edit["value"])
    elif edit["op"] == "remove":
        del holder[last]
    elif edit["op"] == "replace" and holder[last] != edit["value"]:
        holder[last] = edit["value"]
    else:
        raise ValueError(f"changes nothing: {edit}")
    return json.dumps(plan)


def try_all(trial):
    try:
        from jsonschema import Draft202012Validator as Validator
    except ImportError:
        return trial.skip("the Python package jsonschema (4 or later) is not there")
    schema = Validator(json.loads((TOP / "docs/schema/answer.schema.json").read_text()))

    def printed(words):
        return trial.run(words)[1].decode().splitlines()

    def wrong_edits(value, plan):
        """What is wrong with the edits, each made in the plan."""
        for edit in value["edits"]:
            file = trial.file("plan.json", patched(plan, edit))
            status, text, _ = trial.run(["certify", file])
            left = None if status == 0 else text.decode().splitlines()[0]
            if left != edit["left"]:
                yield f"{edit['path']}: left {edit['left']}, not {left}"
            if any(it.startswith(f"{value['results'][0]['sentences'][0]} ") for it in printed(["faults", file])):
                yield f"{edit['path']}: the fault is still there"

    def unlike(words, lines, value):
        """What of the value isn't as the command and the plan have it."""
        wanted, results = lines_of(words, value), value["results"]
        if wanted is not None and wanted != lines:
            yield f"{[it for it in zip(wanted, lines) if it[0] != it[1]] or (wanted, lines)}"
        if value["command"] != words[0]:
            yield f"command {value['command']}"
        if value["status"] == 2:
            # the lines of explain, but for a name
            known = ["unreadable node: J06"] if results[0]["code"] == "J06" and words[0] == "trace" else printed(["explain", *words[1:3]])
            if results[0]["sentences"] != known:
                yield f"{results[0]['sentences']}, not {known}"
            yield from unlike_line(results[0], {})
            return
        with open(words[1], encoding="utf-8") as it:
            plan = json.load(it)
        for result in results:
            yield from unlike_line(result, plan)
            if words[0] == "faults" and result["kind"] == "fault" and has_names(plan):
                there = [it["pointer"] for it in result["related"]]
                if there != related_to(result, result["sentences"][1:], plan):
                    yield f"related {there}, not {related_to(result, result['sentences'][1:], plan)}"
        if words[0] == "explain":
            yield from unlike_explained(words, value, plan)

    def unlike_explained(words, value, plan):
        """What of the value of `explain` isn't as the plan has it."""
        for result in value["results"]:
            there = [it["pointer"] for it in result["related"]]
            if there != related_to(result, value["sentences"], plan):
                yield f"related {there}, not {related_to(result, value['sentences'], plan)}"
        yield from wrong_edits(value, plan)
        # (only of a certificate at fault it is said whether the plan has another)
        if bool(value["plan"]) != any(it.startswith("This plan has") for it in value["sentences"]):
            yield f"the plan alone: {value['plan']}"
        if value["plan"] and value["plan"] != json.loads(trial.run(["explain", words[1], "--json"])[1]):
            yield "the plan alone is explained otherwise"

    def row(words):
        name = " ".join(words).replace(f"{TOP}/", "")
        if not trial.has(name):
            return
        status, lines, _ = trial.run(words)
        ended, text, _ = trial.run([*words, "--json"])
        try:
            value = json.loads(text)
            faults = sorted(schema.iter_errors(value), key=str)
            places = [place for it in value["results"] for place in [it["place"], *it["related"]]]
            wrong = [
                *(f"{it.message[:200]}" for it in faults[:1]),
                *(["another status"] if (ended, value["status"]) != (status, status) else []),
                *(f"no such place: {it}" for it in places if not is_there(it)),
                *unlike(words, lines.decode().splitlines(), value),
            ]
        except (ValueError, KeyError, IndexError, TypeError) as why:
            wrong = [f"{type(why).__name__}: {why}"]
        trial.note(not wrong, f"{name}: {wrong[:1]}")
        if words[0] == "faults":
            sarif_row(name, words, status, value)

    def sarif_row(name, words, status, value):
        ended, text, _ = trial.run([*words, "--sarif"])
        run = json.loads(text)["runs"][0]
        # (a file that can't be opened breaks no rule)
        known = {"file", *(it["id"] for it in run["tool"]["driver"]["rules"])}
        wanted = [
            (it["code"], "error", "\n".join(message_of(it)), [pointed(it["place"])], [*map(pointed, it["related"])])
            for it in value["results"]
        ]
        given = [
            (it["ruleId"], it["level"], it["message"]["text"], [*map(located, it["locations"])], [*map(located, it["relatedLocations"])])
            for it in run["results"]
        ]
        trial.note(ended == status and given == wanted and {it[0] for it in given} <= known, f"{name} --sarif: other results")

    each(row, rows())


def pointed(place):
    """The line, the column and the pointer of a place; none for what isn't known."""
    return place["line"], place["column"], place["pointer"]


def located(location):
    """The same of a location of SARIF."""
    region = location["physicalLocation"].get("region", {})
    names = [it["fullyQualifiedName"] for it in location["logicalLocations"]]
    return region.get("startLine"), region.get("startColumn"), names[0] if names else None
