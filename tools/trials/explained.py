"""The edits that explain proposes of broken plans, and what fix makes of these: each does what is said of it.

Each plan of examples/ that has a certificate is broken at each number, name, row and record, in some ways each; of all
these 500 are tried, evenly chosen. explain has to end with the status and the first line of certify. Of a plan that has a
certificate it has to count what is there, and to tell the two nodes between which that allows most hops. Each edit is made
in the plan's JSON, as its line says, and certify has to say of that what stands behind `then:`. fix has to print the plan
with just the edits that it tells: with status 0 certify has a certificate of it, and with status 1 it says of it what is
printed. A line tells how many of the broken plans have an edit after which certify answers a certificate, and of how many
fix prints a plan. The words choose among the plans.
"""
import copy
import json
import re

from runner import TOP, each

WANTED = 500
EDIT = re.compile(r"Edit: (set|insert|remove) (\S+) of (\S+)(?: (?:to|as) (.*))?")


# ---- broken plans


def broken_numbers(holder, key, values):
    """The plan with other numbers under a key."""
    for value in values:
        if value != holder[key]:
            yield holder, key, value


def places(plan):
    """What is changed: an object or a list of the plan, a key or an index of it, and what is to stand there instead."""
    names = [it["name"] for it in plan["nodes"]]
    for at, node in enumerate(plan["nodes"]):
        other = plan["nodes"][at - 1]
        yield from broken_numbers(node, "eid", [other["eid"], 5, node["eid"] + 1, 200])
        yield from broken_numbers(node, "owner", [names[at - 1], names[0], None])
        yield from broken_numbers(node, "kind", ["endpoint"])
        yield node, "name", names[at - 1]
        if node["pool"]:
            yield from broken_numbers(node["pool"], "size", [1, 250, node["pool"]["size"] + 8])
            yield from broken_numbers(node["pool"], "first", [8, node["pool"]["first"] + 4])
        yield node, "pool", {"first": other["eid"], "size": 1} if not node["pool"] else None
        for row in node["rows"]:
            yield from broken_numbers(row, "first", [row["first"] + 1, 250, 8])
            yield from broken_numbers(row, "size", [row["size"] + 1, 0, 40])
            yield from broken_numbers(row, "port", [row["port"] + 1, 0])
            yield from broken_numbers(row, "next", [node["name"], *names[:: max(1, len(names) // 3)]])
        for index, row in enumerate(node["rows"]):
            yield node["rows"], index, None
            yield node["rows"], len(node["rows"]), dict(row)
        records = node["terminus"]["records"] if node["terminus"] else []
        for index, record in enumerate(records):
            yield from broken_numbers(record, "handle", [0, records[index - 1]["handle"], 77])
            yield from broken_numbers(record, "next", [0, records[index - 1]["handle"], 77])
            yield from broken_numbers(record, "bytes", [record["bytes"][:-2], record["bytes"] + "00", "ff" + record["bytes"][2:]])
            yield records, index, None
        if records:
            yield node["terminus"], "records", []


def change(holder, key, value):
    """Makes one change, and gives what takes it back."""
    if isinstance(holder, list):
        before = copy.deepcopy(holder)
        if value is None:
            del holder[key]
        else:
            holder.insert(key, value)
        return lambda: holder.__setitem__(slice(None), before)
    old, holder[key] = holder[key], value
    return lambda: holder.__setitem__(key, old)


def sound_plans(trial):
    """The texts of all plans of the examples that have a certificate."""
    for path in sorted(TOP.glob("examples/*/plan*.json")):
        text = json.dumps(json.loads(path.read_text()))
        if trial.has(str(path.relative_to(TOP))) and certified(trial, text) == "yes":
            yield text


def broken_plans(texts):
    """The texts of all broken plans."""
    for text in texts:
        plan = json.loads(text)
        for place in [*places(plan)]:
            back = change(*place)
            yield json.dumps(plan)
            back()


# ---- edits


def edited(text, verb, pointer, value):
    """The text of the plan with the edit made as its line says."""
    holder = plan = json.loads(text)
    *way, last = pointer.split("/")[1:]
    for step in way:
        holder = holder[int(step)] if isinstance(holder, list) else holder[step]
    key = int(last) if isinstance(holder, list) else last
    if verb == "remove":
        del holder[key]
    elif verb == "insert":
        holder.insert(key, json.loads(value))
    else:
        holder[key] = json.loads(value)
    return json.dumps(plan)


def said(trial, command, text):
    """The status, and the lines that a command prints of a plan."""
    status, output, error = trial.run([command, trial.file("plan.json", text)])
    return status, (output + error).decode().splitlines()


def certified(trial, text):
    """What certify says of a plan: yes, or its line."""
    status, lines = said(trial, "certify", text)
    return "yes" if status == 0 else lines[0]


def summary(trial, text):
    """The lines that sum a plan up that has a certificate."""
    plan, certificate = json.loads(text), json.loads(said(trial, "certify", text)[1][0])
    nodes, ranges = plan["nodes"], {it["node"]: it["ranges"] for it in certificate["ranks"]}
    rank = lambda name, eid: next((it["rank"] for it in ranges.get(name, []) if it["first"] <= eid < it["first"] + it["size"]), 0)
    pairs = [(rank(one["name"], other["eid"]), one["name"], other["name"]) for one in nodes for other in nodes]
    # (the first of those with most)
    hops, one, other = max(pairs, key=lambda it: it[0], default=(0, "", ""))
    records = [it["terminus"]["records"] for it in nodes if it["terminus"]]
    yield f"nodes {len(nodes)} buses {len(plan['buses'])} rows {sum(len(it['rows']) for it in nodes)} records {sum(map(len, records))}"
    yield f"most hops {hops} from {one} to {other}" if hops else "most hops 0"


def wrong_of(trial, text):
    """What is wrong with what explain says of a plan, and how many of its edits lead to a certificate; none of a plan that
    has no fault."""
    first = certified(trial, text)
    status, lines = said(trial, "explain", text)
    if lines[0] != first or status != (0 if first == "yes" else 2 if first.startswith("unreadable") else 1):
        return f"explain says {lines[0]} where certify says {first}", 0
    if status == 0 and lines[1:] != [*summary(trial, text)]:
        return f"explain sums up: {lines[1:]}, {[*summary(trial, text)]} is meant", None
    if status != 1:
        return None, None
    edits = [at for at, line in enumerate(lines) if EDIT.fullmatch(line)]
    for at in edits:
        verb, pointer, name, value = EDIT.fullmatch(lines[at]).groups()
        node = json.loads(text)["nodes"][int(pointer.split("/")[2])]
        after = certified(trial, edited(text, verb, pointer, value))
        if node["name"] != name or lines[at + 1] != f"then: {after}" or after == first:
            return f"{lines[at]}: {lines[at + 1]}, and certify says {after}", 0
    if len(edits) > 3:
        return f"{len(edits)} edits", 0
    return None, sum(lines[at + 1] == "then: yes" for at in edits)


def wrong_of_fix(trial, text):
    """What is wrong with what fix makes of a plan, and whether it prints a plan."""
    status, output, error = trial.run(["fix", trial.file("plan.json", text)])
    plan = text
    for line in error.decode().splitlines():
        verb, pointer, _, value = EDIT.fullmatch(line).groups()
        plan = edited(plan, verb, pointer, value)
    if status == 0 and json.loads(output) != json.loads(plan):
        return f"fix changes what it doesn't tell: {error.decode()}", True
    says = certified(trial, output.decode() if status == 0 else plan)
    if says != ("yes" if status == 0 else output.decode().strip()) or status > 1:
        return f"fix ends with {status}, and certify says {says}: {error.decode()}", False
    return None, status == 0


def try_all(trial):
    sound = [*sound_plans(trial)]
    texts = [*broken_plans(sound)]
    chosen = sound + texts[:: max(1, len(texts) // WANTED)][:WANTED]

    def tried(text):
        try:
            wrong, count = wrong_of(trial, text)
            if not wrong and count is not None:
                wrong, is_fixed = wrong_of_fix(trial, text)
                count = count, is_fixed
        except (ValueError, IndexError, KeyError) as why:
            wrong, count = f"{type(why).__name__} {why}", None
        trial.note(not wrong, f"{wrong}\n    {text}")
        return count if isinstance(count, tuple) else None

    counts = [it for it in each(tried, chosen) if it is not None]
    edits, fixed = sum(bool(it) for it, _ in counts), sum(it for _, it in counts)
    print(f"explained: of {len(counts)} plans with a fault {edits} have an edit that takes all away, and fix mends {fixed}")
