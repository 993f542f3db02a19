"""Scripts of walks over the examples, lines of bridges and random trees, with packets that are lost or come twice.

For each plan with a certificate, each node and each other node with a terminus, `script` must end with status 0 exactly
where `reach` tells a way there and one back. What it prints begins with the walk that was asked for, and has nothing else
than its requests, moves, losses, answers and messages that are given up, until it is asked what was collected. It is played
by `sim`: the last line must tell that the walk is done, with all records of the terminus. Trees, and the flights that are
lost and repeated, are drawn from fixed seeds. A walk of more than 100,000 events ends with the line of the last one. Of the
same walk without losses `audit` of what `capture` writes must be a match, whose packets are those that moved. A word is a part
of a plan's path.
"""
import itertools
import json
import random

from runner import TOP, each, kind_of

TREES = 30


def plans(trial):
    """Each plan that may have a certificate: those of the examples, lines with a terminus at the end, and trees."""
    yield from sorted(it for it in TOP.glob("examples/*/*.json") if kind_of(it) == "plan")
    for length in (1, 2, 5, 9):
        yield trial.file(f"line-{length}.json", json.dumps(line(length)))
    for seed in range(TREES):
        yield trial.file(f"tree-{seed}.json", json.dumps(tree(random.Random(seed))))


def record(handle, length, tid, eid):
    """A terminus locator, or raw bytes of a type of its own."""
    if handle == 1:
        return f"01000000010100000900010001{tid:02x}00000101{eid:02x}"
    return f"{handle.to_bytes(4, 'little').hex()}01c80000{length.to_bytes(2, 'little').hex()}" + "5a" * length


def repository(eid, lengths):
    """A terminus with records of these lengths, the first of which locates it."""
    handles = range(1, len(lengths) + 1)
    records = [
        {"handle": it, "next": it + 1 if it < len(lengths) else 0, "bytes": record(it, lengths[it - 1], 1, eid)}
        for it in handles
    ]
    return {"tid": 1, "records": records}


def network(parents, rows, lengths):
    """A plan whose node i hangs by a bus on parents[i], with endpoint ID 8 + i. rows[i] leads an endpoint ID to a node, and
    lengths[i] are those of the records of its terminus, if it has one."""
    ports = [[bus for bus in range(1, len(parents)) if node in (bus, parents[bus])] for node in range(len(parents))]

    def row(node, eid, to):
        shared = next(it for it in ports[node] if it in ports[to])
        return {"first": eid, "size": 1, "port": ports[node].index(shared), "next": f"n{to}"}

    nodes = [
        {
            "name": f"n{it}",
            "kind": "bridge" if it in parents else "endpoint",
            "eid": 8 + it,
            "owner": None,
            "pool": None,
            "ports": [{"bus": f"b{bus}", "address": f"{16 + 2 * it:02x}"} for bus in ports[it]],
            "rows": [row(it, eid, to) for eid, to in sorted(rows[it].items())],
            "terminus": repository(8 + it, lengths[it]) if lengths[it] else None,
        }
        for it in range(len(parents))
    ]
    return {"format": 1, "buses": [{"name": f"b{it}", "binding": 1, "media": 4} for it in range(1, len(parents))], "nodes": nodes}


def way(parents, start, end):
    """The nodes between two nodes of a tree, with both."""
    up, down = [start], [end]
    while up[-1] != down[-1]:
        side = max(up, down, key=lambda it: it[-1])
        side.append(parents[side[-1]])
    return up + down[-2::-1]


def rows_to(parents, ends):
    """The rows of each node along the ways between these pairs, there and back."""
    rows = [{} for _ in parents]
    for start, end in itertools.chain.from_iterable((it, it[::-1]) for it in ends):
        for at, to in itertools.pairwise(way(parents, start, end)):
            rows[at][8 + end] = to
    return rows


def line(length):
    """A line of bridges between a manager and an endpoint with a terminus of five records."""
    parents = [None, *range(length + 1)]
    return network(parents, rows_to(parents, [(0, length + 1)]), [[], *[[]] * length, [9, 70, 1, 300, 64]])


def tree(draw):
    """A random tree. Some nodes have a terminus, and some pairs have no way."""
    size = draw.randrange(3, 9)
    parents = [None, *(draw.randrange(it) for it in range(1, size))]
    pairs = [it for it in itertools.combinations(range(size), 2) if draw.random() < 0.7]
    lengths = [[9, *(draw.randrange(1, 400) for _ in range(draw.randrange(6)))] if draw.random() < 0.5 else [] for _ in parents]
    return network(parents, rows_to(parents, pairs), lengths)


def chosen(seed):
    """Options: which flights are lost, and which come twice."""
    draw = random.Random(seed)
    for option in ("--lose", "--repeat"):
        if numbers := sorted({draw.randrange(1, 60) for _ in range(draw.randrange(8))}):
            yield from (option, ",".join(map(str, numbers)))


def fault_of(trial, name, plan, certificate, node, holder, is_reached, seed):
    """What is wrong with the script of a walk; '' where nothing is."""
    options, count = [*chosen(seed)] if seed else [], (64, 8, 303)[seed % 3]
    words = ["script", plan, certificate, "walk", node, holder["eid"], count, *options]
    status, made, error = trial.run(words)
    if status != (0 if is_reached else 1) or error:
        return f"{' '.join(map(str, words))}: status {status} {error}"
    if status:
        return ""
    if not is_of_walk(made, node, holder["eid"], count):
        return f"{' '.join(map(str, words))}: other events"
    events = trial.file(f"events-{name}-{node}-{holder['name']}-{seed}", made)
    played = trial.run(["sim", plan, certificate, events])
    last = played[1].decode().splitlines()[-1].split(" ", 1)[1]
    wanted = f"collected 1 records {len(holder['terminus']['records'])} done"
    return "" if (played[0], last) == (0, wanted) else f"{' '.join(map(str, words))}: {last}"


def capture_fault_of(trial, name, plan, certificate, node, holder, seed):
    """What `audit` says against the capture of a walk without losses; '' where it matches."""
    status, made, _ = trial.run(["script", plan, certificate, "walk", node, holder["eid"], (64, 8, 303)[seed % 3]])
    if status:
        return ""
    events = trial.file(f"plain-{name}-{node}-{holder['name']}", made)
    capture = trial.file(f"capture-{name}-{node}-{holder['name']}", trial.run(["capture", plan, certificate, events])[1])
    status, told, _ = trial.run(["audit", plan, certificate, capture])
    lines = told.decode().splitlines()
    moved = sum(" moved " in f" {it} " for it in trial.run(["sim", plan, certificate, events])[1].decode().splitlines())
    is_right = status == 0 and lines[-1].startswith("audit match: 1 of ") and f" {moved} packets, 0 refused" in lines[-1]
    return "" if is_right else f"audit of the capture of a walk from {node} to {holder['name']} of {plan}: {lines}"


def is_of_walk(made, node, eid, count):
    """Whether the events are those of this walk."""
    first, *rest, last = json.loads(made)["events"]
    kinds = {it["do"] for it in rest if it.get("walker", 1) == 1}
    return (
        first == {"do": "walk", "node": node, "eid": eid, "tag": 0, "count": count}
        and len(kinds) == len({it["do"] for it in rest})
        and kinds <= {"ask", "move", "lose", "answer", "expire"}
        and last == {"do": "collected", "walker": 1}
    )


def try_long(trial):
    """A walk over a line of one bridge in parts of 8 bytes: six events for each part, of which there are too many."""
    plan = trial.file("long.json", json.dumps(network([None, 0, 1], rows_to([None, 0, 1], [(0, 2)]), [[], [], [9, *[60_000] * 3]])))
    certificate = trial.file("long-certificate.json", trial.run(["certify", plan])[1])
    status, told, error = trial.run(["script", plan, certificate, "walk", "n0", 10, 8])
    trial.note((status, told.split()[:1], error) == (1, [b"100000"], b""), f"a long walk: status {status} {(told + error)[:100]}")


def try_plan(trial, path):
    """A script for each two nodes of which the second has a terminus, each with options of its own."""
    status, certified, _ = trial.run(["certify", path])
    if status:
        return
    name = f"{path.parent.name}-{path.stem}"
    nodes, certificate = json.loads(path.read_text())["nodes"], trial.file(f"certificate-of-{name}", certified)
    reached = {tuple(it.split()[:2]) for it in trial.run(["reach", path, certificate])[1].decode().splitlines()[:-1] if " hops " in it}
    pairs = [it for it in itertools.permutations(nodes, 2) if it[1]["terminus"]]
    for seed, (node, holder) in enumerate(pairs):
        ends = node["name"], holder["name"]
        fault = fault_of(trial, name, path, certificate, node["name"], holder, {ends, ends[::-1]} <= reached, seed)
        trial.note(not fault, fault)
        if {ends, ends[::-1]} <= reached:
            fault = capture_fault_of(trial, name, path, certificate, node["name"], holder, seed)
            trial.note(not fault, fault)


def try_all(trial):
    each(lambda path: trial.has(str(path)) and try_plan(trial, path), plans(trial))
    if trial.has("long"):
        try_long(trial)
