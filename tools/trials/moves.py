"""Moves between random small plans: certifymove beside all states of switches, the ranks beside all ways, and rollout
step by step.

Of five bridges on one bus and an endpoint each goes by its old rows or by its new ones. What is for an endpoint ID can
go round where some choice of switched nodes has a circle. certifymove has to print a certificate exactly where none has
and no row leads what is held to a node without a row, with the lengths of the longest ways as ranks, and move has to
accept it; or else the first loop, or the row. rollout has to say `any order` just there, the same line where one of the
plans has no certificate by itself, and else steps: by each the nodes send as it says, each is a move that certifymove
certifies and move accepts, and the last ends in the new plan. For some choice of node and endpoint ID there always is a
next step, so it is never stuck. The files of its steps are those that certify, certifymove, check and move take: each plan
has the rows of its step. 5,000 pairs are tried of the proved program, 400 of another; a word that is a number says how
many.
"""
import itertools
import json
import pathlib
import random
import re
import tempfile

from runner import each

BRIDGES = "abcde"
NAMES = [*BRIDGES, "x"]
EIDS = [8, 9, 10, 11, 12, 254]
ASKED = {10: 2, 254: 5}  # the endpoint IDs that rows are for, with their holders: the last one is the greatest that there is
PAIRS, FEW = 5_000, 400
PART = re.compile(r"step (\d+) rows of (\S+): (\d+)(?:-(\d+))? by (\S+)")


def plan(tables):
    """The plan whose node i sends what is for each endpoint ID e where tables[i][e] says."""
    nodes = []
    for at, (name, eid) in enumerate(zip(NAMES, EIDS)):
        rows = [{"first": e, "size": 1, "port": 0, "next": NAMES[to]} for e, to in sorted(tables[at].items())]
        nodes.append(dict(name=name, kind="endpoint" if name == "x" else "bridge", eid=eid, owner=None, pool=None,
                          ports=[{"bus": "b", "address": f"{16 + at:02x}"}], rows=rows, terminus=None))
    return json.dumps({"format": 1, "buses": [{"name": "b", "binding": 1, "media": 4}], "nodes": nodes})


def tables_by(chance):
    """Rows for two endpoint IDs, those of the bridge c and of the endpoint; half of them lead straight to the holder."""
    return [{e: to for e, holder in ASKED.items() if at not in (holder, 5) and chance.random() < 0.95
             for to in [holder if chance.random() < 0.55 else chance.choice([it for it in range(5) if it != at])]}
            for at in range(6)]


def circles(moves):
    """Whether the moves, one from each node at most, go round from some node."""
    return any(any(at == start for at in itertools.islice(steps(moves, start), 6)) for start in moves)


def steps(moves, start):
    at = start
    while at in moves:
        at = moves[at]
        yield at


def moves_of(tables, e):
    return {at: table[e] for at, table in enumerate(tables) if e in table and EIDS[at] != e}


def can_circle(old, new, e):
    """Whether what is for e goes round in some state of switches."""
    olds, news = moves_of(old, e), moves_of(new, e)
    return any(circles({at: side[at] for at, side in enumerate(state) if at in side})
               for state in itertools.product((olds, news), repeat=6))


def first_loop(old, new, e):
    """The first of the shortest loops from the first node on one, by the order of the tables of its moves."""
    olds, news = moves_of(old, e), moves_of(new, e)
    for start, length in itertools.product(range(6), range(1, 7)):
        for sides in itertools.product(("old", "new"), repeat=length):
            nodes = [start]
            for side in sides:
                to = (olds if side == "old" else news).get(nodes[-1])
                if to is None:
                    break
                nodes.append(to)
            if len(nodes) == length + 1 and nodes[-1] == start:
                return f"loop eid {e} nodes {' '.join(NAMES[it] for it in nodes)} by {' '.join(sides)}"
    raise ValueError("no loop")


def longest(old, new, e, at):
    """The number of moves of the longest way from a node."""
    nexts = {side[at] for side in (moves_of(old, e), moves_of(new, e)) if at in side}
    return max((1 + longest(old, new, e, to) for to in nexts), default=0)


def stuck(whose, old, new, both):
    """The first row of one plan that sends what another node holds to a node without a row for it."""
    for at, table in enumerate(whose):
        for entry, (e, to) in enumerate(sorted(table.items())):
            rows = [e in side[to] for side in ((old, new) if both else (whose,))]
            if EIDS[at] != e and EIDS[to] != e and not all(rows):
                return f"node {NAMES[at]} entry {entry} eid {e}"
    return None


def wanted(old, new):
    """The line that certifymove is to print, or the ranks of the certificate."""
    for e in ASKED:
        if can_circle(old, old, e):
            return first_loop(old, [{}] * 6, e)
    fault = stuck(old, old, new, False)
    if fault:
        return f"fault old C11 {fault}"
    for e in ASKED:
        if can_circle(old, new, e):
            return first_loop(old, new, e)
    for side, code, whose, both in (("new", "C11", new, False), ("old", "M02", old, True), ("new", "M02", new, True)):
        fault = stuck(whose, old, new, both)
        if fault:
            return f"fault {side} {code} {fault}"
    return {(NAMES[at], e): longest(old, new, e, at) for at in range(6) for e in ASKED if longest(old, new, e, at)}


def ranks_of(line):
    return {(it["node"], e): part["rank"] for it in json.loads(line)["ranks"] for part in it["ranges"]
            for e in range(part["first"], part["first"] + part["size"])}


def is_accepted(trial, before, after):
    """Whether certifymove has a certificate of the move, which move accepts."""
    files = trial.file("old", plan(before)), trial.file("new", plan(after))
    status, output, _ = trial.run(["certifymove", *files])
    return status == 0 and trial.run(["move", *files, trial.file("certificate", output)])[1] == b"yes\n"


def switched(tables, new, names):
    """The tables once these nodes have their new rows; None where one of them has them before."""
    nodes = [NAMES.index(name) for name in names]
    if any(tables[at] == new[at] for at in nodes):
        return None
    return [new[at] if at in nodes else table for at, table in enumerate(tables)]


def with_parts(tables, new, parts):
    """The tables once nodes send these endpoint IDs by their new rows; None where a part tells another next node."""
    tables = [dict(table) for table in tables]
    for name, first, last, next_name in parts:
        at = NAMES.index(name)
        for e in range(first, last + 1):
            to = new[at].get(e)
            if next_name != ("-" if to is None else NAMES[to]) or tables[at].get(e) == to:
                return None
            tables[at].pop(e, None)
            if to is not None:
                tables[at][e] = to
    return tables


def steps_of(lines):
    """For each step, in their order, the nodes that switch or the parts of rows; None where a line is no step."""
    steps = {}
    for line in lines:
        found = PART.fullmatch(line)
        if found:
            number, name, first, last, next_name = found.groups()
            steps.setdefault(int(number), []).append((name, int(first), int(last or first), next_name))
            continue
        words = line.split(" ")
        if len(words) < 4 or words[0] != "step" or words[2] != "switch" or int(words[1]) in steps:
            return None
        steps[int(words[1])] = words[3:]
    return [steps[number] for number in sorted(steps)] if sorted(steps) == [*range(1, len(steps) + 1)] else None


def why_not_steps(trial, old, new, lines):
    """What is wrong with the steps, if anything."""
    steps = steps_of(lines)
    if not steps:
        return "no steps"
    tables = old
    for number, step in enumerate(steps, 1):
        after = switched(tables, new, step) if isinstance(step[0], str) else with_parts(tables, new, step)
        if after is None:
            return f"step {number} tells what is not so"
        if any(can_circle(tables, after, e) for e in ASKED) or not is_accepted(trial, tables, after):
            return f"step {number} is no lawful move"
        tables = after
    return None if tables == new else "the last step doesn't end in the new plan"


def why_not_files(trial, old, new, folder, lines):
    """What is wrong with the files of the steps, if anything."""
    steps = [] if lines == ["any order"] else steps_of(lines)[:-1]
    before, count, tables = trial.file("old", plan(old)), len(steps) + 1, [old]
    for step in steps:
        tables.append((switched if isinstance(step[0], str) else with_parts)(tables[-1], new, step))
    names = [f"step-{number:0{len(str(count))}}" for number in range(1, count + 1)]
    if sorted(it.name for it in folder.iterdir()) != sorted(f"{name}.{kind}" for name in names for kind in ("json", "cert.json", "move.json")):
        return "other files"
    for name, after in zip(names, [*tables[1:], new]):
        step, certificate, move = (folder / f"{name}.{kind}" for kind in ("json", "cert.json", "move.json"))
        if moved(json.loads(step.read_text())) != moved(json.loads(plan(after))):
            return f"{name} is another plan"
        if trial.run(["certify", step])[1] != certificate.read_bytes() or trial.run(["check", step, certificate])[1] != b"yes\n":
            return f"{name} has another certificate"
        if trial.run(["certifymove", before, step])[1] != move.read_bytes() or trial.run(["move", before, step, move])[1] != b"yes\n":
            return f"{name} has another certificate of its move"
        before = step
    return None


def moved(told):
    """A plan's text, where each node has a row for each endpoint ID that it sends on."""
    for node in told["nodes"]:
        node["rows"] = sorted((e, row["port"], row["next"]) for row in node["rows"] for e in range(row["first"], row["first"] + row["size"]))
    return told


def try_rollout(trial, seed, old, new, want):
    """Compares rollout with what certifymove is to print, and the files of its steps with the commands that take them."""
    files = trial.file("old", plan(old)), trial.file("new", plan(new))
    status, output, error = trial.run(["rollout", *files])
    with tempfile.TemporaryDirectory(prefix="steps-") as name:
        folder = pathlib.Path(name)
        same = trial.run(["rollout", *files, "--write", folder]) == (status, output, error)
        wrong = why_not_files(trial, old, new, folder, output.decode().splitlines()) if status == 0 else [*folder.iterdir()]
    trial.note(same and not wrong, f"pair {seed}: rollout --write: {output}: {wrong}")
    lines = output.decode().splitlines()
    alone = [wanted(side, side) for side in (old, new)]
    if not isinstance(want, str):
        wrong = None if (status, lines) == (0, ["any order"]) else "not any order"
    elif any(isinstance(it, str) for it in alone):
        wrong = None if (status, lines) == (1, [want]) else f"not {want}"
    else:
        wrong = f"status {status}" if status else why_not_steps(trial, old, new, lines)
    trial.note(wrong is None and not error, f"pair {seed}: rollout: {lines}: {wrong}")


def try_pair(trial, seed):
    chance = random.Random(seed)
    old, new = tables_by(chance), tables_by(chance)
    if chance.random() < 0.5:
        # (few nodes switch, so that more pairs have a certificate)
        new = [table if chance.random() < 0.3 else was for table, was in zip(new, old)]
    want = wanted(old, new)
    try_certificate(trial, seed, old, new, want)
    try_rollout(trial, seed, old, new, want)


def try_certificate(trial, seed, old, new, want):
    """Compares what certifymove prints with what it is to print."""
    files = trial.file("old", plan(old)), trial.file("new", plan(new))
    status, output, error = trial.run(["certifymove", *files])
    line = output.decode().rstrip("\n")
    if isinstance(want, str):
        trial.note(status == 1 and line == want and not error, f"pair {seed}: {line}, and not {want}")
        return
    is_right = status == 0 and not error and ranks_of(line) == want
    if is_right:
        is_right = trial.run(["move", *files, trial.file("certificate", output)])[1] == b"yes\n"
    trial.note(is_right, f"pair {seed}: {line}, and not ranks {want}")


def try_all(trial):
    trial.program
    count = int(trial.words[0]) if trial.words else FEW if trial.is_unproved or trial.given else PAIRS

    def tried(seed):
        try:
            try_pair(trial, seed)
        except (ValueError, IndexError, KeyError, TypeError) as why:
            trial.note(False, f"pair {seed}: {type(why).__name__} {why}")

    each(tried, range(count))
