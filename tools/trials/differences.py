"""Random pairs of plans: all that diff prints of each pair, line by line.

Of a random board a plan is made. Up to six changes make two others of it: of buses, nodes, pools, ports, rows, termini
and records, of names, of the order of lists and of how often things stand in them, also such that no certificate is
accepted. What each plan says is read here from its text, as docs/COMMANDS.md tells of `diff`: what is removed, changed
and added, in which order, and where the one line tells of lists alone. The ways have to be those whose hops differ in
what `reach` answers of both plans, the last line that of what `rollout` answers, and the reasons those of `certify`. Of
each pair both directions are tried, and a plan beside itself. 1,000 boards are tried of the proved program, 60 of
another; a word that is a number says how many, and `from N` with which to begin.
"""
import json
import random

from boards import Board, try_seeds

COUNT, FEW = 1_000, 60


# ---- what a plan says


def facts_of(plan):
    """What a plan says, in its order: of what, what is said, and the same as it is printed."""
    yield "unit", plan.get("unit", 64), f"{plan.get('unit', 64)}"
    for it in plan["buses"]:
        yield f"bus {it['name']}", (it["binding"], it["media"]), f"binding {it['binding']} media {it['media']}"
    for it in plan["nodes"]:
        yield from facts_of_node(it)


def facts_of_node(node):
    name, pool, terminus = node["name"], node["pool"], node["terminus"]
    kind, eid, owner = node["kind"], node["eid"], node["owner"]
    # (a node may be called -)
    yield f"node {name}", (kind, eid, owner), f"{kind} eid {eid} owner {'-' if owner is None else owner}"
    if pool:
        yield f"pool of {name}", (pool["first"], pool["size"]), f"first {pool['first']} size {pool['size']}"
    for index, it in enumerate(node["ports"]):
        address = it["address"].lower()
        yield f"port {index} of {name}", (it["bus"], address), f"bus {it['bus']} address {address or '-'}"
    for it in node["rows"]:
        said = it["size"], it["port"], it["next"]
        yield f"row {it['first']} of {name}", said, "size {} port {} next {}".format(*said)
    if terminus:
        yield f"terminus of {name}", terminus["tid"], f"tid {terminus['tid']}"
        for it in terminus["records"]:
            said = it["next"], it["bytes"].lower()
            yield f"record {it['handle']} of {name}", said, "next {} bytes {}".format(*said)


def fact_lines(before, after):
    """The lines of what differs in what two plans say, or the one of their lists."""
    olds, news = [*facts_of(before)], [*facts_of(after)]
    had, has = {*olds}, {*news}
    gone, come = [it for it in olds if it not in has], [it for it in news if it not in had]
    come_of, gone_of = {}, {it[0] for it in gone}
    for it in come:
        come_of.setdefault(it[0], []).append(it)
    lines = []
    for thing, _, said in gone:
        others = come_of.get(thing, [])
        lines += [f"changed {thing}: {said} -> {other[2]}" for other in others] or [f"removed {thing}: {said}"]
    lines += [f"added {thing}: {said}" for thing, _, said in come if thing not in gone_of]
    return lines or (["changed order of lists"] if olds != news else [])


# ---- what comes of it


def answered(trial, *words):
    """The status and the lines of a command."""
    status, output, _ = trial.run(words)
    return status, output.decode().splitlines()


def hops_of(trial, plan, certificate):
    """The hops from node to node, in their order; None where packets don't arrive."""
    hops = {}
    for line in answered(trial, "reach", plan, certificate)[1][:-1]:
        one, other, *told = line.split()
        hops[one, other] = None if told == ["none"] else int(told[1])
    return hops


def way_lines(before, after):
    """The lines of the ways between nodes of both plans whose hops differ."""
    for (one, other), old in before.items():
        new = after.get((one, other), old)
        if old != new:
            kind = "added" if old is None else "removed" if new is None else "changed"
            yield f"{kind} way from {one} to {other}: " + " -> ".join(f"hops {it}" for it in (old, new) if it is not None)


def need_line(trial, old, new):
    """The line of what `rollout` answers."""
    status, lines = answered(trial, "rollout", old, new)
    if status == 0 and lines != ["any order"]:
        return f"rollout: {lines[-1].split()[1]} steps"
    return "rollout: " + lines[-1]


def consequence_lines(trial, old, new):
    ends = [answered(trial, "certify", it) for it in (old, new)]
    if max(status for status, _ in ends) > 1:
        raise ValueError("a plan doesn't read")
    if ends[0][0] or ends[1][0]:
        return [f"{whose}: {line}" for whose, (status, lines) in zip(("old", "new"), ends) if status for line in lines]
    hops = [hops_of(trial, it, trial.file(f"{whose}.cert.json", lines[0])) for it, whose, (_, lines) in zip((old, new), ("old", "new"), ends)]
    return [*way_lines(*hops), need_line(trial, old, new)]


# ---- plans that change


class Change:
    """A plan, and ways to change it."""

    def __init__(self, seed, plan):
        self.random, self.plan = random.Random(seed), json.loads(plan)

    def some(self, items):
        return self.random.choice(items)

    def node(self):
        return self.some(self.plan["nodes"])

    def listed(self):
        """A list of the plan: of buses, nodes, ports, rows or records."""
        node = self.node()
        records = [it["terminus"]["records"] for it in self.plan["nodes"] if it["terminus"]]
        return self.some([self.plan["buses"], self.plan["nodes"], node["ports"], node["rows"], *records])

    def change(self):
        self.some([self.number, self.number, self.remove, self.remove, self.turn, self.double, self.move, self.rename, self.part, self.add,
                   self.swap, self.call_dash])()

    def number(self):
        """Another number or text in some part of a node, of a bus or of the plan."""
        node = self.node()
        records = node["terminus"]["records"] if node["terminus"] else []
        parts = [node, node, self.some(self.plan["buses"]), *filter(None, [node["pool"], node["terminus"]]), *node["ports"], *node["rows"], *records]
        part = self.some([*parts, *node["rows"], *records])
        keys = [it for it in part if it not in ("name", "pool", "ports", "rows", "records", "terminus")]
        key = self.some(keys)
        if key == "kind":
            part[key] = {"bridge": "endpoint", "endpoint": "bridge"}[part[key]]
        elif key in ("owner", "next"):
            part[key] = self.node()["name"] if key == "next" or self.random.random() < 0.7 else None
        elif key == "bus":
            part[key] = self.some(self.plan["buses"])["name"]
        elif key == "address":
            part[key] = self.some(["", "30", "AB", "ab", "0a0b"])
        elif key == "bytes":
            part[key] = self.some([part[key].upper(), part[key] + "00", "", "01"])
        else:
            part[key] = self.some([part[key] + 1, max(0, part[key] - 1), self.random.randint(0, 31)])

    def remove(self):
        """A list loses an item, and with a node or a bus all that names it."""
        items = self.listed()
        if len(items) > 1 or items and items is not self.plan["nodes"] and items is not self.plan["buses"]:
            gone = items.pop(self.random.randrange(len(items)))
            self.forget(gone.get("name"))

    def forget(self, name):
        """Nothing names this bus or node any more, unless another one is called so."""
        if name is None or any(it["name"] == name for it in (*self.plan["buses"], *self.plan["nodes"])):
            return
        for node in self.plan["nodes"]:
            node["owner"] = None if node["owner"] == name else node["owner"]
            node["rows"] = [it for it in node["rows"] if it["next"] != name]
            node["ports"] = [it for it in node["ports"] if it["bus"] != name]

    def turn(self):
        """A list in another order."""
        self.random.shuffle(self.listed())

    def swap(self):
        """Only the order of lists changes, of several of them."""
        for _ in range(3):
            items = self.listed()
            if len(items) > 1 and "address" not in items[0]:
                items.append(items.pop(0))

    def double(self):
        """A part of a node stands twice in its list, or a node does."""
        items = self.listed()
        if items and items is not self.plan["buses"] and len(items) < 30:
            items.insert(self.random.randint(0, len(items)), json.loads(json.dumps(self.some(items))))

    def move(self):
        """What a node has is another's too."""
        key = self.some(["eid", "owner", "pool", "ports", "rows", "terminus"])
        self.node()[key] = json.loads(json.dumps(self.node()[key]))

    def rename(self):
        """A node is called otherwise, also as another one."""
        node = self.node()
        self.call(node, self.some(["n1", "N1", "unit", "0", self.node()["name"]]))

    def call_dash(self):
        """A node is called -, and now and then owns those that have no owner."""
        self.call(self.node(), "-")
        for it in self.plan["nodes"]:
            if it["owner"] is None and self.random.random() < 0.3:
                it["owner"] = "-"

    def call(self, node, name):
        old, node["name"] = node["name"], name
        for it in self.plan["nodes"]:
            it["owner"] = name if it["owner"] == old else it["owner"]
            for row in it["rows"]:
                row["next"] = name if row["next"] == old else row["next"]

    def part(self):
        """A pool or a terminus comes or goes, or another unit."""
        node, chance = self.node(), self.random.random()
        if chance < 0.4:
            node["pool"] = None if node["pool"] else {"first": self.random.randint(8, 60), "size": self.random.randint(0, 9)}
        elif chance < 0.8:
            node["terminus"] = None if node["terminus"] else {"tid": self.random.randint(0, 9), "records": self.records()}
        else:
            self.plan = {"format": 2, "unit": self.some([64, 65, 1024]), "buses": self.plan["buses"], "nodes": self.plan["nodes"]}

    def records(self):
        return [{"handle": self.random.randint(0, 2), "next": self.random.randint(0, 2), "bytes": self.some(["", "0100", "AB"])} for _ in range(3)]

    def add(self):
        """A row, a record, a bus or a node comes."""
        node = self.node()
        row = {"first": self.random.randint(0, 40), "size": self.random.randint(0, 4), "port": 0, "next": self.node()["name"]}
        node["rows"].insert(self.random.randint(0, len(node["rows"])), row)
        if self.random.random() < 0.5:
            self.plan["buses"].insert(0, {"name": f"new{len(self.plan['buses'])}", "binding": 1, "media": 4})
            new = {**json.loads(json.dumps(self.node())), "name": f"new{len(self.plan['nodes'])}", "eid": self.random.randint(8, 60), "pool": None}
            self.plan["nodes"].insert(self.random.randint(0, len(self.plan["nodes"])), new)


# ---- what is tried


def wrong_of_pair(trial, before, after):
    """What of the lines isn't as it has to be, if anything."""
    old, new = trial.file("old.json", json.dumps(before)), trial.file("new.json", json.dumps(after))
    facts = fact_lines(before, after)
    wanted = (1, [*facts, *consequence_lines(trial, old, new)]) if facts else (0, [])
    found = answered(trial, "diff", old, new)
    if found == wanted:
        return None
    unlike = next((it for it in zip(found[1], wanted[1]) if it[0] != it[1]), (len(found[1]), len(wanted[1])))
    return f"status {found[0]}, not {wanted[0]}: {unlike[0]}, not {unlike[1]}"


def wrong_of(trial, seed):
    status, output, _ = trial.run(["make", trial.file("board.toml", Board(seed).text())])
    if status:
        return None
    one, other = Change(f"{seed} one", output), Change(f"{seed} other", output)
    for changed, most in ((one, 2), (other, 4)):
        for _ in range(changed.random.randint(0, most)):
            changed.change()
    pairs = (one.plan, other.plan), (other.plan, one.plan), (one.plan, one.plan)
    return next(filter(None, (wrong_of_pair(trial, *it) for it in pairs)), None)


def try_all(trial):
    try_seeds(trial, wrong_of, FEW, COUNT)
