"""Random boards: each ends in a plan that is fit for it, or in a reason that is true.

Boards are trees of bridges with endpoints, some with a second way, and with endpoint IDs, pools, rows and lists of whom to
reach left out or given. Of a plan that make prints check has to say yes with the certificate that it writes, and what the
board gives has to be in it; from each node packets have to come to all that it is to reach, by the rows, and in as few hops
as the buses and the rows allow that are given for the endpoint ID. Of a reason is tried that no endpoint ID of the pool or no run
of them is left; that no way leads from the one node to the other, whichever endpoint IDs are chosen, along the rows that
are given for one that is given; or that a rule is named of a board that gives endpoint IDs, pools or rows. Where packets of
the plan that was made don't arrive, the pool must have too few endpoint IDs for which no row is given. A plan of every
fourth board loses most of its rows, and now and then another row is turned: `rows` has to make a plan of it in which each
node reaches all in as few hops as may be with the rows that are left, or has to have a reason that is true. Where no row
was turned and all reached each other before, it has to make one; with all rows it has to print the plan as it stands. A
third of the buses write addresses in 7 bits. 10,000 boards
are tried of the proved program, 200 of another; a word that is a number says how many, and `from N` with which to begin.
"""
import json
import random
import re

from runner import each

COUNT, FEW = 10_000, 200


# ---- boards


class Board:
    """A board: its buses, and its nodes as dicts of what is given."""

    def __init__(self, seed):
        self.seed, self.random = seed, random.Random(seed)
        self.buses, self.nodes = [], []
        self.add("root", None, [self.bus()])
        self.nodes[0]["pool"] = self.random.choice(["9-254", "9-63", "16-40"])
        for number in range(self.random.randint(0, 4)):
            self.add_bridge(f"b{number}")
        for number in range(self.random.randint(1, 10)):
            self.add_endpoint(f"e{number}")
        for node in self.nodes:
            self.vary(node)

    def bus(self):
        self.buses.append(f"bus{len(self.buses)}")
        return self.buses[-1]

    def add(self, name, owner, buses):
        ports = [address_on(bus, len(self.nodes) + 8) for bus in buses]
        self.nodes.append({"name": name, **({"owner": owner} if owner else {}), "ports": ports})
        return self.nodes[-1]

    def bridges(self):
        return [it for it in self.nodes if "pool" in it]

    def add_bridge(self, name):
        above = self.random.choice(self.bridges())
        node = self.add(name, above["name"], [self.random.choice(buses_of(above)), self.bus()])
        if self.random.random() < 0.3:
            node["ports"].append(address_on(self.random.choice(self.buses), len(self.nodes) + 64))
        node["pool"] = self.random.choice([2, 4, 8])

    def add_endpoint(self, name):
        above = self.random.choice(self.bridges())
        self.add(name, above["name"], [self.random.choice(buses_of(above))])

    def vary(self, node):
        """Gives more of a node, now and then."""
        names = [it["name"] for it in self.nodes]
        if self.random.random() < 0.15:
            node["reaches"] = self.random.sample(names, self.random.randint(0, min(4, len(names))))
        if self.random.random() < 0.05:
            node["eid"] = self.random.randint(8, 60)
        if self.random.random() < 0.06 and len(names) > 1:
            node["rows"] = [self.row(node)]
        if self.random.random() < 0.2:
            node["tid"] = self.nodes.index(node) + 1
            node["record"] = [{"type": "terminus-locator", "tid": node["tid"], "eid": node["name"]}]

    def row(self, node):
        """A row of the node's own: mostly of some endpoint IDs, to a bridge on the port's bus."""
        port = self.random.randrange(len(node["ports"]))
        others = [it for it in self.nodes if it is not node]
        near = [it for it in others if buses_of(node)[port] in buses_of(it)]
        to = self.random.choice([it for it in near if "pool" in it] or near or others)
        first = self.random.randint(9, 60)
        last = first + ("pool" in to) * self.random.randint(0, 12)
        return f"{eids_text(first, last)} via {to['name']} port {port}"

    def text(self):
        lines = []
        for name in self.buses:
            lines += ["[[bus]]", f'name = "{name}"', 'binding = "smbus"', *(['addresses = "7-bit"'] if is_of_seven_bits(name) else []), ""]
        for node in self.nodes:
            lines.append("[[node]]")
            lines += [f"{key} = {json.dumps(value)}" for key, value in node.items() if key != "record"]
            for record in node.get("record", []):
                lines += ["[[node.record]]", *(f"{key} = {json.dumps(value)}" for key, value in record.items())]
            lines.append("")
        return "\n".join(lines)


def is_of_seven_bits(bus):
    """Whether a bus writes addresses in 7 bits: every third does."""
    return int(bus.removeprefix("bus")) % 3 == 1


def address_on(bus, number):
    """A port by the number of 7 bits that its address has."""
    return f"{bus} {number if is_of_seven_bits(bus) else 2 * number:02x}"


def on_wire(port):
    """A port with its address as it is on the wire."""
    bus, address = port.split()
    return f"{bus} {2 * int(address, 16):02x}" if is_of_seven_bits(bus) else port


def buses_of(node):
    return [it.split()[0] for it in node["ports"]]


def eids_text(first, last):
    return str(first) if first == last else f"{first}-{last}"


def given_turn(node, eid):
    """The name of the node to which a row leads that is given for an endpoint ID."""
    for row in node.get("rows", []):
        eids, _, to, *_ = row.split()
        if int(eids.split("-")[0]) <= eid <= int(eids.split("-")[-1]):
            return to
    return None


# ---- plans


def hops_over(nodes, is_bridge, start, eid=None):
    """How few hops over buses lead from a node to each; for an endpoint ID along the rows that are given for it."""
    hops, front = {start: 0}, [start]
    while front:
        after = []
        for at in front:
            if at != start and not is_bridge[at]:
                continue
            turn = given_turn(nodes[at], eid) if eid else None
            for to, node in enumerate(nodes):
                if to not in hops and turn in (None, node["name"]) and set(buses_of(nodes[at])) & set(buses_of(node)):
                    hops[to] = hops[at] + 1
                    after.append(to)
        front = after
    return hops


def row_for(node, eid):
    return next((it for it in node["rows"] if it["first"] <= eid < it["first"] + it["size"]), None)


def row_text(row):
    eids = eids_text(row["first"], row["first"] + row["size"] - 1)
    return f"{eids} via {row['next']} port {row['port']}"


def hops_by_rows(plan, start, eid):
    """How many hops packets for an endpoint ID make from a node; none where they don't arrive."""
    index = {it["name"]: at for at, it in enumerate(plan["nodes"])}
    at, hops = start, 0
    while plan["nodes"][at]["eid"] != eid:
        node = plan["nodes"][at]
        row = row_for(node, eid)
        if not row or hops and node["kind"] != "bridge" or hops > 64:
            return None
        at, hops = index[row["next"]], hops + 1
    return hops


def lacks(board, plan):
    """What of a board is not in its plan, as words."""
    if [it["name"] for it in plan["buses"]] != board.buses or len(plan["nodes"]) != len(board.nodes):
        return "buses or nodes"
    for given, made in zip(board.nodes, plan["nodes"]):
        ports = [f"{it['bus']} {it['address']}" for it in made["ports"]]
        if (given["name"], given.get("owner"), [*map(on_wire, given["ports"])]) != (made["name"], made["owner"], ports):
            return f"name, owner or ports of {given['name']}"
        if given.get("eid", made["eid"]) != made["eid"] or set(given.get("rows", [])) - {*map(row_text, made["rows"])}:
            return f"endpoint ID or rows of {given['name']}"
        pool = made["pool"] and (f"{made['pool']['first']}-{made['pool']['first'] + made['pool']['size'] - 1}", made["pool"]["size"])
        if ("pool" in given) != bool(pool) or pool and given["pool"] not in pool:
            return f"pool of {given['name']}"
        if ("record" in given) != bool(made["terminus"]):
            return f"terminus of {given['name']}"
    return None


def wrong_of_plan(trial, board, text, certificate):
    plan = json.loads(text)
    if trial.run(["check", trial.file("plan.json", text), certificate])[1] != b"yes\n":
        return "its certificate doesn't fit"
    if wrong := lacks(board, plan):
        return f"lacks {wrong}"
    nodes = plan["nodes"]
    for at, node in enumerate(board.nodes):
        asked = [to for to, other in enumerate(nodes) if other["name"] in node.get("reaches", [other["name"]])]
        if wrong := wrong_of_hops(board.nodes, plan, at, asked):
            return wrong
    return wrong_of_rows(trial, board.random, plan, text) if board.seed % 4 == 0 else None


def wrong_of_hops(given, plan, at, asked):
    """Whether packets come from a node to others in as few hops as may be with the rows of the nodes that are given."""
    nodes, is_bridge = plan["nodes"], [it["kind"] == "bridge" for it in plan["nodes"]]
    least = hops_over(given, is_bridge, at)
    for to in asked:
        eid = nodes[to]["eid"]
        own = hops_over(given, is_bridge, at, eid) if any(given_turn(it, eid) for it in given) else least
        hops = hops_by_rows(plan, at, eid)
        if hops is None or hops != own.get(to):
            return f"{nodes[at]['name']} to {nodes[to]['name']}: {hops} hops, and not {own.get(to)}"
    return None


# ---- rows of plans


def as_given(plan):
    """The nodes of a plan in the form of a board's."""
    ports = [[f"{it['bus']} {it['address']}" for it in node["ports"]] for node in plan["nodes"]]
    return [{"name": it["name"], "ports": own, "rows": [*map(row_text, it["rows"])]} for it, own in zip(plan["nodes"], ports)]


def turn_some(random, plan):
    """Takes most rows away, turns one now and then to another node on its bus, and tells whether it turned one."""
    is_turned = False
    for node in plan["nodes"]:
        node["rows"] = [it for it in node["rows"] if random.random() < 0.2]
        for row in node["rows"]:
            bus = node["ports"][row["port"]]["bus"]
            near = [it["name"] for it in plan["nodes"] if it is not node and bus in {own["bus"] for own in it["ports"]}]
            if random.random() < 0.1:
                row["next"], is_turned = random.choice(near), True
    return is_turned


def is_whole(plan):
    """Whether packets come from each node to all."""
    nodes = plan["nodes"]
    return all(hops_by_rows(plan, at, it["eid"]) is not None for at in range(len(nodes)) for it in nodes)


def wrong_of_rows(trial, random, plan, text):
    was_whole = is_whole(plan)
    if was_whole and trial.run(["rows", trial.file("rows.json", text)])[1] != text.encode():
        return "rows: a plan that needs none is another one"
    is_turned = turn_some(random, plan)
    given, nodes = as_given(plan), plan["nodes"]
    status, output, error = trial.run(["rows", trial.file("rows.json", json.dumps(plan))])
    reason = output.decode()
    if status == 1 and was_whole and not is_turned:
        return f"rows: those that were taken away are right: {reason}"
    if status == 1 and (found := re.match(r'no plan: no way over .* leads from node "(\w+)" to node "(\w+)"', reason)):
        at = {it["name"]: place for place, it in enumerate(nodes)}
        bridges = [it["kind"] == "bridge" for it in nodes]
        is_cut = at[found[2]] not in hops_over(given, bridges, at[found[1]], nodes[at[found[2]]]["eid"])
        return None if is_cut else f"rows: {reason}"
    if status == 1:
        return None if reason.startswith("no plan: ") and any(it["rows"] for it in nodes) else f"rows: {reason}"
    if status:
        return f"rows: status {status}: {(output + error).decode()}"
    made = json.loads(reason)
    if trial.run(["certify", trial.file("made.json", reason)])[0]:
        return "rows: no certificate"
    if [{**it, "rows": []} for it in made["nodes"]] != [{**it, "rows": []} for it in nodes] or made["buses"] != plan["buses"]:
        return "rows: not the same plan"
    if any(row not in own["rows"] for it, own in zip(nodes, made["nodes"]) for row in it["rows"]):
        return "rows: lost a row"
    return next(filter(None, (wrong_of_hops(given, made, at, range(len(nodes))) for at in range(len(nodes)))), None)


# ---- reasons


def pool_of(board, name):
    """The endpoint IDs of a pool that the board gives by its ends; none of another."""
    pool = next(it for it in board.nodes if it["name"] == name).get("pool")
    return set(range(int(pool.split("-")[0]), int(pool.split("-")[1]) + 1)) if isinstance(pool, str) else None


def is_covered(board, eid):
    """Whether the board gives a row for an endpoint ID."""
    return any(given_turn(it, eid) for it in board.nodes)


def is_made_bridge(board, node):
    owns_some = any(it.get("owner") == node["name"] for it in board.nodes)
    return "pool" in node or owns_some or "rows" in node and len({*buses_of(node)}) > 1


def is_cut_off(board, one, other):
    """Whether the board asks that a node reaches another to which no way leads, along the rows for an endpoint ID that is
    given."""
    at = {it["name"]: place for place, it in enumerate(board.nodes)}
    bridges = [is_made_bridge(board, it) for it in board.nodes]
    is_asked = other in board.nodes[at[one]].get("reaches", [other])
    return is_asked and at[other] not in hops_over(board.nodes, bridges, at[one], board.nodes[at[other]].get("eid"))


def has_room(board, name):
    """Whether each node beside this one could have an endpoint ID of the pool for which no row is given. (Not where pools lie
    beside, whose places are chosen.)"""
    node = next(it for it in board.nodes if it["name"] == name)
    beside = [it for it in board.nodes if it.get("owner") == node.get("owner")]
    pool = pool_of(board, node["owner"]) if "owner" in node else {*range(8, 255)}
    if "eid" in node or pool is None or any("pool" in it for it in beside if it["name"] != name):
        return False
    given = {it["eid"] for it in board.nodes if "eid" in it}
    return len([it for it in pool - given if not is_covered(board, it)]) >= len(beside)


def wrong_of_reason(board, reason):
    gives_some = any({"eid", "rows"} & {*it} for it in board.nodes)
    if found := re.match(r'no plan: no (\d+ )?endpoint IDs? of the pool of node "(\w+)"', reason):
        # (no more can be handed out from the pool)
        owned = [it for it in board.nodes if it.get("owner") == found[2]]
        wanted = len(owned) + sum(it["pool"] for it in owned if isinstance(it.get("pool"), int))
        pool = pool_of(board, found[2])
        size = len(pool) if pool else next(it for it in board.nodes if it["name"] == found[2])["pool"]
        return None if wanted > size else "there is room"
    if found := re.match(r'no plan: no way over buses, bridges and given rows leads from node "(\w+)" .* to node "(\w+)"', reason):
        return None if is_cut_off(board, found[1], found[2]) else "there is a way"
    if found := re.match(r"no plan: loop eid (\d+) nodes ([\w ]+)", reason):
        names, turns = found[2].split(), {it["name"]: given_turn(it, int(found[1])) for it in board.nodes}
        return None if all(turns[one] == to for one, to in zip(names, names[1:])) else "the loop has rows that the board doesn't give"
    if found := re.match(r'no plan: none was found: no packet of node "(\w+)" .* comes to node "(\w+)"', reason):
        return f"{found[2]} could have another endpoint ID" if has_room(board, found[2]) else None
    return None if gives_some and reason.startswith("no plan: ") else "nothing that the board gives is against a plan"


def wrong_of(trial, seed):
    board = Board(seed)
    certificate = trial.file("certificate.json", "")
    status, output, error = trial.run(["make", trial.file("board.toml", board.text()), "--certificate", certificate])
    if status == 0:
        return wrong_of_plan(trial, board, output.decode(), certificate)
    if status == 1:
        return wrong_of_reason(board, output.decode())
    return f"status {status}: {(output + error).decode()}"


def try_seeds(trial, wrong_of, few, many):
    """Tries a board of each seed: how many a word says, and behind `from` with which to begin."""
    words, first = [*trial.words], 0
    if "from" in words:
        at = words.index("from")
        first = int(words[at + 1])
        del words[at : at + 2]
    count = int(words[0]) if words else few if trial.is_unproved or trial.given else many

    def tried(seed):
        try:
            wrong = wrong_of(trial, seed)
        except (ValueError, IndexError, KeyError, TypeError) as why:
            wrong = f"{type(why).__name__} {why}"
        trial.note(not wrong, f"board {seed}: {wrong}")

    each(tried, range(first, first + count))


def try_all(trial):
    try_seeds(trial, wrong_of, FEW, COUNT)
