"""Random boards that change: what stays of the plan that was made of one before.

Of each board a plan is made. With --keep of that plan the board has to give it again, byte for byte. Then the board is changed in
one of eight ways: a node is added first, in the middle or last, one is removed or moved to another owner, a pool grows or shrinks,
or a node moves to another bus. A plan is made of it with --keep of the first one, wherever one is made without. Its numbers are the
endpoint IDs and first endpoint IDs of pools that the board leaves open. A search tells whether they can all stay: whether there is
a place for the rest, and `make` takes a board that gives all of this. Then none may move. Otherwise this searches the same for each
number that moved, with those that stayed before it, outer owners first, then in the order of the board: only what lies below a
pool that moved or is new may move where it could stay. A record that is put before others leaves their handles. 2,000 boards are
tried of the proved program, 40 of another; a word that is a number says how many, and `from N` with which to begin.
"""
import json
import random

from boards import Board, address_on, buses_of, eids_text, given_turn, hops_over, is_covered, is_made_bridge, lacks, try_seeds

COUNT, FEW = 2_000, 40
# How many places a search tries before it gives up.
MOST_TRIES = 20_000


# ---- boards that change


class Changing(Board):
    """A board of which most have a plan, whose pools have little room or much, and ways to change it."""

    def __init__(self, seed):
        self.seed, self.random = seed, random.Random(seed)
        self.buses, self.nodes = [], []
        root = self.add("root", None, [self.bus()])
        root["pool"] = 1
        for number in range(self.random.randint(0, 5)):
            self.add_bridge(f"b{number}")
        for number in range(self.random.randint(1, 10)):
            self.add_endpoint(f"e{number}")
        for node in reversed(self.bridges()):
            node["pool"] = max(2, self.need(node["name"]) + self.random.choice([0, 0, 1, 2, 6]))
        if self.random.random() < 0.6:
            root["pool"] = eids_text(9, 8 + root["pool"] + self.random.choice([0, 4, 16, 100]))
        for node in self.nodes:
            if self.random.random() < 0.3:
                self.vary(node)
            if "tid" in node and self.random.random() < 0.6:
                node["record"] += [{"type": "state-sensor", "sensor-id": it} for it in (5, 6)]
        if self.random.random() < 0.3:
            self.random.shuffle(self.nodes)

    def need(self, name):
        """How many endpoint IDs the nodes of an owner take, with their pools."""
        return sum(1 + it.get("pool", 0) for it in self.owned(name))

    def named(self, name):
        return next((it for it in self.nodes if it["name"] == name), None)

    def owned(self, name):
        return [it for it in self.nodes if it.get("owner") == name]

    def below(self, name):
        """A node and all below it, by their names."""
        return {name, *(low for it in self.owned(name) for low in self.below(it["name"]))}

    def level(self, node):
        return 1 + self.level(self.named(node["owner"])) if "owner" in node else 0

    def sized(self):
        return [it for it in self.nodes if isinstance(it.get("pool"), int)]

    def change(self):
        """Changes the board in one of eight ways."""
        way = self.random.choice([self.add_first, self.add_middle, self.add_last, self.remove, self.move, self.grow, self.shrink, self.turn])
        way()
        return way.__name__

    def add_at(self, place):
        before = len(self.nodes)
        if self.random.random() < 0.3:
            self.add_bridge("new")
            self.add_child("low")
        else:
            self.add_endpoint("new")
        self.nodes[place:] = self.nodes[before:] + self.nodes[place:before]

    def add_child(self, name):
        above = self.nodes[-1]
        self.add(name, above["name"], [buses_of(above)[-1]])

    def add_first(self):
        self.add_at(0)

    def add_middle(self):
        self.add_at(len(self.nodes) // 2)

    def add_last(self):
        self.add_at(len(self.nodes))

    def low(self):
        """A node that has an owner."""
        return self.random.choice([it for it in self.nodes if "owner" in it])

    def remove(self):
        node = self.low()
        self.nodes.remove(node)
        for other in self.nodes:
            if other.get("owner") == node["name"]:
                other["owner"] = node["owner"]
            if "reaches" in other:
                other["reaches"] = [it for it in other["reaches"] if it != node["name"]]
            if "rows" in other:
                other["rows"] = [it for it in other["rows"] if it.split()[2] != node["name"]]

    def move(self):
        node = self.low()
        low = self.below(node["name"])
        above = self.random.choice([it for it in self.bridges() if it["name"] not in low])
        node["owner"] = above["name"]
        node["ports"].append(address_on(self.random.choice(buses_of(above)), 0x35))

    def grow(self):
        """A pool grows, and mostly those of its owners too."""
        if self.sized():
            node = self.random.choice(self.sized())
            more = self.random.choice([1, 4, node["pool"]])
            while node:
                node["pool"] = grown(node["pool"], more)
                node = self.named(node.get("owner")) if self.random.random() < 0.8 else None

    def shrink(self):
        if self.sized():
            node = self.random.choice(self.sized())
            node["pool"] = max(2, node["pool"] // 2)

    def turn(self):
        node = self.low()
        node["ports"][0] = address_on(self.random.choice(buses_of(self.named(node["owner"]))), 0x36)

    def pinned(self, numbers):
        """The text of the board with all these numbers given."""
        before = self.nodes
        self.nodes = [{**it} for it in before]
        for node in self.nodes:
            node["eid"] = numbers[node["name"], "eid"]
            if isinstance(node.get("pool"), int):
                first = numbers[node["name"], "pool"]
                node["pool"] = eids_text(first, first + node["pool"] - 1)
        text = self.text()
        self.nodes = before
        return text


def grown(pool, more):
    """A pool with so many more endpoint IDs, or as many as there are."""
    if isinstance(pool, int):
        return pool + more
    first, last = map(int, pool.split("-"))
    return eids_text(first, min(254, last + more))


# ---- the numbers of a plan


def numbers_of(board, plan):
    """The numbers of a plan that the board leaves open, in the order in which they are kept."""
    made = {it["name"]: it for it in plan["nodes"]}
    found = {}
    for node in sorted(board.nodes, key=board.level):
        own = made.get(node["name"])
        if own and "eid" not in node:
            found[node["name"], "eid"] = own["eid"]
        if own and own["pool"] and isinstance(node.get("pool"), int):
            found[node["name"], "pool"] = own["pool"]["first"]
    return found


class TooMany(Exception):
    """A search that tries too much."""


class Search:
    """The places that the numbers of a board may have with some of them given. By the rules of pools, and so that given rows lead
    no node past another that it is to reach."""

    def __init__(self, board, numbers):
        self.board, self.numbers, self.tries = board, dict(numbers), 0
        self.bridges = [is_made_bridge(board, it) for it in board.nodes]
        for node in board.nodes:
            if "eid" in node:
                self.numbers[node["name"], "eid"] = node["eid"]
            if isinstance(node.get("pool"), str):
                self.numbers[node["name"], "pool"] = int(node["pool"].split("-")[0])
        self.hops = {}

    def size(self, node):
        pool = node["pool"]
        return pool if isinstance(pool, int) else int(pool.split("-")[1]) - int(pool.split("-")[0]) + 1

    def found(self):
        """A place for each number, or none."""
        try:
            found = self.fit(None, 8, 254)
        except TooMany:
            return None
        return {**self.numbers, **found} if found is not None else None

    def may_hold(self, node, eid):
        """Whether those that are to reach the node come to it by the rows that are given for an endpoint ID."""
        if not is_covered(self.board, eid):
            return True
        to = self.board.nodes.index(node)
        for at, other in enumerate(self.board.nodes):
            if node["name"] in other.get("reaches", [node["name"]]):
                if (at, eid) not in self.hops:
                    self.hops[at, eid] = hops_over(self.board.nodes, self.bridges, at, eid)
                if to not in self.hops[at, eid]:
                    return False
        return True

    def fit(self, owner, first, last):
        """Places for what an owner with these endpoint IDs hands out, and for all below."""
        nodes = [it for it in self.board.nodes if it.get("owner") == owner]
        pools = sorted((it for it in nodes if "pool" in it), key=lambda it: (-self.size(it), it["name"]))
        if any("pool" not in it and self.board.owned(it["name"]) for it in nodes):
            return None
        taken = {self.numbers[it["name"], "eid"] for it in nodes if (it["name"], "eid") in self.numbers}
        given = [it for it in nodes if (it["name"], "eid") in self.numbers]
        if len(taken) < len(given) or any(not first <= it <= last for it in taken):
            return None
        if any(not self.may_hold(it, self.numbers[it["name"], "eid"]) for it in given):
            return None
        fixed = [it for it in pools if (it["name"], "pool") in self.numbers]
        return self.fit_pools(nodes, fixed + [it for it in pools if it not in fixed], taken, first, last)

    def fit_pools(self, nodes, pools, taken, first, last):
        if not pools:
            return self.fit_eids(nodes, taken, first, last)
        node, size = pools[0], self.size(pools[0])
        own = self.numbers.get((node["name"], "pool"))
        for start in range(first, last - size + 2) if own is None else [own]:
            self.tries += 1
            if self.tries > MOST_TRIES:
                raise TooMany
            cells = {*range(start, start + size)}
            if start < first or start + size - 1 > last or cells & taken:
                continue
            low = self.fit(node["name"], start, start + size - 1)
            rest = self.fit_pools(nodes, pools[1:], taken | cells, first, last) if low is not None else None
            if rest is not None:
                return {**low, **rest, (node["name"], "pool"): start}
        return None

    def fit_eids(self, nodes, taken, first, last):
        """An endpoint ID for each node that has none, by a matching."""
        opens = [it for it in nodes if (it["name"], "eid") not in self.numbers]
        left = [it for it in range(first, last + 1) if it not in taken]
        held = {}

        def give(node, seen):
            for eid in left:
                if eid not in seen and self.may_hold(node, eid):
                    seen.add(eid)
                    if eid not in held or give(held[eid], seen):
                        held[eid] = node
                        return True
            return False

        if len(opens) > len(left) or not all(give(it, set()) for it in opens):
            return None
        return {(node["name"], "eid"): eid for eid, node in held.items()}


# ---- what is tried


def make(trial, text, old=None):
    """Makes a plan of a board, with --keep of another one where it is given. Answers the status and the plan's text."""
    kept = ["--keep", trial.file("old.json", old)] if old is not None else []
    status, output, _ = trial.run(["make", trial.file("board.toml", text), *kept])
    return status, output.decode()


def can_stay(trial, board, numbers):
    """Whether some plan for the board has these numbers."""
    place = Search(board, numbers).found()
    return place is not None and make(trial, board.pinned(place))[0] == 0


def needless_move(trial, board, before, after):
    """A number that moved though it could stay; none where there is none such."""
    moved = [it for it in before if after[it] != before[it]]
    if moved and can_stay(trial, board, before):
        return f"all could stay, and these moved: {moved}"
    placed = [it["name"] for it in board.sized() if (it["name"], "pool") not in before or (it["name"], "pool") in moved]
    low = set().union(*(board.below(it) - {it} for it in placed))
    stayed = {}
    for number in before:
        if number not in moved:
            stayed[number] = before[number]
        elif number[0] not in low and can_stay(trial, board, {**stayed, number: before[number]}):
            return f"{number[0]} {number[1]} {before[number]} moved to {after[number]}"
    return None


def wrong_of_change(trial, board, plan):
    before = numbers_of(board, json.loads(plan))
    status, text = make(trial, board.text(), plan)
    plain = make(trial, board.text())
    if status:
        return None if (status, text) == plain else f"status {status}: {text}, and {plain[0]} without --keep"
    made = json.loads(text)
    if wrong := lacks(board, made):
        return f"lacks {wrong}"
    return needless_move(trial, board, before, numbers_of(board, made)) or wrong_of_records(trial, board, text)


def handles_of(plan, name):
    terminus = next(it for it in plan["nodes"] if it["name"] == name)["terminus"]
    return [it["handle"] for it in terminus["records"]]


def wrong_of_records(trial, board, plan):
    """Puts a record before those of a node: their handles have to stay."""
    with_some = [it for it in board.nodes if "record" in it]
    if not with_some:
        return None
    node = board.random.choice(with_some)
    node["record"].insert(0, {"type": board.random.choice(["numeric-sensor", "state-sensor"]), "sensor-id": 77})
    status, text = make(trial, board.text(), plan)
    if status:
        return f"a record before others: status {status}: {text}"
    before, after = (handles_of(json.loads(it), node["name"]) for it in (plan, text))
    least = min({*range(1, len(after) + 1)} - {*before})
    return None if after == [least, *before] else f"a record before others: handles {after}, and before {before}"


def wrong_of(trial, seed):
    board = Changing(seed)
    status, plan = make(trial, board.text())
    if status:
        return None
    if make(trial, board.text(), plan) != (0, plan):
        return "unchanged, and not the same plan"
    way = board.change()
    wrong = wrong_of_change(trial, board, plan)
    return wrong and f"{way}: {wrong}"


def try_all(trial):
    try_seeds(trial, wrong_of, FEW, COUNT)
