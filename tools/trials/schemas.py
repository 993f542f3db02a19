"""The files of the examples against the JSON schemas in docs/schema, and texts that each schema must refuse.

Which schema a file meets is told by its name: events*, certificate* and *-certificate*, and every other is a plan. The
wrong texts are made by one change each of a right one. It needs the Python package jsonschema (Debian:
python3-jsonschema), and says where that is missing.
"""
import copy
import json
import tomllib

from runner import TOP, kind_of

PLAN = {
    "format": 1,
    "buses": [{"name": "b", "binding": 1, "media": 4}],
    "nodes": [
        {
            "name": "a",
            "kind": "bridge",
            "eid": 8,
            "owner": None,
            "pool": {"first": 9, "size": 2},
            "ports": [{"bus": "b", "address": "10"}],
            "rows": [{"first": 9, "size": 1, "port": 0, "next": "z"}],
            "terminus": {"tid": 1, "records": [{"handle": 1, "next": 0, "bytes": "00ff"}]},
        }
    ],
}
PLAN_OF_FORMAT_2 = {**PLAN, "format": 2, "unit": 1024}
CERTIFICATE = {
    "format": 1,
    "levels": [{"level": 1, "node": "a"}],
    "places": [{"node": "a", "places": [0]}],
    "ranks": [{"node": "a", "ranges": [{"first": 9, "rank": 1, "size": 1}]}],
}
EVENTS = {
    "format": 3,
    "events": [
        {"do": "put", "node": "a", "bytes": "0109"},
        {"do": "move", "flight": 1, "keep": False},
        {"do": "expire", "node": "a", "source": 8, "tag": 7, "owner": 1},
        {"do": "switch", "node": "a"},
        {"do": "walk", "node": "a", "eid": 9, "tag": 1, "count": 64},
    ],
}
BOARD = {
    "unit": 128,
    "bus": [{"name": "b0", "binding": "i2c", "media": 4, "addresses": "7-bit"}],
    "node": [
        {
            "name": "a",
            "eid": 8,
            "pool": "16-31",
            "ports": ["b0 10"],
            "reaches": ["a"],
            "rows": ["16-31 via a port 0"],
            "tid": 1,
            "record": [{"type": "terminus-locator", "handle": 1, "eid": "a"}, {"hex": "00"}, {"file": "a.pdr"}],
        }
    ],
}
TAKEN_OUT = object()

# A right text, the path to a value of it, and what stands there instead.
WRONG = [
    ("plan", ["format"], 2),
    ("plan", ["format"], 3),
    ("plan", ["unit"], 64),
    ("plan of format 2", ["format"], 1),
    ("plan of format 2", ["format"], 3),
    ("plan of format 2", ["unit"], TAKEN_OUT),
    ("plan of format 2", ["unit"], 63),
    ("plan of format 2", ["unit"], 1025),
    ("plan of format 2", ["unit"], "64"),
    ("plan", ["nodes"], TAKEN_OUT),
    ("plan", ["nodes"], {}),
    ("plan", ["comment"], "no such key"),
    ("plan", ["buses", 0, "name"], "a name of two words"),
    ("plan", ["buses", 0, "name"], "n" * 33),
    ("plan", ["buses", 0, "media"], 256),
    ("plan", ["nodes", 0, "kind"], "Bridge"),
    ("plan", ["nodes", 0, "eid"], -1),
    ("plan", ["nodes", 0, "eid"], "8"),
    ("plan", ["nodes", 0, "eid"], 8.5),
    ("plan", ["nodes", 0, "owner"], TAKEN_OUT),
    ("plan", ["nodes", 0, "owner"], 8),
    ("plan", ["nodes", 0, "pool", "last"], 10),
    ("plan", ["nodes", 0, "ports"], [{"bus": "b", "address": "10"}] * 33),
    ("plan", ["nodes", 0, "ports", 0, "address"], "100"),
    ("plan", ["nodes", 0, "ports", 0, "address"], "10" * 9),
    ("plan", ["nodes", 0, "rows", 0, "port"], 32),
    ("plan", ["nodes", 0, "rows", 0, "next"], ""),
    ("plan", ["nodes", 0, "terminus", "tid"], 255),
    ("plan", ["nodes", 0, "terminus", "records", 0, "handle"], 1 << 32),
    ("plan", ["nodes", 0, "terminus", "records", 0, "bytes"], "0x00"),
    ("certificate", ["ranks"], TAKEN_OUT),
    ("certificate", ["levels", 0, "level"], 0),
    ("certificate", ["levels", 0, "level"], 64),
    ("certificate", ["places", 0, "places", 0], 4096),
    ("certificate", ["ranks", 0, "ranges", 0, "rank"], 0),
    ("certificate", ["ranks", 0, "ranges", 0, "size"], 0),
    ("certificate", ["ranks", 0, "ranges", 0, "last"], 9),
    ("events", ["format"], 2),
    ("events", ["format"], 4),
    ("events", ["events", 0, "do"], "send"),
    ("events", ["events", 0, "bytes"], "010"),
    ("events", ["events", 1, "keep"], "false"),
    ("events", ["events", 1, "keep"], TAKEN_OUT),
    ("events", ["events", 2, "tag"], 8),
    ("events", ["events", 2, "owner"], 2),
    ("events", ["events", 3, "flight"], 1),
    ("events", ["events", 4, "eid"], 7),
    ("events", ["events", 4, "count"], 7),
    ("board", ["unit"], 63),
    ("board", ["bus", 0, "binding"], "spi"),
    ("board", ["bus", 0, "addresses"], "8-bit"),
    ("board", ["bus", 0, "binding"], TAKEN_OUT),
    ("board", ["node", 0, "eid"], 7),
    ("board", ["node", 0, "pool"], "16 to 31"),
    ("board", ["node", 0, "ports", 0], "b0 1"),
    ("board", ["node", 0, "rows", 0], "16 via nic"),
    ("board", ["node", 0, "record", 0, "type"], "locator"),
    ("board", ["node", 0, "record", 0, "type"], TAKEN_OUT),
    ("board", ["node", 0, "record", 2, "file"], ""),
    ("board", ["node", 0, "knows"], ["nic"]),
]
# Each begins with the name of its schema.
RIGHT = {"plan": PLAN, "plan of format 2": PLAN_OF_FORMAT_2, "certificate": CERTIFICATE, "events": EVENTS, "board": BOARD}
SCHEMAS = ["plan", "certificate", "events", "board"]


def changed(text, path, value):
    """A text with another value at a path, or with none."""
    text = copy.deepcopy(text)
    at = text
    for key in path[:-1]:
        at = at[key]
    if value is TAKEN_OUT:
        del at[path[-1]]
    else:
        at[path[-1]] = value
    return text


def texts():
    """Each text with a name, the name of its schema, and whether the schema has to take it."""
    for kind, text in RIGHT.items():
        yield f"the right {kind}", kind, text, True
    for path in sorted(TOP.glob("examples/*/*.json")):
        yield str(path.relative_to(TOP)), kind_of(path), json.loads(path.read_text()), True
    for path in sorted(TOP.glob("examples/*/*.toml")):
        yield str(path.relative_to(TOP)), "board", tomllib.loads(path.read_text()), True
    for kind, path, value in WRONG:
        shown = "taken out" if value is TAKEN_OUT else f"{value!r:.40}"
        yield f"{kind}: {'/'.join(map(str, path))}: {shown}", kind, changed(RIGHT[kind], path, value), False


def try_all(trial):
    try:
        from jsonschema import Draft202012Validator as Validator
    except ImportError:
        return trial.skip("the Python package jsonschema (4 or later) is not there")
    schemas = {it: json.loads((TOP / f"docs/schema/{it}.schema.json").read_text()) for it in SCHEMAS}
    for schema in schemas.values():
        Validator.check_schema(schema)
    for name, kind, text, is_right in filter(lambda it: trial.has(it[0]), texts()):
        faults = sorted(Validator(schemas[kind.split()[0]]).iter_errors(text), key=str)
        trial.note((not faults) == is_right, f"{name}: {faults[0].message[:200] if faults else 'accepted'}")
