"""The bounds in the schemas of plans, certificates and events, of the table in crates/net_plan/src/tables.rt.

Numbers, the most items of lists, and the keys that an object has to have come from the table, whose definition in specs/
is proved to say the same. All else in docs/schema is written by hand.
"""
import json
import pathlib
import re

TOP = pathlib.Path(__file__).resolve().parent.parent.parent
TABLES = "crates/net_plan/src/tables.rt"
TOKEN = re.compile(r'\s*("\w+"|[\w:]+!?|[(){}\[\],&;=|])')


class Reading:
    """Goes through an expression of the table, token by token."""

    def __init__(self, text, named):
        self.tokens = TOKEN.findall(text)
        self.named = named

    def next(self, wanted=None):
        token = self.tokens.pop(0)
        if wanted is not None and token != wanted:
            raise ValueError(f"{TABLES}: '{token}' stands where '{wanted}' is wanted")
        return token

    def bound(self):
        """A number, or that of `Some(..)`; None of `None`."""
        token = self.next()
        if token == "Some":
            self.next("(")
            token = self.next()
            self.next(")")
        return None if token == "None" else int(token.replace("_", ""))

    def fields(self):
        """Keys, or words of a choice, and what may stand at each; a comma stands before each."""
        found = {}
        while self.tokens[0] == ",":
            self.next(",")
            key = self.next().strip('"')
            self.next(":")
            found[key] = self.shape()
        return found

    def shape(self):
        """What may stand at one place: a tuple that begins with the word for it."""
        token = self.next()
        if token == "&":
            return self.shape()
        if token in self.named:
            return self.named[token]
        self.next("(")
        if token == "number!":
            least = self.bound()
            self.next(",")
            found = ("number", least, self.bound())
        elif token == "list!":
            most = self.bound()
            self.next(",")
            found = ("list", most, self.shape())
        elif token == "object!":
            self.next()
            found = ("object", self.fields())
        elif token == "event_of!":
            self.next()
            found = ("object", {"do": ("word",), **self.fields()})
        elif token == "any_event!":
            self.tokens.insert(0, ",")
            found = ("choice", self.fields())
        elif token == "Shape::Optional":
            found = ("optional", self.shape())
        else:
            depth = 1
            while depth:
                token = self.next()
                depth += (token == "(") - (token == ")")
            return ("word",)
        self.next(")")
        return found


def table():
    """What each name in the table stands for."""
    text = (TOP / TABLES).read_text(encoding="utf-8")
    found = {}
    (of_events,) = re.findall(r"macro_rules! events_of \{\s*\(\$event:expr\) => \{\s*(.*?)\s*\};", text, re.S)
    for name, shape in re.findall(r"(?m)^(?:const|static) (\w+): Shape\s*=\s*([^;]*);", text):
        shape = re.sub(r"^events_of!\((.*)\)$", lambda it: of_events.replace("$event", it[1]), shape, flags=re.S)
        found[name] = Reading(shape, found).shape()
    return found


def bounded(schema, shape, parts):
    """Puts the bounds of a shape into its schema."""
    if "$ref" in schema:
        return bounded(parts[schema["$ref"].rsplit("/", 1)[1]], shape, parts)
    kind = shape[0]
    if kind == "number" and shape[1] == shape[2]:
        schema["const"] = shape[1]
    elif kind == "number":
        schema["minimum"], schema["maximum"] = shape[1:]
    elif kind == "list":
        bounded(schema["items"], shape[2], parts)
        if shape[1] is not None:
            schema["maxItems"] = shape[1]
    elif kind == "optional":
        bounded(schema["anyOf"][1], shape[1], parts)
    elif kind == "object":
        if {*schema["properties"]} != {*shape[1]}:
            raise ValueError(f"the schema has other keys than {', '.join(shape[1])}")
        schema["required"] = [*shape[1]]
        for key, value in shape[1].items():
            bounded(schema["properties"][key], value, parts)
    return schema


def written(name, shape):
    """The text of a schema with the bounds of a shape."""
    path = f"docs/schema/{name}.schema.json"
    schema = json.loads((TOP / path).read_text(encoding="utf-8"))
    bounded(schema, shape, schema["$defs"])
    return path, told(schema)


def events(found):
    """The text of the schema of events: of each format the words that it has, and of each word its keys."""
    path = "docs/schema/events.schema.json"
    schema = json.loads((TOP / path).read_text(encoding="utf-8"))
    formats = [found[name][1] for name in ("EVENTS_ONE", "EVENTS_TWO", "EVENTS_THREE")]
    _, least, most = formats[-1]["format"]
    schema["properties"]["format"]["enum"] = [*range(least, most + 1)]
    schema["properties"]["events"]["maxItems"] = formats[-1]["events"][1]
    schema["required"] = [*formats[-1]]
    for number, (case, fields) in enumerate(zip(schema["allOf"], formats, strict=True), least):
        words = fields["events"][2][1]
        case["if"]["properties"]["format"]["const"] = number
        case["then"]["properties"]["events"]["items"]["anyOf"] = [{"$ref": f"#/$defs/{word}"} for word in words]
    for word, shape in words.items():
        part = bounded(schema["$defs"][word], shape, schema["$defs"])
        part["properties"]["do"]["const"] = word
    return path, told(schema)


def told(schema):
    return json.dumps(schema, indent=2, ensure_ascii=False) + "\n"


def made():
    found = table()
    one, two = found["PLAN_ONE"], found["PLAN_TWO"]
    parts = ("object", {**two[1], "format": ("word",)})
    path, text = written("plan", parts)
    schema = json.loads(text)
    schema["properties"]["format"]["enum"] = [it[1]["format"][1] for it in (one, two)]
    schema["required"] = [*one[1]]
    return {path: told(schema), **dict([written("certificate", found["CERTIFICATE"]), events(found)])}
