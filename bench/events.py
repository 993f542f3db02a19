#!/usr/bin/env python3
"""Makes events for examples/riser and prints them: bench/events.py KIND COUNT, where KIND is rounds or crowd."""

import json
import sys

# From 8 to 17, a GetTID request.
PACKET = "011108cb01800002"


def put():
    return {"do": "put", "node": "host", "bytes": PACKET}


def move(flight):
    return {"do": "move", "flight": flight, "keep": False}


def rounds(count):
    """Each event with its outcome: over and over a request goes to `nic`, which answers, and the answer is lost."""
    made = []
    request = 1
    while len(made) < count:
        answer = request + 1
        made += [
            (put(), f"put {request} at host"),
            (move(request), f"moved {request} to riser hops 1"),
            (move(request), f"moved {request} to nic hops 2"),
            (move(request), f"whole {request} at nic bytes 01800002"),
            ({"do": "answer", "node": "nic"}, f"answered nic flights {answer} to {answer}"),
            ({"do": "lose", "flight": answer}, f"lost {answer}"),
        ]
        request += 2
    return made[:count]


def crowd(count):
    """Each event with its outcome: half of the events put a packet in, the others move each of these once."""
    flights = range(1, count // 2 + 1)
    return [(put(), f"put {flight} at host") for flight in flights] + [
        (move(flight), f"moved {flight} to riser hops 1") for flight in flights
    ]


KINDS = {"rounds": rounds, "crowd": crowd}


def text_of(events):
    """The events as compact JSON."""
    return json.dumps({"format": 1, "events": events}, separators=(",", ":"))


def main(words):
    if len(words) != 2 or words[0] not in KINDS or not words[1].isdecimal():
        print("usage: events.py rounds|crowd COUNT", file=sys.stderr)
        return 2
    print(text_of([event for event, _ in KINDS[words[0]](int(words[1]))]))
    return 0


if __name__ == "__main__":
    sys.exit(main(sys.argv[1:]))
