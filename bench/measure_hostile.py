#!/usr/bin/env python3
"""Times the program on hostile texts of growing length, up to the most bytes that it reads, and prints a table.

Each text is a part over and over. `certify` refuses it, by the code that is given. The last column is how many times as
long the longest text takes as one of an eighth of its bytes.
"""

import pathlib
import tempfile

import measuring

LENGTHS = [2_097_152, 4_194_304, 8_388_608, 16_777_216]
BUSES = b'{"format":1,"buses":[0'
RECORD = (
    b'{"format":1,"buses":[],"nodes":[{"name":"n","kind":"endpoint","eid":8,"owner":null,"pool":null,"ports":[],'
    b'"rows":[],"terminus":{"tid":1,"records":[{"handle":1,"next":0,"bytes":"'
)
# What each text is: how it begins, the part, how it ends, and how it is refused.
TEXTS = [
    ("`[`", b"", b"[", b"", "J01"),
    ("`{\"a\":`", b"", b'{"a":', b"", "J01"),
    ("spaces", b"", b" ", b"", "J01"),
    ("one string", b'"', b"a", b'"', "J02"),
    ("one string of escapes", b'"', b"\\u0061", b'"', "J02"),
    ("one number", b"", b"1", b"", "J0"),
    ("zeros in a list", b"[0", b",0", b"]", "J02"),
    ("objects in a list", b"[{}", b",{}", b"]", "J02"),
    ("one key over and over", b'{"format":1', b',"format":1', b"}", "J0"),
    ("buses that are zeros", BUSES, b",0", b'],"nodes":[]}', "J08"),
    ("hex that is bad at its end", RECORD, b"00", b'0g"}]}}]}', "J07"),
]


def text_of(begin, part, end, length):
    """The part as often as it fits, filled up with spaces."""
    text = begin + part * ((length - len(begin) - len(end)) // len(part)) + end
    return text + b" " * (length - len(text))


def keys_of(length):
    """One object of different keys, of 13 bytes each."""
    keys = b",".join(b'"%07x":0' % number for number in range((length - 1) // 12))
    text = b"{" + keys + b"}"
    return text + b" " * (length - len(text))


def seconds_of(folder, text, refused):
    path = folder / "plan.json"
    path.write_bytes(text)
    command = [measuring.program(), "certify", str(path)]
    return min(measuring.seconds_of(command, refused) for _ in range(5))


def main():
    rows = [(name, lambda length, it=it: text_of(*it[:3], length), it[3]) for name, *it in TEXTS]
    rows.append(("different keys", keys_of, "J04"))
    print("| text | " + " | ".join(f"{it / 1_048_576:.0f} MiB, ms" for it in LENGTHS) + " | 16 to 2 MiB |")
    print("|---" * (len(LENGTHS) + 2) + "|")
    with tempfile.TemporaryDirectory() as folder:
        for name, made, code in rows:
            times = [seconds_of(pathlib.Path(folder), made(it), f"unreadable plan: {code}") for it in LENGTHS]
            shown = " | ".join(f"{it * 1000:.1f}" for it in times)
            print(f"| {name} | {shown} | {times[-1] / times[0]:.1f} |", flush=True)


if __name__ == "__main__":
    main()
