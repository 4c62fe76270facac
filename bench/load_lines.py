#!/usr/bin/env python3
"""Prints lines of the load that `vfsh --load` runs, computed apart from the program.

With no argument: 20 lines of each key of KEYS, and of each the lines at the places of FAR, as `KEY K LINE`.
With `table`: the few that the tests of load_gen have, as items of their table.
"""
import sys

KEYS = [0, 1, 2, 3, 7, 42, 1000, 2**31, 2**32 - 1, 2**32, 2**63 - 1, 2**63, 2**64 - 2, 2**64 - 1]
FAR = [999, 1000, 65535, 65536, 10**9, 2**32, 2**63, 2**64 - 2, 2**64 - 1]


def line(key, k):
    if k == 1:
        return "create t a b"
    mixed = (key * 6364136223846793005 + k * 1442695040888963407) % 2**64
    number = mixed // 2**33
    kind = number % 10
    rowid = number // 10 % 5000
    if kind <= 6:
        return f"put t {rowid} i:{k} t:" + "n" * (number % 200)
    if kind <= 8:
        return f"get t {rowid}"
    return f"del t {rowid}"


def places():
    return [(key, k) for key in KEYS for k in [*range(1, 21), *FAR]]


def table():
    """Of each key and kind the first line that is short: under an odd key from the far places inwards."""
    near = list(range(2, 21))
    far = list(reversed(FAR))
    shown = []
    for key in KEYS:
        kinds = set()
        for k in far + near if key % 2 else near + far:
            text = line(key, k)
            kind = text[:3]
            if kind not in kinds and len(text) < 60:
                kinds.add(kind)
                shown.append((key, k, text))
    return shown


if sys.argv[1:] == ["table"]:
    for key, k, text in table():
        print(f'({key}, {k}, "{text}"),')
else:
    for key, k in places():
        print(key, k, line(key, k))
