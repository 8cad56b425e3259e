#!/usr/bin/env python3
"""Prints what the program `lookups` must print; its output is stored beside this file as `stdout`.

Names are looked up in a dictionary. Run it: python3 expected.py > stdout
"""


def name(d, p):
    chosen = [k * 5 + 1 for k in range(32)]
    chosen[d : d + 2] = divmod(p, 256)
    return bytes(chosen)


def changed(n, k):
    return n[:k] + bytes([n[k] ^ 128]) + n[k + 1 :]


def twice(names):
    return "a name stands twice" if len(set(names)) < len(names) else "no name stands twice"


for d in 30, 0, 15:
    names = [name(d, p) for p in range(512)]
    for count in 512, 256:
        places = {n: p for p, n in enumerate(names[:count])}
        for p in range(0, 512, 16):
            print(*(places.get(n, count) for n in names[p : p + 16]), "")
    places = {n: p for p, n in enumerate(names)}
    print(*(places.get(changed(names[300], k), 512) for k in range(32)), "")
    repeated = names[:511] + [names[5]]
    print(twice(names), twice(repeated), twice(repeated[:511]), sep="\n")
    print("511 steps as the log has them")
