#!/usr/bin/env python3
"""Prints what the program `full` must print; its output is stored beside this file as `stdout`.

It makes the log of src/main.rt by the same formula, and answers by code of its own: document 01 and
the requests done, with dictionaries and sets, nothing taken from the witness. Run it: python3 expected.py > stdout
"""
import itertools
import struct

LIMIT_BOND = 1_000_000_000_000


# ---- the formula ----

def name(p):
    return bytes(k * 5 + 1 if k < 16 else (p * 7 + k * 3) % 256 if k % 2 == 0 else p // 256 + k for k in range(32))


def ident(i):
    return (i * 7919 + 1) % 65521


HEAVY = [20, 41, 62, 83, 104, 125]
MIDDLE = [10, 31, 52, 73, 94, 115]
LIGHT_BOND = {i: i * 7919 % 1009 + 1 for i in range(129) if i not in HEAVY + MIDDLE}
LIGHT_SUM = sum(b for i, b in LIGHT_BOND.items() if i < 128)
MIDDLE_BOND = dict(zip(MIDDLE, [200_000_000_000 + d for d in (2, 1, 0, 0, 0, -LIGHT_SUM)]))


def bond(i):
    return LIMIT_BOND if i in HEAVY else MIDDLE_BOND[i] if i in MIDDLE else LIGHT_BOND[i]


def parent(p):
    """Blocks of eight: five of the chain, a branch of two from the second, a branch of one from the fourth."""
    block, q = divmod(p - 1, 8)
    if q == 0:
        return 8 * (block - 1) + 5 if block else 0
    return 8 * block + {1: 1, 2: 2, 3: 3, 4: 4, 5: 2, 6: 6, 7: 4}[q]


def link(n):
    """Source and target of link n."""
    block, q = divmod(n, 8)
    base = 8 * block
    if q == 7:
        return (0, base + 5) if block % 16 == 15 else (0, base + 8)
    return [(parent(base + 1), base + 1), (base + 1, base + 2), (base + 1, base + 3), (base + 3, base + 4),
            (base + 3, base + 5), (base + 2, base + 6), (base + 6, base + 7)][q]


CROWDS = ["five heavy", "two thirds", "one below", "four heavy", "light"]


def crowd(n):
    b, q = divmod(n, 8)
    return [
        "one below" if b % 16 == 12 else "five heavy",
        "one below" if b % 2 else "two thirds",
        "five heavy",
        ["two thirds", "four heavy", "five heavy"][b % 3],
        "two thirds" if b % 4 == 3 else "five heavy",
        "light" if b % 4 == 2 else "five heavy",
        {0: "five heavy", 4: "two thirds"}.get(b % 8, "light"),
        "five heavy" if b % 16 == 15 else CROWDS[b % 5],
    ][q]


def light(n, r):
    i = (n * 11 + r * 16) % 128
    return i + 1 if i in HEAVY + MIDDLE else i


def voter(n, r):
    kind = crowd(n)
    heavy = {"five heavy": 5, "two thirds": 4, "one below": 4, "four heavy": 4, "light": 0}[kind]
    if r < heavy:
        return HEAVY[(n + r) % 6]
    if kind == "two thirds":
        return MIDDLE[[0, 2, 3, 4][r - 4]]
    if kind == "one below":
        return MIDDLE[[1, 2, 3, 4][r - 4]]
    return light(n, r)


def make_log():
    depth = {0: 0}
    log = b"FFW" + struct.pack(">H", 1) + name(0)
    for i in range(129):
        log += struct.pack(">BHQ", 1, ident(i), bond(i))
    for p in range(1, 513):
        depth[p] = depth[parent(p)] + 1
        log += b"\x02" + name(p) + name(parent(p))
    for k in range(4097):
        n, r = k * 37 % 512, k // 512
        s, t = link(n)
        if r >= 5 + n % 4 and voter(n, r) in LIGHT_BOND:
            s = 0
        log += struct.pack(">BH", 3, ident(voter(n, r))) + name(s) + name(t) + struct.pack(">II", depth[s], depth[t])
    return log


# ---- document 01 ----

class Book:
    def __init__(self, root):
        self.members = {}                 # id to bond
        self.names = {root: 0}            # name to place
        self.parents = [None]
        self.heights = [0]
        self.votes = []                   # (id, source, target)
        self.held = set()

    def ancestors(self, p):
        while self.parents[p] is not None:
            p = self.parents[p]
            yield p

    def member(self, number, stake):
        if self.votes or len(self.parents) > 1:
            return 10
        if not 1 <= stake <= LIMIT_BOND:
            return 11
        if number in self.members:
            return 12
        if len(self.members) == 128:
            return 13
        self.members[number] = stake

    def checkpoint(self, own, above):
        if own in self.names:
            return 20
        if above not in self.names:
            return 21
        if len(self.names) == 512:
            return 22
        self.names[own] = len(self.parents)
        self.parents.append(self.names[above])
        self.heights.append(self.heights[self.names[above]] + 1)

    def vote(self, number, source, target, low, high):
        if number not in self.members:
            return 30
        if source not in self.names:
            return 31
        if target not in self.names:
            return 32
        s, t = self.names[source], self.names[target]
        if (self.heights[s], self.heights[t]) != (low, high):
            return 33
        if s not in self.ancestors(t):
            return 34
        if (number, s, t) in self.held:
            return 35
        if len(self.votes) == 4096:
            return 36
        self.held.add((number, s, t))
        self.votes.append((number, s, t))

    def read(self, log):
        """Every record; the refusals by record number."""
        refused, at = {}, 37
        for record in itertools.count():
            if at == len(log):
                return refused
            kind = log[at]
            if kind == 1:
                why = self.member(*struct.unpack_from(">HQ", log, at + 1))
            elif kind == 2:
                why = self.checkpoint(*struct.unpack_from(">32s32s", log, at + 1))
            else:
                assert kind == 3
                why = self.vote(*struct.unpack_from(">H32s32sII", log, at + 1))
            if why:
                refused[record] = why
            at += {1: 11, 2: 65, 3: 75}[kind]

    def answer(self):
        self.behind = {}
        for number, s, t in self.votes:
            self.behind.setdefault((s, t), set()).add(number)
        self.total = sum(self.members.values())
        self.strong = {l for l in self.behind if self.support(*l)[2]}
        self.justified = {0}
        grown = True
        while grown:                      # to the fixed point: no order of places is relied on
            new = {t for s, t in self.strong if s in self.justified} - self.justified
            self.justified |= new
            grown = bool(new)
        self.final = {0} | {s for s, t in self.strong if s in self.justified and self.parents[t] == s}

    def support(self, s, t):
        crowd_behind = self.behind.get((s, t), set())
        weight = sum(self.members[m] for m in crowd_behind)
        return len(crowd_behind), weight, self.total > 0 and 3 * weight >= 2 * self.total

    def conflict(self):
        above = {p: set(self.ancestors(p)) for p in self.final}
        return any(a not in above[b] and b not in above[a] for a, b in itertools.combinations(self.final, 2))

    def charges(self):
        for number in sorted(self.members):
            own = [(k, self.heights[s], self.heights[t]) for k, (m, s, t) in enumerate(self.votes) if m == number]
            for (j, s1, t1), (k, s2, t2) in itertools.combinations(own, 2):
                if t1 == t2 or s1 < s2 < t2 < t1 or s2 < s1 < t1 < t2:
                    yield number, j, k
                    break


# ---- what is printed ----

def counts(book):
    return f"members {len(book.members)} checkpoints {len(book.parents)} votes {len(book.votes)}"


def yes(b):
    return "yes" if b else "no"


def standing(book):
    print(counts(book))
    letters = "".join("f" if p in book.final else "j" if p in book.justified else "p" for p in range(512))
    for row in range(0, 512, 64):
        print(letters[row:row + 64])
    print("conflict", yes(book.conflict()))
    return letters


def read(log):
    """The book of a log, and its refusals by record number."""
    book = Book(log[5:37])
    refused = book.read(log)
    book.answer()
    return book, refused


def main():
    log = make_log()
    extra_member, extra_checkpoint, first_vote = 37 + 128 * 11, 37 + 129 * 11 + 511 * 65, 37 + 129 * 11 + 512 * 65
    early, extra_vote = first_vote + 3072 * 75, first_vote + 4096 * 75

    few, refused = read(log[:extra_member])
    assert not refused
    book, refused = read(log)
    assert refused == {128: 13, 640: 22, 4737: 36}, refused
    print(counts(few))
    print(f"at {extra_member}: refused", refused[128])
    print("conflict", yes(few.conflict()))
    before = standing(read(log[:early])[0])
    after = standing(book)
    print(f"at {extra_checkpoint}: refused", refused[640])
    print(f"at {extra_vote}: refused", refused[4737])
    print("refused 41")
    links = [link(j * 5 % 512) for j in range(128)]
    pairs = [p for j in range(24) for p in ((0, j * 21 + 1), (j * 67 % 512, (j * 131 + 3) % 512))]
    for s, t in links + pairs:
        number, weight, strong = book.support(s, t)
        print(f"{s} {t}: {number} {weight} {yes(strong)}")
    print("512 0: refused 41")
    print("0 512: refused 41")
    named = 0
    for number, j, k in book.charges():
        print("charged", number, j, k)
        named += book.members[number]
    print("named", named)

    # What makes the log worth reading: every standing in number, early and late, and sums at the bar and one below it.
    assert all(after.count(c) > 100 for c in "pjf") and all(before.count(c) > 20 for c in "pjf")
    weights = {book.support(*l)[1] for l in book.behind}
    assert any(3 * x == 2 * book.total for x in weights) and any(3 * (x + 1) == 2 * book.total for x in weights)


main()
