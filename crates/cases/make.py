#!/usr/bin/env python3
# Makes the logs that this test program reads: data/ and the list of their names, args.
#
#   make.py             writes data/ and args
#   make.py PRINTER     writes stdout too: under each log's name, what PRINTER prints of that log
#
# PRINTER takes a log on standard input and prints its report, or, with the word `paper`, its board paper. It must share
# no code with the program under test; the one that made stdout is differential/print.rs. Each run writes the same
# bytes.
#
# A log's name says what is in it. Of "paper" logs the board paper is printed, of all others the report. "row" logs show
# a row of the table of refusals, "first" logs a record to which several rows apply, "cut" logs a last record that is
# cut by the end, "bundle" logs what becomes of the votes of bundles, "quorum" logs what a quorum that was given does.
import shutil
import subprocess
import sys
from collections import namedtuple
from pathlib import Path

HERE = Path(__file__).resolve().parent
DATA = HERE / "data"

MAX_BOND = 1_000_000_000_000
MAX_MEMBERS = 128
MAX_CHECKPOINTS = 512

# A checkpoint as a vote tells it: its name and its height.
Spot = namedtuple("Spot", "name height")


# ---- The header and the records.


def integer(n, size):
    return n.to_bytes(size, "big")


def header(mark=b"FFW", version=1, root=None):
    return mark + integer(version, 2) + (root or ROOT).name


def member(number, bond=1):
    return b"\x01" + integer(number, 2) + integer(bond, 8)


def checkpoint(spot, parent):
    return b"\x02" + spot.name + parent.name


def link(source, target):
    return source.name + target.name + integer(source.height, 4) + integer(target.height, 4)


def vote(number, source, target):
    return b"\x03" + integer(number, 2) + link(source, target)


# p of q parts of all bonds.
def quorum(p, q):
    return b"\x04" + integer(p, 2) + integer(q, 2)


# A bundle of the members at these places. The bit of place p is bit p mod 8 of byte p div 8, the lowest bit being 0.
def bundle(places, source, target):
    bits = bytearray(16)
    for place in places:
        bits[place // 8] |= 1 << place % 8
    return b"\x05" + bits + link(source, target)


# ---- What most logs are put together from.


def named(text):
    return text.encode().ljust(32, b".")


def child(parent, text):
    return Spot(named(text), parent.height + 1)


def at_height(spot, height):
    return Spot(spot.name, height)


ROOT = Spot(named("root"), 0)
A = child(ROOT, "A")
B = child(ROOT, "B")
C = child(A, "C")
D = child(B, "D")
E = child(C, "E")
F = child(D, "F")
G = child(E, "G")
H = child(F, "H")
X = child(ROOT, "X")
Y = child(X, "Y")

# Two branches of four: A, C, E, G and B, D, F, H. X and Y are never given.
PARENTS = {A: ROOT, B: ROOT, C: A, D: B, E: C, F: D, G: E, H: F}
TREE = b"".join(checkpoint(spot, parent) for spot, parent in PARENTS.items())


# Members 1, 2, 3 and so on, one for each bond.
def members(*bonds):
    return b"".join(member(i + 1, bond) for i, bond in enumerate(bonds))


# A vote of each member for one link.
def votes(numbers, source, target):
    return b"".join(vote(number, source, target) for number in numbers)


# A log: a right header, and then the records.
def log(*records):
    return header() + b"".join(records)


THREE = members(1, 1, 1)
SMALL = THREE + TREE
FULL = members(*[1] * MAX_MEMBERS)


# A chain of checkpoints from the root down, the root among them.
def chain(length):
    spots = [ROOT]
    while len(spots) < length:
        spots.append(child(spots[-1], f"chain {len(spots)}"))
    return spots


def chain_records(spots):
    return b"".join(checkpoint(spot, parent) for parent, spot in zip(spots, spots[1:]))


# ---- The header: rows 1 to 3.


def header_logs():
    return {
        "header-alone": header(),
        "header-alone-root-of-zeros": header(root=Spot(bytes(32), 0)),
        "row-01-empty": b"",
        "row-01-one-byte": b"F",
        "row-01-36-bytes": header()[:36],
        "row-02-first-letter": header(mark=b"GFW"),
        "row-02-second-letter": header(mark=b"FGW"),
        "row-02-third-letter": header(mark=b"FFX"),
        "row-02-mark-of-a-list": header(mark=b"FFP"),
        "row-02-records-after": header(mark=b"ffw") + SMALL,
        "row-03-version-0": header(version=0),
        "row-03-version-2": header(version=2),
        "row-03-version-256": header(version=256),
        "row-03-version-257": header(version=257),
        "row-03-records-after": header(version=2) + SMALL,
        "first-01-before-02-and-03": header(mark=b"FFX", version=2)[:36],
        "first-02-before-03": header(mark=b"FFX", version=2),
    }


# ---- Logs that are stopped: rows 4 and 5.


def unknown_kind(kind):
    return log(member(1), bytes([kind]) + bytes(80))


def stop_logs():
    refusals = member(1, 0) + member(1) + member(1) + checkpoint(A, X) + vote(1, ROOT, A)
    return {
        "row-04-kind-0": unknown_kind(0),
        "row-04-kind-6": unknown_kind(6),
        "row-04-kind-255": unknown_kind(255),
        "row-04-kind-of-the-digit-1": unknown_kind(ord("1")),
        "row-04-first-record": log(b"\x09"),
        "row-04-last-byte": log(SMALL, b"\x09"),
        "row-04-after-refusals": log(refusals, b"\x09", TREE),
        "row-04-right-records-after": log(member(1), b"\x09", member(2), TREE),
        "row-05-after-refusals": log(refusals, member(2)[:10]),
        "row-05-would-be-refused-whole": log(member(1), member(1, 0)[:10]),
        "row-05-a-member-in-length": log(SMALL, vote(1, ROOT, A)[:11]),
        "row-05-a-checkpoint-in-length": log(SMALL, vote(1, ROOT, A)[:65]),
        "row-05-a-vote-in-length": log(SMALL, bundle([0], ROOT, A)[:75]),
        "row-05-a-quorum-in-length": log(member(1)[:5]),
    }


# A last record of which only the first bytes are there, after records of every kind.
def cut(record, length):
    return log(SMALL, vote(1, ROOT, A), record[:length])


def cut_lengths(record):
    return [1, len(record) // 2, len(record) - 1]


# Each kind cut at three lengths. Every length of a vote, of a bundle and of a quorum, right after the header.
def cut_logs():
    records = {
        "member": member(4),
        "checkpoint": checkpoint(X, ROOT),
        "vote": vote(2, ROOT, A),
        "bundle": bundle([1, 2], ROOT, A),
        "quorum": quorum(3, 4),
    }
    logs = {}
    for kind, record in records.items():
        for length in cut_lengths(record):
            logs[f"cut-{kind}-{length:02}"] = cut(record, length)
    whole = {"vote": vote(1, ROOT, A), "bundle": bundle([0], ROOT, A), "quorum": quorum(3, 4)}
    for kind, record in whole.items():
        for length in range(1, len(record)):
            logs[f"cuts/{kind}-{length:02}"] = log(record[:length])
    return logs


# ---- Members: rows 10 to 13.


def row_10_logs():
    return {
        "row-10-after-a-checkpoint": log(member(1), checkpoint(A, ROOT), member(2)),
        "row-10-after-a-vote": log(member(1), checkpoint(A, ROOT), vote(1, ROOT, A), member(2)),
        "row-10-every-member": log(checkpoint(A, ROOT), THREE),
        "row-10-not-after-refused-records": log(
            member(1), checkpoint(ROOT, ROOT), checkpoint(A, X), vote(1, ROOT, ROOT), member(2)
        ),
        "row-10-not-after-refused-bundles": log(
            member(1), bundle([0], ROOT, ROOT), bundle([1], ROOT, ROOT), bundle([], ROOT, ROOT), member(2)
        ),
    }


def row_11_logs():
    return {
        "row-11-bond-0": log(member(1, 0), member(2)),
        "row-11-the-limit-is-taken": log(member(1, MAX_BOND)),
        "row-11-one-above-the-limit": log(member(1, MAX_BOND + 1)),
        "row-11-far-above": log(member(1, 2**40), member(2, 2**63), member(3, 2**64 - 1)),
        "row-11-low-half-zero-is-taken": log(member(1, 2**32)),
        "row-11-id-stays-free": log(member(7, 0), member(7, 5)),
    }


def row_12_logs():
    return {
        "row-12-id-twice": log(member(7, 1), member(7, 2)),
        "row-12-least-and-greatest-id": log(member(0), member(65535), member(0), member(65535)),
        "row-12-bytes-swapped-is-another": log(member(0x0102), member(0x0201), member(0x0102)),
    }


# 128 members, and one more.
def row_13_logs():
    return {
        "limit-128-members": log(FULL),
        "row-13-a-129th-member": log(FULL, member(129)),
        "first-11-and-12-before-13": log(FULL, member(129, 0), member(5, 0), member(5), member(129)),
    }


def member_order_logs():
    full = FULL + checkpoint(A, ROOT)
    return {
        "first-10-before-11": log(member(1), checkpoint(A, ROOT), member(2, 0)),
        "first-10-before-12": log(member(1), checkpoint(A, ROOT), member(1)),
        "first-10-before-13": log(full, member(129), member(1), member(129, 0)),
        "first-11-before-12": log(member(1), member(1, 0), member(1, MAX_BOND + 1)),
    }


def falling_logs():
    ids = [65535, 256, 255, 128, 3, 1, 0]
    falling = b"".join(member(number, number + 1) for number in ids)
    return {
        "members-given-in-falling-order": log(falling),
        "members-falling-and-broken": log(
            member(9, 5), member(7, 3), member(8, 2), TREE, votes([9, 7, 8], ROOT, A), votes([9, 7], ROOT, B)
        ),
    }


# ---- Checkpoints: rows 20 to 22.


def row_20_logs():
    return {
        "row-20-the-root-again": log(checkpoint(ROOT, ROOT)),
        "row-20-a-held-name": log(checkpoint(A, ROOT), checkpoint(A, ROOT)),
        "row-20-a-held-name-elsewhere": log(checkpoint(A, ROOT), checkpoint(C, A), checkpoint(A, C)),
    }


def row_21_logs():
    return {
        "row-21-parent-never-given": log(checkpoint(A, X)),
        "row-21-parent-is-itself": log(checkpoint(A, A)),
        "row-21-parent-comes-later": log(checkpoint(C, A), checkpoint(A, ROOT), checkpoint(C, A)),
        "row-21-parent-was-refused": log(checkpoint(Y, X), checkpoint(C, Y)),
    }


# 512 checkpoints with the root: as a chain; and all under the root, with one more and those that row 20 or 21 turns back.
def row_22_logs():
    star = b"".join(checkpoint(child(ROOT, f"leaf {i}"), ROOT) for i in range(1, MAX_CHECKPOINTS))
    leaf = child(ROOT, "leaf 511")
    refused = [checkpoint(X, ROOT), checkpoint(leaf, ROOT), checkpoint(leaf, X), checkpoint(Y, X), checkpoint(X, leaf)]
    return {
        "limit-512-checkpoints": log(chain_records(chain(MAX_CHECKPOINTS))),
        "row-22-a-513th-checkpoint-after-20-and-21": log(star, *refused),
    }


def checkpoint_order_logs():
    return {"first-20-before-21": log(checkpoint(ROOT, X), checkpoint(A, ROOT), checkpoint(A, X))}


# A name that differs from a given one in one byte only.
def other_byte(name, at):
    return name[:at] + bytes([name[at] ^ 1]) + name[at + 1 :]


def alike(at):
    return Spot(other_byte(A.name, at), 1)


# Names that begin alike for 30 and 31 bytes, and names that end alike.
def alike_logs():
    return {
        "names-alike-in-30-bytes": log(checkpoint(A, ROOT), checkpoint(alike(30), A), checkpoint(alike(30), ROOT)),
        "names-alike-in-31-bytes": log(checkpoint(A, ROOT), checkpoint(alike(31), A), checkpoint(alike(31), ROOT)),
        "names-alike-but-the-first-byte": log(checkpoint(A, ROOT), checkpoint(alike(0), A), checkpoint(alike(0), ROOT)),
        "names-alike-each-byte": log(checkpoint(A, ROOT), *[checkpoint(alike(at), A) for at in range(32)]),
        "names-alike-unknown-parent": log(checkpoint(A, ROOT), checkpoint(C, alike(31)), checkpoint(D, alike(30))),
        "names-alike-unknown-in-a-vote": log(SMALL, vote(1, alike(31), C), vote(1, ROOT, alike(31))),
        "name-like-the-root-but-the-last-byte": log(checkpoint(Spot(other_byte(ROOT.name, 31), 1), ROOT)),
    }


# ---- Votes: rows 30 to 36.


def row_30_to_32_logs():
    return {
        "row-30-member-not-held": log(SMALL, vote(9, ROOT, A)),
        "row-30-no-members": log(TREE, vote(0, ROOT, A)),
        "row-30-bytes-swapped": log(SMALL, vote(0x0100, ROOT, A)),
        "row-30-member-was-refused": log(member(1), member(2, 0), TREE, vote(2, ROOT, A)),
        "row-31-source-not-held": log(SMALL, vote(1, X, C)),
        "row-31-source-comes-later": log(THREE, vote(1, A, C), TREE, vote(1, A, C)),
        "row-32-target-not-held": log(SMALL, vote(1, ROOT, X)),
        "row-32-target-was-refused": log(THREE, checkpoint(Y, X), vote(1, ROOT, Y)),
    }


def row_33_logs():
    return {
        "row-33-source-height": log(SMALL, vote(1, at_height(ROOT, 1), A), vote(1, at_height(A, 0), C)),
        "row-33-target-height": log(SMALL, vote(1, ROOT, at_height(A, 0)), vote(1, ROOT, at_height(A, 2))),
        "row-33-both-heights": log(SMALL, vote(1, at_height(ROOT, 1), at_height(A, 2))),
        "row-33-low-bytes-alike": log(
            SMALL,
            vote(1, at_height(ROOT, 2**8), A),
            vote(1, at_height(ROOT, 2**16), A),
            vote(1, at_height(ROOT, 2**24), A),
            vote(1, ROOT, at_height(A, 2**8 + 1)),
            vote(1, ROOT, at_height(A, 2**16 + 1)),
            vote(1, ROOT, at_height(A, 2**24 + 1)),
        ),
    }


def row_34_logs():
    return {
        "row-34-root-to-root": log(SMALL, vote(1, ROOT, ROOT)),
        "row-34-to-itself": log(SMALL, vote(1, C, C)),
        "row-34-child-to-parent": log(SMALL, vote(1, A, ROOT), vote(1, C, A)),
        "row-34-across-branches": log(SMALL, vote(1, A, D), vote(1, B, C), vote(1, A, H)),
        "row-34-between-siblings": log(SMALL, vote(1, A, B)),
    }


def row_35_logs():
    return {
        "row-35-a-vote-twice": log(SMALL, vote(1, ROOT, A), vote(1, ROOT, A)),
        "row-35-not-counted-twice": log(SMALL, vote(1, ROOT, A), vote(1, ROOT, A), vote(1, ROOT, A)),
        "row-35-another-member-is-taken": log(SMALL, vote(1, ROOT, A), vote(2, ROOT, A), vote(1, ROOT, A)),
        "row-35-not-after-a-refused-one": log(THREE, vote(1, ROOT, A), TREE, votes([1, 2], ROOT, A)),
    }


# 4,096 votes: 128 members go 31 steps down a chain, and two thirds less one of them a step further. The last vote taken,
# 4,095, stands in a pair. Of the two turned back by row 36, one would reach two thirds and one would stand in a pair.
def row_36_logs():
    spots = chain(35)
    everyone = range(1, MAX_MEMBERS + 1)
    steps = [votes(everyone, spots[i], spots[i + 1]) for i in range(31)]
    rest = [votes(range(1, 86), spots[31], spots[32]), votes(range(1, 43), spots[32], spots[33])]
    last = vote(MAX_MEMBERS, ROOT, spots[34])
    refused = [
        vote(86, spots[31], spots[32]),
        vote(1, ROOT, spots[34]),
        vote(1, ROOT, spots[1]),
        vote(1, spots[1], ROOT),
        vote(1, ROOT, at_height(spots[33], 0)),
        vote(1, ROOT, X),
        vote(1, X, ROOT),
        vote(129, ROOT, spots[33]),
        member(129),
    ]
    records = [FULL, chain_records(spots), *steps, *rest, last, *refused]
    return {"row-36-a-4097th-vote-after-30-to-35": log(*records)}


def vote_order_logs():
    wrong = at_height(ROOT, 7)
    return {
        "first-30-before-31": log(SMALL, vote(9, X, A)),
        "first-30-before-32": log(SMALL, vote(9, ROOT, X)),
        "first-30-before-33-and-34": log(SMALL, vote(9, wrong, A), vote(9, ROOT, ROOT)),
        "first-31-before-32": log(SMALL, vote(1, X, Y)),
        "first-31-before-33": log(SMALL, vote(1, X, at_height(A, 7))),
        "first-32-before-33": log(SMALL, vote(1, wrong, X)),
        "first-33-before-34": log(SMALL, vote(1, wrong, ROOT), vote(1, A, at_height(B, 2))),
        "first-33-before-35": log(SMALL, vote(1, ROOT, A), vote(1, wrong, A)),
    }


# ---- Bundles: rows 61 and 62, then those of each vote.


# Members 1 to 128 have the places 0 to 127, and members 1, 2, 3 of SMALL the places 0, 1, 2.
EVERYONE = range(MAX_MEMBERS)
ALL_THREE = [0, 1, 2]


def row_61_logs():
    return {
        "row-61-the-first-bit-past-the-members": log(SMALL, bundle([3], ROOT, A)),
        "row-61-the-last-bit": log(SMALL, bundle([127], ROOT, A)),
        "row-61-beside-bits-of-members": log(SMALL, bundle([0, 1, 2, 3], ROOT, A), bundle([0, 127], ROOT, A)),
        "row-61-every-bit-of-127-members": log(members(*[1] * 127), TREE, bundle(EVERYONE, ROOT, A)),
        "row-61-no-members": log(TREE, bundle([0], ROOT, A), bundle(EVERYONE, ROOT, A)),
        "row-61-before-the-members-came": log(bundle([0], ROOT, A), SMALL, bundle([0], ROOT, A)),
        "row-61-member-was-refused": log(member(1), member(2, 0), TREE, bundle([1], ROOT, A)),
        "row-61-a-place-is-no-id": log(member(7), member(8), TREE, bundle([7], ROOT, A)),
    }


def row_62_logs():
    return {
        "row-62-no-bit": log(SMALL, bundle([], ROOT, A)),
        "row-62-no-members": log(TREE, bundle([], ROOT, A)),
        "row-62-reading-goes-on": log(SMALL, bundle([], ROOT, A), vote(1, ROOT, A), bundle([0], ROOT, A)),
    }


# Two bundles of one member for siblings, so that its line in the report is `broken`.
def twice(places):
    return bundle(places, ROOT, A) + bundle(places, ROOT, B)


# Places go by the order of acceptance. Here it is 9, 7, 8.
NINE_SEVEN_EIGHT = member(9, 5) + member(7, 3) + member(8, 2) + TREE


def bundle_bit_logs():
    return {
        "bundle-bit-0-alone": log(SMALL, twice([0])),
        "bundle-bit-7-alone": log(members(*[1] * 9), TREE, twice([7])),
        "bundle-bit-8-alone": log(members(*[1] * 9), TREE, twice([8])),
        "bundle-bit-127-alone": log(FULL, TREE, twice([127])),
        "bundle-of-all-128-members": log(FULL, TREE, bundle(EVERYONE, ROOT, A)),
        "bundle-bits-where-ids-fall": log(NINE_SEVEN_EIGHT, twice([0]), bundle([1], ROOT, A)),
        "bundle-places-skip-refused-members": log(member(5), member(5), member(6, 0), member(4), TREE, twice([1])),
    }


# Rows 31 to 34 meet every vote of a bundle, each with a line.
def bundle_link_logs():
    both = [0, 2]
    return {
        "bundle-row-31-source-not-held": log(SMALL, bundle(ALL_THREE, X, C)),
        "bundle-row-31-source-comes-later": log(THREE, bundle(both, A, C), TREE, bundle(both, A, C)),
        "bundle-row-32-target-not-held": log(SMALL, bundle(ALL_THREE, ROOT, X)),
        "bundle-row-33-source-height": log(SMALL, bundle(both, at_height(ROOT, 1), A)),
        "bundle-row-33-target-height": log(SMALL, bundle(both, ROOT, at_height(A, 2))),
        "bundle-row-33-low-bytes-alike": log(
            SMALL, bundle(both, at_height(ROOT, 2**24), A), bundle(both, ROOT, at_height(A, 2**8 + 1))
        ),
        "bundle-row-34-root-to-root": log(SMALL, bundle(both, ROOT, ROOT)),
        "bundle-row-34-child-to-parent": log(SMALL, bundle(both, A, ROOT)),
        "bundle-row-34-across-branches": log(SMALL, bundle(both, A, D)),
    }


def bundle_held_logs():
    return {
        "bundle-row-35-repeated": log(SMALL, bundle(ALL_THREE, ROOT, A), bundle(ALL_THREE, ROOT, A)),
        "bundle-row-35-one-vote-held": log(SMALL, vote(2, ROOT, A), bundle(ALL_THREE, ROOT, A)),
        "bundle-row-35-partly-held-by-another": log(SMALL, bundle([0, 1], ROOT, A), bundle([1, 2], ROOT, A)),
        "bundle-row-35-of-a-single-vote-after-it": log(SMALL, bundle([0, 1], ROOT, A), votes([2, 3], ROOT, A)),
        "bundle-row-35-not-of-another-link": log(SMALL, bundle(ALL_THREE, ROOT, A), bundle(ALL_THREE, A, C)),
    }


# 31 bundles of 128 votes and one of 64; then one that finds room for its first 64 votes, and meets row 36 after them.
# Where it comes again the first 64 are held. Further votes meet the rows before 36 first.
def bundle_36_logs():
    spots = chain(35)
    filling = [bundle(EVERYONE, spots[i], spots[i + 1]) for i in range(31)]
    half = bundle(range(64, MAX_MEMBERS), spots[31], spots[32])
    crossing = bundle(EVERYONE, spots[32], spots[33])
    after = [
        bundle([63, 64, 65], spots[32], spots[33]),
        bundle([0, 127], spots[31], spots[32]),
        bundle([0, 1], spots[0], spots[1]),
        bundle([0, 1], spots[1], spots[0]),
        bundle([0, 1], X, spots[0]),
        vote(128, spots[32], spots[33]),
        vote(1, spots[32], spots[33]),
    ]
    records = [FULL, chain_records(spots), *filling, half, crossing, crossing, *after]
    return {"bundle-row-36-inside-after-64-votes-taken": log(*records)}


# 127 members fill the votes. The last of 33 bundles finds room for 32 of its votes.
def bundle_full_order_logs():
    spots = chain(34)
    few = range(127)
    filling = [bundle(few, spots[i], spots[i + 1]) for i in range(33)]
    late = [bundle([0, 127], ROOT, spots[33]), bundle([], ROOT, spots[33]), bundle([0], ROOT, spots[33])]
    return {
        "first-61-and-62-before-36": log(members(*[1] * 127), chain_records(spots), *filling, *late),
    }


def bundle_order_logs():
    wrong = at_height(ROOT, 7)
    return {
        "first-05-before-61": log(SMALL, bundle([3], ROOT, A)[:88]),
        "first-05-before-62": log(SMALL, bundle([], ROOT, A)[:88]),
        "first-61-before-31": log(SMALL, bundle([0, 3], X, A)),
        "first-61-before-32": log(SMALL, bundle([0, 3], ROOT, X)),
        "first-61-before-33-and-34": log(SMALL, bundle([0, 3], wrong, A), bundle([0, 3], ROOT, ROOT)),
        "first-61-before-35": log(SMALL, bundle([0], ROOT, A), bundle([0, 3], ROOT, A)),
        "first-62-before-31": log(SMALL, bundle([], X, A)),
        "first-62-before-32": log(SMALL, bundle([], ROOT, X)),
        "first-62-before-33-and-34": log(SMALL, bundle([], wrong, A), bundle([], ROOT, ROOT)),
    }


def bundle_vote_order_logs():
    wrong = at_height(ROOT, 7)
    both = [0, 2]
    return {
        "first-31-before-32-in-a-bundle": log(SMALL, bundle(both, X, Y)),
        "first-31-before-33-in-a-bundle": log(SMALL, bundle(both, X, at_height(A, 7))),
        "first-32-before-33-in-a-bundle": log(SMALL, bundle(both, wrong, X)),
        "first-33-before-34-in-a-bundle": log(SMALL, bundle(both, wrong, ROOT), bundle(both, A, at_height(B, 2))),
        "first-33-before-35-in-a-bundle": log(SMALL, bundle(both, ROOT, A), bundle(both, wrong, A)),
    }


# A bundle is one record in the numbering, whatever becomes of its votes.
def bundle_number_logs():
    return {
        "bundle-taken-is-one-record": log(SMALL, bundle(ALL_THREE, ROOT, A), member(4)),
        "bundle-refused-is-one-record": log(SMALL, bundle(ALL_THREE, X, A), bundle([5], X, A), vote(9, ROOT, A)),
        "bundle-as-the-last-record": log(SMALL, vote(9, ROOT, A), bundle([0, 1], ROOT, A)),
        "bundle-before-an-unknown-kind": log(SMALL, bundle([0, 1], X, A), b"\x09"),
    }


# Votes of bundles justify and finalize, and stand behind a link with single votes.
def bundle_standing_logs():
    both = [0, 1]
    return {
        "bundle-of-one-of-three": log(SMALL, bundle([2], ROOT, A), bundle([2], ROOT, A)),
        "bundle-justifies": log(SMALL, bundle(both, ROOT, A)),
        "bundle-justifies-with-a-single-vote": log(SMALL, vote(3, ROOT, A), bundle([0], ROOT, A)),
        "bundle-justifies-by-bonds": log(members(1, 1, 10), TREE, bundle(both, ROOT, B), bundle([2], ROOT, A)),
        "bundle-finalizes": log(SMALL, bundle(both, ROOT, A), bundle(both, A, C)),
        "bundle-late-justification": log(SMALL, bundle(both, A, C), bundle(both, ROOT, A)),
        "bundle-not-final-by-a-grandchild": log(SMALL, bundle(both, ROOT, A), bundle(both, A, E)),
    }


# A bundle's votes are numbered in rising place, those refused left out. Members break a rule by two bundles, and by a
# bundle and a single vote.
def bundle_charge_logs():
    return {
        "bundle-double-vote": log(SMALL, bundle([0, 1], ROOT, A), bundle([1, 2], ROOT, B)),
        "bundle-double-vote-with-a-single-vote": log(SMALL, bundle(ALL_THREE, ROOT, A), vote(2, ROOT, B)),
        "bundle-surround-vote-1": log(SMALL, bundle(ALL_THREE, A, C), bundle([0, 2], ROOT, F)),
        "bundle-surround-vote-2": log(SMALL, bundle(ALL_THREE, ROOT, F), bundle([0, 2], A, C)),
        "bundle-vote-numbers-where-ids-fall": log(NINE_SEVEN_EIGHT, twice(ALL_THREE)),
        "bundle-vote-numbers-skip-refused-votes": log(SMALL, vote(2, ROOT, A), twice(ALL_THREE)),
        "bundle-conflict": log(
            SMALL, bundle([0, 1], ROOT, A), bundle([0, 1], A, C), bundle([1, 2], ROOT, D), bundle([1, 2], D, F)
        ),
    }


# ---- Two thirds.


# The members with these bonds, after a rule; the first `number` of them vote root to A.
def first_voters(number, *bonds, rule=b""):
    return log(rule, members(*bonds), TREE, votes(range(1, number + 1), ROOT, A))


def bar_logs():
    third = 333_333_333_333
    return {
        "bar-1-of-3": first_voters(1, 1, 1, 1),
        "bar-2-of-3": first_voters(2, 1, 1, 1),
        "bar-2-of-4": first_voters(2, 1, 1, 1, 1),
        "bar-3-of-4": first_voters(3, 1, 1, 1, 1),
        "bar-66-of-100": first_voters(1, 66, 34),
        "bar-67-of-100": first_voters(1, 67, 33),
        "bar-exactly-two-thirds": first_voters(1, 2 * third, third),
        "bar-one-below-two-thirds": first_voters(1, 2 * third - 1, third + 1),
        "bar-one-member-of-one": first_voters(1, 1),
        "bar-few-members-with-much-bond": first_voters(1, 10, 1, 1, 1, 1, 1),
        "bar-many-members-with-little-bond": first_voters(5, 1, 1, 1, 1, 1, 10),
        "bar-85-of-128-at-the-bond-limit": first_voters(85, *[MAX_BOND] * MAX_MEMBERS),
        "bar-86-of-128-at-the-bond-limit": first_voters(86, *[MAX_BOND] * MAX_MEMBERS),
        "bar-links-are-not-added-up": log(SMALL, votes([2, 3], ROOT, A), vote(1, ROOT, C), vote(2, A, C)),
        "bar-no-members": log(TREE),
    }


# ---- Another quorum: rows 63 and 64, and bars.


def row_63_logs():
    return {
        "row-63-after-a-checkpoint": log(THREE, checkpoint(A, ROOT), quorum(1, 1), votes([1, 2], ROOT, A)),
        "row-63-after-a-vote": log(THREE, checkpoint(A, ROOT), vote(1, ROOT, A), quorum(1, 1), vote(2, ROOT, A)),
        "row-63-not-after-members": log(THREE, quorum(3, 4), TREE, votes([1, 2], ROOT, A)),
        "row-63-not-after-128-members": log(FULL, quorum(1, 1), TREE, votes(range(1, 128), ROOT, A)),
        "row-63-not-after-refused-records": log(
            THREE, checkpoint(ROOT, ROOT), checkpoint(A, X), vote(1, ROOT, ROOT), bundle([0], ROOT, ROOT), quorum(1, 1),
            TREE, votes([1, 2], ROOT, A),
        ),
        "first-63-before-64": log(SMALL, quorum(1, 2), quorum(0, 0), quorum(1001, 1001), votes([1, 2], ROOT, A)),
        "first-63-before-64-given": log(quorum(1, 1), SMALL, quorum(2, 3), votes([1, 2], ROOT, A)),
    }


# Two of three members vote for A; they carry it by two thirds, and not where a larger part was given.
def after_quorum(*pairs):
    return log(*[quorum(p, q) for p, q in pairs], SMALL, votes([1, 2], ROOT, A))


def row_64_logs():
    all_of = (1, 1)
    return {
        "row-64-p-above-q": after_quorum((4, 3)),
        "row-64-p-equal-to-q-is-taken": after_quorum((3, 3)),
        "row-64-q-twice-p": after_quorum((2, 4)),
        "row-64-q-above-twice-p": after_quorum((1, 3)),
        "row-64-q-one-below-twice-p-is-taken": log(quorum(3, 5), members(3, 2), TREE, vote(1, ROOT, A)),
        "row-64-nothing-of-nothing": after_quorum((0, 0)),
        "row-64-q-0": after_quorum((1, 0)),
        "row-64-p-0": after_quorum((0, 1)),
        "row-64-q-1001": after_quorum((1001, 1001)),
        "row-64-q-1000-is-taken": after_quorum((1000, 1000)),
        "row-64-500-of-1000": after_quorum((500, 1000)),
        "row-64-501-of-1000-is-taken": log(quorum(501, 1000), members(1003, 997), TREE, vote(1, ROOT, A)),
        "row-64-greatest-numbers": after_quorum((65535, 65535)),
        "row-64-low-bytes-of-what-is-permitted": after_quorum((0x0103, 0x0503), (0x0103, 0x0704)),
        "row-64-already-given": after_quorum(all_of, (2, 3)),
        "row-64-the-standard-given-counts": after_quorum((2, 3), all_of),
        "row-64-the-same-again": after_quorum(all_of, all_of),
        "row-64-refused-is-not-given": after_quorum((4, 3), all_of),
    }


def quorum_place_logs():
    return {
        "quorum-fixes-no-members": log(member(1), quorum(1, 1), member(2), member(3), TREE, votes([1, 2], ROOT, A)),
        "quorum-alone": log(quorum(3, 4)),
        "quorum-of-no-members": log(quorum(1, 1), TREE),
        "quorum-read-big-endian": log(quorum(256, 257), members(1, 1, 1), TREE, votes([1, 2], ROOT, A)),
    }


def quorum_voters(p, q, number, *bonds):
    return first_voters(number, *bonds, rule=quorum(p, q))


def quorum_bar_logs():
    limit = [MAX_BOND] * MAX_MEMBERS
    return {
        "quorum-three-quarters": quorum_voters(3, 4, 1, 75, 25),
        "quorum-below-three-quarters": quorum_voters(3, 4, 1, 74, 26),
        "quorum-three-quarters-as-six-eighths": quorum_voters(6, 8, 1, 75, 25),
        "quorum-three-fifths": quorum_voters(3, 5, 1, 60, 40),
        "quorum-below-three-fifths": quorum_voters(3, 5, 1, 59, 41),
        "quorum-all": quorum_voters(1, 1, 3, 1, 1, 1),
        "quorum-all-but-one": quorum_voters(1, 1, 2, MAX_BOND, MAX_BOND, 1),
        "quorum-501-of-1000": quorum_voters(501, 1000, 1, 501, 499),
        "quorum-500-of-1000": quorum_voters(501, 1000, 1, 500, 500),
        "quorum-999-of-1000": quorum_voters(999, 1000, 1, 999, 1),
        "quorum-998-of-1000": quorum_voters(999, 1000, 1, 998, 2),
        "quorum-all-128-at-the-bond-limit": quorum_voters(1000, 1000, 128, *limit),
        "quorum-127-of-128-at-the-bond-limit": quorum_voters(1000, 1000, 127, *limit),
        "quorum-65-of-128-at-the-bond-limit": quorum_voters(501, 1000, 65, *limit),
        "quorum-64-of-128-at-the-bond-limit": quorum_voters(501, 1000, 64, *limit),
    }


# Members 1 and 2 carry A and C, 2 and 3 carry B and D: two finals that exclude each other where each pair is a quorum.
def forked(p, q, *bonds):
    return log(
        quorum(p, q), members(*bonds), TREE, votes([1, 2], ROOT, A), votes([1, 2], A, C), votes([2, 3], ROOT, B),
        votes([2, 3], B, D),
    )


# The share that is named where finals conflict is the least there can be: (2p - q) of q parts. And finals by bundles.
def quorum_final_logs():
    everybody = [1, 2, 3]
    return {
        "quorum-conflict-by-three-quarters": forked(3, 4, 1, 2, 1),
        "quorum-no-conflict-by-three-quarters": forked(3, 4, 1, 1, 1),
        "quorum-conflict-by-three-fifths": forked(3, 5, 2, 1, 2),
        "quorum-no-conflict-by-three-fifths": forked(3, 5, 3, 1, 3),
        "quorum-conflict-by-501-of-1000": forked(501, 1000, 499, 2, 499),
        "quorum-no-conflict-by-501-of-1000": forked(501, 1000, 499, 1, 500),
        "quorum-conflict-by-all": log(
            quorum(1, 1), SMALL, votes(everybody, ROOT, A), votes(everybody, A, C), votes(everybody, ROOT, B),
            votes(everybody, B, D),
        ),
        "quorum-final-by-bundles": log(quorum(3, 4), SMALL, bundle([0, 1, 2], ROOT, A), bundle([0, 1, 2], A, C)),
        "quorum-not-final-by-bundles": log(quorum(3, 4), SMALL, bundle([0, 1, 2], ROOT, A), bundle([0, 1], A, C)),
    }


# ---- Justified and final.


def standing_logs():
    both = [1, 2]
    return {
        "root-final-with-no-vote": log(SMALL),
        "root-final-its-child-justified": log(SMALL, votes(both, ROOT, A)),
        "root-final-its-grandchild-justified": log(SMALL, votes(both, ROOT, C)),
        "not-final-by-a-grandchild": log(SMALL, votes(both, ROOT, A), votes(both, A, E)),
        "not-final-by-a-final-descendant": log(SMALL, votes(both, ROOT, A), votes(both, A, E), votes(both, E, G)),
        "final-by-the-first-of-two-children": log(
            THREE, checkpoint(A, ROOT), checkpoint(C, A), checkpoint(D, A), votes(both, ROOT, A), votes(both, A, C)
        ),
        "final-after-a-skip": log(SMALL, votes(both, ROOT, C), votes(both, C, E)),
        "late-justification": log(SMALL, votes(both, A, C), votes(both, ROOT, A)),
        "late-justification-never-comes": log(SMALL, votes(both, A, C), vote(1, ROOT, A)),
        "late-justification-by-the-last-vote": log(SMALL, vote(1, ROOT, A), votes(both, A, C), vote(3, ROOT, A)),
        "late-justification-four-deep": log(
            SMALL, votes(both, E, G), votes(both, C, E), votes(both, A, C), votes(both, ROOT, A)
        ),
        "late-justification-by-a-skip": log(SMALL, votes(both, C, E), votes(both, ROOT, C)),
        "justified-two-ways": log(SMALL, votes(both, ROOT, A), votes(both, A, C), votes([2, 3], ROOT, C)),
        "votes-between-the-checkpoints": log(
            THREE, checkpoint(A, ROOT), votes(both, ROOT, A), checkpoint(C, A), votes(both, A, C), checkpoint(E, C)
        ),
    }


# Two final checkpoints that conflict, or do not.
def conflict_logs():
    one, other = [1, 2], [2, 3]
    left = votes(one, ROOT, A) + votes(one, A, C)
    return {
        "conflict-at-equal-heights": log(SMALL, left, votes(other, ROOT, B), votes(other, B, D)),
        "conflict-at-different-heights": log(SMALL, left, votes(other, ROOT, D), votes(other, D, F)),
        "conflict-by-a-surround-vote": log(SMALL, left, votes(other, ROOT, F), votes(other, F, H)),
        "conflict-low-branch-given-later": log(
            SMALL, votes(one, ROOT, F), votes(one, F, H), votes(other, ROOT, A), votes(other, A, C)
        ),
        "conflict-below-a-common-final": log(
            THREE,
            checkpoint(A, ROOT),
            checkpoint(C, A),
            checkpoint(D, A),
            checkpoint(E, C),
            checkpoint(F, D),
            left,
            votes(one, C, E),
            votes(other, A, D),
            votes(other, D, F),
        ),
        "no-conflict-in-one-line": log(SMALL, left, votes(one, C, E), votes(one, E, G)),
        "no-conflict-of-the-justified": log(SMALL, votes(one, ROOT, A), votes(other, ROOT, B)),
        "no-conflict-with-the-justified": log(SMALL, left, votes(other, ROOT, B)),
    }


# The session of document 01, and the same with its votes in bundles.
def session_logs():
    before = [THREE, *[checkpoint(spot, PARENTS[spot]) for spot in (A, B, C, D)]]
    return {
        "session": log(
            *before,
            votes([1, 2], ROOT, A),
            votes([1, 2], A, C),
            votes([2, 3], ROOT, B),
            votes([2, 3], B, D),
            vote(3, B, D),
        ),
        "session-in-bundles": log(
            *before,
            bundle([0, 1], ROOT, A),
            bundle([0, 1], A, C),
            bundle([1, 2], ROOT, B),
            bundle([1, 2], B, D),
            bundle([2], B, D),
        ),
    }


# ---- Who broke the rules.


# Two votes of member 1 in both orders, each log with votes of others before and between.
def both_orders(name, first, second):
    return {
        f"{name}-1": log(SMALL, vote(2, ROOT, A), vote(1, *first), vote(3, ROOT, A), vote(1, *second)),
        f"{name}-2": log(SMALL, vote(2, ROOT, A), vote(1, *second), vote(3, ROOT, A), vote(1, *first)),
    }


def double_logs():
    return {
        **both_orders("double-vote-for-siblings", (ROOT, A), (ROOT, B)),
        **both_orders("double-vote-for-one-target", (ROOT, C), (A, C)),
        **both_orders("double-vote-across-branches", (A, E), (ROOT, F)),
    }


def surround_logs():
    return {
        **both_orders("surround-vote-in-one-line", (ROOT, E), (A, C)),
        **both_orders("surround-vote-across-branches", (ROOT, F), (A, C)),
        **both_orders("surround-vote-wide", (ROOT, G), (C, E)),
    }


def touching_logs():
    return {
        **both_orders("clear-0-3-with-0-2", (ROOT, E), (ROOT, C)),
        **both_orders("clear-1-3-with-0-2", (A, E), (ROOT, C)),
        **both_orders("clear-0-1-with-1-2", (ROOT, A), (A, C)),
        **both_orders("clear-0-1-with-2-3", (ROOT, A), (C, E)),
        **both_orders("clear-0-3-with-0-2-across-branches", (ROOT, F), (ROOT, C)),
    }


# The pair shown: the smallest earlier vote, then the smallest later one.
def pair_logs():
    return {
        "pair-smallest-later": log(SMALL, vote(1, ROOT, C), vote(1, A, C), vote(1, ROOT, D)),
        "pair-smallest-earlier": log(SMALL, vote(1, A, C), vote(1, ROOT, A), vote(1, ROOT, B), vote(1, ROOT, E)),
        "pair-not-the-first-vote": log(SMALL, vote(1, ROOT, A), vote(1, A, C), vote(1, C, E), vote(1, B, D)),
        "pair-numbers-skip-refused-votes": log(
            SMALL, vote(9, ROOT, A), vote(1, ROOT, A), vote(1, ROOT, ROOT), vote(1, ROOT, A), vote(1, ROOT, B)
        ),
        "pair-of-one-member-only": log(SMALL, vote(1, ROOT, A), vote(2, ROOT, B), vote(3, A, C), vote(1, ROOT, E)),
        "named-bonds-are-added": log(
            members(5, 7, 11, 13), TREE, votes([1, 2, 3], ROOT, A), votes([2, 4], ROOT, B), vote(1, A, C), vote(1, ROOT, F)
        ),
        "named-everyone-at-the-bond-limit": log(
            members(MAX_BOND, MAX_BOND), TREE, votes([1, 2], ROOT, A), votes([1, 2], ROOT, B)
        ),
    }


# ---- A log whose lines do not fit one buffer of the program.


# The programs read a log in pieces of so many bytes.
PIECE = 65_536


# A bundle that ends at an offset, behind many single votes, and then one that repeats a vote of it. Refused members
# fill up what the votes leave.
def bundle_ending_at(end):
    start = log(FULL, TREE)
    singles = [vote(number, parent, spot) for spot, parent in PARENTS.items() for number in range(1, MAX_MEMBERS + 1)]
    ours = bundle([0, 127], F, H)
    room = end - len(start) - len(ours)
    taken = room // len(singles[0])
    while (room - taken * len(singles[0])) % len(member(1)) != 0:
        taken -= 1
    fill = member(1) * ((room - taken * len(singles[0])) // len(member(1)))
    return start + b"".join(singles[:taken]) + fill + ours + bundle([0, 1], F, H)


def long_logs():
    return {
        "refusals-past-one-buffer": log(member(1, 0) * 3_000, SMALL, vote(1, ROOT, A)),
        "refusals-past-one-buffer-in-bundles": log(FULL, bundle(EVERYONE, ROOT, A) * 25, TREE, bundle([0], ROOT, A)),
        "bundle-at-the-end-of-a-piece": bundle_ending_at(PIECE),
        "bundle-cut-by-the-end-of-a-piece": bundle_ending_at(PIECE + 44),
    }


# A tree of so many checkpoints, with the root: three branches, side by side. Links of one to five members lead into a
# checkpoint from its parent, where the first member alone is no quorum, from the parent's parent, and now and then from
# the root, which justifies it anew.
def forest(count):
    bonds = [MAX_BOND // 2, MAX_BOND // 3, MAX_BOND // 4, 40, 7]
    spots = [ROOT]
    records = [members(*bonds)]
    above = {}
    for place in range(1, count):
        parent = max(place - 3, 0)
        above[place] = parent
        spots.append(child(spots[parent], f"place {place}"))
        records.append(checkpoint(spots[place], spots[parent]))
    for place in range(1, count):
        parent = above[place]
        records.append(votes(range(1, 2 + place % 5), spots[parent], spots[place]))
        if parent:
            records.append(votes(range(2, 3 + place % 4), spots[above[parent]], spots[place]))
        if place % 7 == 0 and parent and above[parent]:
            records.append(votes([1, 2], ROOT, spots[place]))
    return log(*records)


def paper_logs():
    return {
        "paper-header-alone": header(),
        "paper-48-checkpoints": forest(48),
        "paper-49-checkpoints": forest(49),
        "paper-512-checkpoints": forest(512),
        "paper-session": session_logs()["session"],
        "paper-session-in-bundles": session_logs()["session-in-bundles"],
        "paper-stopped": log(members(1), checkpoint(child(ROOT, "A"), ROOT), b"\x09"),
        "paper-cut": log(members(1), checkpoint(child(ROOT, "A"), ROOT))[:-1],
        "paper-by-three-quarters": forked(3, 4, 1, 2, 1),
        "paper-plain-by-three-quarters": forked(3, 4, 1, 1, 1),
        "paper-wrong-header": header(mark=b"FFX"),
    }


GROUPS = [
    header_logs,
    stop_logs,
    row_10_logs,
    row_11_logs,
    row_12_logs,
    row_13_logs,
    member_order_logs,
    falling_logs,
    row_20_logs,
    row_21_logs,
    row_22_logs,
    checkpoint_order_logs,
    alike_logs,
    row_30_to_32_logs,
    row_33_logs,
    row_34_logs,
    row_35_logs,
    row_36_logs,
    vote_order_logs,
    row_61_logs,
    row_62_logs,
    bundle_bit_logs,
    bundle_link_logs,
    bundle_held_logs,
    bundle_36_logs,
    bundle_order_logs,
    bundle_vote_order_logs,
    bundle_full_order_logs,
    bundle_number_logs,
    bundle_standing_logs,
    bundle_charge_logs,
    bar_logs,
    row_63_logs,
    row_64_logs,
    quorum_place_logs,
    quorum_bar_logs,
    quorum_final_logs,
    standing_logs,
    conflict_logs,
    session_logs,
    double_logs,
    surround_logs,
    touching_logs,
    pair_logs,
    long_logs,
    cut_logs,
    paper_logs,
]


# All logs by their file's name, in the order of the groups; no name twice.
def all_logs():
    logs = {}
    for group in GROUPS:
        for name, content in group().items():
            assert name not in logs, name
            logs[name] = content
    return {f"{name}.log": content for name, content in logs.items()}


def write_logs(logs):
    shutil.rmtree(DATA, ignore_errors=True)
    for name, content in logs.items():
        path = DATA / name
        path.parent.mkdir(parents=True, exist_ok=True)
        path.write_bytes(content)
    (HERE / "args").write_text("".join(f"{name}\n" for name in logs))


def printed(printer, name, content):
    word = "paper" if name.startswith("paper") else "report"
    return subprocess.run([printer, word], input=content, stdout=subprocess.PIPE, check=True).stdout


def write_printed(printer, logs):
    reports = [f"{name}\n".encode() + printed(printer, name, content) for name, content in logs.items()]
    (HERE / "stdout").write_bytes(b"".join(reports))


def main():
    logs = all_logs()
    write_logs(logs)
    if len(sys.argv) > 1:
        write_printed(sys.argv[1], logs)


if __name__ == "__main__":
    main()
