#!/usr/bin/env python3
"""palette.py ORACLE: writes palette and palette.count beside it, from the answers of the program `oracle` (oracle/README.md)."""
import os
import random
import struct
import subprocess
import sys

draw = random.Random(4)
oracle = sys.argv[1]
words, cases, compared = [], 0, 0


def bits(x):
    return struct.unpack(">I", struct.pack(">f", x))[0]


def hexes(numbers):
    return " ".join("%x" % n for n in numbers)


def ask(line):
    answer = subprocess.run([oracle], input=line + "\n", capture_output=True, text=True, check=True).stdout.split()
    assert answer and answer[0][0] != "?", (line, answer)
    return [int(n, 16) for n in answer]


def put(numbers):
    """A case's first words."""
    global cases
    cases += 1
    words.extend(numbers)


def answers(numbers):
    global compared
    compared += len(numbers)
    words.extend(numbers)


def colour(kind):
    """Random components, or those of a coarse grid, where distances tie."""
    if kind == "grid":
        return [bits(draw.choice([0.0, 0.5, 1.0]))] + [bits(draw.choice([-0.5, 0.0, 0.5])) for _ in "ab"]
    return [bits(draw.uniform(0, 1))] + [bits(draw.uniform(-0.5, 0.5)) for _ in "ab"]


def palette(kind, n, have):
    """n subpalettes of `have` colours; of the kind `copies`, copies of few."""
    few = [[colour(kind) for _ in range(have)] for _ in range(max(1, n // 3) if kind == "copies" else n)]
    return [draw.choice(few) for _ in range(n)] if kind == "copies" else few


FIT, TWO, MSE = 1, 2, 3


def job(subs, room, tiles, hints, weight, size=64):
    """Each tile's fit and best two, and the error, from these hints; `room` more subpalettes and colours have room than are present."""
    n, have = len(subs), len(subs[0])
    stride = have + room
    rows = [sub + [colour("grid")] * room for sub in subs] + [[colour("grid")] * stride] * room
    table, first = [], 0
    for tile in tiles:
        table += [first, len(tile)]
        first += len(tile)
    lists = table + [count for tile in tiles for _, count in tile] + [x for tile in tiles for c, _ in tile for x in c]
    lists += [x for row in rows for c in row for x in c] + hints
    shown = hexes([n, have] + [x for sub in subs for c in sub for x in c])
    spelt = [hexes([len(tile)] + [x for c, count in tile for x in c + [count]]) for tile in tiles]

    def case(kind, i, answer, left):
        put([1, kind, i, size, n + room, stride, n, have, len(tiles), first, weight] + lists)
        answers(answer + left)

    for i, tile in enumerate(tiles):
        if tile:
            index, dist, hint = ask("best_fit %x %x %s %s" % (weight, hints[i], shown, spelt[i]))
            case(FIT, i, [index, dist, 0], hints[:i] + [hint] + hints[i + 1:])
        index, dist, second, hint = ask("best_two %x %x %s %s" % (weight, hints[i], shown, spelt[i]))
        case(TWO, i, [index, dist, second], hints[:i] + [hint] + hints[i + 1:])
    error, *left = ask("mse %x %s %x %s %s" % (weight, shown, len(tiles), hexes(hints), " ".join(spelt)))
    case(MSE, 0, [0, error, 0], left)


def tile(kind, size):
    return [(colour(kind), draw.randint(1, max(1, 64 // size))) for _ in range(size)]


# a tile halfway between two subpalettes, from hints at the first, at the second, and past both
for hint in (0, 1, 99):
    job([[[0, 0, 0]], [[bits(1.0), 0, 0]]], 0, [[([bits(0.5), 0, 0], 2)]], [hint], bits(1.0))
# ties with a lower and a higher index, on both sides of the hint: five copies of two subpalettes
low, high = colour("grid"), colour("any")
for hint in (0, 1, 2, 3, 4, 5):
    job([[high], [low], [high], [low], [low]], 1, [[(low, 3), (high, 1)]], [hint], bits(2.15))
for kind in ("any", "grid", "copies"):
    for n in (1, 2, 3, 5, 7):
        have = draw.choice([1, 2, 3])
        few = [tile("any" if kind == "any" else "grid", draw.choice([1, 1, 2, 3])) for _ in range(2)]
        few.insert(draw.randint(0, 2), [])
        hints = [draw.choice(list(range(n)) + [n, 99, 0xFFFFFFFF]) for _ in few]
        job(palette(kind, n, have), draw.choice([0, 1]), few, hints, draw.choice([bits(1.0), bits(2.15), bits(16.0), bits(0.25)]))
for alpha in (0.3, 0.5):
    for _ in range(20):
        a, c, t = bits(alpha), [bits(draw.uniform(-4, 4)) for _ in "lab"], [bits(draw.uniform(-2, 2)) for _ in "lab"]
        put([2, a] + c + t)
        answers(ask("nudge %s" % hexes([a] + c + t)))
for n in (0, 1, 2, 3, 7, 16):
    for kind in ("any", "grid"):
        w, q, colours = bits(2.15), colour(kind), [colour(kind) for _ in range(n)]
        flat = [x for c in colours for x in c]
        put([3, n] + flat + [w] + q)
        answers(ask("nearest " + hexes([w] + q + flat)))
        answers(ask("nearest_two " + hexes([w] + q + flat)))
# of tile size 256: as many colours, one that is counted as often, more than 64 that tie
job(palette("any", 3, 2), 1, [[(colour("any"), 1) for _ in range(256)], [(colour("any"), 256)]], [0, 99], bits(2.15), 256)
job(palette("grid", 3, 2), 1, [[(colour("grid"), draw.randint(1, 3)) for _ in range(70)], []], [2, 1], bits(2.15), 256)

here = os.path.dirname(os.path.abspath(__file__))
with open(os.path.join(here, "palette"), "wb") as out:
    out.write(struct.pack(">%dI" % (len(words) + 1), cases, *words))
with open(os.path.join(here, "palette.count"), "w") as out:
    out.write("%d\n" % compared)
print(cases, "cases,", compared, "values to compare")
