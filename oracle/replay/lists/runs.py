#!/usr/bin/env python3
"""runs.py ORACLE: writes runs and runs.count beside it, from the answers of the program `oracle` (oracle/README.md)."""
import os
import random
import struct
import subprocess
import sys

draw = random.Random(8)
oracle = sys.argv[1]
words, runs, compared = [], 0, 0


def bits(x):
    return struct.unpack(">I", struct.pack(">f", x))[0]


def ask(numbers):
    line = "steps " + " ".join("%x" % n for n in numbers)
    answer = subprocess.run([oracle], input=line + "\n", capture_output=True, text=True, check=True).stdout.split()
    assert answer and answer[0][0] != "?", (line, answer)
    return [int(n, 16) for n in answer]


def double(x):
    return [x >> 32, x & 0xffffffff]


def colour(grid):
    """Random components, or those of a coarse grid, where distances tie."""
    if grid:
        return [bits(draw.choice([0.0, 0.5, 1.0]))] + [bits(draw.choice([-0.5, 0.0, 0.5])) for _ in "ab"]
    return [bits(draw.uniform(0, 1))] + [bits(draw.uniform(-0.5, 0.5)) for _ in "ab"]


def run(s, c, tiles, n, weight, grid, allotments, tile_size=64):
    """A whole run of tiles given by their numbers of colours, in calls of these sizes, used over and over until it is finished."""
    global runs, compared
    t, seed = len(tiles), draw.getrandbits(64)
    content = [[(colour(grid), draw.randrange(1, min(4, tile_size // k) + 1)) for _ in range(k)] for k in tiles]
    hints = [draw.choice([0, 1, 99]) for _ in tiles]
    full = [i for i, k in enumerate(tiles) if k]
    samples = [(i, draw.randrange(tiles[i])) for i in (draw.choice(full) for _ in range(n))]
    handed = [[colour(grid) for _ in range(s * c)] for _ in range(3)]
    size = 7 + n + t + 6 * s * c
    flat = [x for q in handed for k in q for x in k]
    request = [bits(weight), s, c, seed, t] + hints
    for tile in content:
        request += [len(tile)] + [x for k, count in tile for x in k + [count]]
    request += [n] + [x for sample in samples for x in sample] + flat

    def states(sizes):
        answer = ask(request + sizes)
        assert len(answer) % size == 0, (len(answer), size)
        return [answer[i:i + size] for i in range(0, len(answer), size)]

    sizes = []
    while True:
        known = states(sizes)
        if known[-1][1] == 7:
            break
        sizes.append(allotments[len(sizes) % len(allotments)])
    table, first = [], 0
    for k in tiles:
        table += [first, k]
        first += k
    runs += 1
    words.extend([tile_size, s, c, t, first, n, 3 * s * c, bits(weight)] + double(seed) + [len(sizes)] + table)
    words.extend(count for tile in content for _, count in tile)
    words.extend(x for tile in content for k, _ in tile for x in k)
    words.extend(x for sample in samples for x in sample)
    words.extend(hints)

    def state(x):
        global compared
        compared += 1 + size
        for w in x[:7]:
            words.extend(double(w))
        words.extend(x[7:])

    state(known[0])
    stops = 0
    for before, after, allotment in zip(known, known[1:], sizes):
        if before[1] in (3, 5, 6):
            words.extend([1] + [x for k in handed[stops] for x in k])
            stops += 1
        else:
            compared += 1
            words.extend([0] + double(allotment) + double(after[4] - before[4]))
        state(after)


LARGE = 2 ** 64 - 1
run(2, 2, [2, 0, 3, 1], 25, 2.15, False, [7, 0, 1, 1, 11, 30])
run(1, 1, [1, 2], 10, 1.0, False, [1, 0])
run(3, 1, [2, 2, 0, 1, 2], 21, 2.15, True, [5, 1, 17])
run(1, 3, [4, 0, 3], 30, 1.0, True, [LARGE])
run(2, 2, [3, 1], 9, 2.15, False, [3])
run(4, 4, [5, 4, 6, 0, 3, 5, 4, 2], 40, 2.15, False, [61, 100])
run(4, 2, [1, 1, 2, 1, 3], 20, 1.0, True, [9, 40, 0])
# tiles of more colours than 64, and of as many as can be
run(2, 2, [65, 0, 3, 100], 25, 2.15, False, [7, 0, 1, 30], 256)
run(3, 2, [256, 1, 256, 128, 0], 40, 2.15, True, [19, LARGE], 256)
run(1, 1, [255], 10, 1.0, False, [3], 256)
# any tiles
run(4, 4, [5, 4, 6, 0, 3, 5, 4, 2], 40, 2.15, False, [61, 100], 256)
here = os.path.dirname(os.path.abspath(__file__))
with open(os.path.join(here, "runs"), "wb") as out:
    out.write(struct.pack(">%dI" % (1 + len(words)), runs, *words))
with open(os.path.join(here, "runs.count"), "w") as out:
    out.write("%d\n" % compared)
print(runs, "runs,", compared, "values to compare")
