#!/usr/bin/env python3
"""edges.py ORACLE: writes edges and edges.count beside it. Numbers, indexes and sheets are those of docs/SCOPE.md; what an accepted call
answers and leaves is from the answers of the program `oracle` (oracle/README.md). How jobs are made stands in replay/src/edges.rs."""
import os
import struct
import subprocess
import sys

oracle = sys.argv[1]
words, cases, compared = [], 0, 0
FOUND, MASK = 0x7fa5a5a5, 2 ** 64 - 1
TWO, ABOVE, MINUS, ABOVE_FOUR = 0x40000000, 0x40000001, 0x80000000, 0x40800001
START, ADVANCE, HAND_IN, RESULT, ADVANCE_DAMAGED, ADVANCE_RESIZED, TOLD = 0, 1, 2, 3, 4, 5, 6
# what is answered: a number, and the index that goes with it
DONE, SIZE, TABLE, COUNT, EDITION, OTHER_SIZES = (0, 0), (2, 0), (5, 0), (6, 0), (12, 0), (20, 0)
# tile sizes: their edition's number, the bits of a tile's number of colours, those of a count less 1
EDITIONS = {64: (1, 7, 6), 256: (2, 9, 8)}
NO_SIZES = (0, 1, 63, 65, 128, 255, 257, 512)


def bits(x):
    return struct.unpack(">I", struct.pack(">f", x))[0]


def ask(name, numbers):
    line = name + " " + " ".join("%x" % n for n in numbers)
    answer = subprocess.run([oracle], input=line + "\n", capture_output=True, text=True, check=True).stdout.split()
    assert answer and answer[0][0] != "?", (line[:200], answer)
    return [int(n, 16) for n in answer]


def double(x):
    return [x >> 32, x & 0xffffffff]


def digest(numbers):
    """Each number changes the digest to SplitMix64's output from the digest xor the number."""
    state = 0
    for n in numbers:
        state = ((state ^ n) + 0x9e3779b97f4a7c15) & MASK
        state = (state ^ state >> 30) * 0xbf58476d1ce4e5b9 & MASK
        state = (state ^ state >> 27) * 0x94d049bb133111eb & MASK
        state ^= state >> 31
    return state


def put(numbers):
    """A case's first words."""
    global cases
    cases += 1
    words.extend(numbers)


def job_colour(index):
    return 7, index


def working_colour(index):
    return 16, index


def handed_in_colour(index):
    return 17, index


def refused(answer):
    """The number, its index, and that nothing was written."""
    global compared
    compared += 3
    words.extend(answer)


def done(told, left):
    """The number 0, what is answered, and the digest of what is left."""
    global compared
    compared += 2 + len(told)
    words.extend([0] + [x for n in told + [digest(left)] for x in double(n)])


class Job:
    def __init__(self, s, c, t, each, total, component, weight=2.15, size=64):
        self.s, self.c, self.t, self.weight, self.size = s, c, t, bits(weight), size
        self.numbers = [size, s, c, t, each, total, component, bits(weight)]
        counts = [1] * (each - 1) + [total + 1 - each]
        self.tiles = [[([bits(k % 64 / 64), bits(i / 64), bits(-(k / 128))], counts[k]) for k in range(each)] for i in range(t)]
        self.tiles[-1][-1][0][1] = component
        self.hints = [i % (s + 1) for i in range(t)]

    def palette(self, component):
        colours = [[bits(k / 256), bits(-(k / 256)), bits(0.25)] for k in range(self.s * self.c)]
        colours[-1][2] = component
        return [x for colour in colours for x in colour]

    def asked_tiles(self):
        return [x for tile in self.tiles for x in [len(tile)] + [n for colour, count in tile for n in colour + [count]]]

    def lists(self):
        """The tile table, the counts, the colours."""
        table = [x for i, tile in enumerate(self.tiles) for x in (i * len(tile), len(tile))]
        flat = [pair for tile in self.tiles for pair in tile]
        return table, [count for _, count in flat], [x for colour, _ in flat for x in colour]


def run(job, n, seed, calls):
    """Calls in a row, each with its answer; what it is given stands after it."""
    each = len(job.tiles[0])
    put([1] + job.numbers + [n] + double(seed) + [len(calls)])
    states = held(job, n, seed, each, calls)
    for call, answer in calls:
        words.extend(call)
        if call[0] == TOLD:
            continue
        if answer != DONE:
            refused(answer)
            continue
        before, state = states.pop(0)
        room = state[-6 * job.s * job.c:-3 * job.s * job.c] if call == [RESULT] else []
        done([state[4] - before[4]], state + room)


def held(job, n, seed, each, calls):
    """The states before and after each accepted call, by the Rust's run in steps; a result leaves its own."""
    accepted = [call for call, answer in calls if answer == DONE]
    if not accepted:
        return []
    handed = [x for call in accepted if call[0] == HAND_IN for x in job.palette(call[1])]
    request = [job.weight, job.s, job.c, seed, job.t] + job.hints + job.asked_tiles()
    request += [n] + [x for j in range(n) for x in (j % job.t, j // job.t % each)]
    # a stop takes no allotment, but there is a word for it
    allotments = [call[1] << 32 | call[2] if call[0] == ADVANCE else 0 for call in accepted[1:]]
    answer = ask("steps", request + handed + allotments)
    size = 7 + n + job.t + 6 * job.s * job.c
    states = [answer[i:i + size] for i in range(0, len(answer), size)]
    assert states[-1][1] == 7 and len(states) == len(accepted) - 1, [x[:7] for x in states]
    return list(zip(states[:1] + states, states + states[-1:]))


def sheet(job, palette):
    """The fit sheet of docs/SCOPE.md, in the edition of the job's tile size."""
    number, length_bits, count_bits = EDITIONS[job.size]
    fields = [(0x54464954, 32), (number, 4), (job.s - 1, 4), (job.c - 1, 4), (job.t - 1, 10), (job.weight, 32)]
    fields += [(x, 32) for x in palette]
    for tile in job.tiles:
        fields.append((len(tile), length_bits))
        for colour, count in tile:
            fields += [(count - 1, count_bits)] + [(x, 32) for x in colour]
    text = "".join(format(value, "0%db" % width) for value, width in fields)
    text += "0" * (-len(text) % 8)
    return [int(text[i:i + 8], 2) for i in range(0, len(text), 8)]


def fits(job, component, answer):
    """`assign`, single fit, `best_two` and the writer; the fits take one tile."""
    palette = job.palette(component)
    put([2] + job.numbers + [component])
    if answer != DONE:
        for of_call in (answer, answer, answer, answer):
            refused(of_call)
        return
    shown = [job.s, job.c] + palette
    assigned = ask("assign", [job.weight] + shown + [job.t] + job.hints + job.asked_tiles())
    done([0], assigned[job.t:] + assigned[:job.t])
    for name in ("best_fit", "best_two"):
        *told, hint = ask(name, [job.weight, job.hints[0]] + shown + job.asked_tiles())
        done(told, [hint])
    written = sheet(job, palette)
    done([len(written)], written + [FOUND & 255] * (4096 - len(written)))


def read(job, component, answer, told=None):
    """By a reader that is told the job's tile size, or another."""
    palette = job.palette(component)
    written = sheet(job, palette)
    padded = bytes(written + [0] * (-len(written) % 4))
    put([3, job.size if told is None else told, len(written)] + list(struct.unpack(">%dI" % (len(padded) // 4), padded)))
    if answer != DONE:
        return refused(answer)
    left = []
    for part, room in zip(job.lists() + (palette,), (2048, 5140, 15420, 768)):
        left += part + [FOUND] * (room - len(part))
    done([job.s, job.c, job.t, job.weight], left)


def group(pixels, answer, size=64):
    p = len(pixels)
    put([4, size, p] + [x for rgba, colour in pixels for x in [rgba] + colour])
    if answer != DONE:
        return refused(answer)
    count, *rest = ask("group", [0, p] + [x for rgba, colour in pixels for x in [rgba] + colour])
    entries = [rest[5 * i:5 * i + 5] for i in range(count)]
    spare = p - count
    left = [byte for entry in entries for byte in entry[0].to_bytes(4, "big")] + [FOUND & 255] * 4 * spare
    left += [entry[4] for entry in entries] + [FOUND] * spare + rest[5 * count:]
    done([count], left + [x for entry in entries for x in entry[1:4]] + [FOUND] * 3 * spare)


def advance(draws=MASK):
    return [ADVANCE] + double(draws)


def every(answer):
    """The four calls of a run, refused alike."""
    return [([START], answer), (advance(), answer), ([HAND_IN, TWO], answer), ([RESULT], answer)]


def whole(first, *others):
    """A run to its end. The first stop is handed what is refused first, whose index is that of two subpalettes of two colours."""
    stops = [([HAND_IN, x], handed_in_colour(3)) for x in others] + [([HAND_IN, first], DONE)]
    ends = [(advance(), DONE), ([HAND_IN, first], DONE), ([HAND_IN, first], DONE), ([RESULT], DONE)]
    return [([START], DONE), (advance(), DONE)] + stops + ends


def damaged(places):
    """The components of both working palettes, by their places in a row."""
    return [([ADVANCE_DAMAGED, place, ABOVE_FOUR | sign], working_colour(place // 3)) for place in places for sign in (0, MINUS)]


def resized(sizes):
    """The record's last word with each size one more and one less, S and C exchanged, T and n exchanged, no size, all ones."""
    s, c, t, n = (sizes >> low & 0xffff for low in (48, 32, 16, 0))
    others = [sizes + (step << low) for low in (48, 32, 16, 0) for step in (1, -1)]
    others += [c << 48 | s << 32 | t << 16 | n, s << 48 | c << 32 | n << 16 | t, 0, MASK]
    return [([ADVANCE_RESIZED] + double(other), OTHER_SIZES) for other in others]


def from_here(size):
    """What the calls of a run are told from there on."""
    return ([TOLD, size], None)


def small(t=1, total=64, component=TWO, size=64):
    return Job(2, 2, t, 2, total, component, size=size)


def large(each, t=1, size=256):
    """Tiles of so many colours, each counted once."""
    return Job(2, 2, t, each, each, TWO, size=size)


def colours(p):
    """Pixels of colours of their own, but for the last, which has the first's."""
    return [(k % (p - 1) << 8 | 255, [bits(k % (p - 1) / 256), 0, 0]) for k in range(p)]


# samples
run(Job(2, 2, 4, 4, 16, TWO), 16384, 7, whole(TWO, ABOVE, ABOVE | MINUS))
run(Job(2, 2, 4, 4, 16, TWO), 16385, 7, every(SIZE))
# counts
run(small(t=3), 20, 8, whole(TWO | MINUS))
run(small(t=3, total=65), 20, 8, every(COUNT))
fits(small(), TWO, DONE)
fits(small(total=65), TWO, COUNT)
read(small(), TWO, DONE)
read(small(total=65), TWO, COUNT)
# components: of the tiles, of the palette, of both, of a pixel; tile colours are counted on from the palette's four
for sign in (0, MINUS):
    run(small(t=2, component=TWO | sign), 10, 9, whole(TWO))
    run(small(t=2, component=ABOVE | sign), 10, 9, every(job_colour(3)))
    for call in (fits, read):
        call(small(component=TWO | sign), TWO | sign, DONE)
        call(small(component=ABOVE | sign), TWO, job_colour(5))
        call(small(), ABOVE | sign, job_colour(3))
        call(small(component=ABOVE | sign), ABOVE | sign, job_colour(3))
    colour = [bits(0.5), bits(-0.25)]
    pixels = [(0x010203ff, [0, 0, 0]), (0x040506ff, colour + [TWO | sign]), (0x040506ff, colour + [TWO | sign])]
    group(pixels, DONE)
    group(pixels[:1] + [(0x040506ff, colour + [ABOVE | sign])], job_colour(1))
# working colours: of the first palette in stage 0; after five draws, two in a round, of the second too, since stage 2 has begun
first, *others = whole(TWO)
stages = [first] + damaged([0, 11]) + [(advance(5), DONE)] + damaged([0, 11, 12, 23])
run(small(t=2), 20, 10, stages + others)
# sizes: S 3, C 2, T 4, n 20, in the record's last word; at the start, within a round and at a stop, where an advance has no place
first, to_stop, *others = whole(TWO)
wrong = resized(0x0003000200040014)
run(Job(3, 2, 4, 2, 64, TWO), 20, 11, [first] + wrong + [(advance(5), DONE)] + wrong + [to_stop] + wrong + others)
# tile sizes: counts that add up to 256 and 257; 65, 256 and 257 colours of a tile; 65, 256 and 257 pixels
run(small(t=3, total=256, size=256), 20, 12, whole(TWO))
run(small(t=3, total=257, size=256), 20, 12, every(COUNT))
run(large(256, t=2), 20, 13, whole(TWO))
run(large(257, t=2), 20, 13, every(TABLE))
run(large(65, size=64), 20, 13, every(TABLE))
for call in (fits, read):
    call(small(total=256, size=256), TWO, DONE)
    call(small(total=257, size=256), TWO, COUNT)
    call(Job(2, 2, 1, 1, 256, TWO, size=256), TWO, DONE)
    call(large(65), TWO, DONE)
    call(large(65, size=64), TWO, TABLE)
    call(large(256), TWO, DONE)
    call(large(257), TWO, TABLE)
for size, p, answer in ((64, 64, DONE), (64, 65, SIZE), (256, 65, DONE), (256, 256, DONE), (256, 257, SIZE)):
    group(colours(p), answer, size)
group([(0x010203ff, [0, 0, 0])] * 256, DONE, 256)
# a reader that is told the other edition's tile size; tile sizes that there are not
read(small(), TWO, EDITION, told=256)
read(small(size=256), TWO, EDITION, told=64)
for size in NO_SIZES:
    run(small(size=size), 20, 14, every(SIZE))
    fits(small(size=size), TWO, SIZE)
    read(small(), TWO, SIZE, told=size)
    group(colours(2), SIZE, size)
# the record does not hold it: a run goes on with the other where its job passes, and is refused where a tile is too large
first, to_stop, *others = whole(TWO)
switched = [first, from_here(256), (advance(5), DONE), from_here(128), (advance(5), SIZE), from_here(64), to_stop, from_here(256)] + others
run(small(t=2), 20, 15, switched)
switched = [first, from_here(64), (advance(5), TABLE), from_here(256), (advance(5), DONE), from_here(64), ([RESULT], TABLE), from_here(256), to_stop] + others
run(large(65, t=2), 20, 16, switched)
switched = [first, from_here(64), (advance(5), COUNT), from_here(256), to_stop, from_here(64), ([HAND_IN, TWO], COUNT), from_here(256)] + others
run(small(t=2, total=65, size=256), 20, 17, switched)

here = os.path.dirname(os.path.abspath(__file__))
with open(os.path.join(here, "edges"), "wb") as out:
    out.write(struct.pack(">%dI" % (1 + len(words)), cases, *words))
with open(os.path.join(here, "edges.count"), "w") as out:
    out.write("%d\n" % compared)
print(cases, "cases,", compared, "values to compare")
