#!/usr/bin/env python3
"""example.py ORACLE: writes stdin, a sheet, and stdout, that sheet trained by the Rust, beside it (oracle/README.md)."""
import os
import random
import struct
import subprocess
import sys

S, C, WEIGHT, SEED = 3, 3, 2.15, 0


def bits(x):
    return struct.unpack(">I", struct.pack(">f", x))[0]


def value(b):
    return struct.unpack(">f", struct.pack(">I", b))[0]


def tiles(draw):
    """Eight tiles around three groups of colours, and an empty one."""
    groups = [[draw.uniform(0.2, 0.9), draw.uniform(-0.2, 0.2), draw.uniform(-0.2, 0.2)] for _ in range(3)]
    near = lambda g: [bits(x + draw.uniform(-0.1, 0.1)) for x in groups[g]]
    return [[(near(i % 3), draw.randrange(1, 13)) for _ in range(draw.randrange(2, 6))] for i in range(8)] + [[]]


def sheet(palette, content):
    """The sheet's bytes, by docs/SCOPE.md: fields from the most significant bit on."""
    fields = [(0x54464954, 32), (1, 4), (S - 1, 4), (C - 1, 4), (len(content) - 1, 10), (bits(WEIGHT), 32)]
    fields += [(b, 32) for colour in palette for b in colour]
    for tile in content:
        fields.append((len(tile), 7))
        for colour, count in tile:
            fields += [(count - 1, 6)] + [(b, 32) for b in colour]
    text = "".join(format(x, "0%db" % width) for x, width in fields)
    text += "0" * (-len(text) % 8)
    return bytes(int(text[i:i + 8], 2) for i in range(0, len(text), 8))


def cut(colours):
    return [[bits(min(2.0, max(-2.0, value(b)))) for b in colour] for colour in colours]


def trained(oracle, content):
    """At each stop the colours are those of a run that was handed in the stops before."""
    request = [bits(WEIGHT), S, C, SEED, len(content)] + [0] * len(content)
    for tile in content:
        request += [len(tile)] + [x for colour, count in tile for x in colour + [count]]
    samples = [(i, k) for i, tile in enumerate(content) for k, (_, count) in enumerate(tile) for _ in range(count)]
    request += [len(samples)] + [x for sample in samples for x in sample]
    handed = [[[0, 0, 0]] * (S * C)] * 3
    for stop in range(4):
        line = "run " + " ".join("%x" % n for n in request + [b for colours in handed for colour in colours for b in colour])
        said = subprocess.run([oracle], input=line + "\n", capture_output=True, text=True, check=True).stdout.split()
        answer = [int(n, 16) for n in said]
        at = stop * (3 * S * C + len(content))
        colours = [answer[at + 3 * i:at + 3 * i + 3] for i in range(S * C)]
        if stop == 3:
            return colours
        handed = handed[:stop] + [cut(colours)] + handed[stop + 1:]


here = os.path.dirname(os.path.abspath(__file__))
content = tiles(random.Random(5))
with open(os.path.join(here, "stdin"), "wb") as out:
    out.write(sheet([[0, 0, 0]] * (S * C), content))
with open(os.path.join(here, "stdout"), "wb") as out:
    out.write(sheet(trained(sys.argv[1], content), content))
