"""A solver's loop: solve, mark, step, lay out, carry values over, archive. It makes samples/plate.mesh: loop.py OUT.mesh

The plate of 240 x 120 x 30 mm is heated by a spot that moves along its upper side. The "solver" is a formula for the temperature; what is carried
from mesh to mesh is the highest temperature that each corner has met. loop.c and loop.f90 do the same and print the same.
"""

import math
import os
import sys

sys.path.insert(0, os.path.join(os.path.dirname(os.path.abspath(__file__)), "..", "..", "bindings", "python"))
import yuccadice as yd

SPOTS = [(300, 600, 300), (400, 600, 300), (800, 600, 300), (1100, 600, 300)]  # where the spot is in each step, in tenths of a millimetre

# The plate: corners 60 or 30 mm apart, x growing first, then y, then z; eight blocks of six cells, each cell a way from a block's first corner to its last.
positions = [(600 * x, 600 * y, 300 * z) for z in range(2) for y in range(3) for x in range(5)]
ways = [(a, b) for a in (1, 5, 15) for b in (1, 5, 15) if a != b]
cells = [(o, o + a, o + a + b, o + 21) for y in range(2) for x in range(4) for o in [x + 5 * y] for a, b in ways]


def temperature(point, spot):
    """1,000 degrees at the spot, and less with the distance."""
    return 1000 * math.exp(-(sum((p - s) ** 2 for p, s in zip(point, spot))) / 250**2)


def marks_of(layout, status, points, spot):
    """Leaves that are hot in their middle are refined; families of a red cell that are all leaves and all cold are deleted."""
    heat = [temperature([sum(points[k][axis] for k in cell.corners) / 4 for axis in range(3)], spot) for cell in layout.cells]
    marks = bytearray(len(status))
    cold = [0] * len(status)  # how many cold leaves each cell has for children
    for k, cell in enumerate(layout.cells):
        if status[k] == yd.LEAF:
            if heat[k] > (200 if cell.level == 0 else 425):
                marks[k] = yd.REFINE
            elif heat[k] < 140 and cell.parent is not None:
                cold[cell.parent] += 1
    for k, cell in enumerate(layout.cells):
        if cell.parent is not None and status[cell.parent] == yd.RED and cold[cell.parent] == 8:
            marks[k] = yd.DELETE
    return marks


def carried(old, new, values):
    """Values at the corners of `old` on those of `new`: a corner that stays keeps its own, whatever its number; a new one has the mean of its ends."""
    match = yd.match_corners(old, new)
    result = []
    for was, (a, b) in zip(match, new.ends):  # ends come before their middle
        result.append(values[was] if was is not None else (result[a] + result[b]) / 2)
    return match, result


def main(name):
    status = bytes(len(cells))
    layout = yd.Layout(positions, cells, status)
    peak = [0.0] * len(layout.ends)
    steps = []
    for spot in SPOTS:
        points = [layout.position(k) for k in range(len(layout.ends))]
        peak = [max(p, temperature(point, spot)) for p, point in zip(peak, points)]  # solve
        marks = marks_of(layout, status, points, spot)
        status = yd.step(positions, cells, status, marks)
        steps.append([(k, mark) for k, mark in enumerate(marks) if mark])
        new = yd.Layout(positions, cells, status)
        match, peak = carried(layout, new, peak)
        layout = new
        kept = [(k, was) for k, was in enumerate(match) if was is not None]
        print("%d cells, %d corners, %d of them kept, %d with another number, mean peak %.3f"
              % (len(status), len(match), len(kept), sum(k != was for k, was in kept), sum(peak) / len(peak)))
    with open(name, "wb") as file:
        file.write(yd.write(yd.Job(positions, cells, steps)))


if len(sys.argv) != 2:
    sys.exit("usage: loop.py OUT.mesh")
try:
    main(sys.argv[1])
except (yd.Refused, OSError) as fault:
    sys.exit("loop.py: %s" % fault)
