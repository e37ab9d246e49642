"""Draws a file that vtk.py wrote: picture.py IN.vtk OUT.png

Each leaf stands a little apart from the others. Children of red cells are drawn in a colour by their level, those of green cells in green.
"""

import math
import struct
import sys
import zlib

WIDTH, HEIGHT, FINE = 900, 760, 2  # each point of the picture is the mean of FINE x FINE
SHRINK, SPREAD = 0.9, 1.18
COLOURS = [(120, 120, 120), (74, 134, 200), (226, 122, 60), (190, 70, 90), (140, 90, 180)]
GREEN = (88, 168, 96)
LIGHT = (0.35, -0.55, 0.76)


def read_vtk(text):
    """Points, cells, and the data of each cell by name."""
    words = iter(text.split())
    data = {}
    for word in words:
        if word == "POINTS":
            points = [tuple(float(next(words)) for _ in range(3)) for _ in range(_count(words))]
        elif word == "CELLS":
            cells = [tuple(int(next(words)) for _ in range(5))[1:] for _ in range(_count(words))]
        elif word == "FIELD":
            next(words)  # the block's name
            for _ in range(int(next(words))):
                name, _, count, _ = (next(words) for _ in range(4))
                data[name] = [int(next(words)) for _ in range(int(count))]
    return points, cells, data


def _count(words):
    count = int(next(words))
    next(words)
    return count


def minus(a, b):
    return tuple(x - y for x, y in zip(a, b))


def dot(a, b):
    return sum(x * y for x, y in zip(a, b))


def cross(a, b):
    return (a[1] * b[2] - a[2] * b[1], a[2] * b[0] - a[0] * b[2], a[0] * b[1] - a[1] * b[0])


def unit(a):
    length = math.sqrt(dot(a, a)) or 1.0
    return tuple(x / length for x in a)


def middle(points):
    return tuple(sum(p[k] for p in points) / len(points) for k in range(3))


def turned(p, turn=math.radians(24), tilt=math.radians(24)):
    """Right, up, towards the eye."""
    x, y, z = p
    right = x * math.cos(turn) - y * math.sin(turn)
    away = x * math.sin(turn) + y * math.cos(turn)
    return (right, z * math.cos(tilt) + away * math.sin(tilt), z * math.sin(tilt) - away * math.cos(tilt))


def faces(points, cells, data):
    """Triangles towards the eye, each with its colour."""
    centre = middle([points[k] for cell in cells for k in cell])
    for cell, level, parent in zip(cells, data["level"], data["parent_status"]):
        corners = [points[k] for k in cell]
        own = middle(corners)
        moved = [SPREAD * (o - c) + c for o, c in zip(own, centre)]
        corners = [tuple(m + SHRINK * (x - o) for x, o, m in zip(p, own, moved)) for p in corners]
        colour = GREEN if 0 < parent < 64 else COLOURS[level % len(COLOURS)]
        for left_out in range(4):
            a, b, c = [corners[k] for k in range(4) if k != left_out]
            normal = unit(cross(minus(b, a), minus(c, a)))
            if dot(normal, minus(corners[left_out], a)) > 0:
                normal = tuple(-x for x in normal)
            seen = [turned(p) for p in (a, b, c)]
            if turned(normal)[2] > 0:
                light = 0.62 + 0.38 * max(0.0, dot(normal, unit(LIGHT)))
                yield seen, tuple(min(255, int(light * x * 1.12)) for x in colour)


def draw(triangles):
    """The nearest triangle at each point; its border dark."""
    width, height = WIDTH * FINE, HEIGHT * FINE
    seen = [p for triangle, _ in triangles for p in triangle]
    low = [min(p[k] for p in seen) for k in (0, 1)]
    high = [max(p[k] for p in seen) for k in (0, 1)]
    scale = 0.92 * min(width / (high[0] - low[0]), height / (high[1] - low[1]))
    offset = [(size - scale * (l + h)) / 2 for size, l, h in zip((width, height), low, high)]
    depth = [[-math.inf] * width for _ in range(height)]
    picture = [[(255, 255, 255)] * width for _ in range(height)]
    for triangle, colour in triangles:
        p = [(scale * x + offset[0], height - scale * y - offset[1], z) for x, y, z in triangle]
        area = (p[1][0] - p[0][0]) * (p[2][1] - p[0][1]) - (p[2][0] - p[0][0]) * (p[1][1] - p[0][1])
        if abs(area) < 1e-9:
            continue
        border = []
        for k in range(3):  # how much of the share of corner k a border of 1.2 points takes
            a, b = p[(k + 1) % 3], p[(k + 2) % 3]
            border.append(1.2 * FINE * math.hypot(b[0] - a[0], b[1] - a[1]) / abs(area))
        for y in range(max(0, math.floor(min(q[1] for q in p))), min(height, math.ceil(max(q[1] for q in p)))):
            for x in range(max(0, math.floor(min(q[0] for q in p))), min(width, math.ceil(max(q[0] for q in p)))):
                u = ((p[1][0] - x) * (p[2][1] - y) - (p[2][0] - x) * (p[1][1] - y)) / area
                v = ((p[2][0] - x) * (p[0][1] - y) - (p[0][0] - x) * (p[2][1] - y)) / area
                w = 1 - u - v
                if u < 0 or v < 0 or w < 0:
                    continue
                z = u * p[0][2] + v * p[1][2] + w * p[2][2]
                if z > depth[y][x]:
                    depth[y][x] = z
                    dark = u < border[0] or v < border[1] or w < border[2]
                    picture[y][x] = (40, 40, 46) if dark else colour
    return picture


def png(picture):
    rows = bytearray()
    for y in range(HEIGHT):
        rows.append(0)
        for x in range(WIDTH):
            points = [picture[FINE * y + j][FINE * x + i] for j in range(FINE) for i in range(FINE)]
            rows.extend(sum(p[k] for p in points) // len(points) for k in range(3))
    chunk = lambda name, body: struct.pack(">I", len(body)) + name + body + struct.pack(">I", zlib.crc32(name + body))
    header = struct.pack(">IIBBBBB", WIDTH, HEIGHT, 8, 2, 0, 0, 0)
    return b"\x89PNG\r\n\x1a\n" + chunk(b"IHDR", header) + chunk(b"IDAT", zlib.compress(bytes(rows), 9)) + chunk(b"IEND", b"")


if __name__ == "__main__":
    if len(sys.argv) != 3:
        sys.exit("usage: picture.py IN.vtk OUT.png")
    with open(sys.argv[1]) as file:
        triangles = list(faces(*read_vtk(file.read())))
    with open(sys.argv[2], "wb") as file:
        file.write(png(draw(triangles)))
