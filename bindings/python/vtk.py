"""Writes the leaves of an archive as a legacy VTK file, which ParaView opens: vtk.py [--positive] ARCHIVE OUT.vtk

Data of each leaf, in one FIELD block, so that a reader loads all of it:
    level           its level
    status          its status (0: a leaf)
    cell            its number
    parent_status   the status of the cell whose child it is: 64 a red cell, 1 to 63 a green one; 0 where the leaf is a coarse cell
    ancestor        the coarse cell that it lies in

Positions are in tenths of a millimetre. Corners are in local order, so the sign of a leaf's volume is as it comes; with --positive the last two are
exchanged where it is negative. OUT.vtk may be "-", standard output.
"""

import sys

try:
    from yuccadice import LEAF, Layout, Refused, read, replay
except ImportError as missing:
    sys.exit("vtk.py: %s" % missing)


def turned(a, b, c, d):
    """Whether the volume of the tetrahedron a b c d is negative. Coordinates are multiples of 1/1,024, so whole numbers tell it exactly."""
    u, v, w = ([int(1024 * q) - int(1024 * p) for p, q in zip(a, other)] for other in (b, c, d))
    return 0 > sum(u[k] * (v[(k + 1) % 3] * w[(k + 2) % 3] - v[(k + 2) % 3] * w[(k + 1) % 3]) for k in range(3))


def vtk(archive, positive=False):
    """The text of the file."""
    job = read(archive)
    status, _ = replay(archive)
    layout = Layout(job.positions, job.cells, status)
    cells, leaves = layout.cells, [k for k in range(len(status)) if status[k] == LEAF]
    points = [layout.position(k) for k in range(len(layout.ends))]
    ancestors = []
    for k, cell in enumerate(cells):
        ancestors.append(k if cell.parent is None else ancestors[cell.parent])

    def corners(k):
        a, b, c, d = cells[k].corners
        return (a, b, d, c) if positive and turned(*(points[j] for j in (a, b, c, d))) else (a, b, c, d)

    lines = ["# vtk DataFile Version 3.0", "leaves of an archive", "ASCII", "DATASET UNSTRUCTURED_GRID"]
    lines.append("POINTS %d double" % len(points))
    lines += ["%r %r %r" % point for point in points]
    lines.append("CELLS %d %d" % (len(leaves), 5 * len(leaves)))
    lines += ["4 %d %d %d %d" % corners(k) for k in leaves]
    lines.append("CELL_TYPES %d" % len(leaves))
    lines += ["10"] * len(leaves)  # a tetrahedron
    data = (
        ("level", lambda k: cells[k].level),
        ("status", lambda k: status[k]),
        ("cell", lambda k: k),
        ("parent_status", lambda k: 0 if cells[k].parent is None else status[cells[k].parent]),
        ("ancestor", lambda k: ancestors[k]),
    )
    lines += ["CELL_DATA %d" % len(leaves), "FIELD leaves %d" % len(data)]
    for name, value in data:
        lines.append("%s 1 %d int" % (name, len(leaves)))
        lines += [str(value(k)) for k in leaves]
    return "\n".join(lines) + "\n"


def main(words):
    positive = "--positive" in words
    files = [word for word in words if word != "--positive"]
    if files in (["-h"], ["--help"]):
        print(__doc__.strip())
        return
    if len(files) != 2 or any(word.startswith("--") for word in files):
        sys.exit("usage: vtk.py [--positive] ARCHIVE OUT.vtk")
    try:
        with open(files[0], "rb") as file:
            text = vtk(file.read(), positive)
        if files[1] == "-":
            sys.stdout.write(text)
            sys.stdout.flush()
        else:
            with open(files[1], "w") as file:
                file.write(text)
    except OSError as error:
        sys.exit("vtk.py: %s: %s" % (error.filename or files[1], error.strerror))
    except Refused as refused:
        sys.exit("vtk.py: %s: %s" % (files[0], refused))


if __name__ == "__main__":
    main(sys.argv[1:])
