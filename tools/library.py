"""The library for the tools beside it, through its Python module: what it answers on an archive's bytes."""
import hashlib
import os
import sys

sys.path.append(os.path.join(os.path.dirname(os.path.abspath(__file__)), "..", "bindings", "python"))
try:
    import yuccadice as yd
except (ImportError, OSError) as error:  # the message says how to make it
    print(f"{os.path.basename(sys.argv[0])}: {error}", file=sys.stderr)
    sys.exit(2)


def number(call, *arguments):
    """The number of a call's refusal; 0 where it is accepted."""
    try:
        call(*arguments)
    except yd.Refused as refused:
        return refused.number
    return 0


def refusal(number):
    """What is printed in the place of anything else."""
    return f"refused {number}\n"


def listing(archive):
    """What meshlist prints."""
    try:
        _, levels = yd.replay(archive)
    except yd.Refused as refused:
        return refusal(refused.number)
    rows = "".join("%d %d %d %d %d\n" % (level, *row) for level, row in enumerate(levels))
    return "level cells red green leaf\n" + rows


def fine_mesh(archive):
    """The layout and the status table of an archive's last mesh."""
    job = yd.read(archive)
    table, _ = yd.replay(archive)
    return yd.Layout(job.positions, job.cells, table), table


def mesh_text(archive):
    """The text of an archive's last mesh (docs/FINGERPRINT.md)."""
    try:
        layout, table = fine_mesh(archive)
    except yd.Refused as refused:
        return refusal(refused.number)
    lines = []
    for corner, (low, high) in enumerate(layout.ends):
        # A position is exact, so 1,024 times it is whole.
        sums = [int(1024 * x) for x in layout.position(corner)]
        lines.append("%d %d %d %d %d %d\n" % (corner, low, high, *sums))
    for cell, status in zip(layout.cells, table):
        parent = 65535 if cell.parent is None else cell.parent
        lines.append("%d %d %d %d %d %d %d %d %d\n" % (cell.level, parent, cell.child, cell.regular, status, *cell.corners))
    return "".join(lines)


def fingerprint(archive):
    text = mesh_text(archive)
    return text if text.startswith("refused") else hashlib.sha256(text.encode()).hexdigest() + "\n"
