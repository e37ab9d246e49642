"""Tests of the module: python3 bindings/python/test.py"""

import os
import random
import re
import subprocess
import sys
import tempfile

import yuccadice as yd

HERE = os.path.dirname(os.path.abspath(__file__))
A = [0, 0, 0, 16, 0, 0, 0, 16, 0, 0, 0, 16], [0, 1, 2, 3]  # mesh A of document 01


def raised(kind, function, *arguments):
    try:
        function(*arguments)
    except kind as exception:
        return getattr(exception, "number", None)
    raise AssertionError("%s was not raised" % kind.__name__)


def positive(points, cell):
    """Whether a tetrahedron's volume is."""
    (a, b, c), (d, e, f), (g, h, i) = ([x - y for x, y in zip(points[k], points[cell[0]])] for k in cell[1:])
    return a * (e * i - f * h) - b * (d * i - f * g) + c * (d * h - e * g) > 0


# The cases of document 01.
assert yd.cut(1) == [(0, 1, 7, 9), (1, 4, 7, 9)]
yd.examine_mesh(*A)
yd.examine_table(*A, [yd.LEAF])
b = yd.step(*A, [yd.LEAF], [yd.REFINE])
assert b == bytes([64] + 8 * [0])
c = yd.step(*A, b, [0, yd.REFINE] + 7 * [0])
assert c == bytes([64, 64, 11, 1, 0, 1, 0, 0, 0] + 16 * [0])
layout = yd.Layout(*A, c)
assert (len(layout.cells), len(layout.ends), layout.levels) == (25, 16, 3)
assert layout.cells[0] == (0, None, 0, True, (0, 1, 2, 3)) and layout.ends[4] == (0, 1)
assert layout.position(7) == (8.0, 8.0, 0.0)
assert yd.ancestor(*A, c, 24) == (0, 2)
job = yd.Job(*A, [[(0, yd.REFINE)], [(1, yd.REFINE)], []])
archive = yd.write(job)
assert yd.read(archive) == job
assert yd.replay(archive) == (c, [(1, 1, 0, 0), (8, 1, 3, 4), (16, 0, 0, 16)])
assert yd.counts(*A, c) == yd.replay(archive)[1]

# Refusals, by number and in words.
assert raised(yd.Refused, yd.cut, 64) == yd.REFUSED_STATUS == 6
assert raised(yd.Refused, yd.examine_mesh, [], []) == 1
assert raised(yd.Refused, yd.examine_table, *A, []) == 6
assert raised(yd.Refused, yd.step, *A, [yd.LEAF], []) == 7
assert raised(yd.Refused, layout.position, 16) == 7
assert raised(yd.Refused, yd.ancestor, *A, c, 25) == 7
assert raised(yd.Refused, yd.replay, b"") == 17
assert raised(yd.Refused, yd.write, yd.Job(*A, [[(1, yd.REFINE)]])) == 7
assert str(yd.Refused(4)) == "refused 4: a flat cell"
raised(OverflowError, yd.step, *A, [yd.LEAF], [300])
raised(OverflowError, yd.cut, -1)
raised(OverflowError, layout.position, -1)

# A job without steps, and jobs of more marks than the library can be told of.
assert yd.read(yd.write(yd.Job(*A, []))).steps == []
assert raised(yd.Refused, yd.write, yd.Job(*A, [[]] * 65536)) == 17
assert raised(yd.Refused, yd.write, yd.Job(*A, [[(0, yd.DELETE)]] * 70000)) == 17
assert raised(yd.Refused, yd.write, yd.Job(*A, [[(0, yd.REFINE)]] * 70000)) == 7
assert raised(yd.Refused, yd.write, yd.Job(*A, [[(0, 0)]] * 70000)) == 7
assert raised(yd.Refused, yd.write, yd.Job([], [], [[(0, yd.DELETE)]] * 70000)) == 1

# Rows of three and four, as well as flat tables.
rows = [(0, 0, 0), (16, 0, 0), [0, 16, 0], (0, 0, 16)], [(0, 1, 2, 3)]
assert yd.step(*rows, [yd.LEAF], [yd.REFINE]) == b
assert yd.write(yd.Job(*rows, job.steps)) == archive
raised(ValueError, yd.examine_mesh, [(0, 0), (16, 0, 0, 0)], [])
raised(ValueError, yd.examine_mesh, rows[0], [(0, 1, 2)])

# Corners matched by weights: a bar of cells, random steps. Matched corners have equal positions, and which are matched is told by them too, since no
# two corners of this mesh lie at one place.
assert layout.weights()[4] == ((0, 512), (1, 512))
assert yd.match_corners(yd.Layout(*A, b), layout) == list(range(10)) + 6 * [None]
bar = [(100 * x, 100 * y, 100 * z) for z in range(2) for y in range(2) for x in range(4)]
kuhn = [(0, 1, 3), (0, 1, 5), (0, 2, 3), (0, 2, 6), (0, 4, 5), (0, 4, 6)]
corner = lambda x, d: x + (d & 1) + 4 * (d >> 1 & 1) + 8 * (d >> 2)
bar_cells = [tuple(corner(x, d) for d in (*way, 7)) for x in range(3) for way in kuhn]
r = random.Random(1)
renumbered = 0
status = bytes(len(bar_cells))
old = yd.Layout(bar, bar_cells, status)
for _ in range(60):
    marks = [r.choice([0, 0, 0, yd.REFINE, yd.DELETE, yd.DELETE, yd.DELETE]) if s == yd.LEAF else 0 for s in status]
    for k, cell in enumerate(old.cells):  # whole families are deleted now and then
        if cell.child == 0 and cell.parent is not None and r.random() < 0.5:
            family = [j for j in range(k, k + 8) if j < len(old.cells) and old.cells[j].parent == cell.parent]
            for j in family:
                marks[j] = yd.DELETE if status[j] == yd.LEAF else 0
    try:
        status = yd.step(bar, bar_cells, status, marks)
    except yd.Refused as refused:
        assert refused.number in (8, 9)
        continue
    new = yd.Layout(bar, bar_cells, status)
    assert all(a == b == k if k < len(bar) else a < b < k for k, (a, b) in enumerate(new.ends))
    match = yd.match_corners(old, new)
    places = {old.position(k): k for k in range(len(old.ends))}
    assert match == [places.get(new.position(k)) for k in range(len(new.ends))]
    renumbered += sum(was is not None and was != k for k, was in enumerate(match))
    old = new
assert renumbered > 0

# Versions, and the hint where the library is missing.
assert re.fullmatch(r"[0-9]+\.[0-9]+\.[0-9]+", yd.__version__) and yd.VERSION == yd.__version__
run = lambda words, **more: subprocess.run([sys.executable, *words], capture_output=True, text=True, cwd=HERE, **more)
with tempfile.TemporaryDirectory() as empty:
    hint = run(["-c", "import yuccadice"], env={**os.environ, "YUCCADICE_LIB_DIR": empty}).stderr
    assert "ImportError" in hint and "bindings/build-shared" in hint and empty in hint

    # vtk.py: errors in one line; leaves turned to positive volume; the coarse ancestor.
    mesh, out = os.path.join(empty, "c.mesh"), os.path.join(empty, "c.vtk")
    assert (lambda p: (p.returncode, p.stderr))(run(["vtk.py", mesh, out])) == (1, "vtk.py: %s: No such file or directory\n" % mesh)
    with open(mesh, "wb") as file:
        file.write(archive[:-1])
    assert run(["vtk.py", mesh, out]).stderr == "vtk.py: %s: refused 17: %s\n" % (mesh, yd.REFUSALS[17])
    with open(mesh, "wb") as file:
        file.write(archive)
    from picture import read_vtk

    for words in [], ["--positive"]:
        assert run(["vtk.py", *words, mesh, out]).returncode == 0
        with open(out) as file:
            points, tetrahedra, data = read_vtk(file.read())
        signs = {positive(points, cell) for cell in tetrahedra}
        assert signs == ({True} if words else {True, False})
        assert len(tetrahedra) == c.count(0) and set(data) == {"level", "status", "cell", "parent_status", "ancestor"}
        assert data["ancestor"] == [yd.ancestor(*A, c, k)[0] for k in data["cell"]]
        assert [sorted(cell) for cell in tetrahedra] == [sorted(layout.cells[k].corners) for k in data["cell"]]

# B on two parts, the coarse cell with part 1 and its family with part 2, all eight marked 2: part 2 is left empty.
owners, marks = [1] + 8 * [2], [0] + 8 * [yd.DELETE]
assert raised(yd.Refused, yd.split, *A, b, 17, owners) == 10
assert raised(yd.Refused, yd.split, *A, b, 2, owners[:8]) == 11
assert raised(yd.Refused, yd.split, *A, [yd.RED], 2, [1]) == 6
stores = yd.split(*A, b, 2, owners)
assert len(stores) == 2 and raised(yd.Refused, stores[0].stage) == 16 and raised(yd.Refused, stores[0].fetch) == 16
assert raised(yd.Refused, stores[0].start, []) == 7
stores[0].start(marks[:1])
stores[1].start(marks[1:])
assert stores[0].stage() == (False, 0, 0) and raised(yd.Refused, stores[0].held) == 16 and raised(yd.Refused, stores[0].part_step) == 16
rounds = 0
while not stores[0].stage().done:
    for store in stores:
        for message in iter(store.fetch, None):
            before = stores[message[2] - 1].numbers[:]
            assert raised(yd.Refused, stores[message[2] - 1].hand_over, message[:4]) == 12
            assert before == stores[message[2] - 1].numbers
            stores[message[2] - 1].hand_over(message)
            assert raised(yd.Refused, stores[message[2] - 1].hand_over, message) == 13
            assert raised(yd.Refused, store.hand_over, message) == 12
    for store in stores:
        store.part_step()
    rounds += 1
assert rounds == 5 and [store.stage() for store in stores] == 2 * [(True, 0, 0)]
assert stores[0].held() == [(False, 0, 0, ())] and stores[1].held() == []
assert yd.merge(stores) == yd.merge(stores[::-1]) == yd.step(*A, b, marks) == bytes(1)
assert raised(yd.Refused, yd.merge, stores[:1]) == raised(yd.Refused, yd.merge, [stores[0]] * 2) == raised(yd.Refused, yd.merge, []) == 16
assert raised(yd.Refused, stores[0].hand_over, bytes([4, 2, 1, 255, 0])) == 14
assert raised(yd.Refused, yd.Store([0] * 9).part_step) == 15

print("ok")
