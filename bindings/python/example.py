"""Refines mesh A of document 01 twice, to its case C, and prints the corners; with a file's name it writes the archive of this job there."""

import sys
from yuccadice import LEAF, REFINE, Job, Layout, step, write

positions = [0, 0, 0, 16, 0, 0, 0, 16, 0, 0, 0, 16]
cells = [0, 1, 2, 3]
status = [LEAF]
for cell in 0, 1:
    status = step(positions, cells, status, [REFINE if k == cell else 0 for k in range(len(status))])
layout = Layout(positions, cells, status)
print("%d cells, %d corners, %d levels" % (len(layout.cells), len(layout.ends), layout.levels))
for corner in range(len(layout.ends)):
    print("%d: %g %g %g" % (corner, *layout.position(corner)))
if len(sys.argv) > 1:
    with open(sys.argv[1], "wb") as file:
        file.write(write(Job(positions, cells, [[(0, REFINE)], [(1, REFINE)]])))
