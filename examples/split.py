#!/usr/bin/env python3
"""A split job carried by a plain loop: case C of document 01 on three parts, one step, beside the serial step.

    python3 examples/split.py       after 'tools/build library' and bindings/build-shared

A program on several computers does the same with its own carrier: each keeps its parts' stores, and only messages travel.
"""

import os
import sys

sys.path.insert(0, os.path.join(os.path.dirname(os.path.abspath(__file__)), "..", "bindings", "python"))
import yuccadice as yd


def carry(stores):
    """Makes calls until every part is done, and gives how many messages were carried. Stores of parts 1, 2, .. that are started."""
    messages = 0
    while not all(store.stage().done for store in stores):
        for store in stores:
            while (message := store.fetch()) is not None:
                stores[message[2] - 1].hand_over(message)  # the third byte is the receiver; messages of a part arrive in their order
                messages += 1
        for store in stores:
            try:
                store.part_step()
            except yd.Refused as refused:
                if refused.number != yd.REFUSED_STORE:
                    raise  # 16: an end of its round is not handed over yet, or it is done
    return messages


def step_in_parts(positions, cells, status, marks, parts, owners):
    """The new table and the number that the parts ended with."""
    stores = yd.split(positions, cells, status, parts, owners)
    for part, store in enumerate(stores, 1):
        store.start([mark for mark, owner in zip(marks, owners) if owner == part])
    messages = carry(stores)
    for part, store in enumerate(stores, 1):
        held = store.held()
        print("part %d: %d masters, %d ghosts" % (part, sum(not h.ghost for h in held), sum(h.ghost for h in held)))
    print("%d messages" % messages)
    return yd.merge(stores), stores[0].stage().result


positions, cells = [(0, 0, 0), (16, 0, 0), (0, 16, 0), (0, 0, 16)], [(0, 1, 2, 3)]  # mesh A of document 01
status = yd.step(positions, cells, [yd.LEAF], [yd.REFINE])
status = yd.step(positions, cells, status, [yd.REFINE if cell == 1 else 0 for cell in range(len(status))])

# The coarse cell is with part 1, its family with part 2, the children of those with part 3.
layout = yd.Layout(positions, cells, status)
owners = [1 + cell.level for cell in layout.cells]
marks = [yd.REFINE if cell == 17 else 0 for cell in range(len(status))]

table, result = step_in_parts(positions, cells, status, marks, 3, owners)
assert result == 0 and table == yd.step(positions, cells, status, marks)
print("%d cells, as by the serial step" % len(table))
