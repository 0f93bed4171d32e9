#!/usr/bin/env python3
"""Writes an input for `compose_play run` whose snapshots stay open: open_snapshots.py NAME N

    takes      N takes of children of the global snapshot, which stay open
    adds       N takes that stay open, each followed by a write of the global snapshot
    writes     N takes that stay open, each followed by a write in the new snapshot
    frames     N takes that stay open, then 1,000 writes and frames
    commits    N takes that stay open, then N rounds of take, write and apply
    parents    eight open parents, each of which gets N applied children
    rounds     one open snapshot, then N rounds of take and dispose
    children   N parents with one open child each, which are disposed
"""
import sys

MOST = 1000


def repeated(steps, count):
    """Returns the steps `count` times, in repeats that the notation allows."""
    counts = [MOST] * (count // MOST) + [count % MOST] * (count % MOST > 0)
    return " ".join("(repeat %d %s)" % (some, steps) for some in counts)


TAKE = "(take s mutable global)"
COMMIT = "(take c mutable %s) (add c x 1) (apply c)"
SCRIPTS = {
    "takes": lambda n: repeated(TAKE, n),
    "adds": lambda n: repeated(TAKE + " (add global x 1)", n),
    "writes": lambda n: repeated(TAKE + " (add s x 1)", n),
    "frames": lambda n: repeated(TAKE, n) + repeated("(add global x 1) (frame)", 1000),
    "commits": lambda n: repeated(TAKE, n) + repeated(COMMIT % "global", n),
    "parents": lambda n: "".join("(take p%d mutable global)" % k for k in range(8))
    + repeated(" ".join(COMMIT % ("p%d" % k) for k in range(8)), n),
    "rounds": lambda n: TAKE + repeated("(take c mutable global) (dispose c)", n),
    "children": lambda n: repeated("(take p mutable global) (take c mutable p) (dispose p)", n),
}


def source(name, count):
    """Returns the input, as bytes."""
    return ("(compose 1)\n(state x Int Counter 0)\n(fun root () (node N ((x (get x)))))\n(do main %s)\n"
            % SCRIPTS[name](count)).encode()


if __name__ == "__main__":
    sys.stdout.buffer.write(source(sys.argv[1], int(sys.argv[2])))
