#!/usr/bin/env python3
"""Writes inputs for `compose_play run` with large frames: large_frames.py forest|changing|turns|keyed

    forest    a forest of 200,000 nodes, printed in five frames
    changing  the same forest, where each frame changes all nodes
    turns     a refused frame whose loops want 16 million groups, and a small frame after it
    keyed     a list of 4,000 rows with keys, reversed twice
"""
import sys


def program(states, functions, steps):
    """Returns an input, as bytes."""
    return "\n".join(["(compose 1)"] + states + functions + ["(do main", "\n".join(steps), ")\n"]).encode()


def forest(steps=("(frame)",) * 5, rows=400, cells=499):
    """Returns rows of cells, each with the value of the state: rows * (cells + 1) nodes."""
    return program(
        ["(state n Int Structural 0)"],
        ["(fun root () (let n (get n)",
         "  (for y (range 0 %d) (node Row ((y y)) (for x (range 0 %d) (node Cell ((x x) (n n))))))))" % (rows, cells)],
        list(steps))


def changing(frames=5):
    """Returns the forest with another value of the state in each frame."""
    return forest(["(write global n %d) (frame)" % (n + 1) for n in range(frames)])


def turns(side=4000):
    """Returns loops of side * side turns with a group in each, and then of one turn."""
    return program(
        ["(state side Int Structural %d)" % side],
        ["(fun root () (for y (range 0 (get side)) (for x (range 0 (get side)) (key x (node Cell ((x x)))))))"],
        ["(frame)", "(write global side 1)", "(frame)"])


def keyed(rows=4000, frames=2):
    """Returns a list of rows with keys, reversed before each frame except the first."""
    items = " ".join(map(str, range(rows)))
    back = " ".join(map(str, reversed(range(rows))))
    steps = ["(frame)"]
    for n in range(frames):
        steps.append("(write global items (ints %s)) (frame)" % (items if n % 2 else back))
    return program(
        ["(state items Ints Structural (ints %s))" % items],
        ["(fun row ((i Int)) (remember square ((i i)) (* i i) (node Row ((i i) (square square)))))",
         "(fun root () (for i (get items) (key i (call row i))))"],
        steps)


INPUTS = {"forest": forest, "changing": changing, "turns": turns, "keyed": keyed}

if __name__ == "__main__":
    sys.stdout.buffer.write(INPUTS[sys.argv[1]]())
