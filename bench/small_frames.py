#!/usr/bin/env python3
"""Writes an input for `compose_play run`: small_frames.py STATES NODES FRAMES

Each node reads one state, the states in turn. Before each frame the script writes a new value to the next state, so that each
frame composes. The input is as short as the notation allows, since it has at most 1,048,576 bytes.
"""
import sys


def source(states, nodes, frames):
    """Returns the input, as bytes."""
    lines = ["(compose 1)"]
    lines += ["(state s%d Int Structural %d)" % (n, n) for n in range(states)]
    lines.append("(fun root()")
    lines += ["(node T((v(get s%d))))" % (n % states) for n in range(nodes)]
    lines.append(")(do main")
    lines += ["(write global s%d %d)(frame)" % (n % states, 1000 + n) for n in range(frames)]
    return "\n".join(lines + [")\n"]).encode()


if __name__ == "__main__":
    sys.stdout.buffer.write(source(*map(int, sys.argv[1:4])))
