#!/usr/bin/env python3
"""Writes inputs of about 1 MB, well formed or with a fault at their end, that are hard to check: inputs.py NAME [FAULT]

    statements   as many statements in one block as fit
    calls        as many calls in one block as fit
    chains       256 functions in chains of 32, each with calls of the function before
    names        states, functions and variables with names of 64 bytes that differ only in their last bytes
    deep         expressions nested 64 deep
    blocks       statements nested in 15 others
    lists        lists of 4,096 numbers in expressions
    states       more states than a program may have, and reads of others
    functions    more functions than a program may have, and calls of others

FAULT is form, limit, double, unknown, order, type or remember: a statement with that fault is appended.
"""
import sys

LENGTH = 1045000
FAULTS = {
    "form": "(node N)",
    "limit": "(key 9223372036854775808)",
    "double": "(node N ((a 1) (a 2)))",
    "unknown": "(key nowhere)",
    "order": "(call root)",
    "type": "(key (+ 1 true))",
    "remember": "(let outer 1 (remember r () outer))",
}


def text(front, block, fault, end=""):
    """Returns an input whose root has a block, with or without a fault at its end."""
    return "(compose 1)\n%s(fun root () %s%s)\n%s" % (front, block, FAULTS[fault] if fault else "", end)


def filled(part, used=0):
    """Returns as many copies of `part` as fit."""
    return part * ((LENGTH - used) // len(part))


def statements(fault):
    return text("", filled("(node N ())"), fault)


def calls(fault):
    front = "".join("(fun f%d ())\n" % n for n in range(255))
    return text(front, filled("(call f%d)" % 254, len(front)), fault)


def chains(fault):
    functions = []
    each = (LENGTH // 255 - 20) // len("(call f100)")
    for n in range(255):
        called = "(call f%d)" % (n - 1) * each if n % 31 else ""
        functions.append("(fun f%d () %s)\n" % (n, called))
    return text("".join(functions), "(call f%d)" % 30, fault)


def names(fault):
    long = ["n" * 61 + "%03d" % n for n in range(256)]
    front = "".join("(state %s Int Structural 0)\n" % name for name in long)
    front += "".join("(fun %s ())\n" % name for name in long[:255])
    opened = "".join("(let %s 1 " % name for name in long[:14])
    part = "(key %s)(key (get %s))(call %s)" % (long[13], long[255], long[254])
    return text(front, opened + filled(part, len(front)) + ")" * 14, fault)


def deep(fault):
    return text("", filled("(key " + "(+ 1 " * 63 + "1" + ")" * 64), fault)


def blocks(fault):
    return text("", filled("(key 1 " * 16 + ")" * 16), fault)


def lists(fault):
    return text("", filled("(key (ints" + " 1" * 4096 + "))"), fault)


def states(fault):
    front = "".join("(state s%05d Int Structural 0)\n" % n for n in range(17000))
    return text(front, filled("(key (get zzzzzz))", len(front)), fault)


def functions(fault):
    front = "".join("(fun f%05d ())\n" % n for n in range(33000))
    return text(front, filled("(call zzzzzz)", len(front)), fault)


INPUTS = {"statements": statements, "calls": calls, "chains": chains, "names": names, "deep": deep, "blocks": blocks,
         "lists": lists, "states": states, "functions": functions}
# Inputs that have a fault of their own, which only a wrong form precedes.
LARGE = "states", "functions"

if __name__ == "__main__":
    sys.stdout.write(INPUTS[sys.argv[1]](sys.argv[2] if len(sys.argv) > 2 else None))
