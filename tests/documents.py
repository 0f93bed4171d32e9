"""Tests of lists in the documents: the floors of ARCHITECTURE, the trusted files of PROOFS and the sizes of THEOREM are those that
tools/map prints."""
import os
import re
import subprocess

TOP = os.path.dirname(os.path.dirname(os.path.abspath(__file__)))


def printed(word):
    """Returns what tools/map prints for a word."""
    ran = subprocess.run([os.path.join(TOP, "tools", "map"), word], stdout=subprocess.PIPE, stderr=subprocess.PIPE, text=True)
    return ran.stdout + ran.stderr


def document(name):
    with open(os.path.join(TOP, "docs", name), encoding="utf-8") as it:
        return it.read()


def words(text):
    """Returns a text without its line breaks and its indents."""
    return " ".join(text.split())


def judge(tally, name, is_so):
    tally.judge(name, (is_so, None), (True, None))


def test(tally):
    architecture, proofs, theorem = document("ARCHITECTURE.md"), document("PROOFS.md"), document("THEOREM.md")
    judge(tally, "the floors in ARCHITECTURE", printed("floors") in architecture)
    parts = printed("trusted").split("\n\n")
    judge(tally, "the trusted files of `play` in PROOFS", words(parts[0]) in words(proofs))
    judge(tally, "the trusted files of the libraries in PROOFS", words(parts[-1]) in words(proofs))
    for number in re.findall(r"\d+", printed("size")):
        judge(tally, "the size %s in THEOREM" % number, number in theorem.replace(",", ""))
