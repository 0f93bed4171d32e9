"""Tests of standard error: the note on a rejected input, and the sentences on other failures.

A note has these lines. The caret is under the line and the column.

     --> line 3, column 26
      |
    3 | (fun root () (node T ((v (get cuont)))))
      |                          ^ no state `cuont` is declared above; did you mean `count`?
"""
import os
import re
import subprocess
import unicodedata

TOP = os.path.dirname(os.path.dirname(os.path.abspath(__file__)))
SECONDS = 120
HEAD = b"(compose 1)\n"
MOST = 1048576
NOTE = re.compile(rb"( +)--> line (\d+), column (\d+)\n\1 \|\n(\d+) \| ([^\n]*)\n\1 \| ( *)\^ ([^\n]+)\n")
FAULT = re.compile(rb"bad input: (\w+) at (\d+)\n")


def form_end(data, at):
    """Returns the offset after the form that begins at `at`."""
    depth, mode = 0, ""
    for index in range(at, len(data)):
        byte = data[index:index + 1]
        if mode == '"' and byte == b"\\":
            mode = "\\"
        elif mode == "\\":
            mode = '"'
        elif mode == '"':
            mode = "" if byte == b'"' else mode
        elif mode == ";":
            mode = "" if byte == b"\n" else mode
        elif byte in b'";':
            mode = byte.decode()
        else:
            depth += {b"(": 1, b")": -1}.get(byte, 0)
        if depth <= 0 and not mode:
            return index + 1
    return len(data)


def offset_of(data, line, column):
    """Returns the offset of a line and a column, both from 1."""
    start = 0
    for _ in range(line - 1):
        start = data.index(b"\n", start) + 1
    text = data[start:].split(b"\n")[0].decode("utf-8", "surrogateescape")
    return start + len(text[:column - 1].encode("utf-8", "surrogateescape"))


def columns_of(text):
    """Returns the columns that a text takes in a terminal."""
    return sum(2 if unicodedata.east_asian_width(it) in "WF" else 0 if unicodedata.category(it) in ("Mn", "Cf") else 1 for it in text)


def mistake(data, out, said):
    """Returns what is wrong with the note on a rejected input, or an empty text."""
    note = NOTE.fullmatch(said)
    if not note:
        return "no note: %r" % said[:200]
    kind, at = FAULT.fullmatch(out).groups()
    offset = offset_of(data, int(note[2]), int(note[3]))
    fault = int(at)
    if kind == b"text" and offset != fault:
        return "the note is at %d" % offset
    if offset != fault and not fault <= offset < form_end(data, fault):
        return "the note is at %d, outside of the form" % offset
    if note[2] != note[4]:
        return "two lines"
    shown = note[5].decode()
    if columns_of(shown) > 200:
        return "a line of %d columns" % columns_of(shown)
    if not shown.startswith("...") and kind != b"utf8":
        before = data[:offset].split(b"\n")[-1].decode()
        if not shown.startswith(before.replace("\t", " ").replace("\r", " ")) or columns_of(before) != len(note[6]):
            return "the caret is not under column %d" % len(before)
    return ""


def judge_case(tally, name, data, got, said, wanted):
    """Tests the standard error of a case: that of its file, if there is one, else whether it is right for the status."""
    if wanted is not None:
        tally.judge(name + ", standard error", (got[0], said), (got[0], wanted))
    elif got[0] == 0:
        tally.judge(name + ", standard error", (0, said), (0, b""))
    elif got[0] == 3:
        tally.judge(name + ", the note", (3, mistake(data, got[1], said).encode()), (3, b""))


def run(words, data=b"", **streams):
    """Returns the status, the output and the standard error of a command."""
    if "stdin" not in streams:
        streams["input"] = data
    streams.setdefault("stdout", subprocess.PIPE)
    ran = subprocess.run(words, stderr=subprocess.PIPE, timeout=SECONDS, **streams)
    return ran.returncode, ran.stdout, ran.stderr


def filled(part, left):
    """Returns copies of a part that have about `left` bytes together."""
    return part * (left // len(part))


def long_lines(command, tally):
    """Tests the notes on inputs whose lines have up to 1 MB."""
    body = b"(node T ((v (get n)))) "
    rows = [
        ("a name between other statements", HEAD + b"(fun root () " + filled(b"(key 1) ", 500000) + body + filled(b"(key 1) ", 500000) + b")"),
        ("a form after other forms", HEAD + filled(b"(fun f ())", MOST - 100) + b"(fan g ())"),
        ("one word", HEAD + b"(fun " + b"-" * (MOST - 100) + b" ())"),
        ("one string", HEAD + b"(fun \"" + b"x" * (MOST - 100) + b"\" ())"),
        ("emoji", HEAD + b"(fun root () (node T ((v \"" + filled("\U0001F600".encode(), 4000) + b"\") (w (+ 1 true)))))"),
        ("one line a statement", HEAD + b"(fun root ()\n" + filled(b"(key 1)\n", MOST - 100) + b"(key))"),
    ]
    for name, data in rows:
        status, out, said = run(command + ["run"], data)
        tally.judge("long lines, %s" % name, (status, mistake(data, out, said).encode() if status == 3 else out), (3, b""))


def failures(command, tally):
    """Tests the sentences on a failed read, a failed write and an input that is too long."""
    folder = os.open(TOP, os.O_RDONLY)
    try:
        tally.judge("the sentence on a failed read", run(command + ["run"], stdin=folder)[::2],
                    (4, b"compose_play: the input could not be read\n"))
    finally:
        os.close(folder)
    tally.judge("the sentence on a long input", run(command + ["run"], b" " * (MOST + 1))[::2],
                (7, b"compose_play: the input has more than 1,048,576 bytes\n"))
    if os.path.exists("/dev/full"):
        with open("/dev/full", "wb") as full:
            tally.judge("the sentence on a failed write", run(command + ["check"], HEAD + b"(fun root ())", stdout=full)[::2],
                        (5, b"compose_play: the output could not be written\n"))
    closing = ["sh", "-c", 'exec "$@" 2>&-', ""] + command
    tally.judge("standard error that is closed", run(closing + ["run"], b"(")[:2], (3, b"bad input: text at 1\n"))


def shown_note(tally):
    """Tests that docs/LANGUAGE.md shows the note of a case."""
    with open(os.path.join(TOP, "tests", "cases", "mistake-misspelt-state.err"), encoding="utf-8") as it:
        note = "".join("    " + line for line in it)
    with open(os.path.join(TOP, "docs", "LANGUAGE.md"), encoding="utf-8") as it:
        text = it.read()
    tally.judge("docs/LANGUAGE.md, the note", (0, b"" if note in text else b"another note"), (0, b""))


def test(command, tally):
    shown_note(tally)
    long_lines(command, tally)
    failures(command, tally)
