"""Tests that refused requests for memory change no output: each request for memory of a run is refused in turn, alone and with all
later ones. The run must end with status 6 and the beginning of its output, or with status 0 and all of it. The requests go
through a library that is made of refusals.c, so these tests need a C compiler."""
import os
import shutil
import subprocess
import tempfile

HERE = os.path.dirname(os.path.abspath(__file__))
COMMANDS = ["run"], ["run", "--json", "--ops"], ["threads"], ["check"]
MOST = 5000  # no run of these tests makes so many requests
SECONDS = 60


def made_library(folder):
    """Makes the library. Returns its path, or None if there is no C compiler or it refuses the file."""
    compiler = shutil.which("cc")
    path = os.path.join(folder, "refusals.so")
    if compiler is None:
        return None
    words = [compiler, "-O1", "-shared", "-fPIC", "-o", path, os.path.join(HERE, "refusals.c"), "-ldl"]
    made = subprocess.run(words, stdin=subprocess.DEVNULL, stdout=subprocess.DEVNULL, stderr=subprocess.DEVNULL)
    return path if made.returncode == 0 else None


def run_with(library, words, data, first, last):
    """Runs a command while the requests with the numbers `first` to `last` are refused. Returns its status and output."""
    env = dict(os.environ, LD_PRELOAD=library, REFUSE_FROM=str(first), REFUSE_TO=str(last))
    try:
        ran = subprocess.run(words, input=data, stdout=subprocess.PIPE, stderr=subprocess.DEVNULL, env=env, timeout=SECONDS)
    except subprocess.TimeoutExpired:
        return None, b""
    return ran.returncode, ran.stdout


def is_right(got, whole):
    """Returns whether a run wrote the whole output, or the beginning of it and ended out of memory."""
    return got == (0, whole) or got[0] == 6 and whole.startswith(got[1])


def judge_runs(tally, name, library, words, data):
    """Tests a command: first with all requests from a number on refused, until nothing is refused, then with each one alone."""
    status, whole = run_with(library, words, data, 0, 0)
    tally.judge(name + ", without refusals", (status, b""), (0, b""))
    count, short = 0, 0
    while count < MOST:
        count += 1
        got = run_with(library, words, data, count, 10 ** 12)
        if not is_right(got, whole):
            tally.judge("%s, requests from %d on are refused" % (name, count), got, (6, b"the beginning of the output"))
            return
        if got[0] == 0:
            break
        short += 1
    tally.judge(name + ", some requests are needed", (0, b"%r" % (0 < short and count < MOST)), (0, b"True"))
    for number in range(1, count):
        got = run_with(library, words, data, number, number)
        if not is_right(got, whole):
            tally.judge("%s, request %d is refused" % (name, number), got, (6, b"the beginning of the output"))
            return
    tally.judge("%s, each of %d requests is refused" % (name, count - 1), (0, b""), (0, b""))


def test(command, data, tally):
    """Tests an input under all commands."""
    with tempfile.TemporaryDirectory() as folder:
        library = made_library(folder)
        if library is None:
            print("there is no C compiler here: runs that are out of memory are not tested")
            return
        for words in COMMANDS:
            judge_runs(tally, "refused memory, " + " ".join(words), library, command + words, data)
