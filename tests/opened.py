"""Tests that scripts whose snapshots stay open, or that open and close many, take little time and memory: at most a second of
processor time and 64 MB more than the counter example on the same machine."""
import os
import resource
import subprocess
import tempfile

HEAD = "(compose 1)(state x Int Counter 0)(fun root () (node N ((x (get x)))))"
COMMIT = "(take c mutable %s)(add c x 1)(apply c)"
LIMIT = 60  # seconds of processor time after which a run is stopped


def committed(parents, rounds):
    """Returns steps that take parents, and apply children to each of them in turn."""
    names = ["p%d" % n for n in range(parents)]
    return "".join("(take %s mutable global)" % it for it in names) + "(repeat %d %s)" % (
        rounds, "".join(COMMIT % it for it in names))


def actors(count, rounds):
    """Returns actors that each take a parent, apply children to it and apply it."""
    return "".join("(do a%d (take p%d mutable global)%s(apply p%d))" % (
        n, n, ("(repeat %d %s)" % (rounds, (COMMIT % ("p%d" % n)).replace("c ", "c%d " % n).replace("c)", "c%d)" % n))) * 2, n)
        for n in range(count))


TAKES = "(repeat 1000 (take s mutable global))"
SCRIPTS = [
    ("2,000 takes that stay open", "run", TAKES * 2),
    ("1,000 takes, each with a write of global", "run", "(repeat 1000 (take s mutable global)(add global x 1))"),
    ("1,000 takes, each with a write in the new snapshot", "run", "(repeat 1000 (take s mutable global)(add s x 1))"),
    ("1,000 frames next to 800 open snapshots", "run",
     "(repeat 800 (take s mutable global))(repeat 1000 (add global x 1)(frame))"),
    ("eight parents with 500 applied children each", "run", committed(8, 500)),
    ("two parents with 1,000 applied children each", "run", committed(2, 1000)),
    ("4,000 frames next to a parent with 1,000 applied children", "run", committed(1, 1000) + "(repeat 1000 (frame))" * 4),
    ("8,000 rounds of take and dispose next to an open snapshot", "run",
     "(take p mutable global)" + "(repeat 1000 (take c mutable global)(dispose c)(take d mutable p)(dispose d))" * 8),
    ("1,000 disposed parents of open children", "run",
     "(repeat 1000 (take p mutable global)(take c mutable p)(dispose p))"),
    ("eight threads with 2,000 applied children each", "threads", actors(8, 1000)),
]


def measured(command, words, data):
    """Runs a command. Returns its status, processor seconds and peak memory in MB."""
    limit = LIMIT, LIMIT
    with tempfile.TemporaryFile() as stdin:
        stdin.write(data)
        stdin.seek(0)
        child = subprocess.Popen(command + words, stdin=stdin, stdout=subprocess.DEVNULL, stderr=subprocess.DEVNULL,
                                 preexec_fn=lambda: resource.setrlimit(resource.RLIMIT_CPU, limit))
        _, status, used = os.wait4(child.pid, 0)
    child.returncode = os.waitstatus_to_exitcode(status)
    return child.returncode, used.ru_utime + used.ru_stime, used.ru_maxrss / 1024


def test(command, counter, tally):
    """Tests a command. `counter` is the input of the counter example."""
    _, seconds, memory = measured(command, ["run"], counter)
    for name, word, steps in SCRIPTS:
        script = steps if word == "threads" else "(do main %s)" % steps
        status, more_seconds, more_memory = measured(command, [word], (HEAD + script).encode())
        if status == 0 and more_seconds <= seconds + 1 and more_memory <= memory + 64:
            tally.passed += 1
        else:
            tally.failed += 1
            print("FAILED %s: status %d, %.2f s, %.0f MB" % (name, status, more_seconds, more_memory))
