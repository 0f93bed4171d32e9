"""Tests of `compose_play threads`, whose output depends on how the actors take turns.

A script is taken apart into steps, and each order of the steps that keeps every actor's own order is run by `run`, one `do` form a
step. The output of `threads` must be one of these outputs. This serves for scripts with few steps, in which no step makes two calls.
"""
import re

FORM = re.compile(rb"\(do (\w+)((?:\s+\([^()]*(?:\([^()]*\))?[^()]*\))*)\s*\)")
STEP = re.compile(rb"\([^()]*(?:\([^()]*\))?[^()]*\)")


def parts_of(data):
    """Returns the input before its first `do` form, and the steps of each actor in order."""
    actors = {}
    for form in FORM.finditer(data):
        actors.setdefault(form.group(1), []).extend(STEP.findall(form.group(2)))
    return data[:FORM.search(data).start()], actors


def orders(actors):
    """Yields each order of the steps that keeps every actor's own order, as a list of (actor, step)."""
    if not any(actors.values()):
        yield []
    for name, steps in actors.items():
        if steps:
            for rest in orders({**actors, name: steps[1:]}):
                yield [(name, steps[0])] + rest


def outputs(run, data):
    """Returns what `run` writes for each order of the steps. `run` is called with an input, and returns its output."""
    program, actors = parts_of(data)
    made = set()
    for order in orders(actors):
        made.add(run(program + b"".join(b"(do " + name + b" " + step + b")\n" for name, step in order)))
    return made


CONFLICT = b"""(compose 1)
(state n Int Structural 0)
(state m Int Counter 0)
(fun root () (node Sum ((n (get n)) (m (get m)))))
(do anna (take a mutable global) (write a n 1) (write a m 1) (apply a))
(do ben (take b mutable global) (write b n 2) (write b m 2) (apply b))
"""
COUNTER = b"""(compose 1)
(state total Int Counter 0)
(fun root () (node Total ((value (get total)))))
(do a (repeat 100 (take s mutable global) (add s total 1) (apply s)))
(do b (repeat 100 (take t mutable global) (add t total 1000) (apply t)))
(do c (repeat 10 (frame)))
"""
FAULTS = [
    (b"(compose 1)(state n Int Structural 0)(fun root ())(do a (take s mutable global))(do b (read s n))", b"actor at 86"),
    (b"(compose 1)(fun root ())(do a (frame))(do b (frame))", b"actor at 44"),
    (b"(compose 1)(fun root ())(do a (take s mutable global))(do b (take s mutable global))", b"actor at 60"),
    (b"(compose 1)(fun root ())(do a (read s n))", b"unknown at 30"),
]
# On a busy machine the first actor is often done before the second one begins.
MOST_RUNS = 1000


def changes(text):
    """Returns how often the line of a call is of another actor than the line before it."""
    actors = [line.split(b":")[0] for line in text.splitlines()]
    return sum(1 for one, next_one in zip(actors, actors[1:]) if one != next_one)


def test(command, run_command, tally):
    """Tests `threads` by `run`."""
    def run(data):
        return run_command(command + ["run"], data)[1]

    wanted = outputs(run, CONFLICT)
    runs = woven = 0
    while runs < 40 or woven < 4 and runs < MOST_RUNS:
        runs += 1
        status, text = run_command(command + ["threads"], CONFLICT)
        tally.judge("threads, two actors", (status, text if text in wanted else b"another output"), (0, text))
        woven += changes(text) > 2
    tally.judge("threads, two actors take turns", (0, b"in %d of %d runs" % (woven, runs)), (0, b"in %d of %d runs" % (max(woven, 4), runs)))
    for _ in range(3):
        counter(command, run_command, tally)
    for data, fault in FAULTS:
        tally.judge("threads " + repr(data), run_command(command + ["threads"], data), (3, b"bad input: " + fault + b"\n"))
    one = b"(compose 1)(state n Int Structural 0)(fun root () (node N ((n (get n)))))(do a (frame) (add global n 3) (frame (during (write global n 9))) (read global n))"
    for flags in [], ["--json"], ["--ops"], ["--ops", "--json"]:
        tally.judge("threads, one actor " + repr(flags), run_command(command + ["threads"] + flags, one), run_command(command + ["run"] + flags, one))
    nothing = b"(compose 1)(fun root ())(do a)"
    tally.judge("threads, no step", run_command(command + ["threads"], nothing), (0, b""))
    tally.judge("threads, no actor", run_command(command + ["threads"], b"(compose 1)(fun root ())"), (0, b""))


def counter(command, run_command, tally):
    """Tests three actors of which two add to one counter and the third composes frames."""
    status, text = run_command(command + ["threads"], COUNTER)
    lines = text.decode().split("\n")[:-1]
    calls = {name: [line.split(" ")[1] for line in lines if line.startswith(name + ": ")] for name in "abc"}
    adder = ["take", "read", "write", "apply"] * 100
    tally.judge("threads, calls in order", (status, repr(calls).encode()),
                (0, repr({"a": adder, "b": adder, "c": ["frame", "dispose"] * 10}).encode()))
    applied = sum(1 for line in lines if line.endswith(" = applied"))
    trees = [int(line.split("=")[1]) for line in lines if line.startswith("#1 Total")]
    tally.judge("threads, all applies succeed", (len(lines), str(applied).encode()), (840, b"200"))
    tally.judge("threads, the total rises", (0, repr(trees).encode()), (0, repr(sorted(trees)).encode()))
    total = 0
    for line in lines:
        found = re.fullmatch(r"([ab]): apply @\d+ = applied", line)
        if found:
            total += 1 if found.group(1) == "a" else 1000
        elif line.startswith("c: frame"):
            taken = total
        elif line.startswith("#1 Total"):
            tally.judge("threads, a tree shows its snapshot", (0, line.encode()), (0, b"#1 Total value=%d" % taken))
