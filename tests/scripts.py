"""Tests of the scripts compose_play and compose_trace with a stand-in for the command `rt`: without a proved program, with one, and
--prove."""
import os
import pty
import re
import shutil
import subprocess
import sys
import tempfile
import time

TOP = os.path.dirname(os.path.dirname(os.path.abspath(__file__)))
TOOLS = "awk bash cat dirname env find grep head kill mktemp mkdir readlink rm sed tail touch chmod printf date".split()

# Two crates that may be proved side by side, one on both, and the programs. A crate that no program needs comes last.
CRATES = """# NAME: the crates that it depends on
top: left right kit_crate
left:
right: kit_crate
compose_play may_wait=1: top
compose_trace: top
tests_top: top
"""
PROGRAMS = "compose_play", "compose_trace"

# The stand-in logs its calls. `try` prints its arguments and its input, and ends as the file `tried` says. `lib` takes a
# while, and fails for the crate that the file `failing` names. `run` makes a program that prints its arguments and input.
RT = """#!/usr/bin/env bash
name=$(basename "$PWD")
echo "begin $name $1" >>"$STAND_IN/calls"
case $1 in
    try)
        shift 4
        printf '%s\\n' "$@"
        [ -t 0 ] || cat
        cat "$STAND_IN/tried" >&2
        exit 5
        ;;
    lib)
        /bin/sleep 0.4
        [ "$name" = "$(cat "$STAND_IN/failing" 2>/dev/null)" ] && echo "no proof of $name" && exit 1
        ;;
    run)
        mkdir -p out
        cat >"out/$name" <<'END'
#!/usr/bin/env bash
printf 'proved %s\\n' "$@"
cat
exit 3
END
        chmod +x "out/$name"
        ;;
esac
echo "end $name $1" >>"$STAND_IN/calls"
"""
NOTE = " --> line 1, column 1\n"
ENDED = NOTE + "checked: ended status=%d\nraces: not looked for\nrun=ended status=%d runners=1 races=unchecked proved=no\n"


class Checkout:
    """A folder with the script, a few empty crates, and a path with only the tools that the script calls."""

    def __init__(self, folder, has_rt=True):
        self.folder = folder
        self.bin = os.path.join(folder, "bin")
        self.stand_in = os.path.join(folder, "stand_in")
        for each in self.bin, self.stand_in:
            os.makedirs(each)
        for tool in TOOLS:
            if shutil.which(tool):
                os.symlink(shutil.which(tool), os.path.join(self.bin, tool))
        self.tool("nproc", "#!/usr/bin/env bash\necho 2\n")
        self.tool("basename", '#!/usr/bin/env bash\necho "${1##*/}"\n')
        if has_rt:
            self.tool("rt", RT)
        os.mkdir(os.path.join(folder, "tools"))
        for script in *PROGRAMS, "tools/run_program":
            shutil.copy(os.path.join(TOP, script), os.path.join(folder, script))
        self.file("crates.txt", CRATES)
        self.file("HANDLES", "Handles allowed: none.\n")
        for crate in "top", "left", "right", "tests_top", *PROGRAMS:
            self.file("crates/%s/src/lib.rt" % crate, "\n")
        for program in PROGRAMS:
            self.file("crates/%s/stdin" % program, "input\n")

    def tool(self, name, text):
        self.file(os.path.join("bin", name), text)
        os.chmod(os.path.join(self.bin, name), 0o755)

    def file(self, name, text):
        at = os.path.join(self.folder, name)
        os.makedirs(os.path.dirname(at), exist_ok=True)
        with open(at, "w", encoding="utf-8") as it:
            it.write(text)

    def calls(self):
        """Returns the lines that the stand-in wrote, and forgets them."""
        at = os.path.join(self.stand_in, "calls")
        if not os.path.exists(at):
            return []
        with open(at, encoding="utf-8") as it:
            lines = it.read().splitlines()
        os.remove(at)
        return lines

    def run(self, *words, program="compose_play", data="(compose 1)\n", stdin=None):
        """Returns the status, standard output and standard error of a script."""
        given = {"input": data} if stdin is None else {"stdin": stdin}
        ran = subprocess.run([os.path.join(self.folder, program), *words], capture_output=True, text=True, timeout=60,
                             env={"PATH": self.bin, "STAND_IN": self.stand_in, "HOME": self.folder}, **given)
        return ran.returncode, ran.stdout, ran.stderr


def test(tally):
    """Tests each way that the script can go."""
    def fact(name, holds, got):
        tally.judge("script, " + name, (0, b"" if holds else str(got).encode()), (0, b""))

    with tempfile.TemporaryDirectory() as folder:
        without_rt(Checkout(os.path.join(folder, "no_rt"), has_rt=False), fact)
        checkout = Checkout(os.path.join(folder, "rt"))
        unproved(checkout, fact)
        unproved_trace(checkout, fact)
        progress(checkout, fact)
        proving_fails(checkout, fact)
        proving(checkout, fact)
        proved(checkout, fact)


def without_rt(checkout, fact):
    for words in ["run"], ["--prove"]:
        got = checkout.run(*words)
        fact("without rt, %s" % words[0], got[:2] == (1, "") and got[2].count("\n") == 1 and "README.md" in got[2], got)


def unproved(checkout, fact):
    """Without a proved program: output and status are those of the program, and the rest is on standard error."""
    for status in 0, 2, 3:
        checkout.file("stand_in/tried", ENDED % (status, status))
        got = checkout.run("run", "--json", "a b", data="x\ny")
        fact("unproved, status %d" % status, got[:2] == (status, "run\n--json\na b\nx\ny"), got)
        said = got[2].splitlines()
        fact("unproved, what is said before and after", "unproved build" in said[0] and "--prove" in said[1]
             and "unproved build" in said[-1] and all(it.startswith("compose_play: ") or it == NOTE[:-1] for it in said), got)
        fact("unproved, what the program says on standard error", got[2].count(NOTE) == 1 and "races" not in got[2], got)
    fact("unproved, the calls of rt", set(checkout.calls()) == {"begin compose_play try"}, "other calls")
    checkout.file("stand_in/tried", "no such function\n")
    got = checkout.run("run")
    fact("unproved, no answer", got[0] == 1 and "no such function" in got[2], got)
    checkout.file("stand_in/tried", ENDED % (0, 0))
    main, other = pty.openpty()
    os.write(main, b"typed\n\x04")
    got = checkout.run("run", stdin=other)
    os.close(other)
    os.close(main)
    fact("a terminal as input", got[:2] == (0, "run\ntyped\n") and "Ctrl-D" in got[2].splitlines()[0], got)
    fact("no terminal as input", "Ctrl-D" not in checkout.run("run")[2], got)
    checkout.calls()


def unproved_trace(checkout, fact):
    """Without a proved program compose_trace: its script reads the input without a word, and says its own name."""
    got = checkout.run(program="compose_trace", data="x\ny")
    fact("unproved trace", got[:2] == (0, "\nx\ny"), got)
    fact("unproved trace, what is said", all(it.startswith("compose_trace: ") or it == NOTE[:-1] for it in got[2].splitlines())
         and "./compose_trace --prove" in got[2], got)
    fact("unproved trace, the calls of rt", checkout.calls() == ["begin compose_trace try"], "other calls")


def progress(checkout, fact):
    """A long build says every 15 seconds how long it takes. The stand-in for `sleep` is asked for 15 seconds."""
    checkout.tool("sleep", '#!/usr/bin/env bash\necho "sleep $1" >>"$STAND_IN/calls"\nread -rt 0.1 <>"$STAND_IN/never"\ntrue\n')
    os.mkfifo(os.path.join(checkout.stand_in, "never"))
    slow = RT.replace("    try)\n", "    try)\n        read -rt 1 <>\"$STAND_IN/never\"\n")
    checkout.tool("rt", slow)
    got = checkout.run("run")
    said = [it for it in got[2].splitlines() if re.fullmatch(r"compose_play: building .*, \d+ s", it)]
    fact("progress of a long build", got[0] == 0 and len(said) > 2 and "sleep 15" in checkout.calls(), got)
    begun = time.monotonic()
    os.remove(os.path.join(checkout.bin, "sleep"))
    os.symlink(shutil.which("sleep"), os.path.join(checkout.bin, "sleep"))
    checkout.tool("rt", RT)
    checkout.run("run")
    fact("no wait for the next line of progress", time.monotonic() - begun < 10, "a long wait")
    checkout.calls()


def proving_fails(checkout, fact):
    checkout.file("stand_in/failing", "right\n")
    got = checkout.run("--prove")
    fact("a crate without a proof", got[:2] == (1, "") and "no proof of right" in got[2]
         and "right could not be proved" in got[2], got)
    calls = checkout.calls()
    fact("a crate without a proof, the crates above it", not any("top" in it or "compose" in it for it in calls), calls)
    os.remove(os.path.join(checkout.stand_in, "failing"))


def proving(checkout, fact):
    """The crates that the programs need are proved in the order of their dependencies, and side by side."""
    got = checkout.run("--prove", program="compose_trace")
    calls = checkout.calls()
    fact("--prove", got[:2] == (0, ""), got)
    fact("--prove, each crate once", sorted(calls) == sorted("%s %s %s" % (at, crate, "run" if crate in PROGRAMS else "lib")
         for at in ("begin", "end") for crate in ("left", "right", "top", *PROGRAMS)), calls)
    fact("--prove, in order", calls.index("begin top lib") > max(calls.index("end left lib"), calls.index("end right lib"))
         and min(calls.index("begin %s run" % program) for program in PROGRAMS) > calls.index("end top lib"), calls)
    most = int(re.search(r"at most (\d+) at a time", got[2]).group(1))
    together = calls.index("begin right lib") < calls.index("end left lib")
    fact("--prove, side by side", most in (1, 2) and together == (most == 2), got)
    fact("--prove, what is said", "left is done" in got[2] and "running: top" in got[2] and "2 left after them" in got[2]
         and "all 5 crates are proved" in got[2], got)


def proved(checkout, fact):
    got = checkout.run("run", "a b", data="x\ny")
    fact("proved", got == (3, "proved run\nproved a b\nx\ny", ""), got)
    got = checkout.run(program="compose_trace", data="x\ny")
    fact("proved trace", got == (3, "proved \nx\ny", ""), got)
    for program in PROGRAMS:
        got = checkout.run("--prove", program=program)
        fact("%s --prove again" % program, got[:2] == (0, "") and not checkout.calls(), got)
    later = time.time() + 10
    os.utime(os.path.join(checkout.folder, "crates/tests_top/src/lib.rt"), (later, later))
    fact("proved, a changed test", checkout.run("run")[0] == 3, got)
    os.utime(os.path.join(checkout.folder, "crates/left/src/lib.rt"), (later, later))
    got = checkout.run("run")
    fact("proved, a changed source", got[:2] == (0, "run\n(compose 1)\n") and "unproved build" in got[2], got)
    got = checkout.run(program="compose_trace")
    fact("proved trace, a changed source", got[:2] == (0, "\n(compose 1)\n") and "unproved build" in got[2], got)
    built = os.path.join(checkout.folder, "crates/compose_play/out/compose_play")
    os.utime(built, (later + 10, later + 10))
    fact("one of two programs is old", [checkout.run("run")[0], checkout.run(program="compose_trace")[0]] == [3, 0], got)
    checkout.calls()
    checkout.run("--prove")
    fact("--prove of one of two programs", "begin compose_trace run" in checkout.calls(), got)


class Failures:
    """Counts and prints failed tests."""

    def __init__(self):
        self.failed = 0

    def judge(self, name, got, wanted):
        if got != wanted:
            self.failed += 1
            print("FAILED %s: %s" % (name, got[1].decode()))


if __name__ == "__main__":
    failures = Failures()
    test(failures)
    sys.exit(1 if failures.failed else 0)
