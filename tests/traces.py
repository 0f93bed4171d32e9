"""Tests of the program compose_trace: its lines by themselves, and against what compose_play prints for the same input.

From a trace alone the lines of `compose_play run --json --ops` are made again, and compared. The cause of each call, the
calculated cells and the numbers of the nodes are made again from the groups of the frame before. For an input that is rejected
both programs print the same bytes and end with the same status.
"""
import json
import re

COUNTS = "ran", "calculated", "reads", "groups", "nodes"
# What may be between two words of a source text.
BLANK = r"(?:\s|;[^\n]*\n)*"
ENCODER = json.JSONEncoder(ensure_ascii=False, separators=(",", ":"))


def compact(value):
    """Returns a value as a line of JSON, as the programs print it."""
    return ENCODER.encode(value)


def tree_of(groups):
    """Returns the tree of the nodes among some groups, as `compose_play run --json` prints it."""
    top, around = [], []
    for group in groups:
        while around and around[-1][0] >= group["depth"]:
            around.pop()
        if group["kind"] == "node":
            attributes = dict(sorted(group["attributes"], key=lambda pair: pair[0]))
            node = {"attributes": attributes, "children": [], "kind": group["node"], "number": group["number"]}
            (around[-1][1]["children"] if around else top).append(node)
            around.append((group["depth"], node))
    return top


def lines_of(items):
    """Yields the lines of `compose_play run --json --ops`, made from the lines of a trace."""
    for item in items:
        if "call" in item:
            yield item["call"]
        elif "refused" in item:
            yield "refused: " + item["refused"]
        else:
            yield "report: " + ", ".join("%s %d" % (word, item["report"][word]) for word in COUNTS)
            yield from ("op: " + operation for operation in item["ops"])
            yield compact(tree_of(item["groups"]))


def by_path(groups):
    """Returns pairs of path and group. A path is that of the group around it, a site, a key, and an occurrence."""
    found, around = [], [((), {})]
    for group in groups:
        del around[group["depth"] + 1:]
        outer, counts = around[-1]
        step = group["site"], group["kind"], repr(group.get("key"))
        counts[step] = counts.get(step, 0) + 1
        path = outer + (step + (counts[step],),)
        around.append((path, {}))
        found.append((path, group))
    return found


class Checks:
    """What the frames of a trace must say, from the frames before them. Collects what they say wrongly."""

    def __init__(self, program):
        self.states = [state["name"] for state in program["states"]]
        self.actors = program["actors"]
        self.old, self.carried, self.faults, self.calls = {}, set(), [], []
        self.frames, self.most_number = 0, 0

    def expect(self, what, got, wanted):
        if got != wanted:
            self.faults.append("frame %d, %s: %s where %s is wanted" % (self.frames, what, compact(got), compact(wanted)))

    def call(self, line):
        self.calls.append(line)

    def frame(self, item):
        self.frames += 1
        self.expect("its number", item["frame"], self.frames)
        self.expect("its take", self.take_of(item) in self.calls, True)
        self.expect("its dispose", self.calls[-1], "%s: dispose @%d = disposed" % (item["actor"], item["snapshot"]))
        owed = {*self.carried, *item["changed"]}
        self.expect("changed, in the order of the states", item["changed"], [it for it in self.states if it in item["changed"]])
        self.expect("owed", item["owed"], [it for it in self.states if it in owed])
        if "refused" in item:
            self.carried = owed
            return
        self.carried = set()
        groups = by_path(item["groups"])
        self.expect("the report", item["report"], report_of(item["groups"]))
        self.marks(groups, item["owed"])
        self.numbers(groups)
        self.old = dict(groups)

    def take_of(self, item):
        changed = " ".join(["changed", *item["changed"]]) if item["changed"] else "changed"
        return "%s: frame = @%d %s" % (item["actor"], item["snapshot"], changed)

    def marks(self, groups, owed):
        """Checks why each call ran or did not, and which cells are calculated."""
        around = []
        for path, group in groups:
            del around[group["depth"]:]
            if group["kind"] == "call":
                cause = cause_of(self.old.get(path), group, owed, self.states)
                self.expect("the cause of %s" % group["function"], {word: group[word] for word in cause if word in group}, cause)
                self.expect("%s ran" % group["function"], group["ran"], cause["cause"] != "skipped")
            runs = group["ran"] if group["kind"] == "call" else around[-1]
            around.append(runs)
            if group["kind"] == "cell":
                old = self.old.get(path)
                self.expect("a cell", group["calculated"], runs and (old is None or old["keys"] != group["keys"]))

    def numbers(self, groups):
        """Checks that each node keeps its number, and that each new node gets the next one."""
        for path, group in groups:
            if group["kind"] != "node":
                continue
            if path not in self.old:
                self.most_number += 1
            self.expect("the number of %s" % group["node"], group["number"], self.old.get(path, {"number": self.most_number})["number"])


def report_of(groups):
    """Returns the report that the groups of a frame give."""
    calls = [group for group in groups if group["kind"] == "call"]
    return {
        "ran": sum(group["ran"] for group in calls),
        "calculated": sum(group["kind"] == "cell" and group["calculated"] for group in groups),
        "reads": sum(len(group["reads"]) for group in calls if group["ran"]),
        "groups": len(groups),
        "nodes": sum(group["kind"] == "node" for group in groups),
    }


def cause_of(old, call, owed, states):
    """Returns why a call ran, from the call at its path in the last good frame."""
    if old is None:
        return {"cause": "new path"}
    if old["function"] != call["function"] or old["arguments"] != call["arguments"]:
        return {"cause": "other arguments", "old": old["arguments"]}
    hit = [state for state in states if state in owed and state in old["reads"]]
    return {"cause": "read", "owed": hit} if hit else {"cause": "skipped"}


def check_program(program, source):
    """Returns what the first line of a trace says wrongly. Each offset must be that of the form."""
    text, faults = program["source"].encode(), []
    if text != source:
        faults.append("another source text")
    if program["trace"] != 1:
        faults.append("another version")
    offsets = [("state", it["at"], it["name"]) for it in program["states"]]
    offsets += [("fun", it["at"], it["name"]) for it in program["functions"]]
    for keyword, offset, name in offsets:
        if not re.compile((r"\(%s%s%s%s\b" % (BLANK, keyword, BLANK, name)).encode()).match(text, offset):
            faults.append("%s is not at %d" % (name, offset))
    sites = [site for it in program["functions"] for site in it["sites"]]
    forms = re.compile((r"\(%s(call|node|key|remember)\b" % BLANK).encode())
    faults += ["no form of site %d at %d" % (site, offset) for site, offset in sites if not forms.match(text, offset)]
    if any(one >= other or at >= later for (one, at), (other, later) in zip(sites, sites[1:])):
        faults.append("the sites are not in the order of the file")
    return faults


def faults_of(text, source):
    """Returns the lines of a trace as objects, and what they say wrongly."""
    lines = text.decode().split("\n")
    if lines.pop() != "":
        return [], ["the last line has no end"]
    items = [json.loads(line) for line in lines]
    faults = ["a line is not compact: " + line[:200] for line, item in zip(lines, items) if compact(item) != line]
    faults += check_program(items[0], source)
    checks = Checks(items[0])
    for item in items[1:]:
        if "call" in item:
            checks.call(item["call"])
        else:
            checks.frame(item)
    return items, faults + checks.faults


def test(play, trace, inputs, tally):
    """Tests the traces of inputs, which are pairs of a name and a text. `play` and `trace` run the programs on a text, and return
    the status and the output."""
    for name, source in inputs:
        ran, traced = play(source), trace(source)
        if ran[0] != 0:
            tally.judge(name + ", its trace", traced, ran)
            continue
        try:
            items, faults = faults_of(traced[1], source)
            made = "".join(line + "\n" for line in lines_of(items[1:]))
        except (ValueError, KeyError, IndexError, TypeError) as why:
            made, faults = "", ["%s: %s" % (type(why).__name__, why)]
        tally.judge(name + ", its trace by itself", (traced[0], "; ".join(faults[:3]).encode()), (0, b""))
        tally.judge(name + ", its lines from the trace", (0, made.encode()), (0, ran[1]))
