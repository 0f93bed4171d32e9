"""Tests of tools/inspect: what its pages say of runs, the inputs that give no page, and how a page works in a browser."""
import html
import json
import os
import re
import subprocess
import sys
import tempfile

sys.dont_write_bytecode = True
import browser  # noqa: E402

TOP = os.path.dirname(os.path.dirname(os.path.abspath(__file__)))
TOOL = os.path.join(TOP, "tools", "inspect")

# For each frame of an example, the numbers of the marked nodes.
NODES = {
    "screen": [{"inserted": [1, 2, 3, 4]}, {"changed": [2]}, {"changed": [3]}, {"inserted": [5], "changed": [4]},
               {"removed": [3, 5], "changed": [4]}],
    "list": [{"inserted": [1, 2, 3, 4, 5, 6, 7, 8]}, {"moved": [3, 4], "changed": [6, 8]}, {"removed": [3, 8], "changed": [7]}],
}

# For each frame of an example after the first, why its calls ran.
CAUSES = {
    "rows": [["keyed_rows() read keyed", "row(1) new"],
             ["plain_rows() read plain", "row(1) from 2", "row(2) from 3", "row(3) from 4", "row(4) new"]],
    "grid": ["refused: too many groups", ["root() read side", "legend() read color"]],
}

# A text with what a page must not take for its own.
HOSTILE = '</script><b id="planted">{{DATA}} <!-- &amp; \u00e9'

PROGRAM = {"trace": 1, "states": [{"name": "a", "type": "Int", "policy": "Structural", "initial": 0, "at": 12}],
           "functions": [{"name": "root", "at": 39, "parameters": [], "sites": [[1, 52]]}], "actors": ["main"],
           "source": "(compose 1)\n(state a Int Structural 0)\n(fun root () (node N ()))\n(do main (frame))\n"}
CALLS = [{"call": "main: frame = @1 changed a"}, {"call": "main: dispose @1 = disposed"}]
ROOT = {"depth": 0, "site": 0, "kind": "call", "arguments": [], "function": "root", "reads": [], "ran": True, "cause": "new path"}
NODE = {"depth": 1, "site": 1, "kind": "node", "node": "N", "number": 1, "attributes": []}
FRAME = {"frame": 1, "actor": "main", "snapshot": 1, "changed": ["a"], "owed": ["a"],
         "report": {"ran": 1, "calculated": 0, "reads": 0, "groups": 2, "nodes": 1}, "groups": [ROOT, NODE],
         "ops": ["insertTopDown 0 #1 N"]}


def trace_of(*items):
    """Returns a trace with the given lines."""
    return "".join(json.dumps(item) + "\n" for item in items)


def frame(**members):
    """Returns a trace of one frame with other members."""
    return trace_of(PROGRAM, *CALLS, {**FRAME, **members})


MISFIT = "this is no trace: line %d lacks a member, or a member has another kind of value"

# Inputs that give no page, and what the tool says of them.
FAULTY = [
    ("", "the trace is empty"),
    ("bad input: name at 77\n", "the input was rejected: bad input: name at 77"),
    ("too long\n", "the input was rejected: too long"),
    ("main: frame = @1 changed a\n", "this is no trace: line 1 is not JSON"),
    ("[" * 100000, "this is no trace: line 1 is not JSON"),
    ("\xff\n", "this is no trace: line 1 is not JSON"),
    ("[1]\n", "this is no trace: line 1 is no object"),
    ('{"a":1}\n', "this is no trace: the first line is not that of a program"),
    ('{"trace":2}\n', "this is no trace: the first line is not that of a program"),
    ('{"trace":1}\n', MISFIT % 1),
    (trace_of(PROGRAM), "no frame in the trace"),
    (trace_of(PROGRAM, *CALLS), "no frame in the trace"),
    (trace_of(PROGRAM, {"other": 1}), "line 2: it has neither a call nor a frame"),
    (trace_of(PROGRAM, {"call": "main turns"}), "line 2: 'main turns' is no call"),
    (trace_of(PROGRAM, {"call": "ben: apply @1 = applied"}), MISFIT % 2),
    (trace_of(PROGRAM, *CALLS, FRAME)[:-9], "this is no trace: line 4 is not JSON"),
    (trace_of(PROGRAM, FRAME), MISFIT % 2),
    (frame(ops=[]), "line 4: the operations of frame 1 do not give its tree"),
    (frame(ops=["insertTopDown 0 #2 N"]), "line 4: the operations of frame 1 do not give its tree"),
    (frame(ops=["insertTopDown 0 #1 N a=1"]), "line 4: the operations of frame 1 do not give its tree"),
    (frame(ops=[*FRAME["ops"], "down 0", 'set a "b c=1"', "up"]), "line 4: the operations of frame 1 do not give its tree"),
    (frame(ops=["turn 1"]), "line 4: the operation 'turn 1' is unknown"),
    (frame(ops=[*FRAME["ops"], "insertBottomUp 0 #2 N"]),
     "line 4: the operation 'insertBottomUp 0 #2 N' reports another node than the one at its index"),
    (frame(ops=["down 3"]), MISFIT % 4),
    (frame(changed=["b"]), MISFIT % 4),
    (frame(groups=[{**ROOT, "cause": "luck"}, NODE]), "line 4: the cause 'luck' of a call is unknown"),
    (frame(groups=[ROOT, {**NODE, "kind": "leaf"}]), "line 4: the kind 'leaf' of a group is unknown"),
    (frame(report={}), MISFIT % 4),
]


def inspect(data, *words):
    """Runs the tool on a trace. Returns its status, the page and the message."""
    ran = subprocess.run([TOOL, *words], input=data, stdout=subprocess.PIPE, stderr=subprocess.PIPE, timeout=60)
    return ran.returncode, ran.stdout.decode(), ran.stderr.decode()


def data_of(page):
    """Returns what the script of a page reads."""
    return json.loads(re.search(r'<script type="application/json" id="data">(.*?)</script>', page, re.DOTALL)[1])


def marked_nodes(data):
    """Returns for each frame the numbers of the marked nodes."""
    lists = {"inserted": "inserted", "moved": "moved", "removed": "removed", "changed": "changed_nodes"}
    return [{word: frame[member] for word, member in lists.items() if member in frame} for frame in data["frames"]]


def rows_of(data):
    """Yields each frame with its rows."""
    rows = []
    for frame in data["frames"]:
        runs, before, rows = iter(frame.get("rows", [0, len(rows)])), rows, []
        for item in runs:
            rows += [data["rows"][-1 - item]] if item < 0 else before[item:item + next(runs)]
        yield frame, rows


def causes(data):
    """Returns for each frame after the first why its calls ran, or why it was refused."""
    found = []
    for frame, rows in rows_of(data):
        why = {index: "new" for index in frame.get("new", [])}
        why.update((index, "from " + ", ".join(old)) for index, *old in frame.get("other", []))
        why.update((index, "read " + ", ".join(data["states"][state] for state in read)) for index, *read in frame.get("read", []))
        calls = ["%s(%s) %s" % (rows[index][4], rows[index][5], why[index]) for index in sorted(why)]
        found.append("refused: " + frame["refused"] if "refused" in frame else calls)
    return found[1:]


def shown_text(page):
    """Returns the source text that a page shows."""
    return html.unescape(re.sub("<[^>]*>", "", re.search(r'<pre id="text">(.*?)</pre>', page, re.DOTALL)[1]))


def large_program(rows, frames):
    """Returns a program that shows a list of rows, and a script that changes a state, moves a row, replaces a row or turns the list
    round before each frame."""
    ids = list(range(rows))
    steps = []
    for number in range(frames):
        if number % 4 == 0:
            steps.append("(write global stars %d)" % number)
            continue
        if number % 4 == 1:
            ids.insert(7 * number % rows, ids.pop(31 * number % rows))
        elif number % 4 == 2:
            ids[13 * number % rows] = rows + number
        else:
            ids.reverse()
        steps.append("(write global ids (ints %s))" % " ".join(map(str, ids)))
    return ("(compose 1)\n(state ids Ints Structural (ints))\n(state stars Int Structural 0)\n"
            "(fun row ((id Int)) (remember label ((id id)) (join \"row \" (text id)) (node Row ((label label)))))\n"
            "(fun head () (node Head ((stars (get stars)))))\n"
            "(fun root () (call head) (for id (get ids) (key id (call row id))))\n%s" % "".join("(do main %s (frame))\n" % it for it in steps))


def test(trace, example, tally):
    """Tests the pages of examples. `trace` returns the trace of an input, and `example` the text of an example."""
    def fact(name, got, wanted):
        tally.judge("inspect, " + name, (0, str(got).encode()), (0, str(wanted).encode()))

    fact("a page of a trace of one frame", inspect(frame().encode())[::2], (0, ""))
    for data, why in FAULTY:
        got = inspect(data.encode("latin-1"))
        fact("no page of %r" % data[:60], got, (1, "", "inspect: %s\n" % why))
    fact("no page of a missing file", inspect(b"", "missing"), (1, "", "inspect: missing: No such file or directory\n"))
    pages = {name: inspect(trace(example(name)), "--title", name + " & more")[1] for name in sorted({*NODES, *CAUSES, "document"})}
    for name, page in pages.items():
        fact("source text of examples/" + name, shown_text(page).encode() == example(name), True)
        fact("title of examples/" + name, "<h1>%s &amp; more</h1>" % name in page, True)
    for name, wanted in NODES.items():
        fact("nodes of examples/" + name, marked_nodes(data_of(pages[name])), wanted)
    for name, wanted in CAUSES.items():
        fact("causes in examples/" + name, causes(data_of(pages[name])), wanted)
    hostile = inspect(trace(hostile_program().encode()))[1]
    fact("a text with HTML", (shown_text(hostile), data_of(hostile)["rows"][1][6]),
         (hostile_program(), [["t", json.dumps(HOSTILE, ensure_ascii=False)]]))
    large = inspect(trace(large_program(1000, 100).encode()))[1]
    fact("at most 2 MB for 100 frames of 1,000 nodes", (data_of(large)["frames"][-1]["report"][4], len(large.encode()) < 2000000), (1001, True))
    program = browser.installed()
    if not program:
        print("no browser is installed: the pages of tools/inspect are not opened")
        return
    try:
        in_browser(program, {**pages, "hostile": hostile, "large": large}, fact)
    except (EOFError, OSError, ValueError) as why:
        fact("the browser", why, "no error")


def in_browser(program, pages, fact):
    """Opens pages, which are given by their names, in a browser."""
    with browser.Browser(program) as page, tempfile.TemporaryDirectory() as folder:
        for name, text in pages.items():
            with open(os.path.join(folder, name + ".html"), "w", encoding="utf-8") as it:
                it.write(text)
        opened = Opened(page, folder, fact)
        opened.moving()
        opened.lists()
        opened.searching()
        opened.focus()
        opened.operations()
        opened.calls()
        opened.screens()
        opened.hostile()
        opened.large()
        fact("no uncaught exception", page.exceptions, [])


def hostile_program():
    """Returns a program whose text, node and write have the text of HTML."""
    text = '"%s"' % HOSTILE.replace('"', '\\"')
    return ("; %s\n(compose 1)\n(state s Text Structural %s)\n(fun root () (node N ((t (get s)))))\n"
            "(do main (frame) (write global s %s) (frame))\n" % (HOSTILE, text, text))


class Opened:
    """The tests of pages in a browser."""

    def __init__(self, page, folder, fact):
        self.page, self.folder, self.judge = page, folder, fact

    def open(self, name, fragment=""):
        self.page.open(os.path.join(self.folder, name + ".html"), fragment)

    def fact(self, name, expression, wanted):
        self.judge("in a browser, " + name, self.page.value(expression), wanted)

    def place(self, name, wanted):
        self.fact(name, "byId('place').textContent", wanted)

    def press(self, *keys):
        self.page.press(*keys)

    def texts(self, name, selector, wanted):
        """Tests the texts of the elements that a selector finds."""
        self.fact(name, "[...document.querySelectorAll(%s)].map(it => it.textContent)" % json.dumps(selector), wanted)

    def moving(self):
        """Frames by keys, by an address, by a bar of the strip and by a column of the snapshots."""
        self.open("screen")
        self.place("the first frame", "Frame 1 of 5")
        for key, frame in [("ArrowRight", 2), ("End", 5), ("ArrowRight", 5), ("ArrowLeft", 4), ("Home", 1), ("ArrowLeft", 1)]:
            self.press(key)
            self.place("%s to frame %d" % (key, frame), "Frame %d of 5" % frame)
        self.fact("the address", "location.hash", "#frame-1")
        self.fact("another address", "new Promise(done => { addEventListener('hashchange', () => done(byId('place').textContent));"
                  " location.hash = '#frame-4'; })", "Frame 4 of 5")
        self.fact("a bar", "document.querySelectorAll('.bar')[1].click(); byId('place').textContent", "Frame 2 of 5")
        self.fact("a column", "document.querySelectorAll('.column')[2].dispatchEvent(new MouseEvent('click', {bubbles: true}));"
                  " byId('place').textContent", "Frame 3 of 5")
        self.fact("one bar is a tab stop", "document.querySelectorAll('.bar[tabindex=\"0\"]').length", 1)
        for link, frame in [("#frame-3", 3), ("#frame-99", 5), ("#frame-0", 1), ("#other", 1)]:
            self.open("screen", link)
            self.place("the link " + link, "Frame %d of 5" % frame)

    def lists(self):
        """What the slot table, the node tree and the source text say."""
        self.open("rows", "#frame-3")
        self.texts("causes", ".group.call .why", ["skipped", "skipped", "skipped", "skipped", "skipped", "skipped",
                                                  "read plain", "2 \u2192 1", "3 \u2192 2", "4 \u2192 3", "new"])
        self.texts("how often", ".group.call .times", ["1 \u00b7 2", "2 \u00b7 1", "1 \u00b7 1", "1 \u00b7 2", "1 \u00b7 2", "1 \u00b7 2",
                                                       "2 \u00b7 1", "2 \u00b7 1", "2 \u00b7 1", "2 \u00b7 1", "1 \u00b7 0"])
        self.texts("cells", ".group.cell .why", ["kept"] * 4 + ["calculated"] * 4)
        self.texts("nodes", "#nodes .marked", ["Row#6changedid=2 1square=4 1", "Row#7changedid=3 2square=9 4",
                                               "Row#8changedid=4 3square=16 9", "Row#10insertedid=4square=16"])
        self.texts("functions that ran", "#text .fun.ran > .name", ["row", "plain_rows"])
        self.fact("sites that ran", "[...document.querySelectorAll('[data-times]')].map(it => it.dataset.times)", ["4 of 4 ran", "ran"])
        self.open("grid", "#frame-2")
        self.fact("a refused frame", "byId('refusal').textContent", "This frame was refused: too many groups. "
                  "The groups are those of the last good frame. side, color stay owed.")

    def searching(self):
        self.open("rows", "#frame-2")
        self.press("/", *"Row #9", "ArrowRight")
        self.place("a cursor key in the search", "Frame 2 of 3")
        self.fact("hits", "byId('hits').textContent", "1 of 2")
        self.texts("the hit", ".line.at", ["\u25a2Row #9inserted"])
        self.press("Enter")
        self.texts("the next hit", ".line.at", ["Row#9insertedid=1square=1"])
        self.press("Escape", "f", "/", *"row(3)")
        self.texts("a hit among folded groups", ".line.at", ["\u0192row(3)skipped1 \u00b7 1"])
        self.press("Escape", "f", "ArrowRight")
        self.fact("no hit", "byId('hits').textContent + document.querySelectorAll('.hit').length", "0")
        self.place("a cursor key after the search", "Frame 3 of 3")

    def focus(self):
        """Each row can have the focus, and one row of each list is the tab stop."""
        self.open("rows", "#frame-2")
        for box in "slots", "nodes":
            self.fact("rows of " + box, "[...document.querySelectorAll('#%s .line')].every("
                      "it => it.getAttribute('role') === 'treeitem' && it.ariaLevel > 0 && it.hasAttribute('tabindex'))" % box, True)
            self.fact("tab stops of " + box, "document.querySelectorAll('#%s [tabindex=\"0\"]').length" % box, 1)
        self.press("ArrowDown")
        self.texts("the first call that ran", ":focus .name", ["keyed_rows"])
        self.press("ArrowDown", "ArrowDown", "ArrowDown")
        self.fact("a row below", "document.activeElement.ariaSelected + byId('say').textContent",
                  "truerow(1) ran because it is new here: the last frame had no call at this path. So far it ran once and was never skipped.")
        self.press("ArrowDown", "ArrowDown")
        self.texts("a row and its node are selected", ".on .name", ["Row", "Row", "Row"])
        self.press("Tab", "ArrowDown")
        self.texts("the node tree", "#nodes :focus", ["Row#2id=2square=4"])
        self.fact("a node under the pointer", "nodes.lines()[0].dispatchEvent(new MouseEvent('mouseover', {bubbles: true}));"
                  " ['#slots', '#nodes', '#text'].map(box => document.querySelectorAll(box + ' .lit').length)", [1, 1, 1])
        self.press("f")
        self.texts("only what ran", "#slots .fold", ["12 groups kept", "11 groups kept"])
        self.fact("a folded row", "document.querySelector('.fold').focus(); document.activeElement.ariaExpanded", "false")
        self.press("Enter")
        self.texts("an opened row", "#slots .fold", ["11 groups kept"])

    def operations(self):
        """An operation lights the node that it touches, and selects it on Enter."""
        self.open("list", "#frame-2")
        lit = "[...document.querySelectorAll('.line.lit .number')].map(it => it.textContent)"
        self.fact("an operation under the pointer", "byId('operations').open = true; document.querySelectorAll('#ops .line')[1]"
                  ".dispatchEvent(new MouseEvent('mouseover', {bubbles: true})); [byId('ops').children[0].children[0].children[1].textContent,"
                  " ...%s]" % lit, ["move 2 0 1", "#4"])
        self.fact("no operation under the pointer", "byId('ops').dispatchEvent(new MouseEvent('mouseleave')); %s" % lit, [])
        self.fact("an operation with the focus", "document.querySelectorAll('#ops .line')[2].focus(); %s" % lit, ["#3"])
        self.fact("an operation with the focus, drawn again", "ops.draw(true); [document.activeElement.textContent, ...%s]" % lit, ["move 2 1 1", "#3"])
        self.press("Enter")
        self.texts("a selected node", "#nodes .on .number", ["#3"])

    def calls(self):
        self.open("document", "#frame-3")
        self.texts("the calls as text", "#calls li", [
            "anna: apply @2 = conflict title", 'anna: read @2 title = "Plan by Anna"', "anna: dispose @2 = disposed",
            "anna: take mutable @0 = @6", 'anna: write @6 title "Plan by Ben and Anna" = changed', "anna: read @6 pages = 1",
            "anna: write @6 pages 2 = changed", "anna: read @6 likes = 10", "anna: write @6 likes 11 = changed", "ben: read @0 likes = 10",
            "ben: write @0 likes 15 = changed", "anna: apply @6 = applied", "ui: frame = @7 changed title pages likes",
            "ui: dispose @7 = disposed"])
        self.texts("a conflict", "#lanes text.bad", ["conflict title"])
        self.texts("the owners", "#lanes .owner", ["global", "anna @2", "ben @3", "ben @4", "anna @6"])
        self.fact("a call among the snapshots", "document.querySelector('#lanes .call[data-call=\"10\"]').dispatchEvent("
                  "new MouseEvent('click', {bubbles: true})); [byId('place').textContent, document.querySelector('#calls .lit').textContent]",
                  ["Frame 2 of 3", 'ben: write @4 title "Plan by Ben" = changed'])

    def screens(self):
        """Dark, and as narrow as a telephone."""
        self.press("d")
        ground = "getComputedStyle(document.body).backgroundColor"
        self.fact("dark", ground, "rgb(20, 22, 26)")
        self.press("d")
        self.fact("light", ground, "rgb(255, 255, 255)")
        self.page.call("Emulation.setDeviceMetricsOverride", width=400, height=800, deviceScaleFactor=1, mobile=False)
        self.fact("a narrow screen", "document.documentElement.scrollWidth <= document.documentElement.clientWidth", True)
        self.page.call("Emulation.clearDeviceMetricsOverride")

    def hostile(self):
        self.open("hostile")
        self.fact("a text with HTML", "document.querySelectorAll('#planted').length", 0)
        self.texts("a text with HTML, as a value", "#nodes .values", ["t=" + json.dumps(HOSTILE, ensure_ascii=False)])

    def large(self):
        """A large page opens in less than a second of processor time, and has only the rows near the visible ones as elements."""
        self.page.call("Performance.enable", timeDomain="threadTicks")
        self.open("large", "#frame-100")
        seconds = {it["name"]: it["value"] for it in self.page.call("Performance.getMetrics")["metrics"]}["TaskDuration"]
        self.place("a large page", "Frame 100 of 100")
        self.judge("in a browser, the time of a large page", seconds < 1 or seconds, True)
        self.fact("the elements of a large page", "document.querySelectorAll('*').length < 5000", True)
