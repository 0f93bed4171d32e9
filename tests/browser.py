"""A headless browser that opens a page, presses keys and evaluates JavaScript, by the DevTools protocol over two pipes."""
import json
import os
import select
import shutil
import subprocess
import tempfile

PROGRAMS = "chromium", "chromium-browser", "google-chrome"
# The seconds that the browser has for an answer.
SECONDS = 60
FLAGS = ["--headless", "--no-sandbox", "--disable-gpu", "--no-first-run", "--disable-dev-shm-usage", "--disable-background-networking",
         "--disable-component-update", "--disable-sync", "--remote-debugging-pipe"]
# The codes of keys that type no character.
CODES = {"Enter": 13, "Escape": 27, "End": 35, "Home": 36, "ArrowLeft": 37, "ArrowUp": 38, "ArrowRight": 39, "ArrowDown": 40, "Tab": 9}


def installed():
    """Returns the path of an installed browser, or None."""
    return next(filter(None, map(shutil.which, PROGRAMS)), None)


class Browser:
    """A browser with one page. `with Browser(program) as page:` ends it. The list `exceptions` has those that no script caught."""

    def __init__(self, program, width=1440, height=900):
        self.program, self.size, self.count = program, "--window-size=%d,%d" % (width, height), 0

    def __enter__(self):
        self.folder = tempfile.TemporaryDirectory(ignore_cleanup_errors=True)
        commands, self.writer = os.pipe()
        self.reader, answers = os.pipe()
        # The browser reads commands from descriptor 3, and writes answers to descriptor 4.
        words = ["bash", "-c", 'exec "$@" 3<&%d 4>&%d' % (commands, answers), ""]
        words += [self.program, *FLAGS, self.size, "--user-data-dir=" + self.folder.name]
        self.child = subprocess.Popen(words, pass_fds=(commands, answers), stdout=subprocess.DEVNULL, stderr=subprocess.DEVNULL)
        os.close(commands)
        os.close(answers)
        self.left, self.session, self.exceptions = b"", None, []
        try:
            self.attach()
        except (EOFError, OSError, ValueError):
            self.__exit__()
            raise
        return self

    def attach(self):
        """Opens an empty page. Later calls are for this page."""
        target = self.call("Target.createTarget", url="about:blank")["targetId"]
        self.session = self.call("Target.attachToTarget", targetId=target, flatten=True)["sessionId"]
        self.call("Page.enable")
        self.call("Runtime.enable")

    def __exit__(self, *_):
        os.close(self.reader)
        os.close(self.writer)
        self.child.terminate()
        self.child.wait(SECONDS)
        self.folder.cleanup()

    def message(self):
        """Reads a message. Messages end with a zero byte."""
        while b"\0" not in self.left:
            if not select.select([self.reader], [], [], SECONDS)[0]:
                raise TimeoutError("the browser does not answer")
            part = os.read(self.reader, 65536)
            if not part:
                raise EOFError("the browser has ended")
            self.left += part
        text, _, self.left = self.left.partition(b"\0")
        return json.loads(text)

    def call(self, method, **parameters):
        """Calls a method of the protocol. Returns its result."""
        self.count += 1
        command = {"id": self.count, "method": method, "params": parameters}
        if self.session:
            command["sessionId"] = self.session
        os.write(self.writer, json.dumps(command).encode() + b"\0")
        while True:
            message = self.message()
            if message.get("method") == "Runtime.exceptionThrown":
                self.exceptions.append(message["params"]["exceptionDetails"]["exception"].get("description"))
            if message.get("id") == self.count:
                if "error" in message:
                    raise ValueError("%s: %s" % (method, message["error"]["message"]))
                return message["result"]

    def open(self, path, fragment=""):
        """Opens a file, and waits until it is loaded."""
        self.call("Page.navigate", url="about:blank")
        self.call("Page.navigate", url="file://%s%s" % (path, fragment))
        self.value("new Promise(done => document.readyState === 'complete' ? done() : addEventListener('load', done))")

    def value(self, expression):
        """Evaluates an expression of JavaScript. Waits for a promise."""
        result = self.call("Runtime.evaluate", expression=expression, awaitPromise=True, returnByValue=True)
        if "exceptionDetails" in result:
            raise ValueError("%s: %s" % (expression, result["exceptionDetails"]["exception"].get("description")))
        return result["result"].get("value")

    def press(self, *keys):
        """Presses keys one after another."""
        for key in keys:
            typed = {"text": "\r" if key == "Enter" else key} if key == "Enter" or len(key) == 1 else {}
            how = {"key": key, "windowsVirtualKeyCode": CODES.get(key, 0)}
            self.call("Input.dispatchKeyEvent", type="keyDown", **how, **typed)
            self.call("Input.dispatchKeyEvent", type="keyUp", **how)
