"""A headless Chromium, which is told what to do over a pipe (DevTools protocol)."""
import base64
import fcntl
import json
import os
import select
import shutil
import subprocess
import tempfile

PROGRAM = next(filter(None, map(shutil.which, ("chromium", "chromium-browser", "google-chrome"))),
               None)
SECONDS = 120
KEYS = {"Enter": 13, "Escape": 27, "End": 35, "Home": 36, "ArrowLeft": 37, "ArrowUp": 38,
        "ArrowRight": 39, "ArrowDown": 40}


class Browser:
    """A window of a browser; `said` has the errors and warnings of its pages, and `asked` what they
    looked for in the network."""

    def __init__(self, width=1300, height=700):
        self.folder = tempfile.TemporaryDirectory()
        (theirs, self.to), (self.out, its) = self.pipe(), self.pipe()
        words = [PROGRAM, "--headless", "--remote-debugging-pipe", "--no-first-run",
                 "--disable-gpu", "--disable-dev-shm-usage", "--user-data-dir=" + self.folder.name]
        words += ["--no-sandbox"] * (os.geteuid() == 0)
        self.process = subprocess.Popen(
            words, stdin=subprocess.DEVNULL, stdout=subprocess.DEVNULL, stderr=subprocess.DEVNULL,
            close_fds=False, preexec_fn=lambda: (os.dup2(theirs, 3), os.dup2(its, 4)))
        os.close(theirs)
        os.close(its)
        self.number, self.left, self.session = 0, b"", None
        self.said, self.asked, self.loaded = [], [], set()
        page = self.tell("Target.createTarget", url="about:blank")["targetId"]
        self.session = self.tell("Target.attachToTarget", targetId=page, flatten=True)["sessionId"]
        for domain in "Page", "Runtime", "Log", "Network":
            self.tell(domain + ".enable")
        self.tell("Page.setLifecycleEventsEnabled", enabled=True)
        self.tell("Emulation.setDeviceMetricsOverride", width=width, height=height, mobile=False,
                  deviceScaleFactor=1)

    @staticmethod
    def pipe():
        """Returns the ends of a pipe, with numbers that are not those which the browser expects."""
        ends = os.pipe()
        moved = [fcntl.fcntl(end, fcntl.F_DUPFD_CLOEXEC, 10) for end in ends]
        for end in ends:
            os.close(end)
        return moved

    def tell(self, method, **parameters):
        """Calls a method, and returns its result."""
        self.number += 1
        call = {"id": self.number, "method": method, "params": parameters}
        if self.session:
            call["sessionId"] = self.session
        text = json.dumps(call).encode() + b"\0"
        while text:
            text = text[os.write(self.to, text):]
        while True:
            said = self.read()
            if said.get("id") == self.number:
                if "error" in said:
                    raise AssertionError("%s: %s" % (method, said["error"]))
                return said["result"]

    def read(self):
        """Returns the next message of the browser."""
        while b"\0" not in self.left:
            if not select.select([self.out], [], [], SECONDS)[0]:
                raise AssertionError("the browser says nothing for %d seconds" % SECONDS)
            block = os.read(self.out, 1 << 20)
            if not block:
                raise AssertionError("the browser ended")
            self.left += block
        text, _, self.left = self.left.partition(b"\0")
        said = json.loads(text)
        method, its = said.get("method"), said.get("params", {})
        if method == "Page.lifecycleEvent" and its["name"] == "load":
            self.loaded.add(its["loaderId"])
        elif method == "Log.entryAdded":
            self.said.append(its["entry"]["text"])
        elif method == "Runtime.exceptionThrown":
            self.said.append(json.dumps(its["exceptionDetails"]))
        elif method == "Network.requestWillBeSent":
            self.asked.append(its["request"]["url"])
        return said

    def open(self, path, fragment=""):
        """Opens a file, and waits until it is loaded."""
        for url in "about:blank", "file://%s%s" % (path, fragment):
            self.said, self.asked = [], []
            loader = self.tell("Page.navigate", url=url)["loaderId"]
            while loader not in self.loaded:
                self.read()

    def value(self, expression):
        """Returns the value of an expression in the page."""
        done = self.tell("Runtime.evaluate", expression=expression, returnByValue=True,
                         awaitPromise=True)
        if "exceptionDetails" in done:
            raise AssertionError(json.dumps(done["exceptionDetails"]))
        return done["result"].get("value")

    def press(self, *keys):
        """Presses keys, one after the other."""
        for key in keys:
            code = ord(key.upper()) if key.isalnum() and len(key) == 1 else 0
            one = dict(key=key, windowsVirtualKeyCode=KEYS.get(key, code))
            if len(key) == 1:
                one["text"] = key
            elif key == "Enter":
                one["text"] = "\r"
            self.tell("Input.dispatchKeyEvent", type="keyDown", **one)
            self.tell("Input.dispatchKeyEvent", type="keyUp", **one)

    def mouse(self, kind, x, y, **parameters):
        self.tell("Input.dispatchMouseEvent", type="mouse" + kind, x=x, y=y, **parameters)

    def click(self, x, y, count=1, **parameters):
        """Clicks at a place, also twice."""
        for number in range(1, count + 1):
            for kind in "Pressed", "Released":
                self.mouse(kind, x, y, button="left", clickCount=number, **parameters)

    def picture(self, path):
        """Writes a picture of the window."""
        with open(path, "wb") as file:
            file.write(base64.b64decode(self.tell("Page.captureScreenshot")["data"]))

    def close(self):
        """Ends the browser."""
        try:
            self.session = None
            self.tell("Browser.close")
        except (AssertionError, OSError):
            pass
        try:
            self.process.wait(20)
        except subprocess.TimeoutExpired:
            self.process.kill()
            self.process.wait()
        os.close(self.to)
        os.close(self.out)
        try:
            self.folder.cleanup()
        except OSError:  # it may still be writing there
            shutil.rmtree(self.folder.name, ignore_errors=True)
