"""A headless Chromium, driven by its debugging protocol over two pipes: JSON texts, each ended by a zero byte."""

import base64
import fcntl
import json
import os
import queue
import shutil
import subprocess
import tempfile
import threading
import time

NAMES = ("chromium", "chromium-browser", "google-chrome")
SECONDS = 120  # for an answer
KEYS = {
    "Tab": (9, ""), "Enter": (13, "\r"), "Escape": (27, ""), " ": (32, " "), "PageUp": (33, ""), "PageDown": (34, ""), "End": (35, ""),
    "Home": (36, ""), "ArrowLeft": (37, ""), "ArrowUp": (38, ""), "ArrowRight": (39, ""), "ArrowDown": (40, ""),
}


def program():
    """The path of a Chromium, or None."""
    return next(filter(None, map(shutil.which, NAMES)), None)


class Failed(Exception):
    """A call that the browser refuses, or a script that throws."""


class Browser:
    """A Chromium with a profile of its own, and one tab, whose events are kept."""

    def __init__(self):
        self.folder = tempfile.mkdtemp()
        to_read, self.to = os.pipe()
        self.back, to_write = os.pipe()
        # numbers that are neither 3 nor 4, which the browser wants
        ends = [fcntl.fcntl(end, fcntl.F_DUPFD, 10) for end in (to_read, to_write)]
        words = [
            program(), "--headless=new", "--remote-debugging-pipe", "--no-sandbox", "--no-first-run", "--disable-gpu", "--mute-audio",
            "--disable-background-networking", "--disable-component-update", "--disable-sync", "--disable-extensions",
            "--disable-dev-shm-usage", "--disable-renderer-backgrounding", "--hide-scrollbars", f"--user-data-dir={self.folder}", "about:blank",
        ]

        def number_ends():
            os.dup2(ends[0], 3)
            os.dup2(ends[1], 4)

        self.process = subprocess.Popen(
            words, pass_fds=(3, 4), preexec_fn=number_ends, stdin=subprocess.DEVNULL, stdout=subprocess.DEVNULL, stderr=subprocess.DEVNULL
        )
        for end in (to_read, to_write, *ends):
            os.close(end)
        self.last = 0
        self.answers = {}
        self.events = []
        self.lock = threading.Lock()
        threading.Thread(target=self.read_all, daemon=True).start()
        self.session = None
        target = self.call("Target.createTarget", url="about:blank")["targetId"]
        self.session = self.call("Target.attachToTarget", targetId=target, flatten=True)["sessionId"]
        for domain in ("Page", "Runtime", "Network", "Log", "DOM", "Accessibility", "Performance"):
            self.call(f"{domain}.enable")

    def read_all(self):
        pieces = []  # of a message that hasn't ended
        while True:
            try:
                piece = os.read(self.back, 1 << 20)
            except OSError:
                return
            if not piece:
                return
            *ends, rest = piece.split(b"\0")
            for end in ends:
                self.take(json.loads(b"".join([*pieces, end])))
                pieces.clear()
            pieces.append(rest)

    def take(self, message):
        if "id" in message:
            with self.lock:
                waiting = self.answers.pop(message["id"], None)
            if waiting:
                waiting.put(message)
        else:
            self.events.append(message)

    def call(self, method, **given):
        waiting = queue.Queue()
        with self.lock:
            self.last += 1
            message = {"id": self.last, "method": method, "params": given}
            self.answers[self.last] = waiting
        if self.session:
            message["sessionId"] = self.session
        data = json.dumps(message).encode() + b"\0"
        while data:
            data = data[os.write(self.to, data) :]
        try:
            answer = waiting.get(timeout=SECONDS)
        except queue.Empty:
            raise Failed(f"no answer to {method}") from None
        if "error" in answer:
            raise Failed(f"{method}: {answer['error']['message']}")
        return answer["result"]

    def events_of(self, *methods):
        return [event["params"] for event in list(self.events) if event["method"] in methods]

    def evaluate(self, script):
        """What a script gives, as a value; one that throws fails."""
        found = self.call("Runtime.evaluate", expression=script, returnByValue=True, awaitPromise=True, userGesture=True)
        if "exceptionDetails" in found:
            details = found["exceptionDetails"]
            raise Failed(details.get("exception", {}).get("description", details["text"])[:1000])
        return found["result"].get("value")

    def call_function(self, script, *given):
        """What a function gives for these values."""
        return self.evaluate(f"({script})(...{json.dumps(given)})")

    def wait(self, script, seconds=60):
        """Waits until what a script gives is true."""
        end = time.monotonic() + seconds
        while not self.evaluate(f"Boolean({script})"):
            if time.monotonic() > end:
                raise Failed(f"it didn't become true in {seconds} seconds: {script}")
            time.sleep(0.05)

    def open(self, address):
        """Goes to an address, and waits until its document is there."""
        self.call("Page.navigate", url=address)
        self.wait(f"location.href.startsWith({json.dumps(address.split('#')[0])}) && document.readyState === 'complete'")

    def press(self, key, shift=False):
        code, text = KEYS.get(key, (ord(key.upper()[0]), key))
        given = {"key": key, "code": key, "windowsVirtualKeyCode": code, "modifiers": 8 if shift else 0}
        self.call("Input.dispatchKeyEvent", type="keyDown", **given, **({"text": text} if text else {}))
        self.call("Input.dispatchKeyEvent", type="keyUp", **given)

    def insert(self, text):
        self.call("Input.insertText", text=text)

    def choose_file(self, selector, *paths):
        """Gives files to a field, as the dialog of the browser does."""
        root = self.call("DOM.getDocument")["root"]["nodeId"]
        node = self.call("DOM.querySelector", nodeId=root, selector=selector)["nodeId"]
        self.call("DOM.setFileInputFiles", nodeId=node, files=list(paths))

    def size(self, width, height, scale=1):
        self.call("Emulation.setDeviceMetricsOverride", width=width, height=height, deviceScaleFactor=scale, mobile=False)

    def prefer(self, **features):
        """Sets preferences, as color_scheme='dark'."""
        listed = [{"name": f"prefers-{name.replace('_', '-')}", "value": value} for name, value in features.items()]
        self.call("Emulation.setEmulatedMedia", features=listed)

    def picture(self, path, whole=False):
        found = self.call("Page.captureScreenshot", format="png", captureBeyondViewport=whole)
        with open(path, "wb") as file:
            file.write(base64.b64decode(found["data"]))

    def close(self):
        try:
            self.session = None
            self.call("Browser.close")
        except (Failed, OSError):
            pass
        try:
            self.process.wait(timeout=10)
        except subprocess.TimeoutExpired:
            self.process.terminate()
            self.process.wait()
        for end in (self.to, self.back):
            os.close(end)
        shutil.rmtree(self.folder, ignore_errors=True)
