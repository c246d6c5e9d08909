"""A headless Chromium whose keys and mouse are used over its DevTools pipe."""
import fcntl
import json
import os
import select
import subprocess
import time

from support import LONGEST_RUN

OPTIONS = ["--headless=new", "--no-sandbox", "--disable-gpu", "--disable-dev-shm-usage", "--no-first-run",
           "--window-size=1280,900"]


def high(descriptor):
    """The same file with a number above those that the browser reads and writes."""
    copy = fcntl.fcntl(descriptor, fcntl.F_DUPFD_CLOEXEC, 10)
    os.close(descriptor)
    return copy


class Browser:
    """A headless Chromium with one open page, told by its DevTools pipe what to do."""

    def __init__(self, folder):
        reads, self.writes = map(high, os.pipe())
        self.reads, writes = map(high, os.pipe())
        self.process = subprocess.Popen(
            ["bash", "-c", f'exec chromium "$@" 3<&{reads} 4>&{writes}', "bash", *OPTIONS, "--remote-debugging-pipe",
             f"--user-data-dir={folder}/profile", "about:blank"], pass_fds=(reads, writes), stdin=subprocess.DEVNULL,
            stdout=subprocess.DEVNULL, stderr=subprocess.DEVNULL)
        os.close(reads)
        os.close(writes)
        self.kept, self.events, self.number, self.session = b"", [], 0, None
        target = self.call("Target.createTarget", url="about:blank")["targetId"]
        self.session = self.call("Target.attachToTarget", targetId=target, flatten=True)["sessionId"]
        for domain in ("Page", "Network", "Runtime", "Log"):
            self.call(f"{domain}.enable")

    def message(self):
        """The next message of the browser."""
        while b"\0" not in self.kept:
            if not select.select([self.reads], [], [], LONGEST_RUN)[0]:
                raise TimeoutError("the browser doesn't answer")
            read = os.read(self.reads, 1 << 20)
            if not read:
                raise EOFError("the browser ended")
            self.kept += read
        text, self.kept = self.kept.split(b"\0", 1)
        return json.loads(text)

    def call(self, method, **params):
        """What the browser answers to a call. Events before that are kept."""
        self.number += 1
        asked = {"id": self.number, "method": method, "params": params}
        if self.session:
            asked["sessionId"] = self.session
        data = json.dumps(asked).encode() + b"\0"
        while data:
            data = data[os.write(self.writes, data):]
        while True:
            told = self.message()
            if told.get("id") == self.number:
                if "error" in told:
                    raise ValueError(f"{method}: {told['error']}")
                return told["result"]
            self.events.append(told)

    def open(self, path, fragment=""):
        """Opens a page, and waits until it is loaded."""
        self.call("Page.navigate", url="about:blank")
        self.events.clear()
        self.call("Page.navigate", url=f"file://{path}{fragment}")
        end = time.monotonic() + LONGEST_RUN
        while self.value("document.readyState") != "complete" or self.value("location.protocol") != "file:":
            if time.monotonic() > end:
                raise TimeoutError(f"{path} isn't loaded")
            time.sleep(0.05)

    def value(self, expression):
        """The value of an expression in the page."""
        told = self.call("Runtime.evaluate", expression=expression, returnByValue=True)
        if "exceptionDetails" in told:
            raise ValueError(f"{expression}: {told['exceptionDetails']}")
        return told["result"].get("value")

    def text(self, name):
        """The text of an element."""
        return self.value(f"document.getElementById({json.dumps(name)}).textContent")

    def text_that_becomes(self, name, wanted):
        """The text of an element, as soon as it is the wanted one, or after a while."""
        end = time.monotonic() + LONGEST_RUN
        while self.text(name) != wanted and time.monotonic() < end:
            time.sleep(0.05)
        return self.text(name)

    def press(self, *keys):
        """Presses keys, one after the other, and tells the step that is shown then."""
        for key in keys:
            for kind in ("rawKeyDown", "keyUp"):
                self.call("Input.dispatchKeyEvent", type=kind, key=key, code=key)
        return self.text("step")

    def mouse(self, *moves):
        """Presses the mouse at the first point, moves it over the others, and lets it go at the last one."""
        for kind, (x, y) in [("mousePressed", moves[0])] + [("mouseMoved", move) for move in moves] + [("mouseReleased", moves[-1])]:
            self.call("Input.dispatchMouseEvent", type=kind, x=x, y=y, button="left", buttons=1, clickCount=1)
        return self.text("step")

    def box(self, selector):
        """Where an element stands: its left, top, width and height."""
        return self.value(f"(() => {{ const box = document.querySelector({json.dumps(selector)}).getBoundingClientRect();"
                          " return [box.left, box.top, box.width, box.height]; })()")

    def troubles(self):
        """What the page asked of anybody but itself, and what went wrong in it."""
        asked = [event["params"]["request"]["url"] for event in self.events if event.get("method") == "Network.requestWillBeSent"]
        wrong = [event for event in self.events if event.get("method") in ("Runtime.exceptionThrown", "Log.entryAdded")]
        others = [url for url in asked if not url.startswith(("file:", "about:"))]
        return f"it asks for {others or asked}, and {wrong}" if others or wrong or len(asked) > 1 else None

    def close(self):
        """Ends the browser."""
        try:
            self.session = None
            self.call("Browser.close")
            self.process.wait(20)
        except (OSError, EOFError, ValueError, TimeoutError, subprocess.TimeoutExpired):
            self.process.kill()
            self.process.wait()
        os.close(self.reads)
        os.close(self.writes)
