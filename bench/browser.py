"""Headless Chromium, driven by its own protocol over a pipe: pages are opened, looked at, and used by the mouse and the keys as people do."""
import base64
import json
import os
import shutil
import signal
import subprocess
import tempfile
import time

WORDS = ["--headless", "--no-sandbox", "--disable-gpu", "--hide-scrollbars", "--no-first-run", "--remote-debugging-pipe"]
SHOWN = "new Promise((done) => requestAnimationFrame(() => requestAnimationFrame(() => done(1))))"  # until the page was drawn twice


class Fault(Exception):
    """The browser refused what it was asked for."""


class Browser:
    """One page of Chromium. What the page says on its console, and errors of its scripts, are kept in `said`."""

    def __init__(self, width=1280, height=800):
        self.folder = tempfile.mkdtemp(prefix="browser-")
        given, self.asks = os.pipe()
        self.answers, told = os.pipe()
        # (the browser reads what it is asked from 3 and answers by 4)
        words = f'exec chromium {" ".join(WORDS)} --user-data-dir={self.folder} --window-size={width},{height} about:blank 3<&{given} 4>&{told}'
        self.run = subprocess.Popen(["bash", "-c", words], pass_fds=(given, told), stderr=subprocess.DEVNULL, start_new_session=True)
        os.close(given)
        os.close(told)
        self.count, self.rest, self.said, self.events = 0, b"", [], []
        self.session = None
        page = next(target for target in self.ask("Target.getTargets")["targetInfos"] if target["type"] == "page")
        self.session = self.ask("Target.attachToTarget", targetId=page["targetId"], flatten=True)["sessionId"]
        for part in ("Page", "Runtime", "Log", "DOM"):
            self.ask(f"{part}.enable")

    def __enter__(self):
        return self

    def __exit__(self, *_):
        os.killpg(self.run.pid, signal.SIGKILL)
        self.run.wait()
        os.close(self.asks)
        os.close(self.answers)
        shutil.rmtree(self.folder, ignore_errors=True)

    def message(self):
        """What the browser says next."""
        while b"\0" not in self.rest:
            more = os.read(self.answers, 1 << 20)
            if not more:
                raise Fault("the browser ended")
            self.rest += more
        told, _, self.rest = self.rest.partition(b"\0")
        message = json.loads(told)
        self.keep(message)
        return message

    def keep(self, message):
        method, told = message.get("method", ""), message.get("params", {})
        if method:
            self.events.append(method)
        if method == "Runtime.consoleAPICalled":
            self.said.append(" ".join(str(one.get("value", one.get("description"))) for one in told["args"]))
        if method == "Runtime.exceptionThrown":
            details = told["exceptionDetails"]
            self.said.append(details.get("exception", {}).get("description", details["text"]))
        if method == "Log.entryAdded":
            self.said.append(told["entry"]["text"])

    def ask(self, method, **what):
        self.count += 1
        asked = {"id": self.count, "method": method, "params": what}
        if self.session:
            asked["sessionId"] = self.session
        os.write(self.asks, json.dumps(asked).encode() + b"\0")
        while True:
            message = self.message()
            if message.get("id") == self.count:
                if "error" in message:
                    raise Fault(f"{method}: {message['error']}")
                return message["result"]

    def processor(self):
        """The seconds of the processor that all processes of the browser took."""
        used = 0
        for pid in filter(str.isdigit, os.listdir("/proc")):
            try:
                with open(f"/proc/{pid}/stat", encoding="utf-8") as file:
                    fields = file.read().rpartition(")")[2].split()
            except OSError:
                continue
            if int(fields[3]) == self.run.pid:
                used += int(fields[11]) + int(fields[12])
        return used / os.sysconf("SC_CLK_TCK")

    def open(self, path):
        """Opens a file, and returns the seconds until its load was done."""
        self.events.clear()
        began = time.monotonic()
        self.ask("Page.navigate", url=f"file://{path}")
        while "Page.loadEventFired" not in self.events:
            self.message()
        return time.monotonic() - began

    def value(self, expression):
        """The value of an expression of the page's scripts, awaited."""
        found = self.ask("Runtime.evaluate", expression=expression, returnByValue=True, awaitPromise=True)
        if "exceptionDetails" in found:
            raise Fault(found["exceptionDetails"].get("exception", {}).get("description", "a fault"))
        return found["result"].get("value")

    def shown(self):
        """Waits until the page was drawn twice."""
        self.value(SHOWN)

    def screen(self, width, height, dots=1, ground="light"):
        """Sets the size of the page, the dots of a pixel, and light or dark."""
        self.ask("Emulation.setDeviceMetricsOverride", width=width, height=height, deviceScaleFactor=dots, mobile=False)
        self.ask("Emulation.setEmulatedMedia", features=[{"name": "prefers-color-scheme", "value": ground}])
        self.shown()

    def picture(self, path):
        self.shown()
        with open(path, "wb") as out:
            out.write(base64.b64decode(self.ask("Page.captureScreenshot")["data"]))

    def mouse(self, sort, x, y, **what):
        self.ask("Input.dispatchMouseEvent", type=sort, x=x, y=y, **what)

    def click(self, x, y, shift=False):
        held = {"button": "left", "clickCount": 1, "modifiers": 8 if shift else 0}
        self.mouse("mousePressed", x, y, **held)
        self.mouse("mouseReleased", x, y, **held)

    def drag(self, x, y, to_x, to_y):
        self.mouse("mousePressed", x, y, button="left", clickCount=1)
        for part in range(1, 6):
            self.mouse("mouseMoved", x + (to_x - x) * part / 5, y + (to_y - y) * part / 5, button="left", buttons=1)
        self.mouse("mouseReleased", to_x, to_y, button="left", clickCount=1)

    def wheel(self, x, y, down=0, across=0):
        self.mouse("mouseWheel", x, y, deltaX=across, deltaY=down)

    def key(self, key, alt=False, shift=False):
        """Presses a key; a key of one character types it."""
        what = {"key": key, "modifiers": (1 if alt else 0) | (8 if shift else 0)}
        typed = {"text": key} if len(key) == 1 else {"text": "\r"} if key == "Enter" else {}
        self.ask("Input.dispatchKeyEvent", type="keyDown" if typed else "rawKeyDown", **what, **typed)
        self.ask("Input.dispatchKeyEvent", type="keyUp", **what)

    def type(self, text):
        self.ask("Input.insertText", text=text)

    def drop(self, x, y, path):
        """Drops a file on the page."""
        data = {"items": [], "files": [path], "dragOperationsMask": 1}
        for sort in ("dragEnter", "dragOver", "drop"):
            self.ask("Input.dispatchDragEvent", type=sort, x=x, y=y, data=data)
