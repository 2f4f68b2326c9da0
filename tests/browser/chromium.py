"""Drives a Chromium without a window by its DevTools protocol, over a pair of pipes: nothing but Python and the browser."""

import base64
import fcntl
import json
import os
import shutil
import subprocess
import tempfile
import time


class Failed(Exception):
    """A command that the browser refused, or a script that threw."""


def name():
    """The browser's program: CHROMIUM, or the first that there is."""
    return os.environ.get("CHROMIUM") or shutil.which("chromium") or shutil.which("chromium-browser") or shutil.which("google-chrome")


class Chromium:
    """A browser with a profile of its own, which goes with it."""

    name = "chromium"

    def __init__(self):
        self.folder = tempfile.mkdtemp(prefix="print1525-web-")
        above = lambda number: fcntl.fcntl(number, fcntl.F_DUPFD, 10)
        command, self.commands = map(above, os.pipe())
        self.answers, answer = map(above, os.pipe())

        def place():
            os.dup2(command, 3)
            os.dup2(answer, 4)

        self.process = subprocess.Popen(
            [
                name(), "--headless=new", "--no-sandbox", "--disable-gpu", "--no-first-run", "--disable-extensions", "--disable-sync",
                "--disable-background-networking", "--disable-component-update", "--remote-debugging-pipe", f"--user-data-dir={self.folder}", "about:blank",
            ],
            preexec_fn=place, pass_fds=(3, 4), stdin=subprocess.DEVNULL, stdout=subprocess.DEVNULL, stderr=subprocess.DEVNULL,
        )
        os.close(command)
        os.close(answer)
        self.kept = b""
        self.number = 0
        self.events = []

    def close(self):
        try:
            self.send("Browser.close")
        except (Failed, OSError):
            pass
        self.process.wait(20)
        shutil.rmtree(self.folder, ignore_errors=True)

    def page(self, before="", width=1400, height=900):
        return Page(self, width, height, before)

    def send(self, method, session=None, **what):
        """Sends a command and gives its answer; what happens meanwhile is kept in `events`."""
        self.number += 1
        message = {"id": self.number, "method": method, "params": what}
        if session:
            message["sessionId"] = session
        self.write(json.dumps(message).encode() + b"\0")
        while True:
            answer = self.read()
            if answer.get("id") == self.number:
                if "error" in answer:
                    raise Failed(f"{method}: {answer['error']['message']}")
                return answer["result"]
            self.events.append(answer)

    def write(self, data):
        while data:
            data = data[os.write(self.commands, data):]

    def read(self):
        while b"\0" not in self.kept:
            data = os.read(self.answers, 1 << 20)
            if not data:
                raise Failed("the browser went away")
            self.kept += data
        message, self.kept = self.kept.split(b"\0", 1)
        return json.loads(message)


def inside(script):
    """A script that sees what the parts of the page have, which are ES modules (inside.js)."""
    return f"with (globalThis.inside || {{}}) {{ {script}\n}}"


class Waiting:
    """What each browser's page has."""

    def until(self, script, seconds=120):
        """Waits until a script's value is true, and gives how long that took."""
        began = time.time()
        while True:
            try:
                if self.run(script):
                    return time.time() - began
            except Failed as failed:
                if not any(words in str(failed) for words in ("Cannot find context", "not defined", "Can't find variable", "before initialization", "uninitialized")):
                    raise
            if time.time() - began > seconds:
                raise Failed(f"not within {seconds} s: {script}")
            time.sleep(0.02)


class Page(Waiting):
    """A page of the browser."""

    def __init__(self, browser, width=1400, height=900, before=""):
        self.browser = browser
        target = browser.send("Target.createTarget", url="about:blank")["targetId"]
        self.target = target
        self.session = browser.send("Target.attachToTarget", targetId=target, flatten=True)["sessionId"]
        for domain in ("Page", "Runtime", "Log"):
            self.send(f"{domain}.enable")
        if before:
            self.send("Page.addScriptToEvaluateOnNewDocument", source=before)
        self.size(width, height)

    def send(self, method, **what):
        return self.browser.send(method, self.session, **what)

    def close(self):
        self.browser.send("Target.closeTarget", targetId=self.target)

    def reload(self):
        """Loads the page again, and waits until another one is there."""
        self.run("window.isOld = true")
        self.send("Page.reload")
        self.until("!window.isOld && document.readyState === 'complete'")

    def size(self, width, height, scale=1):
        self.send("Emulation.setDeviceMetricsOverride", width=width, height=height, deviceScaleFactor=scale, mobile=False)

    def theme(self, name):
        self.send("Emulation.setEmulatedMedia", features=[{"name": "prefers-color-scheme", "value": name}])

    def go(self, address):
        self.send("Page.navigate", url=address)
        self.until("document.readyState === 'complete'")

    def run(self, script, sees=True):
        """The value of a script; a promise is waited for. One that is measured does not see the parts of the page, since it is slower then."""
        answer = self.send("Runtime.evaluate", expression=inside(script) if sees else script, awaitPromise=True, returnByValue=True)
        if "exceptionDetails" in answer:
            details = answer["exceptionDetails"]
            raise Failed(details.get("exception", {}).get("description") or details["text"])
        return answer["result"].get("value")

    def picture(self, path):
        with open(path, "wb") as file:
            file.write(base64.b64decode(self.send("Page.captureScreenshot", format="png")["data"]))

    def click(self, x, y):
        for kind in ("mouseMoved", "mousePressed", "mouseReleased"):
            self.send("Input.dispatchMouseEvent", type=kind, x=x, y=y, button="none" if kind == "mouseMoved" else "left", clickCount=1)

    def tap(self, x, y):
        """A finger at a place."""
        self.send("Input.dispatchTouchEvent", type="touchStart", touchPoints=[{"x": x, "y": y}])
        self.send("Input.dispatchTouchEvent", type="touchEnd", touchPoints=[])

    def move(self, x, y):
        self.send("Input.dispatchMouseEvent", type="mouseMoved", x=x, y=y)

    def type(self, text):
        self.send("Input.insertText", text=text)

    def press(self, key, code=0, text=None, modifiers=0, command=None):
        """A key; `command` is what the browser edits by it, as its menu would."""
        more = {**({"text": text} if text else {}), **({"commands": [command]} if command else {})}
        for kind in ("keyDown", "keyUp"):
            self.send("Input.dispatchKeyEvent", type=kind, key=key, windowsVirtualKeyCode=code, modifiers=modifiers, **(more if kind == "keyDown" else {}))

    def edit(self, key):
        """A key that edits: a letter, Enter, Backspace or Delete."""
        code, text, command = {"Enter": (13, "\r", None), "Backspace": (8, None, "deleteBackward"), "Delete": (46, None, "deleteForward")}.get(key, (ord(key[0].upper()), key, None))
        self.press(key, code, text, command=command)

    def complaints(self):
        """What went wrong on the page: exceptions, and what the console shows as errors."""
        found = []
        for event in self.browser.events:
            if event.get("sessionId") != self.session:
                continue
            what = event["params"]
            if event["method"] == "Runtime.exceptionThrown":
                details = what["exceptionDetails"]
                found.append(details.get("exception", {}).get("description") or details["text"])
            elif event["method"] == "Runtime.consoleAPICalled" and what["type"] in ("error", "assert", "warning"):
                found.append(" ".join(str(one.get("value", one.get("description"))) for one in what["args"]))
            elif event["method"] == "Log.entryAdded" and what["entry"]["level"] in ("error", "warning"):
                found.append(what["entry"]["text"])
        return found
