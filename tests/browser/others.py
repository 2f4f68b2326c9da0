"""Drives Firefox by WebDriver BiDi over a socket, and WebKitGTK by its WebDriver: nothing but Python and the browsers.

Both have the calls of chromium.py that the tests need everywhere: open, go, run, until, type, press, click, size, theme, reload
and picture. A script's value comes back as JSON."""

import base64
import json
import os
import shutil
import signal
import socket
import subprocess
import tempfile
import time
import urllib.request

from chromium import Failed, Waiting, inside

KEYS = {"Enter": "\ue007", "Escape": "\ue00c", "ArrowLeft": "\ue012", "ArrowRight": "\ue014", "ArrowUp": "\ue013", "ArrowDown": "\ue015", "Tab": "\ue004", "Backspace": "\ue003", "Delete": "\ue017"}


def free_port():
    with socket.socket() as made:
        made.bind(("127.0.0.1", 0))
        return made.getsockname()[1]


def strokes(keys):
    """Key presses, as both protocols have them."""
    return [{"type": kind, "value": KEYS.get(key, key)} for key in keys for kind in ("keyDown", "keyUp")]


def pointer(x, y, kinds=("pointerMove", "pointerDown", "pointerUp")):
    acts = {"pointerMove": {"type": "pointerMove", "x": int(x), "y": int(y)}, "pointerDown": {"type": "pointerDown", "button": 0}, "pointerUp": {"type": "pointerUp", "button": 0}}
    return [{"type": "pointer", "id": "mouse", "parameters": {"pointerType": "mouse"}, "actions": [acts[kind] for kind in kinds]}]


# Shows the page as in a theme: the rules for dark colours hold for all windows, or for none.
THEME = """
(isDark => {
  window.darkRules ??= [...document.styleSheets].flatMap(sheet => [...sheet.cssRules]).filter(rule => /prefers-color-scheme: dark/.test(rule.media?.mediaText));
  for (const { media } of darkRules) media.mediaText = isDark ? 'all' : 'not all';
  document.documentElement.style.colorScheme = isDark ? 'dark' : 'light';
  wave.draw();
})(%s)
"""


class Themed(Waiting):
    def edit(self, key):
        """A key that edits: a letter, Enter, Backspace or Delete."""
        self.press(key)

    """A page of a browser whose protocol has no themes."""

    def theme(self, name):
        self.run(THEME % json.dumps(name == "dark"))


class Socket:
    """A WebSocket without its rarer parts: whole messages of text."""

    def __init__(self, port, path):
        self.wire = socket.create_connection(("127.0.0.1", port))
        key = base64.b64encode(os.urandom(16)).decode()
        self.wire.sendall(
            f"GET {path} HTTP/1.1\r\nHost: 127.0.0.1:{port}\r\nUpgrade: websocket\r\nConnection: Upgrade\r\nSec-WebSocket-Key: {key}\r\nSec-WebSocket-Version: 13\r\n\r\n".encode()
        )
        self.kept = b""
        while b"\r\n\r\n" not in self.kept:
            self.kept += self.more()
        answer, self.kept = self.kept.split(b"\r\n\r\n", 1)
        if b" 101 " not in answer:
            raise Failed(answer.decode("latin1"))

    def more(self):
        data = self.wire.recv(1 << 20)
        if not data:
            raise Failed("the browser went away")
        return data

    def take(self, count):
        parts, size = [self.kept], len(self.kept)
        while size < count:
            parts.append(self.more())
            size += len(parts[-1])
        data = b"".join(parts)
        self.kept = data[count:]
        return data[:count]

    def send(self, text, kind=1):
        data, mask = text.encode(), os.urandom(4)
        size = bytes([128 + len(data)]) if len(data) < 126 else b"\xfe" + len(data).to_bytes(2, "big") if len(data) < 65536 else b"\xff" + len(data).to_bytes(8, "big")
        key = int.from_bytes((mask * (len(data) // 4 + 1))[: len(data)], "big")
        self.wire.sendall(bytes([128 + kind]) + size + mask + (int.from_bytes(data, "big") ^ key).to_bytes(len(data), "big"))

    def read(self):
        whole = b""
        while True:
            first, size = self.take(2)
            if size >= 126:
                size = int.from_bytes(self.take(2 if size == 126 else 8), "big")
            data = self.take(size)
            if first & 15 == 9:
                self.send(data.decode("latin1"), 10)
            elif first & 15 in (0, 1):
                whole += data
                if first & 128:
                    return whole.decode()
            elif first & 15 == 8:
                raise Failed("the browser closed its socket")


class Firefox:
    """A Firefox without a window, with a profile of its own."""

    name = "firefox"

    def __init__(self):
        self.folder = tempfile.mkdtemp(prefix="print1525-web-")
        port = free_port()
        words = [shutil.which("firefox-esr") or shutil.which("firefox"), "--headless", "--no-remote", "--profile", self.folder, f"--remote-debugging-port={port}", "about:blank"]
        self.process = subprocess.Popen(words, stdin=subprocess.DEVNULL, stdout=subprocess.DEVNULL, stderr=subprocess.DEVNULL, start_new_session=True)
        for _ in range(600):
            try:
                self.socket = Socket(port, "/session")
                break
            except (OSError, Failed):
                time.sleep(0.1)
        self.number, self.events = 0, []
        self.send("session.new", capabilities={})
        self.send("session.subscribe", events=["log.entryAdded"])

    def send(self, method, **what):
        self.number += 1
        self.socket.send(json.dumps({"id": self.number, "method": method, "params": what}))
        while True:
            answer = json.loads(self.socket.read())
            if answer.get("id") == self.number:
                if answer["type"] == "error":
                    raise Failed(f"{method}: {answer['message']}")
                return answer["result"]
            self.events.append(answer)

    def page(self, before="", width=1400, height=900):
        return FirefoxPage(self, before, width, height)

    def close(self):
        os.killpg(self.process.pid, signal.SIGTERM)
        self.process.wait(20)
        shutil.rmtree(self.folder, ignore_errors=True)


class FirefoxPage(Themed):
    def __init__(self, browser, before, width, height):
        self.browser = browser
        self.context = browser.send("browsingContext.create", type="tab")["context"]
        if before:
            browser.send("script.addPreloadScript", functionDeclaration=f"() => {{ if (location.protocol === 'file:') {{ {before} }} }}", contexts=[self.context])
        self.size(width, height)

    def send(self, method, **what):
        return self.browser.send(method, context=self.context, **what)

    def close(self):
        self.send("browsingContext.close")

    def size(self, width, height, scale=1):
        self.send("browsingContext.setViewport", viewport={"width": width, "height": height})

    def go(self, address):
        self.send("browsingContext.navigate", url=address, wait="complete")

    def reload(self):
        self.run("window.isOld = true")
        self.send("browsingContext.reload", wait="complete")
        # (On a busy machine it may say so while it still has the old page.)
        self.until("!window.isOld && document.readyState === 'complete'")

    def run(self, script, sees=True):
        answer = self.browser.send("script.evaluate", expression=inside(script) if sees else script, target={"context": self.context}, awaitPromise=True, serializationOptions={"maxObjectDepth": 9})
        if answer["type"] == "exception":
            raise Failed(answer["exceptionDetails"]["text"])
        return value_of(answer["result"])

    def act(self, actions):
        self.send("input.performActions", actions=actions)

    def type(self, text):
        self.act([{"type": "key", "id": "keys", "actions": strokes(["Enter" if sign == "\n" else sign for sign in text])}])

    def press(self, key, *_):
        self.act([{"type": "key", "id": "keys", "actions": strokes([key])}])

    def click(self, x, y):
        self.act(pointer(x, y))

    def picture(self, path):
        with open(path, "wb") as file:
            file.write(base64.b64decode(self.send("browsingContext.captureScreenshot")["data"]))

    def complaints(self):
        found = [event["params"] for event in self.browser.events if event.get("method") == "log.entryAdded"]
        return [it["text"] for it in found if it["level"] in ("error", "warn") and it["source"].get("context") == self.context]


def value_of(result):
    """A value of BiDi's as Python has it."""
    kind, value = result["type"], result.get("value")
    if kind == "array":
        return [value_of(one) for one in value]
    if kind == "object":
        return {name: value_of(one) for name, one in value}
    return float(value) if kind == "number" and isinstance(value, str) and value != "-0" else value


class Webkit:
    """WebKitGTK's small browser, on a screen of Xvfb, driven by WebKitWebDriver."""

    name = "webkit"

    def __init__(self):
        self.display = None
        for number in range(90, 190):
            if not os.path.exists(f"/tmp/.X11-unix/X{number}"):
                self.display = subprocess.Popen(["Xvfb", f":{number}", "-screen", "0", "1600x1200x24"], stdout=subprocess.DEVNULL, stderr=subprocess.DEVNULL)
                break
        self.port, self.events, self.window = free_port(), [], None
        environment = {**os.environ, "DISPLAY": f":{number}", "WEBKIT_DISABLE_SANDBOX_THIS_IS_DANGEROUS": "1"}
        self.process = subprocess.Popen(["WebKitWebDriver", f"--port={self.port}"], env=environment, stdout=subprocess.DEVNULL, stderr=subprocess.DEVNULL, start_new_session=True)
        browser = next((path for path in (f"/usr/lib/x86_64-linux-gnu/webkit2gtk-{n}/MiniBrowser" for n in ("4.1", "4.0", "6.0")) if os.path.exists(path)), None)
        asked = {"browserName": "MiniBrowser", "webkitgtk:browserOptions": {"binary": browser, "args": ["--automation"]}}
        self.session = self.http("POST", "/session", {"capabilities": {"alwaysMatch": asked}})["sessionId"]
        self.command("POST", "/timeouts", {"script": 50000, "pageLoad": 50000})

    def http(self, method, path, what=None):
        asked = urllib.request.Request(f"http://127.0.0.1:{self.port}{path}", method=method, data=None if what is None else json.dumps(what).encode())
        for left in range(100, -1, -1):
            try:
                with urllib.request.urlopen(asked, timeout=60) as answer:
                    return json.load(answer)["value"]
            except urllib.error.HTTPError as error:
                raise Failed(json.load(error)["value"]["message"]) from error
            except ConnectionRefusedError as error:
                refused = error
            except OSError as error:
                if not isinstance(getattr(error, "reason", None), ConnectionRefusedError):
                    raise Failed(f"{path}: {error}") from error
                refused = error
            if not left:
                raise Failed(f"{path}: {refused}")
            time.sleep(0.1)

    def command(self, method, path, what=None):
        return self.http(method, f"/session/{self.session}{path}", what)

    def page(self, before="", width=1400, height=900):
        return WebkitPage(self, width, height, "localStorage.clear" in before)

    def close(self):
        try:
            self.command("DELETE", "")
        except Failed:
            pass
        os.killpg(self.process.pid, signal.SIGTERM)
        self.process.wait(20)
        self.display.terminate()
        self.display.wait(20)


class WebkitPage(Themed):
    """A window of the session. What was kept goes before a page is opened, since no script can come before the page's own."""

    def __init__(self, browser, width, height, clears):
        self.browser = browser
        self.handle = browser.command("POST", "/window/new", {"type": "window"})["handle"]
        self.clears, self.wrongs = clears, None
        self.size(width, height)

    def command(self, method, path, what=None):
        """A command to this page's window."""
        if self.browser.window != self.handle:
            self.browser.command("POST", "/window", {"handle": self.handle})
            self.browser.window = self.handle
        return self.browser.command(method, path, what)

    def close(self):
        self.wrongs = self.complaints()
        self.command("DELETE", "/window")
        self.browser.window = self.browser.command("GET", "/window/handles")[0]
        self.browser.command("POST", "/window", {"handle": self.browser.window})

    def size(self, width, height, scale=1):
        self.command("POST", "/window/rect", {"width": width, "height": height})

    def go(self, address):
        self.command("POST", "/url", {"url": address})
        if self.clears:
            self.run("localStorage.clear(), sessionStorage.clear(), 0")
            self.command("POST", "/url", {"url": "about:blank"})
            self.command("POST", "/url", {"url": address})
            self.clears = False
        self.watch()

    def reload(self):
        self.command("POST", "/refresh", {})
        self.watch()

    def watch(self):
        """From here on the page keeps what goes wrong."""
        self.run("window.wrongs = [], ['error', 'unhandledrejection'].forEach(kind => addEventListener(kind, event => wrongs.push(String(event.reason || event.message)))), 0")

    def run(self, script, sees=True):
        made = f"Promise.resolve().then(() => ({script.strip()})).then(value => done([value]), error => done(String(error)));"
        made = f"const done = arguments[0]; {inside(made) if sees else made}"
        answer = self.command("POST", "/execute/async", {"script": made, "args": []})
        if isinstance(answer, str):
            raise Failed(answer)
        return answer[0]

    def act(self, actions):
        self.command("POST", "/actions", {"actions": actions})

    def type(self, text):
        self.act([{"type": "key", "id": "keys", "actions": strokes(["Enter" if sign == "\n" else sign for sign in text])}])

    def press(self, key, *_):
        self.act([{"type": "key", "id": "keys", "actions": strokes([key])}])

    def click(self, x, y):
        self.act(pointer(x, y))

    def picture(self, path):
        with open(path, "wb") as file:
            file.write(base64.b64decode(self.command("GET", "/screenshot")))

    def complaints(self):
        return self.run("window.wrongs || []") if self.wrongs is None else self.wrongs
