"""A browser without a window, driven from Python alone: Chromium by its DevTools protocol, Firefox by WebDriver BiDi, both over a WebSocket."""
import base64
import contextlib
import functools
import http.server
import json
import os
import pathlib
import re
import secrets
import shutil
import socket
import struct
import subprocess
import tempfile
import threading
import time

KEYS = {"Enter": (13, "\ue007", "\r"), "Tab": (9, "\ue004", ""), "Backspace": (8, "\ue003", ""), "F8": (119, "\ue038", ""), "ArrowRight": (39, "\ue014", ""),
        "ArrowLeft": (37, "\ue012", ""), "End": (35, "\ue010", ""), "Home": (36, "\ue011", ""), "ArrowUp": (38, "\ue013", ""), "ArrowDown": (40, "\ue015", ""),
        " ": (32, " ", " "), "Control": (17, "\ue009", "")}


class Broken(Exception):
    """The browser answers with an error, or no more."""


class Late(Broken):
    """Something isn't seen in its time, which may be for the machine's sake."""


class Socket:
    """A WebSocket of texts, as a client."""

    def __init__(self, port, path, seconds=60):
        self.stream = socket.create_connection(("127.0.0.1", port), timeout=seconds)
        self.kept = b""
        key = base64.b64encode(secrets.token_bytes(16)).decode()
        lines = [f"GET {path} HTTP/1.1", f"Host: 127.0.0.1:{port}", "Upgrade: websocket", "Connection: Upgrade", f"Sec-WebSocket-Key: {key}",
                 "Sec-WebSocket-Version: 13"]
        self.stream.sendall(("\r\n".join(lines) + "\r\n\r\n").encode())
        while b"\r\n\r\n" not in self.kept:
            self.more()
        head, _, self.kept = self.kept.partition(b"\r\n\r\n")
        if b" 101 " not in head.split(b"\r\n")[0]:
            raise Broken(head.decode(errors="replace"))

    def more(self):
        got = self.stream.recv(1 << 20)
        if not got:
            raise Broken("the browser closed the connection")
        self.kept += got

    def taken(self, count):
        while len(self.kept) < count:
            self.more()
        got, self.kept = self.kept[:count], self.kept[count:]
        return got

    def send(self, text):
        data, mask = text.encode(), secrets.token_bytes(4)
        length = len(data)
        head = bytes([0x81]) + (bytes([0x80 | length]) if length < 126 else bytes([0xFE]) + struct.pack(">H", length) if length < 65536
                                else bytes([0xFF]) + struct.pack(">Q", length))
        whole = int.from_bytes(data, "big") ^ int.from_bytes((mask * (length // 4 + 1))[:length], "big")
        self.stream.sendall(head + mask + whole.to_bytes(length, "big"))

    def receive(self):
        parts = []
        while True:
            first, second = self.taken(2)
            length = second & 127
            if length > 125:
                length = int.from_bytes(self.taken(2 if length == 126 else 8), "big")
            data = self.taken(length)
            if first & 15 == 8:
                raise Broken("the browser ended")
            if first & 15 in (0, 1):
                parts.append(data)
                if first & 128:
                    return b"".join(parts).decode()


class Browser:
    """What both browsers have in common: a process, a folder, and commands that are answered by their number."""

    def __init__(self, words, said_in):
        self.room = tempfile.mkdtemp(prefix="cycc-web-")
        self.said = open(f"{self.room}/said", "w+")
        how = {"stdin": subprocess.DEVNULL, "stdout": self.said, "stderr": subprocess.STDOUT}
        home = {**os.environ, "HOME": self.room, "MOZ_REMOTE_ALLOW_SYSTEM_ACCESS": "1"}
        self.process = subprocess.Popen([it.format(room=self.room) for it in words], env=home, **how)
        self.number, self.errors, self.said_in = 0, [], said_in

    def connect(self):
        """Waits until the browser is ready, and opens a page in it."""
        self.socket = Socket(*self.address(self.said_in))

    def address(self, pattern):
        """The port and the path, as the browser prints them when it is ready."""
        for _ in range(600):
            found = re.search(pattern, pathlib.Path(f"{self.room}/said").read_text(errors="replace"))
            if found:
                return int(found[1]), found[2] or "/session"
            if self.process.poll() is not None:
                break
            time.sleep(0.1)
        raise Broken("the browser doesn't start: " + pathlib.Path(f"{self.room}/said").read_text(errors="replace")[-1500:])

    def ask(self, method, more=None, **parameters):
        self.number += 1
        self.socket.send(json.dumps({"id": self.number, "method": method, "params": parameters, **(more or {})}))
        while True:
            got = json.loads(self.socket.receive())
            if got.get("id") == self.number:
                if "error" in got:
                    raise Broken(f"{method}: {got.get('message') or got['error']}")
                return got["result"]
            self.event(got)

    def event(self, got):
        """Something that the browser tells unasked."""

    def wait(self, condition, what, seconds=60):
        """Waits until an expression is true in the page, and answers its value."""
        end = time.time() + seconds
        while time.time() < end:
            value = self.evaluate(condition)
            if value:
                return value
            time.sleep(0.1)
        raise Late(f"not seen in {seconds} seconds: {what}")

    def close(self):
        self.process.terminate()
        try:
            self.process.wait(10)
        except subprocess.TimeoutExpired:
            self.process.kill()
            self.process.wait()
        self.said.close()
        shutil.rmtree(self.room, ignore_errors=True)


class Chromium(Browser):
    name = "chromium"

    def __init__(self):
        words = [shutil.which("chromium"), "--headless=new", "--no-sandbox", "--disable-gpu", "--no-first-run", "--disable-dev-shm-usage",
                 "--disable-background-networking", "--disable-component-update", "--disable-extensions", "--hide-scrollbars",
                 "--remote-debugging-port=0", "--user-data-dir={room}/profile", "about:blank"]
        super().__init__(words, r"DevTools listening on ws://127\.0\.0\.1:(\d+)(/\S+)")

    def connect(self):
        super().connect()
        target = self.ask("Target.createTarget", url="about:blank")["targetId"]
        self.session = {"sessionId": self.ask("Target.attachToTarget", targetId=target, flatten=True)["sessionId"]}
        for it in ("Page.enable", "Runtime.enable", "Log.enable"):
            self.ask(it, self.session)

    def event(self, got):
        if got.get("method") == "Runtime.exceptionThrown":
            details = got["params"]["exceptionDetails"]
            self.errors.append(details.get("exception", {}).get("description") or details["text"])
        if got.get("method") == "Log.entryAdded" and got["params"]["entry"]["level"] == "error":
            self.errors.append(got["params"]["entry"]["text"])

    def open(self, url):
        self.ask("Page.navigate", self.session, url=url)
        self.wait("document.readyState === 'complete'", "the page")

    def evaluate(self, expression):
        text = f"(async () => JSON.stringify(await ({expression})))()"
        got = self.ask("Runtime.evaluate", self.session, expression=text, awaitPromise=True, returnByValue=True)
        if "exceptionDetails" in got:
            raise Broken(f"{expression}: {got['exceptionDetails'].get('exception', {}).get('description')}")
        value = got["result"].get("value")
        return None if value is None else json.loads(value)

    def size(self, width, height):
        self.ask("Emulation.setDeviceMetricsOverride", self.session, width=width, height=height, deviceScaleFactor=1, mobile=False)

    def scheme(self, name):
        self.ask("Emulation.setEmulatedMedia", self.session, features=[{"name": "prefers-color-scheme", "value": name}])

    def press(self, key, control=False, shift=False):
        code, _, text = KEYS.get(key, (0, key, key))
        number = code or (ord(key.upper()) if key.isalnum() else 0)
        how = {"key": key, "code": key if len(key) > 1 else "", "windowsVirtualKeyCode": number, "modifiers": 2 * control + 8 * shift}
        if text and not control:
            how["text"] = text
        self.ask("Input.dispatchKeyEvent", self.session, type="keyDown", **how)
        how.pop("text", None)
        self.ask("Input.dispatchKeyEvent", self.session, type="keyUp", **how)

    def move(self, x, y):
        """Moves the mouse to a point."""
        self.ask("Input.dispatchMouseEvent", self.session, type="mouseMoved", x=x, y=y)

    def click(self, x, y):
        """Moves the mouse to a point and clicks there."""
        self.move(x, y)
        for kind in ("mousePressed", "mouseReleased"):
            self.ask("Input.dispatchMouseEvent", self.session, type=kind, x=x, y=y, button="left", clickCount=1)

    def shot(self, path):
        data = self.ask("Page.captureScreenshot", self.session, format="png")["data"]
        pathlib.Path(path).write_bytes(base64.b64decode(data))


class Firefox(Browser):
    name = "firefox"
    PREFERENCES = ("browser.shell.checkDefaultBrowser", "datareporting.policy.dataSubmissionEnabled", "app.update.enabled", "toolkit.telemetry.enabled",
                   "browser.aboutwelcome.enabled", "browser.newtabpage.enabled")

    def __init__(self):
        profile = tempfile.mkdtemp(prefix="cycc-firefox-")
        lines = [f'user_pref("{it}", false);' for it in self.PREFERENCES] + ['user_pref("remote.active-protocols", 1);']
        pathlib.Path(f"{profile}/user.js").write_text("\n".join(lines))
        self.profile = profile
        words = [shutil.which("firefox-esr") or shutil.which("firefox"), "--headless", "--profile", profile, "--remote-debugging-port", "0", "about:blank"]
        super().__init__(words, r"WebDriver BiDi listening on ws://127\.0\.0\.1:(\d+)(/\S*)?")

    def connect(self):
        super().connect()
        self.ask("session.new", capabilities={})
        self.ask("session.subscribe", events=["log.entryAdded"])
        # (the first tab has no focus, and there Enter and Space press no button)
        self.context = self.ask("browsingContext.create", type="tab")["context"]

    def event(self, got):
        if got.get("method") == "log.entryAdded" and got["params"].get("level") == "error":
            self.errors.append(got["params"].get("text"))

    def open(self, url):
        self.ask("browsingContext.navigate", context=self.context, url=url, wait="complete")

    def evaluate(self, expression):
        text = f"(async () => JSON.stringify(await ({expression})))()"
        got = self.ask("script.evaluate", expression=text, target={"context": self.context}, awaitPromise=True, resultOwnership="none")
        if got["type"] == "exception":
            raise Broken(f"{expression}: {got['exceptionDetails']['text']}")
        value = got["result"].get("value")
        return None if value is None else json.loads(value)

    def size(self, width, height):
        self.ask("browsingContext.setViewport", context=self.context, viewport={"width": width, "height": height})

    def scheme(self, name):
        """The page's own button sets it: this protocol has no command for it."""
        self.evaluate(f"document.documentElement.dataset.theme === '{name}' || document.getElementById('theme').click()")

    def press(self, key, control=False, shift=False):
        value = KEYS[key][1] if key in KEYS else key
        held = ["\ue009"] * control + ["\ue008"] * shift
        actions = [{"type": "keyDown", "value": it} for it in held] + [{"type": it, "value": value} for it in ("keyDown", "keyUp")]
        actions += [{"type": "keyUp", "value": it} for it in held]
        self.ask("input.performActions", context=self.context, actions=[{"type": "key", "id": "keys", "actions": actions}])

    def move(self, x, y, *more):
        """Moves the mouse to a point."""
        actions = [{"type": "pointerMove", "x": int(x), "y": int(y)}, *more]
        self.ask("input.performActions", context=self.context, actions=[{"type": "pointer", "id": "mouse", "actions": actions}])

    def click(self, x, y):
        """Moves the mouse to a point and clicks there."""
        self.move(x, y, {"type": "pointerDown", "button": 0}, {"type": "pointerUp", "button": 0})

    def shot(self, path):
        data = self.ask("browsingContext.captureScreenshot", context=self.context)["data"]
        pathlib.Path(path).write_bytes(base64.b64decode(data))

    def close(self):
        super().close()
        shutil.rmtree(self.profile, ignore_errors=True)


BROWSERS = {"chromium": Chromium, "firefox": Firefox}


@contextlib.contextmanager
def opened(name):
    """A browser, which ends with the block."""
    used = BROWSERS[name]()
    try:
        used.connect()
        yield used
    finally:
        used.close()


class Quiet(http.server.SimpleHTTPRequestHandler):
    def log_message(self, *_):
        pass


@contextlib.contextmanager
def served(folder):
    """A server of a folder, on a port of its own, which ends with the block."""
    server = http.server.ThreadingHTTPServer(("127.0.0.1", 0), functools.partial(Quiet, directory=str(folder)))
    server.address = f"http://127.0.0.1:{server.server_address[1]}/"
    threading.Thread(target=server.serve_forever, daemon=True).start()
    try:
        yield server
    finally:
        server.shutdown()
