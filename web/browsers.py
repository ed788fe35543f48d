"""Drives a headless Chromium or Firefox with Python's standard library alone.

Both classes have the same calls: `value` evaluates an expression in the page, `wait` waits until one holds, `open` opens a file,
`choose` gives a file to a field, `press`, `click` and `swipe` are a keyboard, a mouse and a finger, `picture` takes a picture, `paper`
prints, and `complaints` returns what the browser wrote to its console.
"""
import atexit
import base64
import fcntl
import json
import os
import shutil
import socket
import struct
import subprocess
import time

READY = "location.protocol === 'file:' && document.documentElement?.dataset.ready === 'true'"


def command_of(names, browser):
    command = next((it for it in map(shutil.which, names) if it), None)
    if not command:
        raise SystemExit(f"web/test: no {browser} on the PATH")
    return command


# A picture in three dimensions without a graphics card.
SOFTWARE_GL = ("--use-angle=swiftshader", "--enable-unsafe-swiftshader", "--ignore-gpu-blocklist", "--disable-gpu-compositing", "--force-prefers-reduced-motion")


def display():
    """Starts a virtual display and returns its name, or None where Xvfb isn't installed."""
    server = shutil.which("Xvfb")
    if not server:
        return None
    read, write = os.pipe()
    process = subprocess.Popen([server, "-displayfd", str(write), "-screen", "0", "1600x1400x24", "-nolisten", "tcp"], pass_fds=(write,), stdout=subprocess.DEVNULL, stderr=subprocess.DEVNULL)
    atexit.register(process.kill)
    os.close(write)
    with os.fdopen(read) as told:
        return f":{told.readline().strip()}"


# The number of a key for Chromium, and its character in WebDriver.
KEYS = {
    "Tab": (9, "\ue004"), "Enter": (13, "\ue006"), "Escape": (27, "\ue00c"), "Backspace": (8, "\ue003"), "Delete": (46, "\ue017"), "PageUp": (33, "\ue00e"), "PageDown": (34, "\ue00f"),
    "End": (35, "\ue010"), "Home": (36, "\ue011"), "ArrowLeft": (37, "\ue012"), "ArrowUp": (38, "\ue013"), "ArrowRight": (39, "\ue014"), "ArrowDown": (40, "\ue015"), " ": (32, " "),
}
SHIFT, CONTROL = "\ue008", "\ue009"


class Fault(RuntimeError):
    """What an expression threw, or what the browser doesn't do."""


class Browser:
    def wait(self, expression, seconds=60):
        until = time.time() + seconds
        while not self.value(expression):
            if time.time() > until:
                raise Fault(f"after {seconds} s it still doesn't hold that {expression}")
            time.sleep(0.02)

    def call(self, method, **parameters):
        """Calls a method of the browser's protocol. What arrives before the answer is kept in `events`."""
        self.number += 1
        self.send({"id": self.number, "method": method, "params": parameters, **self.target})
        while True:
            got = self.message()
            if got.get("id") == self.number:
                if "error" in got:
                    raise Fault(f"{method}: {got['error']} {got.get('message', '')}")
                return got["result"]
            self.events.append(got)


class Chromium(Browser):
    """A headless Chromium, which is driven over two pipes by the DevTools protocol."""

    NAMES = ("chromium", "chromium-browser", "google-chrome")

    def __init__(self, folder, downloads, has_storage=True):
        """Starts it with a new profile in a folder, and a folder for what is saved."""
        if not has_storage:
            (folder / "Default").mkdir(parents=True)
            (folder / "Default/Preferences").write_text('{"profile": {"default_content_setting_values": {"cookies": 2}}}')
        (read, self.write), (self.read, write) = os.pipe(), os.pipe()
        # The browser reads from 3 and writes to 4, so the pipes keep clear of these numbers until then.
        high = [fcntl.fcntl(it, fcntl.F_DUPFD, 20) for it in (read, self.write, self.read, write)]
        for it in (read, self.write, self.read, write):
            os.close(it)
        read, self.write, self.read, write = high
        flags = ["--headless", "--no-sandbox", *SOFTWARE_GL, "--remote-debugging-pipe", f"--user-data-dir={folder}", "--window-size=1200,1500"]
        place = lambda: (os.dup2(read, 3), os.dup2(write, 4))
        quiet = {"stdout": subprocess.DEVNULL, "stderr": subprocess.DEVNULL}
        command = command_of(self.NAMES, "Chromium")
        self.process = subprocess.Popen([command, *flags, "about:blank"], preexec_fn=place, close_fds=False, **quiet)
        atexit.register(self.process.kill)
        os.close(read)
        os.close(write)
        self.number, self.buffer, self.target, self.events = 0, b"", {}, []
        self.name = self.call("Browser.getVersion")["product"]
        self.call("Browser.setDownloadBehavior", behavior="allow", downloadPath=str(downloads))
        target = self.call("Target.createTarget", url="about:blank")["targetId"]
        self.target = {"sessionId": self.call("Target.attachToTarget", targetId=target, flatten=True)["sessionId"]}
        for domain in ("Page", "Runtime", "Log", "DOM"):
            self.call(f"{domain}.enable")

    def send(self, message):
        data = json.dumps(message).encode() + b"\0"
        while data:
            data = data[os.write(self.write, data):]

    def message(self):
        while b"\0" not in self.buffer:
            more = os.read(self.read, 1 << 20)
            if not more:
                raise SystemExit("web/test: the browser ended")
            self.buffer += more
        line, _, self.buffer = self.buffer.partition(b"\0")
        return json.loads(line)

    def value(self, expression):
        got = self.call("Runtime.evaluate", expression=expression, awaitPromise=True, returnByValue=True, userGesture=True)
        if "exceptionDetails" in got:
            raise Fault(json.dumps(got["exceptionDetails"])[:1000])
        return got["result"].get("value")

    def open(self, page):
        self.call("Page.navigate", url=page.as_uri())
        self.wait(READY, 300)

    def choose(self, selector, file):
        self.value(f"document.querySelector({json.dumps(selector)}).value = ''; 0")
        root = self.call("DOM.getDocument")["root"]["nodeId"]
        node = self.call("DOM.querySelector", nodeId=root, selector=selector)["nodeId"]
        self.call("DOM.setFileInputFiles", nodeId=node, files=[str(file)])

    def press(self, key, shift=False, control=False):
        number = KEYS[key][0] if key in KEYS else ord(key.upper())
        what = {"key": key, "code": {" ": "Space"}.get(key, key), "windowsVirtualKeyCode": number, "modifiers": 8 * shift + 2 * control}
        text = {"Enter": "\r"}.get(key, key if len(key) == 1 and not control else None)
        self.call("Input.dispatchKeyEvent", type="keyDown" if text else "rawKeyDown", **what, **({"text": text} if text else {}))
        self.call("Input.dispatchKeyEvent", type="keyUp", **what)

    def click(self, x, y, shift=False):
        for kind in ("mousePressed", "mouseReleased"):
            self.call("Input.dispatchMouseEvent", type=kind, x=x, y=y, button="left", clickCount=1, modifiers=8 * shift)

    def drag(self, points):
        for at, (x, y) in enumerate([*points, points[-1]]):
            kind = "mousePressed" if at == 0 else "mouseReleased" if at == len(points) else "mouseMoved"
            self.call("Input.dispatchMouseEvent", type=kind, x=x, y=y, button="left", buttons=1, clickCount=1)

    def touch(self, ways):
        """Moves a finger along each way at the same time."""
        points = lambda step: [{"x": way[step][0], "y": way[step][1], "id": at} for at, way in enumerate(ways)]
        for step in range(len(ways[0])):
            self.call("Input.dispatchTouchEvent", type="touchMove" if step else "touchStart", touchPoints=points(step))
        self.call("Input.dispatchTouchEvent", type="touchEnd", touchPoints=[])

    def touching(self, is_on):
        self.call("Emulation.setTouchEmulationEnabled", enabled=is_on, maxTouchPoints=5)

    def scheme(self, name):
        self.call("Emulation.setEmulatedMedia", features=[{"name": "prefers-color-scheme", "value": name}])

    def paper(self):
        return base64.b64decode(self.call("Page.printToPDF", preferCSSPageSize=True)["data"])

    def picture(self):
        return base64.b64decode(self.call("Page.captureScreenshot", format="png")["data"])

    def shape(self, width, height, scale=1):
        self.call("Emulation.setDeviceMetricsOverride", width=width, height=height, deviceScaleFactor=scale, mobile=False)

    def complaints(self):
        logged = [it["params"]["entry"]["text"] for it in self.events if it.get("method") == "Log.entryAdded"]
        thrown = [json.dumps(it["params"])[:300] for it in self.events if it.get("method") == "Runtime.exceptionThrown"]
        return logged + thrown

    def close(self):
        self.target = {}
        self.call("Browser.close")
        self.process.wait(20)


class Socket:
    """A web socket to a server on this machine."""

    def __init__(self, host, port, path):
        self.line = socket.create_connection((host, port), 60)
        self.line.settimeout(300)
        key = base64.b64encode(os.urandom(16)).decode()
        self.line.sendall(
            f"GET {path} HTTP/1.1\r\nHost: {host}:{port}\r\nUpgrade: websocket\r\nConnection: Upgrade\r\n"
            f"Sec-WebSocket-Key: {key}\r\nSec-WebSocket-Version: 13\r\n\r\n".encode()
        )
        self.buffer = b""
        while b"\r\n\r\n" not in self.buffer:
            self.more()
        head, _, self.buffer = self.buffer.partition(b"\r\n\r\n")
        if b" 101 " not in head.split(b"\r\n")[0]:
            raise SystemExit(f"web/test: the browser refuses the socket: {head[:200]}")

    def more(self):
        data = self.line.recv(1 << 20)
        if not data:
            raise SystemExit("web/test: the browser ended")
        self.buffer += data

    def take(self, count):
        while len(self.buffer) < count:
            self.more()
        data, self.buffer = self.buffer[:count], self.buffer[count:]
        return data

    def send(self, text):
        data, size = text.encode(), len(text.encode())
        length = bytes([0x80 | size]) if size < 126 else struct.pack(">BH", 0xFE, size) if size < 65536 else struct.pack(">BQ", 0xFF, size)
        # A client masks what it sends. Firefox doesn't take a mask of zeros.
        mask = b"mask"
        hidden = int.from_bytes(data, "big") ^ int.from_bytes((mask * (size // 4 + 1))[:size], "big")
        self.line.sendall(b"\x81" + length + mask + hidden.to_bytes(size, "big"))

    def message(self):
        text = b""
        while True:
            first, second = self.take(2)
            size = second & 127
            if size > 125:
                size = struct.unpack(">H" if size == 126 else ">Q", self.take(2 if size == 126 else 8))[0]
            data, kind = self.take(size), first & 15
            if kind == 9:
                self.line.sendall(bytes([0x8A, 0x80]) + b"mask")
            elif kind < 3:
                text += data
                if first & 128:
                    return text.decode()
            elif kind == 8:
                raise SystemExit("web/test: the browser closed the socket")


class Firefox(Browser):
    """A Firefox, which is driven over a web socket by WebDriver BiDi. It runs on a virtual display, since a headless one has no WebGL; where
    Xvfb isn't installed it is headless, and the page shows its plain drawing."""

    NAMES = ("firefox-esr", "firefox")

    def __init__(self, folder, downloads, has_storage=True):
        """Starts it with a new profile in a folder, and a folder for what is saved."""
        folder.mkdir()
        settings = {
            "browser.download.folderList": 2, "browser.download.dir": str(downloads), "browser.download.alwaysOpenPanel": False,
            "dom.storage.enabled": has_storage, "webgl.force-enabled": True, "gfx.webrender.software": True, "widget.dmabuf.force-enabled": False,
            "dom.disable_beforeunload": True, "ui.prefersReducedMotion": 1, "dom.w3c_touch_events.enabled": 1,
        }
        (folder / "user.js").write_text("".join(f"user_pref({json.dumps(it)}, {json.dumps(value)});\n" for it, value in settings.items()))
        place = display()
        shown = {"DISPLAY": place} if place else {"MOZ_HEADLESS": "1"}
        command = [command_of(self.NAMES, "Firefox"), "--no-remote", "--profile", folder, "--remote-debugging-port", "0", "about:blank"]
        quiet = {"stdout": subprocess.DEVNULL, "stderr": subprocess.DEVNULL}
        self.process = subprocess.Popen(command, env={**os.environ, **shown, "HOME": str(folder)}, **quiet)
        atexit.register(self.process.kill)
        told, until = folder / "WebDriverBiDiServer.json", time.time() + 60
        while not (told.exists() and told.read_text().strip().endswith("}")):
            if time.time() > until or self.process.poll() is not None:
                raise SystemExit("web/test: Firefox doesn't begin to listen")
            time.sleep(0.05)
        server = json.loads(told.read_text())
        self.socket = Socket(server["ws_host"], server["ws_port"], "/session")
        self.number, self.target, self.events = 0, {}, []
        able = self.call("session.new", capabilities={})["capabilities"]
        self.name = f"Firefox/{able['browserVersion']}"
        self.call("session.subscribe", events=["log.entryAdded"])
        self.context = self.call("browsingContext.getTree")["contexts"][0]["context"]

    def send(self, message):
        self.socket.send(json.dumps(message))

    def message(self):
        return json.loads(self.socket.message())

    def evaluate(self, expression):
        got = self.call("script.evaluate", expression=expression, target={"context": self.context}, awaitPromise=True, userActivation=True)
        if got["type"] != "success":
            raise Fault(got["exceptionDetails"]["text"])
        return got["result"]

    def value(self, expression):
        return plain(self.evaluate(expression))

    def open(self, page):
        self.call("browsingContext.navigate", context=self.context, url=page.as_uri(), wait="complete")
        self.wait(READY, 300)

    def choose(self, selector, file):
        self.value(f"document.querySelector({json.dumps(selector)}).value = ''; 0")
        node = self.evaluate(f"document.querySelector({json.dumps(selector)})")["sharedId"]
        self.call("input.setFiles", context=self.context, element={"sharedId": node}, files=[str(file)])

    def perform(self, *sources):
        self.call("input.performActions", context=self.context, actions=list(sources))
        self.call("input.releaseActions", context=self.context)

    def press(self, key, shift=False, control=False):
        held = [SHIFT] * shift + [CONTROL] * control
        value = KEYS[key][1] if key in KEYS else key
        down, up = ([{"type": kind, "value": it} for it in order] for kind, order in (("keyDown", [*held, value]), ("keyUp", [value, *held[::-1]])))
        self.perform({"type": "key", "id": "keyboard", "actions": down + up})

    def click(self, x, y, shift=False):
        self.drag([(x, y)])

    def drag(self, points):
        move = lambda x, y: {"type": "pointerMove", "x": round(x), "y": round(y)}
        steps = [move(*points[0]), {"type": "pointerDown", "button": 0}, *[move(*it) for it in points[1:]], {"type": "pointerUp", "button": 0}]
        self.perform({"type": "pointer", "id": "mouse", "parameters": {"pointerType": "mouse"}, "actions": steps})

    def touch(self, ways):
        finger = lambda way: [{"type": "pointerMove", "x": round(way[0][0]), "y": round(way[0][1])}, {"type": "pointerDown", "button": 0},
                              *[{"type": "pointerMove", "x": round(x), "y": round(y), "duration": 20} for x, y in way[1:]], {"type": "pointerUp", "button": 0}]
        self.perform(*[{"type": "pointer", "id": f"finger{at}", "parameters": {"pointerType": "touch"}, "actions": finger(way)} for at, way in enumerate(ways)])

    def touching(self, is_on):
        """Firefox takes fingers at any time."""

    def paper(self):
        return base64.b64decode(self.call("browsingContext.print", context=self.context, page={"width": 21.0, "height": 29.7}, margin={it: 1.2 for it in ("top", "bottom", "left", "right")})["data"])

    def picture(self):
        return base64.b64decode(self.call("browsingContext.captureScreenshot", context=self.context)["data"])

    def shape(self, width, height, scale=1):
        self.call("browsingContext.setViewport", context=self.context, viewport={"width": width, "height": height}, devicePixelRatio=scale)

    def complaints(self):
        return [it["params"]["text"] for it in self.events if it.get("method") == "log.entryAdded" and it["params"]["level"] in ("warn", "error")]

    def close(self):
        self.call("browser.close")
        self.process.wait(20)


def plain(result):
    """A value of WebDriver BiDi as one of Python."""
    kind, value = result["type"], result.get("value")
    if kind == "array":
        return [plain(it) for it in value]
    if kind == "object":
        return {key: plain(it) for key, it in value}
    return value
