"""The page in a headless Chromium or Firefox, which is told what to do over a web socket of this machine: by DevTools or by WebDriver BiDi."""
import base64
import contextlib
import json
import os
import re
import select
import shutil
import signal
import socket
import struct
import subprocess
import tempfile
import time

SECONDS_TO_ANSWER, SECONDS_TO_OPEN = 90, 20
# A key's number in Chromium, and its sign in WebDriver.
KEYS = {"Enter": (13, "\ue007"), "Escape": (27, "\ue00c"), "Space": (32, " "), "PageDown": (34, "\ue00f"), "End": (35, "\ue010"), "Home": (36, "\ue011"),
        "ArrowLeft": (37, "\ue012"), "ArrowUp": (38, "\ue013"), "ArrowRight": (39, "\ue014"), "ArrowDown": (40, "\ue015"), "Tab": (9, "\ue004"),
        "N": (78, "n"), "P": (80, "p")}
# Keys that are held, by their names in a session: the bit in Chromium, and the sign in WebDriver.
HELD = {"": (0, ""), "alt": (1, "\ue00a"), "control": (2, "\ue009")}


class Browser:
    """Opens the file of the page. Each call ends within the seconds that are left, or raises TimeoutError. `told` has the errors of its
    scripts, and what its policy refused; `script` is one that runs before those of a page that is opened."""

    # What stands in each message beside the call.
    about = {}

    def __init__(self, program, path, seconds, script=""):
        self.end, self.number, self.kept, self.told = time.monotonic() + seconds, 0, b"", []
        self.limit, self.path, self.script, self.target, self.shape = self.end, path, script, None, None
        self.folder = tempfile.TemporaryDirectory(ignore_cleanup_errors=True)
        self.connect([program, *self.options(self.folder.name)])
        self.open()

    def __enter__(self):
        return self

    def __exit__(self, *_):
        with contextlib.suppress(ProcessLookupError):
            os.killpg(self.process.pid, signal.SIGKILL)
        self.process.wait()
        self.folder.cleanup()

    def connect(self, words):
        """Begins the browser, which says on standard error at which address it listens."""
        path = f"{self.folder.name}/said"
        with open(path, "wb") as said:
            home = {**os.environ, "HOME": self.folder.name}
            self.process = subprocess.Popen(words, stdin=subprocess.DEVNULL, stdout=said, stderr=said, start_new_session=True, env=home)
        while not (found := re.search(r"listening on ws://127\.0\.0\.1:(\d+)(/\S+)?\n", open(path, encoding="utf-8", errors="replace").read())):
            if time.monotonic() > self.limit:
                raise TimeoutError("the browser gave no answer in time")
            time.sleep(0.05)
        self.socket = socket.create_connection(("127.0.0.1", int(found[1])))
        self.socket.sendall(f"GET {found[2] or '/session'} HTTP/1.1\r\nHost: 127.0.0.1:{found[1]}\r\nUpgrade: websocket\r\nConnection: Upgrade\r\n"
                            "Sec-WebSocket-Key: AAAAAAAAAAAAAAAAAAAAAA==\r\nSec-WebSocket-Version: 13\r\n\r\n".encode())
        while b"\r\n\r\n" not in self.kept:
            self.more()
        self.kept = self.kept.split(b"\r\n\r\n", 1)[1]

    def more(self):
        """Takes what comes next."""
        if not select.select([self.socket], [], [], max(0, self.limit - time.monotonic()))[0]:
            raise TimeoutError("the browser gave no answer in time")
        self.kept += (got := self.socket.recv(1 << 20))
        if not got:
            raise TimeoutError("the browser ended")

    def send(self, message):
        data = json.dumps(message).encode()
        size = len(data)
        length = struct.pack("!B", 128 + size) if size < 126 else struct.pack("!BH", 254, size) if size < 1 << 16 else struct.pack("!BQ", 255, size)
        # a mask of zeros isn't taken
        masked = int.from_bytes(data, "big") ^ int.from_bytes(b"\1" * size, "big")
        self.socket.sendall(b"\x81" + length + b"\1\1\1\1" + masked.to_bytes(size, "big"))

    def take(self, count):
        while len(self.kept) < count:
            self.more()
        taken, self.kept = self.kept[:count], self.kept[count:]
        return taken

    def receive(self):
        text, is_last = b"", False
        while not is_last:
            first, length = self.take(2)
            if length > 125:
                length = int.from_bytes(self.take(2 if length == 126 else 8), "big")
            text, is_last = text + self.take(length), bool(first & 0x80)
        return json.loads(text)

    def call(self, method, seconds=SECONDS_TO_ANSWER, **values):
        self.number, self.limit = self.number + 1, min(self.end, time.monotonic() + seconds)
        self.send({"id": self.number, "method": method, "params": values, **self.about})
        while (answer := self.receive()).get("id") != self.number:
            self.note(answer.get("method"), answer.get("params"))
        if "error" in answer:
            raise RuntimeError(f"{method}: {answer}")
        return answer["result"]

    def open(self, fragment="", tries=3):
        """Opens the page in a new tab. One of many on a machine full of work never answers, so it has further tries."""
        try:
            self.attach()
            if self.shape:
                self.size(*self.shape)
            self.navigate(f"file://{os.path.abspath(self.path)}{fragment}")
            self.value("until(() => document.readyState === 'complete' && typeof page === 'object')")
        except TimeoutError:
            if tries == 1:
                raise
            self.open(fragment, tries - 1)

    def pause(self, milliseconds):
        self.value(f"new Promise((done) => setTimeout(done, {milliseconds}))")

    def size(self, width, height, scheme="light"):
        self.shape = width, height, scheme
        self.resize(*self.shape)
        self.pause(300)

    def key(self, name, held=""):
        self.press(name, *KEYS[name], *HELD[held])
        self.pause(60)

    def click(self, selector):
        """A press of the mouse in the middle of the first such element."""
        found = f"document.querySelector({json.dumps(selector)})"
        self.value(f"{found}.scrollIntoView({{ block: 'nearest' }})")
        x, y, width, height = self.value(f"(({{ x, y, width, height }}) => [x, y, width, height])({found}.getBoundingClientRect())")
        self.push(x + width / 2, y + height / 2)
        self.pause(60)


class Chromium(Browser):
    @staticmethod
    def options(folder):
        sandbox = ["--no-sandbox"] if os.getuid() == 0 else []
        return ["--headless=new", "--disable-gpu", "--no-first-run", f"--user-data-dir={folder}", "--remote-debugging-port=0", *sandbox, "about:blank"]

    def note(self, method, it):
        if method == "Runtime.exceptionThrown":
            self.told.append(it["exceptionDetails"].get("exception", {}).get("description", "an exception"))
        if method == "Log.entryAdded" and it["entry"]["level"] == "error":
            self.told.append(it["entry"]["text"])

    def attach(self):
        self.about, before = {}, self.target
        self.target = self.call("Target.createTarget", url="about:blank")["targetId"]
        if before:
            self.call("Target.closeTarget", targetId=before)
        self.about = {"sessionId": self.call("Target.attachToTarget", targetId=self.target, flatten=True)["sessionId"]}
        for domain in ("Page", "Runtime", "Log"):
            self.call(f"{domain}.enable")
        self.call("Page.addScriptToEvaluateOnNewDocument", source=self.script)

    def navigate(self, url):
        self.call("Page.navigate", SECONDS_TO_OPEN, url=url)

    def value(self, text):
        """What the text, of JavaScript, gives in the page; a promise is waited for."""
        told = self.call("Runtime.evaluate", expression=text, awaitPromise=True, returnByValue=True)
        if "exceptionDetails" in told:
            raise RuntimeError(told["exceptionDetails"].get("exception", {}).get("description", "the page told an exception"))
        return told["result"].get("value")

    def resize(self, width, height, scheme):
        self.call("Emulation.setDeviceMetricsOverride", width=width, height=height, deviceScaleFactor=1, mobile=width < 500)
        self.call("Emulation.setEmulatedMedia", features=[{"name": "prefers-color-scheme", "value": scheme}])

    def press(self, name, code, sign, bit, _):
        name = sign if name == "Space" or len(name) == 1 else name
        for kind in ("rawKeyDown", "keyUp"):
            self.call("Input.dispatchKeyEvent", type=kind, key=name, code=name, windowsVirtualKeyCode=code, modifiers=bit)

    def push(self, x, y):
        for kind in ("mousePressed", "mouseReleased"):
            self.call("Input.dispatchMouseEvent", type=kind, x=x, y=y, button="left", clickCount=1)

    def shot(self, path):
        """A picture of the page as a file; with a palette, in a third of the bytes, if Debian's pngquant is there."""
        with open(path, "wb") as file:
            file.write(base64.b64decode(self.call("Page.captureScreenshot", format="png")["data"]))
        if shutil.which("pngquant"):
            subprocess.run(["pngquant", "--force", "--ext", ".png", path], check=True)


class Firefox(Browser):
    """What Chromium does, in one scheme of colours, and without what a reader of the screen is told."""

    added = None

    @staticmethod
    def options(folder):
        with open(f"{folder}/user.js", "w", encoding="utf-8") as file:
            file.write('user_pref("layout.css.prefers-color-scheme.content-override", 1);\nuser_pref("toolkit.telemetry.enabled", false);\n')
        return ["--headless", "--no-remote", "--profile", folder, "--remote-debugging-port", "0"]

    def connect(self, words):
        super().connect(words)
        self.call("session.new", capabilities={})
        self.call("session.subscribe", events=["log.entryAdded"])

    def note(self, method, it):
        if method == "log.entryAdded" and it["level"] == "error":
            self.told.append(it["text"])

    def attach(self):
        before, self.target = self.target, self.call("browsingContext.create", type="tab")["context"]
        if before:
            self.call("browsingContext.close", context=before)
            self.call("script.removePreloadScript", script=self.added)
        self.added = self.call("script.addPreloadScript", functionDeclaration=f"() => {{ {self.script} }}")["script"]

    def navigate(self, url):
        self.call("browsingContext.navigate", context=self.target, url=url, wait="complete")

    def value(self, text):
        wrapped = f"(async () => JSON.stringify((await ({text.strip().removesuffix(';')})) ?? null))()"
        told = self.call("script.evaluate", expression=wrapped, target={"context": self.target}, awaitPromise=True, userActivation=True)
        if told["type"] == "exception":
            raise RuntimeError(told["exceptionDetails"]["text"])
        return json.loads(told["result"]["value"])

    def resize(self, width, height, scheme):
        self.call("browsingContext.setViewport", context=self.target, viewport={"width": width, "height": height}, devicePixelRatio=1)

    def act(self, kind, actions, **more):
        self.call("input.performActions", context=self.target, actions=[{"type": kind, "id": kind, "actions": actions, **more}])

    def press(self, name, code, sign, bit, held):
        keys = [held] * bool(bit) + [sign]
        self.act("key", [{"type": "keyDown", "value": it} for it in keys] + [{"type": "keyUp", "value": it} for it in reversed(keys)])

    def push(self, x, y):
        move = {"type": "pointerMove", "x": round(x), "y": round(y)}
        self.act("pointer", [move, {"type": "pointerDown", "button": 0}, {"type": "pointerUp", "button": 0}], parameters={"pointerType": "mouse"})

