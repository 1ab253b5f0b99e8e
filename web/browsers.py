"""Drives a browser without a window: Chromium by DevTools over pipes, Firefox by Marionette over a socket of this
machine. A page has `go`, `value` (of an expression), `mouse`, `keys`, `enter` (a text), `choose` (a file, in a field) and
`picture`. (Within a container Chromium cannot make a sandbox of its own.)"""
import base64
import contextlib
import fcntl
import json
import os
import select
import shutil
import signal
import socket
import subprocess
import sys
import tempfile
import time

SECONDS = 400
WIDTH, HEIGHT = 1280, 720
NAMES = {"chromium": ("chromium", "chromium-browser", "google-chrome"), "firefox": ("firefox-esr", "firefox")}


@contextlib.contextmanager
def started(words, **more):
    """A program in a group of its own, which is ended at last."""
    with tempfile.TemporaryFile() as said:
        program = subprocess.Popen(words, stdin=subprocess.DEVNULL, stdout=said, stderr=said, start_new_session=True,
                                   **more)
        try:
            yield
        finally:
            with contextlib.suppress(ProcessLookupError):
                os.killpg(program.pid, signal.SIGKILL)
            program.wait()


class Chromium:
    """DevTools: messages that end in a zero, with a session for the page."""

    def __init__(self, to, back):
        self.to, self.back, self.rest, self.number, self.session = to, back, b"", 0, {}
        made = self.ask("Target.createTarget", url="about:blank")["targetId"]
        self.session = {"sessionId": self.ask("Target.attachToTarget", targetId=made, flatten=True)["sessionId"]}
        self.ask("Page.enable")

    @classmethod
    @contextlib.contextmanager
    def opened(cls, program, room):
        (reads, to), (back, writes) = os.pipe(), os.pipe()
        words = ["--headless", "--no-sandbox", "--disable-gpu", "--hide-scrollbars", "--remote-debugging-pipe",
                 f"--user-data-dir={room}"]
        high = [fcntl.fcntl(it, fcntl.F_DUPFD, 10) for it in (reads, writes)]

        def place():
            for it, wanted in zip(high, (3, 4)):  # (where DevTools has its pipes)
                os.dup2(it, wanted)

        with started([program, *words], preexec_fn=place, close_fds=False):
            for it in (reads, writes, *high):
                os.close(it)
            yield cls(to, back)

    def ask(self, method, **given):
        self.number += 1
        asked = {"id": self.number, "method": method, "params": given, **self.session}
        os.write(self.to, json.dumps(asked).encode() + b"\0")
        while True:
            while b"\0" not in self.rest:
                if not select.select([self.back], [], [], SECONDS)[0]:
                    raise TimeoutError("the browser does not answer")
                part = os.read(self.back, 1 << 20)
                if not part:
                    raise EOFError("the browser ended")
                self.rest += part
            one, _, self.rest = self.rest.partition(b"\0")
            answer = json.loads(one)
            if answer.get("id") == self.number:
                if "error" in answer:
                    raise RuntimeError(answer["error"]["message"])
                return answer["result"]

    def mouse(self, x, y, presses=False):
        place = {"x": x, "y": y, "button": "left" if presses else "none", "clickCount": int(presses)}
        for kind in ["mouseMoved", *["mousePressed", "mouseReleased"] * presses]:
            self.ask("Input.dispatchMouseEvent", type=kind, **place)

    def keys(self, text):
        for it in text:
            for kind in ("keyDown", "keyUp"):
                self.ask("Input.dispatchKeyEvent", type=kind, key=it, text=it if kind == "keyDown" else "")

    def enter(self, text):
        self.ask("Input.insertText", text=text)

    def resize(self, width, height, scheme):
        self.ask("Emulation.setDeviceMetricsOverride", width=width, height=height, deviceScaleFactor=1, mobile=False)
        self.ask("Emulation.setEmulatedMedia", features=[{"name": "prefers-color-scheme", "value": scheme}])

    def go(self, address):
        self.ask("Page.navigate", url=address)

    def value(self, text):
        return self.ask("Runtime.evaluate", expression=text, returnByValue=True)["result"].get("value")

    def choose(self, file, name="file"):
        found = self.ask("Runtime.evaluate", expression=f"document.getElementById('{name}')")["result"]["objectId"]
        self.ask("DOM.setFileInputFiles", files=[file], objectId=found)

    def picture(self):
        return base64.b64decode(self.ask("Page.captureScreenshot", format="png")["data"])


class Firefox:
    """Marionette: messages after the number of their octets."""

    def __init__(self, connected):
        self.connected, self.number = connected, 0
        self.message()
        self.ask("WebDriver:NewSession")

    @classmethod
    @contextlib.contextmanager
    def opened(cls, program, room):
        with open(f"{room}/user.js", "w", encoding="utf-8") as it:
            it.write('user_pref("marionette.port", 0);\n')  # (a free one, which it then writes)
        words = ["--headless", "--marionette", "--no-remote", "--profile", room]
        with started([program, *words], env={**os.environ, "MOZ_HEADLESS": "1", "HOME": room}):
            with cls.connected_to(f"{room}/MarionetteActivePort") as connected:
                yield cls(connected.makefile("rwb"))

    @staticmethod
    def connected_to(file):
        """The connection to the port in a file, once it is there."""
        for _ in range(SECONDS * 10):
            with contextlib.suppress(OSError, ValueError):
                with open(file, encoding="ascii") as it:
                    return socket.create_connection(("127.0.0.1", int(it.read())), SECONDS)
            time.sleep(0.1)
        raise EOFError("the browser does not answer")

    def message(self):
        digits = b""
        while (octet := self.connected.read(1)) != b":":
            if not octet:
                raise EOFError("the browser ended")
            digits += octet
        return json.loads(self.connected.read(int(digits)))

    def ask(self, method, **given):
        self.number += 1
        text = json.dumps([0, self.number, method, given]).encode()
        self.connected.write(b"%d:%s" % (len(text), text))
        self.connected.flush()
        _, _, error, result = self.message()
        if error:
            raise RuntimeError(error["message"])
        return result

    def act(self, kind, *actions, **more):
        self.ask("WebDriver:PerformActions", actions=[{"type": kind, "id": kind, "actions": actions, **more}])

    def mouse(self, x, y, presses=False):
        press = [{"type": it, "button": 0} for it in ("pointerDown", "pointerUp")] * presses
        self.act("pointer", {"type": "pointerMove", "x": int(x), "y": int(y)}, *press)

    def keys(self, text):
        self.act("key", *({"type": kind, "value": it} for it in text for kind in ("keyDown", "keyUp")))

    def enter(self, text):
        found = self.ask("WebDriver:GetActiveElement")["value"]
        self.ask("WebDriver:ElementSendKeys", id=next(iter(found.values())), text=text)

    def resize(self, width, height, scheme):
        self.ask("WebDriver:SetWindowRect", width=width, height=height)
        self.ask("WebDriver:SetWindowRect", width=width, height=2 * height - self.value("innerHeight"))

    def go(self, address):
        self.ask("WebDriver:Navigate", url=address)

    def value(self, text):
        return self.ask("WebDriver:ExecuteScript", script=f"return {text};", args=[])["value"]

    def choose(self, file, name="file"):
        found = self.ask("WebDriver:FindElement", using="css selector", value=f"#{name}")["value"]
        self.ask("WebDriver:ElementSendKeys", id=next(iter(found.values())), text=file)

    def picture(self):
        return base64.b64decode(self.ask("WebDriver:TakeScreenshot", full=False)["value"])


def wait_for(page, text):
    for _ in range(SECONDS * 10):
        if page.value(text):
            return
        time.sleep(0.1)
    sys.exit(f"{text} was not so within {SECONDS} seconds; the page is {page.value('document.title')!r}")


def program_of(browser):
    """The program of a browser; None where there is none."""
    return next(filter(None, map(shutil.which, NAMES[browser])), None)


@contextlib.contextmanager
def opened(browser, width=WIDTH, height=HEIGHT, scheme="light"):
    """A page of a browser, in a profile that is dropped."""
    kind = Chromium if browser == "chromium" else Firefox
    with tempfile.TemporaryDirectory(ignore_cleanup_errors=True) as room:
        with kind.opened(program_of(browser), room) as page:
            page.resize(width, height, scheme)
            yield page
