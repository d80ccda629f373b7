"""Browsers without a window, driven by the protocols that they bring: Chromium by its pipe for developers, Firefox by Marionette.

    with Chromium() as browser:
        browser.open(path.as_uri())
        browser.evaluate("document.title")

Each browser has its profile in a folder of its own that is removed at the end. Nothing beside Python's standard library is needed.
"""
import base64
import json
import os
import select
import shutil
import socket
import subprocess
import tempfile
import time
from pathlib import Path

WAIT = 180
KEYS = {"Tab": 9, "Enter": 13, " ": 32, "Escape": 27, "End": 35, "Home": 36, "ArrowLeft": 37, "ArrowUp": 38, "ArrowRight": 39, "ArrowDown": 40}


class Fault(Exception):
    """The browser couldn't do what was asked, or the page's script threw something."""


class Browser:
    """What both browsers have: a profile, a process, and waiting."""

    names = ()

    @classmethod
    def path(cls):
        """Where the browser is, or None."""
        return next(filter(None, map(shutil.which, cls.names)), None)

    def __enter__(self):
        self.profile = tempfile.TemporaryDirectory(prefix="page-browser-", ignore_cleanup_errors=True)
        self.start(Path(self.profile.name))
        return self

    def __exit__(self, *_):
        self.process.terminate()
        try:
            self.process.wait(20)
        except subprocess.TimeoutExpired:
            self.process.kill()
            self.process.wait()
        self.profile.cleanup()

    def wait_until(self, expression, seconds=WAIT):
        """Waits until an expression of the page is true, and returns its value."""
        end = time.monotonic() + seconds
        while time.monotonic() < end:
            value = self.evaluate(expression)
            if value:
                return value
            time.sleep(0.05)
        raise Fault(f"after {seconds} seconds not so: {expression}")


class Chromium(Browser):
    names = ("chromium", "chromium-browser", "google-chrome")

    def start(self, profile):
        here, there = os.pipe(), os.pipe()
        words = [self.path(), "--headless", "--disable-gpu", "--hide-scrollbars", "--no-first-run", "--remote-debugging-pipe"]
        words += [f"--user-data-dir={profile}", *["--no-sandbox"] * (os.geteuid() == 0), "about:blank"]

        def connect():
            os.dup2(here[0], 3)
            os.dup2(there[1], 4)

        quiet = {"stdin": subprocess.DEVNULL, "stdout": subprocess.DEVNULL, "stderr": subprocess.DEVNULL}
        self.process = subprocess.Popen(words, preexec_fn=connect, pass_fds=(3, 4, here[0], there[1]), **quiet)
        os.close(here[0])
        os.close(there[1])
        self.to, self.back, self.rest, self.number, self.session, self.events = here[1], there[0], b"", 0, None, []
        target = self.ask("Target.createTarget", url="about:blank")["targetId"]
        self.session = self.ask("Target.attachToTarget", targetId=target, flatten=True)["sessionId"]
        for domain in ("Page", "Runtime", "Log"):
            self.ask(f"{domain}.enable")

    def __exit__(self, *_):
        os.close(self.to)
        os.close(self.back)
        super().__exit__()

    def read(self):
        """The next message of the browser."""
        while b"\0" not in self.rest:
            ready, _, _ = select.select([self.back], [], [], WAIT)
            got = os.read(self.back, 1 << 20) if ready else b""
            if not got:
                raise Fault("the browser has ended, or doesn't answer")
            self.rest += got
        message, self.rest = self.rest.split(b"\0", 1)
        return json.loads(message)

    def ask(self, method, **parameters):
        self.number += 1
        message = {"id": self.number, "method": method, "params": parameters}
        if self.session:
            message["sessionId"] = self.session
        rest = json.dumps(message).encode() + b"\0"
        while rest:
            rest = rest[os.write(self.to, rest):]
        while True:
            got = self.read()
            if got.get("id") == self.number:
                if "error" in got:
                    raise Fault(f"{method}: {got['error']['message']}")
                return got["result"]
            self.events.append(got)

    def open(self, address):
        self.ask("Page.navigate", url="about:blank")
        self.events.clear()
        self.ask("Page.navigate", url=address)
        self.wait_until("document.readyState === 'complete' && location.href !== 'about:blank'")

    def complaints(self):
        """What the page's scripts threw or wrote to the console since it was opened."""
        self.evaluate("0")
        kinds = ("Runtime.exceptionThrown", "Runtime.consoleAPICalled", "Log.entryAdded")
        return [json.dumps(it["params"])[:300] for it in self.events if it.get("method") in kinds]

    def evaluate(self, expression):
        got = self.ask("Runtime.evaluate", expression=expression, awaitPromise=True, returnByValue=True)
        if "exceptionDetails" in got:
            raise Fault(got["exceptionDetails"].get("exception", {}).get("description") or got["exceptionDetails"]["text"])
        return got["result"].get("value")

    def key(self, name, shift=False):
        """Presses a key and lets go of it."""
        code = KEYS.get(name) or ord(name.upper())
        both = {"key": name, "code": name if len(name) > 1 else "", "windowsVirtualKeyCode": code, "modifiers": 8 if shift else 0}
        text = {"Enter": "\r", " ": " "}.get(name, name if len(name) == 1 else "")
        self.ask("Input.dispatchKeyEvent", type="keyDown" if text else "rawKeyDown", **both, **({"text": text} if text else {}))
        self.ask("Input.dispatchKeyEvent", type="keyUp", **both)

    def window(self, width, height, dark=False, scale=1):
        """Sets the size of what is seen, and light or dark."""
        self.ask("Emulation.setDeviceMetricsOverride", width=width, height=height, deviceScaleFactor=scale, mobile=width < 600)
        self.ask("Emulation.setEmulatedMedia", features=[{"name": "prefers-color-scheme", "value": "dark" if dark else "light"}])

    def picture(self, path):
        """Stores what is seen as a PNG."""
        Path(path).write_bytes(base64.b64decode(self.ask("Page.captureScreenshot", format="png")["data"]))


class Firefox(Browser):
    names = ("firefox-esr", "firefox")

    def start(self, profile):
        with socket.socket() as free:
            free.bind(("127.0.0.1", 0))
            port = free.getsockname()[1]
        (profile / "user.js").write_text(f'user_pref("marionette.port", {port});\nuser_pref("browser.shell.checkDefaultBrowser", false);\n')
        quiet = {"stdin": subprocess.DEVNULL, "stdout": subprocess.DEVNULL, "stderr": subprocess.DEVNULL}
        self.process = subprocess.Popen([self.path(), "--headless", "--marionette", "--no-remote", "--profile", str(profile)], **quiet)
        self.wire, self.number, self.rest = self.connect(port), 0, b""
        self.read()
        self.ask("WebDriver:NewSession", capabilities={"alwaysMatch": {"timeouts": {"script": WAIT * 1000}}})

    def connect(self, port):
        end = time.monotonic() + WAIT
        while time.monotonic() < end:
            try:
                return socket.create_connection(("127.0.0.1", port), WAIT)
            except OSError:
                time.sleep(0.2)
        raise Fault("Firefox doesn't answer")

    def __exit__(self, *_):
        self.wire.close()
        super().__exit__()

    def read(self):
        """The next message: its length, a colon, and so many bytes."""
        while True:
            head, colon, body = self.rest.partition(b":")
            if colon and len(body) >= int(head):
                self.rest = body[int(head):]
                return json.loads(body[:int(head)])
            got = self.wire.recv(1 << 20)
            if not got:
                raise Fault("the browser has ended")
            self.rest += got

    def ask(self, name, **parameters):
        self.number += 1
        message = json.dumps([0, self.number, name, parameters]).encode()
        self.wire.sendall(b"%d:%s" % (len(message), message))
        _, _, fault, result = self.read()
        if fault:
            raise Fault(f"{name}: {fault['message']}")
        return result

    def open(self, address):
        self.ask("WebDriver:Navigate", url="about:blank")
        self.ask("WebDriver:Navigate", url=address)

    def evaluate(self, expression):
        return self.ask("WebDriver:ExecuteScript", script=f"return ({expression})", args=[])["value"]

    def window(self, width, height):
        self.ask("WebDriver:SetWindowRect", width=width, height=height)

    def picture(self, path):
        Path(path).write_bytes(base64.b64decode(self.ask("WebDriver:TakeScreenshot", full=False)["value"]))
