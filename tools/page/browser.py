"""A headless browser that is spoken to over a pipe, by Chrome's protocol: pages are opened, keys pressed, scripts run, pictures taken."""
import base64
import json
import os
import select
import shutil
import signal
import subprocess
import time

BROWSERS = ("chromium", "chromium-browser", "google-chrome", "chrome")
SECONDS = 60
ALL_SECONDS = 500
KEYS = {"Enter": "\r", "Tab": "", "Escape": ""}


class NoAnswer(Exception):
    """The browser has not answered within its time, or it has ended."""


class Browser:
    """A browser with one page. Within `with`: its processes end with the block."""

    def __init__(self, folder):
        program = next((path for name in BROWSERS if (path := shutil.which(name))), None)
        if program is None:
            raise FileNotFoundError(", ".join(BROWSERS))
        told, self.tell = os.pipe()
        self.hear, heard = os.pipe()
        words = [program, "--headless=new", "--no-sandbox", "--disable-gpu", "--disable-dev-shm-usage", "--remote-debugging-pipe", f"--user-data-dir={folder}/profile", "about:blank"]
        # The protocol's pipe has the numbers 3 and 4. A session of its own: the browser's other processes end with it.
        self.run = subprocess.Popen(
            ["sh", "-c", f'exec "$@" 3<&{told} 4>&{heard}', "sh", *words],
            pass_fds=(told, heard),
            stdout=subprocess.DEVNULL,
            stderr=subprocess.DEVNULL,
            start_new_session=True,
        )
        os.close(told)
        os.close(heard)
        self.kept, self.number, self.session, self.events = b"", 0, None, []
        self.end = time.monotonic() + ALL_SECONDS
        target = self.call("Target.createTarget", url="about:blank")["targetId"]
        self.session = self.call("Target.attachToTarget", targetId=target, flatten=True)["sessionId"]
        self.call("Page.enable")
        self.call("Runtime.enable")

    def __enter__(self):
        return self

    def __exit__(self, *_):
        os.killpg(self.run.pid, signal.SIGKILL)
        self.run.wait()
        os.close(self.tell)
        os.close(self.hear)

    def message(self, end):
        """The next message, up to this time and to the end of all."""
        end = min(end, self.end)
        while b"\0" not in self.kept:
            if not select.select([self.hear], [], [], max(0, end - time.monotonic()))[0]:
                raise NoAnswer(f"no answer within {SECONDS} seconds, or {ALL_SECONDS} in all")
            part = os.read(self.hear, 1 << 20)
            if not part:
                raise NoAnswer("the browser has ended")
            self.kept += part
        one, _, self.kept = self.kept.partition(b"\0")
        return json.loads(one)

    def call(self, method, **params):
        """The result of a call. What happens meanwhile is kept among the events."""
        self.number += 1
        asked = {"id": self.number, "method": method, "params": params}
        if self.session:
            asked["sessionId"] = self.session
        os.write(self.tell, json.dumps(asked).encode() + b"\0")
        end = time.monotonic() + SECONDS
        while True:
            got = self.message(end)
            if got.get("id") == self.number:
                if "error" in got:
                    raise NoAnswer(f"{method}: {got['error']}")
                return got["result"]
            self.events.append(got)

    def await_event(self, method):
        """Waits for an event that came since the last page was opened, or comes."""
        end = time.monotonic() + SECONDS
        while not any(it.get("method") == method for it in self.events):
            self.events.append(self.message(end))

    def open(self, address):
        """Opens a page, up to its load. The faults of its scripts."""
        # By another page, as from a page to a part of itself nothing is loaded.
        for it in ("about:blank", address):
            self.events = []
            self.call("Page.navigate", url=it)
            self.await_event("Page.loadEventFired")
        return self.faults()

    def faults(self):
        """The faults of scripts since the page was opened."""
        thrown = [it["params"]["exceptionDetails"] for it in self.events if it.get("method") == "Runtime.exceptionThrown"]
        return [it.get("exception", {}).get("description", it["text"]) for it in thrown]

    def size(self, width, height):
        """Gives the window this size, in pixels."""
        self.call("Emulation.setDeviceMetricsOverride", width=width, height=height, deviceScaleFactor=1, mobile=False)

    def scheme(self, name):
        """The system's colours: `light` or `dark`."""
        self.call("Emulation.setEmulatedMedia", features=[{"name": "prefers-color-scheme", "value": name}])

    def press(self, key, shift=False):
        """Presses a key, as a user does."""
        text = KEYS.get(key, key if len(key) == 1 else "")
        code = {"Tab": 9, "Enter": 13, "Escape": 27, "PageUp": 33, "PageDown": 34, "End": 35, "Home": 36, "ArrowLeft": 37, "ArrowUp": 38, "ArrowRight": 39, "ArrowDown": 40}.get(key, 0)
        for kind in ("keyDown" if text else "rawKeyDown", "keyUp"):
            more = {"text": text} if kind == "keyDown" else {}
            self.call("Input.dispatchKeyEvent", type=kind, key=key, windowsVirtualKeyCode=code, modifiers=8 if shift else 0, **more)

    def value(self, script):
        """What a script's expression is."""
        got = self.call("Runtime.evaluate", expression=script, returnByValue=True, awaitPromise=True)
        if "exceptionDetails" in got:
            raise NoAnswer(got["exceptionDetails"].get("exception", {}).get("description", "a fault in a script"))
        return got["result"].get("value")

    def picture(self, path):
        """Writes what the window shows, as a PNG."""
        path.write_bytes(base64.b64decode(self.call("Page.captureScreenshot", format="png")["data"]))
