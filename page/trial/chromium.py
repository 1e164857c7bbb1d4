"""Chromium without a window, spoken to over a pair of pipes by its own protocol: messages are JSON, each
ended by a byte 0."""
import json
import os
import shutil
import subprocess
import tempfile
import time

from trial.browser import NotSo, Page

NAMES = ("chromium", "chromium-browser", "google-chrome")
HELD = {"Alt": 1, "Control": 2, "Meta": 4, "Shift": 8}
# the codes of keys that write no letter, by name
CODES = {"Enter": 13, "Escape": 27, "Tab": 9, "Backspace": 8, "Delete": 46, "Home": 36, "End": 35,
         "PageUp": 33, "PageDown": 34, "ArrowLeft": 37, "ArrowUp": 38, "ArrowRight": 39, "ArrowDown": 40}
FLAGS = ["--headless=new", "--no-sandbox", "--disable-gpu", "--no-first-run", "--hide-scrollbars",
         "--window-size=1280,800"]


def found():
    """The program, or None."""
    return next((it for it in map(shutil.which, NAMES) if it), None)


class Chromium(Page):
    name = "chromium"

    def __init__(self, address, pictures=None):
        super().__init__(address, pictures)
        self.folder = tempfile.TemporaryDirectory(ignore_cleanup_errors=True)
        there, self.to = os.pipe()
        self.out, back = os.pipe()
        # (the browser reads from descriptor 3 and writes to 4)
        words = ["sh", "-c", f'exec "$@" 3<&{there} 4>&{back}', "sh", found(), *FLAGS]
        words += [f"--user-data-dir={self.folder.name}", "--remote-debugging-pipe", "about:blank"]
        quiet = {"stdin": subprocess.DEVNULL, "stdout": subprocess.DEVNULL, "stderr": subprocess.DEVNULL}
        self.ran = subprocess.Popen(words, pass_fds=(there, back), **quiet)
        os.close(there)
        os.close(back)
        self.number, self.left, self.session, self.has_loaded = 0, b"", None, False
        self.version = self.call("Browser.getVersion")["product"]
        target = self.call("Target.createTarget", url="about:blank")["targetId"]
        self.session = self.call("Target.attachToTarget", targetId=target, flatten=True)["sessionId"]
        for domain in ("Page", "Runtime", "Log"):
            self.call(f"{domain}.enable")
        self.set_size(1280, 800)

    def message(self):
        while b"\0" not in self.left:
            more = os.read(self.out, 1 << 20)
            if not more:
                raise NotSo("the browser ended")
            self.left += more
        text, _, self.left = self.left.partition(b"\0")
        return json.loads(text)

    def call(self, method, **given):
        self.number += 1
        asked = {"id": self.number, "method": method, "params": given}
        if self.session:
            asked["sessionId"] = self.session
        rest = json.dumps(asked).encode() + b"\0"
        while rest:
            rest = rest[os.write(self.to, rest) :]
        while True:
            answer = self.message()
            if answer.get("id") == self.number:
                if "error" in answer:
                    raise NotSo(f"{method}: {answer['error']['message']}")
                return answer["result"]
            self.hear(answer.get("method"), answer.get("params", {}))

    def hear(self, method, told):
        """Keeps what the page throws or is refused."""
        self.has_loaded |= method == "Page.loadEventFired"
        if method == "Runtime.exceptionThrown":
            what = told["exceptionDetails"]
            self.errors.append(what.get("exception", {}).get("description") or what["text"])
        elif method == "Log.entryAdded" and told["entry"]["level"] == "error":
            self.errors.append(told["entry"]["text"])

    def load(self, address):
        self.has_loaded = False
        self.call("Page.navigate", url=address)
        until = time.monotonic() + 30
        while not self.has_loaded and time.monotonic() < until:
            self.call("Runtime.evaluate", expression="0")

    def evaluate(self, code):
        answer = self.call("Runtime.evaluate", expression=code, returnByValue=True, awaitPromise=True)
        if "exceptionDetails" in answer:
            raise NotSo(f"{code[:200]}: {answer['exceptionDetails']['exception'].get('description', '')}")
        return answer["result"].get("value")

    def pictured(self):
        return self.call("Page.captureScreenshot")["data"]

    def key(self, held, key):
        # (signs have no code here: theirs depend on the keyboard)
        code = CODES.get(key, ord(key.upper()) if len(key) == 1 and key.isalnum() else 0)
        letter = {"Enter": "\r", "Tab": ""}.get(key, key if len(key) == 1 else "")
        bits = sum(HELD[it] for it in held)
        given = {"key": key, "windowsVirtualKeyCode": code, "modifiers": bits}
        is_letter = letter and not bits & ~HELD["Shift"]
        down = {"type": "keyDown", "text": letter} if is_letter else {"type": "rawKeyDown"}
        self.call("Input.dispatchKeyEvent", **down, **given)
        self.call("Input.dispatchKeyEvent", type="keyUp", **given)

    def mouse(self, x, y, many):
        self.call("Input.dispatchMouseEvent", type="mouseMoved", x=x, y=y)
        for count in range(1, many + 1):
            for kind in ("mousePressed", "mouseReleased"):
                self.call("Input.dispatchMouseEvent", type=kind, x=x, y=y, button="left", clickCount=count)

    def set_size(self, width, height):
        self.call("Emulation.setDeviceMetricsOverride", width=width, height=height, deviceScaleFactor=1, mobile=False)

    def set_dark(self, is_dark):
        scheme = {"name": "prefers-color-scheme", "value": "dark" if is_dark else "light"}
        self.call("Emulation.setEmulatedMedia", features=[scheme])

    def end(self):
        self.ran.kill()
        self.ran.wait()
        os.close(self.to)
        os.close(self.out)
        self.folder.cleanup()
