"""Firefox without a window, spoken to by Marionette: messages are JSON behind their length, over a socket."""
import json
import os
import shutil
import socket
import subprocess
import tempfile
import time

from trial.browser import NotSo, Page

NAMES = ("firefox-esr", "firefox")
# whether pages see a dark scheme (0) or a light one (1)
SCHEME = "layout.css.prefers-color-scheme.content-override"
# keys that write no letter, as WebDriver names them
KEYS = {"Enter": "\ue007", "Escape": "\ue00c", "Tab": "\ue004", "Backspace": "\ue003", "Delete": "\ue017",
        "Home": "\ue011", "End": "\ue010", "PageUp": "\ue00e", "PageDown": "\ue00f",
        "ArrowLeft": "\ue012", "ArrowUp": "\ue013", "ArrowRight": "\ue014", "ArrowDown": "\ue015",
        "Shift": "\ue008", "Control": "\ue009", "Alt": "\ue00a", "Meta": "\ue03d"}
PREFERENCES = {
    "marionette.port": 0,
    "browser.shell.checkDefaultBrowser": False,
    "browser.startup.page": 0,
    "browser.aboutwelcome.enabled": False,
    "browser.tabs.unloadOnLowMemory": False,
    "datareporting.policy.dataSubmissionEnabled": False,
    "app.update.enabled": False,
    "app.normandy.enabled": False,
    "network.captive-portal-service.enabled": False,
    "network.connectivity-service.enabled": False,
    "ui.prefersReducedMotion": 0,
}
FLAGS = ["--headless", "--marionette", "--remote-allow-system-access", "--no-remote"]
VALUE = """const done = arguments[arguments.length - 1];
Promise.resolve().then(() => (%s))
  .then((value) => done({ value: value ?? null }), (error) => done({ thrown: String(error) }));"""
# the size of a window, and of the page within it
SIZE = """const it = gBrowser.selectedBrowser;
window.resizeTo(Math.max(arguments[0], 700) + 60, arguments[1] + 250);
for (const [name, value] of [["width", arguments[0]], ["height", arguments[1]]])
  for (const kind of ["min-", "max-", ""]) it.style.setProperty(kind + name, value + "px", "important");"""


def found():
    """The program, or None."""
    return next((it for it in map(shutil.which, NAMES) if it), None)


class Firefox(Page):
    name = "firefox"

    def __init__(self, address, pictures=None):
        super().__init__(address, pictures)
        self.folder = tempfile.TemporaryDirectory(ignore_cleanup_errors=True)
        with open(f"{self.folder.name}/user.js", "w", encoding="utf-8") as it:
            for name, value in PREFERENCES.items():
                it.write(f"user_pref({json.dumps(name)}, {json.dumps(value)});\n")
        quiet = {"stdin": subprocess.DEVNULL, "stdout": subprocess.DEVNULL, "stderr": subprocess.DEVNULL}
        words = [found(), *FLAGS, "--profile", self.folder.name]
        self.ran = subprocess.Popen(words, env={**os.environ, "HOME": self.folder.name}, **quiet)
        self.socket = socket.create_connection(("127.0.0.1", self.port()))
        self.number, self.left = 0, b""
        self.message()
        session = self.call("WebDriver:NewSession", capabilities={"alwaysMatch": {"acceptInsecureCerts": True}})
        self.version = f"Firefox/{session['capabilities']['browserVersion']}"
        self.call("WebDriver:SetTimeouts", script=600000, pageLoad=60000)
        self.set_size(1280, 800)

    def port(self):
        """The port at which the browser listens, once it does."""
        until = time.monotonic() + 60
        while time.monotonic() < until:
            try:
                with open(f"{self.folder.name}/MarionetteActivePort", encoding="utf-8") as it:
                    told = it.read().strip()
                if told:
                    return int(told)
            except OSError:
                pass
            time.sleep(0.1)
        raise NotSo("the browser does not listen")

    def message(self):
        while b":" not in self.left:
            self.left += self.more()
        length, _, self.left = self.left.partition(b":")
        parts, many = [self.left], len(self.left)
        while many < int(length):
            parts.append(self.more())
            many += len(parts[-1])
        whole = b"".join(parts)
        self.left = whole[int(length) :]
        return json.loads(whole[: int(length)])

    def more(self):
        found_ = self.socket.recv(1 << 20)
        if not found_:
            raise NotSo("the browser ended")
        return found_

    def call(self, method, **given):
        self.number += 1
        text = json.dumps([0, self.number, method, given]).encode()
        self.socket.sendall(str(len(text)).encode() + b":" + text)
        while True:
            kind, number, error, result = self.message()
            if kind == 1 and number == self.number:
                if error:
                    raise NotSo(f"{method}: {error.get('message')}")
                return result

    def load(self, address):
        self.call("WebDriver:Navigate", url=address)

    def evaluate(self, code):
        how = {"args": [], "sandbox": None, "newSandbox": False}
        answer = self.call("WebDriver:ExecuteAsyncScript", script=VALUE % code, **how)["value"]
        if "thrown" in answer:
            raise NotSo(f"{code[:200]}: {answer['thrown']}")
        return answer["value"]

    def in_browser(self, script, *args):
        """Runs a script in the browser itself, around the page."""
        self.call("Marionette:SetContext", value="chrome")
        try:
            self.call("WebDriver:ExecuteScript", script=script, args=list(args))
        finally:
            self.call("Marionette:SetContext", value="content")

    def pictured(self):
        return self.call("WebDriver:TakeScreenshot", full=False)["value"]

    def key(self, held, key):
        down = [*(KEYS[it] for it in held), KEYS.get(key, key)]
        steps = [{"type": "keyDown", "value": it} for it in down]
        steps += [{"type": "keyUp", "value": it} for it in reversed(down)]
        self.call("WebDriver:PerformActions", actions=[{"type": "key", "id": "keys", "actions": steps}])

    def mouse(self, x, y, many):
        steps = [{"type": "pointerMove", "x": round(x), "y": round(y), "duration": 0, "origin": "viewport"}]
        steps += [{"type": kind, "button": 0} for _ in range(many) for kind in ("pointerDown", "pointerUp")]
        mouse = {"type": "pointer", "id": "mouse", "parameters": {"pointerType": "mouse"}, "actions": steps}
        self.call("WebDriver:PerformActions", actions=[mouse])

    def set_size(self, width, height):
        self.in_browser(SIZE, width, height)

    def set_dark(self, is_dark):
        self.in_browser("Services.prefs.setIntPref(arguments[0], arguments[1])", SCHEME, 0 if is_dark else 1)

    def end(self):
        self.ran.kill()
        self.ran.wait()
        self.socket.close()
        self.folder.cleanup()
