"""What both browsers have in common: a page that is opened, looked at, typed into and clicked."""
import base64
import json
import time

PATIENCE = 10
# Where the middle of an element is, once it was brought into view.
MIDDLE = """(() => {
  const it = typeof %(what)s === "string" ? document.querySelector(%(what)s) : null;
  if (!it) return null;
  it.scrollIntoView({ block: "nearest", inline: "nearest" });
  const at = it.getBoundingClientRect();
  return [at.left + at.width / 2, at.top + at.height / 2];
})()"""

# Puts a text into an element, and tells the page so.
FILL = """((selector, text) => {
  const it = document.querySelector(selector);
  it.focus();
  it.value = text;
  for (const name of ["input", "change"]) it.dispatchEvent(new Event(name, { bubbles: true }));
})(%s, %s)"""
# Puts the cursor behind what stands in an element.
AT_END = """((selector) => {
  const it = document.querySelector(selector);
  it.focus();
  if (it.setSelectionRange) it.setSelectionRange(it.value.length, it.value.length);
})(%s)"""


class NotSo(AssertionError):
    """What was waited for did not come, or what was asked for is not there."""


class Page:
    """A page in a browser. A browser gives: load, evaluate, pictured, key, mouse, set_size, set_dark, end,
    name, version."""

    def __init__(self, address, pictures=None):
        self.address, self.pictures, self.errors, self.is_away = address, pictures, [], False

    def fresh(self, hash="", forget=True):
        """Opens the page anew, with what was kept of an earlier visit forgotten."""
        if forget:
            self.load(self.address.partition("#")[0])
            self.evaluate("(() => { try { localStorage.clear(); sessionStorage.clear(); } catch {} })()")
        self.visit(self.address + hash)
        self.is_away = False

    def visit(self, address):
        """Opens a page that was made otherwise, as with another program in it."""
        self.is_away = True
        self.load("about:blank")
        self.load(address)
        self.wait("document.readyState === 'complete' && typeof tilebench === 'object'")

    def value(self, code):
        """What an expression of the page, or its promise, comes to."""
        return self.evaluate(code)

    def wait(self, code, seconds=PATIENCE):
        """What an expression comes to, once it is true."""
        until = time.monotonic() + seconds
        while True:
            found = self.evaluate(code)
            if found:
                return found
            if time.monotonic() > until:
                raise NotSo(f"waited {seconds} s in vain for {code}")
            time.sleep(0.02)

    def text(self, selector):
        return self.evaluate(f"document.querySelector({json.dumps(selector)})?.textContent ?? null")

    def middle(self, selector):
        at = self.evaluate(MIDDLE % {"what": json.dumps(selector)})
        if at is None:
            raise NotSo(f"there is no {selector}")
        return at

    def click(self, selector, many=1):
        self.mouse(*self.middle(selector), many)

    def click_at(self, x, y, many=1):
        self.mouse(x, y, many)

    def point_at(self, x, y):
        """Moves the mouse there and presses nothing."""
        self.mouse(x, y, 0)

    def press(self, *keys):
        """Presses keys one after another: "Control+s", "ArrowLeft", "a"."""
        for it in keys:
            *held, last = it.split("+") if it != "+" else ["+"]
            self.key(held, last or "+")

    def type(self, selector, text):
        """Types a text at the end of what stands in an element, key by key."""
        self.evaluate(AT_END % json.dumps(selector))
        for letter in text:
            self.key([], "Enter" if letter == "\n" else letter)

    def fill(self, selector, text):
        """Puts a text in place of what stands in an element, and tells the page so as an input does."""
        self.evaluate(FILL % (json.dumps(selector), json.dumps(text)))

    def picture(self, name):
        """A picture of the window, where pictures are asked for."""
        if self.pictures:
            with open(f"{self.pictures}/{self.name}-{name}.png", "wb") as it:
                it.write(base64.b64decode(self.pictured()))

    def size(self, width, height):
        self.set_size(width, height)
        self.wait(f"innerWidth === {width}")

    def dark(self, is_dark):
        self.set_dark(is_dark)
        self.wait(f"matchMedia('(prefers-color-scheme: dark)').matches === {json.dumps(is_dark)}")
