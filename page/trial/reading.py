"""What checks of the page have in common: an example is picked, a text put in, and what came of it read."""
import json

from trial.browser import NotSo

STATE = "tilebench.page.state"
TRIANGLE = """tiles 1
tau 2
glue 0 1
glue 1 1
glue h 2
glue v 2
tile S v h - -
tile B 1 h - h
tile L v 1 v -
tile r00 0 0 0 0
tile r01 1 1 1 0
tile r10 1 1 0 1
tile r11 0 0 1 1
box 0 0 %d %d
seed 0 0 S
end
"""
CHAIN = """tiles 1
tau 2
glue a 2
glue b 2
tile S - a - -
tile B - b - a
tile C - - - b
box 0 0 2 0
seed 0 0 S
end
"""
RACE = "tiles 1\ntau 1\nglue a 1\ntile S - a - -\ntile A - - - a\ntile B - - - a\nbox 0 0 1 0\nseed 0 0 S\nend\n"
ARCH = """tiles 1
tau 2
glue a 2
glue b 2
glue c 2
glue d 2
tile S b a - -
tile E c - - a
tile N - d b -
tile C - - c d
box 0 0 1 1
seed 0 0 S
end
"""


def done(page, action, seconds=15):
    """Does something that grows a text, and waits until that is done and nothing more is to be grown."""
    page.wait("tilebench.page.isIdle()", seconds)
    before = page.value("tilebench.page.timings.count")
    action()
    page.wait(f"tilebench.page.timings.count > {before} && tilebench.page.isIdle()", seconds)


def put(page, text, seconds=15):
    """Puts a text in place of what stands in the editor, and waits for what comes of it."""
    done(page, lambda: page.fill("#text", text), seconds)


def pick(page, name):
    """Picks an example from the list."""
    page.click("#examples")
    done(page, lambda: page.click(f'#examples-menu [data-name="{name}"]'))


def add(page, name, data):
    """Hands a file to the page, as if it had been dropped on it."""
    done(page, lambda: drop(page, [(name, data)]))


def drop(page, files):
    listed = json.dumps([[name, list(data)] for name, data in files])
    page.value(f"""(() => {{
      const held = new DataTransfer();
      for (const [name, bytes] of {listed}) held.items.add(new File([new Uint8Array(bytes)], name));
      const event = new Event("drop", {{ bubbles: true, cancelable: true }});
      Object.defineProperty(event, "dataTransfer", {{ value: held }});
      window.dispatchEvent(event);
    }})()""")


def verdict(page):
    """The word of the verdict, its tone and its sentence."""
    tone = page.value('document.querySelector("#verdict").dataset.tone')
    return page.text("#verdict-word"), tone, page.text("#verdict-text")


def site(page, x, y):
    """Where the middle of a site is in the window."""
    found = page.value(f"""(() => {{
      const {{ view, state }} = tilebench.page, at = document.querySelector("#canvas").getBoundingClientRect();
      return [at.left + view.left + ({x} - state.system.box[0] + 0.5) * view.scale,
              at.top + view.top + (state.system.box[3] - {y} + 0.5) * view.scale];
    }})()""")
    if not found:
        raise NotSo("nothing is drawn")
    return found


def pixels(page, sites):
    """The colours in the middle of a quarter of each site, as #rrggbb: what is drawn there, names and bars apart."""
    return page.value(f"""(() => {{
      tilebench.page.drawNow();
      const {{ view, state }} = tilebench.page, canvas = document.querySelector("#canvas"), ratio = devicePixelRatio;
      const {{ data }} = canvas.getContext("2d").getImageData(0, 0, canvas.width, canvas.height);
      return {json.dumps([list(it) for it in sites])}.map(([x, y]) => {{
        const px = Math.floor((view.left + (x - state.system.box[0] + 0.26) * view.scale) * ratio);
        const py = Math.floor((view.top + (state.system.box[3] - y + 0.26) * view.scale) * ratio);
        const at = 4 * (py * canvas.width + px);
        return "#" + [...data.slice(at, at + 3)].map((it) => it.toString(16).padStart(2, "0")).join("");
      }});
    }})()""")


def pixel(page, x, y):
    return pixels(page, [(x, y)])[0]


def colour(page, name):
    """The colour of a type or a glue in the legend, as #rrggbb."""
    return page.value(f"""(() => {{
      const {{ kinds }} = {STATE}, kind = tilebench.page.kindNamed({json.dumps(name)});
      return kind < 0 ? null : "#" + kinds.rgb[kind].toString(16).padStart(6, "0");
    }})()""")


def chips(page):
    """The legend: for each name the count that is told, and whether it is grey."""
    found = page.value("""[...document.querySelectorAll("#legend .chip")].map((it) =>
      [...[".chip-name", ".chip-count"].map((part) => it.querySelector(part).textContent),
        it.classList.contains("never")])""")
    return {name: (count, never) for name, count, never in found}


def editor(page):
    return page.value('document.querySelector("#text").value')


def selected(page):
    """What is selected in the editor."""
    return page.value("""(() => { const it = document.querySelector("#text");
      return it.value.slice(it.selectionStart, it.selectionEnd); })()""")


def choose(page, selector, words):
    """Clicks the one of several elements whose text begins with some words."""
    page.value(f"""[...document.querySelectorAll({json.dumps(selector)})]
      .find((it) => it.textContent.startsWith({json.dumps(words)})).click()""")
