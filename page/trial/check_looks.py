"""How it looks and is reached: dark, narrow, by keyboard, by a screen reader."""
from trial.check import check
from trial.reading import pick

# the contrast of two colours of the style, as the accessibility guidelines reckon it
CONTRAST = """((front, back) => { const read = (name) => { const it = document.createElement("i");
  it.style.color = `var(--${name})`; document.body.append(it);
  const found = getComputedStyle(it).color.match(/[\\d.]+/g).slice(0, 3).map(Number); it.remove(); return found; };
  const light = (it) => it.map((v) => v / 255).map((v) =>
    (v <= 0.04045 ? v / 12.92 : ((v + 0.055) / 1.055) ** 2.4)).reduce((all, v, n) => all
    + v * [0.2126, 0.7152, 0.0722][n], 0);
  const [a, b] = [light(read(front)), light(read(back))].sort((x, y) => y - x); return (a + 0.05) / (b + 0.05); })"""
PAIRS = [("ink", "card"), ("ink", "ground"), ("soft", "card"), ("soft", "ground"), ("accent", "card"),
  ("accent", "accent-ground"), ("on-accent", "accent"), ("yes", "yes-ground"),
         ("within", "within-ground"), ("no", "no-ground"), ("plain", "plain-ground"), ("yes", "card"),
           ("within", "card"), ("no", "card"), ("soft", "board"), ("ink", "mark-fault"), ("ink", "mark-chosen")]


@check("words are told apart from their ground, in light and in dark")
def contrast(page):
    page.wait("tilebench.page.timings.count > 0")
    for dark in (False, True):
        page.dark(dark)
        low = [(pair, round(found, 2)) for pair in PAIRS
            for found in [page.value(f'{CONTRAST}("{pair[0]}", "{pair[1]}")')] if found < 4.5]
        assert not low, (dark, low)
    page.dark(False)


@check("it is dark where the system is, the picture too")
def dark(page):
    light = page.value('getComputedStyle(document.body).backgroundColor')
    page.dark(True)
    page.value("new Promise((done) => setTimeout(done, 200))")
    assert page.value('getComputedStyle(document.body).backgroundColor') != light
    ground = page.value('(() => { tilebench.page.drawNow(); const at = '
        'document.querySelector("#canvas").getContext("2d").getImageData(2, 2, 1, 1).data; return [...at]; })()')
    assert sum(ground[:3]) < 120, ground
    page.picture("dark")
    page.dark(False)


@check("at 360 points all stands below each other, the picture first, and nothing is cut off")
def narrow(page):
    page.size(360, 740)
    pick(page, "sierpinski.tiles")
    page.value("new Promise((done) => setTimeout(done, 300))")
    page.picture("narrow")
    assert page.value("document.documentElement.scrollWidth <= 360"), (
        page.value("document.documentElement.scrollWidth"))
    tops = page.value('["#board", "#player", "#verdict", "#work"].map((it) => '
        'document.querySelector(it).getBoundingClientRect().top + scrollY)')
    assert tops == sorted(tops), tops
    wide = page.value("""[...document.querySelectorAll("button, input, select, textarea")]
      .filter((it) => it.checkVisibility() && !it.closest("#text, .menu, dialog"))
      .filter((it) => { const at = it.getBoundingClientRect(); return at.right > 361 || at.left < -1; })
      .map((it) => it.id || it.textContent)""")
    assert not wide, wide


@check("at 360 points the list of examples, the tools and the forms fit")
def narrow_tools(page):
    page.size(360, 740)
    page.click("#examples")
    assert page.value('(() => { const at = document.querySelector("#examples-menu").getBoundingClientRect(); return '
        'at.left >= 0 && at.right <= 360; })()')
    page.press("Escape")
    for tool in ("hand", "rivals", "certificate", "command"):
        page.click(f"#open-{tool}")
        assert (page.value('(() => { const at = document.querySelector("#drawer").getBoundingClientRect(); return '
            'at.left >= 0 && at.right <= 360; })()')), tool
        page.click(f"#close-{tool}")
    page.click("#open-help")
    assert page.value('(() => { const at = document.querySelector("#help-form").getBoundingClientRect(); return '
        'at.left >= 0 && at.right <= 360; })()')
    page.press("Escape")
    page.size(1280, 800)


@check("every button, field and region has a name")
def named(page):
    bare = page.value("""[...document.querySelectorAll("button, input, select, textarea, canvas[tabindex], aside")]
      .concat(...document.querySelectorAll("[role=tabpanel], section[aria-label], [role=group]")).filter((it) => {
      const label = it.getAttribute("aria-label") || it.labels?.[0]?.textContent || it.textContent || it.title
        || document.getElementById(it.getAttribute("aria-labelledby") ?? "")?.textContent;
      return !label?.trim(); }).map((it) => it.id || it.outerHTML.slice(0, 80))""")
    assert not bare, bare


@check("each tool is opened and closed by keys alone, and the focus comes back to its button")
def tools(page):
    for tool in ("hand", "rivals", "certificate", "command"):
        page.value(f'document.querySelector("#open-{tool}").focus()')
        page.press("Enter")
        assert page.value(f'document.querySelector("#open-{tool}").getAttribute("aria-expanded")') == "true"
        page.value(f'document.querySelector("#close-{tool}").focus()')
        page.press("Enter")
        assert page.value("document.activeElement.id") == f"open-{tool}"


@check("from the first button on, the tab key reaches bar, text, verdict, tools, picture, player and legend")
def tab_key(page):
    page.value('document.querySelector("#examples").focus()')
    seen = set()
    for _ in range(70):
        page.press("Tab")
        seen.add(page.value('document.activeElement.id || document.activeElement.className'))
        if "open-about" in seen:
            break
    wanted = {"open", "save", "share", "tab-text", "text", "open-hand", "canvas", "larger", "play", "slider", "by",
        "search", "chip", "open-about"}
    assert wanted <= seen, wanted - seen


@check("tabs for text and tiles go by arrows")
def tabs(page):
    page.value('document.querySelector("#tab-text").focus()')
    page.press("ArrowRight")
    assert page.value("document.activeElement.id") == "tab-tiles"
    assert not page.value('document.querySelector("#tiles").hidden')
    page.press("ArrowLeft")
    assert page.value("document.activeElement.id") == "tab-text"
    assert page.value('document.querySelector("#tiles").hidden')


@check("the page has its language, its title, and headings in order")
def document(page):
    assert page.value("document.documentElement.lang") == "en" and page.value("document.title") == "tilebench"
    assert page.value('document.querySelectorAll("h1").length') == 1
    assert page.value('["header", "main", "footer", "nav"].every((it) => document.querySelectorAll(it).length === 1)')
