"""The first screen: what this is, an example with a yes, the list of examples, and that all is in sight."""
import os

from trial.check import check
from trial.reading import done, pick, verdict

EXAMPLES = os.path.join(os.path.dirname(os.path.dirname(os.path.dirname(os.path.realpath(__file__)))), "examples")


@check("one sentence says what this is")
def what_it_is(page):
    page.wait("tilebench.page.timings.count > 0")
    said = page.text(".about-line")
    assert said.count(".") == 1 and len(said) < 140, said
    assert page.value('document.querySelector(".about-line").getBoundingClientRect().width > 300')


@check("the first example has the verdict yes, in green")
def first_yes(page):
    assert verdict(page)[:2] == ("Unique", "yes"), verdict(page)
    page.picture("first")


@check("at 1280 by 800 picture, verdict, player and the whole legend are in sight, and nothing scrolls")
def in_sight(page):
    ends = page.value("""["#canvas", "#verdict", "#player", "#legend .chip:last-child", "#text", "footer"].map((it) => {
      const at = document.querySelector(it).getBoundingClientRect();
      return [it, at.top >= 0 && at.bottom <= 800 && at.right <= 1280]; })""")
    assert all(it[1] for it in ends), ends
    assert page.value("document.documentElement.scrollHeight <= 800 && document.documentElement.scrollWidth <= 1280")


@check("the list names all of examples/, with a line for each")
def all_examples(page):
    page.click("#examples")
    found = dict(page.value('[...document.querySelectorAll("#examples-menu [data-name]")].map((it) => '
        '[it.dataset.name, it.lastChild.textContent])'))
    assert set(found) == set(os.listdir(EXAMPLES)), set(found) ^ set(os.listdir(EXAMPLES))
    assert all(len(line) > 8 for line in found.values()), found
    page.picture("examples")
    page.press("Escape")


@check("the list fits the window, and a key closes it")
def list_fits(page):
    page.click("#examples")
    at = page.value('(() => { const it = document.querySelector("#examples-menu").getBoundingClientRect(); return '
        '[it.left, it.top, it.right, it.bottom]; })()')
    assert at[0] >= 0 and at[2] <= 1280 and at[3] <= 800, at
    page.press("Escape")
    assert page.value('document.querySelector("#examples-menu").hidden')


@check("each of the examples grows when it is picked")
def each_grows(page):
    for name in sorted(os.listdir(EXAMPLES)):
        pick(page, name)
        word, tone, _ = verdict(page)
        assert (word in ("Unique", "Unique within the box", "Not shown to be unique", "All steps were taken",
            "A step was refused")), (name, word)
        assert page.value("tilebench.page.state.growth.count") > 0, name


@check("an example is picked by keys alone")
def by_keys(page):
    page.value('document.querySelector("#examples").focus()')
    page.press("Enter")
    page.wait('!document.querySelector("#examples-menu").hidden')
    page.press("ArrowDown", "ArrowDown", "ArrowUp")
    name = page.value("document.activeElement.dataset.name")
    done(page, lambda: page.press("Enter"))
    text = open(f"{EXAMPLES}/{name}", encoding="utf-8").read()
    assert page.value('document.querySelector("#text").value') == text, name


@check("help says how to read the text and the verdict, and which keys there are")
def helps(page):
    page.click("#open-help")
    said = page.text("#help-form")
    assert all(it in said for it in ("tau 2", "Unique within the box", "Ctrl-Z", "# colour")), said[:200]
    page.press("Escape")
    assert not page.value('document.querySelector("#help-form").open')


@check("the foot says which program it is, what is proved and what more is trusted")
def foot(page):
    page.click("#open-about")
    said = page.text("#about-form")
    assert all(it in said for it in ("proves its source", "shim", "host", "browser", "WebAssembly")), said
    assert len(page.text("#state-crates")) == 64
    page.press("Escape")


@check("a new set is begun from the list, and it grows")
def new_set(page):
    page.click("#examples")
    done(page, lambda: page.click("#open-new"))
    assert verdict(page)[0] == "Unique" and page.value("tilebench.page.state.growth.count") == 2
