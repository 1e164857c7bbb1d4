"""The tiles as cards, and the form for one: what it does stands in the text."""
from trial.check import check
from trial.reading import CHAIN, STATE, TRIANGLE, colour, done, editor, pick, put, verdict


def form(page, name):
    """Opens the form of a type."""
    page.click("#tab-tiles")
    page.wait('document.querySelectorAll(".tile-card").length > 0')
    page.wait(f"""[...document.querySelectorAll(".tile-card")].some((it) => it.textContent === "{name}")""")
    page.value(f"""[...document.querySelectorAll(".tile-card")].find((it) => it.textContent === "{name}").click()""")
    page.wait('document.querySelector("#tile-form").open')


def save(page):
    done(page, lambda: page.click("#tile-form-body button[type=submit]"))


@check("each type is a card that says its sides and strengths")
def cards(page):
    put(page, TRIANGLE % (7, 7))
    page.click("#tab-tiles")
    page.wait('document.querySelectorAll(".tile-card").length === 7')
    said = page.value('document.querySelector(".tile-card").getAttribute("aria-label")')
    assert said == "Tile S: north v of strength 2, east h of strength 2", said
    page.picture("cards")


@check("another glue on a side changes that line alone")
def glue(page):
    put(page, CHAIN)
    form(page, "C")
    page.fill("#glue-west", "a")
    assert page.value('document.querySelector("#strength-west").value') == "2"
    page.picture("form")
    save(page)
    assert editor(page) == CHAIN.replace("tile C - - - b", "tile C - - - a"), editor(page)


@check("undo takes back what a form did")
def undone(page):
    done(page, lambda: page.click("#undo"))
    assert editor(page) == CHAIN


@check("a strength in the form stands in the line of its glue")
def strength(page):
    form(page, "B")
    page.fill("#strength-west", "1")
    save(page)
    assert editor(page) == CHAIN.replace("glue a 2", "glue a 1"), editor(page)


@check("a new tile with a new glue has lines of its own")
def new(page):
    put(page, CHAIN)
    page.click("#tab-tiles")
    page.click("#tile-new")
    page.fill("#tile-name", "D")
    page.fill("#glue-north", "\0new")
    page.fill("#new-north", "up")
    page.fill("#strength-north", "2")
    save(page)
    assert editor(page) == CHAIN.replace("tile S", "glue up 2\ntile S").replace("box", "tile D up - - -\nbox"), (
        editor(page))
    assert verdict(page)[0] == "Unique"


@check("a type's seeds and colour follow its new name")
def renamed(page):
    put(page, CHAIN.replace("tile S", "# colour S #112233\ntile S"))
    form(page, "S")
    page.fill("#tile-name", "Seed")
    save(page)
    assert (editor(page) == CHAIN.replace("tile S", "# colour Seed #112233\ntile Seed").replace("seed 0 0 S",
        "seed 0 0 Seed")), editor(page)
    assert page.value(f"{STATE}.growth.count") == 3


@check("a colour from the form is a remark in the text")
def coloured(page):
    put(page, CHAIN)
    form(page, "B")
    page.fill("#tile-colour", "#445566")
    save(page)
    assert editor(page) == CHAIN.replace("tile B", "# colour B #445566\ntile B") and colour(page, "B") == "#445566", (
        editor(page))


@check("a tile is copied and deleted")
def copied(page):
    put(page, CHAIN)
    form(page, "C")
    page.click("#tile-copy")
    assert page.value('document.querySelector("#tile-name").value') == "C1"
    save(page)
    assert editor(page) == CHAIN.replace("tile C - - - b\n", "tile C - - - b\ntile C1 - - - b\n"), editor(page)
    form(page, "C1")
    done(page, lambda: page.click("#tile-delete"))
    assert editor(page) == CHAIN


@check("what can't stand in the text is told in the form")
def faults(page):
    form(page, "C")
    for field, value, said in (("#tile-name", "a'b", "A name is 1 to 40"),
        ("#tile-name", "B", "There is a tile B already"), ("#strength-west", "251", "0 to 250")):
        before = page.value(f'document.querySelector("{field}").value')
        page.fill(field, value)
        page.click("#tile-form-body button[type=submit]")
        assert said in page.text("#tile-fault"), (value, page.text("#tile-fault"))
        page.fill(field, before)
    page.click("#tile-cancel")
    assert editor(page) == CHAIN


@check("compiled tiles are shown, and not edited")
def compiled(page):
    page.click("#tab-text")
    pick(page, "busy_beaver.machine")
    page.click("#tab-tiles")
    page.wait('document.querySelectorAll(".tile-card").length > 10')
    assert page.value('document.querySelector("#tile-new").disabled') and "compiled" in page.text("#tiles-note")
    page.click("#tab-text")
