"""The verdict in words: its word, its tone, the site that it speaks of, and the glue to look at."""
from trial.check import check
from trial.reading import ARCH, CHAIN, RACE, STATE, TRIANGLE, chips, choose, done, editor, pick, put, selected, verdict

STUNTED = CHAIN.replace("glue b 2", "glue b 1")


def marks(page):
    return page.value(f"{STATE}.meanings.filter((it) => it.site).map((it) => [it.site.x, it.site.y])")


@check("a yes is green: nothing else can grow")
def yes(page):
    put(page, CHAIN)
    assert verdict(page) == ("Unique", "yes",
        "Nothing else can grow than these 3 tiles, in whatever order they come.")
    green = page.value("""(() => { const it = document.createElement("i"); it.style.color = "var(--yes)";
      document.body.append(it); const is = getComputedStyle(it).color; it.remove(); return is; })()""")
    assert page.value('getComputedStyle(document.querySelector("#verdict-word")).color') == green


@check("where the box cuts the growth off the verdict is amber: within the box nothing else can grow")
def within(page):
    put(page, TRIANGLE % (255, 255))
    assert (verdict(page) == ("Unique within the box", "within",
        "Growing within the box, nothing else can grow; B still attaches at (256, 0), outside.")), verdict(page)
    page.picture("within")


@check("the site of a no is marked, and a button brings it into view")
def shown(page):
    assert [256, 0] in marks(page), marks(page)
    page.click("#verdict-buttons button")
    assert page.value("""(() => { const { view, state } = tilebench.page;
      const x = view.left + 256 * view.scale, y = view.top + state.system.box[3] * view.scale;
      return x > 0 && x < view.width && y > 0 && y < view.height && view.scale >= 12; })()""")


@check("the box is widened by a button, and what it does stands in the text")
def widen(page):
    put(page, TRIANGLE % (7, 7))
    done(page, lambda: choose(page, "#verdict-buttons button", "Box of 16 by 8"))
    assert "box 0 0 15 7\n" in editor(page) and page.value(f"{STATE}.growth.count") == 128, editor(page)
    done(page, lambda: page.click("#undo"))
    assert editor(page) == TRIANGLE % (7, 7)


@check("the glue to look at is named, and a click goes to its line")
def glue(page):
    names = page.value('[...document.querySelectorAll("#verdict-buttons button")].map((it) => it.textContent)')
    assert "Glue h, line 5" in names, names
    choose(page, "#verdict-buttons button", "Glue")
    assert selected(page) == "glue h 2"


@check("a tile that is held by more than it needs: red, and said that a no refutes nothing")
def exact(page):
    put(page, ARCH)
    word, tone, text = verdict(page)
    assert ((word, tone) == ("Not shown to be unique", "no") and "held by more than it needs" in text
        and "refutes nothing" in text), text
    assert marks(page) == [[1, 1]]
    assert "north" not in text and "south c 2 + west d 2 = 4" in page.text("#printed"), page.text("#printed")


@check("a rival: red, both types are named")
def rival(page):
    put(page, RACE)
    word, tone, text = verdict(page)
    assert ((word, tone) == ("Not shown to be unique", "no")
        and text.startswith("B could come at (1, 0) in place of A")), text
    assert marks(page) == [[1, 0]]


@check("a no offers to look for rivals")
def offers(page):
    choose(page, "#verdict-buttons button", "Look for rivals")
    assert not page.value('document.querySelector("#tool-rivals").hidden')
    page.click("#close-rivals")


@check("types that never came are told beside a yes, and are grey in the legend")
def nowhere(page):
    put(page, STUNTED)
    assert verdict(page)[:2] == ("Unique", "yes")
    assert page.text(".nowhere").startswith("1 type placed nowhere: C."), page.text(".nowhere")
    assert chips(page) == {"S": ("1", False), "B": ("1", False), "C": ("none", True)}, chips(page)


@check("where types never came it is told where to look: enough is offered and none takes it, or a glue is too weak")
def leads(page):
    assert "C is nearest to coming at (2, 0): west b 1 = 1 of 2." in page.text(".nowhere"), page.text(".nowhere")
    put(page, (TRIANGLE % (7, 7)).replace("tile r11 0 0 1 1\n", ""))
    said = page.text(".nowhere")
    assert "At (1, 1) enough is offered (south 1 1 + west 1 1 = 2 of 2), and no type takes both." in said, said
    page.click(".nowhere button")
    put(page, STUNTED)


@check("what the program printed can be read, each line with what it means")
def printed(page):
    put(page, CHAIN)
    found = page.value('[...document.querySelectorAll("#printed dt")].map((it) => it.textContent)')
    assert found == ["closed terminal", "unique yes"], found
    assert "Nothing attaches any more" in page.text("#printed")


@check("a growth that is handed in is judged by check: legal, or the tile that could not attach")
def handed(page):
    grown = "place 0 0 S\nplace 1 0 B\nplace 2 0 C\n"
    put(page, CHAIN + grown)
    assert verdict(page)[:2] == ("Unique", "yes") and "legal yes" in page.text("#printed")
    put(page, CHAIN + "place 0 0 S\nplace 2 0 C\n")
    word, tone, text = verdict(page)
    assert ((word, tone) == ("Not a legal growth", "no")
        and text == "Tile 2, C at (2, 0), comes held by no bond, and the temperature is 2."), text
    assert marks(page) == [[2, 0]]


@check("a sequence without its seed, and a site that is taken twice, are told")
def illegal(page):
    put(page, CHAIN + "place 1 0 B\n")
    assert "does not begin with the seeds" in verdict(page)[2], verdict(page)
    put(page, CHAIN + "place 0 0 S\nplace 0 0 S\n")
    assert "at a site that an earlier one has" in verdict(page)[2], verdict(page)


@check("an unfinished growth is told as such")
def unfinished(page):
    put(page, CHAIN + "place 0 0 S\n")
    assert verdict(page)[0] == "Not finished" and "B still attaches at (1, 0)" in verdict(page)[2], verdict(page)


@check("a growth with its closed and unique lines says both what it says and what the program says")
def claims(page):
    put(page, CHAIN + "place 0 0 S\nclosed terminal\nunique yes\n")
    assert verdict(page)[0] == "Not finished"
    assert "The text itself says: closed terminal; unique yes." in page.text("#verdict-more"), (
        page.text("#verdict-more"))


@check("a system of version 2, with pairs and several seeds, is read")
def second_version(page):
    pick(page, "corners.tiles")
    assert verdict(page)[0] == "Unique" and page.value(f"{STATE}.system.seeds.length") == 4
    pick(page, "complements.tiles")
    assert verdict(page)[0] == "Unique" and page.value(f"{STATE}.system.pairs.size") > 0


@check("steps of scouts are told in words, each beside its line")
def schedule(page):
    pick(page, "rivals.schedule")
    assert verdict(page)[0] == "All steps were taken", verdict(page)
    said = page.text("#printed")
    assert "won: the tile was placed" in said and "A already stands there" in said and "claim 63 1 0 B" in said, said


@check("a step of a scout that is refused is told with its line")
def refused_step(page):
    put(page, CHAIN + "claim 0 2 0 C\n")
    assert verdict(page)[:2] == ("A step was refused", "no") and page.text(".verdict-line") == "11  claim 0 2 0 C", (
        page.text(".verdict-line"))
    assert "what the scout has seen pulls with 0" in page.text("#printed"), page.text("#printed")


@check("a batch is run, and each of its jobs can be opened")
def batch(page):
    put(page, "batch 1\njob 4\n" + CHAIN + "job 7\n" + RACE)
    assert verdict(page)[0] == "A batch" and "2 jobs: 1 with the verdict yes" in verdict(page)[2], verdict(page)
    done(page, lambda: page.click("#verdict-buttons button:nth-child(2)"))
    assert verdict(page)[0] == "Not shown to be unique"


@check("the verdict is announced to a screen reader")
def announced(page):
    put(page, CHAIN)
    assert page.text("#announced").startswith("Unique. Nothing else can grow")
    assert page.value('document.querySelector("#announced").getAttribute("aria-live")') == "polite"
