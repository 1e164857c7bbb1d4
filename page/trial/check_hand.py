"""Growing by hand, and looking for rivals."""
from trial.check import check
from trial.reading import ARCH, CHAIN, RACE, STATE, TRIANGLE, choose, done, pick, put, site, verdict


def told(page):
    return page.text("#hand-told")


@check("by hand it begins with the seeds, and lists the open sites")
def begins(page):
    put(page, TRIANGLE % (7, 7))
    page.click("#open-hand")
    page.wait(f"{STATE}.mode === 'hand'")
    assert page.value(f"{STATE}.growth.count") == 1
    sites = page.value('[...document.querySelectorAll("#hand-sites button")].map((it) => it.textContent)')
    assert sorted(sites) == ["(0, 1): L", "(1, 0): B"], sites


@check("a click on an open site places what attaches, and the program calls it legal")
def places(page):
    page.click_at(*site(page, 1, 0))
    page.wait(f"{STATE}.growth.count === 2")
    page.click_at(*site(page, 0, 1))
    page.wait(f"{STATE}.growth.count === 3")
    page.wait('document.querySelector("#verdict-word").textContent === "Not finished"')
    assert "legal yes" in page.text("#printed"), page.text("#printed")
    page.click_at(*site(page, 1, 1))
    page.wait(f"{STATE}.growth.count === 4")
    assert page.value(f"{STATE}.growth.nameAt(1, 1)") == "r11"
    page.picture("hand")


@check("a site at which nothing attaches takes no click")
def closed(page):
    page.click_at(*site(page, 4, 4))
    assert page.value(f"{STATE}.growth.count") == 4


@check("back takes the last tile away")
def back(page):
    page.click("#hand-back")
    assert page.value(f"{STATE}.growth.count") == 3 and told(page).startswith("3 tiles placed. 3 sites open."), (
        told(page))
    page.value('document.querySelector("#canvas").focus()')
    page.press("Backspace")
    assert page.value(f"{STATE}.growth.count") == 2
    page.click("#hand-again")
    assert page.value(f"{STATE}.growth.count") == 1


@check("any type may be placed anywhere, and the program says why it is not legal")
def anywhere(page):
    page.click("#hand-any")
    page.click_at(*site(page, 2, 2))
    page.wait('!document.querySelector("#hand-menu").hidden')
    choose(page, "#hand-menu button", "r00")
    page.wait('document.querySelector("#verdict-word").textContent === "Not a legal growth"')
    assert "r00 at (2, 2), comes held by no bond" in verdict(page)[2], verdict(page)
    page.click("#hand-any")


@check("closed, the program's growth is there again")
def leaves(page):
    done(page, lambda: page.click("#close-hand"))
    page.wait(f"{STATE}.mode === 'look' && {STATE}.growth.count === 64")
    page.wait('document.querySelector("#verdict-word").textContent === "Unique within the box"')


@check("where two types attach one is picked from a menu, by keys too")
def picks(page):
    put(page, RACE)
    page.click("#open-hand")
    page.wait(f"{STATE}.mode === 'hand'")
    page.value('document.querySelector("#hand-sites button").focus()')
    page.press("Enter")
    page.wait('!document.querySelector("#hand-menu").hidden')
    assert page.value("document.activeElement.textContent").startswith("A held by 1 of 1"), (
        page.value("document.activeElement.textContent"))
    page.press("Tab", "Enter")
    page.wait(f"{STATE}.growth.count === 2")
    assert page.value(f"{STATE}.growth.nameAt(1, 0)") == "B"
    assert told(page).endswith("Nothing attaches in the box any more."), told(page)


@check("it goes on by hand from the step of play that is shown")
def goes_on(page):
    done(page, lambda: page.click("#close-hand"))
    put(page, TRIANGLE % (7, 7))
    page.value("document.activeElement.blur()")
    page.press("Home", "ArrowRight", "ArrowRight", "ArrowRight")
    page.click("#open-hand")
    page.wait(f"{STATE}.mode === 'hand'")
    assert page.value(f"{STATE}.growth.count") == 4
    done(page, lambda: page.click("#close-hand"))


@check("a key in the text ends the growth by hand")
def typed(page):
    page.click("#open-hand")
    page.wait(f"{STATE}.mode === 'hand'")
    put(page, CHAIN)
    assert page.value(f"{STATE}.mode") == "look" and page.value('document.querySelector("#drawer").hidden')


@check("rivals: of 64 choices it is told how many assemblies came, and the first site where they part")
def rivals(page):
    put(page, RACE)
    page.click("#open-rivals")
    page.wait("tilebench.page.search()?.tried === 64", 60)
    assert (page.text("#rivals-told").startswith("Of 64 choices 2 different assemblies came. So more than one "
        "assembly can grow")), page.text("#rivals-told")
    assert page.value('document.querySelectorAll("#rivals-found .close-ups canvas").length') == 2
    assert "They part first at (1, 0): A in the first, B in the second." in page.text("#rivals-found"), (
        page.text("#rivals-found"))
    page.picture("rivals")


@check("each of them is shown, with that site marked")
def shows(page):
    for number, name in ((2, "B"), (1, "A")):
        choose(page, "#rivals-found button", f"Show number {number}")
        page.wait(f"{STATE}.growth.nameAt(1, 0) === '{name}' && !!{STATE}.mark")
        assert page.value(f"[{STATE}.mark.x, {STATE}.mark.y]") == [1, 0]
    page.click("#close-rivals")


@check("a set with the verdict yes has one assembly, and that is told as no surprise")
def one(page):
    pick(page, "corners.tiles")
    page.click("#open-rivals")
    page.wait("tilebench.page.search()?.tried === 64", 60)
    assert page.text("#rivals-told").startswith("Of 64 choices one assembly came. That is no surprise"), (
        page.text("#rivals-told"))


@check("a no of which one assembly comes is told to be open")
def stays_open(page):
    page.click("#close-rivals")
    put(page, ARCH)
    page.click("#open-rivals")
    page.wait("tilebench.page.search()?.tried === 64", 60)
    assert "Nothing follows from that" in page.text("#rivals-told"), page.text("#rivals-told")


@check("the search is stopped by its button, and by another text")
def stops(page):
    page.click("#close-rivals")
    put(page, TRIANGLE % (255, 255))
    page.click("#open-rivals")
    page.wait("tilebench.page.search()?.tried > 0", 20)
    page.click("#rivals-run")
    tried = page.value("tilebench.page.search().tried")
    page.value("new Promise((done) => setTimeout(done, 300))")
    assert page.value("tilebench.page.search().tried") == tried < 64
    put(page, CHAIN)
    assert page.text("#rivals-told") == "The text has changed."
    page.click("#close-rivals")


@check("of a text that is refused nothing is grown by hand, and no rivals are looked for")
def refused(page):
    put(page, CHAIN.replace("tau 2", "tau"))
    page.click("#open-hand")
    page.wait('document.querySelector("#hand-told").textContent === "The text does not grow: mend it first."')
    page.click("#open-rivals")
    page.wait('document.querySelector("#rivals-told").textContent === "The text does not grow: mend it first."')
    page.click("#close-rivals")
