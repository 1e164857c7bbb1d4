"""The picture: tiles in the legend's colours, what stands at a site, the open sites, play, from a tile to its line."""
import collections

from trial.check import check
from trial.reading import CHAIN, STATE, TRIANGLE, add, chips, colour, editor, pick, pixel, pixels, put, selected, site

EXAMPLES = ("chain.tiles", "sierpinski.tiles", "square20.tiles", "corners.tiles", "counter.tiles",
    "busy_beaver.machine")


def places(page):
    """Each tile that is shown: its site and its type's name."""
    return page.value(f"""(() => {{ const {{ growth, system, shown }} = {STATE};
      return Array.from({{ length: shown }}, (_, n) => [...growth.siteOf(n), system.nameOf(growth.types[n])]); }})()""")


def card(page):
    return page.value('document.querySelector("#card").hidden ? "" : document.querySelector("#card").innerText')


@check("each tile has its colour of the legend, and an empty site has none")
def colours(page):
    for name in EXAMPLES:
        pick(page, name)
        page.click("#fit-box")
        found = places(page)
        known = {it: colour(page, it) for it in {it[2] for it in found}}
        drawn = pixels(page, [it[:2] for it in found])
        wrong = [it for it, is_drawn in zip(found, drawn) if is_drawn != known[it[2]]]
        assert not wrong, (name, len(wrong), wrong[:4])
    stands = {(x, y) for x, y, _ in found}
    x0, y0, x1, y1 = page.value(f"{STATE}.system.box")
    empty = [(x, y) for y in range(y0, y1 + 1) for x in range(x0, x1 + 1) if (x, y) not in stands]
    assert empty and set(pixels(page, empty)) == {"#ffffff"}


@check("the legend counts what is shown, at each step")
def counted(page):
    pick(page, "square20.tiles")
    for keys in ((), ("Home",), ("ArrowRight",) * 3, ("End",), ("ArrowLeft",) * 2):
        page.value("document.activeElement.blur()")
        page.press(*keys)
        page.value("new Promise((done) => setTimeout(done, 90))")
        told = {name: int(count.replace(",", "")) for name,
            (count, _) in chips(page).items() if count not in ("none", "0")}
        assert told == collections.Counter(name for _, _, name in places(page)), keys


@check("steps by keys and by buttons, and the slider")
def steps(page):
    put(page, CHAIN)
    page.value("document.activeElement.blur()")
    page.press("ArrowLeft")
    assert page.value(f"{STATE}.shown") == 2 and page.text("#at") == "2 of 3 tiles"
    page.click("#back")
    page.click("#forth")
    page.click("#forth")
    assert page.value(f"{STATE}.shown") == 3
    page.click("#first")
    assert page.value(f"{STATE}.shown") == 1
    page.fill("#slider", "2")
    assert page.value(f"{STATE}.shown") == 2
    page.click("#last")
    assert page.value(f"{STATE}.shown") == 3


@check("it plays from the seeds to the end, and stops when it is told to")
def plays(page):
    page.value("document.activeElement.blur()")
    page.press(" ")
    assert page.text("#play") == "Stop"
    page.wait(f"{STATE}.shown === 3 && document.querySelector('#play').textContent === 'Play'")
    pick(page, "square20.tiles")
    page.click("#play")
    page.wait(f"{STATE}.shown > 3 && {STATE}.shown < 400")
    page.click("#play")
    still = page.value(f"{STATE}.shown")
    page.value("new Promise((done) => setTimeout(done, 200))")
    assert page.value(f"{STATE}.shown") == still < 400


@check("frames of a growth are played one by one, and each has its number")
def frames(page):
    grown = "grown\nplace 0 0 S\nplace 1 0 B\nplace 2 0 C\nclosed terminal\nunique yes\n"
    text = CHAIN + "frame 1 1\nplace 0 0 S\nframe 2 2\nplace 1 0 B\n" + grown
    put(page, text)
    assert page.value(f"{STATE}.growth.count") == 3
    assert page.value(f"{STATE}.growth.frames.map((it) => it.many)") == [1, 2]
    page.fill("#slider", "2")
    assert page.text("#at") == "frame 2, 2 of 3 tiles"
    assert page.text("#verdict-word") == "Unique"


@check("a click on a tile goes to its line and marks its type")
def to_line(page):
    put(page, TRIANGLE % (7, 7))
    page.value('document.querySelector("#text").blur()')
    page.click_at(*site(page, 2, 1))
    assert page.value(f"{STATE}.kinds.name({STATE}.chosen)") == "r01"
    assert selected(page) == "tile r01 1 1 1 0"
    assert page.value('document.querySelector("#legend [aria-pressed=true] .chip-name").textContent') == "r01"
    page.picture("chosen")


@check("the caret on the line of a tile outlines its type in the picture")
def from_line(page):
    page.value('(() => { const it = document.querySelector("#text"); it.focus(); const at = it.value.indexOf("tile '
        'r11"); it.setSelectionRange(at, at); })()')
    page.wait(f"{STATE}.kinds.name({STATE}.chosen) === 'r11'")
    assert page.value(f"{STATE}.isHint") and pixel(page, 3, 0) == colour(page, "B"), "the others stay as they are"


@check("a click in the legend goes to the line, another one takes the mark away")
def from_legend(page):
    page.value('[...document.querySelectorAll("#legend .chip")].find((it) => '
        'it.querySelector(".chip-name").textContent === "L").click()')
    assert selected(page) == "tile L v 1 v -"
    page.value('document.querySelector("#legend [aria-pressed=true]").click()')
    assert page.value(f"{STATE}.chosen") == -1


@check("a line that is deleted recolours nothing")
def keeps_colours(page):
    put(page, TRIANGLE % (7, 7))
    before = {it: colour(page, it) for it in ("S", "B", "L", "r00", "r10", "r11")}
    put(page, (TRIANGLE % (7, 7)).replace("tile r01 1 1 1 0\n", ""))
    assert {it: colour(page, it) for it in before} == before


@check("types of a set have colours that are told apart")
def apart(page):
    found = [colour(page, it) for it in ("S", "B", "L", "r00", "r10", "r11")]
    assert len(set(found)) == len(found), found


@check("a remark gives a type, or a glue, its colour")
def remarks(page):
    put(page, (TRIANGLE % (7, 7)).replace("tile B", "# colour B #123456\n# colour 1 #abcdef\ntile B"))
    assert colour(page, "B") == "#123456" and pixel(page, 3, 0) == "#123456"
    page.fill("#by", "0")
    assert colour(page, "1") == "#abcdef" and pixel(page, 3, 0) == "#abcdef"
    page.fill("#by", "type")


@check("what a tile is held by stands beside the pointer")
def tile_card(page):
    put(page, TRIANGLE % (7, 7))
    page.point_at(*site(page, 1, 1))
    said = card(page)
    assert said.split()[:2] == ["r11", "(1,"] and "south 1 (1) bond 1" in " ".join(said.split()), said


@check("of an empty site it is told what is offered on each side, the sum, and that no type takes both")
def none_takes(page):
    put(page, (TRIANGLE % (7, 7)).replace("tile r11 0 0 1 1\n", ""))
    page.point_at(*site(page, 4, 4))
    page.point_at(*site(page, 1, 1))
    said = " ".join(card(page).split())
    assert "empty (1, 1)" in said and "south 1 (1) is offered" in said and "west 1 (1) is offered" in said, said
    assert "1 + 1 = 2 of 2 wanted, and no type takes both" in said and "r01 takes 1" in said, said
    page.picture("empty")


@check("of an open site it is told which types come")
def comes(page):
    put(page, CHAIN)
    page.value("document.activeElement.blur()")
    page.press("Home")
    page.point_at(*site(page, 1, 0))
    assert "2 of 2 wanted: B comes" in " ".join(card(page).split()), card(page)


@check("too little is told as such, and so is a site outside the box")
def too_little(page):
    put(page, (TRIANGLE % (7, 7)))
    page.value("document.activeElement.blur()")
    page.press("Home", "ArrowRight")
    page.point_at(*site(page, 1, 1))
    assert "1 of 2 wanted: too little" in " ".join(card(page).split()), card(page)
    page.press("End")
    page.point_at(*site(page, 8, 0))
    said = " ".join(card(page).split())
    assert "outside the box, to the east by 1" in said and "B comes" in said, said


@check("the open sites are shown at each step of play")
def open_sites(page):
    put(page, TRIANGLE % (7, 7))
    page.value("document.activeElement.blur()")
    page.press("Home")
    count = """(() => {
      tilebench.page.drawNow();
      const canvas = document.querySelector("#canvas"), { view, state } = tilebench.page, ratio = devicePixelRatio;
      const accent = getComputedStyle(canvas).getPropertyValue("--accent").trim(), found = [];
      const parts = [1, 3, 5].map((at) => parseInt(accent.slice(at, at + 2), 16));
      for (let y = 0; y < 8; y++) for (let x = 0; x < 8; x++) {
        const n = state.growth.numberAt(x, y);
        if (n >= 0 && n < state.shown) continue;
        // (a dot is a ring of three tenths of the tile)
        const px = (view.left + (x + 0.5 - 0.15) * view.scale) * ratio,
          py = (view.top + (7 - y + 0.5) * view.scale) * ratio;
        const at = canvas.getContext("2d").getImageData(Math.round(px) - 2, Math.round(py), 5, 1).data;
        for (let n = 0; n < 20; n += 4) if (
          parts.every((it, part) => Math.abs(it - at[n + part]) < 60)) { found.push([x, y]); break; }
      }
      return found; })()"""
    assert sorted(page.value(count)) == [[0, 1], [1, 0]], page.value(count)
    page.press("ArrowRight")
    assert sorted(page.value(count)) == [[0, 1], [2, 0]], page.value(count)
    page.press("End")
    assert page.value(count) == []


@check("zoom by keys, buttons and wheel, and back to what stands")
def zooms(page):
    put(page, TRIANGLE % (7, 7))
    page.press("0")
    page.click("#fit")
    scale = page.value("tilebench.page.view.scale")
    page.click("#larger")
    assert page.value("tilebench.page.view.scale") > scale
    page.value("document.activeElement.blur()")
    page.press("-", "-")
    assert page.value("tilebench.page.view.scale") < scale
    page.press("0")
    assert page.value("tilebench.page.view.scale") == scale
    page.value('document.querySelector("#canvas").dispatchEvent(new WheelEvent("wheel", { deltaY: -100, bubbles: '
        'true, cancelable: true }))')
    assert page.value("tilebench.page.view.scale") > scale
    page.click("#fit-box")
    page.click("#fit")


@check("the box and what stands are each brought into view")
def views(page):
    pick(page, "spiral.tiles")
    inside = """((corners) => { const { view, state } = tilebench.page;
      return corners.every(([x, y]) =>
        { const px = view.left + (x - state.system.box[0]) * view.scale,
        py = view.top + (state.system.box[3] - y) * view.scale;
        return px >= 0 && py >= 0 && px + view.scale <= view.width && py + view.scale <= view.height; }); })"""
    assert page.value(f"{inside}({STATE}.growth.count ? Array.from({STATE}.growth.cells.slice(0, "
        f"{STATE}.growth.count), (it) => {STATE}.system.siteOf(it)) : [])")
    page.click("#fit-box")
    assert page.value(f"(([x0, y0, x1, y1]) => {inside}([[x0, y0], [x1, y1]]))({STATE}.system.box)")
    page.click("#fit")


@check("a type or a glue is searched: the legend has what was found, the rest goes pale")
def searches(page):
    put(page, TRIANGLE % (7, 7))
    page.fill("#search", "r0")
    assert set(chips(page)) == {"r00", "r01"}
    assert pixel(page, 3, 0) != colour(page, "B")
    page.fill("#search", "v")
    assert set(chips(page)) == {"S", "L"}, chips(page)
    page.fill("#search", "")
    assert len(chips(page)) == 7 and pixel(page, 3, 0) == colour(page, "B")


@check("tiles are coloured by a glue: the triangle shows")
def by_glue(page):
    page.fill("#by", "0")
    assert set(chips(page)) == {"0", "1", "v"}, chips(page)
    assert pixel(page, 2, 0) == colour(page, "1")
    page.fill("#by", "type")


@check("the keyboard goes from site to site, and says what stands there")
def keyboard(page):
    put(page, CHAIN)
    page.value('document.querySelector("#canvas").focus()')
    page.press("ArrowRight")
    assert page.text("#announced").startswith("(0, 0) S, tile 1, a seed"), page.text("#announced")
    page.press("ArrowRight")
    assert page.text("#announced").startswith("(1, 0) B, tile 2"), page.text("#announced")
    page.press("Enter")
    assert page.value(f"{STATE}.kinds.name({STATE}.chosen)") == "B"
    page.press("Escape")
    assert page.value(f"{STATE}.cursor") is None


@check("where it was looked at stays, while the box stays")
def stays(page):
    put(page, TRIANGLE % (31, 31))
    page.click("#larger")
    before = page.value("[tilebench.page.view.scale, tilebench.page.view.left]")
    put(page, (TRIANGLE % (31, 31)) + "# a remark\n")
    assert page.value("[tilebench.page.view.scale, tilebench.page.view.left]") == before
    put(page, TRIANGLE % (63, 63))
    assert page.value("[tilebench.page.view.scale, tilebench.page.view.left]") != before


@check("a growth that is handed in as a file of its own stands behind the system that is there")
def growth_alone(page):
    put(page, CHAIN)
    add(page, "a.grown", b"place 0 0 S\nplace 1 0 B\n")
    assert editor(page) == CHAIN + "place 0 0 S\nplace 1 0 B\n" and page.value(f"{STATE}.growth.count") == 2
