"""The editor: it grows as it is typed, a half-typed line costs nothing, and nothing that was typed is lost."""
from trial.check import check
from trial.reading import CHAIN, STATE, TRIANGLE, add, done, editor, pick, put, selected, verdict

from tilebench import refusals


@check("what is typed grows at the pause")
def grows(page):
    put(page, CHAIN)
    assert page.value(f"{STATE}.growth.count") == 3
    done(page, lambda: page.type("#text", "# a remark"))
    assert verdict(page)[0] == "Refused"
    done(page, lambda: page.press("Enter"))
    assert verdict(page)[0] == "Unique", verdict(page)


@check("a newer key ends an older growth")
def newer_key(page):
    before = page.value("tilebench.page.timings.count")
    page.fill("#text", TRIANGLE % (1023, 1023))
    page.wait(f"!document.querySelector('#busy').hidden || tilebench.page.timings.count > {before}", 30)
    page.fill("#text", CHAIN)
    page.wait(f"tilebench.page.isIdle() && {STATE}.growth.count === 3")
    page.value("new Promise((done) => setTimeout(done, 1200))")
    assert page.value(f"{STATE}.growth.count") == 3


@check("while a line is half typed the last picture stays, dimmed, and says so")
def stays(page):
    put(page, CHAIN)
    put(page, CHAIN.replace("tile C - - - b", "tile C - -"))
    assert page.value(f"{STATE}.growth.count") == 3
    assert page.value('document.querySelector("#board").classList.contains("stale")')
    assert page.value('getComputedStyle(document.querySelector("#stale-note")).display') == "block"
    page.picture("refused")


@check("once it is mended the picture is bright again and nothing is marked")
def mended(page):
    put(page, CHAIN)
    assert not page.value('document.querySelector("#board").classList.contains("stale")')
    assert page.value('document.querySelector("#gutter").dataset.fault') == ""


@check("the refused line is marked, and shown in the verdict as it stands")
def marked(page):
    put(page, CHAIN.replace("glue b 2\n", ""))
    assert page.value('document.querySelector("#gutter").dataset.fault') == "5"
    assert page.text(".verdict-line") == "5  tile B - b - a"
    assert "gradient" in page.value('getComputedStyle(document.querySelector("#text")).backgroundImage')
    assert verdict(page)[:2] == ("Refused", "plain")


@check("a refusal is told in explain's words")
def explained(page):
    for broken in (CHAIN.replace("glue b 2\n", ""), CHAIN.replace("tau", "Tau"), CHAIN.replace("end\n", ""),
        CHAIN.replace("- a -", "- -")):
        put(page, broken)
        found = page.value('(async () => { const it = await tilebench.run(["grow"], '
            'document.querySelector("#text").value); return it.err; })()')
        _, _, _, line, cause = found.split()
        first, _, *rest = refusals.reasons(broken.encode(), int(line), cause, "grow")
        said = page.value('[...document.querySelectorAll("#verdict-more li")].map((it) => it.textContent)')
        assert said == [it[4:] for it in rest], (said, rest)
        assert (verdict(page)[2].lower().replace("`", "").rstrip(".") == first.split(": ", 2)[2].lower().replace("`",
            "").rstrip(".")), (verdict(page), first)


@check("the refused line is scrolled to, also where the text is long")
def scrolled(page):
    long = CHAIN.replace("box", "".join(f"tile T{n} - a - -\n" for n in range(300)) + "box").replace("tile T150 -",
        "tile T150 z")
    put(page, long)
    page.wait("""(() => { const it = document.querySelector("#text");
      const at = 8 + (Number(document.querySelector("#gutter").dataset.fault) - 1) * 20 - it.scrollTop;
      return at >= 0 && at < it.clientHeight; })()""")
    page.click("#verdict-buttons button")
    assert selected(page) == "tile T150 z a - -"


@check("each line has its number")
def numbers(page):
    put(page, CHAIN)
    assert page.text("#numbers").split() == [str(it) for it in range(1, 12)]


@check("undo and redo by keys")
def undo(page):
    put(page, CHAIN)
    put(page, CHAIN.replace("box 0 0 2 0", "box 0 0 1 0"))
    page.value("new Promise((done) => setTimeout(done, 1000))")
    done(page, lambda: page.type("#text", "# typed\n"))
    done(page, lambda: page.press("Control+z"))
    assert "typed" not in editor(page) and "box 0 0 1 0" in editor(page), editor(page)
    done(page, lambda: page.press("Control+Shift+z"))
    assert "typed" in editor(page)


@check("undo brings back a text that an example replaced")
def undo_example(page):
    put(page, CHAIN)
    pick(page, "square.tiles")
    done(page, lambda: page.click("#undo"))
    assert editor(page) == CHAIN
    assert page.value(f"{STATE}.growth.count") == 3


@check("what was typed is there again after a reload")
def kept(page):
    text = CHAIN + "# mine\n"
    put(page, text)
    page.value("new Promise((done) => setTimeout(done, 500))")
    page.fresh(forget=False)
    page.wait("tilebench.page.timings.count > 0")
    assert editor(page) == text and page.value(f"{STATE}.growth.count") == 3


@check("where the browser keeps nothing the page works the same")
def no_storage(page):
    page.value('Object.defineProperty(window, "localStorage", { get() { throw new Error("no"); }, configurable: true '
        '}) && 0')
    put(page, CHAIN)
    assert verdict(page)[0] == "Unique", (verdict(page), editor(page)[:60])
    page.is_away = True


@check("a file is taken as it stands: with carriage returns it is refused, and they are told")
def windows(page):
    page.wait("tilebench.page.timings.count > 0")
    add(page, "a.tiles", CHAIN.replace("\n", "\r\n").encode())
    assert verdict(page)[0] == "Refused"
    assert "carriage return" in page.text("#verdict-more"), page.text("#verdict-more")
    done(page, lambda: page.click("#verdict-buttons button:nth-child(2)"))
    assert verdict(page)[0] == "Unique", verdict(page)


@check("a long text stands in the editor by its start, and grows as a whole")
def long_text(page):
    add(page, "long.tiles", (CHAIN.replace("tau", "# remark\n" * 60000 + "tau")).encode())
    assert page.value('document.querySelector("#text").readOnly') and len(editor(page)) < 10000
    assert verdict(page)[0] == "Unique" and page.value(f"{STATE}.growth.count") == 3
    done(page, lambda: page.click("#undo"))
    assert not page.value('document.querySelector("#text").readOnly')


@check("a file that is longer than the program reads is refused, and the text stays")
def too_long(page):
    put(page, CHAIN)
    page.value("""(() => { const held = new DataTransfer();
      held.items.add(new File([new Uint8Array(67108865)], "big.tiles"));
      const event = new Event("drop", { bubbles: true, cancelable: true });
      Object.defineProperty(event, "dataTransfer", { value: held });
      window.dispatchEvent(event); })()""")
    page.wait('document.querySelector("#notice").textContent.includes("64 MiB")')
    assert editor(page) == CHAIN
    page.click("#notice-close")
    assert page.value('document.querySelector("#notice").hidden')


@check("64 MiB of remarks are opened and come to an end, and the page stays in use")
def remarks(page):
    page.value("""(async () => {
      const line = "# " + "x".repeat(61) + "\\n", one = new TextEncoder().encode(line.repeat(1024));
      const all = new Uint8Array(67108864); for (let at = 0; at < all.length; at += one.length) all.set(one, at);
      const held = new DataTransfer(); held.items.add(new File([all], "remarks.tiles"));
      const event = new Event("drop", { bubbles: true, cancelable: true });
      Object.defineProperty(event, "dataTransfer", { value: held });
      window.dispatchEvent(event); })()""")
    # (on a busy machine the program may take more than its ten seconds)
    page.wait('["Refused", "Given up"].includes(document.querySelector("#verdict-word").textContent)', 60)
    put_back = lambda: page.click("#undo")
    done(page, put_back)
    assert verdict(page)[0] == "Unique", (verdict(page), editor(page)[:60])
