"""What is saved, and the link that holds the text."""
import xml.etree.ElementTree

from trial.check import check
from trial.reading import CHAIN, STATE, TRIANGLE, add, done, drop, editor, pick, put, verdict

# keeps what is saved, in place of the browser's download
CATCH = """(() => {
  window.caught = [];
  HTMLAnchorElement.prototype.click = function () { window.caught.push({ name: this.download, url: this.href }); };
  URL.revokeObjectURL = () => {};
  const made = URL.createObjectURL;
  window.blobs = new Map();
  URL.createObjectURL = (blob) => {
    const url = made.call(URL, blob);
    window.blobs.set(url, blob);
    return url;
  };
})()"""


def saved(page, button):
    """What a button of the menu saves: its name and its text."""
    page.value("window.caught.length = 0")
    page.click("#save")
    page.click(f"#{button}")
    page.wait("window.caught.length === 1")
    return page.value("(async () => [window.caught[0].name, await window.blobs.get(window.caught[0].url).text()])()")


@check("the text is saved as it stands")
def text(page):
    page.value(CATCH)
    put(page, CHAIN + "# mine\n")
    assert saved(page, "save-system") == ["system.tiles", CHAIN + "# mine\n"]


@check("the growth is saved with its verdict, and is judged the same when it is opened behind its system")
def growth(page):
    put(page, CHAIN)
    name, found = saved(page, "save-growth")
    assert (name, found) == ("growth.grown", "place 0 0 S\nplace 1 0 B\nplace 2 0 C\nclosed terminal\nunique yes\n")
    done(page, lambda: drop(page, [("g", found.encode()), ("s", CHAIN.encode())]))
    assert verdict(page)[0] == "Unique"


@check("a certificate is saved")
def certificate(page):
    put(page, CHAIN)
    page.click("#save")
    assert page.value('document.querySelector("#save-certificate").disabled')
    page.press("Escape")
    page.click("#open-certificate")
    page.click("#certificate-make")
    page.wait('document.querySelector("#verdict-word").textContent === "Verified"')
    assert saved(page, "save-certificate") == ["assembly.certificate",
        "mark 0 0 S - 0\nmark 1 0 B W 1\nmark 2 0 C W 2\n"]
    page.click("#close-certificate")


@check("the picture is saved as SVG, with each run of tiles in its colour and each name")
def svg(page):
    put(page, CHAIN.replace("tile B", "# colour B #123456\ntile B"))
    name, found = saved(page, "save-svg")
    top = xml.etree.ElementTree.fromstring(found)
    assert name == "assembly.svg" and top.get("viewBox") == "0 0 3 1"
    assert [it.get("d") for it in top.iter("{http://www.w3.org/2000/svg}path")
        if it.get("fill") == "#123456"] == ["M1 0h1v1h-1z"]
    assert [it.text for it in top.iter("{http://www.w3.org/2000/svg}text")] == ["S", "B", "C"]


@check("the picture is saved as PNG")
def png(page):
    page.value("window.caught.length = 0")
    page.click("#save")
    page.click("#save-png")
    page.wait("window.caught.length === 1")
    size = page.value("(async () => { const it = await createImageBitmap(window.blobs.get(window.caught[0].url)); "
        "return [it.width, it.height]; })()")
    assert size == [144, 48], size


@check("of a machine the compiled tile set is saved too")
def compiled(page):
    pick(page, "incrementer.machine")
    name, found = saved(page, "save-compiled")
    assert name == "system.tiles" and found.startswith("tiles 1\ntau 2\n") and found.endswith("end\n"), found[:40]
    assert saved(page, "save-system")[0] == "machine.machine"


@check("a link holds the text, and grows it where it is opened")
def link(page):
    text = (TRIANGLE % (15, 15)) + "# \u00e9 < & \" '\n"
    put(page, text)
    page.click("#share")
    page.wait('document.querySelector("#share-form").open')
    found = page.value('document.querySelector("#link").value')
    page.picture("share")
    page.press("Escape")
    assert "#t=" in found and len(found) < 700, found
    page.fresh(hash=found[found.index("#"):])
    page.wait("tilebench.page.timings.count > 0")
    assert editor(page) == text and page.value(f"{STATE}.growth.count") == 256


@check("the text that was there before a link was opened comes back by undo")
def before_link(page):
    put(page, CHAIN + "# mine\n")
    page.value("new Promise((done) => setTimeout(done, 500))")
    page.click("#share")
    page.wait('document.querySelector("#share-form").open')
    found = page.value('document.querySelector("#link").value')
    page.press("Escape")
    put(page, CHAIN + "# another\n")
    page.value("new Promise((done) => setTimeout(done, 500))")
    page.is_away = True
    page.load("about:blank")
    page.load(page.address + found[found.index("#"):])
    page.wait("typeof tilebench === 'object' && tilebench.page?.timings.count > 0")
    assert editor(page) == CHAIN + "# mine\n"
    done(page, lambda: page.click("#undo"))
    assert editor(page) == CHAIN + "# another\n"


def opened(page, hash):
    page.fresh(hash=hash)
    page.wait("tilebench.page.timings.count > 0")
    page.is_away = True


@check("a broken link is told, and the page begins as ever")
def broken(page):
    for hash in ("#t=%%%", "#t=AAAA", "#t=!", "#t=" + "A" * 4001, "#t="):
        opened(page, hash)
        assert "broken" in page.text("#notice") or hash == "#t=", (hash, page.text("#notice"))
        assert verdict(page)[1] in ("yes", "plain"), verdict(page)


PACKED = """(async () => {
  const piece = new Uint8Array(1 << 20).fill(%d), stream = new CompressionStream("deflate-raw");
  const writer = stream.writable.getWriter();
  const all = new Response(stream.readable).arrayBuffer();
  for (let n = 0; n < %d; n++) await writer.write(piece);
  await writer.close();
  let signs = ""; for (const it of new Uint8Array(await all)) signs += String.fromCharCode(it);
  return btoa(signs).replaceAll("+", "-").replaceAll("/", "_").replace(/=+$/, ""); })()"""


@check("a link that unpacks to 64 MiB of remarks, or to much more, is not opened")
def bomb(page):
    for sign, many in ((35, 64), (0, 300)):
        packed = page.value(PACKED % (sign, many))
        before = page.value("performance.now()")
        opened(page, "#t=" + packed)
        assert "more than 4 MiB" in page.text("#notice"), page.text("#notice")
        assert page.value("performance.now()") < 15000 and before is not None
        assert verdict(page)[0] == "Unique"


@check("a link of 800,000 signs is not opened")
def long_link(page):
    page.value("location.hash = '#t=' + 'A'.repeat(800000)")
    page.wait('document.querySelector("#notice").textContent.includes("too long")')
    page.is_away = True


@check("a text that is too long for a link is told so")
def too_long(page):
    page.wait("tilebench.page.timings.count > 0")
    add(page, "a.tiles", (CHAIN + "# remark\n" * 600000).encode())
    page.click("#share")
    page.wait('document.querySelector("#notice").textContent.startsWith("The text is too long for a link")')
    assert not page.value('document.querySelector("#share-form").open')


MARKUP = '<img src=x onerror="document.title=1">'


@check("all that a text says is shown as text: names with markup make no element")
def markup(page):
    page.fresh()
    page.wait("tilebench.page.timings.count > 0")
    count = page.value('document.querySelectorAll("*").length')
    put(page, CHAIN.replace("tile B", f"# {MARKUP}\n{MARKUP}\ntile B"))
    assert MARKUP in page.text(".verdict-line"), page.text(".verdict-line")
    put(page, CHAIN.replace("tile B", "tile <b>B</b><script>document.title=1<\\/script>".replace("\\", "")))
    put(page, CHAIN + f"place 0 0 {MARKUP.replace(' ', '')}\n")
    assert page.value('document.querySelectorAll("main img, main script, main b b").length') == 0
    assert page.value("document.title") == "tilebench"
    assert abs(page.value('document.querySelectorAll("*").length') - count) < 60


@check("files whose names have markup are told as text")
def file_names(page):
    page.value("""(() => { const held = new DataTransfer();
      held.items.add(new File([new Uint8Array(67108865)], "<img src=x>"));
      const event = new Event("drop", { bubbles: true, cancelable: true });
      Object.defineProperty(event, "dataTransfer", { value: held }); window.dispatchEvent(event); })()""")
    page.wait('document.querySelector("#notice").textContent.includes("<img src=x> has more than 64 MiB")')
    assert page.value('document.querySelectorAll("#notice-text *").length') == 0
