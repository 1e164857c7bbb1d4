"""Checks of the program in the page: its answers, its ends, and what other scripts may ask of it."""
import json
import tempfile

import bundle
from trial import modules, runs, stored
from trial.check import check

CHAIN = runs.read(f"{runs.TOP}/examples/chain.tiles").decode()
# what became of a promise: its value, or the kind of its failure
KIND = "%s.then(() => 'answered', (why) => why.kind ?? why.name)"
FRAMING = """<!doctype html><iframe id="it" src="%s"></iframe><script>
window.tilebench = {};
window.heard = [];
addEventListener("message", ({ data }) => heard.push(data.tilebench));
</script>"""


@check("each of examples/ is answered with the native program's bytes, as they were stored")
def stored_answers(page):
    assert stored.is_there(), "page/try --store stores them"
    differing = stored.differing(page)
    assert not differing, differing


@check("tilebench.run answers a text by texts")
def text_by_texts(page):
    answer = page.value(f"tilebench.run(['grow'], {json.dumps(CHAIN)})")
    assert answer["status"] == 0 and answer["out"].endswith("unique yes\n") and answer["err"] == "", answer


@check("tilebench.run answers bytes by bytes")
def bytes_by_bytes(page):
    asked = f"tilebench.run(['grow'], new TextEncoder().encode({json.dumps(CHAIN)}))"
    answer = page.value(f"{asked}.then((it) => [it.out.constructor.name, it.err.length])")
    assert answer == ["Uint8Array", 0], answer


@check("a refusal has its status and its words")
def refusal(page):
    answer = page.value("tilebench.run(['grow'], 'tiles 1\\ntau x\\n')")
    assert answer["status"] > 1 and answer["err"].startswith("refused text line 2 BadNumber"), answer


@check("a command without words, and one that is none, are refused")
def no_command(page):
    answers = [page.value(f"tilebench.run({words}, '')") for words in ("[]", "['nothing']")]
    assert all(it["status"] > 1 and it["err"].startswith("refused words") for it in answers), answers


@check("many runs at once are all answered, in their order")
def many_at_once(page):
    asked = [f"tilebench.run(['counter', '{n}', '{2 ** n - 20}'], '')" for n in (8, 9, 10, 11)]
    together = f"Promise.all([{', '.join(asked)}])"
    answers = page.value(f"{together}.then((all) => all.map((it) => [it.status, it.out.length]))")
    alone = [page.value(f"{it}.then((it) => [it.status, it.out.length])") for it in asked]
    assert answers == alone and len({it[1] for it in answers}) == 4, answers


@check("what is no list of words, or no text, is refused and ends nothing")
def not_words(page):
    for asked in ("'grow', ''", "[1], ''", "['grow'], 5", "['a\\0b'], ''"):
        assert page.value(KIND % f"tilebench.run({asked})") == "TypeError", asked
    assert page.value(f"tilebench.run(['grow'], {json.dumps(CHAIN)})")["status"] == 0


@check("an input of more bytes than the program reads is told before it runs")
def too_long(page):
    assert page.value(KIND % "tilebench.run(['grow'], new Uint8Array(67108865))") == "long"


@check("64 MiB of remarks are answered")
def remarks(page):
    code = """(() => {
      const text = new Uint8Array(67108864).fill(35);
      for (let at = 99; at < text.length; at += 100) text[at] = 10;
      text[text.length - 1] = 10;
      return tilebench.run(["grow"], text, { seconds: 60 });
    })()"""
    answer = page.value(code + ".then((it) => [it.status, new TextDecoder().decode(it.err)])")
    assert answer[0] > 1 and answer[1].startswith("refused text"), answer


@check("a run over its time is given up, and the page stays in use meanwhile")
def slow(page):
    page.visit(modules.page_with(modules.ending_by("loop")))
    code = """(async () => { let ticks = 0; const clock = setInterval(() => ticks++, 50);
      const kind = await tilebench.run(["slowly"], "", { seconds: 1 }).catch((why) => [why.kind, why.message]);
      clearInterval(clock); return [...kind, ticks]; })()"""
    kind, message, ticks = page.value(code)
    assert kind == "slow" and "1 s" in message and ticks > 10, (kind, message, ticks)


@check("a trap of the module is told, and the next run starts afresh")
def trap(page):
    page.visit(modules.page_with(modules.ending_by("trap")))
    assert page.value(KIND % "tilebench.run(['traps'], '')") == "trap"
    assert page.value("tilebench.run(['ends', 'well'], '')")["status"] == 0
    assert page.value(KIND % "tilebench.run(['traps'], '')") == "trap"


@check("want of memory is the program's status 6")
def no_memory(page):
    page.visit(modules.page_with(modules.ending_by("no memory")))
    assert page.value("tilebench.run(['grow'], '')")["status"] == 6


@check("a page without the program says so, and answers nothing")
def without_program(page):
    page.visit(modules.page_with(b""))
    assert "without the program" in page.value("tilebench.lack")
    assert page.value(KIND % "tilebench.run(['grow'], '')") == "lack"


@check("a page that frames this one hears its answers by messages")
def framed(page):
    with tempfile.NamedTemporaryFile("w", suffix=".html") as it:
        it.write(FRAMING % page.address)
        it.flush()
        page.visit(f"file://{it.name}")
        page.wait("heard.some((it) => it.isReady)")
        asked = json.dumps({"tilebench": {"id": 7, "words": ["grow"], "text": CHAIN}})
        page.value(f"it.contentWindow.postMessage({asked}, '*')")
        answer = page.wait("heard.find((it) => it.id === 7)")
        assert answer["status"] == 0 and answer["out"].endswith("unique yes\n"), answer
        page.value("it.contentWindow.postMessage({ tilebench: { id: 8, words: 5 } }, '*')")
        page.value("it.contentWindow.postMessage('x', '*')")
        page.value("it.contentWindow.postMessage({ tilebench: { id: 9, words: [5], text: '' } }, '*')")
        assert page.wait("heard.find((it) => it.id === 9)")["kind"] == "asked"


@check("the page asks nobody: its policy refuses a fetch, a picture and a script from outside")
def policy(page):
    code = """(async () => {
      const refused = [];
      document.addEventListener("securitypolicyviolation", (event) => refused.push(event.effectiveDirective));
      await fetch("https://example.invalid/").catch(() => {});
      const add = (tag, src) => {
        const it = document.createElement(tag);
        it.src = src;
        document.body.append(it);
        it.remove();
      };
      add("img", "https://example.invalid/x.png");
      add("iframe", "https://example.invalid/");
      await new Promise((done) => setTimeout(done, 300));
      return refused;
    })()"""
    refused = page.value(code)
    assert any("connect-src" in it for it in refused) and any("img-src" in it for it in refused), refused
    page.errors.clear()
    page.is_away = True


@check("no text becomes markup: the page may not set innerHTML")
def no_markup(page):
    code = """(() => {
      try { document.createElement("p").innerHTML = "<b>x</b>"; return "set"; } catch (why) { return why.name; }
    })()"""
    assert page.value(code) == "TypeError"
    page.errors.clear()


@check("the foot's checksum is that of the crates here, and the module's is that of its bytes")
def checksums(page):
    with open(page.address.removeprefix("file://"), encoding="utf-8") as it:
        module, crates = bundle.taken_from(it.read())
    assert page.value("document.querySelector('meta[name=tilebench-crates]').content") == crates
    assert len(module) > 100000, len(module)


@check("the page is one file, and names no address from which anything is fetched")
def one_file(page):
    with open(page.address.removeprefix("file://"), encoding="utf-8") as it:
        text = it.read()
    for word in ("<img", "<iframe", "<script src", "@import", "import("):
        assert word not in text, word
    assert text.count("<link") == text.count('<link rel="icon" href="data:') <= 1
    names = page.value("performance.getEntriesByType('resource').map((it) => it.name)")
    assert all(it.startswith(("blob:", "data:")) for it in names), names


@check("in a browser without 64-bit memories the page says what it needs")
def no_memory64(page):
    with tempfile.TemporaryDirectory() as folder:
        path = f"{folder}/page.html"
        with open(page.address.removeprefix("file://"), encoding="utf-8") as it:
            module, crates = bundle.taken_from(it.read())
        # (a least module of another kind of memory, which no browser takes)
        text = bundle.page(module, crates, changed=lambda it: it.replace("5, 3, 1, 4, 1)", "5, 3, 1, 64, 1)"))
        with open(path, "w", encoding="utf-8") as it:
            it.write(text)
        page.visit(f"file://{path}")
        assert "Chromium has from version 133" in page.value("tilebench.lack")
        assert page.value(KIND % "tilebench.run(['grow'], '')") == "lack"
