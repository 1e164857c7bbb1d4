"""Certificates, and any other command with its words."""
import json

from trial.check import check
from trial.reading import CHAIN, STATE, TRIANGLE, done, drop, pick, put, verdict

GOOD = "mark 0 0 S - 0\nmark 1 0 B W 1\nmark 2 0 C W 2\n"


def hand_in(page, text):
    """Hands a file to the certificate's button."""
    page.value(f"""(() => {{ const it = document.querySelector("#certificate-open"), held = new DataTransfer();
      held.items.add(new File([{json.dumps(text)}], "a.certificate"));
      it.files = held.files;
      it.dispatchEvent(new Event("change", {{ bubbles: true }})); }})()""")


@check("a certificate is made, checked by the program, and drawn")
def makes(page):
    pick(page, "square20.tiles")
    page.click("#open-certificate")
    page.click("#certificate-make")
    page.wait('document.querySelector("#verdict-word").textContent === "Verified"')
    assert page.text("#certificate-told").startswith("Made: 400 marks. Verified: The certificate is good"), (
        page.text("#certificate-told"))
    assert page.value(f"{STATE}.growth.sides !== null && {STATE}.growth.ranks[5] === 5")
    page.picture("certificate")


@check("where the verdict is no yes there is none, and it is told why")
def none(page):
    put(page, TRIANGLE % (7, 7))
    page.click("#certificate-make")
    page.wait('document.querySelector("#certificate-told").textContent.startsWith("There is no certificate")')
    assert "B still attaches at (8, 0)" in page.text("#certificate-told"), page.text("#certificate-told")


@check("a certificate that is handed in is checked")
def handed(page):
    put(page, CHAIN)
    hand_in(page, GOOD)
    page.wait('document.querySelector("#certificate-told").textContent.startsWith("Handed in: 3 marks. Verified")')
    hand_in(page, CHAIN + GOOD)
    page.wait('document.querySelector("#certificate-told").textContent.startsWith("Handed in: 3 marks. Verified")')


@check("what is wrong with one is told in words, with its site")
def wrong(page):
    for text, said in ((GOOD.replace("B W 1", "B W 0"), "states a side at which no tile of lesser rank holds it"),
      (GOOD.replace("mark 2 0 C W 2\n", ""), "C attaches at (2, 0), which has no mark"),
                       (GOOD.replace("S - 0", "S E 0"), "is a seed, which comes by no side"),
                         (GOOD.replace("mark 0 0 S - 0\n", ""), "The seed at (0, 0) has no mark")):
        put(page, CHAIN)
        hand_in(page, text)
        page.wait('document.querySelector("#verdict-word").textContent === "Not verified"')
        assert said in verdict(page)[2] and said in page.text("#certificate-told"), (said, verdict(page))
    assert page.value(f"{STATE}.meanings[0].site") == {"x": 0, "y": 0}


@check("one that can't be read is told by its line, and the picture stays")
def unreadable(page):
    put(page, CHAIN)
    hand_in(page, GOOD.replace("B W 1", "B SN 1"))
    page.wait('document.querySelector("#certificate-told").textContent.startsWith("Refused, in line 2")')
    assert ("capital letters of NESW in this order" in page.text("#certificate-told")
        and verdict(page)[0] == "Unique"), page.text("#certificate-told")
    page.click("#close-certificate")


@check("a text with its certificate behind it is verified as it stands")
def together(page):
    put(page, CHAIN + GOOD)
    assert verdict(page)[:2] == ("Verified", "yes")
    done(page, lambda: drop(page, [("b.certificate", GOOD.encode()), ("a.tiles", CHAIN.encode())]))
    assert verdict(page)[:2] == ("Verified", "yes"), "files in whatever order"


@check("any command is run with its words")
def command(page):
    put(page, CHAIN)
    page.click("#open-command")
    page.fill("#command-words", "report --workers 2")
    page.click("#command-form button")
    page.wait('document.querySelector("#command-status").textContent.startsWith("status 0")')
    assert json.loads(page.text("#command-out"))["tiles"] == 3, page.text("#command-out")
    for words, said in (("replay", "place 2 0 C"), ("picture", "SBC" if False else "picture 3 1"),
        ("format", "seed 0 0 S"), ("certify", "mark 2 0 C W 2"), ("load 7", "unique yes"), ("check", "legal yes")):
        page.fill("#command-words", words)
        page.click("#command-form button")
        page.wait(f'document.querySelector("#command-status").textContent.startsWith("status 0") && '
            f'document.querySelector("#command-out").textContent.includes("{said}")')


@check("words that are refused are told why")
def refused(page):
    for words, said in (("grwo", "the first word is no command"),
        ("grow FILE", "the command does not take these words"), ("counter 4 99", "starts below 2^BITS")):
        page.fill("#command-words", words)
        page.click("#command-form button")
        page.wait(f'document.querySelector("#command-out").textContent.includes({json.dumps(said)})')
    page.click("#close-command")
