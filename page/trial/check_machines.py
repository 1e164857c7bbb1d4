"""Machines, rules and counters: compiled and grown in one go, and beside the picture what they computed."""
import os
import subprocess
import sys

from trial import live
from trial.check import check
from trial.reading import STATE, done, editor, pick, put, selected, site, verdict

TOP = os.path.dirname(os.path.dirname(os.path.dirname(os.path.realpath(__file__))))
OFF = "machine 1\nstate go\nsymbol _\nrule go _ go _ L\ncells 4\nrows 9\nhead 2\ntape _\nend\n"
LOOP = "machine 1\nstate go\nsymbol _\nrule go _ go _ S\ncells 4\nrows 9\nhead 2\nend\n"


def rows(page):
    """All rows that the panel tells, each the number of its step and its cells."""
    return page.value("""(() => { const tape = tilebench.page.tape(), { system } = tilebench.page.state;
      const words = (y) => tape.row(y).map((it) => (it.isHead ? `[${it.text}]` : it.text));
      return tape.order.map((y) => [y - system.box[1], words(y)]); })()""")


@check("a machine is compiled and grown in one go, and its tape is read row by row")
def machine(page):
    pick(page, "busy_beaver.machine")
    assert verdict(page)[:2] == ("Unique", "yes")
    found = rows(page)
    assert (len(found) == 15 and found[0][1][3] == "[A 0]"
        and found[14][1].count("1") + found[14][1].count("[H 1]") == 6), found
    assert page.text("#tape-end") == "Halted in state H over 1, after 14 steps."
    assert not page.value('document.querySelector("#tool-tape").hidden')
    page.picture("machine")


@check("the tape is the one that tools/tape tells")
def same_tape(page):
    if not os.access(live.PROGRAM, os.X_OK):
        return
    for name in ("busy_beaver.machine", "incrementer.machine", "adder.quadrant", "stairs.quadrant"):
        pick(page, name)
        ran = subprocess.run([sys.executable, f"{TOP}/tools/tape", f"{TOP}/examples/{name}"], stdout=subprocess.PIPE,
            env={**os.environ, "TILEBENCH": live.PROGRAM}, check=False)
        told = [it.split() for it in ran.stdout.decode().splitlines() if it[:5].strip().isdigit()]
        mine = [[str(step), *" ".join(it.replace("\u00b7", ".") for it in cells).split()] for step,
            cells in rows(page)]
        assert mine == told, (name, mine[:2], told[:2])


@check("a machine that ran off its row is told from one that halted, and from one that was cut off")
def ended(page):
    put(page, OFF)
    assert page.text("#tape-end") == "Ran off the west end of its 4 cells in step 3: it did not halt.", (
        page.text("#tape-end"))
    assert page.value('document.querySelector("#tape-end").dataset.tone') == "no"
    put(page, OFF.replace("_ L", "_ R"))
    assert "Ran off the east end" in page.text("#tape-end"), page.text("#tape-end")
    put(page, LOOP)
    assert page.text("#tape-end") == "Cut off by its 9 rows: it would go on in state go over _.", (
        page.text("#tape-end"))


@check("the row under the pointer is marked in the list, and the other way round")
def pointed(page):
    pick(page, "busy_beaver.machine")
    page.point_at(*site(page, 4, 6))
    page.wait('document.querySelectorAll(".tape-row.is-seen").length > 0')
    assert page.text(".tape-row.is-seen .tape-step") == "6" and page.value(f"{STATE}.row") == 6


@check("a click on a tile of a machine goes to its rule")
def to_rule(page):
    n = page.value(f"""(() => {{ const {{ growth, system }} = {STATE};
      const named = (n) => system.nameOf(growth.types[n]);
      for (let n = 0; n < growth.count; n++) if (named(n) === "a:B:0") return growth.siteOf(n); }})()""")
    page.click_at(*site(page, *n))
    assert selected(page) == "rule B 0 C 0 R"


@check("a fault in a machine's text is told at its line")
def fault(page):
    put(page, OFF.replace("_ L", "_ LEFT"))
    assert (verdict(page)[0] == "Refused"
        and "a move is L, R or S, and here stands LEFT" in page.text("#verdict-more")), page.text("#verdict-more")
    assert page.value('document.querySelector("#gutter").dataset.fault') == "4"


@check("a rule is compiled and grown, and its cells are read")
def rule(page):
    pick(page, "adder.quadrant")
    found = rows(page)
    assert found[-1] == [1, ["t1:e1", "m1:d0", "c0:d1", "c0:d1", "c0:d0", "c0:d0"]], found[-1]
    assert page.text("#tape-end") == "Each cell has a rule and its inputs."
    page.picture("rule")
    pick(page, "stairs.quadrant")
    assert "without a rule or an input" in page.text("#tape-end")


@check("a counter is made by a small form, and its numbers are read")
def counter(page):
    page.click("#examples")
    page.click("#open-counter")
    page.wait('document.querySelector("#counter-form").open')
    page.fill("#counter-bits", "4")
    page.fill("#counter-start", "13")
    done(page, lambda: page.click("#counter-body button[type=submit]"))
    assert verdict(page)[0] == "Unique" and editor(page).startswith("# A counter of 4 bits from 13 on")
    assert ([it[1] for it in rows(page)] == [["1101", "[= 13]"], ["1110", "[= 14]"], ["1110", "[= 14]"],
        ["1111", "[= 15]"], ["1111", "[= 15]"], ["0000", "[= 0]"]]), rows(page)
    assert page.text("#tape-end") == "Counted from 13 to 15, and on to 0.", page.text("#tape-end")
    page.picture("counter")


@check("numbers that a counter can't have are told in the form")
def counter_faults(page):
    for bits, start, said in (("40", "0", "A counter has 2 to 32 bits."), ("4", "16", "starts below 2^BITS"),
        ("20", "0", "1024 rows"), ("x", "0", "does not take these words")):
        page.click("#examples")
        page.click("#open-counter")
        page.fill("#counter-bits", bits)
        page.fill("#counter-start", start)
        page.click("#counter-body button[type=submit]")
        page.wait('document.querySelector("#counter-fault").textContent')
        assert said in page.text("#counter-fault"), (bits, start, page.text("#counter-fault"))
        page.click("#counter-cancel")
        page.value('document.querySelector("#counter-fault").textContent = ""')


@check("a set that computes nothing has no tape")
def no_tape(page):
    pick(page, "square20.tiles")
    assert page.value('document.querySelector("#open-tape").hidden && document.querySelector("#drawer").hidden')
