"""The package: systems made and read, each command as a call, results that are read, and refusals."""
import os
import subprocess

import pytest

import tilebench as tb
from tilebench import colours, commands, drawing, program

TOP = os.path.dirname(os.path.dirname(os.path.dirname(os.path.realpath(__file__))))


def example(name):
    with open(f"{TOP}/examples/{name}", encoding="utf-8") as it:
        return it.read()


def chain(box=(0, 0, 2, 0)):
    """Three tiles in a row."""
    system = tb.System(tau=2, box=box)
    system.glue("a", 2)
    system.glue("b", 2)
    system.tile("S", east="a")
    system.tile("B", east="b", west="a")
    system.tile("C", west="b")
    system.seed(0, 0, "S")
    return system


def triangle(side):
    return tb.System.read(example("sierpinski.tiles").replace("0 0 7 7", f"0 0 {side - 1} {side - 1}"))


# ---- systems


def test_a_system_by_calls_is_its_text():
    text = example("chain.tiles")
    assert chain().text.split() == tb.System.read(text).text.split()
    assert tb.formatted(chain()).text == tb.formatted(text).text
    assert tb.System.read(text).text == text


def test_lines_have_the_programs_numbers():
    system = tb.System.read("# a remark\n" + example("chain.tiles"))
    assert system.lines["tile", "B"] == 7 and system.lines["seed", (0, 0)] == 10


@pytest.mark.parametrize(
    "call, cause",
    [
        (lambda it: it.glue("a", 1), "DoubleName"),
        (lambda it: it.glue("a b", 1), "BadName"),
        (lambda it: it.glue("z", 251), "OutOfRange"),
        (lambda it: it.tile("D", north="z"), "UnknownName"),
        (lambda it: it.tile("S"), "DoubleName"),
        (lambda it: it.seed(9, 9, "S"), "SeedOutside"),
        (lambda it: it.seed(0, 0, "S"), "DoubleSite"),
        (lambda it: it.pair("a", "a"), "DoubleName"),
        (lambda it: it.seed("x", 0, "S"), "BadNumber"),
        (lambda it: setattr(it, "box", (2, 0, 0, 0)), "OutOfRange"),
    ],
)
def test_a_call_is_refused_with_its_cause(call, cause):
    with pytest.raises(tb.Refused) as why:
        call(chain())
    assert why.value.cause == cause and why.value.line is None


def test_pairs_and_seeds_make_version_2():
    system = tb.System(tau=2, box=(0, 0, 2, 0))
    for name, strength in (("a", 1), ("b", 1), ("c", 0)):
        system.glue(name, strength)
    system.pair("b", "c", 1)
    system.tile("S", east="a")
    system.tile("T", west="b")
    system.tile("M", east="c", west="a")
    system.seed(0, 0, "S")
    system.seed(2, 0, "T")
    assert system.text.startswith("tiles 2\n")
    growth = tb.grow(system)
    assert growth.verdict and growth[1, 0] == "M"
    assert tb.upgraded(chain()).text.startswith("tiles 2\n")


def test_a_box_is_that_of_the_seeds_where_none_is_given():
    system = chain()
    bare = tb.System(2)
    bare.tile("S")
    bare.seed(3, 4, "S")
    assert bare.box == (3, 4, 3, 4) and system.box == (0, 0, 2, 0)


# ---- what grows


def test_a_growth_is_read():
    growth = tb.grow(chain())
    assert list(growth) == [((0, 0), "S"), ((1, 0), "B"), ((2, 0), "C")]
    assert growth.xs.tolist() == [0, 1, 2] and growth.kinds.tolist() == [0, 1, 2]
    assert growth.closed.is_terminal and growth.verdict.is_yes and growth.verdict.words == "unique yes"
    assert growth[1, 0] == "B" and (3, 0) not in growth and growth.placed == ["S", "B", "C"] and growth.unplaced == []
    assert growth.text == "place 0 0 S\nplace 1 0 B\nplace 2 0 C\nclosed terminal\nunique yes\n"


def test_a_no_has_its_site_and_cause():
    verdict = tb.grow(example("rivals.tiles")).verdict
    assert not verdict and (verdict.condition, verdict.site, verdict.name) == (2, (1, 0), "B")
    verdict = tb.grow(example("square.tiles")).verdict
    assert (verdict.condition, verdict.site, verdict.pull) == (1, (1, 1), 2)
    growth = tb.grow(chain((0, 0, 1, 0)))
    assert growth.closed.site == (2, 0) and growth.closed.name == "C"
    assert (
        growth.verdict.condition == 3
        and growth.verdict.is_one_within
        and "Widen the box to the east by 1" in growth.explain()
    )


def test_frames_are_parts_of_the_growth():
    growth = tb.watch(triangle(64), frames=3, workers=2)
    assert len(growth.frames) == 3 and len(growth) == 4096
    last = growth.frame(3)
    assert len(last) == growth.frames[2] and all(growth[site] == name for site, name in last)
    assert tb.check(last)
    with pytest.raises(IndexError):
        growth.frame(4)


def test_a_race_and_a_report():
    race = tb.race(triangle(32), workers=4)
    assert len(race.won) == 4 and sum(race.won) == race.total == 1023
    assert tb.report(chain())["tiles"] == 3 and tb.report(chain())["unique"] == "yes"


def test_a_batch_answers_as_it_comes_and_in_its_order():
    systems = [chain((0, 0, at % 3, 0)) for at in range(1500)]
    assert [len(it) for it in tb.batch(iter(systems), workers=2)] == [at % 3 + 1 for at in range(1500)]
    assert list(tb.batch([])) == []


def test_a_job_grows_as_one_worker_does_by_its_choice():
    """64 jobs of a system in which several types attach at most sites, and 64 calls of `grow`."""
    tiles = [f"tile T{at} g{at % 3} g{(at + 1) % 3} g{at % 3} g{(at + 2) % 3}\n" for at in range(9)]
    system = "tiles 1\ntau 1\nglue g0 1\nglue g1 1\nglue g2 1\n" + "".join(tiles) + "box 0 0 9 9\nseed 3 3 T0\nend\n"
    jobs = "batch 1\n" + "".join(f"job {choice}\n{system}" for choice in range(64))
    alone = [program.answer(["grow", "--choice", choice], system)[1] for choice in range(64)]
    together = program.answer(["batch", "--workers", 4], jobs)[1]
    assert together == b"".join(b"job %d\n%s" % it for it in enumerate(alone)) + b"done 64 yes 0\n"
    assert len(set(alone)) > 1
    assert [it.text for it in tb.batch([system] * 3, choice=5)] == [tb.grow(system, choice=5).text] * 3


def test_a_batch_that_is_left_early_ends():
    for growth in tb.batch([triangle(64)] * 200):
        assert len(growth) == 4096
        break


# ---- what is judged


def test_sequences_are_checked():
    system = chain()
    assert tb.check([((0, 0), "S"), ((1, 0), "B")], system).verdict.condition == 3
    found = tb.check([((0, 0), "S"), ((2, 0), "C")], system)
    assert not found and (found.breach, found.index, found.pull) == (3, 1, 0)
    assert tb.check([((1, 0), "B")], system).breach == 1


def test_a_certificate_is_made_and_checked():
    certificate = tb.certify(tb.grow(chain()))
    assert certificate.sides == ["", "W", "W"] and certificate.ranks.tolist() == [0, 1, 2]
    assert tb.verify(certificate, workers=2)
    certificate.ranks[2] = 0
    found = tb.verify(certificate)
    assert not found and (found.code, found.site) == (3, (2, 0))
    assert tb.certify(tb.grow(example("rivals.tiles"))).condition == 2


def test_what_is_stuck():
    assert tb.replay([((2, 0), "C"), ((0, 0), "S")], chain()).left == 1
    assert tb.certify([((1, 0), "B")], chain()).site == (0, 0)
    assert [it for it, _ in tb.replay([((1, 0), "B"), ((0, 0), "S")], chain())] == [(0, 0), (1, 0)]


def test_a_schedule():
    found = tb.schedule(chain(), ["claim 0 1 0 B", "look 0 1 0", "claim 0 1 0 B", "claim 0 9 0 C"])
    assert found.replies == ["won", "saw B", "held B", "refused 3"] and not found and len(found.growth) == 2


def test_compilers():
    assert tb.grow(tb.turing(example("incrementer.machine"))).verdict
    assert tb.grow(tb.quadrant(example("xor.quadrant"))).verdict
    assert len(tb.grow(tb.counter(2, 1))) == 12
    assert tb.load(3).startswith("load 3 bits 5")


# ---- refusals


def test_a_refusal_has_line_cause_and_words():
    with pytest.raises(tb.Refused) as why:
        tb.grow(example("chain.tiles").replace("tile C", "tile C'"))
    assert (why.value.line, why.value.cause, why.value.words) == (7, "BadName", "refused text line 7 BadName")
    assert "C' has ', which no name has" in str(why.value)
    with pytest.raises(tb.Refused) as why:
        tb.counter(32, 0)
    assert why.value.cause == "TooTall" and why.value.line is None
    with pytest.raises(tb.Refused) as why:
        tb.grow(chain(), workers=17)
    assert why.value.cause == "Usage"


def test_no_program(monkeypatch):
    monkeypatch.setenv("TILEBENCH", "/nowhere/tilebench")
    with pytest.raises(tb.NoProgram):
        tb.grow(chain())


# ---- what is shown


def test_a_picture_keeps_its_colours():
    before = chain()
    after = tb.System.read(
        before.text.replace("tile B - b - a\n", "tile B2 - b - a\n").replace("box", "tile B - b - a\nbox")
    )
    assert (
        drawing.View(tb.grow(before)).colours()["C"]
        == drawing.View(tb.grow(after)).colours()["C"]
        == colours.colour_of("C")
    )
    wished = tb.System.read(before.text.replace("tau 2\n", "tau 2\n# colour C #123456\n"))
    assert 'fill="#123456"' in tb.grow(wished).svg() and wished.colours == {"C": "#123456"}
    assert "# colour C #123456\n" in tb.System.read(wished.text).text


def test_names_and_glues_stand_in_large_cells():
    assert ">a</text>" in tb.grow(chain())._repr_svg_()
    many = tb.grow(triangle(64))
    assert many.svg(cell=16).count(">r11</text>") == 1 and many.svg(cell=24).count(">r11</text>") > 100
    assert tb.grow(triangle(65)).svg(cell=24).count(">r11</text>") == 1


def test_numpy_and_matplotlib():
    numpy = pytest.importorskip("numpy")
    growth = tb.grow(chain((0, 0, 3, 1)))
    assert growth.to_numpy().tolist() == [[0, 1, 2, -1], [-1, -1, -1, -1]] and growth.to_numpy().dtype == numpy.int16
    matplotlib = pytest.importorskip("matplotlib")
    matplotlib.use("Agg")
    assert growth.plot().images


# ---- outcomes and rules


def test_outcomes():
    assert tb.search(tb.System.read(example("rivals.tiles"))).is_one is False
    assert tb.search(tb.System.read(example("square.tiles"))).is_one is True
    found = tb.search(tb.System.read(example("two_paths.tiles")))
    assert found.site == (2, 0) and tb.check(found.growth) and tb.check(found.other)


def test_borders_of_a_rule_have_a_default_each():
    rule = example("adder.quadrant")
    bare = "".join(line for line in rule.splitlines(True) if line.split()[:1] not in (["bottom"], ["left"]))
    text = tb.bordered(bare, left="0" if "symbol 0" in rule else None)
    assert tb.quadrant(text).types.keys() == tb.quadrant(bare).types.keys()
    with pytest.raises(tb.Refused):
        tb.bordered(rule, bottom="nothing")


# ---- the list of commands


def test_the_list_of_commands_is_current():
    assert subprocess.run([f"{TOP}/dev/commands", "--check"], check=False).returncode == 0
    assert commands.COMMANDS["watch"][2].option == "--frames" and "counter" not in commands.READERS


@pytest.mark.parametrize("command", commands.GROWERS)
def test_any_command_by_its_words(command):
    is_yes, out = tb.answer([command], example("chain.tiles"))
    assert is_yes and out
    with pytest.raises(tb.Refused) as why:
        tb.answer([command], "tiles 1\n")
    assert (why.value.line, why.value.cause, why.value.command) == (2, "NoEnd", command)
