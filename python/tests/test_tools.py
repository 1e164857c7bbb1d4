"""The tools on a million tiles, and what else of them and of the package takes more than one run to see."""
import importlib
import os
import shutil
import subprocess
import sys
import zipfile

import pytest

import tilebench as tb
from tilebench import console, drawing, explain, outcomes, program

TOP = os.path.dirname(os.path.dirname(os.path.dirname(os.path.realpath(__file__))))
SIDE = 1024


def example(name):
    with open(f"{TOP}/examples/{name}", encoding="utf-8") as it:
        return it.read()


def triangle(side):
    return example("sierpinski.tiles").replace("0 0 7 7", f"0 0 {side - 1} {side - 1}")


def many_rivals(side):
    """Nine types at temperature 1 with three glues: most sites break a condition, by many pairs of types."""
    tiles = "".join(f"tile T{at} g{at % 3} g{(at + 1) % 3} g{at % 3} g{(at + 2) % 3}\n" for at in range(9))
    glues = "".join(f"glue g{at} 1\n" for at in range(3))
    return f"tiles 1\ntau 1\n{glues}{tiles}box 0 0 {side - 1} {side - 1}\nseed 3 3 T0\nend\n"


def peak(*command):
    """The most memory that a command has at once, or one that it starts, in MB."""
    with subprocess.Popen(command, stdout=subprocess.DEVNULL, stderr=subprocess.DEVNULL) as ran:
        _, _, used = os.wait4(ran.pid, 0)
        ran.returncode = 0
    return used.ru_maxrss / 1024


def calls_of(work):
    """How many functions written in Python are called meanwhile."""
    many = 0

    def seen(_frame, event, _what):
        nonlocal many
        many += event == "call"

    sys.setprofile(seen)
    try:
        work()
    finally:
        sys.setprofile(None)
    return many


# ---- at 1024 by 1024

# what a tool is asked, of which system, with how much memory in MB at most
RIVALS = triangle(SIDE).replace("tile r11 0 0 1 1\n", "tile r11 0 0 1 1\ntile s11 1 0 1 1\n")
STRONG = triangle(SIDE).replace("glue 1 1", "glue 1 2")
LIMITS = {
    "explain a no by its third condition": ("explain", triangle(SIDE), 250),
    "explain two types for one input": ("explain", RIVALS, 250),
    "explain a strong glue": ("explain", STRONG, 250),
    "lint two types for one input": ("lint", RIVALS, 250),
    "show": ("show", triangle(SIDE), 150),
}


@pytest.mark.skipif(sys.platform != "linux", reason="peaks are those of Linux")
@pytest.mark.parametrize("what", LIMITS)
def test_a_tool_has_enough_memory_for_a_million_tiles(what, tmp_path):
    tool, system, most = LIMITS[what]
    (tmp_path / "system").write_text(system)
    program.require(program.path())
    assert peak(sys.executable, f"{TOP}/tools/{tool}", str(tmp_path / "system")) <= most


# what is done with the growth of which system; bench/tools has the times
WORKS = {
    "explain a no by its third condition": (triangle(SIDE), lambda it: it.explain()),
    "explain two types for one input": (RIVALS, lambda it: it.explain()),
    "explain a strong glue": (STRONG, lambda it: it.explain()),
    "lint two types for one input": (RIVALS, lambda it: tb.slips([it, it])),
    "show": (triangle(SIDE), lambda it: list(drawing.letters(it))),
}


@pytest.mark.parametrize("what", WORKS)
def test_a_million_tiles_are_worked_on_together(what):
    """A growth is read, and then told of, with fewer calls of functions than there are tiles by far."""
    system, work = WORKS[what]
    _, out = program.answer(["grow"], system)
    growth = tb.Growth(tb.System.read(system))

    def read():
        nonlocal growth
        growth = tb.Growth.read(growth.system, out)

    assert calls_of(read) < SIDE * SIDE // 100 and len(growth) == SIDE * SIDE
    assert calls_of(lambda: work(growth)) < SIDE * SIDE // 2


def test_frames_are_taken_while_something_grows():
    """In 18 of 20 runs the six frames of a million tiles have at least three different counts."""
    runs = [program.answer(["watch", "--frames", 6], triangle(SIDE))[1] for _ in range(20)]
    counts = [{line.split()[2] for line in it.splitlines() if line.startswith(b"frame ")} for it in runs]
    assert sum(len(it) >= 3 for it in counts) >= 18, [len(it) for it in counts]


# ---- what is told


def test_ten_pairs_of_types_are_named_and_the_others_counted():
    told = tb.grow(many_rivals(12)).explain().splitlines()
    named = told[told.index("  in all:") + 1 :]
    assert all(" at " in it and it.startswith("    ") for it in named[:10])
    assert named[10].startswith("    and ") and named[10].endswith(" more pairs of types")
    found = [it for it in tb.breaks(tb.grow(many_rivals(12))) if it.condition < 3]
    assert int(named[10].split()[1]) == len(found) - 10
    assert all(len(it.sites) == it.count and it.sites[:3] == it.first_sites(3) for it in found)


class Clock:
    """Waits for a second as often as is said, and writes down for how long it was to wait."""

    def __init__(self, often):
        self.left, self.waits = often, []

    def wait(self, seconds):
        self.waits.append(seconds)
        self.left -= 1
        return self.left < 0


def test_outcomes_tells_what_it_does_once_a_second(capsys):
    progress, clock = outcomes.Progress("outcomes"), Clock(2)
    progress.ended, progress.stage, progress.seconds = clock, "looks for sites", lambda: len(clock.waits)
    progress.tell()
    assert capsys.readouterr().err == "outcomes: 1 s: looks for sites\noutcomes: 2 s: looks for sites\n"
    assert clock.waits == [1, 1, 1]


def test_what_outcomes_does_has_a_name_from_its_beginning(monkeypatch):
    stages = []

    class Told(outcomes.Progress):
        def __setattr__(self, name, value):
            stages.extend([value] if name == "stage" else [])
            super().__setattr__(name, value)

    monkeypatch.setattr(outcomes, "Progress", Told)
    assert tb.search(tb.System.read(example("square.tiles"))).is_one
    assert stages[:3] == ["begins", "grows by choice 0", "searches the site that the verdict names"]


def test_rivals_that_the_input_sides_hold_come_first():
    growth = tb.grow(many_rivals(12))
    looking = outcomes.Search(growth)
    is_held = [looking.is_held_by_inputs(site, kinds) for site, kinds in looking.rivals()]
    assert True in is_held and is_held == sorted(is_held, reverse=True)


def test_both_outcomes_stand_in_files_that_check_takes(tmp_path):
    (tmp_path / "system").write_text(example("rivals.tiles"))
    ran = subprocess.run(
        [sys.executable, f"{TOP}/tools/outcomes", "--write", str(tmp_path / "found"), str(tmp_path / "system")],
        check=False,
    )
    assert ran.returncode == 1
    both = [tb.Growth.read_both((tmp_path / f"found.{number}").read_text()) for number in (1, 2)]
    assert all(tb.check(it).is_legal for it in both) and both[0][1, 0] != both[1][1, 0]


@pytest.mark.parametrize(
    "system",
    [tb.turing(example("incrementer.machine")), tb.quadrant(example("xor.quadrant")), tb.counter(3, 0)],
    ids=["machine", "rule", "counter"],
)
def test_lint_leaves_out_what_a_compiler_makes(system):
    assert tb.slips([tb.grow(system)]) == []


# ---- the package as it is installed


def wheel(folder):
    """The wheel that pip makes of the package."""
    sys.path.insert(0, f"{TOP}/python/build_backend")
    try:
        return f"{folder}/{importlib.import_module('wheel_backend').build_wheel(str(folder))}"
    finally:
        del sys.path[0]


def path_seen(package, **environment):
    """Where a package finds the program, by itself and with the standard library alone."""
    code = f"import sys; sys.path.insert(0, {package!r}); import tilebench.program; print(tilebench.program.path())"
    env = {name: value for name, value in os.environ.items() if name not in ("TILEBENCH", "PYTHONPATH")} | environment
    ran = subprocess.run([sys.executable, "-S", "-c", code], env=env, check=True, stdout=subprocess.PIPE, text=True)
    return ran.stdout.strip()


def test_a_wheel_has_all_modules_and_needs_nothing(tmp_path):
    made = wheel(tmp_path)
    with zipfile.ZipFile(made) as it:
        names = {name.partition("/")[2] for name in it.namelist() if name.startswith("tilebench/")}
    assert names == {it for it in os.listdir(f"{TOP}/python/tilebench") if it.endswith(".py") or it == "py.typed"}
    assert path_seen(made, TILEBENCH="/elsewhere/tilebench") == "/elsewhere/tilebench"


def test_where_the_program_is_found(tmp_path):
    for folder in ("share/tilebench", "bin"):
        os.makedirs(tmp_path / folder)
        (tmp_path / folder / "tilebench").write_text("#!/bin/sh\n")
        os.chmod(tmp_path / folder / "tilebench", 0o755)
    shutil.copytree(f"{TOP}/python/tilebench", tmp_path / "share/tilebench/python/tilebench")
    installed, beside = str(tmp_path / "share/tilebench"), str(tmp_path / "bin")
    assert path_seen(f"{TOP}/python") == f"{TOP}/tilebench"
    assert path_seen(f"{installed}/python") == f"{installed}/tilebench"
    assert path_seen(wheel(tmp_path), PATH=beside) == f"{beside}/tilebench"


def test_what_is_public_has_its_words():
    assert not [name for name in tb.__all__ if name.islower() and not getattr(tb, name).__doc__]
    assert tb.__doc__ and all(it.__doc__ for it in (tb.System, tb.Growth, tb.Refused, tb.Verdict, console, explain))


def test_types_are_whole():
    pytest.importorskip("mypy")
    ran = subprocess.run(
        [sys.executable, "-m", "mypy"], cwd=f"{TOP}/python", check=False, stdout=subprocess.PIPE, text=True
    )
    assert ran.returncode == 0, ran.stdout
