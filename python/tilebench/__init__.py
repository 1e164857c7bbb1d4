"""tilebench: tile systems of the abstract Tile Assembly Model, grown and judged by the proved program.

    import tilebench as tb
    system = tb.System(tau=2, box=(0, 0, 2, 0))
    system.glue("a", 2)
    system.tile("S", east="a")
    system.tile("B", west="a")
    system.seed(0, 0, "S")
    growth = tb.grow(system)
    growth.verdict.words, growth[1, 0]

    made        System, System.read, System.open, turing, quadrant, counter, bordered
    grown       grow, watch, race, report, and many at once batch: each answers a Growth, or what is read of it
    judged      growth.verdict, check, certify, verify, replay, schedule
    looked into growth.explain(), slips, breaks, untaken, and search for a second outcome
    shown       growth.svg(), growth.plot(), growth.to_numpy(), picture
    kept        system.text, growth.text, certificate.text: texts as files have them
    all else    answer, which runs any command of the program by its words; COMMANDS lists these

A site is (x, y), and north is up; a type has its sides in the order north, east, south, west. What is refused is
raised as Refused, with line and cause.

The program is found beside this checkout, where it is installed, or by the environment variable TILEBENCH.
docs/PYTHON.md goes through a session. numpy, matplotlib and a notebook are used where they are there, and not needed.
"""
from tilebench.calls import (
    Check,
    Race,
    Schedule,
    Stuck,
    Verified,
    batch,
    certify,
    check,
    counter,
    formatted,
    grow,
    load,
    picture,
    quadrant,
    race,
    refusal,
    replay,
    report,
    schedule,
    turing,
    upgraded,
    verify,
    watch,
)
from tilebench.commands import COMMANDS
from tilebench.conditions import Break, Untaken, breaks, untaken
from tilebench.faults import NoProgram, ProgramFailed, Refused, TilebenchError
from tilebench.growth import Certificate, Closed, Growth, Verdict
from tilebench.outcomes import Found, search
from tilebench.rules import bordered
from tilebench.lint import slips
from tilebench.program import answer
from tilebench.system import SIDES, System

__all__ = [
    "COMMANDS",
    "SIDES",
    "Break",
    "Certificate",
    "Check",
    "Closed",
    "Found",
    "Growth",
    "NoProgram",
    "ProgramFailed",
    "Race",
    "Refused",
    "Schedule",
    "Stuck",
    "System",
    "TilebenchError",
    "Untaken",
    "Verdict",
    "Verified",
    "answer",
    "batch",
    "bordered",
    "breaks",
    "certify",
    "check",
    "counter",
    "formatted",
    "grow",
    "load",
    "picture",
    "quadrant",
    "race",
    "refusal",
    "replay",
    "report",
    "schedule",
    "search",
    "slips",
    "turing",
    "untaken",
    "upgraded",
    "verify",
    "watch",
]
__version__ = "1.0.0"
