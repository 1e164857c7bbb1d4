"""Slips that a designer makes, planted one at a time: what `lint`, or `explain` of a refusal, leads to."""
import os
import re

import pytest

import tilebench as tb

HERE = os.path.dirname(os.path.realpath(__file__))


def text(path):
    with open(f"{HERE}/{path}", encoding="utf-8") as it:
        return it.read()


SQUARE, ARCH = text("zigzag.tiles"), text("arch.tiles")
TRIANGLE = text("../../examples/sierpinski.tiles").replace("0 0 7 7", "0 0 15 15")


def changed(old, new, source=SQUARE):
    assert old in source
    return source.replace(old, new, 1)


def turned(source):
    """All sides of all types one further."""
    return re.sub(r"(?m)^tile (\S+) (\S+) (\S+) (\S+) (\S+)$", r"tile \1 \5 \2 \3 \4", source)


PLACED = ": all types are placed then, and the verdict is a yes"
WITHIN = ": all types are placed then, and within the box nothing else can grow"
# what is planted, and the lines that lint tells of it; a line that ends with .. may go on
GROWN = {
    "a carry is lost": (
        changed("tile im1c q0 c p1 c", "tile im1c q0 c p1 n"),
        ["not placed: ..", f"with glue c on the west side of im1c (it has n){PLACED}"],
    ),
    "two sides that have one glue are exchanged, which is none": (SQUARE, []),
    "east and west of V": (
        changed("tile V u d2 d1 e", "tile V u e d1 d2"),
        [
            "not placed in 4 growths: Vt, Dt",
            "(3, 4): south d1 1 + west e 1 = 2, no type takes both",
            f"with the east and west sides of V exchanged{PLACED}",
            "D and V take one input: west d2 2 = 2 at 3 3",
        ],
    ),
    "a weak glue that two types bear": (
        changed("glue M1 2", "glue M1 1"),
        ["not placed: ..", f"with strength 2 of glue M1 (it is 1){PLACED}"],
    ),
    "a strong glue": (
        changed("glue q1 1", "glue q1 2"),
        [
            "cm1 at 1 5 is held by more than the temperature 2: south q1 2 + west z 1 = 3",
            f"with strength 1 of glue q1 (it is 2){PLACED}",
        ],
    ),
    "a type is missing": (
        changed("tile iw1n M1 n w1 -\n", ""),
        ["not placed: im0c, iw1c, tw, tm, tl, Ut, Vt, Dt", "(0, 8): east n 1 + south w1 1 = 2, no type takes both"],
    ),
    "a corner that does not match": (
        changed("tile Vt - d2t", "tile Vt - d2"),
        ["not placed: Dt", f"with glue d2t on the east side of Vt (it has d2){PLACED}"],
    ),
    "a small box": (
        changed("box 0 0 15 15", "box 0 0 15 12"),
        ["not placed: ..", f"with the box larger to the north by 3{PLACED}"],
    ),
    "two types for one input": (
        changed("tile im1n q1 n p1 n", "tile im1n q1 n p1 n\ntile im1n2 q0 n p1 n"),
        [
            "im1n and im1n2 take one input: east n 1 + south p1 1 = 2 at 1 4 and at 1 site more",
            "without im1n2: all other types are placed then, and the verdict is a yes",
        ],
    ),
    "all sides one further": (
        turned(SQUARE),
        [
            "not placed: ..",
            f"with the sides of all tile lines read as west, north, east, south (they are north, east, south, west){PLACED}",
        ],
    ),
    "temperature 1": (
        changed("tau 2", "tau 1"),
        ["X1 at 0 2 is held by more than the temperature 1: north x1 2 = 2", f"at temperature 2{PLACED}"],
    ),
    "temperature 3": (changed("tau 2", "tau 3"), ["not placed: ..", f"at temperature 2{PLACED}"]),
    "a pair is missing": (
        changed("pair k kc 1\n", "", ARCH),
        [
            "strength 0, so no bond: k, kc",
            "too weak to attach anywhere, with all four glues together below the temperature 2: K",
            "not placed: K",
            f"with a line `pair k kc 1`{PLACED}",
        ],
    ),
    "a strong pair": (
        changed("pair k kc 1", "pair k kc 2", ARCH),
        [
            "B and K take one input: west kc with k 2 = 2 at 2 0",
            "B at 3 0 is held by more than ..",
            f"with strength 1 of the pair k kc (it is 2){PLACED}",
        ],
    ),
    "a seed is missing": (
        changed("seed 4 0 T\n", "", ARCH),
        ["not placed: T, B, K", f"with one more seed, B at (3, 0), or with one more seed, T at (4, 0){PLACED}"],
    ),
    "one input twice": (
        changed("tile r10 1 1 0 1", "tile r10 1 1 1 0", TRIANGLE),
        [
            "the same four sides: r01, r10",
            "not placed in 4 growths: r00",
            "(1, 2): south 0 1 + west 1 1 = 2, no type takes both",
            f"with the south and west sides of r01 exchanged, or with the south and west sides of r10 exchanged{WITHIN}",
            "r01 and r10 take one input: ..",
        ],
    ),
    "a wrong output": (
        changed("tile r11 0 0 1 1", "tile r11 1 0 1 1", TRIANGLE),
        [
            "not placed: r00, r10",
            "with glue 0 on the north side of r01 (it has 1), or with glue 0 on the north side of r11 (it has 1)..",
        ],
    ),
    "a rule is missing": (
        changed("tile r11 0 0 1 1\n", "", TRIANGLE),
        ["not placed: r00, r01, r10", "(1, 1): south 1 1 + west 1 1 = 2, no type takes both"],
    ),
    "another seed": (
        changed("seed 0 3 S", "seed 0 3 X1"),
        [
            "not placed: ..",
            f"with the box larger to the north by 1, or with S in place of X1 as the seed at (0, 3){PLACED}",
        ],
    ),
    "a glue in the top row": (
        changed("tile tl - top l0 t", "tile tl - e l0 t"),
        ["not placed: Ut, Vt, Dt", f"with glue top on the east side of tl (it has e){PLACED}"],
    ),
}
# what is planted in the text, the line and cause, and what is behind it
REFUSED = {
    "a seed outside": (
        changed("box 0 0 15 15", "box 0 4 15 15"),
        70,
        "SeedOutside",
        "the corners of the box are 0 4 and 15 15",
    ),
    "another glue": (
        changed("tile U u e u e", "tile U u e U e"),
        64,
        "UnknownName",
        "capitals and small letters differ",
    ),
    "another seed's name": (changed("seed 0 3 S", "seed 0 3 s"), 70, "UnknownName", "no type is named s"),
    "no end": (SQUARE.replace("end\n", ""), 71, "NoEnd", "the last line of a system is: end"),
    "no newline": (SQUARE.rstrip("\n"), 71, "NoEnd", "no newline behind it"),
    "a glue behind the types": (
        changed("glue f 1\n", "").replace("box 0", "glue f 1\nbox 0"),
        34,
        "UnknownName",
        "declared further down, in line 68",
    ),
    "a seed before the box": (
        changed("box 0 0 15 15\nseed 0 3 S", "seed 0 3 S\nbox 0 0 15 15"),
        69,
        "OutOfOrder",
        "before seed stands `box`",
    ),
    "ends of Windows": (SQUARE.replace("\n", "\r\n"), 1, "NoHeader", "as on Windows"),
    "one end of Windows": (changed("tile U u e u e\n", "tile U u e u e\r\n"), 64, "BadName", "as on Windows"),
    "tabs": (changed("tile U u e u e", "tile U\tu\te\tu\te"), 64, "BadLine", "a tab stands in the line"),
    "a pair under version 1": (
        ARCH.replace("tiles 2", "tiles 1"),
        8,
        "BadLine",
        "pairs of unlike glues are of version 2",
    ),
    "two seeds under version 1": (
        changed("seed 0 3 S", "seed 0 3 S\nseed 0 0 X3"),
        71,
        "OutOfOrder",
        "several seeds are of version 2",
    ),
    "a remark behind words": (
        changed("tile U u e u e", "tile U u e u e # fill"),
        64,
        "BadLine",
        "a remark needs a line of its own",
    ),
    "a seed's name first": (changed("seed 0 3 S", "seed S 0 3"), 70, "BadNumber", "a seed line has x, then y"),
    "a decimal": (changed("glue f 1", "glue f 1.0"), 32, "BadNumber", "1.0 is no number"),
    "a prime": (changed("glue c 1", "glue c' 1"), 25, "BadName", "c' has ', which no name has"),
    "0 for none": (changed("tile X3 x3 f - -", "tile X3 x3 f 0 0"), 39, "UnknownName", "a side without a glue is -"),
    "a byte-order mark": ("\ufeff" + SQUARE, 1, "NoHeader", "byte-order mark"),
    "a long dash": (changed("tile X3 x3 f - -", "tile X3 x3 f \u2013 \u2013"), 39, "BadName", "a long dash"),
}


def growths(source):
    system = tb.System.read(source)
    first = tb.grow(system)
    return [first] if first.verdict.is_one_within else [first, *(tb.grow(system, choice=it) for it in range(1, 4))]


@pytest.mark.parametrize("planted", GROWN)
def test_what_lint_tells(planted):
    source, wanted = GROWN[planted]
    told = tb.slips(growths(source))
    assert len(told) == len(wanted), told
    for line, it in zip(told, wanted):
        assert line.startswith(it[:-2]) if it.endswith("..") else line == it


@pytest.mark.parametrize("planted", REFUSED)
def test_what_explain_tells_of_a_refusal(planted):
    source, line, cause, behind = REFUSED[planted]
    why = tb.refusal(source)
    assert (why.line, why.cause) == (line, cause)
    assert any(behind in it for it in why.reasons())


def test_no_box_ends_what_repeats():
    told = tb.grow(GROWN["a carry is lost"][0]).explain()
    assert (
        "A box twice as large to the north cuts it off again, at (2, 32): from row 4 on columns 0 to 2 repeat: row 12 is as row 4."
        in told
    )


def test_a_refused_claim_in_words():
    from tilebench.explain import answer_told

    events = "claim 0 2 0 K\n"
    replies = tb.schedule(ARCH, events).replies
    assert replies == ["refused 2 0"]
    told = list(answer_told("schedule", (ARCH + events).encode(), b"refused 2 0\nplace 0 0 S\nplace 4 0 T\n"))
    assert told[0] == "line 18: claim 0 2 0 K"
    assert told[1].startswith(
        "  refused 2 0: K at (2, 0) would be held with 0 by the tiles that scout 0 has seen, and the temperature is 2"
    )


@pytest.mark.parametrize("planted", ["ends of Windows", "one end of Windows", "tabs", "a long dash"])
def test_a_byte_that_is_seen_is_the_only_guess(planted):
    """The cause, the line and one guess."""
    assert len(tb.refusal(REFUSED[planted][0]).reasons()) == 3


def test_a_rival_is_not_told_to_lack_something():
    told = tb.grow(GROWN["two types for one input"][0]).explain()
    assert "im1n2 for im1n at 2 sites" in told and "placed nowhere" not in told


def test_a_wider_box_is_tried_where_nothing_else_can_grow_in_this_one():
    assert "Widen the box to the north by 3" in tb.grow(GROWN["a small box"][0]).explain()
    told = tb.grow(GROWN["temperature 1"][0]).explain()
    assert "the box cuts the growth off" in told and "A box twice as large" not in told
