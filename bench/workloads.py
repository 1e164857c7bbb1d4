"""The systems, machines and rules that bench/table measures the program on, as texts."""
import random
import re


def boxed(text, side):
    """A system's text with a square box of so many sites a side."""
    return re.sub(r"^box .*$", f"box 0 0 {side - 1} {side - 1}", text, flags=re.M)


def one_type(side):
    """One type that binds on all sides, from the corner of its box."""
    return boxed("tiles 1\ntau 1\nglue a 1\ntile T a a a a\nbox 0 0 0 0\nseed 0 0 T\nend\n", side)


def chessboard(side, seeds):
    """A chessboard of two types that scattered seeds begin, each with the type of its colour."""
    sites = sorted(random.Random(17).sample(range(side * side), seeds))
    lines = ["tiles 2", "tau 1", "glue x 1", "glue y 1", "tile A x x y y", "tile B y y x x"]
    lines.append(f"box 0 0 {side - 1} {side - 1}")
    lines += [f"seed {it % side} {it // side} {'AB'[(it % side + it // side) % 2]}" for it in sites]
    return "\n".join(lines + ["end"]) + "\n"


def many_types(side, pairs=0):
    """16384 types: each of 8192 glues stands on each side of two of them, in random order; with so many pairs."""
    rng = random.Random(11)
    columns = [[f"g{it}" for it in range(8192)] * 2 for _ in range(4)]
    for column in columns:
        rng.shuffle(column)
    lines = ["tiles 2" if pairs else "tiles 1", "tau 1"]
    lines += [f"glue g{it} {rng.choice((1, 1, 2, 3)) * (it % 2 if pairs else 1)}" for it in range(8192)]
    chosen = set()
    while len(chosen) < pairs:
        chosen.add(tuple(sorted(rng.sample(range(8192), 2))))
    lines += [f"pair g{a} g{b} {rng.choice((0, 1, 1, 2))}" for a, b in sorted(chosen)]
    lines += [f"tile t{it} {' '.join(column[it] for column in columns)}" for it in range(16384)]
    return "\n".join(lines + [f"box 0 0 {side - 1} {side - 1}", "seed 0 0 t0", "end"]) + "\n"


def in_lines(word, symbols):
    """Lines of this word with the symbols behind it, a hundred each."""
    return [f"{word} {' '.join(symbols[it:it + 100])}" for it in range(0, len(symbols), 100)]


def sweeper():
    """A machine that sweeps over 512 cells and flips the bits between two marks, for 1024 rows."""
    rules = [f"rule right {bit} right {1 - bit} R" for bit in (0, 1)] + ["rule right E left E L"]
    rules += [f"rule left {bit} left {bit} L" for bit in (0, 1)] + ["rule left M right M R"]
    tape = ["M"] + [str(random.Random(7).randrange(2)) for _ in range(510)] + ["E"]
    lines = ["machine 1", "state right", "state left", "symbol 0", "symbol 1", "symbol M", "symbol E"] + rules
    return "\n".join(lines + ["cells 512", "rows 1024", "head 1"] + in_lines("tape", tape) + ["end"]) + "\n"


def exclusive_or(side):
    """The rule of exclusive or over so many columns and rows, with ones at its borders."""
    rules = [f"rule {a} {b} {a ^ b} {a ^ b}" for a in (0, 1) for b in (0, 1)]
    borders = in_lines("bottom", ["1"] * side) + in_lines("left", ["1"] * side)
    lines = ["quadrant 1", "symbol 0", "symbol 1"] + rules + [f"size {side} {side}"] + borders + ["end"]
    return "\n".join(lines) + "\n"


def batch(systems):
    return "batch 1\n" + "".join(f"job {number}\n{text}" for number, text in enumerate(systems))
