"""The tables of PROVED.md against the contracts: each row names functions, and clauses that stand on them."""
import glob
import os
import re

from contracts import contracts, handed_out, has, is_promise, named
from repository import CODE, TOP, crates, read, rows

HEAD = re.compile(r"\*\*(?:[^*]|\*(?!\*))+\*\*")


def order(found, before):
    """What is wrong with crates that get their rows behind those before."""
    told = [f"PROVED.md: no crate {it}" for it in found if it not in crates()]
    return told + [f"PROVED.md: {it} stands on {below}, which has no rows before it" for it in found
                   for below in crates().get(it, []) if below in crates() and below not in before]


def row(crate, cells, listed):
    """What is wrong with a row of a crate, whose functions are listed; or None where the crate has none of them."""
    found, missing = named(crate, CODE.findall(cells[0]))
    if not found:
        return None
    listed |= {(crate, name) for name in found}
    told = [f"PROVED.md: {crate} has no public function {name}" for name in missing]
    clauses = CODE.findall(cells[2])
    if clauses:
        told += [f"PROVED.md: {crate}::{name} has none of {cells[2]}" for name in found if is_promise(crate, name)
                 and not any(has(contracts(crate)[name], clause) for clause in clauses)]
    return told + [f"PROVED.md: no clause {clause} in the row {cells[0]} of {crate}" for clause in clauses
                   if not any(has(contracts(crate)[name], clause) for name in found)]


def by_crates(text):
    """The table of functions by their crates. Each public function with a contract has a row."""
    told, here, before, listed = [], [], [], set()
    for cells in rows(text):
        heads = HEAD.findall(cells[0])
        if heads:
            here = [it for head in heads for it in CODE.findall(head)]
            told += order(here, before)
            before += here
        elif here and len(cells) > 2:
            came = [it for it in (row(crate, cells, listed) for crate in here) if it is not None]
            told += sum(came, []) if came else [f"PROVED.md: nothing in {here} is called {cells[0]}"]
    return told + [f"PROVED.md: {crate}::{name} is in no row" for crate in crates() for name in contracts(crate)
                   if is_promise(crate, name) and name.split("::")[0] in handed_out(crate)
                   and (crate, name) not in listed]


def answers(text):
    """The tables of answers and of the headline: each definition, or field, that a row names is there."""
    paths = glob.glob(f"{TOP}/crates/*/specs/**/*.antt", recursive=True)
    specs = "".join(read(os.path.relpath(it, TOP)) for it in paths)
    is_there = r"^\s*(?:(?:pub|abbrev|unfoldable|record|data) )+{}\b"
    cited = [it for cells in rows(text) for it in CODE.findall(cells[-1] or cells[-2])]
    lacking = [it for it in cited if not re.search(is_there.format(it), specs, re.M)]
    return [f"PROVED.md: there is no definition {it}" for it in lacking]


def top_call(text):
    """The table of the top call: each clause that a row names stands on it."""
    top = contracts("tilebench")["tilebench"]
    return [f"PROVED.md: the top call has no clause {it}" for cells in rows(text) for it in CODE.findall(cells[1])
            if not cells[0][0].isdigit() and not has(top, it)]


def promises():
    """All tables of PROVED.md."""
    first, _, rest = read("docs/PROVED.md").partition("## The answers")
    second, _, third = rest.partition("## Crate by crate")
    return by_crates(third) + answers(second) + top_call(first)
