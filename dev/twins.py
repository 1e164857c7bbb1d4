#!/usr/bin/env python3
"""Tells definitions of specs/ that say the same but for the names in them: each is to stand once, in the lowest crate.

    dev/twins.py            prints each group of such definitions; status 1 where there is one that is not accepted

Two are alike where their equations, or the fields of their records, are the same once their own names, and those that
they bind, are told by their places. What has fewer than LEAST words and signs says too little to be compared. ACCEPTED
has the groups that stay, each with why.
"""
import glob
import os
import re
import sys

sys.path.insert(0, os.path.dirname(os.path.realpath(__file__)))
sys.dont_write_bytecode = True
import reaching  # noqa: E402  (it stands beside this file)

LEAST = 8
SIGN = re.compile(r"[^\W\d][\w'-]*|\d+|\"[^\"]*\"|[^\s\w]")
BOUND = re.compile(r"λ ([^.]*)\.|\(([\w' ]+) :|([\w']+) ←|let ([\w']+)")
FIELDS = "they are of other types, whose fields have the same names"
LINES = "they are of the lines of other texts"
ACCEPTED = {
    ("cert_check:places_of", "grow_core:places"): FIELDS,
    ("cert_check:entry_at", "site_table:tile_on"): FIELDS,
    ("cert_check:bit", "type_cache:bond_if"): "the one is a bit of a number, and the other the strength of a bond",
    ("machine_text:is_last", "quadrant_compile:is_last", "tile_text:is_last"): LINES,
    ("atam:side_of", "replay_order:glue_on", "type_cache:has", "type_cache:strength_on"): FIELDS,
    ("grow_core:place", "grow_core:state_of"): FIELDS,
    ("tile_system:glue_named", "tile_system:type_named"): FIELDS,
    ("assembly:type_in", "type_cache:type_of"): "the one is of a cell of a grid, and the other of a code of an index",
    ("machine_text:is_for", "quadrant_compile:is_for"): FIELDS,
    ("machine_text:word_of_kind", "quadrant_compile:word_of_kind"): LINES,
    ("quadrant_compile:kinds", "quadrant_compile:labels"):
        "the one lists the kinds of a set of tiles, and the other its labels",
    ("turing_compile:kinds", "turing_compile:labels"):
        "the one lists the kinds of a set of tiles, and the other its labels",
    ("machine_text:entry", "quadrant_compile:entry"): "they are of tables with other limits",
    ("job_board:is_unique", "tilebench:is_verified"): "they are of verdicts of other judges",
    ("type_index:BearerLinks", "type_index:PairOrder"): FIELDS,
    ("site_table:no_system", "tile_text:nothing"): "neither crate stands on the other",
    ("assembly:cell_over", "site_table:word_after"):
        "the one is of cells of two grids, and the other of a word of a table at a claim",
}


def body(path, first, last):
    """The lines of a definition but for remarks, and for the signature where it has one."""
    lines = [re.sub(r"--.*", "", line) for line in reaching.read(path)[first - 1:last]]
    if re.match(r"\s*(?:pub )?(?:record|data) ", lines[0]):
        return lines
    depth = len(lines[0]) - len(lines[0].lstrip())
    start = next((n for n, line in enumerate(lines[1:], 1) if line[depth:depth + 1].strip()), 0)
    return lines[start:]


def parameters(name, lines):
    """What the equations of a definition bind before their sign of equality."""
    found = []
    for line in lines:
        before, sign, _ = line.partition(" = ")
        if sign and re.match(rf"\s*{re.escape(name)}\b", before):
            found += [it for it in SIGN.findall(before) if it[0].islower() and it != name]
    return found


def told(path, first, last, name):
    """What a definition says, with each name that it binds told by its place."""
    lines = body(path, first, last)
    text = "\n".join(lines)
    known = set(reaching.imports(path)) | set(reaching.definitions(path))
    bound = parameters(name, lines) + [it for found in BOUND.findall(text) for it in " ".join(found).split()]
    bound += re.findall(r"pub (\w+) :", text)
    signs = SIGN.findall(text)
    mine = [it for it in dict.fromkeys(bound) if it not in known and it != "_"]
    used = [it for it in mine if signs.count(it) > bound.count(it)]
    places = dict.fromkeys(mine, "_") | {it: f"#{n}" for n, it in enumerate(used)} | {name: "#"}
    return " ".join(places.get(it, it) for it in signs)


def all_definitions():
    """Each definition of specs/: path, first line, last line, name."""
    files = sorted(glob.glob(f"{reaching.TOP}/crates/*/specs/**/*.antt", recursive=True))
    paths = [os.path.relpath(it, reaching.TOP) for it in files]
    return [(path, *span, name) for path in paths for name, span in reaching.definitions(path).items()]


def groups(places):
    """The definitions among these that are alike, as sorted groups of CRATE:NAME."""
    found = {}
    for path, first, last, name in places:
        said = told(path, first, last, name)
        if len(said.split()) >= LEAST:
            found.setdefault(said, []).append(f"{path.split('/')[1]}:{name}")
    return sorted(tuple(sorted(group)) for group in found.values() if len(group) > 1)


def main():
    found = [group for group in groups(all_definitions()) if group not in ACCEPTED]
    for group in found:
        print(f"alike but for names: {', '.join(group)}")
    sys.exit(1 if found else 0)


if __name__ == "__main__":
    main()
