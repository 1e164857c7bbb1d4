"""The contracts of the public functions of each crate, as text."""
import fnmatch
import functools
import glob
import os
import re

from repository import TOP, crates, read

BLOCK = re.compile(r"(impl|trait)\b(.*)")
FOR_TESTS = ("worked_systems", "meeting_gate", "program_runs")
FUNCTION = re.compile(r"( *)(pub(?:\(crate\))? )?(?:const )?fn (\w+)")
HANDED_OUT = re.compile(r"pub (?:use|fn|struct|enum|trait) ([^;{(]+(?:\{[^}]*\})?)")


def owner_of(block):
    """Of the first line of an impl or a trait: its type, whether all functions are public, and the trait of an impl."""
    rest = re.sub(r"^<[^{]*?> ", "", block[2])
    parts = [re.findall(r"[A-Z]\w+", part)[0] for part in rest.split(" for ")[:2]]
    is_of_trait = block[1] == "impl" and " for " in rest
    return parts[-1], block[1] == "trait" or " for " in rest, parts[0] if is_of_trait else None


def ends(contract, line):
    """Whether a signature, or a contract, ends with this line."""
    return re.match(r"\s*\{\}?\s*$", line) or "ensures" not in contract and line.endswith(("{", ";"))


def contracts_in(path, found):
    """Adds the contracts of a file's public functions to those that were found."""
    owner, is_open, trait, name = "", False, None, None
    for line in read(path).split("\n"):
        block, function = BLOCK.match(line.removeprefix("pub ")), FUNCTION.match(line)
        if block:
            owner, is_open, trait = owner_of(block)
        elif line.startswith("}"):
            owner, is_open = "", False
        if function and bool(function[1]) == bool(owner):
            is_public = function[2] == "pub " or owner and is_open
            name = (f"{owner}::" if owner else "") + function[3] if is_public else None
            if name:
                found[name] = found.get(name, f"impl {trait}::{function[3]}\n" if owner and trait else "")
        if name:
            found[name] += line + "\n"
            name = None if ends(found[name], line) else name


@functools.lru_cache(None)
def contracts(crate):
    """The public functions of a crate, with those of its traits: the text of each signature and contract."""
    found = {}
    for path in sorted(glob.glob(f"{TOP}/crates/{crate}/src/**/*.rt", recursive=True)):
        contracts_in(os.path.relpath(path, TOP), found)
    return found


def named(crate, names):
    """The functions of a crate that a cell names, and what it names in vain."""
    found, missing, owner = [], [], ""
    for name in names:
        owner = name.split("::")[0] if "::" in name else owner
        here = fnmatch.filter(contracts(crate), name) if "::" in name or name[0] != "*" else []
        here = [it for it in here if ("::" in it) == ("::" in name)]
        if not here and owner and "::" not in name:
            here = fnmatch.filter(contracts(crate), f"{owner}::{name}")
        found += here
        missing += [] if here else [name]
    return found, missing


@functools.lru_cache(None)
def of_traits():
    """The contracts of all functions of traits, which hold for those that carry them out."""
    return {name: text for crate in crates() for name, text in contracts(crate).items() if "::" in name}


def has(contract, clause):
    """Whether a contract has a clause of this name, or cites this definition."""
    if contract.startswith("impl ") and "ensures" not in contract:
        contract = of_traits().get(contract.split()[1], "")
    words = set(re.findall(r"[\w']+", contract.split("ensures", 1)[-1])) if "ensures" in contract else set()
    return bool(fnmatch.filter(words, clause)) if re.fullmatch(r"[\w'*]+", clause) else clause in contract


def is_promise(crate, name):
    """Whether a function has a contract of this project. (A drop by hand takes its value apart, no more.)"""
    contract = contracts(crate)[name]
    of_trait = of_traits().get(contract.split()[1], "") if contract.startswith("impl ") else ""
    return not name.endswith("::drop") and "ensures" in contract + of_trait


@functools.lru_cache(None)
def handed_out(crate):
    """The names that a crate's lib.rt hands out; none of a crate that is for tests alone, or is a program."""
    path = f"crates/{crate}/src/lib.rt"
    if not os.path.exists(f"{TOP}/{path}") or crate in FOR_TESTS:
        return set()
    return set(re.findall(r"\w+", " ".join(HANDED_OUT.findall(re.sub(r"//.*", "", read(path))))))


