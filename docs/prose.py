"""What code can tell of the documents as prose: for whom each page is, how long its parts are, how old its figures."""
import glob
import hashlib
import os
import re

from repository import TOP, read

# The words that a paragraph, an item or a cell of a table may have, and those of all pages in docs/ together.
LONGEST, ALL = 120, 30000
FENCE = re.compile(r"^(```|~~~).*?^\1\s*$", re.M | re.S)
ITEM = re.compile(r"\s*(?:[-*] |\d+\. )")
FIGURES = re.compile(r"<!-- measured by bench/table of sources (\w+)")


def pages():
    """All documents, each by its path from the top."""
    found = [it for folder in ("docs", "docs/headline", "page", "python") for it in glob.glob(f"{TOP}/{folder}/*.md")]
    return ["README.md", "CONTRIBUTING.md", "CHANGELOG.md"] + sorted(os.path.relpath(it, TOP) for it in found)


def parts(text):
    """The paragraphs, list items and cells of a text, without its blocks of code."""
    part = []
    for line in FENCE.sub("", text).split("\n") + [""]:
        is_row = "|" in re.sub(r"`[^`]*`", "", line)
        if part and (not line.strip() or is_row or ITEM.match(line)):
            yield " ".join(part)
            part = []
        if is_row:
            yield from line.split("|")
        elif line.strip() and not line.startswith("    "):
            part.append(line.strip())


def lengths():
    """Each paragraph, item and cell keeps to its number of words, and so do all pages together."""
    told = []
    for path in pages():
        long = [it for it in parts(read(path)) if len(it.split()) > LONGEST]
        told += [f"{path}: {len(it.split())} words in: {it.strip()[:60]}.." for it in long]
    all_words = sum(len(read(it).split()) for it in pages() if os.path.dirname(it) == "docs")
    return told + ([f"docs/*.md have {all_words} words, more than {ALL}"] if all_words > ALL else [])


def readers():
    """Each page says at its head for whom it is."""
    told = []
    for path in pages():
        head = [it for it in parts(read(path)) if it.strip() and not it.startswith("#")]
        is_told = head and head[0].lstrip("*_ ").startswith("For ")
        told += [] if is_told else [f"{path}: its head does not say for whom it is"]
    return told


def sources():
    """A sum over the code that the program is built from."""
    total = hashlib.sha256()
    for path in sorted(os.path.relpath(it, TOP) for it in glob.glob(f"{TOP}/crates/*/src/**/*.rt", recursive=True)):
        if "_tests/" not in path:
            total.update(path.encode() + b"\0" + read(path).encode())
    return total.hexdigest()[:12]


def figures():
    """The figures of MEASURED.md are of these sources, and a table of the gate, where there is one, of these crates."""
    found, now = FIGURES.findall(read("docs/MEASURED.md")), sources()
    told = [] if found else ["MEASURED.md: no table of bench/table"]
    told += [f"MEASURED.md is of sources {it}, these are {now}: bench/table --write" for it in found if it != now]
    return told + (gate() if os.path.exists(f"{TOP}/docs/GATE.md") else [])


def gate():
    """What differs between the lines that GATE.md gives each crate and those that it has."""
    told, tabled = [], dict(re.findall(r"^\|? ?`(\w+)` ?\| ?(\d+)", read("docs/GATE.md"), re.M))
    for name in re.findall(r"^(\w+)", read("crates.txt"), re.M):
        places = [f"{TOP}/crates/{name}/{part}/**/*" for part in ("src", "specs", "proofs")]
        files = [it for place in places for it in glob.glob(place, recursive=True) if os.path.isfile(it)]
        lines = sum(read(os.path.relpath(it, TOP)).count("\n") for it in files)
        if tabled.get(name) != str(lines):
            told.append(f"GATE.md: {name} has {lines} lines, the table says {tabled.get(name)}")
    return told


CHECKS = {"lengths": lengths, "readers of each page": readers, "figures": figures}
