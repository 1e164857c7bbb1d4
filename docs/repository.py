"""The files of the repository, as all checks of the documents read them."""
import functools
import os
import re

TOP = os.path.dirname(os.path.dirname(os.path.realpath(__file__)))
CODE = re.compile(r"`([^`]+)`")


def read(path):
    with open(f"{TOP}/{path}", encoding="utf-8") as it:
        return it.read()


@functools.lru_cache(None)
def crates():
    """The crates in their order, each with what it stands on."""
    lines = (line.partition(":") for line in read("crates.txt").split("\n") if line)
    return {name: rest.split() for name, _, rest in lines}


def rows(text):
    """The rows of all tables of a document, as lists of cells."""
    for line in text.split("\n"):
        cells = [cell.strip() for cell in line.removeprefix("|").split("|")]
        if len(cells) > 1 and not set("".join(cells)) <= set("-: "):
            yield cells
