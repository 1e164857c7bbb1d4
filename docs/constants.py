"""Constants and lists of the code that clauses cite. Each needs a public law that says what it is: else a number that
is changed in the code changes what the clauses mean, and all of them still hold."""
import glob
import os
import re

from repository import TOP, read

CONSTANT = re.compile(r"^(?:pub(?:\(\w+\))? )?const (\w+):", re.M)
CITED = re.compile(r"^use Rattle\.(\w+)\.specs\.declared\.[\w.]*TheConstants\.\{([^}]*)\}", re.M)
CLAUSES = re.compile(r"\b(?:requires|ensures)\b.*", re.S)
EXPORTED = re.compile(r"^pub [^;]*;", re.M)
VALUE = r"(?:pos )?\d+|neg_ℤ \(pos \d+\)|[^}]*\[\]"


def texts(crate, part):
    """The files of a part of a crate, each by its path from the top."""
    for path in sorted(glob.glob(f"{TOP}/crates/{crate}/{part}/**/*.*", recursive=True)):
        if path.endswith((".rt", ".antt")):
            yield os.path.relpath(path, TOP), read(os.path.relpath(path, TOP))


def in_definitions(crates):
    """The constants that definitions cite, each by its crate and name, and where."""
    for crate in crates:
        for path, text in texts(crate, "specs"):
            for owner, names in CITED.findall(text):
                yield from (((owner, name), path) for name in names.split(", "))


def in_contracts(crates, contracts):
    """The constants that clauses of the functions cite that a crate hands out. The rest are its own affair."""
    declared = {crate: {name for _, text in texts(crate, "src") for name in CONSTANT.findall(text)} for crate in crates}
    for crate, below in crates.items():
        root = dict(texts(crate, "src")).get(f"crates/{crate}/src/lib.rt", "")
        public = set(re.findall(r"\w+", "".join(EXPORTED.findall(root))))
        for function, contract in contracts(crate).items():
            clauses = CLAUSES.search(contract)
            if clauses and function.split("::")[0] in public and not function.startswith("law_"):
                for name in set(re.findall(r"\b[A-Z][A-Z_]+\b", clauses[0])):
                    owner = next((it for it in [crate, *below] if name in declared.get(it, ())), None)
                    if owner:
                        yield (owner, name), f"{crate}::{function}"


def unsaid(crates, contracts):
    """The constants that a clause cites and no law of their crate writes out."""
    cited = dict([*in_contracts(crates, contracts), *in_definitions(crates)])
    laws = {crate: "".join(text for name, text in contracts(crate).items() if name.startswith("law_"))
            for crate, _ in cited}
    return [f"{place} cites {name}, and no law of {crate} says what it is"
            for (crate, name), place in sorted(cited.items())
            if not re.search(rf"\{{ {name} ≡ (?:{VALUE}) \}}", laws[crate])]
