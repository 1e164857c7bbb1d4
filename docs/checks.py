"""What the documents say that code can tell: each check answers a list of what differs."""
import glob
import os
import re
import subprocess
import sys

import constants
import prose
from contracts import contracts
from promises import promises
from repository import CODE, TOP, crates, read, rows


def layers():
    """The table and the picture of ARCHITECTURE.md against crates.txt."""
    text, order, told = read("docs/ARCHITECTURE.md"), crates(), []
    table = [CODE.findall(cells[0])[0] for cells in rows(text.split("## Crates")[1].split("\n## ")[0])
             if CODE.match(cells[0])]
    if table != list(order):
        told.append(f"ARCHITECTURE.md: the rows are {table}, crates.txt has {list(order)}")
    picture = list(enumerate(text.split("```")[1].split("\n")))
    line_of = {name: number for number, line in picture for name in re.findall(r"\w+", line) if name in order}
    tests = [name for name in order if "worked_systems" in order[name]] + ["worked_systems", "meeting_gate"]
    told += [f"ARCHITECTURE.md: the picture lacks {it}" for it in order if it not in line_of and it not in tests]
    told += [f"ARCHITECTURE.md: {name} is drawn below {below}, on which it stands" for name, number in line_of.items()
             for below in order[name] if line_of.get(below, number) < number]
    return told


# The files of the model's definitions, each of which MODEL.md puts in words; laws have their rows in PROVED.md.
MODEL = ("atam/specs/*", "local_check/specs/Judgement", "unique_law/specs/Outcomes", "unique_law/specs/Within")
MODEL += ("cert_check/specs/Certificates", "design/specs/Designs")
DEFINED = re.compile(r"^(?:pub (?:record|data)|(?:abbrev|unfoldable) pub) (\w+)", re.M)


def model():
    """MODEL.md names each definition of the model."""
    told, text = [], read("docs/MODEL.md")
    for path in sorted(path for it in MODEL for path in glob.glob(f"{TOP}/crates/{it}.antt")):
        path = os.path.relpath(path, TOP)
        names = [] if path.endswith("Laws.antt") else DEFINED.findall(read(path))
        told += [f"MODEL.md: nothing of {name} in {path}" for name in names if f"`{name}`" not in text]
    return told


# The rows of the table of limits by the crates and the constants that they are about.
OF_MODEL = {"MOST_GLUES": "glues", "MOST_PAIRS": "pairs of unlike glues", "MOST_TYPES": "tile types",
            "MOST_SEEDS": "seeds",
            "MOST_STRENGTH": "strength", "MOST_TAU": "temperature", "LONGEST_NAME": "names", "LONGEST_SIDE": "box",
            "LEAST_CORNER": "box", "GREATEST_CORNER": "box", "MOST_INPUT": "input", "LONGEST_LINE": "input"}
OF_MACHINE = dict.fromkeys(("MOST_STATES", "MOST_SYMBOLS", "LONGEST_SHORT_NAME", "MOST_CELLS", "MOST_ROWS"), "machine")
LIMITS = {"atam": OF_MODEL.get, "tile_io": OF_MODEL.get, "machine_text": OF_MACHINE.get,
          "quadrant_compile": lambda _: "two-input rule", "counter_compile": lambda _: "counter"}
LIMIT = re.compile(r"^pub const (\w+): [iu]\w+ = (-?[\d_]+);", re.M)


def limits():
    """The table of limits in MODEL.md: each number of a limit in crates/NAME/src/limits.rt stands in it."""
    told, table = [], read("docs/MODEL.md").split("## Limits")[1].replace(",", "")
    of = {cells[0]: re.findall(r"-?\d+", cells[1]) for cells in rows(table)}
    for crate, row_of in LIMITS.items():
        paths = glob.glob(f"{TOP}/crates/{crate}/src/limits.rt") or glob.glob(f"{TOP}/crates/{crate}/src/*.rt")
        for name, value in (it for path in paths for it in LIMIT.findall(read(os.path.relpath(path, TOP)))):
            row = row_of(name)
            if row and value.replace("_", "") not in of.get(row, []):
                told.append(f"MODEL.md: {name} of {crate} is {value}, the row '{row}' has {of.get(row)}")
    return told


def commands():
    """The commands of the program: each has a row in README.md, and its parts in the other pages and the manual."""
    ran = subprocess.run([f"{TOP}/dev/commands", "--check"], check=False, stdout=subprocess.PIPE)
    made = ran.stdout.decode().splitlines()
    names = re.findall(r'^    "(\w+)": \(', read("python/tilebench/commands.py"), re.M)
    table = read("README.md").partition("\nCommand|")[2].partition("\n\n")[0]
    readme = {it.split()[0] for cells in rows(table) for it in CODE.findall(cells[0])}
    told = [f"README.md: no row for {it}" for it in names if it not in readme]
    told += [f"README.md: no command {it}" for it in readme if names and it not in names]
    for path in ("docs/PROVED.md", "docs/FORMATS.md", "docs/tilebench.1", "editors/tilebench.bash"):
        told += [f"{path}: nothing of {it}" for it in names if not re.search(rf"\b{it}\b", read(path))]
    synopsis, _, rest = read("docs/tilebench.1").partition(".SH COMMANDS")
    parts = rest.partition(".SH OPTIONS")[0]
    listed = dict(re.findall(r'^    "(\w+)": \((.*)\),$', read("python/tilebench/commands.py"), re.M))
    for it in names:
        block = re.search(rf"^\.B tilebench {it}$(.*?)(?=^\.br$|\Z)", synopsis, re.M | re.S)
        stands = re.findall(r"\\-\\-(\w+)", block[1]) if block else []
        wanted = [name.lower() for name in re.findall(r"(\w+)_OPTION", listed.get(it, ""))]
        told += [] if stands == wanted else [f"docs/tilebench.1: {it} has the options {stands}, of {wanted}"]
    for it in names:
        found = [len(re.findall(rf"^\.B tilebench {it}$", synopsis, re.M)),
                 len(re.findall(rf"^\.TP\n\.BI? {it}\b", parts, re.M))]
        told += [] if found == [1, 1] else [f"docs/tilebench.1: {it} stands {found} times in synopsis and commands"]
    return made + told


# Where the names of refusals stand, and where the keywords of texts with their numbers of words.
REFUSALS = ("tile_io/specs/Causes", "command_line/specs/Commands", "tilebench/specs/Refusals")
REFUSAL = re.compile(r'^\w+_(?:stop_)?name [\w.]+ = codes "([A-Z]\w+)"', re.M)
TEXTS = ("tile_text/specs/SystemText", "seq_text/specs/GrowthText", "seq_text/specs/ScheduleText",
         "machine_text/specs/MachineText", "quadrant_compile/specs/QuadrantText")
KEYWORD = re.compile(r'row \(codes "([a-z]+)"\)\s+\(λ n\. n == (\d+)\)')


def refusals():
    """What of the names of refusals FORMATS.md and python/tilebench/refusals.py lack."""
    found = [it for path in REFUSALS for it in REFUSAL.findall(read(f"crates/{path}.antt")) if it != "NoMemory"]
    told = [f"{path}: nothing of {it}" for path in ("docs/FORMATS.md", "python/tilebench/refusals.py") for it in found
            if it not in read(path)]
    return told or ([] if len(found) > 10 else ["few refusals were found in the crates"])


def keywords():
    """What of the keywords of texts, and of their numbers of words, FORMATS.md lacks."""
    told, formats = [], read("docs/FORMATS.md")
    found = [it for path in TEXTS for it in KEYWORD.findall(read(f"crates/{path}.antt"))]
    for word, number in found:
        here = [(cells[1], CODE.findall(cells[0])) for cells in rows(formats)
                if any(it.split()[0] == word for it in CODE.findall(cells[0]))]
        if not any(count == number or len(names[0].split()) == int(number) for count, names in here):
            told.append(f"docs/FORMATS.md: the line `{word}` has {number} words")
    return told or ([] if len(found) > 10 else ["few keywords were found in the crates"])


def answers():
    """The names of refusals, the keywords of texts and the numbers of limits in FORMATS.md."""
    told, formats, source = refusals() + keywords(), read("docs/FORMATS.md"), read("crates/atam/src/limits.rt")
    for name in ("MOST_GLUES", "MOST_TYPES", "MOST_PAIRS", "MOST_SEEDS"):
        most = int(re.search(rf"const {name}: u32 = ([\d_]+);", source)[1])
        told += [f"docs/FORMATS.md: {name} is {most}" for it in (str(most), str(most + 1)) if it not in formats]
    return told


def headings(path):
    """What a link may name within a document."""
    text = read(path)
    heads = {re.sub(r"[^\w\- ]", "", it.lower()).replace(" ", "-") for it in re.findall(r"^#+ (.*)$", text, re.M)}
    return heads | set(re.findall(r'<a (?:id|name)="([^"]+)"', text))


def links():
    """What the documents link to is there: files, and headings within documents."""
    told = []
    for path in prose.pages():
        for place in re.findall(r"\]\(([^)\s]+)\)", read(path)):
            file, _, part = place.partition("#")
            to = os.path.normpath(os.path.join(os.path.dirname(path), file)) if file else path
            if "://" in file:
                continue
            if not os.path.exists(f"{TOP}/{to}"):
                told.append(f"{path}: there is no {place}")
            elif part and to.endswith(".md") and part not in headings(to):
                told.append(f"{path}: {to} has no heading #{part}")
    return told


# What of the repository is code that a document may name, beside the crates.
CODE_FILES = ("crates/*/src/**/*.rt", "crates/*/specs/**/*.antt", "dev/*", "tools/*", "bench/*", "docs/*.py",
              "python/**/*.py", "page/**/*.py", "page/**/*.js", "editors/*")
FILE_NAME = re.compile(r"[\w./-]+\.(?:rt|antt|py|md|html)|(?:crates|tools|dev|docs|page|python|editors|bench)/[\w./-]+")
IDENTIFIER = re.compile(r"(?:[A-Z]\w*[a-z]\w*|\w+_\w+)(?:::\w+)*(?:\(\))?")


def is_file(name, paths):
    """Whether a document's name of a file is that of one: from the top, from docs, or the end of a path of code."""
    is_there = any(os.path.exists(f"{it}/{name}") for it in (TOP, f"{TOP}/docs"))
    return "NAME" in name or is_there or any(it.endswith(f"/{name}") for it in paths)


def names():
    """What the documents name of the code is there: definitions, types and functions, and files."""
    paths = [it for kind in CODE_FILES for it in glob.glob(f"{TOP}/{kind}", recursive=True) if os.path.isfile(it)]
    words = set(re.findall(r"[^\W\d]\w*", "".join(read(os.path.relpath(it, TOP)) for it in paths)))
    words |= set(crates()) | {"Wait", "Is"}
    paths += glob.glob(f"{TOP}/crates/*/proofs/**/*.antt", recursive=True)
    told = []
    for path in (it for it in prose.pages() if "headline" not in it.lower()):
        text = re.sub(r"^```.*?^```|^    .*?$", "", read(path), flags=re.M | re.S)
        for name in CODE.findall(text):
            if FILE_NAME.fullmatch(name):
                told += [] if is_file(name, paths) else [f"{path}: there is no file {name}"]
            elif IDENTIFIER.fullmatch(name):
                told += [f"{path}: nothing is called {name}" for it in re.findall(r"\w+", name) if it not in words]
    return told


def manual():
    """The manual page, and the table of commands in README.md, are what docs/manual makes."""
    told = []
    for path, words in (("docs/tilebench.1", []), ("README.md", ["--readme"])):
        made = subprocess.run([f"{TOP}/docs/manual", *words], check=True, stdout=subprocess.PIPE).stdout.decode()
        told += [] if made == read(path) else [f"{path} is old: docs/manual --write"]
    return told


def headline():
    """HEADLINE.md and the pages behind it are what dev/headline makes, which lists each shape of a definition."""
    streams = {"stdout": subprocess.PIPE, "stderr": subprocess.STDOUT}
    tried = subprocess.run([f"{TOP}/dev/test_headline.py"], check=False, **streams)
    if tried.returncode:
        return [f"dev/test_headline.py: {tried.stdout.decode()}"]
    made = subprocess.run([f"{TOP}/dev/headline", "--check"], check=True, stdout=subprocess.PIPE).stdout.decode()
    return made.splitlines()


def page():
    """tilebench.html is made of the crates and of page/ as they are (page/make --check compares the module itself)."""
    sys.path.append(f"{TOP}/page")
    import bundle

    return bundle.behind(read("tilebench.html"))


def twins():
    """No two definitions of specs/ say the same but for names, which dev/twins.py tells."""
    streams = {"stdout": subprocess.PIPE, "stderr": subprocess.STDOUT}
    tried = subprocess.run([f"{TOP}/dev/test_twins.py"], check=False, **streams)
    if tried.returncode:
        return [f"dev/test_twins.py: {tried.stdout.decode()}"]
    return subprocess.run([f"{TOP}/dev/twins.py"], check=False, **streams).stdout.decode().splitlines()


CHECKS = {
    "clauses of PROVED.md": promises,
    "crates of ARCHITECTURE.md": layers,
    "definitions of MODEL.md": model,
    "limits of MODEL.md": limits,
    "commands": commands,
    "answers of FORMATS.md": answers,
    "links": links,
    "names": names,
    "the list of what the headline reaches": headline,
    "definitions said twice": twins,
    "the manual page": manual,
    "tilebench.html": page,
    "constants that clauses cite": lambda: constants.unsaid(crates(), contracts),
} | prose.CHECKS
