"""What a definition reaches: the names in it, over specs/ and the declared types of the crates.

Names of std and of the kit's other crates are told, and not followed. Names are told by the imports of their file, so a
variable that is named as an imported definition brings that in too. An operator is named where all its parts stand.
dev/test_headline.py has a case of each shape.
"""
import functools
import glob
import os
import re

TOP = os.path.dirname(os.path.dirname(os.path.realpath(__file__)))
START = re.compile(r"^( *)((?:(?:abbrev|unfoldable|pub) )*(?:(?:record|data) )?)([^\s:({]+)")
WORD = re.compile(r"[^\W\d][\w']*")
USE = re.compile(r"^\s*(?:pub )?(?:ghost )?use (Rattle\.[\w.]+)\.\{([^}]*)\}", re.M)
MODULE = re.compile(r"^\s*(?:pub )?(?:ghost )?use (Rattle\.[\w.]+) as (\w+)$", re.M)
DECLARED = re.compile(r"^(?:pub(?:\(\w+\))? )?(struct|enum|trait|const) (\w+)")


def read(path):
    with open(f"{TOP}/{path}", encoding="utf-8") as it:
        return it.read().split("\n")


@functools.lru_cache(None)
def imports(path):
    """The names that a file imports, each with where it comes from and its name there."""
    found = {}
    for place, names in USE.findall("\n".join(read(path))):
        for name in names.split(","):
            there, _, here = name.strip().partition(" as ")
            found[here or there] = (place, there)
    return found


@functools.lru_cache(None)
def modules(path):
    """The names by which a file calls other modules, each with the module."""
    return {here: place for place, here in MODULE.findall("\n".join(read(path)))}


def parts(name):
    """The words or signs of an operator, and the name itself where it is none."""
    return [it for it in name.split("◌") if it]


def begins(line):
    """The name of the definition that a line begins, and how deep it stands."""
    start = START.match(line)
    is_start = start and re.search(r"abbrev|unfoldable|record|data", start[2])
    return (start[3], len(start[1])) if is_start else (None, 0)


def goes_on(name, depth, line):
    """Whether a line, which is no comment, belongs to the definition that began before it."""
    if begins(line)[0] or not line.startswith(" " * depth):
        return False
    if "◌" in name and " = " in line:
        return set(parts(name)) <= set(signs(line)) or line.startswith(" " * (depth + 1))
    return line.startswith((" " * (depth + 1), " " * depth + name + " "))


@functools.lru_cache(None)
def definitions(path):
    """The definitions of a file of specs: name, first line, last line. Comments may part the lines of one."""
    lines, found = read(path), {}
    for first, line in enumerate(lines, 1):
        name, depth = begins(line)
        if not name:
            continue
        last = first
        for number, behind in enumerate(lines[first:], first + 1):
            if not behind.strip() or behind.lstrip().startswith("--"):
                continue
            if not goes_on(name, depth, behind):
                break
            last = number
        found[name] = (first, last)
    return found


def ends(line, kind):
    """Whether a line is the last one of a type, a trait or a constant."""
    return line.startswith(("}", ")")) or line.endswith(";") and kind == "const"


@functools.lru_cache(None)
def declared(crate):
    """The types, traits and constants of a crate's code: name, file, first line, last line."""
    found = {}
    for path in sorted(glob.glob(f"{TOP}/crates/{crate}/src/**/*.rt", recursive=True)):
        path = os.path.relpath(path, TOP)
        lines = read(path)
        for number, line in enumerate(lines, 1):
            start = DECLARED.match(line)
            if start:
                last = number
                if not line.rstrip().endswith((";", "}")):
                    last = next(n for n in range(number + 1, len(lines) + 1) if ends(lines[n - 1], start[1]))
                found[start[2]] = (path, number, last)
    return found


def model(path, name):
    """The lines of a type's model: what its value is."""
    text = "\n".join(read(path))
    found = re.search(rf"^impl(?:<.*?>)? Model for {name}\b.*?^}}", text, re.M | re.S)
    return [line for line in found[0].split("\n") if re.match(r"\s*ghost (use|Value)", line)] if found else None


def place_of(source, name):
    """Where a name of an import stands: path, first line, last line, and the name there. None for one of the kit."""
    words = source.split(".")
    if not is_ours(source):
        return None
    crate, path = words[1], words[3:]
    if path[0] == "declared":
        kind = name if path[-1] in ("TheConstants", name) else path[-2] if path[-1] == "TheVariants" else path[-1]
        found = declared(crate).get(kind)
        return found and (*found, kind)
    file = f"crates/{crate}/specs/{'/'.join(path)}.antt"
    if not os.path.exists(f"{TOP}/{file}"):
        # A constructor: its type is the last word.
        file, name = f"crates/{crate}/specs/{'/'.join(path[:-1])}.antt", path[-1]
        if not os.path.exists(f"{TOP}/{file}"):
            return None
    if name in definitions(file):
        return (file, *definitions(file)[name], name)
    if name in imports(file):
        return place_of(*imports(file)[name])
    return None


def is_ours(source):
    """Whether a module is one of this repository."""
    return os.path.isdir(f"{TOP}/crates/{source.split('.')[1]}")


def signs(text):
    """The words of a text and what stands between them."""
    return re.findall(r"[^\W\d][\w']*|[^\w\s(){}]+", text)


def cited(path, text):
    """The names that a text of a file may speak of: each name there, its module in an import, and its name there."""
    here, known = set(signs(text)), imports(path)
    here |= {">>="} if "←" in here else set()  # as a block of `do` means it
    found = {name: known[name] for name in known if set(parts(name)) <= here}
    if path.endswith(".antt"):
        found |= {name: (None, name) for name in definitions(path) if set(parts(name)) <= here}
    for module, name in re.findall(r"\b(\w+)\.(\w+)", text):
        if module in modules(path):
            found[f"{module}.{name}"] = (modules(path)[module], name)
    return found


def names_in(path, first, last, name):
    """The definitions that a definition names, and its names of the kit with their modules."""
    lines = read(path)[first - 1:last]
    if path.endswith(".antt") and lines[0].startswith(" "):
        # What stands in a module has its parameters, too.
        lines = [line for line in read(path)[:first - 1] if line.lstrip().startswith("module _")] + lines
    if path.endswith(".rt"):
        lines = model(path, name) or lines
    text = "\n".join(re.sub(r"(--|//).*", "", line) for line in lines)
    found, of_kit = [], set()
    for word, (source, there) in cited(path, text).items():
        if word == name:
            continue
        place = (path, *definitions(path)[word], word) if source is None else place_of(source, there)
        if place:
            found.append(place)
        elif source and not is_ours(source):
            of_kit.add((source, there))
    if path.endswith(".rt"):
        words = dict.fromkeys(it for it in WORD.findall(text) if it != name and it[0].isupper() and it not in imports(path))
        found += [place for place in (code_type(path, word) for word in words) if place]
    return found, of_kit


def code_type(path, word):
    """A type that code names, by its crate or by what it imports."""
    crate = path.split("/")[1]
    if word in declared(crate):
        return (*declared(crate)[word], word)
    found = re.search(rf"^use (\w+)(?:::\w+)*::(?:\{{[^}}]*\b{word}\b[^}}]*\}}|{word});", "\n".join(read(path)), re.M)
    if found and os.path.isdir(f"{TOP}/crates/{found[1]}") and word in declared(found[1]):
        return (*declared(found[1])[word], word)
    return None


def reached(starts, ends=()):
    """All that is reached from some definitions, and the kit's names on the way. It goes no further at the ends."""
    left, seen, of_kit = list(starts), {}, set()
    while left:
        place = left.pop()
        if place[:2] not in seen:
            seen[place[:2]] = place
            if place[:2] not in ends:
                more, kit = names_in(*place)
                of_kit |= kit
                left += more
    return seen, of_kit


def contract(path, function):
    """The first and the last line of a function's signature and contract."""
    lines = read(path)
    first = next(n for n, line in enumerate(lines, 1) if re.match(rf" *pub fn {function}\b", line))
    return first, next(n for n in range(first, len(lines)) if lines[n - 1].strip() in ("{", "{}"))


def order():
    """The crates, lowest first."""
    return [line.split(":")[0] for line in read("crates.txt") if line.strip()]
