"""From which sources the program in the page is made: the checksum of the crates below it."""
import glob
import hashlib
import os

TOP = os.path.dirname(os.path.dirname(os.path.realpath(__file__)))


def crates_below(root, name="program"):
    """The crates that a crate stands on, with itself, in the order of crates.txt."""
    with open(f"{root}/crates.txt", encoding="utf-8") as it:
        rows = [line.partition(":") for line in it if line.strip()]
    stands_on = {head.strip(): rest.split() for head, _, rest in rows}
    wanted = set()
    waiting = [name]
    while waiting:
        crate = waiting.pop()
        if crate in stands_on and crate not in wanted:
            wanted.add(crate)
            waiting += stands_on[crate]
    return [it for it in stands_on if it in wanted]


def files_of(root):
    """The files that the checksum is over: code and definitions of those crates, in a fixed order."""
    for crate in crates_below(root):
        for kind, ending in (("src", "rt"), ("specs", "antt")):
            yield from sorted(glob.glob(f"{root}/crates/{crate}/{kind}/**/*.{ending}", recursive=True))


def checksum(root=TOP):
    """SHA-256, in hexadecimal digits, over the name and the bytes of each of the files."""
    whole = hashlib.sha256()
    for path in files_of(root):
        with open(path, "rb") as it:
            data = it.read()
        whole.update(f"{os.path.relpath(path, root)} {len(data)}\n".encode())
        whole.update(data)
    return whole.hexdigest()
