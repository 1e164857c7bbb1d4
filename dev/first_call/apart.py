"""The program's crates in a folder of their own, where `rt ci` proves them, and builds and runs the program.

`rt ci` proves a crate over the statements of those below it, whose proofs `rt all` and `rt run` load each time; and what it
passes it keeps beside the kit, crate by crate, for the next call and for the gate. The folder has no tests and no edits.
"""
import os
import shutil
import subprocess
import time

from progress import below, needs

# what rt tells of itself where `rt ci` keeps what it passes; where it does, from the folder of its first page
KEEPS, STORE = b"is kept beside the kit", "../rattle-kept"
# how rt runs a program that root has built
AS_NOBODY = ["setpriv", "--reuid=65534", "--regid=65534", "--clear-groups", "--no-new-privs"]
# what a crate's folder has beside its sources and what its program is run on
LEFT_OUT = ("must-fail", "out")


def said_by(*words):
    """What a command of rt prints."""
    return subprocess.run(["rt", *words], check=False, stdin=subprocess.DEVNULL, stdout=subprocess.PIPE, stderr=subprocess.STDOUT).stdout


def is_kept():
    """Whether what `rt ci` passes stays where it is ended: where the folder beside the kit is this user's."""
    if KEEPS not in b" ".join(said_by("help").split()):
        return False
    store = os.path.normpath(os.path.join(os.path.dirname(os.fsdecode(said_by("doc").strip())), STORE))
    try:
        os.makedirs(store, 0o700, exist_ok=True)
        return os.path.isdir(store) and not os.path.islink(store) and os.stat(store).st_uid == os.geteuid()
    except OSError:
        return False


def runs_as_nobody():
    """Whether `rt ci` can run the program here, which it does as nobody where the user is root."""
    try:
        return os.geteuid() != 0 or subprocess.run([*AS_NOBODY, "true"], check=False, stderr=subprocess.DEVNULL).returncode == 0
    except OSError:
        return False


def has_checks(top):
    """Whether checks of a developer have left their work in the checkout, with which `rt all` and `rt run` begin."""
    return any(os.path.isdir(f"{top}/crates/{name}/out/incremental") for name in below(needs(top), "program"))


def lay(top, folder):
    """Copies the program's crates into an empty folder, which becomes the top of a repository."""
    names = below(needs(top), "program")
    os.mkdir(f"{folder}/.git")
    with open(f"{top}/crates.txt", encoding="utf-8") as all_lines, open(f"{folder}/crates.txt", "w", encoding="utf-8") as lines:
        lines.writelines(it for it in all_lines if it.partition(":")[0].strip() in names)
    shutil.copy(f"{top}/HANDLES", f"{folder}/HANDLES")
    for name in names:
        crate = f"{top}/crates/{name}"
        shutil.copytree(crate, f"{folder}/crates/{name}", ignore=lambda at, _, crate=crate: LEFT_OUT if at == crate else ())


def remove(folder):
    """Removes the folder, also from under a check that is just being ended."""
    for _ in range(50):
        shutil.rmtree(folder, ignore_errors=True)
        if not os.path.exists(folder):
            return
        time.sleep(0.1)


def hand_over(folder, top, began):
    """Gives the checkout the libraries and then the program, which is as old as the sources that it is of."""
    for name in below(needs(folder), "program"):
        made, kept = (f"{it}/crates/{name}/out" for it in (folder, top))
        os.makedirs(kept, exist_ok=True)
        if os.path.isdir(f"{made}/rlib"):
            shutil.rmtree(f"{kept}/rlib", ignore_errors=True)
            shutil.move(f"{made}/rlib", f"{kept}/rlib")
    program, new = (f"{top}/crates/program/out/{it}" for it in ("program", "program.new"))
    shutil.copy(f"{folder}/crates/program/out/program", new)
    os.utime(new, (began, began))
    os.replace(new, program)
