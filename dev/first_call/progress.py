"""How far a build is, by what is done, and how long is left of it.

A crate is done once the build's log says so, or, of a build in the checkout, once its library is newer than its sources. Of one that
is being proved, a check in the checkout keeps each module in out/incremental as soon as it is checked: so their number tells how
far it is. In a folder apart the time tells it, since the crate was begun. Both move within the largest crate too.
"""
import os
import re
import time
from functools import lru_cache

FUNCTION = re.compile(r"^[^/\n]*\bfn \w", re.M)
# the first line of a log, where the build proves in a folder apart; and one of each crate that was proved, or was kept from before
APART, PROVED, KEPT = re.compile(r"tilebench proves in (.*)\n"), re.compile(r"^== (\w+)$", re.M), re.compile(r"^rt: (\w+) is kept: ", re.M)
# modules that a check keeps for a function, by the crates as they are: 30 to 50
MODULES = 40
# what a crate costs beside its functions, and the program beside that (it is linked), in functions
CRATE, PROGRAM = 10, 40
# processor seconds that a function takes, until a build has shown it by FIRST functions
SECONDS, FIRST = 1.5, 100
# what is told at most of a crate that is being proved
MOST = 0.95


def files(folder, *parts):
    """The paths of all files in some folders of a crate."""
    return [f"{at}/{it}" for part in parts for at, _, names in os.walk(f"{folder}/{part}") for it in names]


def modules(folder):
    """How many modules a check keeps of a crate."""
    kept = f"{folder}/out/incremental"
    return sum(len(os.listdir(f"{kept}/{it}")) for it in os.listdir(kept)) if os.path.isdir(kept) else 0


def needs(top):
    """The crates of crates.txt, each with those that it stands on."""
    with open(f"{top}/crates.txt", encoding="utf-8") as it:
        lines = [line.partition("#")[0].partition(":") for line in it if line.partition("#")[0].strip()]
    named = {words.split()[0]: rest.split() for words, _, rest in lines}
    return {name: [it for it in rest if it in named] for name, rest in named.items()}


def below(named, name, found=()):
    """A crate behind all that it stands on, each behind those that it stands on, and all of them behind those found before."""
    found = [*found]
    for it in named[name]:
        found = found if it in found else below(named, it, found)
    return [*found, name]


class Crate:
    """A crate of the program: its size, and how much of it is done."""

    def __init__(self, top, name, below_it):
        self.name, self.folder, self.below = name, f"{top}/crates/{name}", below_it
        self.functions, self.newest, self.modules = 0, 0, 0
        for path in files(self.folder, "src", "specs", "proofs"):
            self.newest = max(self.newest, os.stat(path).st_mtime)
            if path.endswith(".rt"):
                with open(path, encoding="utf-8") as it:
                    self.functions += len(FUNCTION.findall(it.read()))
        self.newest = max([self.newest, *(it.newest for it in below_it)])
        self.work = self.functions + CRATE + (0 if name != "program" else PROGRAM)
        self.share, self.seconds, self.is_kept, self.is_built, self.is_moving = 0.0, 0.0, False, False, False

    def look(self, proved, kept, apart):
        """Sees how much is done, where `proved` and `kept` are the crates that the build has ended, and `apart` the folder that it
        proves in, if that is not the checkout: there it sees for how many seconds the crate is being proved."""
        stamp, begun = f"{self.folder}/out/rlib/stamp", f"{apart}/crates/{self.name}/out"
        self.is_built = not apart and os.path.exists(stamp) and os.stat(stamp).st_mtime > self.newest
        self.is_kept, self.is_moving, self.seconds = self.name in kept, False, 0.0
        if self.is_built or self.name in proved | kept:
            self.share = 1.0
        elif apart:
            self.is_moving = os.path.isdir(begun)
            self.seconds = max(time.time() - os.stat(begun).st_mtime, 0.1) if self.is_moving else 0.0
        elif all(it.share == 1 for it in self.below):
            before, self.modules = self.modules, modules(self.folder)
            self.is_moving = self.modules != before
            self.share = min(self.modules / (MODULES * (self.functions + CRATE)), MOST)

    def left(self):
        """What is left of its work, in functions."""
        return self.work * (1 - self.share)


class Progress:
    """The progress of a build that proves some crates at a time, and writes what it does into a log."""

    def __init__(self, top, log, jobs):
        named = needs(top)
        self.log, self.jobs, self.crates = log, jobs, {}
        for name in below(named, "program"):
            self.crates[name] = Crate(top, name, [self.crates[it] for it in named[name]])
        self.at, self.first = "a first pass", 0.0
        self.began = self.moved = time.monotonic()
        self.look()
        self.first = self.shown()

    def look(self):
        """Sees how much of each crate is done."""
        try:
            with open(self.log, encoding="utf-8", errors="replace") as it:
                log = it.read()
        except FileNotFoundError:
            log = ""
        apart, proved, kept = APART.match(log), set(PROVED.findall(log)), set(KEPT.findall(log))
        for crate in self.crates.values():
            crate.look(proved, kept, apart and apart[1])
        if not apart and self.shown() == self.first:
            # the first pass of a build in the checkout proves nothing: what a function takes is told by the time behind it
            self.moved = time.monotonic()
        each = self.seconds_each()
        for crate in self.crates.values():
            if crate.seconds:
                crate.share = min(crate.seconds / (each * crate.work), MOST)
        self.at = next((it.name for it in self.crates.values() if it.is_moving), self.at)

    def is_at_last(self):
        """Whether one library at most is left, and is begun: nothing can be proved beside it, and what it keeps spares the next
        command a first pass."""
        self.look()
        left = [it for it in self.crates.values() if not it.is_built]
        return len(left) <= 2 and all(it.modules for it in left[:-1])

    def longest(self):
        """The most work that is left of crates of which each stands on the next, so that they are proved one by one."""

        @lru_cache(None)
        def behind(name):
            crate = self.crates[name]
            return crate.left() + max((behind(it.name) for it in crate.below), default=0)

        return behind("program")

    def shown(self):
        """The work, in functions, that was done in as much time as it takes: neither taken from an earlier build, nor told by time."""
        return sum(it.work - it.left() for it in self.crates.values() if not it.is_kept and not it.seconds)

    def seconds_each(self):
        """The processor seconds that a function takes, by what was done since this began to look."""
        since = time.monotonic() - self.moved
        spent = since * self.jobs - sum(min(it.seconds, since) for it in self.crates.values())
        return (SECONDS * FIRST + max(spent, 0)) / (FIRST + self.shown() - self.first)

    def seconds_left(self):
        """The seconds that are left."""
        return self.seconds_each() * max(sum(it.left() for it in self.crates.values()) / self.jobs, self.longest())

    def text(self):
        """How far the build is, in words."""
        self.look()
        crates = self.crates.values()
        done, whole = sum(int(it.functions * it.share) for it in crates), sum(it.functions for it in crates)
        minutes, left = (time.monotonic() - self.began) / 60, max(self.seconds_left() / 60, 1)
        return f"{done} of {whole} functions, now {self.at}; {minutes:.0f} min, some {left:.0f} left"
