"""The proof and the build of the program by `rt`, by one call at a time."""
import fcntl
import os
import re
import subprocess
import sys
import tempfile
import time
from typing import NamedTuple

import apart
from progress import APART, Progress
from talk import line, say, wait_for

# what the check of a crate takes of memory, in KiB
EACH = 1_700_000
# what rt says of a crate that failed, and of one above it
LACKING = re.compile(r"^rt: \w+ NOT PROVED: its library .*\n", re.M)
FAILED = re.compile(r"^(?:rt: )?(\w+)(?:: failed \(-?\d+\)| NOT PROVED)$", re.M)


class Owner(NamedTuple):
    """The call that builds, and how many crates it proves at a time."""

    process: int
    jobs: int


def number_in(path, pattern):
    """A number that stands in a file of the system; None where there is none."""
    try:
        with open(path, encoding="utf-8") as it:
            found = re.search(pattern, it.read(), re.M)
    except OSError:
        return None
    return int(found[1]) if found else None


def jobs():
    """How many crates to prove at a time: as many as there are processors, and memory for."""
    free = [number_in("/proc/meminfo", r"^MemAvailable: +(\d+)") or 0]
    most, held = number_in("/sys/fs/cgroup/memory.max", r"^(\d+)"), number_in("/sys/fs/cgroup/memory.stat", r"^anon (\d+)")
    if most is not None and held is not None:
        free.append((most - held) // 1024)
    return max(1, min(len(os.sched_getaffinity(0)), min(free) // EACH))


class Building:
    """The build of a checkout's program."""

    def __init__(self, top):
        self.top, self.crate = top, f"{top}/crates/program"
        self.program, self.kept = f"{self.crate}/out/program", f"{top}/out/first_call"
        self.log, self.lock = f"{self.kept}/log", None

    def begin(self):
        """Takes the build over. Answers whether no other call has it."""
        os.makedirs(self.kept, exist_ok=True)
        self.lock = open(f"{self.kept}/owner", "a+", encoding="utf-8")
        try:
            fcntl.flock(self.lock, fcntl.LOCK_EX | fcntl.LOCK_NB)
        except BlockingIOError:
            return False
        self.own()
        return True

    def own(self):
        """Writes down that this call builds."""
        self.lock.truncate(0)
        self.lock.write(f"{os.getpid()} {jobs()}\n")
        self.lock.flush()

    def owner(self):
        """The call that builds."""
        self.lock.seek(0)
        words = self.lock.read().split()
        return Owner(*map(int, words)) if len(words) == 2 else Owner(0, 1)

    def wait(self):
        """Waits until the call that builds has ended, and takes the build over."""
        owner = self.owner()
        say(f"another call (process {owner.process}) is proving and building the program; waiting for it")
        progress = Progress(self.top, self.log, owner.jobs)
        while True:
            try:
                fcntl.flock(self.lock, fcntl.LOCK_EX | fcntl.LOCK_NB)
                break
            except BlockingIOError:
                line.show(progress.text)
                time.sleep(1)
        line.end()
        self.own()

    def is_built(self):
        """Whether the program is there and no source is newer, as ./tilebench tells it."""
        return not subprocess.run([f"{self.top}/tilebench", "--is-built"], check=False).returncode

    def build(self):
        """Proves the program and all below it, builds it and runs it once. Answers whether all went well."""
        say("proving and building the program. Ctrl-C ends it: what was proved stays, and the next call goes on there")
        began = time.time()
        # where a developer's checks have left their work, it spares more than a folder apart does
        is_apart = not apart.has_checks(self.top) and apart.is_kept() and apart.runs_as_nobody()
        if not (self.build_apart if is_apart else self.build_here)(began):
            self.tell_failure()
            return False
        say("the program is proved and built. Calls start at once from now on")
        return True

    def build_apart(self, began):
        """Builds in a folder apart, with what earlier builds and gates on this machine have passed. Answers whether all went well."""
        folder = tempfile.mkdtemp(prefix="tilebench-")
        try:
            self.begin_log(f"tilebench proves in {folder}\n")
            apart.lay(self.top, folder)
            progress = Progress(self.top, self.log, self.owner().jobs)
            if self.step(["ci"], folder, progress):
                return False
            apart.hand_over(folder, self.top, began)
            return True
        finally:
            apart.remove(folder)

    def build_here(self, began):
        """Builds in the checkout, with what checks in it have kept. Answers whether all went well."""
        self.begin_log("")
        at_once = self.owner().jobs
        progress = Progress(self.top, self.log, at_once)
        # `rt all` proves some crates at a time, each by one process; `rt run` proves one at a time, by as many as it gains from
        many = ["all", "check", "--jobs", str(at_once)], progress.is_at_last
        last = ["run", "--", "grow"], lambda: False
        for words, is_enough in [last] if progress.is_at_last() else [many, last]:
            if self.step(words, self.crate, progress, is_enough):
                return False
        # a source that was written meanwhile is newer
        os.utime(self.program, (began, began))
        return True

    def begin_log(self, text):
        """Begins the log of a build."""
        with open(self.log, "w", encoding="utf-8") as it:
            it.write(text)

    def step(self, words, folder, progress, is_enough=lambda: False):
        """The status of a command of rt, which goes on until it ends or is enough."""
        with open(f"{self.top}/examples/single.tiles", "rb") as single, open(self.log, "ab") as log:
            streams = {"stdin": single, "stdout": subprocess.DEVNULL if words[0] == "run" else log, "stderr": log}
            ran = subprocess.Popen(["rt", *words], cwd=folder, **streams)
            return wait_for(ran, progress.text, is_enough)

    def tell_failure(self):
        """Says what failed, by the log: the end of what was said of each crate that failed, or of all."""
        with open(self.log, encoding="utf-8", errors="replace") as it:
            said = re.sub(LACKING, "", it.read())
        found = APART.match(said)
        said = said.replace(found[1], self.top) if found else said
        parts = dict(re.findall(r"^== (\w+)\n((?:(?!== ).*\n)*)", said, re.M))
        for name in [it for it in FAILED.findall(said) if it in parts] or [""]:
            text = parts.get(name, said)
            print(*[f"== {name}"] * bool(name), *text.splitlines()[-30:], sep="\n", file=sys.stderr)
        say(f"the build failed; its log is {self.log}")
