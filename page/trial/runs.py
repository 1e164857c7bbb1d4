"""Runs of all commands on valid and on broken texts, by the native program and by the page: status, output
and error output must be the same."""
import base64
import hashlib
import json
import os
import random
import shutil
import subprocess
import tempfile

HERE = os.path.dirname(os.path.realpath(__file__))
TOP = os.path.dirname(os.path.dirname(HERE))
READERS = {"machine": "turing", "quadrant": "quadrant", "schedule": "schedule"}
# on each system of examples/
ON_SYSTEMS = (
    ["grow"], ["grow", "--workers", "4", "--choice", "7"], ["grow", "--workers", "16"],
    ["race"], ["race", "--workers", "3", "--choice", "5"],
    ["report"], ["format"], ["upgrade"], ["watch", "--frames", "3", "--workers", "2"],
)
# on a system with its growth behind it
ON_GROWTHS = (["check"], ["replay"], ["picture"], ["report"])
WITHOUT_TEXT = (
    ["counter", "8", "5"], ["counter", "30", "1"], ["counter", "8", "200"], ["load", "7"], ["load", "70"],
    ["nothing"], [], ["grow", "--workers", "17"],
    ["batch"], ["check"], ["certify"], ["verify"], ["race"], ["grow", "--choice"], ["counter", "x"],
)
ON_BROKEN = (["grow"], ["grow", "--choice", "9"], ["report"], ["format"], ["watch"], ["check"], ["certify"])
BROKEN_OF_EACH = 60
WORDS = [b"0", b"1", b"-", b"2", b"9", b"h", b"v", b"99999999999999999999", b"-3", b"1000"]
# what the page answers to a list of runs: for each its status, the checksum of its output, and its error output
ASKED = """(async () => {
  const found = [];
  for (const [words, text] of %s) {
    const input = Uint8Array.from(atob(text), (it) => it.charCodeAt(0));
    const { status, out, err } = await tilebench.run(words, input, { seconds: 120 });
    const sum = new Uint8Array(await crypto.subtle.digest("SHA-256", out));
    const digits = [...sum].map((it) => it.toString(16).padStart(2, "0")).join("");
    found.push([status, digits, new TextDecoder().decode(err)]);
  }
  return found;
})()"""


def read(path):
    with open(path, "rb") as it:
        return it.read()


def examples(ending):
    names = sorted(it for it in os.listdir(f"{TOP}/examples") if it.endswith(ending))
    return [(name, read(f"{TOP}/examples/{name}")) for name in names]


class Native:
    """The native program, which is given no threads where a C compiler is there to take them away."""

    def __init__(self, program):
        self.program, self.environment = program, dict(os.environ)
        self.folder = tempfile.TemporaryDirectory()
        compiler = shutil.which("cc") or shutil.which("clang")
        if compiler:
            made = f"{self.folder.name}/no_thread.so"
            subprocess.run([compiler, "-shared", "-fPIC", "-o", made, f"{HERE}/no_thread.c"], check=True)
            self.environment["LD_PRELOAD"] = made

    def run(self, words, text):
        pipes = {"stdout": subprocess.PIPE, "stderr": subprocess.PIPE, "env": self.environment}
        ran = subprocess.run([self.program, *words], input=text, check=False, **pipes)
        return ran.returncode, ran.stdout, ran.stderr


def broken(text, chance):
    """The text with one to three changes: a line away or twice, a word or a byte replaced."""
    lines = text.split(b"\n")
    for _ in range(chance.randint(1, 3)):
        kind, at = chance.random(), chance.randrange(len(lines))
        if kind < 0.3:
            del lines[at]
            lines = lines or [b""]
        elif kind < 0.5:
            lines.insert(at, chance.choice(lines))
        elif kind < 0.7:
            words = lines[at].split(b" ")
            words[chance.randrange(len(words))] = chance.choice(WORDS)
            lines[at] = b" ".join(words)
        else:
            changed = bytearray(lines[at] or b"x")
            changed[chance.randrange(len(changed))] = chance.randrange(256)
            lines[at] = bytes(changed)
    return b"\n".join(lines)


def on_system(native, name, text):
    """Runs on a system, on its growth, its certificate and its frames, as the native program gives them."""
    for words in ON_SYSTEMS:
        yield name, words, text
    _, grown, _ = native.run(["grow"], text)
    for words in ON_GROWTHS:
        yield f"{name} grown", words, text + grown
    yield f"{name} grown", ["certify"], text + grown
    _, marks, _ = native.run(["certify"], text + grown)
    yield f"{name} marked", ["verify"], text + marks
    yield f"{name} marked", ["verify", "--workers", "4"], text + marks
    _, frames, _ = native.run(["watch", "--frames", "3"], text)
    yield f"{name} watched", ["check"], text + frames


def at_limits():
    """Runs on systems at the limits: a full box of 1024 by 1024, all glues and types that there may be, and 4096 seeds."""
    full = dict(examples(".tiles"))["sierpinski.tiles"]
    full = b"\n".join(b"box 0 0 1023 1023" if it.startswith(b"box ") else it for it in full.split(b"\n"))
    for words in (["grow"], ["report"]):
        yield "a full box", words, full
    many = "tiles 1\ntau 1\n" + "".join(f"glue g{it} 1\n" for it in range(8192))
    many += "".join(f"tile t{it} - g{it % 8192} - g{(it + 8191) % 8192}\n" for it in range(16384))
    many += "box 0 0 1023 0\nseed 0 0 t0\nend\n"
    for words in (["grow"], ["grow", "--choice", "5"], ["format"]):
        yield "all glues and types", words, many.encode()
    seeds = "".join(f"seed {2 * (it % 64)} {2 * (it // 64)} S\n" for it in range(4096))
    seeded = f"tiles 2\ntau 1\nglue a 1\ntile S a a a a\ntile T a a a a\nbox 0 0 127 127\n{seeds}end\n"
    for words in (["grow"], ["race"], ["watch", "--frames", "2"]):
        yield "all seeds", words, seeded.encode()


def all_runs(native):
    """Each run as a name, its words and its input."""
    chance = random.Random(5)
    systems = examples(".tiles")
    for name, text in systems:
        yield from on_system(native, name, text)
    for ending, command in READERS.items():
        for name, text in examples(f".{ending}"):
            yield name, [command], text
            if command == "schedule":
                yield name, [command], dict(systems)["rivals.tiles"] + text
    for words in WITHOUT_TEXT:
        yield "no text", words, b""
    for name, text in examples(""):
        command = READERS.get(name.rpartition(".")[2])
        for _ in range(BROKEN_OF_EACH):
            yield f"{name} broken", [command] if command else chance.choice(ON_BROKEN), broken(text, chance)
    whole = b"".join(text for _, text in systems)
    jobs = b"batch 1\n" + b"".join(b"job %d\n" % at + text for at, (_, text) in enumerate(systems))
    for words in (["batch"], ["batch", "--workers", "4"]):
        yield "all systems", words, whole
        yield "a batch", words, jobs
    yield "all bytes", ["grow"], bytes(range(256))
    yield from at_limits()


def answers_of(page, runs):
    """What the page answers to a list of runs."""
    asked = [[words, base64.b64encode(text).decode()] for _, words, text in runs]
    return page.value(ASKED % json.dumps(asked))


def compare(page, program, tell):
    """Answers how many runs there were, how many of them were refused, and how many differ."""
    native = Native(program)
    runs = list(all_runs(native))
    differ = refused = 0
    for start in range(0, len(runs), 40):
        some = runs[start : start + 40]
        for (name, words, text), (status, total, err) in zip(some, answers_of(page, some)):
            its_status, its_out, its_err = native.run(words, text)
            its = its_status, hashlib.sha256(its_out).hexdigest(), its_err.decode(errors="replace")
            refused += its_status > 1
            if (status, total, err) != its:
                differ += 1
                tell(f"  DIFFERS: {name}, {' '.join(words)}: {status} {err!r}, natively {its_status} {its_err!r}")
    return len(runs), refused, differ
