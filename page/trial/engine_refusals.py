"""Checks that the page puts a refusal into the words of tools/explain."""
import base64
import json
import random

from tilebench import refusals
from trial import runs
from trial.check import check

OF_EACH = 25
COMMANDS = {"machine": "turing", "quadrant": "quadrant"}
# texts with mistakes that a person makes, beside those of chance
MISTAKEN = (
    ("glue a 2", "gleu a 2"), ("tile S", "tile S S"), ("seed 0 0 S", "seed 0 0 s"), ("tau 2", "tau two"),
    ("tau 2", "tau\t2"), ("tau 2", "tau 2\r"), ("tiles 1", "tiles 3"), ("tiles 1", "\ufefftiles 1"),
    ("tiles 1\n", ""), ("end\n", ""), ("end\n", "end"), ("end\n", "end\nmore\n"), ("tile B", "Tile B"),
    ("box 0 0 2 0", "box 2 0 0 0"), ("box 0 0 2 0", "box 0 0 2000 0"), ("seed 0 0 S", "seed 9 9 S"),
    ("tile C - - - b", "tile C - - - c"), ("tile C - - - b", "tile C 0 - - b"), ("tile S - a - -", "tile S - -1 - -"),
    ("glue b 2", "glue b 251"), ("glue b 2", "glue a 2"), ("glue b 2", "glue b\u20132"), ("glue b 2", "pair a b 1"),
    ("glue b 2", "glue b\u00a02"), ("glue b 2", "glue -3 2"), ("glue b 2", "glue b 99999999999"),
    ("seed 0 0 S", "seed 0 0 S\nseed 1 0 S"), ("tau 2", "tau 2 # two"), ("tau 2", "tau 0"),
    ("tile S", "tile " + "S" * 41),
)
ASKED = """(async () => {
  const found = [];
  for (const [command, text] of %s) {
    const bytes = Uint8Array.from(atob(text), (it) => it.charCodeAt(0));
    const { err } = await tilebench.run([command], bytes);
    const told = /^refused text line (\\d+) (\\w+)\\s*$/.exec(new TextDecoder().decode(err));
    const line = Number(told?.[1]);
    found.push(told ? [line, told[2], tilebench.page.reasons(bytes, line, told[2], command)] : null);
  }
  return found;
})()"""


def differing(page, texts):
    """How many of the texts are refused, and those of which the page says something else than tools/explain."""
    asked = [[command, base64.b64encode(text).decode()] for command, text in texts]
    refused, found = 0, []
    for (command, text), told in zip(texts, page.value(ASKED % json.dumps(asked))):
        if told:
            refused += 1
            line, cause, lines = told
            wanted = list(refusals.reasons(text, line, cause, command))
            if wanted != lines:
                found.append((cause, wanted, lines))
    return refused, found


@check("a refusal of a person's mistake is told in the words of tools/explain")
def mistaken(page):
    chain = runs.read(f"{runs.TOP}/examples/chain.tiles").decode()
    texts = [("grow", chain.replace(old, new, 1).encode()) for old, new in MISTAKEN]
    refused, found = differing(page, texts)
    assert refused > 20 and not found, (refused, found[:2])


@check("refusals of hundreds of broken texts are told in the words of tools/explain")
def by_chance(page):
    chance = random.Random(11)
    texts = []
    for name, text in runs.examples(""):
        command = COMMANDS.get(name.rpartition(".")[2], "grow")
        texts += [(command, runs.broken(text, chance)) for _ in range(OF_EACH)]
    refused, found = differing(page, texts)
    assert refused > 150 and not found, (refused, len(found), found[:2])
