"""The native program's answers to each of examples/, as they were stored: what the page says of them with no
kit around.

    page/trial/answers.json     for each example its words, the status, the checksum of the output, and the error output
"""
import hashlib
import json
import os

from trial import runs

PATH = f"{runs.HERE}/answers.json"


def asked():
    """Each of examples/ with the words of its command."""
    for name, text in runs.examples(""):
        yield name, [runs.READERS.get(name.rpartition(".")[2], "grow")], text


def write(program):
    """Stores what a native program answers."""
    native = runs.Native(program)
    rows = []
    for name, words, text in asked():
        status, out, err = native.run(words, text)
        sum_of = hashlib.sha256(out).hexdigest()
        rows.append({"name": name, "words": words, "status": status, "out": sum_of, "err": err.decode()})
    with open(PATH, "w", encoding="utf-8") as it:
        it.write("[\n" + ",\n".join(json.dumps(row) for row in rows) + "\n]\n")


def differing(page):
    """The names of the examples to which the page gives another answer than the stored one."""
    with open(PATH, encoding="utf-8") as it:
        stored = {row["name"]: row for row in json.load(it)}
    texts = list(asked())
    found = []
    for (name, _, _), (status, out, err) in zip(texts, runs.answers_of(page, texts)):
        row = stored.get(name, {})
        if (row.get("status"), row.get("out"), row.get("err")) != (status, out, err):
            found.append(name)
    return found + sorted(set(stored) - {name for name, _, _ in texts})


def is_there():
    return os.path.exists(PATH)
