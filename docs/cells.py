"""Runs the cells of a document as a notebook does: its blocks ```python, one after the other, each with its block
```shows."""
import json
import os
import re
import subprocess
import sys

from repository import TOP

CELL = re.compile(r"^```python\n(.*?)^```\n(?:\n```shows\n(.*?)^```\n)?", re.M | re.S)
# Runs cells that it is handed, and answers what each shows: what it prints, and the value of its last line, or its
# error.
RUNNER = """
import ast, contextlib, io, json, sys
shown, names = [], {"__name__": "__main__"}
for cell in json.load(sys.stdin):
    tree, out = ast.parse(cell), io.StringIO()
    last = tree.body.pop() if tree.body and isinstance(tree.body[-1], ast.Expr) else None
    with contextlib.redirect_stdout(out):
        try:
            exec(compile(tree, "cell", "exec"), names)
            value = None if last is None else eval(compile(ast.Expression(last.value), "cell", "eval"), names)
            if value is not None:
                print(repr(value))
        except Exception as why:
            print(f"{type(why).__name__}: {why}")
    shown.append(out.getvalue())
json.dump(shown, sys.stdout)
"""


def shown(cells, folder, program):
    """What each cell shows."""
    way = dict(os.environ, PYTHONPATH=f"{TOP}/python", PYTHONDONTWRITEBYTECODE="1", TILEBENCH=program)
    ran = subprocess.run(
        [sys.executable, "-c", RUNNER],
        input=json.dumps(cells).encode(),
        stdout=subprocess.PIPE,
        check=True,
        cwd=folder,
        env=way,
    )
    return json.loads(ran.stdout)


def tried(text, folder, program):
    """The text as it should stand, how many cells it has, and what differs."""
    cells = CELL.findall(text)
    came = iter(shown([code for code, _ in cells], folder, program) if cells else ())
    told = []

    def cell(found):
        code, stands, comes = found[1], found[2] or "", next(came)
        if stands != comes:
            told.append(f"{code}  stands: {stands!r}\n  comes:  {comes!r}")
        return f"```python\n{code}```\n" + (f"\n```shows\n{comes}```\n" if comes else "")

    return CELL.sub(cell, text), len(cells), told
