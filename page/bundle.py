#!/usr/bin/env python3
"""Bundles the page into one HTML file: its document, its style, its modules and the program's, with nothing
that is fetched.

    page/bundle.py --of tilebench.html OUT.html    with the program of a page that was made before
    page/bundle.py --module FILE OUT.html          with a program of unknown sources, of which the page tells nothing
    page/bundle.py OUT.html                        without a program: the page draws what it is given

A module of the page imports by `import { a, b as c } from "./file.js";` and exports functions, classes and
constants that are never assigned again. Each becomes a function that is called once, in the order of what
they import.
"""
import argparse
import base64
import gzip
import hashlib
import html
import json
import os
import re
import sys

sys.dont_write_bytecode = True
PAGE = os.path.dirname(os.path.realpath(__file__))
TOP = os.path.dirname(PAGE)
sys.path[:0] = [PAGE, f"{TOP}/python"]
import sources
from tilebench import refusals

IMPORT = re.compile(r'^import \{([^}]*)\} from "([^"]+)";\n', re.M)
EXPORT = re.compile(r"^export ((?:async )?function\*?|class|const) (\w+)", re.M)
EXPORT_LIST = re.compile(r"^export \{([^}]*)\};\n", re.M)
UNREAD = re.compile(r"^(?:import|export)\b.*", re.M)
GENERATED = os.path.join(PAGE, "generated.js")
MARKS = ("<!-- policy -->", "<!-- style -->", "<!-- script -->")


def read(path):
    with open(path, encoding="utf-8") as it:
        return it.read()


class Bundle:
    """The modules that an entry needs, each after those that it imports."""

    def __init__(self, entry, generated):
        self.generated, self.parts, self.open = generated, {}, []
        self.take(os.path.realpath(entry))

    def take(self, path):
        """The name of the module in a file, which is put behind what it imports."""
        name = "$" + re.sub(r"\W", "_", os.path.relpath(path, PAGE).removesuffix(".js"))
        if path in self.open:
            raise ValueError(f"{os.path.relpath(path, TOP)} imports itself, by way of others")
        if path not in self.parts:
            self.open.append(path)
            part = self.part(path, name)
            self.open.pop()
            self.parts[path] = part
        return name

    def part(self, path, name):
        """The text of a module as a function that is called once."""
        text = self.generated if path == GENERATED else read(path)
        exported = [it[2] for it in EXPORT.finditer(text)]
        exported += [it.strip() for found in EXPORT_LIST.finditer(text) for it in found[1].split(",") if it.strip()]
        body = EXPORT_LIST.sub("", IMPORT.sub(lambda it: self.imported(path, it), text))
        body = EXPORT.sub(r"\1 \2", body)
        unread = UNREAD.search(body)
        if unread:
            raise ValueError(f"{os.path.relpath(path, TOP)}: {unread[0]}")
        where = os.path.relpath(path, TOP)
        return f"// {where}\nconst {name} = (() => {{\n{body}return {{ {', '.join(exported)} }};\n}})();\n"

    def imported(self, path, statement):
        """The line that stands in place of an import."""
        name = self.take(os.path.normpath(os.path.join(os.path.dirname(path), statement[2])))
        names = ", ".join(it.strip().replace(" as ", ": ") for it in statement[1].split(",") if it.strip())
        return f"const {{ {names} }} = {name};\n"

    def text(self):
        return '"use strict";\n' + "".join(self.parts.values())


def line_of(text):
    """The first sentence of the first remark of a text, or nothing."""
    found = re.search(r"^# (.*\n(?:# .*\n)*)", text, re.M)
    words = " ".join(found[1].replace("\n# ", " ").split()) if found else ""
    return re.split(r"(?<=[^.])[.:](?: |$)", words)[0]


def examples():
    """All of examples/, in the order of their names."""
    names = sorted(os.listdir(f"{TOP}/examples"))
    texts = {name: read(f"{TOP}/examples/{name}") for name in names}
    return [{"name": name, "kind": name.rpartition(".")[2], "line": line_of(text), "text": text}
            for name, text in texts.items()]


def tables_of_refusals():
    """What python/tilebench/refusals.py knows of refusals: its constant tables."""
    found = {name: value for name, value in vars(refusals).items() if name.isupper() and isinstance(value, dict)}
    kinds = {name: vars(kind) for name, kind in {**refusals.KINDS, "system": refusals.SYSTEM}.items()}
    return {**found, "KINDS": kinds}


def generated(module, crates):
    """The text of the module generated.js: what the page has of files that stand elsewhere."""
    state = {"crates": crates, "module": hashlib.sha256(module).hexdigest() if module else "", "bytes": len(module)}
    values = {"EXAMPLES": examples(), "REFUSALS": tables_of_refusals(), "STATE": state}
    lines = [f"export const {name} = {json.dumps(value)};\n" for name, value in values.items()]
    return "".join(lines).replace("<", "\\u003c")


def hash_of(text):
    return f"'sha256-{base64.b64encode(hashlib.sha256(text.encode()).digest()).decode()}'"


def policy(script, style, is_live):
    """What the page may do: run its own script and style, a worker out of its own text, and ask nobody but
    tools/live."""
    allowed = {
        "default-src": "'none'",
        "script-src": f"{hash_of(script)} 'wasm-unsafe-eval'",
        "style-src": hash_of(style),
        "worker-src": "blob:",
        "img-src": "data: blob:",
        "connect-src": "'self'" if is_live else "'none'",
        "base-uri": "'none'",
        "form-action": "'none'",
        "require-trusted-types-for": "'script'",
        "trusted-types": "tilebench",
    }
    return "; ".join(f"{name} {value}" for name, value in allowed.items())


def data_block(name, text):
    """A text that the script reads and nothing runs."""
    return f'<script type="text/plain" id="{name}">{text}</script>\n'


def packed(module):
    return base64.b64encode(gzip.compress(module, 9, mtime=0)).decode()


def taken_from(text):
    """The module and the checksum of the crates in a page that was made."""
    block = re.search(r'<script type="text/plain" id="tilebench-module">([^<]*)</script>', text)
    crates = re.search(r'<meta name="tilebench-crates" content="([0-9a-f]*)">', text)
    if not block or not crates:
        raise ValueError("this is no page that was made here")
    return gzip.decompress(base64.b64decode(block[1])) if block[1] else b"", crates[1]


def behind(text):
    """What a page that was made is behind, seen without a build."""
    module, crates = taken_from(text)
    told = [] if crates == sources.checksum() else ["tilebench.html is behind crates/: page/make"]
    # (another version of zlib packs the module otherwise)
    without = re.compile(r'(?<=id="tilebench-module">)[^<]*')
    if without.sub("", page(module, crates)) != without.sub("", text):
        again = "page/bundle.py --of tilebench.html tilebench.html"
        told.append(f"tilebench.html is behind page/, examples/ or refusals.py: {again}")
    return told


def scripts(made):
    """The page's script, and its worker's."""
    return [Bundle(f"{PAGE}/{entry}", made).text() for entry in ("src/main.js", "engine/worker.js")]


def page(module=b"", crates="", live=None, changed=str):
    """The whole page. `module` is the program as WebAssembly, made of crates with that checksum; `live` has
    the address and the file's name behind tools/live. (`changed` is what a check makes of the scripts.)"""
    script, worker = map(changed, scripts(generated(module, crates)))
    style = "\n" + read(f"{PAGE}/src/style.css")
    for text in (script, worker, style):
        if re.search(r"</(?:script|style)|<!--", text):
            raise ValueError("a source has </script, </style or <!--")
    head = f'<meta http-equiv="Content-Security-Policy" content="{policy(script, style, live is not None)}">\n'
    head += f'<meta name="tilebench-crates" content="{crates}">'
    blocks = data_block("tilebench-worker", worker) + data_block("tilebench-module", packed(module) if module else "")
    text = read(f"{PAGE}/src/page.html")
    for mark, part in zip(MARKS, (head, f"<style>{style}</style>", f"{blocks}<script>{script}</script>")):
        if text.count(mark) != 1:
            raise ValueError(f"page.html has {mark} {text.count(mark)} times")
        text = text.replace(mark, part)
    if live:
        address, name = map(html.escape, live)
        text = text.replace('<html lang="en">', f'<html lang="en" data-live="{address}" data-file="{name}">', 1)
    return text


def main():
    plain = argparse.RawDescriptionHelpFormatter
    words = argparse.ArgumentParser(prog="bundle", description=__doc__, formatter_class=plain)
    words.add_argument("--module", metavar="FILE")
    words.add_argument("--of", metavar="PAGE")
    words.add_argument("out", metavar="OUT.html")
    asked = words.parse_args()
    try:
        module, crates = taken_from(read(asked.of)) if asked.of else (b"", "")
        if asked.module:
            with open(asked.module, "rb") as it:
                module = it.read()
        text = page(module, crates)
        with open(asked.out, "w", encoding="utf-8") as it:
            it.write(text)
    except (OSError, ValueError) as why:
        print(f"bundle: {why}", file=sys.stderr)
        return 2
    return 0


if __name__ == "__main__":
    sys.exit(main())
