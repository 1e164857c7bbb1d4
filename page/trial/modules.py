"""Modules in place of the program's, written byte by byte, that end badly: so the page is tried with what the
program never does.

Each answers at once where the second word is there (as in the first run of each worker), and else does what
its name says.
"""
import os
import tempfile

import bundle

I64, I32 = 0x7E, 0x7F
ENDINGS = {
    "trap": [0x00],
    # loop, branch to its start, end
    "loop": [0x03, 0x40, 0x0C, 0, 0x0B],
    # 6: no memory
    "no memory": [0x41, 6, 0x0F],
}


def vector(items):
    return [len(items), *(byte for item in items for byte in item)]


def section(number, content):
    return [number, len(content), *content]


def name(text):
    return [len(text), *text.encode()]


def ending_by(kind):
    """The module: it asks for its second word, and goes on where there is none (-1)."""
    asked = [0x42, 2, 0x42, 0, 0x42, 0x3F, 0x10, 0]
    body = [*asked, 0x42, 0x7F, 0x51, 0x04, 0x40, *ENDINGS[kind], 0x0B, 0x41, 0, 0x0B]
    sections = [
        section(1, vector([[0x60, 3, I64, I64, I64, 1, I64], [0x60, 0, 1, I32]])),
        section(2, vector([[*name("host"), *name("arg"), 0, 0]])),
        section(3, vector([[1]])),
        # (a memory of one page, with 64-bit addresses)
        section(5, vector([[4, 1]])),
        section(7, vector([[*name("memory"), 2, 0], [*name("run"), 0, 1]])),
        section(10, vector([[len(body) + 1, 0, *body]])),
    ]
    return bytes([0, *b"asm", 1, 0, 0, 0, *(byte for it in sections for byte in it)])


def page_with(module):
    """The address of a page with a module in place of the program's."""
    handle, path = tempfile.mkstemp(suffix=".html")
    with os.fdopen(handle, "w", encoding="utf-8") as it:
        it.write(bundle.page(module, "0" * 64))
    return f"file://{path}"
