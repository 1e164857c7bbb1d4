"""What the tools share as commands: reading a file or standard input, and ending well."""
from __future__ import annotations

import argparse
import os
import sys
from collections.abc import Callable

from tilebench.faults import TilebenchError


def words_of(name: str, about: str | None) -> argparse.ArgumentParser:
    """The words that a tool takes; `about` is what its --help tells."""
    return argparse.ArgumentParser(prog=name, description=about, formatter_class=argparse.RawDescriptionHelpFormatter)


def read(path: str) -> bytes:
    """The bytes of a file, or of standard input for -."""
    if path == "-":
        return sys.stdin.buffer.read()
    with open(path, "rb") as it:
        return it.read()


def complain(name: str, why: object) -> int:
    """Tells what is amiss, each line with the tool's name in front, and answers the status for it."""
    for line in str(why).splitlines():
        print(f"{name}: {line}", file=sys.stderr)
    return 2


def run(name: str, main: Callable[[], int]) -> None:
    """Runs a tool. It ends quietly where whoever reads its output has enough of it, and with status 2 where something
    is amiss."""
    try:
        status = main()
        sys.stdout.flush()
    except BrokenPipeError:
        os.dup2(os.open(os.devnull, os.O_WRONLY), sys.stdout.fileno())
        status = 141
    except (OSError, TilebenchError) as why:
        status = complain(name, why)
    except KeyboardInterrupt:
        status = 130
    sys.exit(status)
