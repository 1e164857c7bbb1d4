"""The program itself: where it is, and what it answers to words and an input."""
from __future__ import annotations

import functools
import os
import shutil
import subprocess
from collections.abc import Iterable, Iterator
from threading import Thread
from typing import IO

from tilebench.faults import NoProgram, ProgramFailed, Refused

SINGLE = b"tiles 1\ntau 1\ntile S - - - -\nbox 0 0 0 0\nseed 0 0 S\nend\n"
# where a checkout has the program that its command builds
BUILT = "crates/program/out/program"


def path() -> str:
    """The program: TILEBENCH, or the one beside this checkout (or beside the tools where they are installed), or the
    one in PATH."""
    named = os.environ.get("TILEBENCH")
    if named:
        return named
    beside = os.path.join(os.path.dirname(os.path.dirname(os.path.dirname(os.path.realpath(__file__)))), "tilebench")
    if os.path.isfile(beside):
        return beside
    found = shutil.which("tilebench")
    if found is None:
        raise NoProgram("the program is not found: name it by the variable TILEBENCH, or install it by ./install")
    return found


@functools.lru_cache(None)
def require(program: str) -> str:
    """Sees that the program grows a system, and raises NoProgram where it does not. One that is to be built first is
    built here, and says so in the terminal; where a signal ends this process, the build ends too. Answers what is to be
    run from then on: behind the command of a checkout the program that it has built."""
    try:
        # (an answer of the unproved program, by a trial, would not do)
        way = dict(os.environ, TILEBENCH_TRIAL="0")
        ran = subprocess.Popen([program, "grow"], stdin=subprocess.PIPE, stdout=subprocess.DEVNULL, env=way)
    except OSError as why:
        raise NoProgram(f"{program}: {why.strerror}") from None
    try:
        ran.communicate(SINGLE)
    finally:
        if ran.poll() is None:
            ran.terminate()
            ran.wait()
    if ran.returncode:
        raise NoProgram(f"{program} doesn't grow a tile set")
    built = f"{os.path.dirname(program)}/{BUILT}"
    return built if os.access(built, os.X_OK) else program


def asked(words: Iterable[object], given: str | bytes = b"") -> subprocess.CompletedProcess[bytes]:
    """What the program answers: its status and both outputs, whatever they are."""
    return subprocess.run(
        [require(path()), *map(str, words)],
        input=given.encode() if isinstance(given, str) else given,
        capture_output=True,
        check=False,
    )


def raised(words: list[str], given: str | bytes, status: int, err: bytes) -> Exception:
    """What is to be raised of a status that is no answer."""
    said = err.decode(errors="replace").split()
    text = given if isinstance(given, str) else given.decode(errors="replace")
    if status == 2 and len(said) == 3:
        return Refused(said[2], command=words[0])
    if status == 3 and len(said) == 5:
        return Refused(said[4], int(said[3]), text=text, command=words[0])
    return ProgramFailed(status, " ".join(said))


def answer(words: Iterable[object], given: str | bytes = b"") -> tuple[bool, bytes]:
    """Any command by its words, as `["grow", "--choice", 7]`, on an input: whether its answer is a yes, and the answer.
    A refusal is raised as `Refused`, a status that is no answer as `ProgramFailed`."""
    told = [*map(str, words)]
    ran = asked(told, given)
    if ran.returncode not in (0, 1):
        raise raised(told, given, ran.returncode, ran.stderr)
    return ran.returncode == 0, ran.stdout


def answered_lines(words: Iterable[object], given: str) -> Iterator[bytes]:
    """The lines of an answer as they come, each with its end; where the program fails, what is to be raised."""
    program, told, pipe = require(path()), [*map(str, words)], subprocess.PIPE
    with subprocess.Popen([program, *told], stdin=pipe, stdout=pipe, stderr=pipe) as ran:
        assert ran.stdin is not None and ran.stdout is not None and ran.stderr is not None
        writer = Thread(target=hand_in, args=(ran.stdin, given.encode()), daemon=True)
        writer.start()
        try:
            yield from ran.stdout
            err = ran.stderr.read()
        finally:
            ran.kill()
            writer.join()
        if ran.wait() not in (0, 1):
            raise raised(told, given, ran.returncode, err)


def hand_in(pipe: IO[bytes], text: bytes) -> None:
    """Writes the whole input, as far as the program reads it."""
    try:
        with pipe:
            pipe.write(text)
    except BrokenPipeError:
        pass
