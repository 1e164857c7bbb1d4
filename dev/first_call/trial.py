"""The trial of a first call: `rt try` compiles the program without proof and runs it with checks, twice where it can.

It has the program's output, up to a megabyte, on its standard output. On standard error come the program's error output and
a report, whose last line is `run=ended status=N .. proved=no` where the program ended of itself, and else says why not.
"""
import os
import re
import runpy
import shutil
import subprocess
import tempfile
import time

from talk import say, wait_for

# the end of a report with an answer: at a higher status the trial lacked memory, or could not read or write
ANSWERED = re.compile(rb"^run=ended status=([0-3]) .*proved=no\n\Z", re.M)
REPORT = (b"run=", b"checked:", b"interpreter:", b"races:")
# what the report says of the run with checks: the kind of its end, and why
CHECKED = re.compile(rb"^checked: (?:no-answer: )?(.*)$", re.M)
# rt takes an input that is shorter, in bytes
MOST = 64 << 20


class Input:
    """The standard input of a call, which a trial and then the program may read."""

    def __init__(self, top, words):
        readers = runpy.run_path(f"{top}/python/tilebench/commands.py")["READERS"]
        self.is_read, self.file = bool(words) and words[0] in readers, None

    def keep(self):
        """Takes the whole input into a file. Answers whether a trial can have it."""
        if not self.is_read:
            return True
        kept = tempfile.TemporaryFile()
        try:
            with open(0, "rb", closefd=False) as given:
                shutil.copyfileobj(given, kept)
        except OSError:
            # the program tells what can't be read
            return False
        self.file = kept
        kept.flush()
        return kept.tell() < MOST

    def rewind(self):
        """Makes the standard input the whole input again."""
        if self.file:
            os.dup2(self.file.fileno(), 0)
            os.lseek(0, 0, os.SEEK_SET)


def tried(top, words, given):
    """What a trial prints on both outputs, and its status."""
    began = time.monotonic()
    with tempfile.TemporaryFile() as out, tempfile.TemporaryFile() as err:
        given.rewind()
        how = {"cwd": f"{top}/crates/program", "stdin": None if given.file else subprocess.DEVNULL}
        ran = subprocess.Popen(["rt", "try", "--", *words], stdout=out, stderr=err, **how)
        status = wait_for(ran, lambda: f"the trial is compiled and run; {time.monotonic() - began:.0f} s")
        out.seek(0)
        err.seek(0)
        return out.read(), err.read(), status


def write(number, text):
    """Writes to an output. Answers whether all of it could be written."""
    try:
        with open(number, "wb", closefd=False) as it:
            it.write(text)
        return True
    except OSError:
        return False


def close_output():
    """Ends the standard output, so that who reads it need not wait for the build."""
    with open(os.devnull, "wb") as none:
        os.dup2(none.fileno(), 1)


def answer(top, words, given):
    """The status of a trial's answer, which is printed then; None where it gives none."""
    if not given.keep():
        say("the input is not one for a trial; the proved program will answer")
        return None
    say("no program is built of these sources. A trial answers first, of the program as it is compiled without proof")
    out, err, status = tried(top, words, given)
    found = ANSWERED.search(err)
    lines = err.splitlines(keepends=True)
    if not found or status != int(found[1]):
        why = CHECKED.search(b"".join(lines[-4:]))
        told = why[1].decode(errors="replace") if why else f"status {status}"
        say(f"the trial gives no answer ({told}); the proved program will answer")
        return None
    is_written = write(1, out) and write(2, b"".join(it for it in lines if not it.startswith(REPORT)))
    close_output()
    say("this answer is a trial's: of the unproved program, with checks as it ran")
    if not is_written:
        say("not all of it could be written")
    return status if is_written else 5
