"""What a first call says on standard error: lines that stay, and at a terminal one that is written anew."""
import os
import subprocess
import sys
import time


class Line:
    """The line of progress. At a terminal it is written anew every few seconds; else it is a new line, once a minute."""

    def __init__(self):
        self.is_open, self.due = False, 0.0

    def show(self, text):
        """Writes the line that `text` makes, if its time has come."""
        now, is_terminal = time.monotonic(), os.isatty(2)
        if now < self.due:
            return
        self.due = now + (2 if is_terminal else 60)
        first, last = ("\r\033[K", " ") if is_terminal else ("", "\n")
        print(f"{first}tilebench: {text()}", end=last, file=sys.stderr, flush=True)
        self.is_open = is_terminal

    def end(self):
        """Lets what follows begin on a line of its own, and the next line of progress come at once."""
        if self.is_open:
            print(file=sys.stderr, flush=True)
        self.is_open, self.due = False, 0.0


line = Line()


def say(text):
    """A line that stays."""
    line.end()
    print(f"tilebench: {text}", file=sys.stderr, flush=True)


def wait_for(process, text, is_enough=lambda: False):
    """The status of a process of this call, once it has ended, with the line of progress that `text` makes meanwhile; 0 where
    `is_enough` says that it need not go on, which ends it. A signal ends the process too."""
    try:
        while True:
            try:
                return process.wait(timeout=1)
            except subprocess.TimeoutExpired:
                line.show(text)
                if is_enough():
                    return 0
    finally:
        # (`rt` then ends all that it started)
        if process.poll() is None:
            process.terminate()
            process.wait()
        line.end()
