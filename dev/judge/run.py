"""Runs of the program, as a process for each question."""
import os
import select
import signal
import sys
import threading
import time


class Came:
    """What came of a run: the status (less than 0 for a signal), both outputs, and how much of the input was taken."""

    def __init__(self, status, out, err, taken):
        self.status, self.out, self.err, self.taken = status, out, err, taken


class Hang(Exception):
    """The program did not end in time: it had more seconds of a processor than it may take, or thirty times as many by
    the clock."""


class Program:
    """The built program, run as a process for each question."""

    def __init__(self, path, patience=10):
        self.path, self.patience, self.environment = path, patience, dict(os.environ)
        self.given, self.out, self.err = (os.memfd_create(it) for it in ("given", "out", "err"))
        signal.signal(signal.SIGPIPE, signal.SIG_IGN)

    def spawned(self, words, streams):
        """Runs it with these words and streams, and waits for it."""
        moves = [(os.POSIX_SPAWN_DUP2, stream, at) for at, stream in enumerate(streams)]
        process = os.posix_spawn(
            self.path, [self.path, *words], self.environment, file_actions=moves, setsigdef=[signal.SIGPIPE]
        )
        watch, is_done = os.pidfd_open(process), False
        for _ in range(30):
            is_done = bool(select.select([watch], [], [], self.patience)[0])
            # (on a machine that has much else to do it may have to wait for its turn)
            if is_done or seconds_of(process) > self.patience:
                break
        os.close(watch)
        if not is_done:
            os.kill(process, signal.SIGKILL)
        status = os.waitpid(process, 0)[1]
        if not is_done:
            raise Hang
        return os.waitstatus_to_exitcode(status)

    def ask_in_pieces(self, words, pieces):
        """What comes where the input comes through a pipe, piece by piece."""
        end, other = os.pipe()

        def write():
            try:
                for it in pieces:
                    os.write(other, it)
                    time.sleep(0.0005)
            except BrokenPipeError:
                pass
            os.close(other)

        writer = threading.Thread(target=write)
        writer.start()
        try:
            return self.ask(words, b"", given=end)
        finally:
            os.close(end)
            writer.join()

    def ask(self, words, text, given=None, out=None, err=None):
        """What comes to words and an input. Other streams may stand in place of its own."""
        for it in (self.given, self.out, self.err):
            os.ftruncate(it, 0)
            os.lseek(it, 0, os.SEEK_SET)
        at = 0
        while at < len(text):
            at += os.pwrite(self.given, text[at:], at)
        streams = [
            self.given if given is None else given,
            self.out if out is None else out,
            self.err if err is None else err,
        ]
        status = self.spawned(words, streams)
        outputs = [os.pread(it, os.fstat(it).st_size, 0) for it in (self.out, self.err)]
        return Came(status, *outputs, os.lseek(self.given, 0, os.SEEK_CUR))


def seconds_of(process):
    """How many seconds of a processor a process has had."""
    with open(f"/proc/{process}/stat", "rb") as it:
        fields = it.read().rpartition(b")")[2].split()
    return (int(fields[11]) + int(fields[12])) / os.sysconf("SC_CLK_TCK")


def built(path):
    """The program itself: where `path` is the script `tilebench`, what that builds."""
    if os.path.basename(path) != "tilebench" or not os.path.exists(f"{os.path.dirname(path)}/crates/program"):
        return path
    program = f"{os.path.dirname(os.path.realpath(path))}/crates/program/out/program"
    if not os.path.exists(program):
        sys.exit(f"{program} is not built; ./tilebench builds it")
    return program
