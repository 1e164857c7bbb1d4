"""tools/live, begun for a check with a file of its own."""
import contextlib
import http.client
import os
import signal
import subprocess
import tempfile
import urllib.parse

from trial import runs

PROGRAM = os.environ.get("TILEBENCH", f"{runs.TOP}/crates/program/out/program")


class Served:
    """A running tools/live: its address, its file, and what is asked of it without a browser."""

    def __init__(self, path, program):
        self.path = path
        environment = {**os.environ, "TILEBENCH": program}
        self.server = subprocess.Popen([f"{runs.TOP}/tools/live", path], stdout=subprocess.PIPE, env=environment)
        self.address = self.server.stdout.readline().decode().strip()
        self.parts = urllib.parse.urlsplit(self.address)

    def connect(self):
        return http.client.HTTPConnection(self.parts.hostname, self.parts.port, timeout=10)

    def ask(self, method, rest, body=None, **headers):
        """The status of an answer, its headers and its bytes."""
        way = self.connect()
        path = rest if rest.startswith("/") else self.parts.path + rest
        way.request(method, path, body, {name.replace("_", "-"): value for name, value in headers.items()})
        came = way.getresponse()
        answer = came.status, came.headers, came.read()
        way.close()
        return answer

    def end(self):
        """Ends it as Ctrl-C does: its status."""
        if self.server.poll() is None:
            self.server.send_signal(signal.SIGINT)
        return self.server.wait(5)


@contextlib.contextmanager
def served(text, program=PROGRAM):
    """tools/live with a text in its file, until the check is over."""
    with tempfile.TemporaryDirectory() as folder:
        path = f"{folder}/edited.tiles"
        with open(path, "w", encoding="utf-8") as it:
            it.write(text)
        running = Served(path, program)
        try:
            yield running
        finally:
            running.end()


@contextlib.contextmanager
def script(text):
    """A program that is a shell script. (The first time, as the tool sees whether it is there, it ends well.)"""
    with tempfile.TemporaryDirectory() as folder:
        path = f"{folder}/program"
        with open(path, "w", encoding="utf-8") as it:
            it.write(f"#!/bin/sh\n[ -e {folder}/known ] || {{ : >{folder}/known; exit 0; }}\n{text}\n")
        os.chmod(path, 0o755)
        yield path
