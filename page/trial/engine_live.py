"""Checks of tools/live: the page with the file on disk in its editor and the native program behind it."""
import json
import os
import time

from trial import live, runs
from trial.check import check

CHAIN = runs.read(f"{runs.TOP}/examples/chain.tiles").decode()
# a program that tells its words, then what it read, and ends with a refusal
ECHO = 'echo "$@"\ncat\necho refused >&2\nexit 3'
# one that tells its number, and does not end where it is asked to last
LASTING = '[ "$1" = lasts ] || exit 0\necho $$ >"$0.pid"\nexec sleep 100'


def is_running(pid):
    """Whether a process is there and has not ended."""
    try:
        with open(f"/proc/{pid}/stat", encoding="utf-8") as it:
            return it.read().rpartition(")")[2].split()[0] != "Z"
    except OSError:
        return False


def begun(path):
    """The number that a script writes to a file as it begins."""
    until = time.monotonic() + 10
    while time.monotonic() < until:
        if os.path.exists(path):
            told = runs.read(path).strip()
            if told:
                return int(told)
        time.sleep(0.02)
    raise AssertionError("it did not begin")


def has_ended(pid):
    until = time.monotonic() + 5
    while is_running(pid) and time.monotonic() < until:
        time.sleep(0.02)
    return not is_running(pid)


@check("behind tools/live, words and bytes go to the native program, and its status and outputs come back")
def native_answers(page):
    with live.script(ECHO) as program, live.served(CHAIN, program) as served:
        page.visit(served.address)
        answer = page.value("tilebench.run(['grow', '--choice', '', '&x=1'], 'a text\\n')")
        assert answer == {"status": 3, "out": "grow --choice  &x=1\na text\n", "err": "refused\n"}, answer
        assert page.value("document.documentElement.dataset.file") == "edited.tiles"


@check("behind tools/live, a run that is given up ends the native program")
def native_slow(page):
    with live.script(LASTING) as program, live.served(CHAIN, program) as served:
        page.visit(served.address)
        page.value("window.slowly = tilebench.run(['lasts'], '', { seconds: 1 }).catch((why) => why.kind), 0")
        pid = begun(f"{program}.pid")
        assert page.value("slowly") == "slow"
        assert has_ended(pid)


@check("the end of tools/live ends what it runs, and the page says so")
def native_end(page):
    with live.script(LASTING) as program, live.served(CHAIN, program) as served:
        page.visit(served.address)
        page.value("window.gone = tilebench.run(['lasts'], '').catch((why) => why.kind), 0")
        pid = begun(f"{program}.pid")
        assert served.end() == 0
        assert has_ended(pid)
        assert page.value("gone") == "gone"
        assert page.value("tilebench.run(['lasts'], '').catch((why) => why.kind)") == "gone"
    page.errors.clear()


@check("tools/live answers under its own address and to its own host alone")
def own_address(page):
    with live.served(CHAIN, "/bin/true") as served:
        assert served.ask("GET", "")[0] == 200
        assert served.ask("GET", "/")[0] == served.ask("GET", "/other/file")[0] == 403
        assert served.ask("GET", "file", Host="example.invalid")[0] == 403
        other = {"Host": f"127.0.0.1:{served.parts.port}", "Origin": "https://example.invalid"}
        assert served.ask("POST", "run?word=grow", b"", **other)[0] == 403
        assert served.ask("GET", "elsewhere")[0] == served.ask("POST", "elsewhere", b"")[0] == 404


@check("tools/live reads no more than the program does, and no body without a length")
def longest(page):
    with live.served(CHAIN, "/bin/true") as served:
        assert served.ask("POST", "run?word=grow", None, Content_Length="67108865")[0] == 413
        assert served.ask("POST", "run?word=grow", None, Transfer_Encoding="chunked")[0] == 413


@check("tools/live reads its file where it changed, and puts a text in place of it whole")
def the_file(page):
    with live.served(CHAIN, "/bin/true") as served:
        first = json.loads(served.ask("GET", "file?stamp=")[2])
        assert first["text"] == CHAIN
        assert json.loads(served.ask("GET", f"file?stamp={first['stamp']}")[2]) == {"stamp": first["stamp"]}
        os.chmod(served.path, 0o640)
        put = json.loads(served.ask("PUT", "file", b"tiles 1\n")[2])
        assert runs.read(served.path) == b"tiles 1\n" and os.stat(served.path).st_mode & 0o777 == 0o640
        assert put["stamp"] != first["stamp"]
        os.rename(served.path, f"{served.path}.away")
        assert served.ask("GET", "file?stamp=")[0] == 500
        os.rename(f"{served.path}.away", served.path)


@check("no page may frame the one of tools/live")
def no_frame(page):
    with live.served(CHAIN, "/bin/true") as served:
        assert served.ask("GET", "")[1]["Content-Security-Policy"] == "frame-ancestors 'none'"
        assert "default-src 'none'" in served.ask("GET", "file?stamp=")[1]["Content-Security-Policy"]


@check("at most eight runs go on at once behind tools/live")
def most_runs(page):
    with live.script(LASTING) as program, live.served(CHAIN, program) as served:
        ways = [served.connect() for _ in range(8)]
        for way in ways:
            way.request("POST", f"{served.parts.path}run?word=lasts", b"")
        time.sleep(0.5)
        assert served.ask("POST", "run?word=lasts", b"")[0] == 503
        for way in ways:
            way.close()
        until = time.monotonic() + 5
        while served.server.poll() is None and time.monotonic() < until:
            with open(f"/proc/{served.server.pid}/task/{served.server.pid}/children", encoding="utf-8") as it:
                if not it.read().split():
                    return
            time.sleep(0.05)
        raise AssertionError("runs go on though their pages have hung up")
