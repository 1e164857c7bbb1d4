"""A call of ./tilebench where the program is missing or older than its sources.

    python3 dev/first_call TOP [WORDS ..]      as ./tilebench runs it: the checkout, and the words of the call

The call is answered at once by a trial, where that can be, and goes on to prove and build the program; it ends with the
status of the answer. Without an answer of a trial the built program answers. Where another call is building, this one
proves nothing: it ends with the trial's answer, or waits for the program. The word --build alone asks for no answer, and
TILEBENCH_TRIAL=0 for no trial. What ends a call leaves what was proved, and the next call goes on there.
"""
import os
import signal
import sys

import trial
from building import Building
from talk import say

SIGNALS = (signal.SIGHUP, signal.SIGINT, signal.SIGTERM)


class Ended(Exception):
    """A signal asks this call to end."""


def end(number, _frame):
    """Lets the call end once, in good order, whatever signals come behind."""
    for each in SIGNALS:
        signal.signal(each, signal.SIG_IGN)
    raise Ended(number)


def turn_into(program, words, given):
    """Becomes the program, which gets the whole input."""
    given.rewind()
    for each in (signal.SIGPIPE, signal.SIGXFSZ):
        signal.signal(each, signal.SIG_DFL)
    os.execv(program, [program, *words])


def call(top, words):
    """The status of the call, where the program doesn't give it."""
    building, answer = Building(top), None
    is_build = words == ["--build"]
    given = trial.Input(top, words)
    if not is_build and os.environ.get("TILEBENCH_TRIAL") != "0":
        answer = trial.answer(top, words, given)
    if not building.begin():
        if answer is not None:
            say(f"another call (process {building.owner().process}) is proving and building the program meanwhile")
            return answer
        building.wait()
    is_built = building.is_built() or building.build()
    if answer is not None:
        return answer
    if is_built and not is_build:
        turn_into(building.program, words, given)
    return 0 if is_built else 1


def main(top, *words):
    for each in SIGNALS:
        # (behind nohup, or in the background of a script, some are ignored)
        if signal.getsignal(each) is not signal.SIG_IGN:
            signal.signal(each, end)
    try:
        return call(top, [*words])
    except Ended as why:
        say("ended. What was proved stays, and the next call goes on there")
        return 128 + why.args[0]
    except OSError as why:
        say(f"{why.filename or 'the call'}: {why.strerror}")
        return 1


if __name__ == "__main__":
    sys.exit(main(*sys.argv[1:]))
