"""The list of checks: each is a function of an opened page, with words that say what is so where it ends
well."""
import traceback

CHECKS = []


def check(words):
    """Puts a function on the list. What it asserts must hold in each browser."""

    def listed(function):
        CHECKS.append((function.__module__.rpartition(".")[2], words, function))
        return function

    return listed


def why(error):
    """The line of a check that did not hold, with what was seen."""
    frames = [it for it in traceback.extract_tb(error.__traceback__) if "/trial/" in it.filename]
    at = f"{frames[-1].filename.rpartition('/')[2]}:{frames[-1].lineno}: {frames[-1].line}" if frames else ""
    return f"{at}  [{type(error).__name__}: {error}]"[:900]


def run_checks(page, only, tell):
    """Runs the checks whose subject or words have a word; answers how many there were and how many did not
    hold."""
    many = failed = 0
    subject = None
    for its_subject, words, function in CHECKS:
        if only and only not in its_subject and only not in words:
            continue
        if its_subject != subject:
            subject = its_subject
            page.fresh()
        many += 1
        try:
            function(page)
        except Exception as error:  # (whatever a check meets is a failure of that check alone)
            failed += 1
            tell(f"  NOT SO: {words}\n      {why(error)}")
            page.is_away = True
        if page.is_away:
            page.fresh()
    return many, failed
