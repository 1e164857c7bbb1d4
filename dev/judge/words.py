"""What words call for: a command and its numbers, by the one list of commands, or a refusal."""
import re

from tilebench.commands import COMMANDS, OPTIONS


def value_of(word, least, most):
    """The number of a word, or None."""
    is_number = re.fullmatch("[+]?[0-9]+", word) and least <= int(word) <= most
    return int(word) if is_number else None


def options_of(words, options):
    """The numbers that words state for options, or None where they are no such words."""
    given, words = {}, list(words)
    ranges = {it.option: (it.least, it.most) for it in options}
    if words and words[-1] == "--":
        words.pop()
    while words:
        name, is_joined, value = words.pop(0).partition("=")
        if name not in ranges or name in given or not (is_joined or words):
            return None
        given[name] = value_of(value if is_joined else words.pop(0), *ranges[name])
        if given[name] is None:
            return None
    return [given.get(it.option, it.default) for it in options]


def numbers_of(words, arguments):
    """The numbers that words state, one for each argument, or None where they are no such words."""
    words = list(words)
    if "--" in words:
        words.remove("--")
    found = [value_of(word, it.least, it.most) for word, it in zip(words, arguments)]
    return None if len(words) != len(arguments) or None in found else found


def reading_of(words):
    """What the words call for: a command and its numbers, or a refusal."""
    if not words or words[0] not in COMMANDS:
        return "NoCommand", []
    if words[0] in OPTIONS:
        found = options_of(words[1:], OPTIONS[words[0]])
    else:
        found = numbers_of(words[1:], COMMANDS[words[0]])
    return ("Usage", []) if found is None else (words[0], found)
