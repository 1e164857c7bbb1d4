"""The commands of the program, with their arguments. Made by dev/commands: not to be written by hand."""
from typing import NamedTuple, Optional


class Argument(NamedTuple):
    """A number among the words: its name, its range, and what is meant where it is left out. An option can be left out,
    as --NAME; an argument without a default is a word of its own."""

    name: str
    least: int
    most: int
    default: Optional[int]

    @property
    def option(self) -> str:
        """The word in front of the number."""
        return f"--{self.name}"


WORKERS_OPTION = Argument("workers", 1, 16, 1)
CHOICE_OPTION = Argument("choice", 0, 18446744073709551615, 0)
FRAMES_OPTION = Argument("frames", 1, 1000, 1)
BITS_ARGUMENT = Argument("bits", 0, 4294967295, None)
START_ARGUMENT = Argument("start", 0, 18446744073709551615, None)
LOAD_ARGUMENT = Argument("number", 0, 18446744073709551615, None)

# in the order of the program's table
COMMANDS: dict[str, tuple[Argument, ...]] = {
    "grow": (WORKERS_OPTION, CHOICE_OPTION),
    "race": (WORKERS_OPTION, CHOICE_OPTION),
    "report": (WORKERS_OPTION, CHOICE_OPTION),
    "watch": (WORKERS_OPTION, CHOICE_OPTION, FRAMES_OPTION),
    "batch": (WORKERS_OPTION,),
    "check": (),
    "replay": (),
    "schedule": (),
    "format": (),
    "upgrade": (),
    "turing": (),
    "quadrant": (),
    "picture": (),
    "certify": (),
    "verify": (WORKERS_OPTION,),
    "counter": (BITS_ARGUMENT, START_ARGUMENT),
    "load": (LOAD_ARGUMENT,),
}

# those that read an input, and those of them that grow a system by workers and a choice
READERS = tuple(name for name, arguments in COMMANDS.items() if all(it.default is not None for it in arguments))
GROWERS = tuple(name for name in READERS if any(it.name == "choice" for it in COMMANDS[name]))
# those that have options
OPTIONS = {name: COMMANDS[name] for name in READERS if COMMANDS[name]}
