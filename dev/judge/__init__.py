"""A plain judge of tilebench: what each command must answer to words and an input, worked out from docs/FORMATS.md and
docs/MODEL.md alone, and runs of the program beside it.

It is slow and simple, and shares nothing with the program but the list of commands. Names and texts are bytes here. A
site is (x, y), a glue or a type is its index, and -1 stands for no glue. Where an answer is free, as the assembly is
that `grow` prints where another one can grow, it is judged by what must hold of it.
"""
import os
import sys

sys.path.append(f"{os.path.dirname(os.path.dirname(os.path.dirname(os.path.realpath(__file__))))}/python")

from tilebench.commands import GROWERS, OPTIONS, READERS
from tilebench.commands import COMMANDS as ARGUMENTS
from judge.judging import Judge
from judge.machines import counter_text, read_machine
from judge.model import canonical, full_growth, places_text
from judge.rules import read_quadrant
from judge.run import Came, Hang, Program, built
from judge.systems import read_system
from judge.texts import FARTHEST, LONGEST_INPUT, LONGEST_LINE, NUMBER, STEPS, TooLarge, U32, U64, Lines
from judge.wanted import Wanted
from judge.words import value_of

# the words that name commands
COMMANDS = tuple(ARGUMENTS)
