#!/usr/bin/env python3
"""Tries dev/headline on a repository of its own, with a case of each shape that a definition can have.

    dev/test_headline.py        answers with status 0 where each is listed with its lines
"""
import importlib.machinery
import importlib.util
import os
import sys
import tempfile
import unittest

sys.dont_write_bytecode = True
HERE = os.path.dirname(os.path.realpath(__file__))

FILES = {
    "crates.txt": "low:\ntilebench: low clap\n",
    "crates/low/specs/Checks.antt": """\
-- Checks, one after another.
use Rattle.std.specs.Prelude.{Result, Ok, Err, ◌+◌}
use Rattle.low.specs.declared.cause.Cause.{Cause}

infixl 10 ◌>>=◌
-- a check, and then the next one
abbrev pub ◌>>=◌ : {A B : Type 0} → Result A Cause → (A → Result B Cause) → Result B Cause
(Ok x) >>= next = next x
-- or the cause
(Err cause) >>= next = Err cause

abbrev pub ◌<>◌ : Cause → Cause → Cause
a <> b = a

abbrev pub unused : Cause → Cause
unused a = a
""",
    "crates/low/specs/Parted.antt": """\
-- A definition whose equations a comment parts, and what they reach.
use Rattle.low.specs.declared.cause.Cause.TheVariants.{Early, Late as LateCause}
use Rattle.low.specs.declared.limits.TheConstants.{MOST}

abbrev pub first_part : ℕ
first_part = MOST

pub record IsSecond (n : ℕ) : Type 0 where
  -- the fields of a record, too
  pub one : n ≡ 1

  pub two : n ≡ 1

abbrev pub IsPart : Cause → ℕ → Type 0
IsPart Early n = n ≡ first_part
-- parted

IsPart LateCause n = IsSecond n
""",
    "crates/low/src/cause.rt": """\
pub(crate) struct Place {
    at: Step,
}

struct Step(u32);

pub enum Cause {
    Early,
    Late(Place),
}
""",
    "crates/low/src/limits.rt": "pub const MOST: u32 = 7;\n",
    "crates/tilebench/specs/Headline.antt": """\
-- What is said.
use Rattle.clap.specs.Words.{fault_of, takes}
use Rattle.low.specs.Checks.{◌>>=◌, ◌<>◌}
use Rattle.low.specs.declared.cause.Cause.{Cause}
use Rattle.low.specs.Parted as parts

module _ (word : Cause) where
  abbrev pub IsChecked : Cause → Type 0
  IsChecked a = do
    b ← takes word
    Ok b

  -- by its name in a module
  pub record IsHeadline (n : ℕ) : Type 0 where
    pub checked : IsChecked word
    pub part : parts.IsPart word n
""",
    "crates/tilebench/specs/Commands.antt": """\
use Rattle.tilebench.specs.Headline.{IsChecked}

-- what the other command says
abbrev pub other : ℕ
other = 1

abbrev pub room_of : Cause → Type 0
room_of (command.First n) = IsChecked n
room_of command.Second = other
""",
    "crates/tilebench/src/top.rt": """\
ghost use Rattle.tilebench.specs.Headline.{IsHeadline};
ghost use Rattle.tilebench.specs.Commands.{room_of};

use low::Cause;

/// The top call.
pub fn tilebench(cause: Cause) -> bool
    ensures { IsHeadline cause 1 × room_of cause }
{
    true
}
""",
}

# What is listed, with the lines of each, from the top down: operators, also by a block of `do`; equations that comments
# part; types of one crate; renamed variants; what a module's name stands before; and what a command's row adds.
LISTED = [
    ("crates/tilebench/specs/Headline.antt", "IsHeadline", "L14-L16", "by its name in a module"),
    ("crates/low/specs/Parted.antt", "IsPart", "L14-L18", ""),
    ("crates/low/specs/Parted.antt", "IsSecond", "L8-L12", ""),
    ("crates/low/specs/Parted.antt", "first_part", "L5-L6", ""),
    ("crates/low/src/limits.rt", "MOST", "L1", ""),
    ("crates/tilebench/specs/Headline.antt", "IsChecked", "L8-L11", ""),
    ("crates/low/specs/Checks.antt", "◌>>=◌", "L7-L10", "a check, and then the next one"),
    ("crates/low/src/cause.rt", "Cause", "L7-L10", ""),
    ("crates/low/src/cause.rt", "Place", "L1-L3", ""),
    ("crates/low/src/cause.rt", "Step", "L5", ""),
    ("crates/tilebench/specs/Commands.antt", "other", "L4-L5", "what the other command says"),
]


def tool(folder):
    """dev/headline, over another folder."""
    sys.path.insert(0, HERE)
    loader = importlib.machinery.SourceFileLoader("headline", f"{HERE}/headline")
    module = importlib.util.module_from_spec(importlib.util.spec_from_loader("headline", loader))
    loader.exec_module(module)
    module.reaching.TOP = folder
    return module


class ReadingList(unittest.TestCase):
    def test_each_shape_is_listed(self):
        with tempfile.TemporaryDirectory() as folder:
            for path, text in FILES.items():
                os.makedirs(os.path.dirname(f"{folder}/{path}") or folder, exist_ok=True)
                with open(f"{folder}/{path}", "w", encoding="utf-8") as it:
                    it.write(text)
            came = tool(folder).text()
        entries = [line.replace("](../../", "](../") for line in came.split("\n") if line.startswith("- [`")]
        for path, name, lines, words in LISTED:
            link = f"- [`{name}`](../{path}#{lines})"
            self.assertIn(f"{link}: {words}" if words else link, entries)
        names = [line.split("`")[1] for line in entries]
        self.assertLess(names.index("IsHeadline"), names.index("IsPart"))
        self.assertLess(names.index("IsPart"), names.index("first_part"))
        self.assertGreater(came.index("`other`"), came.index("## `second`"))
        for name in ("unused", "◌<>◌"):
            self.assertNotIn(f"`{name}`", came)
        self.assertIn("- `clap.specs.Words`: `takes`\n", came)
        self.assertIn("- `std.specs.Prelude`: ", came)


if __name__ == "__main__":
    unittest.main()
