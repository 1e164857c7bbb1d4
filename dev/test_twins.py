#!/usr/bin/env python3
"""Tries dev/twins.py on a repository of its own, with definitions that are alike and definitions that are not.

    dev/test_twins.py        answers with status 0 where each pair is told, and no other
"""
import os
import sys
import tempfile
import unittest

HERE = os.path.dirname(os.path.realpath(__file__))
sys.path.insert(0, HERE)
sys.dont_write_bytecode = True
import twins  # noqa: E402  (it stands beside this file)

FILES = {
    "crates/low/specs/Texts.antt": """\
-- Of a text.
-- a text of an outcome
abbrev pub growth_text : TileSystem → Outcome → List ℕ
growth_text sys outcome = place_lines sys outcome.order ++ verdict_line sys outcome.verdict

-- whether it is a yes
abbrev pub is_unique : Verdict → Bool
is_unique Yes = true
is_unique _ = false

pub record IsShort (text : List ℕ) : Type 0 where
  -- it is short
  pub short : length text ≤ MOST
  pub plain : All (λ b. b < 128) text

-- too little to be compared
abbrev pub all : List ℕ → Bool
all text = true
""",
    "crates/high/specs/Answers.antt": """\
-- Of an answer.
-- the same, by names of its own
abbrev pub outcome_text : TileSystem → Outcome → List ℕ
outcome_text system it = place_lines system it.order
    ++ verdict_line system it.verdict

abbrev pub is_yes : Verdict → Bool
is_yes Yes = true
is_yes other = false

pub record IsPlain (bytes : List ℕ) : Type 0 where
  pub few : length bytes ≤ MOST
  pub each : All (λ c. c < 128) bytes

-- another order is another text
abbrev pub other_text : TileSystem → Outcome → List ℕ
other_text sys outcome = verdict_line sys outcome.verdict ++ place_lines sys outcome.order

abbrev pub every : List ℕ → Bool
every text = true
""",
}

# What is told: definitions whose names, bound names, remarks and lines differ, and nothing else.
ALIKE = [("high:IsPlain", "low:IsShort"), ("high:is_yes", "low:is_unique"), ("high:outcome_text", "low:growth_text")]


class Twins(unittest.TestCase):
    def test_alike_but_for_names(self):
        with tempfile.TemporaryDirectory() as folder:
            for path, text in FILES.items():
                os.makedirs(os.path.dirname(f"{folder}/{path}"), exist_ok=True)
                with open(f"{folder}/{path}", "w", encoding="utf-8") as it:
                    it.write(text)
            twins.reaching.TOP = folder
            self.assertEqual(twins.groups(twins.all_definitions()), ALIKE)


if __name__ == "__main__":
    unittest.main()
