"""Tests of the reading of tasks and of verdicts: `python3 -m unittest discover tools`."""
import pathlib
import sys
import types
import unittest

sys.path.insert(0, str(pathlib.Path(__file__).resolve().parent))
from lazic import Tool, verdict
from svcomp import read_task

# As a task of SV-COMP's repository has it.
TASK = """format_version: '2.0'

# old file name: for_bounded_loop1_false-unreach-call_true-termination.i
input_files: 'for_bounded_loop1.c'

properties:
  - property_file: ../properties/termination.prp
    expected_verdict: true
  - property_file: ../properties/unreach-call.prp
    expected_verdict: false
  - property_file: ../properties/coverage-branches.prp

options:
  language: C
  data_model: ILP32
"""


class Reading(unittest.TestCase):
    def test_a_task(self):
        self.assertEqual(read_task(TASK), (["for_bounded_loop1.c"], "ILP32", {"termination": True, "unreach-call": False}))

    def test_a_list_of_files(self):
        self.assertEqual(read_task("input_files:\n  - 'a.c'\n  - \"b.c\"\n")[0], ["a.c", "b.c"])


class Verdicts(unittest.TestCase):
    def test_lines(self):
        for line, status, name, wanted in [
            ("SAFE", 0, "unreach-call", "true"),
            ("UNSAFE reach at 6:15", 1, "unreach-call", "false(unreach-call)"),
            ("UNSAFE reach at 6:15", 1, "no-error", "false(no-error)"),
            ("UNSAFE overflow at 6:15", 1, "unreach-call", "unknown"),
            ("UNSAFE overflow at 6:15", 1, "no-overflow", "false(no-overflow)"),
            ("UNKNOWN units 100000", 2, "unreach-call", "unknown"),
            ("LIMIT 5", 12, "unreach-call", "unknown"),
            ("SOURCE FAULT 1 BadByte at 1:1", 11, "unreach-call", "ERROR (SOURCE FAULT 1 BadByte at 1:1)"),
            ("NO MEMORY", 15, "unreach-call", "OUT OF MEMORY"),
            ("SAFE", 9, "unreach-call", "ERROR (SAFE)"),
        ]:
            self.assertEqual(verdict(line, status, name), wanted)


class Module(unittest.TestCase):
    def test_a_run(self):
        task = types.SimpleNamespace(options={"data_model": "LP64"}, property_file="/p/no-overflow.prp", single_input_file="a.c")
        words = Tool().cmdline("/bin/lazic", ["--units", "5"], task, None)
        self.assertEqual(words, ["env", "PROPERTY=no-overflow", "/bin/lazic", "verify", "a.c", "--units", "5", "--model", "lp64"])
        ended = types.SimpleNamespace(value=1, signal=None)
        run = types.SimpleNamespace(was_timeout=False, exit_code=ended, output=["UNSAFE overflow at 2:3\n"], cmdline=words)
        self.assertEqual(Tool().determine_result(run), "false(no-overflow)")


if __name__ == "__main__":
    unittest.main()
