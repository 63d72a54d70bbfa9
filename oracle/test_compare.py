#!/usr/bin/env python3
"""The command `compare`: its status, what it says at the end, and where it takes the Rust from."""

import os
import pathlib
import subprocess
import sys
import tempfile
import unittest
from unittest import mock

import cases
import comparison
import loading
import property_cases
import rust_judge

compare = loading.command("oracle/compare")
TEXT = "W;2;0,0 4,0"


def with_sources(folder):
    (folder / "src/text").mkdir(parents=True)
    (folder / "src/text/analyze.rs").touch()
    return folder


class Status(unittest.TestCase):
    """The Rust is played by a function, and one case is all that is compared."""

    def run_with(self, rust, *words):
        with (mock.patch.object(sys, "argv", ["compare", *words]),
              mock.patch("rust_judge.found", lambda _: ("folder", "in a folder")),
              mock.patch("rust_judge.built", lambda _: "rust"),
              mock.patch("programs.answers", lambda command, lines: rust(lines) if command == ["rust"] else ["0 0"]),
              mock.patch.object(compare, "parts", lambda _: [("W", [TEXT])]),
              mock.patch("comparison.compare_real", lambda _: 0)):
            return loading.printed(compare.main)

    def test_no_difference(self):
        status, output = self.run_with(cases.answers)
        self.assertEqual(status, 0)
        self.assertTrue(output.startswith("the Rust's sources: in a folder\n"), output)
        self.assertTrue(output.endswith("\n1 cases, 0 differences\n"), output)

    def test_a_difference(self):
        status, output = self.run_with(lambda _: ["1 1"])
        self.assertEqual(status, 1)
        self.assertIn("W: DIFFERS: ", output)
        self.assertTrue(output.endswith("\n0 cases, 1 differences\n"), output)

    def test_a_program_that_differs(self):
        self.assertEqual(self.run_with(cases.answers, "--with", "some program")[0], 1)


class Parts(unittest.TestCase):
    def sizes(self, *words):
        with mock.patch.object(sys, "argv", ["compare", *words]), mock.patch("generate.generate", lambda part, seed, count: [count] * 27):
            return {part: list(lines) for part, lines in compare.parts(compare.parse_options())}

    def test_short_and_long(self):
        self.assertEqual(self.sizes()["S"][0], 500_000)
        self.assertEqual(self.sizes("--short")["S"][0], 10_000)
        self.assertEqual(len(self.sizes()["steps"]), 27)
        self.assertEqual(len(self.sizes("--short")["steps"]), 3)

    def test_runs(self):
        sizes = self.sizes("--short", "--runs", "7")
        self.assertEqual((sizes["runs-s"][0], sizes["S"][0]), (7, 10_000))

    def test_line_breaks(self):
        sizes = self.sizes("--short", "--lines", "7")
        self.assertEqual([sizes[part][0] for part in ("l", "n", "L", "S")], [7, 7, 7, 10_000])
        self.assertEqual(len(sizes["exhaustive-l"]), 1)
        self.assertEqual(self.sizes()["n"][0], 200_000)

    def test_clusters_of_uax29(self):
        self.assertEqual([self.sizes("--graphemes", "7")[part][0] for part in "GgF"], [7, 7, 100_000])
        long, short = self.sizes(), self.sizes("--short")
        self.assertEqual((long["G"][0], short["g"][0]), (200_000, 2_000))
        self.assertEqual([len(sizes["exhaustive-g"]) for sizes in (long, short)], [27, 1])
        self.assertEqual(len(short["refusals-G"]), 27)

    def test_property_files(self):
        self.assertEqual(self.sizes("--files", "7")["F"][0], 7)
        self.assertEqual((self.sizes()["F"][0], self.sizes("--short")["F"][0]), (100_000, 2_000))
        long, short = self.sizes(), self.sizes("--short")
        for part in ("exhaustive-F", "bytes-F", "names-F", "faults-F", "sizes-F"):
            self.assertEqual((len(long[part]), len(short[part])), (27, 1), part)
        self.assertEqual(len(short["corners-F"]), 27)

    def compared(self, *words):
        """The names of the parts that are made, and whether the published property files are."""
        with (mock.patch.object(sys, "argv", ["compare", "--unicode", "folder", *words]),
              mock.patch("comparison.compare_real", lambda _: 0), mock.patch("comparison.compare_unicode", lambda *_: 0),
              mock.patch("comparison.compare_properties", return_value=0) as files):
            options = compare.parse_options()
            judges = comparison.Comparison(None, None, options.kinds)
            made = []
            with mock.patch.object(judges, "part", lambda name, _: made.append(name) or 0):
                compare.compared(judges, options)
            return made, files.called

    def test_the_kind_of_property_files(self):
        for words in ((), ("--kinds", "F")):
            made, are_files_made = self.compared(*words)
            self.assertTrue(are_files_made and {*property_cases.RANDOM, *property_cases.FIXED} <= set(made), made)
        made, are_files_made = self.compared("--kinds", "SlW")
        self.assertFalse(are_files_made or any(name.endswith("F") for name in made), made)


class Sources(unittest.TestCase):
    def setUp(self):
        folder = tempfile.TemporaryDirectory()
        self.addCleanup(folder.cleanup)
        self.folder = pathlib.Path(folder.name)
        self.empty = self.folder / "empty"
        self.one, self.other = (with_sources(self.folder / name) for name in ("one", "other"))

    def found(self, own, neighbour, named=None):
        """Where the variable and the neighbour are these."""
        with mock.patch.dict(os.environ, {rust_judge.VARIABLE: str(own or "")}), mock.patch("rust_judge.NEIGHBOUR", str(neighbour)):
            return rust_judge.found(named)

    def test_the_variable_comes_first(self):
        self.assertEqual(self.found(self.one, self.other), (str(self.one), f"in $EZHERBUT_RUST ({self.one})"))

    def test_then_the_neighbour(self):
        self.assertEqual(self.found(None, self.other), (self.other, f"not in $EZHERBUT_RUST (not set), in {self.other}"))
        self.assertEqual(self.found(self.empty, self.other), (self.other, f"not in $EZHERBUT_RUST ({self.empty}), in {self.other}"))

    def test_nowhere(self):
        with self.assertRaisesRegex(rust_judge.NotFound, r"^not in \$EZHERBUT_RUST \(not set\), not in .*/empty$"):
            self.found(None, self.empty)

    def test_a_named_folder_alone(self):
        self.assertEqual(self.found(self.other, self.other, self.one)[0], self.one)
        with self.assertRaises(rust_judge.NotFound):
            self.found(self.one, self.one, self.empty)

    def test_the_command_says_that_nothing_was_compared(self):
        run = subprocess.run([sys.executable, loading.TOP / "oracle/compare", self.empty], capture_output=True, text=True, check=True)
        self.assertEqual(run.stdout, f"NOT COMPARED WITH THE RUST: its sources are not in {self.empty}\n")


if __name__ == "__main__":
    unittest.main()
