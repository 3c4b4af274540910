"""The tour as it is written: over a pipe, and with one word changed over a socket."""

from __future__ import annotations

import tempfile
import unittest
from typing import List

from tests.serving import serving
from tests.tour import read_steps, run_steps

_FOLDER = "CORKTARN=$(mktemp -d)"


class Tour(unittest.TestCase):
    def test_over_a_pipe(self) -> None:
        with tempfile.TemporaryDirectory() as folder:
            self._check([step.command for step in read_steps()], folder)

    def test_over_a_socket(self) -> None:
        commands = [step.command for step in read_steps()]
        self.assertEqual(sum(command.count(_FOLDER) for command in commands), 1)
        with tempfile.TemporaryDirectory() as folder, serving(folder) as address:
            changed = [command.replace(_FOLDER, f"CORKTARN={address}") for command in commands]
            self._check(changed, folder)

    def _check(self, commands: List[str], folder: str) -> None:
        told = run_steps(commands, {"TMPDIR": folder})
        self.assertEqual(len(told), len(commands))
        for step, output in zip(read_steps(), told):
            with self.subTest(step.command):
                self.assertEqual(output, step.output)
