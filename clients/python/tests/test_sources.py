"""The sources themselves."""

from __future__ import annotations

import ast
import unittest

from tests.places import CLIENT, TOP


class Sources(unittest.TestCase):
    def test_they_are_python_3_8(self) -> None:
        files = [CLIENT / "notes", CLIENT / "hostile", TOP / "docs" / "vectors.py", *CLIENT.glob("*/*.py")]
        self.assertGreater(len(files), 10)
        for file in files:
            with self.subTest(file.name):
                ast.parse(file.read_text(encoding="utf-8"), file.name, feature_version=(3, 8))
