"""A few hostile front ends, against the server where there is one."""

from __future__ import annotations

import subprocess
import sys
import unittest

from tests.places import CLIENT
from tests.program import HAS_SERVER, server

_CASES = ("silent", "half", "reset", "garbage", "unread", "hidden", "pieces", "rush")


class Hostile(unittest.TestCase):
    @unittest.skipUnless(HAS_SERVER, "there is no server")
    def test_others_are_served(self) -> None:
        words = [sys.executable, str(CLIENT / "hostile"), "--quick", server(), *_CASES]
        tried = subprocess.run(words, stdout=subprocess.PIPE, stderr=subprocess.STDOUT, check=False)
        self.assertEqual(tried.returncode, 0, tried.stdout.decode("utf-8", "replace"))
